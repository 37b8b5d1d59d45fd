//! Frame header: the twelve octets that every message begins with.

use crate::hexline::LONGEST_MESSAGE;
use crate::joining::request_id;
use crate::primitive::ulong;
use crate::refusal::{
    demand, FLAGS_UNKNOWN, FRAGMENT_UNALIGNED, FRAGMENT_UNFIT, HEADER_CUT, LINE_TOO_LONG,
    MAGIC_WRONG, SIZE_ABOVE, SIZE_BELOW, SIZE_UNFIT, TYPE_UNKNOWN, VERSION_UNKNOWN,
};

/// Type of a Request.
pub const REQUEST: u8 = 0;
/// Type of a Reply.
pub const REPLY: u8 = 1;
/// Type of a CancelRequest.
pub const CANCEL_REQUEST: u8 = 2;
/// Type of a LocateRequest.
pub const LOCATE_REQUEST: u8 = 3;
/// Type of a LocateReply.
pub const LOCATE_REPLY: u8 = 4;
/// Type of a CloseConnection.
pub const CLOSE_CONNECTION: u8 = 5;
/// Type of a MessageError.
pub const MESSAGE_ERROR: u8 = 6;
/// Type of a Fragment, not in 1.0.
pub const FRAGMENT: u8 = 7;

/// The octets of a header.
pub const HEADER_LENGTH: usize = 12;
/// The major version that is read.
pub const MAJOR: u8 = 1;
/// The highest minor version that is read.
pub const NEWEST_MINOR: u8 = 2;

/// Where a header has the minor version.
pub const MINOR_AT: usize = 5;
/// Where a header has the flags.
pub const FLAGS_AT: usize = 6;
/// Where a header has the size.
pub const SIZE_AT: usize = 8;
/// The flag of little-endian messages.
pub const LITTLE: u8 = 0b01;
/// The flag that says more fragments follow.
pub const MORE: u8 = 0b10;

/// The first four octets of every message.
const MAGIC: [u8; 4] = *b"GIOP";

/// An accepted frame header, and the request id after it.
#[derive(Clone, Copy, Debug, PartialEq, Eq)]
pub struct Header {
    /// Minor version, 0 to 2.
    pub minor: u8,
    /// Whether the message is little-endian.
    pub little: bool,
    /// Whether more fragments follow.
    pub more: bool,
    /// Message type, 0 to 7.
    pub kind: u8,
    /// Octets after the header.
    pub size: u32,
    /// Request id, where the message has one that is read.
    pub id: Option<u32>,
}

/// Reads the header of a message; refusal 10, then 12 to 21 in their order.
pub fn frame(octets: &[u8]) -> Result<Header, u32> {
    demand(octets.len() <= LONGEST_MESSAGE, LINE_TOO_LONG)?;
    of_any_length(octets)
}

/// Reads the header of a message that may be joined, and so longer than a line's;
/// refusals 12 to 21 in their order.
pub fn of_any_length(octets: &[u8]) -> Result<Header, u32> {
    let (header, body) = octets
        .split_first_chunk::<HEADER_LENGTH>()
        .ok_or(HEADER_CUT)?;
    let [m0, m1, m2, m3, major, minor, flags, kind, size @ ..] = *header;
    let little = flags & LITTLE != 0;
    let more = flags & MORE != 0;
    let size = ulong(size, little);

    demand([m0, m1, m2, m3] == MAGIC, MAGIC_WRONG)?;
    demand(major == MAJOR && minor <= NEWEST_MINOR, VERSION_UNKNOWN)?;
    demand(flags <= highest_flags(minor), FLAGS_UNKNOWN)?;
    demand(kind <= highest_kind(minor), TYPE_UNKNOWN)?;
    demand(u64::from(size) <= body.len() as u64, SIZE_ABOVE)?;
    demand(u64::from(size) >= body.len() as u64, SIZE_BELOW)?;
    demand(size_fits(minor, kind, size), SIZE_UNFIT)?;
    demand(fragmentation_fits(minor, kind, more), FRAGMENT_UNFIT)?;
    demand(!more || octets.len().is_multiple_of(8), FRAGMENT_UNALIGNED)?;

    Ok(Header {
        minor,
        little,
        more,
        kind,
        size,
        id: request_id(minor, kind, little, body),
    })
}

/// The flags octet with all the version's flags set; they are its lowest bits.
fn highest_flags(minor: u8) -> u8 {
    match minor {
        0 => LITTLE,
        _ => LITTLE | MORE,
    }
}

/// The version's highest type.
fn highest_kind(minor: u8) -> u8 {
    match minor {
        0 => MESSAGE_ERROR,
        _ => FRAGMENT,
    }
}

/// Whether a message of this type can have this size.
fn size_fits(minor: u8, kind: u8, size: u32) -> bool {
    match kind {
        REQUEST | REPLY | LOCATE_REQUEST | LOCATE_REPLY => match minor {
            NEWEST_MINOR => size >= 4,
            _ => size > 0,
        },
        FRAGMENT => size >= 4,
        CANCEL_REQUEST => size == 4,
        _ => size == 0,
    }
}

/// Whether a message of this type can be or have fragments as it says.
fn fragmentation_fits(minor: u8, kind: u8, more: bool) -> bool {
    match kind {
        CANCEL_REQUEST | CLOSE_CONNECTION | MESSAGE_ERROR => !more,
        FRAGMENT => minor != 1,
        _ => minor != 1 || !more,
    }
}

#[cfg(test)]
mod tests {
    use super::*;
    use crate::hexline::decode;

    /// The answer to a line of digits and spaces.
    fn answer(line: &str) -> Result<Header, u32> {
        frame(&decode(line.replace(' ', "").as_bytes()).expect("digits"))
    }

    /// A frame whose size is that of its body, in either order.
    fn built(minor: u8, flags: u8, kind: u8, body: &[u8]) -> Vec<u8> {
        let size = body.len() as u32;
        let size = match flags & LITTLE {
            0 => size.to_be_bytes(),
            _ => size.to_le_bytes(),
        };
        [&MAGIC, &[MAJOR, minor, flags, kind], &size, body].concat()
    }

    /// The refusal of a frame of zero body octets, 0 if there is none.
    fn number(minor: u8, flags: u8, kind: u8, size: usize) -> u32 {
        frame(&built(minor, flags, kind, &vec![0; size]))
            .err()
            .unwrap_or(0)
    }

    #[test]
    fn sample_close_connection() {
        let header = Header {
            minor: 0,
            little: false,
            more: false,
            kind: 5,
            size: 0,
            id: None,
        };
        assert_eq!(answer("47494F500100000500000000"), Ok(header));
    }

    #[test]
    fn whole_example() {
        let first = Header {
            minor: 2,
            little: false,
            more: true,
            kind: 0,
            size: 4,
            id: Some(9),
        };
        let second = Header {
            more: false,
            kind: 7,
            size: 6,
            ..first
        };
        assert_eq!(answer("47494F50010202000000000400000009"), Ok(first));
        assert_eq!(answer("47494F50010200070000000600000009ABCD"), Ok(second));
        assert_eq!(answer("47"), Err(12));
    }

    #[test]
    fn little_endian_size_and_id() {
        let header = Header {
            minor: 2,
            little: true,
            more: true,
            kind: 0,
            size: 4,
            id: Some(9),
        };
        assert_eq!(answer("47494F50 01020300 04000000 09000000"), Ok(header));
        assert_eq!(answer("47494F50 01020300 00000004 09000000"), Err(17));
        assert_eq!(answer("47494F50 01020200 04000000 09000000"), Err(17));
    }

    #[test]
    fn row_10_counts_octets() {
        let mut longest = built(2, 0, 0, &[0; 4_084]);
        assert!(frame(&longest).is_ok());
        longest.push(0);
        assert_eq!(frame(&longest), Err(10));
        assert_eq!(frame(&[0; 4_097]), Err(10));
        assert_eq!(frame(&[0; 4_096]), Err(13));
    }

    #[test]
    fn row_12_needs_a_header() {
        let whole = built(0, 0, 5, &[]);
        for length in 0..12 {
            assert_eq!(frame(&whole[..length]), Err(12));
            assert_eq!(frame(&vec![0; length]), Err(12));
        }
        assert!(frame(&whole).is_ok());
    }

    #[test]
    fn row_13_needs_each_octet_of_the_magic() {
        for index in 0..4 {
            let mut octets = built(0, 0, 5, &[]);
            octets[index] ^= 0x20;
            assert_eq!(frame(&octets), Err(13));
        }
    }

    #[test]
    fn row_14_knows_three_versions() {
        for major in 0..=u8::MAX {
            for minor in 0..=u8::MAX {
                let mut octets = built(minor, 0, 5, &[]);
                octets[4] = major;
                let known = major == 1 && minor <= 2;
                assert_eq!(frame(&octets).err(), (!known).then_some(14));
            }
        }
    }

    #[test]
    fn row_15_knows_the_flags_of_each_version() {
        for flags in 0..=u8::MAX {
            assert_eq!(number(0, flags, 5, 0) == 15, flags > 1);
            assert_eq!(number(1, flags, 5, 0) == 15, flags > 3);
            assert_eq!(number(2, flags, 5, 0) == 15, flags > 3);
        }
    }

    #[test]
    fn row_16_knows_the_types_of_each_version() {
        for kind in 0..=u8::MAX {
            assert_eq!(number(0, 0, kind, 4) == 16, kind > 6);
            assert_eq!(number(1, 0, kind, 4) == 16, kind > 7);
            assert_eq!(number(2, 0, kind, 4) == 16, kind > 7);
        }
    }

    #[test]
    fn rows_17_and_18_hold_the_size_to_the_octets() {
        assert_eq!(answer("47494F50 01000000 00000002 AB"), Err(17));
        assert_eq!(answer("47494F50 01000000 FFFFFFFF AB"), Err(17));
        assert_eq!(answer("47494F50 01000000 00000101 AB"), Err(17));
        assert_eq!(answer("47494F50 01000000 00000000 AB"), Err(18));
        assert_eq!(answer("47494F50 01000000 00000001 ABCD"), Err(18));
        // The wrong byte order reads 1 as 16,777,216 and the other way round.
        assert_eq!(answer("47494F50 01000100 00000001 AB"), Err(17));
        assert_eq!(answer("47494F50 01000000 01000000 AB"), Err(17));
    }

    #[test]
    fn row_19_by_version_type_and_size() {
        for flags in [0, 1] {
            for size in 0..=9 {
                for minor in 0..=2 {
                    let least = if minor == 2 { 4 } else { 1 };
                    for kind in [0, 1, 3, 4] {
                        assert_eq!(number(minor, flags, kind, size) == 19, size < least);
                    }
                    assert_eq!(number(minor, flags, 2, size) == 19, size != 4);
                    assert_eq!(number(minor, flags, 5, size) == 19, size != 0);
                    assert_eq!(number(minor, flags, 6, size) == 19, size != 0);
                }
            }
        }
    }

    #[test]
    fn row_19_before_20_for_fragments_of_1_1() {
        for size in 0..=9 {
            let number_1_1 = if size < 4 { 19 } else { 20 };
            let number_1_2 = if size < 4 { 19 } else { 0 };
            assert_eq!(number(1, 0, 7, size), number_1_1);
            assert_eq!(number(2, 0, 7, size), number_1_2);
        }
    }

    #[test]
    fn row_20_by_version_and_type() {
        for flags in [2, 3] {
            for kind in [0, 1, 3, 4, 7] {
                assert_eq!(number(1, flags, kind, 4), 20);
                assert_eq!(number(2, flags, kind, 4), 0);
            }
            for minor in [1, 2] {
                assert_eq!(number(minor, flags, 2, 4), 20);
                assert_eq!(number(minor, flags, 5, 0), 20);
                assert_eq!(number(minor, flags, 6, 0), 20);
            }
        }
    }

    #[test]
    fn row_21_needs_multiples_of_8_before_more() {
        for flags in [2, 3] {
            for kind in [0, 1, 3, 4, 7] {
                for size in 4..=64 {
                    let refusal = if (size + 12) % 8 == 0 { 0 } else { 21 };
                    assert_eq!(number(2, flags, kind, size), refusal);
                    assert_eq!(number(2, flags & LITTLE, kind, size), 0);
                }
                assert_eq!(number(2, flags, kind, 4_084), 0);
                assert_eq!(number(2, flags, kind, 4_083), 21);
            }
        }
    }

    #[test]
    fn the_lower_number_is_given() {
        // Each line has the faults of its number and of some later ones.
        assert_eq!(answer("00000000 02"), Err(12));
        assert_eq!(answer("47494F51 0203FF08 00000000"), Err(13));
        assert_eq!(answer("47494F50 0203FF08 00000001"), Err(14));
        assert_eq!(answer("47494F50 0102FF08 00000001"), Err(15));
        assert_eq!(answer("47494F50 01020208 00000001"), Err(16));
        assert_eq!(answer("47494F50 01020205 00000001"), Err(17));
        assert_eq!(answer("47494F50 01020205 00000001 0000"), Err(18));
        assert_eq!(answer("47494F50 01020205 00000001 00"), Err(19));
        assert_eq!(answer("47494F50 01010200 00000001 00"), Err(20));
    }

    #[test]
    fn ids_of_accepted_messages() {
        let body = [0x01, 0x02, 0x03, 0x04];
        for (flags, id) in [(0, 0x0102_0304), (1, 0x0403_0201)] {
            for kind in [0, 1, 3, 4] {
                let without = frame(&built(1, flags, kind, &body)).map(|header| header.id);
                let with = frame(&built(2, flags, kind, &body)).map(|header| header.id);
                assert_eq!(without, Ok(None));
                assert_eq!(with, Ok(Some(id)));
            }
            for minor in 0..=2 {
                let cancel = frame(&built(minor, flags, 2, &body)).map(|header| header.id);
                assert_eq!(cancel, Ok(Some(id)));
            }
            let fragment = frame(&built(2, flags, 7, &body)).map(|header| header.id);
            assert_eq!(fragment, Ok(Some(id)));
        }
    }
}
