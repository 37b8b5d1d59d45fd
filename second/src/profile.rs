//! IIOP profile bodies.
//!
//! A body is an encapsulation, so that its order octet has index 0 and gaps are
//! counted from it: order octet, major, minor, host, port, key, and from minor 1
//! a list of components.

use crate::cursor::{Cursor, Run, Tagged};
use crate::refusal::{
    demand, HOST_UNFIT, NO_SUCH_PART, OCTETS_AFTER_KEY, OCTETS_TOO_MANY, ORDER_UNFIT, PROFILE_CUT,
    PROFILE_VERSION_UNKNOWN,
};

/// The most octets of a profile body.
pub const LONGEST_PROFILE: usize = 16_384;

/// The only major version.
const MAJOR: u8 = 1;

/// The highest minor version.
const LAST_MINOR: u8 = 2;

/// An accepted profile body.
#[derive(Clone, Copy, Debug, PartialEq, Eq)]
pub struct Profile<'a> {
    /// Whether it is little-endian.
    pub little: bool,
    /// The major version.
    pub major: u8,
    /// The minor version.
    pub minor: u8,
    /// The host without its zero.
    pub host: Run<'a>,
    /// The port.
    pub port: u16,
    /// The key.
    pub key: Run<'a>,
    /// The number of components.
    pub components: u32,
    /// The number of octets after the components.
    pub extra: usize,
}

/// Reads a profile body; refusal 42, then 60 to 64 in octet order.
pub fn read(octets: &[u8]) -> Result<Profile<'_>, u32> {
    read_all(octets, |_, _| ())
}

/// Reads a profile body for its component of this number, from 0; refusals as
/// the body's, then 69.
pub fn component(octets: &[u8], number: u64) -> Result<Tagged<'_>, u32> {
    let mut found = None;
    read_all(octets, |index, component| {
        if u64::from(index) == number {
            found = Some(component);
        }
    })?;
    found.ok_or(NO_SUCH_PART)
}

/// Octets of a profile body, refused by 60 where they end.
type Body<'a> = Cursor<'a, PROFILE_CUT>;

/// Reads a profile body, and tells of each component with its number.
fn read_all<'a>(octets: &'a [u8], tell: impl FnMut(u32, Tagged<'a>)) -> Result<Profile<'a>, u32> {
    demand(octets.len() <= LONGEST_PROFILE, OCTETS_TOO_MANY)?;
    let mut body = Body::new(octets, false);
    body.little = order(&mut body)?;
    let (major, minor) = version(&mut body)?;
    let host = body.text(HOST_UNFIT)?;
    let port = body.ushort()?;
    let key = body.run()?;
    let components = if minor == 0 {
        demand(body.rest().is_empty(), OCTETS_AFTER_KEY)?;
        0
    } else {
        body.list(tell)?
    };
    Ok(Profile {
        little: body.little,
        major,
        minor,
        host,
        port,
        key,
        components,
        extra: body.rest().len(),
    })
}

/// Reads the order octet, and says whether it is little-endian; refusals 60, 61.
fn order(body: &mut Body) -> Result<bool, u32> {
    let order = body.octet()?;
    demand(order <= 1, ORDER_UNFIT)?;
    Ok(order == 1)
}

/// Reads the major and the minor version, each judged as it is read; refusals 60,
/// 62, 60, 62.
fn version(body: &mut Body) -> Result<(u8, u8), u32> {
    let major = body.octet()?;
    demand(major == MAJOR, PROFILE_VERSION_UNKNOWN)?;
    let minor = body.octet()?;
    demand(minor <= LAST_MINOR, PROFILE_VERSION_UNKNOWN)?;
    Ok((major, minor))
}

#[cfg(test)]
mod tests {
    use super::*;

    use crate::samples::octets;

    /// A body of minor version 2, with an extra octet.
    const WHOLE: &str = "00 01 02 EE 00000003 616200 EE 1234 EEEE 00000001 6B EEEEEE 00000002 \
        00000007 00000001 AA EEEEEE 80000000 00000000 99";

    /// A body of minor version 0.
    const OLD: &str = "01 01 00 EE 02000000 6100 3412 03000000 6B0079";

    /// What the digits are answered but for the places.
    fn answer(digits: &str) -> Result<(u8, u16, usize, u32, usize), u32> {
        read(&octets(digits)).map(|profile| {
            let Profile {
                minor, port, key, ..
            } = profile;
            let key = key.octets.len();
            (minor, port, key, profile.components, profile.extra)
        })
    }

    /// The octets with another one at this place.
    fn with(octets: &[u8], place: usize, octet: u8) -> Vec<u8> {
        let mut octets = octets.to_vec();
        octets[place] = octet;
        octets
    }

    #[test]
    fn every_part_is_given() {
        let octets = octets(WHOLE);
        let profile = Profile {
            little: false,
            major: 1,
            minor: 2,
            host: Run {
                place: 8,
                octets: b"ab",
            },
            port: 0x1234,
            key: Run {
                place: 20,
                octets: b"k",
            },
            components: 2,
            extra: 1,
        };
        assert_eq!(read(&octets), Ok(profile));
        assert_eq!(profile.host.octets, &octets[8..10]);
    }

    #[test]
    fn both_orders_and_all_versions() {
        assert_eq!(answer(OLD), Ok((0, 0x1234, 3, 0, 0)));
        for minor in 1..=2 {
            let octets = with(&octets(WHOLE), 2, minor);
            assert_eq!(read(&octets).map(|profile| profile.minor), Ok(minor));
        }
        let little =
            "01 01 01 00 01000000 00 EE 0100 02000000 6B6B EEEE 01000000 07000000 00000000";
        assert_eq!(answer(little), Ok((1, 1, 2, 1, 0)));
    }

    #[test]
    fn components_by_number() {
        let octets = octets(WHOLE);
        let first = Tagged {
            tag: 7,
            run: Run {
                place: 36,
                octets: &[0xAA],
            },
        };
        let second = Tagged {
            tag: 0x8000_0000,
            run: Run {
                place: 48,
                octets: &[],
            },
        };
        assert_eq!(component(&octets, 0), Ok(first));
        assert_eq!(component(&octets, 1), Ok(second));
        for number in [2, 3, 1 << 32, (1 << 32) + 1, u64::MAX] {
            assert_eq!(component(&octets, number), Err(69));
        }
    }

    #[test]
    fn refusal_69_is_the_last() {
        let whole = octets(WHOLE);
        for number in [0, 1, 2, u64::MAX] {
            assert_eq!(component(&octets(OLD), number), Err(69));
            assert_eq!(component(&with(&whole, 0, 2), number), Err(61));
            assert_eq!(component(&with(&whole, 1, 2), number), Err(62));
            assert_eq!(component(&with(&whole, 8, 0), number), Err(63));
            // The first component is there, and the second one is not.
            assert_eq!(component(&whole[..40], number), Err(60));
            assert_eq!(
                component(&[&octets(OLD)[..], &[0]].concat(), number),
                Err(64)
            );
            assert_eq!(component(&[0; 16_385], number), Err(42));
        }
    }

    #[test]
    fn refusal_42_comes_first() {
        assert_eq!(read(&[9; 16_385]), Err(42));
        assert_eq!(read(&[9; 16_384]), Err(61));
        let mut octets = octets(WHOLE);
        octets.resize(16_384, 0);
        assert_eq!(read(&octets).map(|profile| profile.extra), Ok(16_384 - 48));
        octets.push(0);
        assert_eq!(read(&octets), Err(42));
    }

    #[test]
    fn every_cut_is_60() {
        let whole = octets(WHOLE);
        for kept in 0..48 {
            assert_eq!(read(&whole[..kept]), Err(60));
        }
        assert_eq!(read(&whole[..48]).map(|profile| profile.extra), Ok(0));
        let old = octets(OLD);
        for kept in 0..old.len() {
            assert_eq!(read(&old[..kept]), Err(60));
        }
    }

    #[test]
    fn order_and_version_are_judged_as_they_are_read() {
        assert_eq!(answer("02"), Err(61));
        assert_eq!(answer("FF 09 09"), Err(61));
        assert_eq!(answer("00"), Err(60));
        assert_eq!(answer("00 00"), Err(62));
        assert_eq!(answer("00 02 09"), Err(62));
        assert_eq!(answer("00 01"), Err(60));
        assert_eq!(answer("00 01 03"), Err(62));
        assert_eq!(answer("01 01 FF"), Err(62));
        assert_eq!(answer("00 01 02"), Err(60));
    }

    #[test]
    fn hosts() {
        let body = |host: &str| answer(&format!("00 01 00 00 {host}"));
        assert_eq!(body("00000000"), Err(63));
        assert_eq!(body("00000000 0000 00000000"), Err(63));
        assert_eq!(body("00000002"), Err(60));
        assert_eq!(body("00000002 00"), Err(60));
        assert_eq!(body("FFFFFFFF 00"), Err(60));
        assert_eq!(body("00000001 61 00 0001 00000000"), Err(63));
        assert_eq!(body("00000002 0000 0001 00000000"), Err(63));
        assert_eq!(body("00000003 610000"), Err(63));
        assert_eq!(body("00000003 616263"), Err(63));
        assert_eq!(body("00000001 00 EE 0001 00000000"), Ok((0, 1, 0, 0, 0)));
        let empty = octets("00 01 00 00 00000001 00 EE 0001 00000000");
        let host = read(&empty).map(|profile| profile.host);
        let octets: &[u8] = &[];
        assert_eq!(host, Ok(Run { place: 8, octets }));
    }

    #[test]
    fn octets_after_the_key_are_64_in_minor_version_0_only() {
        for more in ["00", "0000", "00000000", "00 00000000"] {
            assert_eq!(answer(&format!("{OLD} {more}")), Err(64));
        }
        let later = "00 01 01 00 00000002 6100 0001 00000003 6B6B6B EE 00000000";
        assert_eq!(answer(later), Ok((1, 1, 3, 0, 0)));
        assert_eq!(answer(&later[..later.len() - 9]), Err(60));
    }

    #[test]
    fn octets_after_the_components_are_extra_in_a_gap_too() {
        let ended = "00 01 01 00 00000001 00 EE 0001 00000000 00000001 00000000 00000001 AA";
        for extra in 0..12 {
            let digits = format!("{ended}{}", "EE".repeat(extra));
            assert_eq!(answer(&digits), Ok((1, 1, 0, 1, extra)));
        }
    }

    #[test]
    fn counts_of_components() {
        let key = "00 01 01 00 00000001 00 EE 0001 00000000";
        let rest = "00000000 00000000 00000000 00000000";
        for (count, expected) in [
            ("00000000", Ok((1, 1, 0, 0, 16))),
            ("00000001", Ok((1, 1, 0, 1, 8))),
            ("00000002", Ok((1, 1, 0, 2, 0))),
            ("00000003", Err(60)),
            ("FFFFFFFF", Err(60)),
        ] {
            assert_eq!(answer(&format!("{key} {count} {rest}")), expected);
        }
        let mut most = octets(&format!("{key} 000007FC"));
        most.resize(20 + 8 * 0x7FC, 0);
        assert_eq!(read(&most).map(|profile| profile.extra), Ok(0));
        assert_eq!(component(&most, 0x7FB).map(|found| found.tag), Ok(0));
        assert_eq!(component(&most, 0x7FC), Err(69));
    }
}
