//! Request and Reply headers, between the frame header and the body of a whole or
//! joined message.
//!
//! Gaps are counted from the message's first octet. Each field is judged after
//! its own octets, so that the first fault in octet order is the refusal.

use std::ops::Range;

use crate::cursor::{Cursor, Gaps, Run, Tagged};
use crate::frame::{of_any_length, HEADER_LENGTH, REPLY, REQUEST};
use crate::refusal::{
    demand, HEAD_TOO_LONG, MESSAGE_CUT, NAME_UNFIT, NO_MESSAGE_HEADER, NO_SUCH_PART,
    OCTETS_TOO_MANY, RESPONSE_UNFIT, STATUS_UNKNOWN, TARGET_KIND_UNKNOWN,
};

/// The most octets of a message.
pub const LONGEST_JOINED: usize = 16_384;

/// Reserved octets, where there are any.
const RESERVED: u32 = 3;

/// What a 1.2 body begins at a multiple of, unless it is empty.
const BODY_MULTIPLE: usize = 8;

/// How a minor version lays its headers out.
#[derive(Clone, Copy, PartialEq, Eq)]
enum Layout {
    /// Contexts first, the key as target, a principal last.
    First,
    /// The same, with reserved octets after the response boolean.
    Reserved,
    /// Flags and reserved octets, a target of three kinds, contexts last.
    Targeted,
}

/// A minor version's layout.
fn layout(minor: u8) -> Layout {
    match minor {
        0 => Layout::First,
        1 => Layout::Reserved,
        _ => Layout::Targeted,
    }
}

impl Layout {
    /// Whether the octet can follow a request's id: a boolean, or flags.
    fn has_response(self, response: u8) -> bool {
        match self {
            Layout::First | Layout::Reserved => response <= 1,
            Layout::Targeted => matches!(response, 0 | 1 | 3),
        }
    }

    /// The highest status.
    fn last_status(self) -> u32 {
        match self {
            Layout::First | Layout::Reserved => 3,
            Layout::Targeted => 5,
        }
    }
}

/// An accepted header.
#[derive(Clone, Copy, Debug, PartialEq, Eq)]
pub struct Header<'a> {
    /// The minor version.
    pub minor: u8,
    /// Whether the message is little-endian.
    pub little: bool,
    /// The request id.
    pub id: u32,
    /// What else a message of its type has.
    pub kind: Kind<'a>,
    /// The number of contexts.
    pub contexts: u32,
    /// Where the body begins, or would: the message's end if it is empty.
    pub body: usize,
}

/// What only a message of one type has.
#[derive(Clone, Copy, Debug, PartialEq, Eq)]
pub enum Kind<'a> {
    /// A Request.
    Request(Request<'a>),
    /// A Reply, and its status.
    Reply(u32),
}

/// What a Request has.
#[derive(Clone, Copy, Debug, PartialEq, Eq)]
pub struct Request<'a> {
    /// The response boolean, or the flags.
    pub response: u8,
    /// The target.
    pub target: Target<'a>,
    /// The operation without its zero.
    pub operation: Run<'a>,
    /// The principal, which 1.2 has no more.
    pub principal: Option<Run<'a>>,
}

/// What a Request is for.
#[derive(Clone, Copy, Debug, PartialEq, Eq)]
pub enum Target<'a> {
    /// An object key.
    Key(Run<'a>),
    /// One profile.
    Profile(Tagged<'a>),
    /// A reference.
    Reference {
        /// The chosen profile's index, which is not judged.
        index: u32,
        /// The type id without its zero.
        type_id: Run<'a>,
        /// The number of profiles.
        profiles: u32,
    },
}

/// The lists that a header can have.
#[derive(Clone, Copy, PartialEq, Eq)]
enum List {
    /// The contexts.
    Contexts,
    /// The profiles of the target's reference.
    Profiles,
}

/// Reads the header of a message; refusal 42, then 12 to 21, 75, then 70 to 74 in
/// octet order.
pub fn read(message: &[u8]) -> Result<Header<'_>, u32> {
    read_all(message, (), |_, _, _| ())
}

/// Reads a message for its context of this number, from 0; refusals as the
/// header's, then 69.
pub fn context(message: &[u8], number: u64) -> Result<Tagged<'_>, u32> {
    listed(message, List::Contexts, number)
}

/// Reads a message for the profile of this number, from 0, of the reference that
/// is its target; refusals as the header's, then 69.
pub fn target(message: &[u8], number: u64) -> Result<Tagged<'_>, u32> {
    listed(message, List::Profiles, number)
}

/// All octets before the body, with zeros in gaps and reserved octets, if there is
/// room for so many; refusals as the header's, then 76.
pub fn head(message: &[u8], room: usize) -> Result<Vec<u8>, u32> {
    let mut octets = Vec::new();
    head_into(message, room, &mut octets).map(|()| octets)
}

/// The same octets, which take the place of those that were there; after a refusal
/// nothing is said of them.
pub fn head_into(message: &[u8], room: usize, octets: &mut Vec<u8>) -> Result<(), u32> {
    octets.clear();
    let body = read_all(message, Copied { message, octets }, |_, _, _| ())?.body;
    octets.extend_from_slice(&message[octets.len()..body]);
    demand(body <= room, HEAD_TOO_LONG)
}

/// The message's octets up to the last gap, and zeros for the gaps.
struct Copied<'a, 'o> {
    message: &'a [u8],
    octets: &'o mut Vec<u8>,
}

impl Gaps for Copied<'_, '_> {
    fn gap(&mut self, gap: Range<usize>) {
        if !gap.is_empty() {
            let before = &self.message[self.octets.len()..gap.start];
            self.octets.extend_from_slice(before);
            self.octets.resize(gap.end, 0);
        }
    }
}

/// Reads a message for what a list has by this number.
fn listed(message: &[u8], wanted: List, number: u64) -> Result<Tagged<'_>, u32> {
    let mut found = None;
    read_all(message, (), |list, index, tagged| {
        if list == wanted && u64::from(index) == number {
            found = Some(tagged);
        }
    })?;
    found.ok_or(NO_SUCH_PART)
}

/// Reads the header of a message, and tells of all gaps and reserved octets, and of
/// each context and profile with its number.
fn read_all<'a>(
    message: &'a [u8],
    gaps: impl Gaps,
    tell: impl FnMut(List, u32, Tagged<'a>),
) -> Result<Header<'a>, u32> {
    demand(message.len() <= LONGEST_JOINED, OCTETS_TOO_MANY)?;
    let frame = of_any_length(message)?;
    let has_header = matches!(frame.kind, REQUEST | REPLY);
    demand(has_header && !frame.more, NO_MESSAGE_HEADER)?;
    let mut reader = Reader {
        cursor: Cursor::heard(message, HEADER_LENGTH, frame.little, gaps),
        layout: layout(frame.minor),
        tell,
    };
    let (contexts, id, kind) = match (frame.kind, reader.layout) {
        (REQUEST, Layout::Targeted) => reader.targeted_request()?,
        (REQUEST, _) => reader.request()?,
        (_, Layout::Targeted) => reader.targeted_reply()?,
        _ => reader.reply()?,
    };
    Ok(Header {
        minor: frame.minor,
        little: frame.little,
        id,
        kind,
        contexts,
        body: reader.body()?,
    })
}

/// The number of contexts, the request id, and the rest.
type Fields<'a> = (u32, u32, Kind<'a>);

/// A message in the reading.
struct Reader<'a, G, T> {
    cursor: Cursor<'a, MESSAGE_CUT, G>,
    layout: Layout,
    tell: T,
}

impl<'a, G: Gaps, T: FnMut(List, u32, Tagged<'a>)> Reader<'a, G, T> {
    /// Reads a request of 1.0 or 1.1.
    fn request(&mut self) -> Result<Fields<'a>, u32> {
        let contexts = self.list(List::Contexts)?;
        let id = self.cursor.ulong()?;
        let request = Request {
            response: self.response()?,
            target: Target::Key(self.cursor.run()?),
            operation: self.cursor.text(NAME_UNFIT)?,
            principal: Some(self.cursor.run()?),
        };
        Ok((contexts, id, Kind::Request(request)))
    }

    /// Reads a request from 1.2 on.
    fn targeted_request(&mut self) -> Result<Fields<'a>, u32> {
        let id = self.cursor.ulong()?;
        let request = Request {
            response: self.response()?,
            target: self.target()?,
            operation: self.cursor.text(NAME_UNFIT)?,
            principal: None,
        };
        Ok((self.list(List::Contexts)?, id, Kind::Request(request)))
    }

    /// Reads a reply of 1.0 or 1.1.
    fn reply(&mut self) -> Result<Fields<'a>, u32> {
        let contexts = self.list(List::Contexts)?;
        let id = self.cursor.ulong()?;
        Ok((contexts, id, Kind::Reply(self.status()?)))
    }

    /// Reads a reply from 1.2 on.
    fn targeted_reply(&mut self) -> Result<Fields<'a>, u32> {
        let id = self.cursor.ulong()?;
        let status = self.status()?;
        Ok((self.list(List::Contexts)?, id, Kind::Reply(status)))
    }

    /// Reads the response boolean or the flags, and the reserved octets if there
    /// are any; refusals 70, 71, 70.
    fn response(&mut self) -> Result<u8, u32> {
        let response = self.cursor.octet()?;
        demand(self.layout.has_response(response), RESPONSE_UNFIT)?;
        if self.layout != Layout::First {
            self.cursor.skip(RESERVED)?;
        }
        Ok(response)
    }

    /// Reads the kind of a target, and the target; refusals 70, 72, then as each.
    fn target(&mut self) -> Result<Target<'a>, u32> {
        Ok(match self.cursor.ushort()? {
            0 => Target::Key(self.cursor.run()?),
            1 => Target::Profile(self.cursor.tagged()?),
            2 => Target::Reference {
                index: self.cursor.ulong()?,
                type_id: self.cursor.text(NAME_UNFIT)?,
                profiles: self.list(List::Profiles)?,
            },
            _ => return Err(TARGET_KIND_UNKNOWN),
        })
    }

    /// Reads a status; refusals 70, 74.
    fn status(&mut self) -> Result<u32, u32> {
        let status = self.cursor.ulong()?;
        demand(status <= self.layout.last_status(), STATUS_UNKNOWN)?;
        Ok(status)
    }

    /// Reads a list, and gives its count; refusal 70.
    fn list(&mut self, list: List) -> Result<u32, u32> {
        let Reader { cursor, tell, .. } = self;
        cursor.list(|number, tagged| tell(list, number, tagged))
    }

    /// The place of the body after all that was read; refusal 70 in the gap before
    /// it.
    fn body(&mut self) -> Result<usize, u32> {
        if self.layout == Layout::Targeted && !self.cursor.rest().is_empty() {
            let gap = self.cursor.index().next_multiple_of(BODY_MULTIPLE) - self.cursor.index();
            self.cursor.skip(gap as u32)?;
        }
        Ok(self.cursor.index())
    }
}

#[cfg(test)]
mod tests {
    use super::*;

    use crate::frame::LITTLE;
    use crate::primitive::ulong_octets;
    use crate::samples::octets;

    /// The fields of a request of 1.0 or 1.1, to octet 61.
    const OLD: &str = "00000001 00000005 00000003 0A0B0C EE 00000009 01 EEEEEE \
        00000002 4B59 EEEE 00000005 70696E6700 EEEEEE 00000001 50";

    /// The fields of a request of 1.2 before its target, to octet 20.
    const START: &str = "00000009 03 EEEEEE";

    /// Those after a target that ends at octet 30, to octet 59.
    const END: &str = "EEEE 00000005 70696E6700 EEEEEE 00000001 00000005 00000003 0A0B0C";

    /// A key as target.
    const KEY: &str = "0000 EEEE 00000002 4B59";

    /// A reference as target, which ends at octet 62.
    const REFERENCE: &str = "0002 EEEE 00000007 00000003 494400 EE 00000002 \
        00000000 00000001 AA EEEEEE 80000000 00000002 BBCC";

    /// A big-endian message of these fields.
    fn message(minor: u8, kind: u8, digits: &str) -> Vec<u8> {
        framed(minor, 0, kind, &octets(digits))
    }

    /// A message of these octets after the frame header.
    fn framed(minor: u8, flags: u8, kind: u8, fields: &[u8]) -> Vec<u8> {
        let size = ulong_octets(fields.len() as u32, flags & LITTLE != 0);
        [b"GIOP\x01", &[minor, flags, kind][..], &size, fields].concat()
    }

    /// A 1.2 request for a target, with these octets after its header.
    fn request(target: &str, after: &str) -> Vec<u8> {
        message(2, REQUEST, &format!("{START} {target} {END} {after}"))
    }

    /// The refusal of a message, 0 if there is none.
    fn number(message: &[u8]) -> u32 {
        read(message).err().unwrap_or(0)
    }

    /// The same octets so many from the first, with a size that fits.
    fn cut(message: &[u8], length: usize) -> Vec<u8> {
        framed(message[5], message[6], message[7], &message[12..length])
    }

    /// Octets at a place.
    fn run(place: usize, octets: &[u8]) -> Run<'_> {
        Run { place, octets }
    }

    #[test]
    fn requests_of_1_0_and_1_1() {
        for minor in [0, 1] {
            let message = message(minor, REQUEST, &format!("{OLD} AABB"));
            let request = Request {
                response: 1,
                target: Target::Key(run(40, b"KY")),
                operation: run(48, b"ping"),
                principal: Some(run(60, b"P")),
            };
            let header = Header {
                minor,
                little: false,
                id: 9,
                kind: Kind::Request(request),
                contexts: 1,
                body: 61,
            };
            assert_eq!(read(&message), Ok(header));
            assert_eq!(read(&cut(&message, 61)), Ok(header));
        }
    }

    #[test]
    fn requests_of_1_2_by_target() {
        let body = |message: &[u8]| read(message).map(|header| (header.contexts, header.body));
        let target = |message: &[u8]| match read(message).map(|header| header.kind) {
            Ok(Kind::Request(Request { target, .. })) => format!("{target:?}"),
            other => format!("{other:?}"),
        };
        let key = request(KEY, "EEEEEEEEEE AA");
        assert_eq!(target(&key), format!("{:?}", Target::Key(run(28, b"KY"))));
        assert_eq!(body(&key), Ok((1, 64)));
        let profile = request("0001 EEEE 00000007 00000002 4B59", "EE");
        let tagged = Tagged {
            tag: 7,
            run: run(32, b"KY"),
        };
        assert_eq!(target(&profile), format!("{:?}", Target::Profile(tagged)));
        assert_eq!(body(&profile), Ok((1, 64)));
        let reference = request(REFERENCE, "EEEEEEEEEE AA");
        let told = Target::Reference {
            index: 7,
            type_id: run(32, b"ID"),
            profiles: 2,
        };
        assert_eq!(target(&reference), format!("{told:?}"));
        assert_eq!(body(&reference), Ok((1, 96)));
    }

    #[test]
    fn replies() {
        let old = "00000001 00000005 00000001 0A EEEEEE 00000009 00000003 AA";
        let new = "00000009 00000005 00000001 00000005 00000001 0A EEEEEEEEEEEEEE AA";
        for (minor, fields, status, body) in [(0, old, 3, 36), (1, old, 3, 36), (2, new, 5, 40)] {
            let header = Header {
                minor,
                little: false,
                id: 9,
                kind: Kind::Reply(status),
                contexts: 1,
                body,
            };
            assert_eq!(read(&message(minor, REPLY, fields)), Ok(header));
        }
    }

    #[test]
    fn little_endian_messages() {
        let fields = octets("09000000 03 EEEEEE 0100 EEEE 07000000 02000000 4B59 EEEE 01000000 00");
        let message = framed(2, LITTLE, REQUEST, &[&fields[..], &[0; 7]].concat());
        let header = read(&message).expect("accepted");
        assert!(header.little);
        assert_eq!((header.id, header.contexts, header.body), (9, 0, 48));
        let tagged = Tagged {
            tag: 7,
            run: run(32, b"KY"),
        };
        let request = Request {
            response: 3,
            target: Target::Profile(tagged),
            operation: run(40, b""),
            principal: None,
        };
        assert_eq!(header.kind, Kind::Request(request));
    }

    #[test]
    fn a_header_cut_anywhere_is_70() {
        for (message, least, end) in [
            (message(0, REQUEST, OLD), 13, 61),
            (message(1, REQUEST, OLD), 13, 61),
            (request(KEY, ""), 16, 59),
            (request(REFERENCE, ""), 16, 91),
            (message(2, REPLY, "00000009 00000005 00000000"), 16, 24),
            (message(0, REPLY, "00000000 00000009 00000003"), 13, 24),
        ] {
            assert_eq!(message.len(), end);
            assert_eq!(number(&cut(&message, least - 1)), 19);
            for length in least..end {
                assert_eq!(number(&cut(&message, length)), 70, "{length} of {end}");
            }
            assert_eq!(number(&message), 0);
        }
    }

    #[test]
    fn the_gap_before_a_body_of_1_2() {
        for (after, expected) in [
            (0, Ok(59)),
            (1, Err(70)),
            (4, Err(70)),
            (5, Ok(64)),
            (6, Ok(64)),
            (13, Ok(64)),
        ] {
            let message = request(KEY, &"EE".repeat(after));
            assert_eq!(read(&message).map(|header| header.body), expected);
        }
        let aligned = "00000009 00000000 00000000";
        for after in 0..9 {
            let message = message(2, REPLY, &format!("{aligned} {}", "EE".repeat(after)));
            assert_eq!(read(&message).map(|header| header.body), Ok(24));
        }
    }

    #[test]
    fn booleans_and_flags() {
        for octet in 0..=u8::MAX {
            for minor in 0..=2 {
                let (mut message, place) = match minor {
                    2 => (request(KEY, ""), 16),
                    _ => (message(minor, REQUEST, OLD), 32),
                };
                message[place] = octet;
                let fits = octet <= 1 || minor == 2 && octet == 3;
                assert_eq!(number(&message), if fits { 0 } else { 71 });
                let ended = number(&cut(&message, place + 1));
                assert_eq!(ended, if fits { 70 } else { 71 });
            }
        }
    }

    #[test]
    fn kinds_of_target() {
        for kind in [3, 4, 0x100, 0x200, 0x8000, 0xFFFF] {
            let fields = format!("{START} {kind:04X}");
            assert_eq!(number(&message(2, REQUEST, &fields)), 72);
        }
        assert_eq!(number(&message(2, REQUEST, &format!("{START} 0000"))), 70);
        assert_eq!(number(&message(2, REQUEST, &format!("{START} FF"))), 70);
    }

    #[test]
    fn statuses() {
        for minor in 0..=2 {
            let last = if minor == 2 { 5 } else { 3 };
            for status in [0, 1, 2, 3, 4, 5, 6, 0x0100_0000, u32::MAX] {
                let start = if minor == 2 { "" } else { "00000000" };
                let fields = format!("{start} 00000009 {status:08X}");
                let whole = number(&message(minor, REPLY, &format!("{fields} 00000000")));
                let ended = number(&message(minor, REPLY, &fields));
                assert_eq!(whole, if status <= last { 0 } else { 74 });
                let cut = if minor == 2 { 70 } else { 0 };
                assert_eq!(ended, if status <= last { cut } else { 74 });
            }
        }
    }

    #[test]
    fn operations_and_type_ids() {
        for (text, expected) in [
            ("00000001 00", 0),
            ("00000002 6100", 0),
            ("00000000", 73),
            ("00000001 61", 73),
            ("00000002 0000", 73),
            ("00000003 610000", 73),
            ("00000003 006100", 73),
            ("00000004 6100", 70),
            ("FFFFFFFF 6100", 70),
        ] {
            let filled = text.replace(' ', "").len() / 2;
            let mut gap = "EE".repeat(filled.next_multiple_of(4) - filled);
            let mut after = "00000000 00000001 00 EEEEEE 00000000";
            if expected == 70 {
                gap.clear();
                after = "";
            }
            // What follows a 1.0 operation is its principal, and then the body.
            let old = format!("00000000 00000009 00 EEEEEE 00000000 {text} {gap} {after}");
            assert_eq!(number(&message(0, REQUEST, &old)), expected, "{text}");
            assert_eq!(number(&message(1, REQUEST, &old)), expected, "{text}");
            let reference = format!("{START} 0002 EEEE 00000000 {text} {gap} {after}");
            assert_eq!(number(&message(2, REQUEST, &reference)), expected, "{text}");
        }
    }

    #[test]
    fn refusals_before_the_fields() {
        let whole = request(KEY, "");
        assert_eq!(number(&[0; 16_385]), 42);
        assert_eq!(number(&[0; 16_384]), 13);
        let longest = framed(2, 0, REQUEST, &[0; 16_372]);
        assert_eq!(number(&longest), 73);
        let changed = |place: usize, octet| {
            let mut message = whole.clone();
            message[place] = octet;
            number(&message)
        };
        assert_eq!(number(&whole[..11]), 12);
        assert_eq!(changed(0, 0), 13);
        assert_eq!(changed(5, 3), 14);
        assert_eq!(changed(6, 4), 15);
        assert_eq!(changed(7, 8), 16);
        assert_eq!(changed(11, 200), 17);
        assert_eq!(changed(11, 0), 18);
        assert_eq!(number(&framed(2, 0, REQUEST, &[0; 3])), 19);
        assert_eq!(number(&framed(1, 2, REQUEST, &[0; 4])), 20);
        assert_eq!(number(&framed(2, 2, REQUEST, &[0; 5])), 21);
        assert_eq!(number(&framed(2, 2, REQUEST, &[0; 4])), 75);
        for (kind, size) in [(2, 4), (3, 4), (4, 4), (5, 0), (6, 0), (7, 4)] {
            assert_eq!(number(&framed(2, 0, kind, &vec![0; size])), 75);
        }
    }

    #[test]
    fn contexts_and_profiles_by_number() {
        let message = request(REFERENCE, "");
        let tagged = |tag, place, octets| {
            Ok(Tagged {
                tag,
                run: run(place, octets),
            })
        };
        assert_eq!(context(&message, 0), tagged(5, 88, &[10, 11, 12]));
        assert_eq!(context(&message, 1), Err(69));
        assert_eq!(context(&message, 1 << 32), Err(69));
        assert_eq!(target(&message, 0), tagged(0, 48, &[0xAA]));
        assert_eq!(target(&message, 1), tagged(1 << 31, 60, &[0xBB, 0xCC]));
        assert_eq!(target(&message, 2), Err(69));
        assert_eq!(target(&message, u64::MAX), Err(69));
        for other in [request(KEY, ""), self::message(0, REQUEST, OLD)] {
            assert_eq!(target(&other, 0), Err(69));
        }
        let reply = self::message(0, REPLY, "00000000 00000009 00000004");
        assert_eq!(target(&reply, 0), Err(74));
        assert_eq!(context(&reply, 0), Err(74));
    }

    #[test]
    fn heads_have_zeros_where_nothing_is_carried() {
        let whole = [
            message(0, REQUEST, &format!("{OLD} AABB")),
            message(1, REQUEST, OLD),
            request(KEY, "EEEEEEEEEE AABB"),
            request(REFERENCE, ""),
            request(REFERENCE, "EEEEEEEEEE"),
        ];
        for message in whole {
            let body = read(&message).expect("accepted").body;
            let mut expected = message[..body].to_vec();
            // No octet that carries something is EE.
            expected.iter_mut().for_each(|octet| {
                if *octet == 0xEE {
                    *octet = 0;
                }
            });
            assert_eq!(head(&message, body), Ok(expected.clone()));
            assert_eq!(head(&message, usize::MAX), Ok(expected.clone()));
            assert_eq!(head(&message, body - 1), Err(76));
            assert_eq!(head(&message, 0), Err(76));
            let again = [&expected, &message[body..]].concat();
            assert_eq!(head(&again, body), Ok(expected));
        }
        assert_eq!(head(&request("0003", ""), 0), Err(72));
    }
}
