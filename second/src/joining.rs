//! Joining: the record of one recording, and what its lines do to it.

use crate::frame::{
    frame, Header, CANCEL_REQUEST, FLAGS_AT, FRAGMENT, HEADER_LENGTH, LITTLE, LOCATE_REPLY,
    LOCATE_REQUEST, MINOR_AT, MORE, NEWEST_MINOR, REPLY, REQUEST, SIZE_AT,
};
use crate::primitive::{ulong, ulong_octets};
use crate::refusal::{
    demand, FRAGMENT_DIFFERS, ID_NOT_OPEN, ID_OPEN, JOINED_TOO_LONG, NO_FREE_PLACE,
    OUTPUT_TOO_SHORT, RECORD_UNSOUND,
};

/// The places for open messages.
pub const PLACES: usize = 4;
/// The octets of a place, and the most that a joined message has.
pub const PLACE_OCTETS: usize = 16_384;

/// The answer to a whole message.
pub const WHOLE: u32 = 0;
/// The answer to a first or middle fragment.
pub const HELD: u32 = 1;
/// The answer to a last fragment.
pub const JOINED: u32 = 2;
/// The answer to a CancelRequest whose id was open.
pub const CANCELLED: u32 = 3;

/// The octets of a request id.
const ID_LENGTH: usize = 4;
/// The least octets of an open message: a header and a request id.
const LEAST_OPEN: usize = HEADER_LENGTH + ID_LENGTH;

/// The places of one recording, without their octets. What a closed place has
/// for id and length has no meaning.
#[repr(C)]
#[derive(Clone, Copy, PartialEq, Eq, Debug, Default)]
pub struct Record {
    /// The request id of each place's message.
    pub ids: [u32; PLACES],
    /// The octets stored in each place.
    pub lengths: [usize; PLACES],
    /// Which places have an open message.
    pub opened: [bool; PLACES],
}

impl Record {
    /// How many messages are open.
    pub fn open(&self) -> usize {
        self.opened.iter().filter(|&&opened| opened).count()
    }

    /// The open place with the id. In a sound record there is at most one.
    fn place_of(&self, id: u32) -> Option<usize> {
        (0..PLACES).find(|&place| self.opened[place] && self.ids[place] == id)
    }

    /// The lowest free place.
    fn free_place(&self) -> Option<usize> {
        self.opened.iter().position(|&opened| !opened)
    }

    /// Whether the open places have different ids and possible lengths.
    fn is_sound(&self) -> bool {
        (0..PLACES)
            .filter(|&place| self.opened[place])
            .all(|place| {
                self.place_of(self.ids[place]) == Some(place)
                    && (LEAST_OPEN..=PLACE_OCTETS).contains(&self.lengths[place])
            })
    }
}

/// What a line was answered.
#[derive(Clone, Copy, PartialEq, Eq, Debug)]
pub struct Answer {
    /// The answer, 0 to 3, or a refusal.
    pub number: u32,
    /// The octets of the message written to the output.
    pub written: usize,
}

/// What an accepted line does.
#[derive(Clone, Copy)]
enum Step {
    /// The message is passed on.
    Pass,
    /// A first fragment with this id is stored in this place.
    Open(usize, u32),
    /// A middle fragment is added to this place.
    Add(usize),
    /// A last fragment completes the message of this place.
    Complete(usize),
    /// A CancelRequest is passed on and frees this place.
    Cancel(usize),
}

/// Answers a line's octets. Refusal 10, then 12 to 21, then 28, then 22 to 27.
///
/// Place i has the octets of `places` from 16,384 i on. A refusal leaves all
/// that is lent as it was.
pub fn join(octets: &[u8], record: &mut Record, places: &mut [u8], output: &mut [u8]) -> Answer {
    match step(octets, record, places, output.len()) {
        Ok(step) => take(step, octets, record, places, output),
        Err(refusal) => Answer {
            number: refusal,
            written: 0,
        },
    }
}

/// What the line does if it is accepted with an output of this length.
fn step(octets: &[u8], record: &Record, places: &[u8], room: usize) -> Result<Step, u32> {
    let header = frame(octets)?;
    let long_enough = places.len() >= PLACES * PLACE_OCTETS;
    demand(long_enough && record.is_sound(), RECORD_UNSOUND)?;
    let step = match (header.kind, header.id) {
        (_, None) => Step::Pass,
        (CANCEL_REQUEST, Some(id)) => record.place_of(id).map_or(Step::Pass, Step::Cancel),
        (FRAGMENT, Some(id)) => fragment_step(&header, id, record, places)?,
        (_, Some(id)) => message_step(&header, id, record)?,
    };
    let needed = match step {
        Step::Pass | Step::Cancel(_) => octets.len(),
        Step::Open(..) | Step::Add(_) => 0,
        Step::Complete(place) => joined_length(&header, record.lengths[place]),
    };
    demand(needed <= room, OUTPUT_TOO_SHORT)?;
    Ok(step)
}

/// What a 1.2 message that is no fragment does, whole or the first of several.
fn message_step(header: &Header, id: u32, record: &Record) -> Result<Step, u32> {
    demand(record.place_of(id).is_none(), ID_OPEN)?;
    if header.more {
        let place = record.free_place().ok_or(NO_FREE_PLACE)?;
        Ok(Step::Open(place, id))
    } else {
        Ok(Step::Pass)
    }
}

/// What a fragment does, held to the first frame that its place stores.
fn fragment_step(header: &Header, id: u32, record: &Record, places: &[u8]) -> Result<Step, u32> {
    let place = record.place_of(id).ok_or(ID_NOT_OPEN)?;
    let first = &places[PLACE_OCTETS * place..];
    let first_little = first[FLAGS_AT] & LITTLE != 0;
    let alike = first[MINOR_AT] == header.minor && first_little == header.little;
    demand(alike, FRAGMENT_DIFFERS)?;
    let length = joined_length(header, record.lengths[place]);
    demand(length <= PLACE_OCTETS, JOINED_TOO_LONG)?;
    Ok(match header.more {
        true => Step::Add(place),
        false => Step::Complete(place),
    })
}

/// The length of a place's message with this fragment, whose id is left out.
fn joined_length(fragment: &Header, stored: usize) -> usize {
    stored + fragment.size as usize - ID_LENGTH
}

/// Does what was decided. The step's places are there and the output is long
/// enough.
fn take(
    step: Step,
    octets: &[u8],
    record: &mut Record,
    places: &mut [u8],
    output: &mut [u8],
) -> Answer {
    let (number, written) = match step {
        Step::Pass => (WHOLE, copy(octets, output)),
        Step::Open(place, id) => {
            record.ids[place] = id;
            record.lengths[place] = copy(octets, &mut places[PLACE_OCTETS * place..]);
            record.opened[place] = true;
            (HELD, 0)
        }
        Step::Add(place) => {
            let end = PLACE_OCTETS * place + record.lengths[place];
            record.lengths[place] += copy(&octets[LEAST_OPEN..], &mut places[end..]);
            (HELD, 0)
        }
        Step::Complete(place) => {
            let stored = &places[PLACE_OCTETS * place..][..record.lengths[place]];
            record.opened[place] = false;
            (JOINED, write_joined(stored, &octets[LEAST_OPEN..], output))
        }
        Step::Cancel(place) => {
            record.opened[place] = false;
            (CANCELLED, copy(octets, output))
        }
    };
    Answer { number, written }
}

/// Writes a joined message: what was stored and the last fragment's part, the
/// more flag cleared and the size corrected. Says how long it is.
fn write_joined(stored: &[u8], last: &[u8], output: &mut [u8]) -> usize {
    let length = copy(stored, output) + copy(last, &mut output[stored.len()..]);
    let little = stored[FLAGS_AT] & LITTLE != 0;
    let size = (length - HEADER_LENGTH) as u32;
    output[FLAGS_AT] &= !MORE;
    output[SIZE_AT..HEADER_LENGTH].copy_from_slice(&ulong_octets(size, little));
    length
}

/// Copies the octets to the start of the room. Says how many there are.
fn copy(octets: &[u8], room: &mut [u8]) -> usize {
    room[..octets.len()].copy_from_slice(octets);
    octets.len()
}

/// The request id in the body of an accepted message, if it has one.
pub fn request_id(minor: u8, kind: u8, little: bool, body: &[u8]) -> Option<u32> {
    if begins_with_id(minor, kind) {
        body.first_chunk().map(|&octets| ulong(octets, little))
    } else {
        None
    }
}

/// Whether the body's first four octets are a request id.
fn begins_with_id(minor: u8, kind: u8) -> bool {
    match kind {
        CANCEL_REQUEST => true,
        REQUEST | REPLY | LOCATE_REQUEST | LOCATE_REPLY | FRAGMENT => minor == NEWEST_MINOR,
        _ => false,
    }
}

#[cfg(test)]
mod tests {
    use super::*;

    /// What an output's octets are before a line.
    const UNWRITTEN: u8 = 0xEE;

    /// A frame of any version, its size and id in its own byte order.
    fn frame_of(minor: u8, flags: u8, kind: u8, id: u32, rest: &[u8]) -> Vec<u8> {
        let little = flags & LITTLE != 0;
        let size = ulong_octets((ID_LENGTH + rest.len()) as u32, little);
        let id = ulong_octets(id, little);
        [b"GIOP\x01", &[minor, flags, kind][..], &size, &id, rest].concat()
    }

    /// A whole Request.
    fn whole(id: u32) -> Vec<u8> {
        frame_of(2, 0, REQUEST, id, b"whole")
    }

    /// A first fragment with nothing after its id.
    fn first(id: u32) -> Vec<u8> {
        frame_of(2, MORE, REQUEST, id, &[])
    }

    /// A middle fragment; its part is a multiple of 8 octets.
    fn middle(id: u32, part: &[u8]) -> Vec<u8> {
        frame_of(2, MORE, FRAGMENT, id, part)
    }

    /// A last fragment.
    fn last(id: u32, part: &[u8]) -> Vec<u8> {
        frame_of(2, 0, FRAGMENT, id, part)
    }

    /// A CancelRequest.
    fn cancel(id: u32) -> Vec<u8> {
        frame_of(2, 0, CANCEL_REQUEST, id, &[])
    }

    /// All that is lent with a line.
    #[derive(Clone)]
    struct Lent {
        record: Record,
        places: Vec<u8>,
        output: Vec<u8>,
    }

    impl Lent {
        /// A record with nothing open and an output that is long enough.
        fn new() -> Self {
            Lent {
                record: Record::default(),
                places: vec![0; PLACES * PLACE_OCTETS],
                output: vec![UNWRITTEN; PLACE_OCTETS],
            }
        }

        /// With these first fragments given.
        fn with_open(ids: &[u32]) -> Self {
            let mut lent = Lent::new();
            for &id in ids {
                lent.holds(&first(id));
            }
            lent
        }

        /// The answer to a line.
        fn answer(&mut self, octets: &[u8]) -> Answer {
            self.output.fill(UNWRITTEN);
            join(octets, &mut self.record, &mut self.places, &mut self.output)
        }

        /// The line is refused, and nothing changes.
        fn refuses(&mut self, octets: &[u8], number: u32) {
            let before = self.clone();
            let refusal = Answer { number, written: 0 };
            assert_eq!(self.answer(octets), refusal);
            assert_eq!(self.record, before.record);
            assert!(self.places == before.places);
            assert!(self.output.iter().all(|&octet| octet == UNWRITTEN));
        }

        /// The line is held, and nothing is written.
        fn holds(&mut self, octets: &[u8]) {
            let held = Answer {
                number: HELD,
                written: 0,
            };
            assert_eq!(self.answer(octets), held);
            assert!(self.output.iter().all(|&octet| octet == UNWRITTEN));
        }

        /// The line is given this answer, and this message and no more is written.
        fn writes(&mut self, octets: &[u8], number: u32, message: &[u8]) {
            let before = self.places.clone();
            let written = message.len();
            assert_eq!(self.answer(octets), Answer { number, written });
            assert_eq!(&self.output[..written], message);
            assert!(self.output[written..].iter().all(|&o| o == UNWRITTEN));
            assert!(self.places == before);
        }

        /// The message is passed on and leaves the record as it was.
        fn passes(&mut self, octets: &[u8]) {
            let before = self.record;
            self.writes(octets, WHOLE, octets);
            assert_eq!(self.record, before);
        }
    }

    #[test]
    fn ids_by_version_and_type() {
        let body = [0, 0, 0, 9, 0xAB];
        for (minor, with_id) in [(0, vec![2]), (1, vec![2]), (2, vec![0, 1, 2, 3, 4, 7])] {
            for kind in 0..=7 {
                let id = with_id.contains(&kind).then_some(9);
                assert_eq!(request_id(minor, kind, false, &body), id);
            }
        }
    }

    #[test]
    fn an_id_is_in_its_messages_byte_order() {
        assert_eq!(request_id(2, 0, false, &[1, 2, 3, 4]), Some(0x0102_0304));
        assert_eq!(request_id(2, 0, true, &[1, 2, 3, 4]), Some(0x0403_0201));
    }

    #[test]
    fn answer_0_for_whole_messages() {
        let mut lent = Lent::with_open(&[9]);
        for flags in [0, LITTLE] {
            for kind in [REQUEST, REPLY, LOCATE_REQUEST, LOCATE_REPLY] {
                lent.passes(&frame_of(2, flags, kind, 8, b"abc"));
                // Earlier versions' ids are ignored, 9 too.
                lent.passes(&frame_of(1, flags, kind, 9, b"abc"));
                lent.passes(&frame_of(0, flags, kind, 9, b"abc"));
            }
        }
    }

    #[test]
    fn answer_0_for_types_5_and_6_which_change_nothing_open() {
        let mut lent = Lent::with_open(&[9, 0, 1]);
        for minor in 0..=2 {
            lent.passes(&[b'G', b'I', b'O', b'P', 1, minor, 0, 5, 0, 0, 0, 0]);
            lent.passes(&[b'G', b'I', b'O', b'P', 1, minor, 1, 6, 0, 0, 0, 0]);
        }
        assert_eq!(lent.record.open(), 3);
    }

    #[test]
    fn answer_1_stores_a_first_fragment_as_it_is() {
        for (flags, id) in [(MORE, 0x0102_0304), (MORE | LITTLE, 0x0403_0201)] {
            for kind in [REQUEST, REPLY, LOCATE_REQUEST, LOCATE_REPLY] {
                let octets = frame_of(2, flags, kind, id, b"12345678");
                let mut lent = Lent::new();
                lent.holds(&octets);
                assert_eq!(lent.record.ids, [id, 0, 0, 0]);
                assert_eq!(lent.record.lengths, [24, 0, 0, 0]);
                assert_eq!(lent.record.opened, [true, false, false, false]);
                assert_eq!(&lent.places[..24], &octets);
                assert!(lent.places[24..].iter().all(|&octet| octet == 0));
            }
        }
    }

    #[test]
    fn answer_1_adds_a_middle_fragment_without_its_id() {
        let mut lent = Lent::with_open(&[3, 9]);
        lent.holds(&middle(9, b"abcdefgh"));
        lent.holds(&middle(9, b""));
        lent.holds(&middle(9, b"ijklmnop"));
        let place = &lent.places[PLACE_OCTETS..2 * PLACE_OCTETS];
        assert_eq!(&place[..16], &first(9));
        assert_eq!(&place[16..32], b"abcdefghijklmnop");
        assert!(place[32..].iter().all(|&octet| octet == 0));
        assert_eq!(lent.record.lengths, [16, 32, 0, 0]);
    }

    #[test]
    fn answer_2_joins_in_either_order() {
        for order in [0, LITTLE] {
            for kind in [REQUEST, REPLY, LOCATE_REQUEST, LOCATE_REPLY] {
                let mut lent = Lent::new();
                lent.holds(&frame_of(2, order | MORE, kind, 9, b"first ok"));
                lent.holds(&frame_of(2, order | MORE, FRAGMENT, 9, b"then two"));
                let message = frame_of(2, order, kind, 9, b"first okthen twoend");
                let last = frame_of(2, order, FRAGMENT, 9, b"end");
                lent.writes(&last, JOINED, &message);
                // A freed place keeps its id, length and octets.
                assert_eq!(lent.record.ids, [9, 0, 0, 0]);
                assert_eq!(lent.record.lengths, [32, 0, 0, 0]);
                assert_eq!(lent.record.opened, [false; 4]);
            }
        }
    }

    #[test]
    fn answer_3_writes_the_cancel_and_frees_the_place() {
        for minor in 0..=2 {
            for flags in [0, LITTLE] {
                let mut lent = Lent::with_open(&[1, 9]);
                let octets = frame_of(minor, flags, CANCEL_REQUEST, 9, &[]);
                lent.writes(&octets, CANCELLED, &octets);
                assert_eq!(lent.record.ids, [1, 9, 0, 0]);
                assert_eq!(lent.record.lengths, [16, 16, 0, 0]);
                assert_eq!(lent.record.opened, [true, false, false, false]);
                lent.passes(&octets);
                lent.refuses(&last(9, b""), 24);
            }
        }
    }

    #[test]
    fn a_cancel_with_no_such_id_is_0() {
        let mut lent = Lent::with_open(&[1]);
        lent.passes(&cancel(9));
        lent.passes(&cancel(0));
        lent.passes(&cancel(0x0100_0000));
    }

    #[test]
    fn refusals_of_lines_and_frames_come_first() {
        let mut lent = Lent::with_open(&[9]);
        lent.record.ids[1] = 9;
        lent.record.opened[1] = true;
        lent.refuses(&[0; 4_097], 10);
        lent.refuses(&first(9)[..11], 12);
        lent.refuses(&frame_of(3, 0, FRAGMENT, 9, b""), 14);
        lent.refuses(&frame_of(1, 0, FRAGMENT, 9, b""), 20);
        lent.refuses(&frame_of(2, MORE, FRAGMENT, 9, b"a"), 21);
        lent.refuses(&first(9), 28);
    }

    #[test]
    fn refusal_22_for_whole_messages_and_first_fragments() {
        let mut lent = Lent::with_open(&[9]);
        for order in [0, LITTLE] {
            for kind in [REQUEST, REPLY, LOCATE_REQUEST, LOCATE_REPLY] {
                lent.refuses(&frame_of(2, order, kind, 9, b""), 22);
                lent.refuses(&frame_of(2, order | MORE, kind, 9, b""), 22);
            }
        }
        lent.writes(&last(9, b""), JOINED, &frame_of(2, 0, REQUEST, 9, b""));
        lent.passes(&whole(9));
    }

    #[test]
    fn refusal_23_for_first_fragments_only() {
        let mut lent = Lent::with_open(&[1, 2, 3, 4]);
        lent.refuses(&first(5), 23);
        lent.refuses(&first(4), 22);
        lent.passes(&whole(5));
        lent.writes(&cancel(4), CANCELLED, &cancel(4));
        lent.holds(&first(5));
    }

    #[test]
    fn refusal_24_for_ids_that_are_not_open() {
        let mut lent = Lent::new();
        lent.refuses(&last(0, b""), 24);
        lent.holds(&first(9));
        lent.refuses(&last(0, b""), 24);
        lent.refuses(&middle(8, b""), 24);
        lent.refuses(&last(0x0900_0000, b""), 24);
        // These octets are the open id's, but their number is another.
        lent.refuses(&frame_of(2, LITTLE, FRAGMENT, 0x0900_0000, b""), 24);
    }

    #[test]
    fn refusal_25_where_the_byte_order_differs() {
        let mut lent = Lent::with_open(&[9]);
        lent.refuses(&frame_of(2, LITTLE, FRAGMENT, 9, b""), 25);
        lent.refuses(&frame_of(2, LITTLE | MORE, FRAGMENT, 9, b""), 25);
        lent.writes(&last(9, b""), JOINED, &frame_of(2, 0, REQUEST, 9, b""));
    }

    #[test]
    fn refusal_25_by_the_octets_that_the_place_stores() {
        let mut lent = Lent::with_open(&[9]);
        for minor in [0, 1, 3, 255] {
            lent.places[MINOR_AT] = minor;
            lent.refuses(&last(9, b""), 25);
        }
        lent.places[MINOR_AT] = 2;
        lent.places[FLAGS_AT] = LITTLE;
        lent.refuses(&last(9, b""), 25);
        let last = frame_of(2, LITTLE, FRAGMENT, 9, b"");
        // The size is written in the order that the place's flags say.
        let message = b"GIOP\x01\x02\x01\x00\x04\x00\x00\x00\x00\x00\x00\x09";
        lent.writes(&last, JOINED, message);
    }

    #[test]
    fn a_places_other_octets_are_taken_as_they_are() {
        let mut lent = Lent::with_open(&[9]);
        lent.places[..16].copy_from_slice(b"giop\xFF\x02\xFE\xABsizeidid");
        let message = b"giop\xFF\x02\xFC\xAB\x00\x00\x00\x07idid+++";
        lent.writes(&last(9, b"+++"), JOINED, message);
    }

    /// A record with message 9 open and so many octets stored.
    fn filled(length: usize) -> Lent {
        let mut lent = Lent::with_open(&[9]);
        lent.record.lengths[0] = length;
        lent
    }

    #[test]
    fn refusal_26_at_a_last_fragment() {
        for (length, part) in [(16_384, 0), (16_383, 1), (12_310, 4_074), (12_305, 4_079)] {
            let mut lent = filled(length);
            lent.refuses(&last(9, &vec![0; part + 1]), 26);
            let answer = lent.answer(&last(9, &vec![0; part]));
            let joined = Answer {
                number: JOINED,
                written: PLACE_OCTETS,
            };
            assert_eq!(answer, joined);
            assert_eq!(lent.output[SIZE_AT..HEADER_LENGTH], [0, 0, 0x3F, 0xF4]);
        }
    }

    #[test]
    fn refusal_26_at_a_middle_fragment_leaves_the_message_open() {
        let mut lent = filled(16_380);
        lent.refuses(&middle(9, b"12345678"), 26);
        lent.holds(&middle(9, b""));
        let mut lent = filled(16_376);
        lent.holds(&middle(9, b"12345678"));
        assert_eq!(&lent.places[16_376..16_384], b"12345678");
        assert!(lent.places[16_384..].iter().all(|&octet| octet == 0));
        lent.refuses(&middle(9, b"12345678"), 26);
        assert_eq!(lent.answer(&last(9, b"")).written, 16_384);
    }

    #[test]
    fn refusal_27_is_the_last() {
        let mut lent = Lent::with_open(&[9]);
        for length in [0, 16] {
            lent.output.truncate(length);
            lent.refuses(&whole(9), 22);
            lent.refuses(&last(8, b"part"), 24);
            lent.refuses(&frame_of(2, LITTLE, FRAGMENT, 9, b"part"), 25);
            lent.refuses(&whole(8), 27);
            lent.refuses(&last(9, b"part"), 27);
        }
        lent.output.truncate(15);
        lent.refuses(&cancel(9), 27);
        lent.refuses(&cancel(8), 27);
        lent.refuses(&last(9, b""), 27);
        lent.record.lengths[0] = 16_384;
        lent.refuses(&last(9, b"a"), 26);
    }

    #[test]
    fn an_output_of_just_the_message_is_enough() {
        let mut lent = Lent::with_open(&[9, 10]);
        lent.output.truncate(21);
        lent.passes(&whole(8));
        let message = frame_of(2, 0, REQUEST, 9, b"ended");
        lent.writes(&last(9, b"ended"), JOINED, &message);
        lent.output.truncate(16);
        lent.writes(&cancel(10), CANCELLED, &cancel(10));
    }

    #[test]
    fn a_held_fragment_needs_no_output() {
        let mut lent = Lent::new();
        lent.output.clear();
        lent.holds(&first(9));
        lent.holds(&middle(9, b"12345678"));
    }

    #[test]
    fn refusal_28_for_one_id_open_twice() {
        for (one, other) in [(0, 1), (0, 3), (1, 2), (2, 3)] {
            let mut lent = Lent::with_open(&[1, 2, 3, 4]);
            lent.record.ids[other] = lent.record.ids[one];
            lent.refuses(&whole(9), 28);
            lent.record.opened[one] = false;
            lent.passes(&whole(9));
        }
    }

    #[test]
    fn refusal_28_for_places_that_are_too_short() {
        for length in [0, 16_383, 16_384, 65_535] {
            let mut lent = Lent::new();
            lent.places.truncate(length);
            lent.refuses(&whole(9), 28);
            lent.refuses(&first(9), 28);
        }
    }

    #[test]
    fn octets_after_the_places_are_not_touched() {
        let mut lent = Lent::with_open(&[1, 2, 3, 4]);
        lent.places.extend([0xAA; 100]);
        lent.record.lengths[3] = 16_376;
        lent.holds(&middle(4, b"12345678"));
        lent.refuses(&middle(4, b"12345678"), 26);
        assert_eq!(lent.places[65_528..65_536], *b"12345678");
        assert!(lent.places[65_536..].iter().all(|&octet| octet == 0xAA));
    }

    #[test]
    fn refusal_28_for_open_lengths_only() {
        for length in [0, 15, 16_385, usize::MAX] {
            for place in 0..PLACES {
                let mut lent = Lent::with_open(&[1, 2, 3, 4]);
                lent.record.lengths[place] = length;
                lent.refuses(&whole(9), 28);
                lent.record.opened[place] = false;
                lent.passes(&whole(9));
            }
        }
    }

    #[test]
    fn refusal_28_for_any_message_and_before_22() {
        let mut lent = Lent::with_open(&[1, 2, 3, 4]);
        lent.record.lengths[3] = 15;
        lent.refuses(&whole(1), 28);
        lent.refuses(&first(5), 28);
        lent.refuses(&last(5, b""), 28);
        lent.refuses(&frame_of(2, LITTLE, FRAGMENT, 1, b""), 28);
        lent.refuses(&cancel(1), 28);
        lent.refuses(&frame_of(0, 0, REQUEST, 1, b""), 28);
        lent.refuses(b"GIOP\x01\x00\x00\x05\x00\x00\x00\x00", 28);
        lent.output.clear();
        lent.refuses(&whole(5), 28);
    }

    #[test]
    fn the_lowest_free_place_is_used() {
        let mut lent = Lent::with_open(&[1, 2, 3, 4]);
        lent.answer(&cancel(3));
        lent.answer(&last(2, b""));
        lent.holds(&first(5));
        assert_eq!(lent.record.ids, [1, 5, 3, 4]);
        assert_eq!(lent.record.opened, [true, true, false, true]);
        lent.answer(&last(1, b""));
        lent.holds(&first(6));
        lent.holds(&first(7));
        assert_eq!(lent.record.ids, [6, 5, 7, 4]);
        assert_eq!(lent.record.open(), 4);
    }

    #[test]
    fn interleaved_messages_keep_apart() {
        let mut lent = Lent::with_open(&[1, 2]);
        lent.holds(&middle(2, b"22222222"));
        lent.holds(&middle(1, b"11111111"));
        let second = frame_of(2, 0, REQUEST, 2, b"22222222end");
        lent.writes(&last(2, b"end"), JOINED, &second);
        let first = frame_of(2, 0, REQUEST, 1, b"11111111");
        lent.writes(&last(1, b""), JOINED, &first);
    }

    #[test]
    fn an_id_is_compared_as_a_number() {
        let mut lent = Lent::new();
        lent.holds(&frame_of(2, LITTLE | MORE, REQUEST, 9, b""));
        lent.refuses(&whole(9), 22);
        lent.refuses(&last(9, b""), 25);
        // The same octets in big-endian are another number.
        lent.passes(&whole(0x0900_0000));
        lent.refuses(&last(0x0900_0000, b""), 24);
        lent.writes(&cancel(9), CANCELLED, &cancel(9));
    }
}
