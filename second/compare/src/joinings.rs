//! Inputs of the section on joining: the lines of recordings.

use chance::Chance;
use second::frame::{CLOSE_CONNECTION, FRAGMENT, MESSAGE_ERROR};
use second::joining::{PLACES, PLACE_OCTETS};

use crate::draft::{Draft, FAULTS, LITTLE, MORE};
use crate::fragments::{aligned_part, cancel, ids, interleaved, put, Message, LONGEST_PART};
use crate::frames::mutated;
use crate::judge::Judge;
use crate::start::Start;

/// The most lines of a recording.
const MOST_LINES: usize = 40;

/// How many recordings of each generator are judged.
const EACH: u64 = 4_000;

/// A recording: what is lent at its start, and the octets of its lines.
pub struct Recording {
    /// What is lent at its start.
    pub start: Start,
    /// The octets of each line.
    pub lines: Vec<Vec<u8>>,
}

/// Makes a recording by chance.
pub type Generator = fn(&mut Chance) -> Recording;

/// All generators, with their names.
pub const GENERATORS: [(&str, Generator); 16] = [
    ("interleaved", interleaved_messages),
    ("cancelled", cancelled),
    ("repeated lines", repeated_lines),
    ("open ids", open_ids),
    ("crowded", crowded),
    ("unknown ids", unknown_ids),
    ("other orders", other_orders),
    ("whole between", whole_between),
    ("joined lengths", joined_lengths),
    ("middle lengths", middle_lengths),
    ("damaged", damaged),
    ("mutated", mutated_lines),
    ("few ids", few_ids),
    ("lent open", lent_open),
    ("lent first frames", lent_first_frames),
    ("lent unsound", lent_unsound),
];

/// Judges the recordings of every generator.
pub fn judge(judge: &mut Judge) {
    for number in 0..EACH {
        for (index, (name, _)) in GENERATORS.iter().enumerate() {
            let name = format!("join ({name}, recording {number})");
            judge.recording(&name, &recording(index, number));
        }
    }
}

/// A generator's recording of this number.
pub fn recording(generator: usize, number: u64) -> Recording {
    let (_, generate) = GENERATORS[generator];
    generate(&mut Chance::new(((generator as u64) << 32) + number))
}

impl Recording {
    /// The octets of the drafts, with nothing open at the start.
    fn of_drafts(chance: &mut Chance, ids: &[u32; 6], drafts: Vec<Draft>) -> Self {
        let start = Start::closed(chance, ids);
        Recording::from_start(chance, start, drafts)
    }

    /// The octets of the drafts.
    fn from_start(chance: &mut Chance, start: Start, drafts: Vec<Draft>) -> Self {
        let lines = drafts.iter().take(MOST_LINES);
        Recording {
            start,
            lines: lines.map(|draft| draft.octets(chance)).collect(),
        }
    }
}

/// One to five messages in fragments, mixed.
fn some_messages(chance: &mut Chance, ids: &[u32; 6]) -> Vec<Draft> {
    let count = 1 + chance.below(5);
    interleaved(chance, &ids[..count])
}

/// Fragments of up to five messages.
fn interleaved_messages(chance: &mut Chance) -> Recording {
    let ids = ids(chance);
    let drafts = some_messages(chance, &ids);
    Recording::of_drafts(chance, &ids, drafts)
}

/// Messages in fragments, twice over, with cancels of open and unknown ids.
fn cancelled(chance: &mut Chance) -> Recording {
    let ids = ids(chance);
    let mut drafts = some_messages(chance, &ids);
    drafts.extend(some_messages(chance, &ids));
    for _ in 0..1 + chance.below(8) {
        let id = chance.pick(&ids);
        let cancel = cancel(chance, id);
        put(chance, &mut drafts, cancel);
    }
    Recording::of_drafts(chance, &ids, drafts)
}

/// Messages in fragments of which some lines come twice, at once or later.
fn repeated_lines(chance: &mut Chance) -> Recording {
    let ids = ids(chance);
    let drafts = some_messages(chance, &ids);
    let mut recording = Recording::of_drafts(chance, &ids, drafts);
    for _ in 0..1 + chance.below(6) {
        let index = chance.below(recording.lines.len());
        let line = recording.lines[index].clone();
        let later = match chance.below(2) {
            0 => 0,
            _ => chance.below(6),
        };
        let place = (index + later).min(recording.lines.len());
        recording.lines.insert(place, line);
    }
    recording.lines.truncate(MOST_LINES);
    recording
}

/// Messages in fragments, with whole messages and first fragments of their ids
/// between them.
fn open_ids(chance: &mut Chance) -> Recording {
    let ids = ids(chance);
    let mut drafts = some_messages(chance, &ids);
    for _ in 0..1 + chance.below(8) {
        let id = chance.pick(&ids);
        let message = Message::by_chance(chance, id);
        let part = aligned_part(chance);
        let draft = match chance.below(2) {
            0 => message.whole(part + chance.below(8)),
            _ => message.first(part),
        };
        put(chance, &mut drafts, draft);
    }
    Recording::of_drafts(chance, &ids, drafts)
}

/// More first fragments than there are places, with places freed in between.
fn crowded(chance: &mut Chance) -> Recording {
    let ids = ids(chance);
    let messages = ids.map(|id| Message::by_chance(chance, id));
    let mut drafts = Vec::new();
    for message in messages.iter().take(3 + chance.below(4)) {
        drafts.push(message.first(aligned_part(chance)));
    }
    for _ in 0..chance.below(30) {
        let message = chance.pick(&messages);
        drafts.push(match chance.below(5) {
            0 => message.last(chance.below(20)),
            1 => cancel(chance, message.id),
            _ => message.first(aligned_part(chance)),
        });
    }
    Recording::of_drafts(chance, &ids, drafts)
}

/// Messages in fragments, with fragments of ids that are near theirs.
fn unknown_ids(chance: &mut Chance) -> Recording {
    let ids = ids(chance);
    let mut drafts = some_messages(chance, &ids);
    for _ in 0..1 + chance.below(8) {
        let id = chance.pick(&ids);
        let other = chance.pick(&[id, id.swap_bytes(), id ^ 1, id ^ (1 << 31), !id]);
        let fragment = Message::by_chance(chance, other).any_fragment(chance);
        put(chance, &mut drafts, fragment);
    }
    Recording::of_drafts(chance, &ids, drafts)
}

/// Messages in fragments, each of them sometimes in the other byte order.
fn other_orders(chance: &mut Chance) -> Recording {
    let ids = ids(chance);
    let mut drafts = Vec::new();
    for draft in some_messages(chance, &ids) {
        if chance.once_in(3) {
            let flags = draft.flags ^ LITTLE;
            drafts.push(Draft { flags, ..draft });
        }
        if !chance.once_in(8) {
            drafts.push(draft);
        }
    }
    let extra = Message::by_chance(chance, ids[0]);
    drafts.push(extra.first(0));
    drafts.push(extra.in_other_order().any_fragment(chance));
    drafts.push(extra.last(5));
    Recording::of_drafts(chance, &ids, drafts)
}

/// Messages in fragments, with frames of all types and versions between them.
fn whole_between(chance: &mut Chance) -> Recording {
    let ids = ids(chance);
    let mut drafts = some_messages(chance, &ids);
    for _ in 0..1 + chance.below(12) {
        let id = chance.pick(&ids);
        let draft = match chance.below(4) {
            0 => without_body(chance),
            1 => of_earlier_version(chance, id),
            2 => Draft::valid(chance),
            _ => Draft::valid(chance).with_id(id),
        };
        put(chance, &mut drafts, draft);
    }
    Recording::of_drafts(chance, &ids, drafts)
}

/// A CloseConnection or a MessageError.
fn without_body(chance: &mut Chance) -> Draft {
    let kind = chance.pick(&[CLOSE_CONNECTION, MESSAGE_ERROR]);
    let order = chance.pick(&[0, LITTLE]);
    Draft::new(chance.below(3) as u8, order, kind, 0)
}

/// A frame of 1.0 or 1.1 with the id, some of them fragments, which these
/// versions may not have.
fn of_earlier_version(chance: &mut Chance, id: u32) -> Draft {
    let order = chance.pick(&[0, LITTLE]);
    let more = chance.pick(&[0, 0, 0, MORE]);
    let kind = chance.pick(&[0, 1, 3, 4, FRAGMENT]);
    let body = 4 + 8 * chance.below(4);
    Draft::new(chance.below(2) as u8, order | more, kind, body).with_id(id)
}

/// A message in fragments whose joined length is about the longest; after a
/// refusal a shorter last fragment completes it.
fn joined_lengths(chance: &mut Chance) -> Recording {
    let ids = ids(chance);
    let message = Message::by_chance(chance, ids[0]);
    let length = 16_380 + chance.below(11);
    let (mut drafts, rest) = almost(chance, message, length);
    drafts.push(message.last(rest));
    drafts.push(message.last(chance.below(rest + 1)));
    for &id in &ids[1..1 + chance.below(3)] {
        let other = Message::by_chance(chance, id).any_frame(chance);
        put(chance, &mut drafts, other);
    }
    Recording::of_drafts(chance, &ids, drafts)
}

/// A message in fragments that reaches its longest, or nearly so, with a middle
/// one, and then goes on.
fn middle_lengths(chance: &mut Chance) -> Recording {
    let ids = ids(chance);
    let message = Message::by_chance(chance, ids[0]);
    let length = 16_368 + 8 * chance.below(5);
    let (mut drafts, rest) = almost(chance, message, length);
    drafts.push(message.middle(rest));
    for _ in 0..1 + chance.below(4) {
        drafts.push(message.middle(8 * chance.below(3)));
    }
    for _ in 0..1 + chance.below(3) {
        drafts.push(message.last(chance.below(18)));
    }
    Recording::of_drafts(chance, &ids, drafts)
}

/// First and middle fragments of a message that is to have this length, and
/// the octets that are left for its end.
fn almost(chance: &mut Chance, message: Message, length: usize) -> (Vec<Draft>, usize) {
    let first = long_part(chance);
    let mut drafts = vec![message.first(first)];
    let mut rest = length - 16 - first;
    while rest > LONGEST_PART {
        let part = long_part(chance);
        drafts.push(message.middle(part));
        rest -= part;
    }
    (drafts, rest)
}

/// A multiple of 8 octets, mostly as many as a frame can have.
fn long_part(chance: &mut Chance) -> usize {
    match chance.once_in(4) {
        true => 8 * chance.below(LONGEST_PART / 8),
        false => LONGEST_PART,
    }
}

/// Messages in fragments with faults in the header, some of them beside the
/// sound line.
fn damaged(chance: &mut Chance) -> Recording {
    let ids = ids(chance);
    let mut drafts = Vec::new();
    for sound in some_messages(chance, &ids) {
        let mut draft = sound;
        if chance.once_in(2) {
            chance.pick(&FAULTS).plant(&mut draft);
            drafts.push(draft);
        }
        if !chance.once_in(4) {
            drafts.push(sound);
        }
    }
    Recording::of_drafts(chance, &ids, drafts)
}

/// Messages in fragments with a few octets changed, cut or added.
fn mutated_lines(chance: &mut Chance) -> Recording {
    let mut recording = cancelled(chance);
    for line in &mut recording.lines {
        if chance.once_in(4) {
            *line = mutated(chance, line.clone());
        }
    }
    recording
}

/// Frames of all kinds in any order, with one to six ids.
fn few_ids(chance: &mut Chance) -> Recording {
    let ids = ids(chance);
    let used = &ids[..1 + chance.below(6)];
    let mut drafts = Vec::new();
    for _ in 0..1 + chance.below(MOST_LINES) {
        let id = chance.pick(used);
        drafts.push(match chance.once_in(10) {
            true => cancel(chance, id),
            false => Message::by_chance(chance, id).any_frame(chance),
        });
    }
    Recording::of_drafts(chance, &ids, drafts)
}

/// Lines that go with the lent record: mostly its ids and byte orders, and
/// parts that come to the longest joined length, or around it.
fn fitting_lines(chance: &mut Chance, start: &Start, ids: &[u32; 6]) -> Vec<Draft> {
    let mut drafts = Vec::new();
    for _ in 0..1 + chance.below(8) {
        let place = chance.below(PLACES);
        let mut message = Message::by_chance(chance, start.record.ids[place]);
        if !chance.once_in(6) {
            message.order = start.order(place);
        }
        let left = PLACE_OCTETS.saturating_sub(start.record.lengths[place]);
        drafts.push(match chance.below(10) {
            0 => cancel(chance, message.id),
            1 => Message::by_chance(chance, ids[4]).any_frame(chance),
            2 => message.any_frame(chance),
            3 => without_body(chance),
            4..=6 if left < LONGEST_PART => message.last(left + chance.below(2)),
            7 if left < LONGEST_PART => message.middle((left + chance.below(8)) / 8 * 8),
            _ => message.any_fragment(chance),
        });
    }
    drafts
}

/// A sound record with messages open, and any octets in the places.
fn lent_open(chance: &mut Chance) -> Recording {
    let ids = ids(chance);
    let start = Start::open(chance, &ids);
    let drafts = fitting_lines(chance, &start, &ids);
    Recording::from_start(chance, start, drafts)
}

/// A sound record with messages open, whose first frames have other versions
/// and flags.
fn lent_first_frames(chance: &mut Chance) -> Recording {
    let ids = ids(chance);
    let mut start = Start::open(chance, &ids);
    for stored in start.stored.iter_mut().flatten() {
        let minor = chance.pick(&[0, 1, 2, 2, 2, 3, 0x82, 0xFF]);
        let flags = match chance.below(2) {
            0 => chance.pick(&[0, LITTLE, MORE, MORE | LITTLE]),
            _ => chance.octet(),
        };
        *stored = [minor, flags];
    }
    let drafts = fitting_lines(chance, &start, &ids);
    Recording::from_start(chance, start, drafts)
}

/// A record or places that no recording can have brought about, and lines of
/// all kinds, some of them refused for what they are.
fn lent_unsound(chance: &mut Chance) -> Recording {
    let ids = ids(chance);
    let mut start = Start::open(chance, &ids);
    start.spoil(chance);
    let mut drafts = fitting_lines(chance, &start, &ids);
    for draft in &mut drafts {
        if chance.once_in(4) {
            *draft = Draft::valid(chance);
        }
        if chance.once_in(8) {
            chance.pick(&FAULTS).plant(draft);
        }
    }
    Recording::from_start(chance, start, drafts)
}
