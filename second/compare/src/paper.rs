//! The paper's samples that no list has: a frame, lines, kinds and joined lengths
//! at their limits, and the whole example. Both sides are held to what it says.

use chance::Chance;
use second::frame::frame;
use second::joining::{self, Record, CANCELLED, JOINED, PLACE_OCTETS, WHOLE};
use second::typecode::{self, LONG, MOST_KINDS};

use crate::archive::{self, Checked};
use crate::fragments::{Message, LONGEST_PART};
use crate::judge::Judge;
use crate::layout::{laid_out, Sample};
use crate::start::ALL_PLACES;
use crate::tree::Node;

/// The whole example's lines.
const EXAMPLE: [&str; 3] = [
    "47494F50010202000000000400000009",
    "47494F50010200070000000600000009ABCD",
    "47",
];

/// What its lines are answered, with the messages' digits.
const ANSWERS: [(u32, &str); 3] = [
    (1, ""),
    (2, "47494F50010200000000000600000009ABCD"),
    (12, ""),
];

/// A line's answer, and the message that it gives.
type Answered = (u32, Vec<u8>);

/// Joins a line's octets on either side.
type Join = fn(&[u8], &mut Record, &mut [u8], &mut [u8], &mut u64) -> u32;

/// Judges every sample.
pub fn judge(judge: &mut Judge) {
    header(judge);
    longest_lines(judge);
    kinds(judge);
    joined_lengths(judge);
    example(judge);
}

/// Enters a sample with what both sides give, and what the paper says.
fn hold<T: PartialEq + std::fmt::Debug>(judge: &mut Judge, name: &str, found: [T; 2], paper: T) {
    let alike = found.iter().all(|found| *found == paper);
    let difference =
        (!alike).then(|| format!("archive and second give {found:X?}, not {paper:X?}"));
    let name = format!("sample ({name})");
    judge.tally.hold(&name, &[], difference);
}

/// The header of type 5 and size 0.
fn header(judge: &mut Judge) {
    let octets = *b"GIOP\x01\0\0\x05\0\0\0\0";
    judge.frame(&octets);
    let mut numbers = [0; 7];
    let number = archive::frame(&octets, &mut numbers);
    let found = (number, numbers[3], numbers[4]);
    let expected = match frame(&octets) {
        Ok(header) => (0, header.kind.into(), header.size.into()),
        Err(refusal) => (refusal, 0, 0),
    };
    hold(judge, "header", [found, expected], (0, 5, 0));
}

/// Lines of 8,192 and of 8,194 digits: a message of 4,096 octets and 10.
fn longest_lines(judge: &mut Judge) {
    let chance = &mut Chance::new(0x0_04C);
    let message = Message::by_chance(chance, 9).whole(LONGEST_PART);
    let octets = message.octets(chance);
    for (more, paper) in [(&[][..], (0, 4_096)), (&[0], (10, 0))] {
        let octets = [&octets, more].concat();
        let line = second::encode(&octets);
        judge.line(&line);
        judge.frame(&octets);
        let mut count = 0;
        let number = archive::decode(&line, &mut [0; 5_000], &mut count);
        let second = match second::decode(&line) {
            Ok(octets) => (0, octets.len() as u64),
            Err(refusal) => (refusal, 0),
        };
        let name = format!("line of {} digits", line.len());
        hold(judge, &name, [(number, count), second], paper);
    }
}

/// Types of 64 and of 65 kinds.
fn kinds(judge: &mut Judge) {
    let chance = &mut Chance::new(0x0_04D);
    for (kinds, paper) in [(64, (0, 64)), (65, (37, 0))] {
        let members = vec![Node::plain(LONG); kinds - 1];
        let node = Node::of_members(chance, members);
        let Sample { octets, little, .. } = laid_out(chance, &node, false);
        let name = format!("{kinds} kinds");
        judge.typecode(&name, &octets, little);
        let mut checked = Checked {
            places: [0; MOST_KINDS],
            starts: [0; MOST_KINDS],
            orders: [0; MOST_KINDS],
            numbers: [0; 2],
        };
        let number = archive::typecode(&octets, little, &mut checked);
        let second = match typecode::check(&octets, little) {
            Ok(checked) => (0, checked.kinds.len() as u64),
            Err(refusal) => (refusal, 0),
        };
        hold(judge, &name, [(number, checked.numbers[1]), second], paper);
    }
}

/// Joined messages of 16,384 and of 16,385 octets.
fn joined_lengths(judge: &mut Judge) {
    let chance = &mut Chance::new(0x0_04E);
    for (length, paper) in [(16_384, (2, 16_384)), (16_385, (26, 0))] {
        let message = Message::by_chance(chance, 9);
        let stored = 16 + 4 * LONGEST_PART;
        let mut drafts = vec![message.first(LONGEST_PART)];
        drafts.extend([message.middle(LONGEST_PART); 3]);
        drafts.push(message.last(length - stored));
        let lines: Vec<Vec<u8>> = drafts.iter().map(|draft| draft.octets(chance)).collect();
        let found = sides().map(|side| {
            let answered = answered(side, &lines);
            answered
                .last()
                .map(|(number, message)| (*number, message.len()))
        });
        hold(judge, &format!("joined {length}"), found, Some(paper));
    }
}

/// The whole example.
fn example(judge: &mut Judge) {
    let octets = |digits: &str| second::decode(digits.as_bytes()).unwrap_or_default();
    let lines = EXAMPLE.map(octets);
    let paper = ANSWERS.map(|(number, digits)| (number, octets(digits)));
    let found = sides().map(|side| answered(side, &lines));
    hold(judge, "whole example", found, paper.to_vec());
}

/// The archive's joining and the second program's.
fn sides() -> [Join; 2] {
    [archive::join, |octets, record, places, output, count| {
        let answer = joining::join(octets, record, places, output);
        if [WHOLE, JOINED, CANCELLED].contains(&answer.number) {
            *count = answer.written as u64;
        }
        answer.number
    }]
}

/// What one side answers to the lines of a recording.
fn answered(join: Join, lines: &[Vec<u8>]) -> Vec<Answered> {
    let mut record = Record::default();
    let mut places = vec![0; ALL_PLACES];
    let mut answered = Vec::new();
    for line in lines {
        let (mut output, mut count) = (vec![0; PLACE_OCTETS], 0);
        let number = join(line, &mut record, &mut places, &mut output, &mut count);
        output.truncate(count as usize);
        answered.push((number, output));
    }
    answered
}
