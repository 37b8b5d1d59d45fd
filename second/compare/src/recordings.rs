//! Recordings for the proved program, held to the second program's output.

use std::io::{self, Write};
use std::path::Path;
use std::process::{Command, Stdio};
use std::thread;

use chance::Chance;
use second::hexline::LONGEST_LINE;
use second::recording::answer_lines;

use crate::draft::{Draft, FAULTS};
use crate::fragments::{Message, LONGEST_PART};
use crate::joinings::{self, GENERATORS};
use crate::judge::Judge;
use crate::lines::digits_of;

/// The characters that the proved program reads at once.
const BLOCK: usize = 1 << 16;

/// How many recordings of each generator of joining go to the program.
const EACH: u64 = 1_250;

/// Gives every recording to the program, and holds its output.
pub fn judge(judge: &mut Judge, program: &Path) -> io::Result<()> {
    let chance = &mut Chance::new(0x002E_C02D);
    for recording in fixed() {
        hold(judge, "program", program, &recording)?;
    }
    for length in lengths() {
        hold(judge, "program", program, &vec![b'0'; length])?;
        hold(judge, "program", program, &around(chance, length))?;
    }
    for _ in 0..400 {
        let lines = 1 + chance.below(40);
        let recording = by_chance(chance, lines);
        hold(judge, "program", program, &recording)?;
    }
    let long = by_chance(chance, 20_000);
    hold(judge, "program", program, &long)?;
    for lines in limits() {
        let recording = text(chance, &lines);
        hold(judge, "program (limits)", program, &recording)?;
    }
    generated(judge, chance, program)
}

/// Recordings of all generators of joining, each alone and all as one.
fn generated(judge: &mut Judge, chance: &mut Chance, program: &Path) -> io::Result<()> {
    let mut all = Vec::new();
    for number in 0..EACH {
        for (generator, (name, _)) in GENERATORS.iter().enumerate() {
            let lines = joinings::recording(generator, number).lines;
            let recording = text(chance, &lines);
            let name = format!("program ({name}, recording {number})");
            hold(judge, &name, program, &recording)?;
            all.extend(lines);
        }
    }
    let recording = text(chance, &all);
    hold(judge, "program (all generators)", program, &recording)
}

/// The lines as digits, the last one with or without its LF.
fn text(chance: &mut Chance, lines: &[Vec<u8>]) -> Vec<u8> {
    let mut text = Vec::new();
    for line in lines {
        text.extend(digits_of(chance, line));
        text.push(b'\n');
    }
    if chance.once_in(2) {
        text.pop();
    }
    text
}

/// Recordings that reach the limits: joined messages of 16,383 to 16,385
/// octets, and lines of 8,192 and 8,194 digits, whole and in fragments.
fn limits() -> Vec<Vec<Vec<u8>>> {
    let chance = &mut Chance::new(0x11_317);
    let mut recordings = Vec::new();
    for _ in 0..8 {
        let message = Message::by_chance(chance, 9);
        for rest in 47..=49 {
            let mut drafts = vec![message.first(LONGEST_PART)];
            drafts.extend([message.middle(LONGEST_PART); 3]);
            drafts.extend([message.last(rest), message.last(0)]);
            recordings.push(drafts);
        }
        for part in [LONGEST_PART, LONGEST_PART + 1] {
            recordings.push(vec![message.whole(part), message.first(0)]);
            recordings.push(vec![message.first(0), message.last(part), message.whole(0)]);
        }
    }
    let octets = |drafts: Vec<Draft>| drafts.iter().map(|draft| draft.octets(chance)).collect();
    recordings.into_iter().map(octets).collect()
}

/// Recordings by hand: the paper's example, and every way a line can end.
fn fixed() -> Vec<Vec<u8>> {
    let example = "47494F50010202000000000400000009\n47494F50010200070000000600000009ABCD\n47\n";
    let mut recordings: Vec<Vec<u8>> = ["", "\n", "\n\n", "\r\n", "47", "47\n", "47\r\n", " \n47"]
        .iter()
        .map(|text| text.as_bytes().to_vec())
        .collect();
    recordings.push(example.as_bytes().to_vec());
    recordings.push(example.trim_end().as_bytes().to_vec());
    recordings
}

/// Lengths of lines around the limit and around whole blocks.
fn lengths() -> impl Iterator<Item = usize> {
    [LONGEST_LINE, BLOCK, 2 * BLOCK, 16 * BLOCK]
        .into_iter()
        .flat_map(|length| length - 2..=length + 2)
}

/// A line of so many characters between two short ones.
fn around(chance: &mut Chance, length: usize) -> Vec<u8> {
    let mut recording = line(chance);
    recording.push(b'\n');
    recording.extend(std::iter::repeat_n(chance.pick(b"0Fg"), length));
    recording.push(b'\n');
    recording.extend(line(chance));
    recording
}

/// So many lines, the last one with or without its LF.
fn by_chance(chance: &mut Chance, lines: usize) -> Vec<u8> {
    let mut recording = Vec::new();
    for _ in 0..lines {
        recording.extend(line(chance));
        recording.push(b'\n');
    }
    if chance.once_in(2) {
        recording.pop();
    }
    recording
}

/// A line: a good frame, one with a fault, spoilt digits, or nothing.
fn line(chance: &mut Chance) -> Vec<u8> {
    let mut draft = Draft::valid(chance);
    if chance.once_in(3) {
        chance.pick(&FAULTS).plant(&mut draft);
    }
    let octets = draft.octets(chance);
    let mut line = digits_of(chance, &octets);
    if chance.once_in(20) {
        line.push(chance.pick(b"\r 0gG\0"));
    }
    if chance.once_in(30) {
        line.clear();
    }
    line
}

/// Gives one recording to both programs.
fn hold(judge: &mut Judge, name: &str, program: &Path, recording: &[u8]) -> io::Result<()> {
    let mut expected = Vec::new();
    answer_lines(recording, &mut expected)
        .map_err(|failure| io::Error::other(failure.to_string()))?;
    let found = run(program, recording)?;
    let difference = difference(&found, &expected);
    judge.tally.hold(name, recording, difference);
    Ok(())
}

/// The first line in which two outputs differ.
fn difference(found: &[u8], expected: &[u8]) -> Option<String> {
    if found == expected {
        return None;
    }
    let mut lines = found
        .split(|&c| c == b'\n')
        .zip(expected.split(|&c| c == b'\n'));
    let line = lines.position(|(ours, theirs)| ours != theirs);
    Some(format!("output differs at line {line:?} from 0"))
}

/// What the program writes for an input.
pub fn run(program: &Path, recording: &[u8]) -> io::Result<Vec<u8>> {
    let mut child = Command::new(program)
        .stdin(Stdio::piped())
        .stdout(Stdio::piped())
        .spawn()?;
    let mut input = child.stdin.take().ok_or(io::ErrorKind::BrokenPipe)?;
    thread::scope(|scope| {
        let fed = scope.spawn(move || input.write_all(recording));
        let output = child.wait_with_output()?;
        fed.join().map_err(|_| io::ErrorKind::Other)??;
        Ok(output.stdout)
    })
}
