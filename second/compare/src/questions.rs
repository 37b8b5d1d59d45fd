//! Questions for the proved program, held to the second program's answers.

use std::io;
use std::path::Path;

use chance::Chance;
use second::inspect::{answer_questions, LONGEST_QUESTION};

use crate::judge::Judge;
use crate::layout::Sample;
use crate::lines::digits_of;
use crate::mutations::mutated;
use crate::orb;
use crate::profile_questions;
use crate::recordings::run;
use crate::types::{self, order_name, GENERATORS};
use crate::value_questions;

/// How many lines of questions go to the program at once.
const AT_ONCE: usize = 400;

/// The number from which on a generator's types are taken.
const FIRST: u64 = 1 << 30;

/// Words that are put into lines.
const WORDS: [&str; 24] = [
    "type",
    "Type",
    "types",
    "typ",
    "value",
    "item",
    "rewrite",
    "profile",
    "component",
    "components",
    "big",
    "Big",
    "BIG",
    "little",
    "Little",
    "0",
    "1",
    "-",
    "--",
    "",
    "00000003",
    "0x00000003",
    "0000000",
    "é",
];

/// Texts by hand: every way a line can end, and lines about headers, which are no
/// questions to either program.
const FIXED: [&str; 43] = [
    "",
    "\n",
    "\n\n",
    "\r\n",
    " ",
    "-",
    "type big -",
    "type big -\n",
    "type little -\n\n",
    "type big -\r\n",
    "\ntype big 00000003",
    "type big 00000003\ntype little 00000003\n",
    "type little 03000000\n\ntype big 03000000",
    "type big 000000130000000C000000000000000300000000\n",
    "type big 000000130000001000000000FFFFFFFFFFFFFFF000000000\n",
    "type\nbig\n00000003\n",
    "value big 00000000 big - 0 0",
    "value big 00000008 big 02 0 1\n\n",
    "value big 00000008 big 02 0 1\r\n",
    "item big 00000008 big 01 0 0\nitem big 00000008 big 01 0 1",
    "item big 00000006 little 0100A0FF 7 0\nitem big 00000007 big FFF4000000000000 0 0\n",
    "value\nbig\n",
    "rewrite big 00000000 big - 0 big 0 0",
    "rewrite big 00000003 big 00000001 0 little 0 4\nrewrite big 00000008 big 02 0 big 0 0\n",
    "rewrite big 00000008 big 01 0 big 0 0\n\n",
    "rewrite big 00000008 big 01 0 big 0 1\r\n",
    "rewrite\nbig\n",
    "profile -",
    "profile -\n\n",
    "profile 02\r\n",
    "profile\n-\n",
    "profile 000100000000000100EE005000000000\nprofile 000100000000000100EE00500000000000\n",
    "component - 0",
    "component 000101000000000100EE0050000000000000000000 0\r\n",
    "component 000101000000000100EE0050000000000000000100000007000000005A 0\ncomponent FF 9\n",
    "header -",
    "header -\n\n",
    "header 47494F500100000500000000\r\n",
    "header\n-\n",
    "header 47494F50010200010000000C000000070000000000000000\n",
    "context 47494F50010200010000000C000000070000000000000000 0\ncontext - 0",
    "target 47494F50010200010000000C000000070000000000000000 0\ntarget - 0\n",
    "head 47494F50010200010000000C000000070000000000000000 24\nhead - 0\nhead - 0\r\n",
];

/// Gives every question to the program, and holds its answers.
pub fn judge(judge: &mut Judge, program: &Path) -> io::Result<()> {
    let chance = &mut Chance::new(0x0905_7105);
    for text in FIXED {
        hold(judge, "fixed", program, text.as_bytes())?;
    }
    for lines in long_lines(chance) {
        let text = text_of(chance, &lines);
        hold(judge, "long lines", program, &text)?;
    }
    let about_types = questions(chance);
    let about_values = shuffled(chance, value_questions::lines);
    let about_rewriting = shuffled(chance, value_questions::rewrite_lines);
    let about_profiles = shuffled(chance, profile_questions::lines);
    let sections = [
        ("types", about_types),
        ("values", about_values),
        ("rewriting", about_rewriting),
        ("profiles", about_profiles),
    ];
    for (name, all) in &sections {
        for lines in all.chunks(AT_ONCE) {
            let text = text_of(chance, lines);
            hold(judge, name, program, &text)?;
        }
    }
    let mut all = sections.map(|(_, lines)| lines).concat();
    shuffle(chance, &mut all);
    let text = text_of(chance, &all);
    hold(judge, "all", program, &text)
}

/// Lines in any order.
fn shuffled(chance: &mut Chance, make: fn(&mut Chance) -> Vec<Vec<u8>>) -> Vec<Vec<u8>> {
    let mut lines = make(chance);
    shuffle(chance, &mut lines);
    lines
}

/// The lines, the last one with or without its LF.
fn text_of(chance: &mut Chance, lines: &[Vec<u8>]) -> Vec<u8> {
    let mut text = lines.join(&b'\n');
    if chance.once_in(2) {
        text.push(b'\n');
    }
    text
}

/// Puts the lines into any order.
fn shuffle(chance: &mut Chance, lines: &mut [Vec<u8>]) {
    for index in 1..lines.len() {
        lines.swap(index, chance.below(index + 1));
    }
}

/// Gives one text to both programs, and enters each of its lines.
fn hold(judge: &mut Judge, name: &str, program: &Path, text: &[u8]) -> io::Result<()> {
    let name = format!("questions ({name})");
    let mut expected = Vec::new();
    answer_questions(text, &mut expected)
        .map_err(|failure| io::Error::other(failure.to_string()))?;
    let found = run(program, text)?;
    if found != expected {
        let line = first_unlike(&found, &expected);
        let difference = format!(
            "program answers {}, second {}",
            shown(&found, line),
            shown(&expected, line)
        );
        judge
            .tally
            .hold(&name, nth_line(text, line), Some(difference));
        return Ok(());
    }
    let answers = expected.iter().filter(|&&c| c == b'\n').count();
    for line in text.split(|&c| c == b'\n').take(answers) {
        judge.tally.hold(&name, line, None);
    }
    Ok(())
}

/// The number of the first line in which two outputs differ.
fn first_unlike(found: &[u8], expected: &[u8]) -> usize {
    let found = found.split(|&c| c == b'\n');
    let expected = expected.split(|&c| c == b'\n');
    found.zip(expected).take_while(|(a, b)| a == b).count()
}

/// A line of a text, empty if there is none of this number.
fn nth_line(text: &[u8], number: usize) -> &[u8] {
    text.split(|&c| c == b'\n').nth(number).unwrap_or(&[])
}

/// An answer of an output, cut.
fn shown(output: &[u8], number: usize) -> String {
    let line = nth_line(output, number);
    format!("{:?}", String::from_utf8_lossy(&line[..line.len().min(40)]))
}

/// A type as a question.
fn question(chance: &mut Chance, sample: &Sample) -> Vec<u8> {
    let order = order_name(sample.little);
    let digits = digits_word(chance, &sample.octets);
    [b"type", order.as_bytes(), &digits].join(&b' ')
}

/// Octets as a word, the digits of either case or of both.
pub fn digits_word(chance: &mut Chance, octets: &[u8]) -> Vec<u8> {
    let digits = digits_of(chance, octets);
    match chance.below(3) {
        _ if digits.is_empty() => b"-".to_vec(),
        0 => digits.to_ascii_uppercase(),
        1 => digits.to_ascii_lowercase(),
        _ => digits,
    }
}

/// Questions about types of all generators and of the ORB, as they are and
/// changed, and lines that are no question.
fn questions(chance: &mut Chance) -> Vec<Vec<u8>> {
    let mut lines: Vec<Vec<u8>> = Vec::new();
    for row in orb::rows() {
        lines.push(row.question.to_ascii_lowercase().into_bytes());
        lines.push(row.question.into_bytes());
    }
    for (index, generator) in GENERATORS.iter().enumerate() {
        for number in 0..generator.each.div_ceil(16) {
            let sample = types::sample(index, FIRST + number);
            let changed = mutated(chance, &sample);
            lines.push(question(chance, &sample));
            lines.push(question(chance, &changed));
            let short = sample.octets.len() < 200;
            if short || chance.once_in(8) {
                let line = question(chance, &sample);
                lines.push(spoilt(chance, line));
            }
        }
    }
    shuffle(chance, &mut lines);
    lines
}

/// The line changed so that it is mostly no question.
pub fn spoilt(chance: &mut Chance, mut line: Vec<u8>) -> Vec<u8> {
    match chance.below(8) {
        0 => drop(line.pop()),
        1 => line.push(chance.pick(b"\r 0-G\0\t\xFF")),
        2 => {
            let place = chance.below(line.len());
            line[place] = chance.pick(b" \t\r\0-gGxX/:@`\x80\xFF");
        }
        3 => line.insert(chance.below(line.len()), chance.pick(b" -0\r\0")),
        4 => line.truncate(chance.below(line.len() + 1)),
        5 => {
            line.remove(chance.below(line.len().min(16)));
        }
        6 => line = other_words(chance, &line),
        _ => {
            let place = chance.below(line.len());
            line[place] ^= 0x20;
        }
    }
    line.retain(|&character| character != b'\n');
    line
}

/// The line with some of its words left out, put in again, or replaced.
fn other_words(chance: &mut Chance, line: &[u8]) -> Vec<u8> {
    let mut parts: Vec<&[u8]> = line.split(|&c| c == b' ').collect();
    for _ in 0..1 + chance.below(2) {
        let place = chance.below(parts.len().max(1));
        let word = chance.pick(&WORDS).as_bytes();
        match chance.below(4) {
            0 => parts.insert(place, word),
            1 if !parts.is_empty() => drop(parts.remove(place)),
            2 => parts.push(word),
            _ if !parts.is_empty() => parts[place] = word,
            _ => {}
        }
    }
    parts.join(&b' ')
}

/// Texts with lines about the longest and beyond, between short ones.
fn long_lines(chance: &mut Chance) -> Vec<Vec<Vec<u8>>> {
    let mut texts = Vec::new();
    let far = [200_000, 1 << 18, 1 << 20];
    let lengths = (LONGEST_QUESTION - 3..=LONGEST_QUESTION + 3).chain(far);
    for length in lengths {
        let starts = [
            "type big ",
            "type little ",
            "type  big ",
            "value big 00000003 big ",
            "item big 00000003 little 00000000 0 ",
            "rewrite big 00000003 big ",
            "rewrite big 00000003 big 00000000 0 little 0 ",
            "profile ",
            "component ",
            "component 000101 ",
            "0",
            "",
        ];
        for start in starts {
            let mut long = start.as_bytes().to_vec();
            long.resize(length, chance.pick(b"00Ff"));
            let sample = Sample::of_octets(vec![0, 0, 0, 3], false);
            let short = question(chance, &sample);
            let lines = match chance.below(3) {
                0 => vec![long],
                1 => vec![long, short],
                _ => vec![short.clone(), long.clone(), short, long],
            };
            texts.push(lines);
        }
    }
    texts
}
