//! Lines for the proved program that ask about values and their items, and what
//! values are rewritten as.

use chance::Chance;
use second::rewrite::Chosen;
use second::value::{self, LONGEST_VALUE};

use crate::heavy;
use crate::orb_values;
use crate::questions::{digits_word, spoilt};
use crate::rewrites::needed;
use crate::types::order_name;
use crate::value_changes::changed;
use crate::values::{self, any_start, Question, GENERATORS};

/// The number from which on a generator's questions are taken.
const FIRST: u64 = 1 << 30;

/// One in so many of a generator's questions is asked.
const ONE_IN: u64 = 10;

/// One in so many of them is asked to be rewritten.
const ONE_REWRITTEN_IN: u64 = 20;

/// Which word of a question is the start, counted from 0. After it there are
/// numbers, and one order if there are three.
const START_AT: usize = 5;

/// Words that are no number, and no order.
pub const NO_NUMBERS: [&str; 16] = [
    "",
    "-",
    "-1",
    "+1",
    "+0",
    "1.",
    "1e3",
    "0x10",
    "A",
    "1_000",
    "١",
    "1\r",
    "18446744073709551616",
    "018446744073709551616",
    "99999999999999999999",
    "340282366920938463463374607431768211456",
];

/// Words around the limits of numbers.
const TELLING: [&str; 9] = [
    "18446744073709551615",
    "000018446744073709551615",
    "18446744073709551614",
    "9223372036854775808",
    "4294967296",
    "16384",
    "16385",
    "0000000000000000000000000000000000000000",
    "0000000000000000000000000000000000000012",
];

/// Makes a line that asks about a value.
type Ask = fn(&mut Chance, &Question) -> Vec<u8>;

/// Questions about values of all generators and of the ORB and their items, as
/// they are and changed, and lines that are nearly such.
pub fn lines(chance: &mut Chance) -> Vec<Vec<u8>> {
    let mut lines = Vec::new();
    for row in orb_values::rows() {
        let number = chance.below(12);
        let line = format!("value {} {}", row.words, 3 * number);
        lines.push(line.to_ascii_lowercase().into_bytes());
        lines.push(format!("value {} 16384", row.words).into_bytes());
        lines.push(format!("item {} {number}", row.words).into_bytes());
    }
    for row in heavy::rows() {
        lines.push(read_line(chance, &row.question));
    }
    lines.extend(generated(chance, ONE_IN, read_line));
    lines
}

/// Questions about what such values are rewritten as, and lines that are nearly
/// such.
pub fn rewrite_lines(chance: &mut Chance) -> Vec<Vec<u8>> {
    let mut lines = Vec::new();
    let from_orb = orb_values::rows().map(|row| row.question);
    let heavy = heavy::rows().into_iter().chain(heavy::rewritten());
    for question in from_orb.chain(heavy.map(|row| row.question)) {
        lines.push(rewrite_line(chance, &question));
    }
    lines.extend(generated(chance, ONE_REWRITTEN_IN, rewrite_line));
    lines
}

/// Lines about values of all generators, as they are and changed, and lines that
/// are nearly such.
fn generated(chance: &mut Chance, one_in: u64, ask: Ask) -> Vec<Vec<u8>> {
    let mut lines = Vec::new();
    for (index, generator) in GENERATORS.iter().enumerate() {
        for number in 0..generator.each.div_ceil(one_in) {
            let question = values::question(index, FIRST + number);
            let changed = changed(chance, &question);
            lines.push(ask(chance, &question));
            lines.push(ask(chance, &changed));
            if question.typecode.octets.len() + question.value.octets.len() < 300 {
                let line = ask(chance, &question);
                lines.push(nearly(chance, line));
            }
        }
    }
    lines
}

/// A question about a value or one of its items.
fn read_line(chance: &mut Chance, question: &Question) -> Vec<u8> {
    let items = match value::read(question.input(), LONGEST_VALUE) {
        Ok(accepted) => accepted.items.len(),
        Err(_) => chance.below(20),
    };
    let number = items + chance.below(5);
    let number = chance.pick(&[number, number.saturating_sub(2), items, LONGEST_VALUE]);
    let (word, number) = match chance.below(3) {
        0 => ("value", number),
        1 => ("value", LONGEST_VALUE + chance.below(2)),
        _ => ("item", chance.below(number + 1)),
    };
    [
        word.as_bytes(),
        &value_words(chance, question),
        spelt(chance, number).as_bytes(),
    ]
    .join(&b' ')
}

/// A question about what a value is rewritten as.
fn rewrite_line(chance: &mut Chance, question: &Question) -> Vec<u8> {
    let little = chance.once_in(2);
    let start = any_start(chance);
    let chosen = Chosen {
        little: Some(little),
        start,
    };
    let needed = needed(question.input(), chosen);
    let short = needed.saturating_sub(1);
    let room = chance.pick(&[needed, needed, needed + 1, short, 0, 2 * LONGEST_VALUE]);
    [
        b"rewrite",
        &value_words(chance, question)[..],
        order_name(little).as_bytes(),
        spelt(chance, start).as_bytes(),
        spelt(chance, room).as_bytes(),
    ]
    .join(&b' ')
}

/// The words from a type's order to a value's start.
fn value_words(chance: &mut Chance, question: &Question) -> Vec<u8> {
    [
        order_name(question.typecode.little).as_bytes(),
        &digits_word(chance, &question.typecode.octets),
        order_name(question.value.little).as_bytes(),
        &digits_word(chance, &question.value.octets),
        spelt(chance, question.value.start).as_bytes(),
    ]
    .join(&b' ')
}

/// A number in decimal digits, sometimes with zeros before it, sometimes another
/// one.
pub fn spelt(chance: &mut Chance, number: usize) -> String {
    match chance.below(12) {
        0 => format!("{}{number}", "0".repeat(chance.below(24))),
        1 => chance.pick(&TELLING).to_owned(),
        _ => number.to_string(),
    }
}

/// The line changed so that it is mostly no question: a number or order that is
/// none, a word too few or too many, or anything else.
fn nearly(chance: &mut Chance, line: Vec<u8>) -> Vec<u8> {
    let mut words: Vec<&[u8]> = line.split(|&c| c == b' ').collect();
    let after_value = words.len() - START_AT;
    match chance.below(4) {
        0 => words[START_AT + chance.below(after_value)] = chance.pick(&NO_NUMBERS).as_bytes(),
        1 => drop(words.remove(chance.below(words.len()))),
        2 => {
            let place = chance.below(words.len() + 1);
            words.insert(place, chance.pick(&["", "", "0", "big", "-"]).as_bytes());
        }
        _ => return spoilt(chance, line),
    }
    words.join(&b' ')
}
