//! The program over questions, one a line.
//!
//! A question is words with exactly one space between. ORDER is `big` or
//! `little`; octets are digits of either case, `-` for none; START, ROOM and
//! NUMBER are decimal digits, of a number of 64 bits.
//!
//! - `type ORDER TYPE`: is the TypeCode accepted? `ok USED K` or `no N`.
//! - `value ORDER TYPE ORDER VALUE START ROOM`: what does the value read as, its
//!   first octet having index START, with room for ROOM items?
//!   `ok USED VISITS COUNT ITEMS` or `no N VISITS`. ITEMS is `KIND:PLACE:CONTENT`
//!   for each, with commas between, `-` for none.
//! - `item ORDER TYPE ORDER VALUE START NUMBER`: what is the value's item of this
//!   number, from 0? `ok signed X`, `ok unsigned X`, `ok single BITS`,
//!   `ok double BITS` or `no N`. BITS are 8 or 16 upper-case digits.
//! - `rewrite ORDER TYPE ORDER VALUE START ORDER START ROOM`: what is the value in
//!   the last ORDER, its first octet having the last START, with room for ROOM
//!   octets? `ok COUNT OCTETS` or `no N`. OCTETS are upper-case digits, `-` for
//!   none.
//! - `profile OCTETS`: what does the IIOP profile body have?
//!   `ok ORDER MAJOR MINOR HOST PORT KEY COMPONENTS EXTRA` or `no N`. HOST and KEY
//!   are upper-case digits, `-` for none, COMPONENTS and EXTRA counts.
//! - `component OCTETS NUMBER`: what is the profile's component of this number,
//!   from 0? `ok TAG OCTETS` or `no N`.
//!
//! [`answer_header_questions`] answers these too:
//!
//! - `header OCTETS`, `context OCTETS NUMBER`, `target OCTETS NUMBER` and
//!   `head OCTETS ROOM`: what do a Request and a Reply have before the body? The
//!   answers are in [`crate::told`].
//!
//! A line that is no question is answered `?`.

use std::fmt;
use std::io::{BufRead, BufWriter, Write};

use crate::header;
use crate::hexline::digits_into;
use crate::lines::{next_line, Failure, BLOCK};
use crate::profile;
use crate::rewrite::{rewrite, Chosen};
use crate::told::{header_words, profile_words, tagged_words, word_of};
use crate::typecode::{check, Checked};
use crate::value::{self, Accepted, Content, Input, Item, Lent, Refused, LONGEST_VALUE};

/// The most characters of a question.
pub const LONGEST_QUESTION: usize = 131_072;

/// The most words of a question.
const MOST_WORDS: usize = 9;

/// What a line was answered.
#[derive(Clone, PartialEq, Eq, Debug)]
enum Answer {
    /// The line is no question.
    NoQuestion,
    /// What the question is about is refused.
    Refused(u32),
    /// The TypeCode is accepted: the octets used and the kinds written.
    Type(usize, usize),
    /// The value is accepted.
    Value(Accepted),
    /// The value is refused.
    RefusedValue(Refused),
    /// The value has this item.
    Item(Content),
    /// The value is rewritten as these octets, or the header written back.
    Octets(Vec<u8>),
    /// What a profile, a header or a part of one is told as, after `ok`.
    Told(String),
}

impl fmt::Display for Answer {
    fn fmt(&self, formatter: &mut fmt::Formatter<'_>) -> fmt::Result {
        match self {
            Answer::NoQuestion => write!(formatter, "?"),
            Answer::Refused(refusal) => write!(formatter, "no {refusal}"),
            Answer::Type(used, kinds) => write!(formatter, "ok {used} {kinds}"),
            Answer::Value(accepted) => write_accepted(formatter, accepted),
            Answer::RefusedValue(Refused { number, visits }) => {
                write!(formatter, "no {number} {visits}")
            }
            Answer::Item(Content::Signed(number)) => write!(formatter, "ok signed {number}"),
            Answer::Item(Content::Unsigned(number)) => write!(formatter, "ok unsigned {number}"),
            Answer::Item(Content::Single(bits)) => write!(formatter, "ok single {bits:08X}"),
            Answer::Item(Content::Double(bits)) => write!(formatter, "ok double {bits:016X}"),
            Answer::Octets(octets) => {
                write!(formatter, "ok {} {}", octets.len(), word_of(octets))
            }
            Answer::Told(words) => write!(formatter, "ok {words}"),
        }
    }
}

/// Writes the answer of an accepted value.
fn write_accepted(formatter: &mut fmt::Formatter<'_>, accepted: &Accepted) -> fmt::Result {
    let Accepted {
        used,
        visits,
        items,
    } = accepted;
    write!(formatter, "ok {used} {visits} {} ", items.len())?;
    if items.is_empty() {
        return write!(formatter, "-");
    }
    for (index, item) in items.iter().enumerate() {
        let Item {
            kind,
            place,
            content,
        } = item;
        let comma = if index == 0 { "" } else { "," };
        write!(formatter, "{comma}{kind}:{place}:{content}")?;
    }
    Ok(())
}

/// Answers every line of the input. One about a header is no question here.
///
/// If reading fails, the lines before the one it failed in are answered.
pub fn answer_questions(input: impl BufRead, output: impl Write) -> Result<(), Failure> {
    answer_each(input, output, answer)
}

/// Answers every line of the input, one about a header too.
///
/// If reading fails, the lines before the one it failed in are answered.
pub fn answer_header_questions(input: impl BufRead, output: impl Write) -> Result<(), Failure> {
    answer_each(input, output, answer_or_header)
}

/// Answers every line of the input in this way.
fn answer_each(
    mut input: impl BufRead,
    output: impl Write,
    answer: fn(&[u8]) -> Answer,
) -> Result<(), Failure> {
    let mut output = BufWriter::with_capacity(BLOCK, output);
    let mut line = Vec::with_capacity(LONGEST_QUESTION + 1);
    let read = loop {
        match next_line(&mut input, LONGEST_QUESTION, &mut line) {
            Ok(true) => writeln!(output, "{}", answer(&line)).map_err(Failure::Write)?,
            Ok(false) => break Ok(()),
            Err(error) => break Err(Failure::Read(error)),
        }
    };
    output.flush().map_err(Failure::Write)?;
    read
}

/// Answers a line.
fn answer(line: &[u8]) -> Answer {
    answer_split(line, answer_words)
}

/// Answers a line, one about a header too.
fn answer_or_header(line: &[u8]) -> Answer {
    answer_split(line, |words| {
        answer_words(words).or_else(|| answer_header_words(words))
    })
}

/// Answers a line by its words.
fn answer_split(line: &[u8], answer: fn(&[&[u8]]) -> Option<Answer>) -> Answer {
    if line.len() > LONGEST_QUESTION {
        return Answer::NoQuestion;
    }
    let words = line.split(|&character| character == b' ');
    // One word too many is as good as all of them.
    let words: Vec<&[u8]> = words.take(MOST_WORDS + 1).collect();
    answer(&words).unwrap_or(Answer::NoQuestion)
}

/// Answers the words of a question, if they are one.
fn answer_words(words: &[&[u8]]) -> Option<Answer> {
    match *words {
        [b"type", order, octets] => Some(answer_type(is_little(order)?, &octets_of(octets)?)),
        [b"value", ref value @ .., room] => {
            let room = number_of(room)?;
            answer_about(value, |input| answer_value(input, room))
        }
        [b"item", ref value @ .., number] => {
            let number = number_of(number)?;
            answer_about(value, |input| answer_item(input, number))
        }
        [b"rewrite", ref value @ .., order, start, room] => {
            let (chosen, room) = (chosen(order, start)?, number_of(room)?);
            answer_about(value, |input| answer_rewrite(input, chosen, room))
        }
        [b"profile", octets] => Some(told(profile::read(&octets_of(octets)?), profile_words)),
        [b"component", octets, number] => Some(told(
            profile::component(&octets_of(octets)?, number_of(number)?),
            tagged_words,
        )),
        _ => None,
    }
}

/// Answers the words of a question about a header, if they are one.
fn answer_header_words(words: &[&[u8]]) -> Option<Answer> {
    match *words {
        [b"header", octets] => Some(told(header::read(&octets_of(octets)?), header_words)),
        [part, octets, number] => answer_header_part(part, &octets_of(octets)?, number_of(number)?),
        _ => None,
    }
}

/// Answers which part of a header has a number, or what is written with so much
/// room, if the word asks for either.
fn answer_header_part(part: &[u8], octets: &[u8], number: u64) -> Option<Answer> {
    Some(match part {
        b"context" => told(header::context(octets, number), tagged_words),
        b"target" => told(header::target(octets, number), tagged_words),
        b"head" => octets_told(header::head(octets, room_of(number))),
        _ => return None,
    })
}

/// Answers what is asked about a value, if the words are one.
fn answer_about(words: &[&[u8]], answer: impl FnOnce(Input) -> Answer) -> Option<Answer> {
    let [type_order, typecode, value_order, value, start] = words else {
        return None;
    };
    let (typecode, value) = (octets_of(typecode)?, octets_of(value)?);
    Some(answer(Input {
        typecode: Lent {
            octets: &typecode,
            little: is_little(type_order)?,
        },
        value: Lent {
            octets: &value,
            little: is_little(value_order)?,
        },
        start: index_of(start)?,
    }))
}

/// The order and index that words choose.
fn chosen(order: &[u8], start: &[u8]) -> Option<Chosen> {
    Some(Chosen {
        little: Some(is_little(order)?),
        start: index_of(start)?,
    })
}

/// Says what a value reads as, with room for so many items.
fn answer_value(input: Input, room: u64) -> Answer {
    let room = room.min(LONGEST_VALUE as u64) as usize;
    match value::read(input, room) {
        Ok(accepted) => Answer::Value(accepted),
        Err(refused) => Answer::RefusedValue(refused),
    }
}

/// Says what a value's item of this number is.
fn answer_item(input: Input, number: u64) -> Answer {
    match value::item(input, number) {
        Ok(content) => Answer::Item(content),
        Err(refusal) => Answer::Refused(refusal),
    }
}

/// Says what a value is rewritten as, with room for so many octets.
fn answer_rewrite(input: Input, chosen: Chosen, room: u64) -> Answer {
    octets_told(rewrite(input, chosen, room_of(room)))
}

/// Says whether a TypeCode is accepted.
fn answer_type(little: bool, octets: &[u8]) -> Answer {
    match check(octets, little) {
        Ok(Checked { used, kinds }) => Answer::Type(used, kinds.len()),
        Err(refusal) => Answer::Refused(refusal),
    }
}

/// Says in words what there is, if it is not refused.
fn told<T>(found: Result<T, u32>, words: impl FnOnce(&T) -> String) -> Answer {
    match found {
        Ok(found) => Answer::Told(words(&found)),
        Err(refusal) => Answer::Refused(refusal),
    }
}

/// Says what octets come of it, if it is not refused.
fn octets_told(octets: Result<Vec<u8>, u32>) -> Answer {
    match octets {
        Ok(octets) => Answer::Octets(octets),
        Err(refusal) => Answer::Refused(refusal),
    }
}

/// Whether the order that a word names is little-endian.
fn is_little(word: &[u8]) -> Option<bool> {
    match word {
        b"big" => Some(false),
        b"little" => Some(true),
        _ => None,
    }
}

/// The octets that a word spells. An empty word spells none, not even none.
fn octets_of(word: &[u8]) -> Option<Vec<u8>> {
    let mut octets = Vec::new();
    match word {
        b"" => None,
        b"-" => Some(octets),
        digits => digits_into(digits, &mut octets).ok().map(|()| octets),
    }
}

/// The index that a word spells, of which only the rest modulo 8 matters.
fn index_of(word: &[u8]) -> Option<usize> {
    number_of(word).map(|index| (index % 8) as usize)
}

/// The room for octets that a number says.
fn room_of(number: u64) -> usize {
    usize::try_from(number).unwrap_or(usize::MAX)
}

/// The number of 64 bits that a word of decimal digits spells.
fn number_of(word: &[u8]) -> Option<u64> {
    if !word.iter().all(u8::is_ascii_digit) {
        return None;
    }
    std::str::from_utf8(word).ok()?.parse().ok()
}

#[cfg(test)]
mod tests {
    use super::*;
    use std::io::{self, BufReader, Cursor, Read};

    use crate::hexline::encode;
    use crate::lines::streams::{Failing, Full, Interrupted};

    /// The program's output, read in blocks of the given length.
    fn output_in_blocks(input: &[u8], block: usize) -> String {
        let mut output = Vec::new();
        answer_questions(BufReader::with_capacity(block, input), &mut output).expect("no failure");
        String::from_utf8(output).expect("text")
    }

    /// The program's output.
    fn output(input: &[u8]) -> String {
        let whole = output_in_blocks(input, BLOCK);
        assert_eq!(output_in_blocks(input, 1), whole);
        assert_eq!(output_in_blocks(input, 7), whole);
        whole
    }

    #[test]
    fn samples() {
        let questions = b"type big 000000130000000C000000000000000300000000\n\
            type big 000000130000001000000000FFFFFFFFFFFFFFF000000000\n\
            type big -\n";
        let answers = "ok 20 2\nno 36\nno 30\n";
        assert_eq!(output(questions), answers);
        assert_eq!(output(&questions[..questions.len() - 1]), answers);
    }

    #[test]
    fn samples_of_values() {
        const T: &str = "000000130000000C000000000000000300000000";
        for (question, expected) in [
            (
                format!("value big {T} big 0000000200000001FFFFFFFF 0 3"),
                "ok 12 3 3 19:0:2,3:4:1,3:8:18446744073709551615",
            ),
            (
                format!("value big {T} big 0000000200000001FFFFFFFF 0 2"),
                "no 56 3",
            ),
            (format!("value big {T} big 0000000200000001 0 3"), "no 50 3"),
            (
                format!("value big {T} little 00000200000000010000ffffffff 6 99"),
                "ok 14 3 3 19:2:2,3:6:256,3:10:18446744073709551615",
            ),
            (format!("value big {T} big 00000000 0 0"), "no 56 1"),
            (format!("value big {T} big 00000000 0 1"), "ok 4 1 1 19:0:0"),
            ("value big 00000000 big - 0 0".into(), "ok 0 1 0 -"),
            ("value big 00000008 big 02 0 1".into(), "no 51 1"),
            ("value big - big 02 0 1".into(), "no 30 0"),
            (
                "value big 0000001200000000 big 0000000100 0 1".into(),
                "ok 5 1 1 18:4:0",
            ),
            (
                "value big 0000001200000000 big 00000000 0 1".into(),
                "no 53 1",
            ),
            (
                format!("item big {T} big 0000000200000001FFFFFFFF 0 0"),
                "ok unsigned 2",
            ),
            (
                format!("item big {T} big 0000000200000001FFFFFFFF 0 2"),
                "ok signed -1",
            ),
            (
                format!("item big {T} big 0000000200000001FFFFFFFF 0 3"),
                "no 49",
            ),
            (format!("item big {T} big 0000000200000001 0 3"), "no 50"),
            ("item big 0000000B big 00 0 0".into(), "no 31"),
            (
                "item little 06000000 little 0100a07f 8 0".into(),
                "ok single 7FA00001",
            ),
            (
                "item big 00000007 big fff0000000000001 0 0".into(),
                "ok double FFF0000000000001",
            ),
            (
                "item big 00000007 big 000000000000000000000000 4 0".into(),
                "ok double 0000000000000000",
            ),
        ] {
            assert_eq!(output(question.as_bytes()), format!("{expected}\n"));
        }
    }

    #[test]
    fn samples_of_rewriting() {
        const T: &str = "000000130000000C000000000000000300000000";
        for (question, expected) in [
            (
                format!("rewrite big {T} big 0000000200000001FFFFFFFF 0 little 0 12"),
                "ok 12 0200000001000000FFFFFFFF",
            ),
            (
                format!("rewrite big {T} big 0000000200000001ffffffff 0 little 0 11"),
                "no 57",
            ),
            (
                format!("rewrite big {T} little 0200000001000000FFFFFFFF 0 big 1 99"),
                "ok 15 0000000000000200000001FFFFFFFF",
            ),
            (
                format!("rewrite big {T} big eeee0000000100abcdef 6 big 4 8"),
                "ok 8 0000000100ABCDEF",
            ),
            (
                format!("rewrite big {T} big 0000000200000001 0 big 0 0"),
                "no 50",
            ),
            ("rewrite big 00000000 big - 0 big 7 0".into(), "ok 0 -"),
            ("rewrite big 00000008 big 02 0 big 0 0".into(), "no 51"),
            ("rewrite big 00000008 big 01 0 big 0 0".into(), "no 57"),
            ("rewrite big - big 02 0 big 0 0".into(), "no 30"),
        ] {
            assert_eq!(output(question.as_bytes()), format!("{expected}\n"));
        }
    }

    #[test]
    fn words_of_a_rewriting() {
        for (words, expected) in [
            ("big 07 0 big 0 1", "ok 1 07"),
            ("little 07 3 little 5 00001", "ok 1 07"),
            (
                "big 07 18446744073709551615 big 18446744073709551615 1",
                "ok 1 07",
            ),
            ("big 07 0 big 0 18446744073709551615", "ok 1 07"),
            ("big 07 0 big 0 0", "no 57"),
            ("big - 0 big 0 0", "no 50"),
            ("big 07 0 big 0 18446744073709551616", "?"),
            ("big 07 0 big 18446744073709551616 1", "?"),
            ("big 07 18446744073709551616 big 0 1", "?"),
            ("big 07 0 Big 0 1", "?"),
            ("big 07 0 - 0 1", "?"),
            ("big 07 0 0 1", "?"),
            ("big 07 0 big 1", "?"),
            ("big 07 0 big 0", "?"),
            ("big 07 0 big 0 1 1", "?"),
            ("big 07 0 big 0 1 ", "?"),
            ("big 07 0 big 0 ", "?"),
            ("big 07 0 big  1", "?"),
            ("big 07  0 big 0 1", "?"),
            ("big  0 big 0 1", "?"),
            ("big 07 0 big -1 1", "?"),
            ("big 07 0 big 0 +1", "?"),
            ("big 07 0 big 0 -", "?"),
            ("big 7 0 big 0 1", "?"),
            ("big 07 0 big 0 1\r", "?"),
            ("07 0 big 0 1", "?"),
            ("", "?"),
        ] {
            let question = format!("rewrite big 0000000A {words}");
            assert_eq!(output(question.as_bytes()), format!("{expected}\n"));
        }
        for question in [
            "rewrite",
            "Rewrite big 0000000A big 07 0 big 0 1",
            "rewrites big 0000000A big 07 0 big 0 1",
            "value big 0000000A big 07 0 big 0 1",
            "rewrite big 0000000A big 07 0 1",
        ] {
            assert_eq!(output(question.as_bytes()), "?\n");
        }
    }

    #[test]
    fn the_longest_result_is_answered() {
        // Elements that follow the count at index 4 without a gap.
        let elements = "0102030405060708".repeat(2_047);
        let typecode = "000000130000000C000000000000000700000000";
        let question = format!("rewrite big {typecode} big 000007FF{elements} 4 big 5 16387");
        let expected = format!("ok 16387 000000000007FF00000000{elements}\n");
        assert_eq!(output_in_blocks(question.as_bytes(), BLOCK), expected);
    }

    #[test]
    fn profiles_and_components() {
        const BODY: &str = "010102ee02000000610039300400000000FF6b00010000002a00000001000000aaEE";
        for (question, expected) in [
            (
                format!("profile {BODY}"),
                "ok little 1 2 61 12345 00FF6B00 1 1",
            ),
            (
                "profile 000101EE0000000100EE00500000000000000000".into(),
                "ok big 1 1 - 80 - 0 0",
            ),
            ("profile -".into(), "no 60"),
            ("profile 02".into(), "no 61"),
            ("profile 0002".into(), "no 62"),
            ("profile 0001000000000000".into(), "no 63"),
            ("profile 000100EE0000000100EE00500000000000".into(), "no 64"),
            (format!("component {BODY} 0"), "ok 42 AA"),
            (format!("component {BODY} 000"), "ok 42 AA"),
            (format!("component {BODY} 1"), "no 69"),
            (format!("component {BODY} 18446744073709551615"), "no 69"),
            ("component - 0".into(), "no 60"),
            ("component FF 18446744073709551615".into(), "no 61"),
        ] {
            assert_eq!(output(question.as_bytes()), format!("{expected}\n"));
        }
        let tagged = BODY.replace("01000000aaEE", "00000000");
        let tagged = tagged.replace("2a000000", "FFFFFFFF");
        let question = format!("component {tagged} 0");
        assert_eq!(output(question.as_bytes()), "ok 4294967295 -\n");
    }

    #[test]
    fn lines_that_are_no_question_about_profiles() {
        for line in [
            "profile",
            "profile ",
            "profile  -",
            "profile - ",
            "profile - -",
            "profile big -",
            "profile 0",
            "profile 0G",
            "profile --",
            "Profile -",
            "profiles -",
            "component",
            "component -",
            "component - ",
            "component  - 0",
            "component -  0",
            "component - 0 0",
            "component - -",
            "component - -1",
            "component - +1",
            "component - 0A",
            "component - 18446744073709551616",
            "component 0 0",
            "component 0 -",
            "Component - 0",
            "components - 0",
            "component - 0\r",
        ] {
            assert_eq!(output(line.as_bytes()), "?\n");
        }
    }

    #[test]
    fn profiles_around_the_longest() {
        for (octets, expected) in [(16_384, "no 61"), (16_385, "no 42"), (65_532, "no 42")] {
            let profile = format!("profile {}", "FF".repeat(octets));
            let component = format!("component {} 7", "FF".repeat(octets - 2));
            let question = format!("{profile}\n{component}");
            let answers = output_in_blocks(question.as_bytes(), BLOCK);
            assert!(answers.starts_with(expected), "{octets}: {answers}");
            let expected = if octets > 16_386 { "no 42" } else { "no 61" };
            assert!(answers.ends_with(&format!("{expected}\n")));
        }
        let longer = format!("profile {}", "FF".repeat(65_533));
        assert!(longer.len() > LONGEST_QUESTION);
        assert_eq!(output_in_blocks(longer.as_bytes(), BLOCK), "?\n");
    }

    #[test]
    fn numbers_of_a_question() {
        for (numbers, expected) in [
            ("0 0", "no 56 1"),
            ("0 1", "ok 1 1 1 10:0:7"),
            ("0 00001", "ok 1 1 1 10:0:7"),
            ("0 0000000000000000000000000000000000001", "ok 1 1 1 10:0:7"),
            ("0 18446744073709551615", "ok 1 1 1 10:0:7"),
            ("18446744073709551615 1", "ok 1 1 1 10:0:7"),
            ("0018446744073709551615 1", "ok 1 1 1 10:0:7"),
            ("0 18446744073709551616", "?"),
            ("18446744073709551616 1", "?"),
            ("0 99999999999999999999999999", "?"),
            ("0 +1", "?"),
            ("+0 1", "?"),
            ("0 -1", "?"),
            ("0 -", "?"),
            ("- 1", "?"),
            ("0 ", "?"),
            (" 1", "?"),
            ("0 1 ", "?"),
            ("0 1 1", "?"),
            ("0  1", "?"),
            ("0", "?"),
            ("0 0x1", "?"),
            ("0 A", "?"),
            ("0 1\r", "?"),
            ("0 1\u{661}", "?"),
        ] {
            let question = format!("value big 0000000A big 07 {numbers}");
            assert_eq!(output(question.as_bytes()), format!("{expected}\n"));
            let answers = ["ok unsigned 7\n", "no 49\n", "?\n"];
            let answer = output(question.replace("value", "item").as_bytes());
            assert!(answers.contains(&&answer[..]));
            assert_eq!(answer == "?\n", expected == "?");
        }
    }

    #[test]
    fn the_largest_value_question_fits() {
        let typecode = format!("0000000A{}", "0".repeat(32_760));
        let value = "7F".repeat(16_384);
        let question = format!("value little {typecode} little {value} 7 16384");
        assert!(question.len() < LONGEST_QUESTION);
        let question = question.replace("little 0000000A", "big 0000000A");
        assert_eq!(
            output_in_blocks(question.as_bytes(), BLOCK),
            "ok 1 1 1 10:0:127\n"
        );
        let longer = question.replace(" 7 16384", "00 7 16384");
        assert_eq!(output_in_blocks(longer.as_bytes(), BLOCK), "no 42 0\n");
    }

    #[test]
    fn orders_and_digits_of_either_case() {
        assert_eq!(output(b"type big 00000003"), "ok 4 1\n");
        assert_eq!(output(b"type little 03000000"), "ok 4 1\n");
        assert_eq!(output(b"type little 00000003"), "no 31\n");
        assert_eq!(output(b"type big ffffFFFFfFfFfFfF"), "no 36\n");
    }

    #[test]
    fn empty_input_has_no_answer() {
        assert_eq!(output(b""), "");
        assert_eq!(output(b"\n"), "?\n");
        assert_eq!(output(b"\n\ntype big -"), "?\n?\nno 30\n");
    }

    #[test]
    fn lines_that_are_no_question() {
        let lines: [&[u8]; 42] = [
            b" ",
            b"-",
            b"00000003",
            b"type",
            b"type ",
            b"type big",
            b"type big ",
            b"type big  00000003",
            b"type  big 00000003",
            b" type big 00000003",
            b"type big 00000003 ",
            b"type big 00000003 00000003",
            b"type big -  ",
            b"type big --",
            b"type big -00000003",
            b"type big 00000003-",
            b"type big 0000000",
            b"type big 0000000G",
            b"type big 0x00000003",
            b"type big 00000003\r",
            b"type big -\r",
            b"\r",
            b"type\tbig\t00000003",
            b"type big 00000003\0",
            b"type Big 00000003",
            b"type 0 00000003",
            b"Type big 00000003",
            b"types big 00000003",
            b"type big \xC3\xA9",
            b"big type 00000003",
            b"type big 00000003 0 0",
            b"value",
            b"item",
            b"value big 00000003",
            b"value big 00000003 big 00000003",
            b"value big 00000003 big 00000003 0",
            b"value big 00000003 big 00000003 0 1 1",
            b"value big 00000003 00000003 0 1",
            b"value big 00000003 Big 00000003 0 1",
            b"value big 00000003 big 0000003 0 1",
            b"value big  big 00000003 0 1",
            b"Item big 00000003 big 00000003 0 0",
        ];
        for line in lines {
            let input = [line, b"\ntype big 00000003\n"].concat();
            assert_eq!(output(&input), "?\nok 4 1\n");
        }
    }

    #[test]
    fn lines_about_headers_are_no_question() {
        const REPLY: &str = "47494F50010200010000000C000000070000000000000000";
        for line in [
            format!("header {REPLY}"),
            format!("context {REPLY} 0"),
            format!("target {REPLY} 0"),
            format!("head {REPLY} 24"),
            "header -".into(),
            "context - 0".into(),
            "target - 0".into(),
            "head - 0".into(),
        ] {
            assert_eq!(output(line.as_bytes()), "?\n");
        }
    }

    #[test]
    fn other_questions_are_answered_beside_headers() {
        let questions = b"type big -\nheader -\nprofile 02\n\ncomponent - 0\nitem";
        let mut output = Vec::new();
        answer_header_questions(&questions[..], &mut output).expect("no failure");
        assert_eq!(output, b"no 30\nno 12\nno 61\n?\nno 60\n?\n");
    }

    #[test]
    fn lines_around_the_longest() {
        for (start, digits, expected) in [
            ("type big ", 32_768, "ok 4 1\n"),
            ("type big ", 32_770, "no 42\n"),
            ("type little ", 131_060, "no 42\n"),
            ("type little ", 131_062, "?\n"),
            ("type big ", 131_062, "no 42\n"),
            ("type big ", 131_064, "?\n"),
            ("type big ", 1_000_000, "?\n"),
        ] {
            let line = [start.as_bytes(), &vec![b'0'; digits]].concat();
            let answers = expected.repeat(2);
            assert_eq!(
                output_in_blocks(&[&line[..], &line].join(&b'\n'), BLOCK),
                answers
            );
        }
        // The longest line is a question, and one character more makes it none.
        assert_eq!(answer(&[b'x'; LONGEST_QUESTION + 1]), Answer::NoQuestion);
        assert_eq!("type little ".len() + 131_060, LONGEST_QUESTION);
    }

    #[test]
    fn a_long_line_is_not_stored() {
        let endless = io::repeat(b'0').take(50_000_000);
        let input = b"type big ".chain(endless).chain(&b"\ntype big -\n"[..]);
        let mut output = Vec::new();
        answer_questions(BufReader::with_capacity(BLOCK, input), &mut output).expect("no failure");
        assert_eq!(output, b"?\nno 30\n");
    }

    #[test]
    fn many_questions_are_answered() {
        let question = [&b"type big "[..], &encode(&[0; 4]), b"\n"].concat();
        assert_eq!(output(&question.repeat(30_000)), "ok 4 1\n".repeat(30_000));
    }

    #[test]
    fn an_interrupted_read_is_tried_again() {
        let mut output = Vec::new();
        let input = BufReader::new(Interrupted(b"type big -\n", false));
        answer_questions(input, &mut output).expect("no failure");
        assert_eq!(output, b"no 30\n");
    }

    #[test]
    fn failures_are_told() {
        let mut output = Vec::new();
        let input = BufReader::new(Failing(Cursor::new(b"type big -\ntype".to_vec())));
        let failure = answer_questions(input, &mut output).expect_err("a failure");
        assert_eq!(failure.to_string(), "reading failed: cable cut");
        assert_eq!(output, b"no 30\n");

        let failure = answer_questions(&b"type big -\n"[..], Full).expect_err("a failure");
        assert_eq!(failure.to_string(), "writing failed: disk full");
    }
}
