//! What both sides answer to inputs with known answers, as the program over
//! questions has it.

use second::inspect::{answer_header_questions, answer_questions};
use second::lines::Failure;
use second::told::word_of;

use crate::archive::TaggedNumbers;

/// The octets of digits.
pub fn octets(digits: &str) -> Option<Vec<u8>> {
    let octet = |index| u8::from_str_radix(digits.get(2 * index..2 * index + 2)?, 16).ok();
    (0..digits.len() / 2).map(octet).collect()
}

/// The answers to questions about a list of `TAG:OCTETS` with commas between, `-`
/// for none: each by its number, and the one for the next number.
pub fn listed(list: &str) -> Option<Vec<String>> {
    let mut answers = Vec::new();
    for one in list.split(',').filter(|&word| word != "-") {
        let (tag, octets) = one.split_once(':')?;
        answers.push(format!("ok {tag} {octets}"));
    }
    answers.push("no 69".into());
    Some(answers)
}

/// What either side answers other than the list says.
pub fn unlike([second, archive]: [String; 2], expected: &str) -> Option<String> {
    (second != expected || archive != expected)
        .then(|| format!("second answers {second}, archive {archive}, the list {expected}"))
}

/// The second program's answer to a question.
pub fn second_answer(question: &str) -> String {
    let mut answer = Vec::new();
    let answered = answer_questions(question.as_bytes(), &mut answer);
    said(answered, &answer)
}

/// The second program's answer to a question about a header.
pub fn second_header_answer(question: &str) -> String {
    let mut answer = Vec::new();
    let answered = answer_header_questions(question.as_bytes(), &mut answer);
    said(answered, &answer)
}

/// An answer without its LF, or why there is none.
fn said(answered: Result<(), Failure>, answer: &[u8]) -> String {
    match answered {
        Ok(()) => String::from_utf8_lossy(answer).trim_end().to_owned(),
        Err(failure) => failure.to_string(),
    }
}

/// The archive's answer about one of a list, from its number and what it found.
pub fn tagged_answer(octets: &[u8], number: u32, found: TaggedNumbers) -> String {
    match number {
        0 => format!("ok {} {}", found[0], digits_at(octets, found[1], found[2])),
        refusal => format!("no {refusal}"),
    }
}

/// The digits of so many octets from a place on, `-` for none.
pub fn digits_at(octets: &[u8], place: u64, length: u64) -> String {
    let (place, length) = (place as usize, length as usize);
    let part = octets.get(place..).and_then(|rest| rest.get(..length));
    part.map_or_else(|| format!("{length} octets at {place}"), word_of)
}
