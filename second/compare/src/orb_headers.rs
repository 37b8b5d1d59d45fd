//! Requests and Replies with what is to be answered: those that a real ORB has
//! sent, the fragments of one joined.
//!
//! The list has in each line the octets, the name of the operation that was called,
//! `-` for a Reply, the answer of the program over questions to `header`, and the
//! contexts: `ID:OCTETS` for each, with commas between, `-` for none. The names
//! were found as the recordings' texts.

use chance::Chance;
use second::encode;
use second::frame::{FLAGS_AT, LITTLE};

use crate::archive;
use crate::bodies::Body;
use crate::header_judge::List;
use crate::headers::one;
use crate::judge::Judge;
use crate::known::{digits_at, listed, octets, second_header_answer, tagged_answer, unlike};

/// The ORB's messages.
const ORB: &str = include_str!("orb-headers.txt");

/// The least number of the ORB's messages.
const ENOUGH: usize = 171;

/// A message of the list.
pub struct Row<'a> {
    /// The octets.
    pub octets: Vec<u8>,
    /// Their digits.
    pub digits: &'a str,
    /// The operation's name, `-` for a Reply.
    name: &'a str,
    /// What `header` is to be answered.
    answer: &'a str,
    /// What `context` is to be answered, by number, and for the next number.
    contexts: Vec<String>,
}

/// The list's line as a message.
fn row(line: &str) -> Option<Row<'_>> {
    let (digits, rest) = line.split_once(' ')?;
    let (name, rest) = rest.split_once(' ')?;
    let (answer, contexts) = rest.rsplit_once(' ')?;
    Some(Row {
        octets: octets(digits)?,
        digits,
        name,
        answer,
        contexts: listed(contexts)?,
    })
}

/// The ORB's messages.
pub fn rows() -> impl Iterator<Item = Row<'static>> {
    ORB.lines().filter_map(row)
}

/// Judges every message of the list, as it is, changed and cut.
pub fn judge(judge: &mut Judge) {
    let chance = &mut Chance::new(0x0_04C);
    for (number, line) in ORB.lines().enumerate() {
        let name = format!("header (of an ORB, line {number} from 0");
        match row(line) {
            Some(row) => {
                hold(judge, &name, &row);
                let little = row.octets[FLAGS_AT] & LITTLE != 0;
                one(judge, chance, &name, &Body::of_octets(row.octets, little));
            }
            None => {
                let difference = "the list's line cannot be read".to_owned();
                judge.tally.hold(&name, line.as_bytes(), Some(difference));
            }
        }
    }
    let few = rows().count() < ENOUGH;
    let difference = few.then(|| format!("under {ENOUGH} lines"));
    judge
        .tally
        .hold("list of an ORB's headers", &[], difference);
}

/// Holds both sides to what the list says.
fn hold(judge: &mut Judge, name: &str, row: &Row) {
    let question = format!("header {}", row.digits);
    let found = [second_header_answer(&question), archive_header(&row.octets)];
    let difference = unlike_name(&found, row.name).or_else(|| unlike(found, row.answer));
    judge.tally.hold(name, &row.octets, difference);
    for (number, expected) in row.contexts.iter().enumerate() {
        let question = format!("context {} {number}", row.digits);
        let found = [
            second_header_answer(&question),
            archive_context(&row.octets, number as u64),
        ];
        let difference = unlike(found, expected);
        let name = format!("{name}, context {number}");
        judge.tally.hold(&name, &row.octets, difference);
    }
}

/// What either side has for an operation other than the name.
fn unlike_name(found: &[String; 2], name: &str) -> Option<String> {
    let digits = encode(name.as_bytes());
    let word = String::from_utf8_lossy(&digits);
    let names = |answer: &String| answer.split(' ').nth(6) == Some(&word);
    (name != "-" && !found.iter().all(names)).then(|| {
        format!(
            "second answers {}, archive {}, not {name}",
            found[0], found[1]
        )
    })
}

/// The archive's answer about a header, as the program over questions has it.
pub fn archive_header(octets: &[u8]) -> String {
    let mut numbers = [0; 17];
    match archive::header(octets, &mut numbers) {
        0 => {}
        refusal => return format!("no {refusal}"),
    }
    let [kind, minor, _, id, response, status, ..] = numbers;
    let [.., contexts, body] = numbers;
    if kind == 1 {
        return format!("ok reply {minor} {id} {status} {contexts} {body}");
    }
    let run = |at: usize| digits_at(octets, numbers[at], numbers[at + 1]);
    let target = match numbers[6] {
        0 => format!("key:{}", run(8)),
        1 => format!("profile:{}:{}", numbers[7], run(8)),
        _ => format!("reference:{}:{}:{}", numbers[7], run(8), numbers[10]),
    };
    let (operation, principal) = (run(11), run(13));
    format!("ok request {minor} {id} {response} {target} {operation} {principal} {contexts} {body}")
}

/// The archive's answer about a context, likewise.
fn archive_context(octets: &[u8], number: u64) -> String {
    let mut found = [0; 3];
    let refusal = List::Contexts.by_archive(octets, number, &mut found);
    tagged_answer(octets, refusal, found)
}
