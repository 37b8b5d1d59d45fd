//! Types with what is to be answered: those that a real ORB has written, and the
//! paper's own.
//!
//! A list has a question's last two words and the answer in each line, as the
//! program over questions reads and writes them.

use chance::Chance;
use second::inspect::answer_questions;

use crate::judge::Judge;
use crate::layout::Sample;
use crate::types::one;

/// The ORB's types.
const ORB: &str = include_str!("orb-types.txt");

/// The paper's samples and its slips: the loop, and the same without the second
/// member; a label that is at a multiple of 8 in its union alone; a discriminant
/// whose target has the other byte order, with a label that fits and one that does
/// not.
const PAPER: &str = "\
big 000000130000000C000000000000000300000000 ok 20 2
big 000000130000001000000000FFFFFFFFFFFFFFF000000000 no 36
big - no 30
big 00000000 ok 4 1
big 00000008 ok 4 1
big 0000001200000000 ok 8 1
big 0000000F00000070000000000000000100000000000000010000000000000002000000010000000000000013\
00000038000000000000000F000000280000000000000001000000000000000100000000000000010000000100000000\
FFFFFFFFFFFFFFA0000000000000000100000000FFFFFFFFFFFFFFC0 no 39
big 0000000F00000060000000000000000100000000000000010000000000000001000000010000000000000013\
00000038000000000000000F000000280000000000000001000000000000000100000000000000010000000100000000\
FFFFFFFFFFFFFFA000000000 ok 104 3
big 00000015000000500000000000000001000000000000000100000000000000100000003400000000000000010000\
0000000000010000000000000017FFFFFFFF000000010000000000000009000000026D0000000000000A ok 88 4
big 0000000F000000A40000000000000001000000000000000100000000000000020000000265000000000000130000\
0038010000001100000026000000000000000000000100000000000000010000000000000002000000026E0000000000\
00026F00000000000000000000027500000000000010000000340000000000000001000000000000000100000000FFFF\
FFFFFFFFFFA4FFFFFFFF0000000100000001000000026D0000000000000A ok 172 5
big 0000000F000000A40000000000000001000000000000000100000000000000020000000265000000000000130000\
0038010000001100000026000000000000000000000100000000000000010000000000000002000000026E0000000000\
00026F00000000000000000000027500000000000010000000340000000000000001000000000000000100000000FFFF\
FFFFFFFFFFA4FFFFFFFF0000000100000002000000026D0000000000000A no 35
big 0000000F000000A40000000000000001000000000000000100000000000000020000000265000000000000130000\
0038000000000000001100000026010000000100000000000000010000000000000002000000020000006E0000000200\
00006F00000000000000000000027500000000000010000000340100000001000000000000000100000000000000FFFF\
FFFFA4FFFFFFFFFFFFFF0100000001000000020000006D0000000A000000 ok 172 5
big 0000000F000000A40000000000000001000000000000000100000000000000020000000265000000000000130000\
0038000000000000001100000026010000000100000000000000010000000000000002000000020000006E0000000200\
00006F00000000000000000000027500000000000010000000340100000001000000000000000100000000000000FFFF\
FFFFA4FFFFFFFFFFFFFF0100000002000000020000006D0000000A000000 no 35
";

/// The least number of the ORB's types.
const ENOUGH: usize = 400;

/// A type of the list.
pub struct Row<'a> {
    /// The question.
    pub question: String,
    /// The octets.
    pub octets: Vec<u8>,
    /// Their byte order.
    pub little: bool,
    /// What is to be answered.
    pub answer: &'a str,
}

/// The list's line as a type.
fn row(line: &str) -> Option<Row<'_>> {
    let (order, rest) = line.split_once(' ')?;
    let (digits, answer) = rest.split_once(' ')?;
    let octets = (0..digits.len() / 2)
        .map(|index| u8::from_str_radix(digits.get(2 * index..2 * index + 2)?, 16).ok());
    Some(Row {
        question: format!("type {order} {digits}"),
        octets: octets.collect::<Option<_>>()?,
        little: order == "little",
        answer,
    })
}

/// The ORB's types.
pub fn rows() -> impl Iterator<Item = Row<'static>> {
    ORB.lines().filter_map(row)
}

/// Judges every type of the lists, as it is, changed and cut.
pub fn judge(judge: &mut Judge) {
    judge_list(judge, "the paper's", PAPER);
    judge_list(judge, "of an ORB", ORB);
    let few = rows().count() < ENOUGH;
    let difference = few.then(|| format!("under {ENOUGH} lines"));
    judge.tally.hold("list of an ORB's types", &[], difference);
}

/// Judges every type of a list, as it is, changed and cut.
fn judge_list(judge: &mut Judge, list_name: &str, list: &str) {
    let chance = &mut Chance::new(0x0_02B);
    for (number, line) in list.lines().enumerate() {
        let name = format!("type ({list_name}, line {number} from 0");
        match row(line) {
            Some(row) => {
                judge.tally.hold(&name, &row.octets, unlike_list(&row));
                let sample = Sample::of_octets(row.octets, row.little);
                one(judge, chance, &name, &sample);
            }
            None => {
                let difference = "the list's line cannot be read".to_owned();
                judge.tally.hold(&name, line.as_bytes(), Some(difference));
            }
        }
    }
}

/// What the second program answers other than the list says.
fn unlike_list(row: &Row<'_>) -> Option<String> {
    let mut answer = Vec::new();
    let expected = format!("{}\n", row.answer);
    match answer_questions(row.question.as_bytes(), &mut answer) {
        Ok(()) if answer == expected.as_bytes() => None,
        _ => Some(format!(
            "second answers {}, the list {}",
            String::from_utf8_lossy(&answer).trim_end(),
            row.answer
        )),
    }
}
