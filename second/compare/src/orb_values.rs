//! Values with what is to be answered: those that a real ORB has written, and
//! the paper's own.
//!
//! A list has in each line a question's words from the type's order to the start
//! and what is expected: `ok TYPE-USED K USED VISITS COUNT ITEMS`, with ITEMS as
//! `KIND:CONTENT` for each and `-` for none, or `no N`.

use chance::Chance;
use second::typecode;
use second::value::{self, Item, LONGEST_VALUE};

use crate::fill::Value;
use crate::judge::Judge;
use crate::layout::Sample;
use crate::values::{one, Question};

/// The ORB's values, and what it writes that is refused.
const ORB: &str = include_str!("orb-values.txt");

/// The paper's samples.
const PAPER: &str = "\
big 00000000 big - 0 ok 4 1 0 1 0 -
big 000000130000000C000000000000000300000000 big 0000000200000001FFFFFFFF 0 \
ok 20 2 12 3 3 19:2,3:1,3:18446744073709551615
big 000000130000000C000000000000000300000000 little 0200000001000000FFFFFFFF 0 \
ok 20 2 12 3 3 19:2,3:1,3:18446744073709551615
big 000000130000000C000000000000000300000000 big 0000000200000001 0 no 50
big 00000008 big 02 0 no 51
big 0000001200000000 big 0000000100 0 ok 8 1 5 1 1 18:0
big 0000001200000000 big 00000000 0 no 53
big - big - 0 no 30
";

/// The least number of the ORB's values.
const ENOUGH: usize = 700;

/// A value of the list.
pub struct Row<'a> {
    /// The question's words but the first and the last.
    pub words: String,
    /// The type and the value.
    pub question: Question,
    /// What is to be answered.
    expected: &'a str,
}

/// The list's line as a value.
fn row(line: &str) -> Option<Row<'_>> {
    let (asked, expected) = match line.split_once(" ok ") {
        Some((asked, _)) => (asked, &line[asked.len() + 1..]),
        None => line.split_at_checked(line.find(" no ")?)?,
    };
    let words: Vec<&str> = asked.split(' ').collect();
    let [type_order, typecode, value_order, value, start] = words[..] else {
        return None;
    };
    let typecode = Sample::of_octets(octets(typecode)?, type_order == "little");
    let value = Value::of_octets(octets(value)?, value_order == "little", start.parse().ok()?);
    Some(Row {
        words: asked.to_owned(),
        question: Question { typecode, value },
        expected: expected.trim_start(),
    })
}

/// The octets of digits, `-` for none.
fn octets(digits: &str) -> Option<Vec<u8>> {
    let digits = digits.trim_start_matches('-');
    let octet = |index| u8::from_str_radix(digits.get(2 * index..2 * index + 2)?, 16).ok();
    (0..digits.len() / 2).map(octet).collect()
}

/// The ORB's values.
pub fn rows() -> impl Iterator<Item = Row<'static>> {
    ORB.lines().filter_map(row)
}

/// Judges every value of the lists, as it is, changed and cut.
pub fn judge(judge: &mut Judge) {
    judge_list(judge, "the paper's", PAPER);
    judge_list(judge, "of an ORB", ORB);
    let few = rows().count() < ENOUGH;
    let difference = few.then(|| format!("under {ENOUGH} lines"));
    judge.tally.hold("list of an ORB's values", &[], difference);
}

/// Judges every value of a list, as it is, changed and cut.
fn judge_list(judge: &mut Judge, list_name: &str, list: &str) {
    let chance = &mut Chance::new(0x0_03B);
    for (number, line) in list.lines().enumerate() {
        let name = format!("value ({list_name}, line {number} from 0");
        match row(line) {
            Some(row) => {
                let difference = unlike_list(&row);
                let Sample { octets, little, .. } = &row.question.typecode;
                judge.tally.hold(&name, octets, difference);
                judge.typecode(&name, octets, *little);
                one(judge, chance, &name, &row.question);
            }
            None => {
                let difference = "the list's line cannot be read".to_owned();
                judge.tally.hold(&name, line.as_bytes(), Some(difference));
            }
        }
    }
}

/// What the second program answers other than the list says.
fn unlike_list(row: &Row<'_>) -> Option<String> {
    let answer = answer(&row.question);
    (answer != row.expected).then(|| format!("second answers {answer}, the list {}", row.expected))
}

/// The second program's answer as the list would have it.
fn answer(question: &Question) -> String {
    let Sample { octets, little, .. } = &question.typecode;
    let read = value::read(question.input(), LONGEST_VALUE);
    match (typecode::check(octets, *little), read) {
        (Ok(checked), Ok(accepted)) => {
            let one = |item: &Item| format!("{}:{}", item.kind, item.content);
            let items: Vec<String> = accepted.items.iter().map(one).collect();
            format!(
                "ok {} {} {} {} {} {}",
                checked.used,
                checked.kinds.len(),
                accepted.used,
                accepted.visits,
                items.len(),
                if items.is_empty() {
                    "-".to_owned()
                } else {
                    items.join(",")
                }
            )
        }
        (_, Err(refused)) => format!("no {}", refused.number),
        (Err(refusal), Ok(_)) => format!("no {refusal}, but the value is read"),
    }
}
