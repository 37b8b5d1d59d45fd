//! Profile bodies with what is to be answered: those that a real ORB has written.
//!
//! A list has in each line the octets, the answer of the program over questions
//! to `profile`, and the components: `TAG:OCTETS` for each, with commas between,
//! `-` for none.

use chance::Chance;

use crate::archive;
use crate::bodies::Body;
use crate::judge::Judge;
use crate::known::{digits_at, listed, octets, second_answer, tagged_answer, unlike};
use crate::profiles::one;

/// The ORB's profiles.
const ORB: &str = include_str!("orb-profiles.txt");

/// The least number of the ORB's profiles.
const ENOUGH: usize = 22;

/// A profile of the list.
pub struct Row<'a> {
    /// The octets.
    pub octets: Vec<u8>,
    /// Their digits.
    pub digits: &'a str,
    /// What `profile` is to be answered.
    answer: &'a str,
    /// What `component` is to be answered, by number, and for the next number.
    components: Vec<String>,
}

/// The list's line as a profile.
fn row(line: &str) -> Option<Row<'_>> {
    let (digits, rest) = line.split_once(' ')?;
    let (answer, components) = rest.rsplit_once(' ')?;
    Some(Row {
        octets: octets(digits)?,
        digits,
        answer,
        components: listed(components)?,
    })
}

/// The ORB's profiles.
pub fn rows() -> impl Iterator<Item = Row<'static>> {
    ORB.lines().filter_map(row)
}

/// Judges every profile of the list, as it is, changed and cut.
pub fn judge(judge: &mut Judge) {
    let chance = &mut Chance::new(0x0_04B);
    for (number, line) in ORB.lines().enumerate() {
        let name = format!("profile (of an ORB, line {number} from 0");
        match row(line) {
            Some(row) => {
                hold(judge, &name, &row);
                let little = row.octets.first() == Some(&1);
                one(judge, chance, &name, &Body::of_octets(row.octets, little));
            }
            None => {
                let difference = "the list's line cannot be read".to_owned();
                judge.tally.hold(&name, line.as_bytes(), Some(difference));
            }
        }
    }
    let few = rows().count() < ENOUGH;
    let difference = few.then(|| format!("under {ENOUGH} lines"));
    judge
        .tally
        .hold("list of an ORB's profiles", &[], difference);
}

/// Holds both sides to what the list says.
fn hold(judge: &mut Judge, name: &str, row: &Row) {
    let question = format!("profile {}", row.digits);
    let found = [second_answer(&question), archive_profile(&row.octets)];
    let difference = unlike(found, row.answer);
    judge.tally.hold(name, &row.octets, difference);
    for (number, expected) in row.components.iter().enumerate() {
        let question = format!("component {} {number}", row.digits);
        let found = [
            second_answer(&question),
            archive_component(&row.octets, number as u64),
        ];
        let difference = unlike(found, expected);
        let name = format!("{name}, component {number}");
        judge.tally.hold(&name, &row.octets, difference);
    }
}

/// The archive's answer about a profile, as the program over questions has it.
fn archive_profile(octets: &[u8]) -> String {
    let mut numbers = [0; 10];
    match archive::profile(octets, &mut numbers) {
        0 => {
            let [order, major, minor, host, host_length, port, key, key_length, components, extra] =
                numbers;
            let order = if order == 1 { "little" } else { "big" };
            let host = digits_at(octets, host, host_length);
            let key = digits_at(octets, key, key_length);
            format!("ok {order} {major} {minor} {host} {port} {key} {components} {extra}")
        }
        refusal => format!("no {refusal}"),
    }
}

/// The archive's answer about a component, likewise.
fn archive_component(octets: &[u8], number: u64) -> String {
    let mut found = [0; 3];
    let refusal = archive::component(octets, number, &mut found);
    tagged_answer(octets, refusal, found)
}
