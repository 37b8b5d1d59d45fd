//! Measures how many visits the proved library and the second program make in a
//! second, reading the same values in turns: five times each, and the median.

use std::hint::black_box;
use std::io;
use std::process::ExitCode;

use compare::archive;
use compare::heavy::{self, Row};
use compare::measure::{rounds_a_second, status, write_speeds};
use compare::values::Question;
use second::typecode;
use second::value::{self, Accepted, LONGEST_VALUE};

/// Measures every large value, or says on standard error why it cannot.
fn main() -> ExitCode {
    status("values", heavy::rows().iter().try_for_each(measure))
}

/// Measures both sides on this value, and writes their speeds.
fn measure(row: &Row) -> io::Result<()> {
    let Row { name, question } = row;
    let refuse = |reason: &str| Err(io::Error::other(format!("{name}: {reason}")));
    let Ok(accepted) = value::read(question.input(), LONGEST_VALUE) else {
        return refuse("the second program refuses the value");
    };
    if answers_differ(question, &accepted) {
        return refuse("the answers differ");
    }
    let rounds = rounds_a_second(
        |rounds| by_archive(question, rounds),
        |rounds| by_second(question, rounds),
    );
    let visits = accepted.visits;
    let kinds = kinds(question);
    let octets = question.value.octets.len();
    let most = kinds as f64 * (octets as f64 + 1.0);
    let measured = format!(
        "{name}: {kinds} kinds, {octets} octets, {visits} visits, {:.4} of the most",
        visits as f64 / most
    );
    let speeds = rounds.map(|rounds| rounds * visits as f64);
    write_speeds(&measured, "visits", speeds)
}

/// The kinds written in the type.
fn kinds(question: &Question) -> usize {
    let typecode = question.input().typecode;
    let checked = typecode::check(typecode.octets, typecode.little);
    checked.map_or(0, |checked| checked.kinds.len())
}

/// A table with room for all items there can be.
fn table() -> Vec<u64> {
    vec![0; 3 * LONGEST_VALUE]
}

/// Reads the value so many times with the archive.
fn by_archive(question: &Question, rounds: usize) {
    let mut table = table();
    let (mut numbers, mut visits) = ([0; 2], 0);
    for _ in 0..rounds {
        let input = black_box(question.input());
        black_box(archive::value(input, &mut table, &mut numbers, &mut visits));
        black_box(&table);
    }
}

/// Reads the value so many times with the second program.
fn by_second(question: &Question, rounds: usize) {
    for _ in 0..rounds {
        let input = black_box(question.input());
        drop(black_box(value::read(input, LONGEST_VALUE)));
    }
}

/// Whether the archive does not accept the value as the second program does.
fn answers_differ(question: &Question, accepted: &Accepted) -> bool {
    let mut table = table();
    let (mut numbers, mut visits) = ([0; 2], 0);
    let number = archive::value(question.input(), &mut table, &mut numbers, &mut visits);
    let Accepted { used, items, .. } = accepted;
    let items_differ = table.chunks_exact(3).zip(items).any(|(row, item)| {
        row != [u64::from(item.kind), item.place as u64, item.content].as_slice()
    });
    (number, numbers, visits) != (0, [*used as u64, items.len() as u64], accepted.visits)
        || items_differ
}
