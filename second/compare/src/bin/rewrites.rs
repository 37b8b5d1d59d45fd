//! Measures how many octets of values the proved library and the second program
//! rewrite in a second, the same values in turns: five times each, and the median.

use std::hint::black_box;
use std::io;
use std::process::ExitCode;

use compare::archive;
use compare::heavy::{self, Row};
use compare::measure::{rounds_a_second, status, write_speeds};
use second::rewrite::{rewrite, Chosen};
use second::value::{Input, LONGEST_VALUE};

/// The octets of an output, more than a result of these values has.
const ROOM: usize = 2 * LONGEST_VALUE;

/// Measures every large value, or says on standard error why it cannot.
fn main() -> ExitCode {
    status("rewrites", heavy::rewritten().iter().try_for_each(measure))
}

/// Measures both sides on this value, in its own order and in the other.
fn measure(row: &Row) -> io::Result<()> {
    let input = row.question.input();
    let own = input.value.little;
    for (name, little) in [("same order", own), ("other order", !own)] {
        let name = format!("{}, {name}", row.name);
        let chosen = Chosen {
            little: Some(little),
            start: input.start,
        };
        measure_one(&name, input, chosen)?;
    }
    Ok(())
}

/// Measures both sides on this rewriting, and writes their speeds.
fn measure_one(name: &str, input: Input, chosen: Chosen) -> io::Result<()> {
    let refuse = |reason: &str| Err(io::Error::other(format!("{name}: {reason}")));
    let Ok(result) = rewrite(input, chosen, ROOM) else {
        return refuse("the second program refuses the value");
    };
    if answers_differ(input, chosen, &result) {
        return refuse("the answers differ");
    }
    let rounds = rounds_a_second(
        |rounds| by_archive(input, chosen, rounds),
        |rounds| by_second(input, chosen, rounds),
    );
    let octets = input.value.octets.len();
    let speeds = rounds.map(|rounds| rounds * octets as f64);
    write_speeds(&format!("{name}: {octets} octets"), "octets", speeds)
}

/// Rewrites the value so many times with the archive.
fn by_archive(input: Input, chosen: Chosen, rounds: usize) {
    let mut out = vec![0; ROOM];
    let mut count = 0;
    for _ in 0..rounds {
        let input = black_box(input);
        black_box(archive::rewrite(input, chosen, &mut out, &mut count));
        black_box(&out);
    }
}

/// Rewrites the value so many times with the second program.
fn by_second(input: Input, chosen: Chosen, rounds: usize) {
    for _ in 0..rounds {
        let input = black_box(input);
        drop(black_box(rewrite(input, chosen, ROOM)));
    }
}

/// Whether the archive's result is another than the second program's.
fn answers_differ(input: Input, chosen: Chosen, result: &[u8]) -> bool {
    let mut out = vec![0; ROOM];
    let mut count = 0;
    let number = archive::rewrite(input, chosen, &mut out, &mut count);
    (number, count) != (0, result.len() as u64) || !out.starts_with(result)
}
