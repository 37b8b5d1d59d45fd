//! Measures how many types the proved library and the second program check in
//! a second, on the same types, in turns: five times each, and the median.

use std::hint::black_box;
use std::io;
use std::process::ExitCode;

use compare::archive::{self, Checked};
use compare::layout::Sample;
use compare::measure::{rounds_a_second, status, write_speeds};
use compare::orb;
use compare::types::{self, GENERATORS};
use second::typecode::{self, LONGEST_TYPE, MOST_KINDS};

/// How many of the largest types there are of each generator.
const LARGEST: usize = 8;

/// The generators of the largest types.
const LARGE: [&str; 4] = ["wide", "wide union", "dense", "alias chain"];

/// Measures both kinds of types, or says on standard error why it cannot.
fn main() -> ExitCode {
    status("types", run())
}

/// Measures both kinds of types.
fn run() -> io::Result<()> {
    let rows = orb::rows();
    let small = rows.map(|row| Sample::of_octets(row.octets, row.little));
    measure("small types, an ORB's", &small.collect::<Vec<_>>())?;
    measure("largest types", &largest())
}

/// Types with all or nearly all the kinds and octets there can be.
fn largest() -> Vec<Sample> {
    let mut samples = Vec::new();
    for (index, generator) in GENERATORS.iter().enumerate() {
        if LARGE.contains(&generator.name) {
            let all = (0..generator.each).map(|number| types::sample(index, number));
            samples.extend(all.filter(is_large).take(LARGEST));
        }
    }
    samples
}

/// Whether a type is accepted and close to the limits.
fn is_large(sample: &Sample) -> bool {
    match typecode::check(&sample.octets, sample.little) {
        Ok(checked) => {
            checked.kinds.len() >= MOST_KINDS - 1 && checked.used >= LONGEST_TYPE * 7 / 8
        }
        Err(_) => false,
    }
}

/// Measures both sides on these types, and writes their speeds.
fn measure(name: &str, samples: &[Sample]) -> io::Result<()> {
    if let Some(number) = samples.iter().position(answers_differ) {
        let reason = format!("{name}: the answers to type {number} differ");
        return Err(io::Error::other(reason));
    }
    let rounds = rounds_a_second(
        |rounds| (0..rounds).for_each(|_| by_archive(samples)),
        |rounds| (0..rounds).for_each(|_| by_second(samples)),
    );
    let octets: usize = samples.iter().map(|sample| sample.octets.len()).sum();
    let measured = format!("{name}: {} of {octets} octets", samples.len());
    let speeds = rounds.map(|rounds| rounds * samples.len() as f64);
    write_speeds(&measured, "checks", speeds)
}

/// Nothing met yet.
fn nothing() -> Checked {
    Checked {
        places: [0; MOST_KINDS],
        starts: [0; MOST_KINDS],
        orders: [0; MOST_KINDS],
        numbers: [0; 2],
    }
}

/// Checks the types with the archive.
fn by_archive(samples: &[Sample]) {
    let mut checked = nothing();
    for sample in samples {
        let octets = black_box(&sample.octets);
        black_box(archive::typecode(octets, sample.little, &mut checked));
        black_box(&checked);
    }
}

/// Checks the types with the second program.
fn by_second(samples: &[Sample]) {
    for sample in samples {
        let octets = black_box(&sample.octets);
        drop(black_box(typecode::check(octets, sample.little)));
    }
}

/// Whether the two sides do not give the same number, octets used and kinds.
fn answers_differ(sample: &Sample) -> bool {
    let mut checked = nothing();
    let number = archive::typecode(&sample.octets, sample.little, &mut checked);
    let found = (number, checked.numbers);
    let expected = match typecode::check(&sample.octets, sample.little) {
        Ok(accepted) => (0, [accepted.used as u64, accepted.kinds.len() as u64]),
        Err(refusal) => (refusal, [0, 0]),
    };
    found != expected
}
