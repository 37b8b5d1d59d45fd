//! Holds the proved library's answers and lent memory to the second program's,
//! over inputs that are the same at every run. With the path of the proved
//! program over recordings as an argument, holds that program's output too, and
//! with that of the one over questions as a second, that one's.

use std::env;
use std::io::{self, Write};
use std::path::PathBuf;
use std::process::ExitCode;
use std::thread::Builder;

use compare::judge::Judge;
use compare::tally::Tally;
use compare::{
    frames, headers, joinings, lines, orb, orb_headers, orb_profiles, orb_rewrites, orb_values,
    paper, profiles, questions, recordings, rewrites, types, values,
};

/// The stack of each thread, in octets.
const STACK: usize = 8 << 20;

/// Judges a part of the inputs.
type Part = Box<dyn FnOnce(&mut Judge) -> io::Result<()> + Send>;

/// Judges all inputs and writes the tally; succeeds if nothing is wrong.
fn main() -> ExitCode {
    match run() {
        Ok(0) => ExitCode::SUCCESS,
        Ok(_) => ExitCode::FAILURE,
        Err(error) => {
            let _ = writeln!(io::stderr(), "compare: {error}");
            ExitCode::FAILURE
        }
    }
}

/// Judges all inputs and writes the tally; says how many things are wrong.
fn run() -> io::Result<u64> {
    let tally = judged(parts())?;
    io::stdout().write_all(tally.to_string().as_bytes())?;
    Ok(tally.failed())
}

/// All parts, those of the programs last.
fn parts() -> Vec<Part> {
    let mut parts = vec![
        part(&[paper::judge, lines::judge, frames::judge, joinings::judge]),
        part(&[types::judge, orb::judge]),
        part(&[values::judge, orb_values::judge]),
        part(&[rewrites::judge, orb_rewrites::judge]),
        part(&[profiles::judge, orb_profiles::judge]),
        part(&[headers::judge, orb_headers::judge]),
    ];
    let mut programs = env::args_os().skip(1).map(PathBuf::from);
    if let Some(program) = programs.next() {
        parts.push(Box::new(move |judge| recordings::judge(judge, &program)));
    }
    if let Some(program) = programs.next() {
        parts.push(Box::new(move |judge| questions::judge(judge, &program)));
    }
    parts
}

/// The part of some sections, judged one after the other.
fn part(sections: &'static [fn(&mut Judge)]) -> Part {
    Box::new(move |judge| {
        for section in sections {
            section(judge);
        }
        Ok(())
    })
}

/// What all parts bring, added up in their order. Each is judged in a thread of
/// its own, by a judge of its own.
fn judged(parts: Vec<Part>) -> io::Result<Tally> {
    let mut threads = Vec::new();
    for (number, part) in parts.into_iter().enumerate() {
        let judge = move || {
            let mut judge = Judge::of_part(number);
            part(&mut judge).map(|()| judge.tally)
        };
        threads.push(Builder::new().stack_size(STACK).spawn(judge)?);
    }
    let mut tally = Tally::default();
    for thread in threads {
        let panicked = |_| io::Error::other("a thread panicked");
        tally.add(thread.join().map_err(panicked)??);
    }
    Ok(tally)
}
