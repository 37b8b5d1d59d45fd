//! Measures how many profile bodies the proved library and the second program
//! read in a second, on the same bodies, in turns: five times each, and the
//! median.

use std::hint::black_box;
use std::io;
use std::process::ExitCode;

use chance::Chance;
use compare::archive;
use compare::bodies::Outline;
use compare::judge::{profile_numbers, tagged_numbers};
use compare::measure::{rounds_a_second, status, write_speeds};
use compare::orb_profiles;
use second::profile::{component, read};

/// How many components the body of many has.
const COMPONENTS: usize = 400;

/// The octets of each of them.
const COMPONENT_OCTETS: usize = 32;

/// The octets of the long key.
const KEY_OCTETS: usize = 16_000;

/// Measures all bodies, or says on standard error why it cannot.
fn main() -> ExitCode {
    status("profiles", run())
}

/// Measures all bodies, and the last component of many.
fn run() -> io::Result<()> {
    let chance = &mut Chance::new(0x0_04F);
    let from_orb: Vec<Vec<u8>> = orb_profiles::rows().map(|row| row.octets).collect();
    let many = [many_components(chance)];
    let long_key = [long_key(chance)];
    measure("an ORB's profiles", &from_orb)?;
    measure("many components", &many)?;
    measure("a long key", &long_key)?;
    measure_last(&many[0])
}

/// A body of about 16,000 octets with hundreds of components.
fn many_components(chance: &mut Chance) -> Vec<u8> {
    let one = |number| (number as u32, chance.octets(COMPONENT_OCTETS));
    let components = (0..COMPONENTS).map(one).collect();
    Outline::listed(chance, components).laid_out(chance).octets
}

/// A body whose key has nearly all the octets there can be.
fn long_key(chance: &mut Chance) -> Vec<u8> {
    let mut outline = Outline::listed(chance, Vec::new());
    outline.key = chance.octets(KEY_OCTETS);
    outline.laid_out(chance).octets
}

/// Measures both sides on these bodies, and writes their speeds.
fn measure(name: &str, bodies: &[Vec<u8>]) -> io::Result<()> {
    if bodies.iter().any(|body| answers_differ(body)) {
        return Err(io::Error::other(format!("{name}: the answers differ")));
    }
    let rounds = rounds_a_second(
        |rounds| (0..rounds).for_each(|_| by_archive(bodies)),
        |rounds| (0..rounds).for_each(|_| by_second(bodies)),
    );
    let octets = bodies.iter().map(Vec::len).sum();
    write_both(name, bodies.len(), octets, rounds)
}

/// Measures both sides on the last component of a body, and writes their speeds.
fn measure_last(body: &[u8]) -> io::Result<()> {
    let name = "the last of many components, by number";
    let last = COMPONENTS as u64 - 1;
    let mut found = [0; 3];
    let number = archive::component(body, last, &mut found);
    if component(body, last).map(tagged_numbers) != Ok(found) || number != 0 {
        return Err(io::Error::other(format!("{name}: the answers differ")));
    }
    let rounds = rounds_a_second(
        |rounds| {
            let mut found = [0; 3];
            for _ in 0..rounds {
                black_box(archive::component(black_box(body), last, &mut found));
                black_box(&found);
            }
        },
        |rounds| {
            for _ in 0..rounds {
                let _ = black_box(component(black_box(body), last));
            }
        },
    );
    write_both(name, 1, body.len(), rounds)
}

/// Writes each side's speed in bodies and in octets.
fn write_both(name: &str, bodies: usize, octets: usize, rounds: [f64; 2]) -> io::Result<()> {
    let measured = format!("{name}: {bodies} of {octets} octets");
    let speeds = rounds.map(|rounds| rounds * bodies as f64);
    write_speeds(&measured, "bodies", speeds)?;
    let speeds = rounds.map(|rounds| rounds * octets as f64);
    write_speeds(&format!("{name}, in octets"), "octets", speeds)
}

/// Reads the bodies with the archive.
fn by_archive(bodies: &[Vec<u8>]) {
    let mut numbers = [0; 10];
    for body in bodies {
        black_box(archive::profile(black_box(body), &mut numbers));
        black_box(&numbers);
    }
}

/// Reads the bodies with the second program.
fn by_second(bodies: &[Vec<u8>]) {
    for body in bodies {
        let _ = black_box(read(black_box(body)));
    }
}

/// Whether the archive does not accept the body as the second program does.
fn answers_differ(body: &[u8]) -> bool {
    let mut numbers = [0; 10];
    let number = archive::profile(body, &mut numbers);
    let expected = read(body).map(|profile| profile_numbers(&profile));
    number != 0 || expected != Ok(numbers)
}
