//! Measures how many Request and Reply headers the proved library and the second
//! program read and write back in a second, on the same messages, in turns: five
//! times each, and the median.

use std::hint::black_box;
use std::io;
use std::process::ExitCode;

use chance::Chance;
use compare::archive;
use compare::header_judge::header_numbers;
use compare::measure::{rounds_a_second, status, write_speeds};
use compare::messages::{target_of, After, Outline, TARGETED};
use compare::orb_headers;
use second::frame::{REPLY, REQUEST};
use second::header::{head, head_into, read, Kind, LONGEST_JOINED};

/// How many contexts the message of many has.
const CONTEXTS: usize = 400;

/// The octets of each of them, so that there are about 16,000 in all.
const CONTEXT_OCTETS: usize = 32;

/// Measures all messages, or says on standard error why it cannot.
fn main() -> ExitCode {
    status("headers", run())
}

/// Measures the reading of all messages, and the writing back of the ORB's.
fn run() -> io::Result<()> {
    let chance = &mut Chance::new(0x0_050);
    let from_orb: Vec<Vec<u8>> = orb_headers::rows().map(|row| row.octets).collect();
    let (requests, replies): (Vec<_>, Vec<_>) = from_orb
        .iter()
        .cloned()
        .partition(|message| is_request(message));
    measure("an ORB's requests", &requests)?;
    measure("an ORB's replies", &replies)?;
    measure("a 1.0 request", &[plain(chance, 0, REQUEST, 1)])?;
    let three = plain(chance, TARGETED, REQUEST, 3);
    measure("a 1.2 request with three contexts", &[three])?;
    let reference = for_reference(chance);
    measure("a 1.2 request for a reference", &[reference])?;
    let many = plain(chance, TARGETED, REPLY, CONTEXTS);
    measure("many contexts", &[many])?;
    measure_heads("an ORB's messages, written back", &from_orb)
}

/// Whether a message is an accepted Request.
fn is_request(message: &[u8]) -> bool {
    matches!(read(message), Ok(header) if matches!(header.kind, Kind::Request(_)))
}

/// A sound message with so many contexts, a key as target and a short body.
fn outline(chance: &mut Chance, minor: u8, kind: u8, contexts: usize) -> Outline {
    let one = |number| (number as u32, chance.octets(CONTEXT_OCTETS));
    let contexts = (0..contexts).map(one).collect();
    Outline {
        target: (0, target_of(chance, 0)),
        operation: b"operation\0".to_vec(),
        contexts,
        after: After::Body(24),
        ..Outline::of(chance, minor, kind)
    }
}

/// Such a message's octets.
fn plain(chance: &mut Chance, minor: u8, kind: u8, contexts: usize) -> Vec<u8> {
    let outline = outline(chance, minor, kind, contexts);
    outline.laid_out(chance, false).0.octets
}

/// A 1.2 request with a reference as target.
fn for_reference(chance: &mut Chance) -> Vec<u8> {
    let outline = Outline {
        target: (2, target_of(chance, 2)),
        ..outline(chance, TARGETED, REQUEST, 1)
    };
    outline.laid_out(chance, false).0.octets
}

/// Measures the reading of these messages, and writes the speeds.
fn measure(name: &str, messages: &[Vec<u8>]) -> io::Result<()> {
    refuse_differences(name, messages, reading_differs)?;
    let rounds = rounds_a_second(
        |rounds| (0..rounds).for_each(|_| read_by_archive(messages)),
        |rounds| (0..rounds).for_each(|_| read_by_second(messages)),
    );
    write_all(name, messages, rounds)
}

/// Measures the writing back of what is before the bodies of these messages, and
/// writes the speeds.
fn measure_heads(name: &str, messages: &[Vec<u8>]) -> io::Result<()> {
    refuse_differences(name, messages, writing_differs)?;
    let rounds = rounds_a_second(
        |rounds| write_by_archive(messages, rounds),
        |rounds| write_by_second(messages, rounds),
    );
    write_all(name, messages, rounds)
}

/// Fails if the two sides differ on any of the messages.
fn refuse_differences(
    name: &str,
    messages: &[Vec<u8>],
    differs: fn(&[u8]) -> bool,
) -> io::Result<()> {
    match messages.iter().any(|message| differs(message)) {
        true => Err(io::Error::other(format!("{name}: the answers differ"))),
        false => Ok(()),
    }
}

/// Writes each side's speed in headers.
fn write_all(name: &str, messages: &[Vec<u8>], rounds: [f64; 2]) -> io::Result<()> {
    let octets: usize = messages.iter().map(Vec::len).sum();
    let measured = format!("{name}: {} of {octets} octets", messages.len());
    let speeds = rounds.map(|rounds| rounds * messages.len() as f64);
    write_speeds(&measured, "headers", speeds)
}

/// Reads the messages with the archive.
fn read_by_archive(messages: &[Vec<u8>]) {
    let mut numbers = [0; 17];
    for message in messages {
        black_box(archive::header(black_box(message), &mut numbers));
        black_box(&numbers);
    }
}

/// Reads the messages with the second program.
fn read_by_second(messages: &[Vec<u8>]) {
    for message in messages {
        let _ = black_box(read(black_box(message)));
    }
}

/// Writes back so many times with the archive, into the same output.
fn write_by_archive(messages: &[Vec<u8>], rounds: usize) {
    let (mut out, mut count) = (vec![0; LONGEST_JOINED], 0);
    for message in (0..rounds).flat_map(|_| messages) {
        black_box(archive::head(black_box(message), &mut out, &mut count));
        black_box((&out, count));
    }
}

/// Writes back so many times with the second program, into the same output.
fn write_by_second(messages: &[Vec<u8>], rounds: usize) {
    let mut out = Vec::with_capacity(LONGEST_JOINED);
    for message in (0..rounds).flat_map(|_| messages) {
        let _ = black_box(head_into(black_box(message), LONGEST_JOINED, &mut out));
        black_box(&out);
    }
}

/// Whether the archive does not accept the message as the second program does.
fn reading_differs(message: &[u8]) -> bool {
    let mut numbers = [0; 17];
    let number = archive::header(message, &mut numbers);
    let expected = read(message).map(|header| header_numbers(&header));
    number != 0 || expected != Ok(numbers)
}

/// Whether the archive does not write back what the second program does.
fn writing_differs(message: &[u8]) -> bool {
    let (mut out, mut count) = (vec![0; LONGEST_JOINED], 0);
    let number = archive::head(message, &mut out, &mut count);
    out.truncate(count as usize);
    number != 0 || head(message, LONGEST_JOINED) != Ok(out)
}
