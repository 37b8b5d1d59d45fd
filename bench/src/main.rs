//! Writes a night's recording to standard output: `night BYTES SEED`.
//!
//! The recording has about BYTES characters. The same BYTES and SEED always
//! give the same recording.

mod frame;
mod night;

use std::env;
use std::io::{self, Write};
use std::process::ExitCode;

use crate::night::Night;

/// The characters that are written at once.
const BLOCK: usize = 1 << 20;

/// Writes the recording, or says on standard error why it cannot.
fn main() -> ExitCode {
    let Some((bytes, seed)) = arguments() else {
        eprintln!("usage: night BYTES SEED");
        return ExitCode::FAILURE;
    };
    match write_night(bytes, seed) {
        Ok(()) => ExitCode::SUCCESS,
        Err(error) => {
            eprintln!("night: {error}");
            ExitCode::FAILURE
        }
    }
}

/// The two numbers, if there are just these.
fn arguments() -> Option<(u64, u64)> {
    let mut arguments = env::args().skip(1);
    let bytes = arguments.next()?.parse().ok()?;
    let seed = arguments.next()?.parse().ok()?;
    arguments.next().is_none().then_some((bytes, seed))
}

/// Writes lines until there are enough characters.
fn write_night(bytes: u64, seed: u64) -> io::Result<()> {
    let mut output = io::stdout().lock();
    let mut night = Night::new(seed);
    let mut text = Vec::with_capacity(2 * BLOCK);
    let mut written = 0;
    while written + (text.len() as u64) < bytes {
        night.add_line(&mut text);
        if text.len() >= BLOCK {
            output.write_all(&text)?;
            written += text.len() as u64;
            text.clear();
        }
    }
    output.write_all(&text)?;
    output.flush()
}
