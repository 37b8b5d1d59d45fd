//! Measures the archive and the second program in turns.

use std::io::{self, Write};
use std::process::ExitCode;
use std::time::{Duration, Instant};

/// How often each side is measured.
const RUNS: usize = 5;

/// About how long the slower side's run is.
const LONG_ENOUGH: Duration = Duration::from_millis(400);

/// Rounds a second of the archive and of the second program, each of which is
/// given a number of rounds to do: the medians of five runs.
pub fn rounds_a_second(archive: impl Fn(usize), second: impl Fn(usize)) -> [f64; 2] {
    let sides: [&dyn Fn(usize); 2] = [&archive, &second];
    let slower = sides.map(|side| time(side, 1)).into_iter().max();
    let once = slower.unwrap_or_default().max(Duration::from_nanos(1));
    let rounds = 1 + (LONG_ENOUGH.as_nanos() / once.as_nanos()) as usize;
    let mut times = [[Duration::ZERO; RUNS]; 2];
    for run in 0..RUNS {
        for (side, times) in sides.iter().zip(&mut times) {
            times[run] = time(side, rounds);
        }
    }
    times.map(|times| rounds as f64 / median(times).as_secs_f64())
}

/// How long a side takes for so many rounds.
fn time(side: impl Fn(usize), rounds: usize) -> Duration {
    let start = Instant::now();
    side(rounds);
    start.elapsed()
}

/// The median of the times.
fn median(mut times: [Duration; RUNS]) -> Duration {
    times.sort();
    times[RUNS / 2]
}

/// Writes what was measured, each side's speed in such units a second, and how
/// many times as fast the archive is.
pub fn write_speeds(measured: &str, unit: &str, [archive, second]: [f64; 2]) -> io::Result<()> {
    let mut output = io::stdout().lock();
    writeln!(output, "{measured}")?;
    writeln!(output, "archive: {archive:.0} {unit}/s")?;
    writeln!(output, "second: {second:.0} {unit}/s")?;
    writeln!(output, "archive/second: {:.2}", archive / second)
}

/// The status of a program that measures, which says on standard error why it
/// failed if it did.
pub fn status(program: &str, measured: io::Result<()>) -> ExitCode {
    match measured {
        Ok(()) => ExitCode::SUCCESS,
        Err(error) => {
            // There is nowhere left to say that this failed too.
            let _ = writeln!(io::stderr(), "{program}: {error}");
            ExitCode::FAILURE
        }
    }
}
