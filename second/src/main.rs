//! Reads a recording from standard input and answers its lines on standard
//! output; with the argument `inspect`, questions, and with `headers` questions
//! about headers too.

use std::env;
use std::ffi::OsString;
use std::fs::File;
use std::io::{self, BufReader, Write};
use std::os::fd::{AsFd, BorrowedFd};
use std::process::ExitCode;

use second::inspect::{answer_header_questions, answer_questions};
use second::lines::{Failure, BLOCK};
use second::recording::answer_lines;

/// Runs the program, and says on standard error why it failed if it did.
fn main() -> ExitCode {
    let arguments: Vec<OsString> = env::args_os().skip(1).collect();
    match run(&arguments) {
        Ok(()) => ExitCode::SUCCESS,
        Err(reason) => {
            // There is nowhere left to say that this failed too.
            let _ = writeln!(io::stderr(), "second: {reason}");
            ExitCode::FAILURE
        }
    }
}

/// Answers standard input on standard output, as the arguments say.
fn run(arguments: &[OsString]) -> Result<(), String> {
    let answered = match arguments {
        [] => streams().and_then(|(input, output)| answer_lines(input, output)),
        [word] if word == "inspect" => {
            streams().and_then(|(input, output)| answer_questions(input, output))
        }
        [word] if word == "headers" => {
            streams().and_then(|(input, output)| answer_header_questions(input, output))
        }
        _ => return Err("the only arguments there are are `inspect` and `headers`".into()),
    };
    answered.map_err(|failure| failure.to_string())
}

/// Standard input and standard output.
fn streams() -> Result<(BufReader<File>, File), Failure> {
    let input = file(io::stdin().as_fd()).map_err(Failure::Read)?;
    let output = file(io::stdout().as_fd()).map_err(Failure::Write)?;
    Ok((BufReader::with_capacity(BLOCK, input), output))
}

/// The stream as a file. The standard library's own handles take a stream that
/// cannot be read for an empty one, and drop what cannot be written.
fn file(stream: BorrowedFd<'_>) -> io::Result<File> {
    stream.try_clone_to_owned().map(File::from)
}
