//! Lines of input, and why reading or answering them failed.

use std::fmt;
use std::io::{self, BufRead, Read};

/// The octets of a block of input or output.
pub const BLOCK: usize = 1 << 16;

/// Why the program stopped before it was done.
#[derive(Debug)]
pub enum Failure {
    /// Reading the input failed.
    Read(io::Error),
    /// Writing the answers failed.
    Write(io::Error),
}

impl fmt::Display for Failure {
    fn fmt(&self, formatter: &mut fmt::Formatter<'_>) -> fmt::Result {
        match self {
            Failure::Read(error) => write!(formatter, "reading failed: {error}"),
            Failure::Write(error) => write!(formatter, "writing failed: {error}"),
        }
    }
}

/// Reads the next line, without its LF, and keeps its first characters: one
/// more than it may have, so that an over-long line is known as such, however
/// long it is. Says whether there was one.
pub fn next_line(input: &mut impl BufRead, longest: usize, line: &mut Vec<u8>) -> io::Result<bool> {
    let kept = longest + 1;
    line.clear();
    if input.by_ref().take(kept as u64).read_until(b'\n', line)? == 0 {
        return Ok(false);
    }
    if line.last() == Some(&b'\n') {
        line.pop();
    } else if line.len() == kept {
        input.skip_until(b'\n')?;
    }
    Ok(true)
}

/// Streams for the tests of programs over lines.
#[cfg(test)]
pub mod streams {
    use std::io::{self, Cursor, ErrorKind, Read, Write};

    /// Gives its octets, then fails.
    pub struct Failing(pub Cursor<Vec<u8>>);

    impl Read for Failing {
        fn read(&mut self, buffer: &mut [u8]) -> io::Result<usize> {
            match self.0.read(buffer)? {
                0 => Err(io::Error::other("cable cut")),
                count => Ok(count),
            }
        }
    }

    /// Is interrupted before every octet.
    pub struct Interrupted<'a>(pub &'a [u8], pub bool);

    impl Read for Interrupted<'_> {
        fn read(&mut self, buffer: &mut [u8]) -> io::Result<usize> {
            self.1 = !self.1;
            match self.1 {
                true => Err(ErrorKind::Interrupted.into()),
                false => self.0.read(&mut buffer[..1]),
            }
        }
    }

    /// Takes no octet.
    pub struct Full;

    impl Write for Full {
        fn write(&mut self, _: &[u8]) -> io::Result<usize> {
            Err(io::Error::other("disk full"))
        }

        fn flush(&mut self) -> io::Result<()> {
            Ok(())
        }
    }
}

#[cfg(test)]
mod tests {
    use super::*;
    use std::io::BufReader;

    /// The lines of an input, each cut after three characters.
    fn lines(mut input: &[u8]) -> Vec<Vec<u8>> {
        let mut lines = Vec::new();
        let mut line = Vec::new();
        while next_line(&mut input, 2, &mut line).expect("no failure") {
            lines.push(line.clone());
        }
        lines
    }

    #[test]
    fn nothing_follows_a_final_lf() {
        assert!(lines(b"").is_empty());
        assert_eq!(lines(b"\n"), [b""]);
        assert_eq!(lines(b"ab\n"), [b"ab"]);
        assert_eq!(lines(b"ab"), [b"ab"]);
        assert_eq!(lines(b"\n\na"), [&b""[..], b"", b"a"]);
    }

    #[test]
    fn one_character_too_many_is_kept() {
        assert_eq!(lines(b"abc\nde\n"), [&b"abc"[..], b"de"]);
        assert_eq!(lines(b"abcdef\nde"), [&b"abc"[..], b"de"]);
        assert_eq!(lines(b"abcdef"), [b"abc"]);
    }

    #[test]
    fn a_long_line_is_not_stored() {
        let mut input = BufReader::with_capacity(BLOCK, io::repeat(b'x').take(50_000_000));
        let mut line = Vec::with_capacity(8_193);
        assert!(next_line(&mut input, 8_192, &mut line).expect("no failure"));
        assert_eq!(line.len(), 8_193);
        assert_eq!(line.capacity(), 8_193);
    }
}
