//! The program over the lines of a recording.

use std::io::{self, BufRead, Write};

use crate::hexline::{decode_into, encode_into, LONGEST_LINE, LONGEST_MESSAGE};
use crate::joining::{join, Answer, Record, CANCELLED, JOINED, PLACES, PLACE_OCTETS, WHOLE};
use crate::lines::{next_line, Failure, BLOCK};

/// A recording in the reading. Its memory does not grow with the recording.
struct Reading {
    /// Lines answered.
    lines: u64,
    /// The places for open messages.
    record: Record,
    /// The places' octets.
    places: Vec<u8>,
    /// The octets of the line.
    octets: Vec<u8>,
    /// The message to be written.
    message: Vec<u8>,
    /// Answers that are not written yet.
    answers: Vec<u8>,
}

impl Reading {
    /// A recording of which nothing is read.
    fn new() -> Self {
        Reading {
            lines: 0,
            record: Record::default(),
            places: vec![0; PLACES * PLACE_OCTETS],
            octets: Vec::with_capacity(LONGEST_MESSAGE),
            message: vec![0; PLACE_OCTETS],
            // A block, and the answer that fills it.
            answers: Vec::with_capacity(2 * BLOCK),
        }
    }

    /// Answers a line.
    fn take(&mut self, line: &[u8]) -> io::Result<()> {
        let answer = self.join(line);
        self.lines += 1;
        write!(self.answers, "{} {} ", self.lines, answer.number)?;
        match answer.number {
            WHOLE | JOINED | CANCELLED => {
                encode_into(&self.message[..answer.written], &mut self.answers);
            }
            _ => self.answers.push(b'-'),
        }
        self.answers.push(b'\n');
        Ok(())
    }

    /// What a line is answered; refusals 10 and 11 are those of its characters.
    fn join(&mut self, line: &[u8]) -> Answer {
        match decode_into(line, &mut self.octets) {
            Ok(()) => join(
                &self.octets,
                &mut self.record,
                &mut self.places,
                &mut self.message,
            ),
            Err(refusal) => Answer {
                number: refusal,
                written: 0,
            },
        }
    }

    /// Says how many lines were read and how many messages are open.
    fn end(&mut self) -> io::Result<()> {
        let open = self.record.open();
        writeln!(self.answers, "end {} {open}", self.lines)
    }

    /// Writes the answers that are not written yet.
    fn write_answers(&mut self, output: &mut impl Write) -> io::Result<()> {
        output.write_all(&self.answers)?;
        self.answers.clear();
        Ok(())
    }
}

/// Answers every line of the input, then says how many lines there were and
/// how many messages are open.
///
/// If reading fails, the lines before the one it failed in are answered.
pub fn answer_lines(mut input: impl BufRead, mut output: impl Write) -> Result<(), Failure> {
    let mut reading = Reading::new();
    let mut line = Vec::with_capacity(LONGEST_LINE + 1);
    let read = loop {
        match next_line(&mut input, LONGEST_LINE, &mut line) {
            Ok(true) => reading.take(&line).map_err(Failure::Write)?,
            Ok(false) => break reading.end().map_err(Failure::Write),
            Err(error) => break Err(Failure::Read(error)),
        }
        if reading.answers.len() >= BLOCK {
            reading.write_answers(&mut output).map_err(Failure::Write)?;
        }
    };
    reading
        .write_answers(&mut output)
        .and_then(|()| output.flush())
        .map_err(Failure::Write)?;
    read
}

#[cfg(test)]
mod tests {
    use super::*;
    use std::io::{BufReader, Cursor};

    use crate::hexline::encode;
    use crate::lines::streams::{Failing, Full, Interrupted};

    /// The program's output, read in blocks of the given length.
    fn output_in_blocks(input: &[u8], block: usize) -> String {
        let mut output = Vec::new();
        answer_lines(BufReader::with_capacity(block, input), &mut output).expect("no failure");
        String::from_utf8(output).expect("text")
    }

    /// The program's output.
    fn output(input: &[u8]) -> String {
        let whole = output_in_blocks(input, BLOCK);
        assert_eq!(output_in_blocks(input, 1), whole);
        assert_eq!(output_in_blocks(input, 7), whole);
        whole
    }

    #[test]
    fn whole_example() {
        let input = b"47494F50010202000000000400000009\n\
            47494F50010200070000000600000009ABCD\n47\n";
        let answers = "1 1 -\n2 2 47494F50010200000000000600000009ABCD\n3 12 -\nend 3 0\n";
        assert_eq!(output(input), answers);
        assert_eq!(output(&input[..input.len() - 1]), answers);
    }

    #[test]
    fn messages_are_written_in_upper_case() {
        assert_eq!(
            output(b"47494f500101010001000000ab"),
            "1 0 47494F500101010001000000AB\nend 1 0\n"
        );
    }

    #[test]
    fn a_cancel_is_written_and_open_messages_are_counted() {
        let first = "47494F50010203000400000009000000";
        let other = "47494F50010202000000000400000008";
        let cancel = "47494F50010001020400000009000000";
        assert_eq!(
            output([first, other, first, cancel, cancel].join("\n").as_bytes()),
            format!("1 1 -\n2 1 -\n3 22 -\n4 3 {cancel}\n5 0 {cancel}\nend 5 1\n")
        );
    }

    /// A big-endian frame of message 9 with so many octets after the id.
    fn frame(flags: u8, kind: u8, part: usize) -> Vec<u8> {
        let size = (4 + part as u32).to_be_bytes();
        let start = [b"GIOP\x01\x02", &[flags, kind][..], &size, &[0, 0, 0, 9]].concat();
        [start, vec![0xA5; part]].concat()
    }

    #[test]
    fn joined_16384_and_16385_octets() {
        let mut lines = vec![encode(&frame(2, 1, 4_080))];
        lines.extend([(); 3].map(|()| encode(&frame(2, 7, 4_080))));
        lines.push(encode(&frame(0, 7, 49)));
        lines.push(encode(&frame(0, 7, 48)));
        let message = [
            &b"47494F5001020001"[..],
            b"00003FF4",
            b"00000009",
            "A5".repeat(16_368).as_bytes(),
        ]
        .concat();
        assert_eq!(message.len(), 2 * 16_384);
        let message = String::from_utf8(message).expect("digits");
        assert_eq!(
            output(&lines.join(&b'\n')),
            format!("1 1 -\n2 1 -\n3 1 -\n4 1 -\n5 26 -\n6 2 {message}\nend 6 0\n")
        );
    }

    #[test]
    fn lines_of_8192_and_8194_digits() {
        let mut lines = vec![encode(&frame(0, 0, 4_080)), encode(&frame(0, 0, 4_081))];
        let first = String::from_utf8(lines[0].clone()).expect("digits");
        lines.push(encode(&frame(2, 0, 4_080)));
        assert_eq!(
            output(&lines.join(&b'\n')),
            format!("1 0 {first}\n2 10 -\n3 1 -\nend 3 1\n")
        );
    }

    #[test]
    fn empty_input_and_empty_lines() {
        assert_eq!(output(b""), "end 0 0\n");
        assert_eq!(output(b"\n"), "1 12 -\nend 1 0\n");
        assert_eq!(output(b"\n\n"), "1 12 -\n2 12 -\nend 2 0\n");
        assert_eq!(output(b"\n4"), "1 12 -\n2 11 -\nend 2 0\n");
    }

    #[test]
    fn a_carriage_return_is_no_digit() {
        assert_eq!(output(b"47494F500100000500000000\r\n"), "1 11 -\nend 1 0\n");
        assert_eq!(output(b"\r\r\n"), "1 11 -\nend 1 0\n");
    }

    #[test]
    fn lines_around_the_longest() {
        let lines = [8_191, 8_192, 8_193, 8_194, 200_000].map(|length| vec![b'0'; length]);
        let answers = "1 11 -\n2 13 -\n3 10 -\n4 10 -\n5 10 -\nend 5 0\n";
        assert_eq!(output(&lines.join(&b'\n')), answers);
        assert_eq!(
            output(&[lines.concat(), vec![b'\n']].concat()),
            "1 10 -\nend 1 0\n"
        );
    }

    #[test]
    fn unwritten_answers_do_not_grow() {
        let line = encode(&frame(0, 0, 4_080));
        let mut reading = Reading::new();
        let capacity = reading.answers.capacity();
        while reading.answers.len() < BLOCK {
            reading.take(&line).expect("no failure");
        }
        assert_eq!(reading.answers.capacity(), capacity);
        assert!(reading.octets.capacity() <= LONGEST_MESSAGE);
    }

    #[test]
    fn an_interrupted_read_is_tried_again() {
        let mut output = Vec::new();
        let input = BufReader::new(Interrupted(b"47\n", false));
        answer_lines(input, &mut output).expect("no failure");
        assert_eq!(output, b"1 12 -\nend 1 0\n");
    }

    #[test]
    fn failures_are_told_and_have_no_end() {
        let mut output = Vec::new();
        let input = BufReader::new(Failing(Cursor::new(b"47\n47".to_vec())));
        let failure = answer_lines(input, &mut output).expect_err("a failure");
        assert_eq!(failure.to_string(), "reading failed: cable cut");
        assert_eq!(output, b"1 12 -\n");

        let failure = answer_lines(&b"47\n"[..], Full).expect_err("a failure");
        assert_eq!(failure.to_string(), "writing failed: disk full");
    }
}
