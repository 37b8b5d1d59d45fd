//! Holds the archive's answers about Request and Reply headers.

use second::cursor::{Run, Tagged};
use second::header::{self, Header, Kind, Request, Target};

use crate::archive::{self, MessageNumbers, TaggedNumbers};
use crate::judge::{hold_numbers, hold_output, tagged_numbers, Judge};
use crate::lent::{LentNumbers, LentOutput};
use crate::tally::Section;

/// A list that a header can have.
#[derive(Clone, Copy)]
pub enum List {
    /// The contexts.
    Contexts,
    /// The profiles of the target's reference.
    Profiles,
}

impl List {
    /// The archive's answer about one of the list.
    pub fn by_archive(self, message: &[u8], number: u64, found: &mut TaggedNumbers) -> u32 {
        match self {
            List::Contexts => archive::context(message, number, found),
            List::Profiles => archive::target(message, number, found),
        }
    }

    /// The second program's.
    pub fn by_second(self, message: &[u8], number: u64) -> Result<Tagged<'_>, u32> {
        match self {
            List::Contexts => header::context(message, number),
            List::Profiles => header::target(message, number),
        }
    }
}

impl Judge {
    /// Reads the header of a message.
    pub fn header(&mut self, name: &str, message: &[u8]) {
        let mut lent = LentNumbers::new(self.seeds.next());
        let before = lent;
        let number = archive::header(message, lent.lend());
        let answer = header::read(message).map(|header| header_numbers(&header));
        let held = hold_numbers(lent, before, answer);
        self.tally
            .enter(Section::Headers, name, message, number, held);
    }

    /// Reads a message for one of a list, by its number.
    pub fn listed(&mut self, list: List, name: &str, message: &[u8], number: u64) {
        let mut lent = LentNumbers::new(self.seeds.next());
        let before = lent;
        let found = list.by_archive(message, number, lent.lend());
        let answer = list.by_second(message, number).map(tagged_numbers);
        let held = hold_numbers(lent, before, answer);
        let (section, one) = match list {
            List::Contexts => (Section::Contexts, "context"),
            List::Profiles => (Section::Targets, "profile"),
        };
        let ask = || format!("{name}, {one} {number}:");
        self.enter_asked(section, name, ask, message, found, held);
    }

    /// Writes back what is before a message's body, into an output with room for so
    /// many octets. A result is read and written back in its turn.
    pub fn head(&mut self, name: &str, message: &[u8], room: usize) {
        let mut lent = LentOutput::new(self.seeds.next(), room);
        let (out, count) = lent.lend();
        let number = archive::head(message, out, count);
        let answer = header::head(message, room);
        let mut held = hold_output(&lent, &answer);
        if let (0, None, Ok(head)) = (number, &held.memory, &answer) {
            held.memory =
                unlike_message(message, head).or_else(|| self.unlike_again(message, head));
        }
        let ask = || format!("{name}, head, room {room}:");
        self.enter_asked(Section::Heads, name, ask, message, number, held);
    }

    /// What differs if the octets before the body take the place of the message's,
    /// and the archive reads and writes them back again.
    fn unlike_again(&mut self, message: &[u8], head: &[u8]) -> Option<String> {
        let again = [head, &message[head.len()..]].concat();
        let mut numbers = [[0; 17]; 2];
        let found = archive::header(message, &mut numbers[0]);
        if found != archive::header(&again, &mut numbers[1]) || numbers[0] != numbers[1] {
            return Some(format!("read again, the numbers are {numbers:?}"));
        }
        let mut lent = LentOutput::new(self.seeds.next(), head.len());
        let (out, count) = lent.lend();
        match archive::head(&again, out, count) {
            0 => lent.unlike(head).map(|unlike| format!("again, {unlike}")),
            refusal => Some(format!("written back again, it is refused by {refusal}")),
        }
    }
}

/// The first octet that is neither the message's nor zero.
fn unlike_message(message: &[u8], head: &[u8]) -> Option<String> {
    let mut pairs = head.iter().zip(message);
    let index = pairs.position(|(&octet, other)| octet != 0 && octet != *other)?;
    Some(format!("octet {index} is not the message's"))
}

/// A header as the archive's interface gives it.
pub fn header_numbers(header: &Header) -> MessageNumbers {
    let mut numbers = [0; 17];
    numbers[1] = header.minor.into();
    numbers[2] = header.little.into();
    numbers[3] = header.id.into();
    match &header.kind {
        Kind::Request(request) => request_numbers(request, &mut numbers),
        Kind::Reply(status) => {
            numbers[0] = 1;
            numbers[5] = (*status).into();
        }
    }
    numbers[15] = header.contexts.into();
    numbers[16] = header.body as u64;
    numbers
}

/// Fills in what only a Request has.
fn request_numbers(request: &Request, numbers: &mut MessageNumbers) {
    numbers[4] = request.response.into();
    let (kind, number, run, profiles) = match request.target {
        Target::Key(run) => (0, 0, run, 0),
        Target::Profile(Tagged { tag, run }) => (1, tag, run, 0),
        Target::Reference {
            index,
            type_id,
            profiles,
        } => (2, index, type_id, profiles),
    };
    numbers[6] = kind;
    numbers[7] = number.into();
    numbers[8..10].copy_from_slice(&run_numbers(run));
    numbers[10] = profiles.into();
    numbers[11..13].copy_from_slice(&run_numbers(request.operation));
    if let Some(principal) = request.principal {
        numbers[13..15].copy_from_slice(&run_numbers(principal));
    }
}

/// The place and the length of octets.
fn run_numbers(run: Run) -> [u64; 2] {
    [run.place as u64, run.octets.len() as u64]
}
