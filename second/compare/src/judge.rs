//! Holds the archive's answers and lent memory to the second program's.

use chance::Chance;
use second::cursor::Tagged;
use second::hexline::LONGEST_MESSAGE;
use second::joining::{Answer, CANCELLED, JOINED, PLACE_OCTETS, WHOLE};
use second::profile::{self, Profile};
use second::refusal::{LINE_TOO_LONG, OUTPUT_TOO_SHORT};
use second::rewrite::{rewrite, Chosen};
use second::typecode;
use second::value::{self, Input};
use second::Header;

use crate::archive::{self, HeaderNumbers, ProfileNumbers, TaggedNumbers};
use crate::joinings::Recording;
use crate::lent::{
    LentChecked, LentHeader, LentItem, LentJoining, LentNumbers, LentOutput, LentValue, Noise,
};
use crate::reread;
use crate::tally::{Held, Section, Tally};
use crate::types::order_name;

/// How many octets of a value's type are shown.
const SHOWN_TYPE: usize = 400;

/// Asks both programs, and keeps the tally.
pub struct Judge {
    /// Patterns for the lent memory.
    pub seeds: Chance,
    /// Contents for the lent memory of joining.
    noise: Noise,
    /// What was found so far.
    pub tally: Tally,
}

impl Judge {
    /// A judge that has seen nothing, with patterns of its own for a part of the
    /// inputs.
    pub fn of_part(number: usize) -> Self {
        Judge {
            seeds: Chance::new(0x5EED + ((number as u64) << 32)),
            noise: Noise::new(0x00_15E),
            tally: Tally::default(),
        }
    }

    /// Decodes a line into an output with room for so many octets.
    pub fn decode(&mut self, line: &[u8], room: usize) {
        let mut lent = LentOutput::new(self.seeds.next(), room);
        let number = call_decode(line, &mut lent);
        let expected = hold_output(&lent, &limited(second::decode(line), room));
        self.tally
            .enter(Section::Lines, "decode", line, number, expected);
    }

    /// Encodes octets into an output with room for so many digits.
    pub fn encode(&mut self, octets: &[u8], room: usize) {
        let mut lent = LentOutput::new(self.seeds.next(), room);
        let number = call_encode(octets, &mut lent);
        let expected = hold_output(&lent, &limited(Ok(second::encode(octets)), room));
        self.tally
            .enter(Section::Lines, "encode", octets, number, expected);
    }

    /// Reads a frame's header.
    pub fn frame(&mut self, octets: &[u8]) {
        let mut lent = LentHeader::new(self.seeds.next());
        let number = archive::frame(octets, lent.lend());
        let expected = hold_header(&lent, &second::frame(octets));
        self.tally
            .enter(Section::Lines, "frame", octets, number, expected);
    }

    /// Takes a line the whole way: decodes it, then reads its octets' header.
    pub fn line(&mut self, line: &[u8]) {
        let mut output = LentOutput::new(self.seeds.next(), LONGEST_MESSAGE);
        let mut header = LentHeader::new(self.seeds.next());
        let mut number = call_decode(line, &mut output);
        if number == 0 {
            number = archive::frame(output.first(output.count), header.lend());
        }
        let octets = second::decode(line);
        let in_output = hold_output(&output, &octets).memory;
        let in_header = hold_header(&header, &octets.and_then(|octets| second::frame(&octets)));
        let expected = Held {
            memory: in_output.or(in_header.memory),
            ..in_header
        };
        self.tally
            .enter(Section::Lines, "line", line, number, expected);
    }

    /// Encodes octets and decodes the digits, with room for just the octets.
    pub fn round_trip(&mut self, octets: &[u8]) {
        let mut digits = LentOutput::new(self.seeds.next(), 2 * octets.len());
        let mut output = LentOutput::new(self.seeds.next(), octets.len());
        let mut number = call_encode(octets, &mut digits);
        if number == 0 {
            number = call_decode(digits.first(digits.count), &mut output);
        }
        let answer = match octets.len() {
            0..=LONGEST_MESSAGE => Ok(octets.to_vec()),
            _ => Err(LINE_TOO_LONG),
        };
        let expected = hold_output(&output, &answer);
        self.tally
            .enter(Section::Lines, "round trip", octets, number, expected);
    }

    /// Checks a TypeCode in a byte order.
    pub fn typecode(&mut self, name: &str, octets: &[u8], little: bool) {
        let mut expected = LentChecked::new(self.seeds.next());
        let mut lent = expected;
        let number = archive::typecode(octets, little, lent.lend());
        let answer = typecode::check(octets, little);
        if let Ok(accepted) = &answer {
            expected.accept(accepted);
        }
        let held = Held {
            number: answer.err().unwrap_or(0),
            memory: lent.unlike(&expected),
        };
        self.tally.enter(Section::Types, name, octets, number, held);
    }

    /// Reads a value into a table of so many numbers.
    pub fn value(&mut self, name: &str, input: Input, length: usize) {
        let mut expected = LentValue::new(self.seeds.next(), length);
        let mut lent = expected.clone();
        let (table, numbers, visits) = lent.lend();
        let number = archive::value(input, table, numbers, visits);
        let answer = value::read(input, length / 3);
        match &answer {
            Ok(accepted) => expected.accept(accepted),
            Err(refused) => expected.refuse(refused.visits),
        }
        let held = Held {
            number: answer.err().map_or(0, |refused| refused.number),
            memory: lent.unlike(&expected),
        };
        let ask = || format!("{name}, table of {length}: {}", asked(&input));
        self.enter_asked(Section::Values, name, ask, input.value.octets, number, held);
    }

    /// Reads a value for its item of a number.
    pub fn item(&mut self, name: &str, input: Input, number: u64) {
        let mut expected = LentItem::new(self.seeds.next());
        let mut lent = expected;
        let found = archive::item(input, number, lent.lend());
        let answer = value::item(input, number);
        if let Ok(item) = answer {
            expected.accept(item);
        }
        let held = Held {
            number: answer.err().unwrap_or(0),
            memory: lent.unlike(&expected),
        };
        let ask = || format!("{name}, item {number}: {}", asked(&input));
        self.enter_asked(Section::Items, name, ask, input.value.octets, found, held);
    }

    /// Rewrites a value as chosen into an output with room for so many octets. A
    /// result is read and rewritten in its turn.
    pub fn rewrite(&mut self, name: &str, input: Input, chosen: Chosen, room: usize) {
        let mut lent = LentOutput::new(self.seeds.next(), room);
        let (out, count) = lent.lend();
        let number = archive::rewrite(input, chosen, out, count);
        let answer = rewrite(input, chosen, room);
        let mut held = hold_output(&lent, &answer);
        if let (0, None, Ok(result)) = (number, &held.memory, &answer) {
            held.memory = reread::unlike_value(self.seeds.next(), input, chosen, result);
        }
        let ask = || format!("{name}, {}, room {room}: {}", to(chosen), asked(&input));
        self.enter_asked(
            Section::Rewrites,
            name,
            ask,
            input.value.octets,
            number,
            held,
        );
    }

    /// Enters an input with a question about it, which is told whole if the answers
    /// differ.
    pub fn enter_asked(
        &mut self,
        section: Section,
        name: &str,
        ask: impl FnOnce() -> String,
        octets: &[u8],
        number: u32,
        held: Held,
    ) {
        match number == held.number && held.memory.is_none() {
            true => self.tally.enter(section, name, octets, number, held),
            false => self.tally.enter(section, &ask(), octets, number, held),
        }
    }

    /// Reads a profile body.
    pub fn profile(&mut self, name: &str, octets: &[u8]) {
        let mut lent = LentNumbers::new(self.seeds.next());
        let before = lent;
        let number = archive::profile(octets, lent.lend());
        let answer = profile::read(octets).map(|profile| profile_numbers(&profile));
        let held = hold_numbers(lent, before, answer);
        self.tally
            .enter(Section::Profiles, name, octets, number, held);
    }

    /// Reads a profile body for its component of a number.
    pub fn component(&mut self, name: &str, octets: &[u8], number: u64) {
        let mut lent = LentNumbers::new(self.seeds.next());
        let before = lent;
        let found = archive::component(octets, number, lent.lend());
        let answer = profile::component(octets, number).map(tagged_numbers);
        let held = hold_numbers(lent, before, answer);
        let ask = || format!("{name}, component {number}:");
        self.enter_asked(Section::Components, name, ask, octets, found, held);
    }

    /// Gives the lines of a recording one after the other.
    pub fn recording(&mut self, name: &str, recording: &Recording) {
        let mut lent = LentJoining::new(&mut self.seeds, &self.noise, &recording.start);
        for line in &recording.lines {
            let room = self.room(line, &lent);
            let answer = self.join(name, line, &mut lent, room);
            if answer.number == OUTPUT_TOO_SHORT && self.seeds.once_in(2) {
                self.join(name, line, &mut lent, PLACE_OCTETS);
            }
        }
    }

    /// The room for a line's message: mostly plenty, sometimes none, just
    /// enough, or around that.
    fn room(&mut self, line: &[u8], lent: &LentJoining) -> usize {
        if !self.seeds.once_in(4) {
            return PLACE_OCTETS;
        }
        let mut trial = lent.clone();
        trial.renew_output(&mut self.seeds, &self.noise, PLACE_OCTETS);
        let written = call_second(line, &mut trial).written;
        let needed = if written > 0 { written } else { line.len() };
        let around = [
            needed,
            needed.saturating_sub(1),
            needed + 1,
            0,
            PLACE_OCTETS + 8,
        ];
        self.seeds.pick(&around)
    }

    /// Gives a line with an output of so many octets, and gives back the
    /// second program's answer and the memory as that leaves it.
    fn join(&mut self, name: &str, line: &[u8], lent: &mut LentJoining, room: usize) -> Answer {
        lent.renew_output(&mut self.seeds, &self.noise, room);
        let mut ours = lent.clone();
        let parts = ours.lend();
        let number = archive::join(line, parts.record, parts.places, parts.output, parts.count);
        let answer = call_second(line, lent);
        let held = Held {
            number: answer.number,
            memory: ours.unlike(lent),
        };
        self.tally.enter(Section::Joining, name, line, number, held);
        answer
    }
}

/// What a value is rewritten to.
fn to(chosen: Chosen) -> String {
    let order = chosen.little.map_or("no order named", order_name);
    format!("to {order}, start {}", chosen.start)
}

/// A value's type, orders and start as a question has them, the type cut.
fn asked(input: &Input) -> String {
    let typecode = input.typecode.octets;
    let shown = &typecode[..typecode.len().min(SHOWN_TYPE)];
    let digits = second::encode(shown);
    let more = if shown.len() < typecode.len() {
        "..."
    } else {
        ""
    };
    format!(
        "{} {}{more} {} start {}, value",
        order_name(input.typecode.little),
        String::from_utf8_lossy(&digits),
        order_name(input.value.little),
        input.start,
    )
}

/// The second program's answer; the count as the archive is to leave it.
fn call_second(line: &[u8], lent: &mut LentJoining) -> Answer {
    let parts = lent.lend();
    let answer = second::joining::join(line, parts.record, parts.places, parts.output);
    if [WHOLE, JOINED, CANCELLED].contains(&answer.number) {
        *parts.count = answer.written as u64;
    }
    answer
}

/// Holds a lent output to the second program's answer.
pub fn hold_output(lent: &LentOutput, answer: &Result<Vec<u8>, u32>) -> Held {
    match answer {
        Ok(octets) => Held {
            number: 0,
            memory: lent.unlike(octets),
        },
        Err(refusal) => Held {
            number: *refusal,
            memory: lent.touched(),
        },
    }
}

/// Holds a lent header to the second program's answer.
fn hold_header(lent: &LentHeader, answer: &Result<Header, u32>) -> Held {
    match answer {
        Ok(header) => Held {
            number: 0,
            memory: lent.unlike(&numbers(header)),
        },
        Err(refusal) => Held {
            number: *refusal,
            memory: lent.touched(),
        },
    }
}

/// Holds lent numbers to what they were before and the second program's answer.
pub fn hold_numbers<const COUNT: usize>(
    lent: LentNumbers<COUNT>,
    before: LentNumbers<COUNT>,
    answer: Result<[u64; COUNT], u32>,
) -> Held {
    let mut expected = before;
    if let Ok(numbers) = answer {
        *expected.lend() = numbers;
    }
    Held {
        number: answer.err().unwrap_or(0),
        memory: lent.unlike(&expected),
    }
}

/// The archive's number for decoding a line into the lent output.
fn call_decode(line: &[u8], lent: &mut LentOutput) -> u32 {
    let (out, count) = lent.lend();
    archive::decode(line, out, count)
}

/// The archive's number for encoding octets into the lent output.
fn call_encode(octets: &[u8], lent: &mut LentOutput) -> u32 {
    let (out, count) = lent.lend();
    archive::encode(octets, out, count)
}

/// The answer where there is room for so many octets only.
fn limited(answer: Result<Vec<u8>, u32>, room: usize) -> Result<Vec<u8>, u32> {
    match answer {
        Ok(octets) if octets.len() > room => Err(OUTPUT_TOO_SHORT),
        other => other,
    }
}

/// A header as the archive's interface gives it.
fn numbers(header: &Header) -> HeaderNumbers {
    [
        header.minor.into(),
        header.little.into(),
        header.more.into(),
        header.kind.into(),
        header.size.into(),
        header.id.is_some().into(),
        header.id.unwrap_or(0).into(),
    ]
}

/// A profile as the archive's interface gives it.
pub fn profile_numbers(profile: &Profile) -> ProfileNumbers {
    [
        profile.little.into(),
        profile.major.into(),
        profile.minor.into(),
        profile.host.place as u64,
        profile.host.octets.len() as u64,
        profile.port.into(),
        profile.key.place as u64,
        profile.key.octets.len() as u64,
        profile.components.into(),
        profile.extra as u64,
    ]
}

/// A component, a context or a profile as the archive's interface gives it.
pub fn tagged_numbers(tagged: Tagged) -> TaggedNumbers {
    let Tagged { tag, run } = tagged;
    [tag.into(), run.place as u64, run.octets.len() as u64]
}
