//! Counts of inputs, numbers and differences.

use std::collections::BTreeMap;
use std::fmt::{self, Write};
use std::ops::RangeInclusive;

use second::joining::{CANCELLED, WHOLE};
use second::refusal::{
    FRAGMENT_UNALIGNED, HEADER_CUT, HEAD_TOO_LONG, ID_OPEN, KIND_BELOW_TOP, LINE_TOO_LONG,
    MESSAGE_CUT, NO_MESSAGE_HEADER, NO_ROOM, NO_SUCH_ITEM, NO_SUCH_PART, OCTETS_AFTER_KEY,
    OCTETS_TOO_MANY, OUTPUT_TOO_SHORT, PROFILE_CUT, RECORD_UNSOUND, RESULT_TOO_LONG, TOO_MANY_OPEN,
    TYPE_CUT, VALUE_CUT,
};

/// How many differences are shown.
const SHOWN: usize = 20;

/// How many digits of an input are shown.
const SHOWN_DIGITS: usize = 200;

/// How many inputs there must be.
const ENOUGH: u64 = 200_000;

/// The sections of which there must be so many inputs.
const ENOUGH_OF: [(Section, u64); 7] = [
    (Section::Types, 500_000),
    (Section::Values, 500_000),
    (Section::Items, 150_000),
    (Section::Rewrites, 300_000),
    (Section::Profiles, 300_000),
    (Section::Components, 300_000),
    (Section::Headers, 400_000),
];

/// All the refusals that the papers have.
const REFUSALS: [RangeInclusive<u32>; 6] = [
    LINE_TOO_LONG..=RECORD_UNSOUND,
    TYPE_CUT..=KIND_BELOW_TOP,
    OCTETS_TOO_MANY..=OCTETS_TOO_MANY,
    NO_SUCH_ITEM..=RESULT_TOO_LONG,
    PROFILE_CUT..=OCTETS_AFTER_KEY,
    NO_SUCH_PART..=HEAD_TOO_LONG,
];

/// The sections of the papers whose numbers are counted apart.
#[derive(Clone, Copy, PartialEq, Eq, PartialOrd, Ord)]
pub enum Section {
    /// Lines and frame headers.
    Lines,
    /// Joining.
    Joining,
    /// Kinds of type.
    Types,
    /// Reading a value.
    Values,
    /// Reading one item of a value.
    Items,
    /// Rewriting.
    Rewrites,
    /// IIOP profile bodies.
    Profiles,
    /// One component of a profile body.
    Components,
    /// Request and Reply headers.
    Headers,
    /// One context of a header.
    Contexts,
    /// One profile of the reference that is a target.
    Targets,
    /// The octets before a body, written back.
    Heads,
}

/// All sections.
const SECTIONS: [Section; 12] = [
    Section::Lines,
    Section::Joining,
    Section::Types,
    Section::Values,
    Section::Items,
    Section::Rewrites,
    Section::Profiles,
    Section::Components,
    Section::Headers,
    Section::Contexts,
    Section::Targets,
    Section::Heads,
];

/// Numbers of a section, and how often each of them must be given.
struct Demand {
    numbers: RangeInclusive<u32>,
    often: u64,
}

/// So many times each of these numbers.
const fn each(first: u32, last: u32, often: u64) -> Demand {
    Demand {
        numbers: first..=last,
        often,
    }
}

/// What lines and frame headers must bring.
const OF_LINES: [Demand; 3] = [
    each(0, 0, 100),
    each(LINE_TOO_LONG, FRAGMENT_UNALIGNED, 100),
    each(OUTPUT_TOO_SHORT, OUTPUT_TOO_SHORT, 100),
];

/// What joining must bring. It takes octets, so that 11 is not among them.
const OF_JOINING: [Demand; 4] = [
    each(WHOLE, CANCELLED, 500),
    each(LINE_TOO_LONG, LINE_TOO_LONG, 100),
    each(HEADER_CUT, FRAGMENT_UNALIGNED, 100),
    each(ID_OPEN, RECORD_UNSOUND, 500),
];

/// What types must bring. There is no 41.
const OF_TYPES: [Demand; 3] = [
    each(0, 0, 500),
    each(TYPE_CUT, KIND_BELOW_TOP, 500),
    each(OCTETS_TOO_MANY, OCTETS_TOO_MANY, 500),
];

/// What values must bring, their types' refusals among it.
const OF_VALUES: [Demand; 4] = [
    each(0, 0, 500),
    each(TYPE_CUT, KIND_BELOW_TOP, 100),
    each(OCTETS_TOO_MANY, OCTETS_TOO_MANY, 500),
    each(VALUE_CUT, NO_ROOM, 500),
];

/// What items must bring, likewise. There is no 56.
const OF_ITEMS: [Demand; 5] = [
    each(0, 0, 500),
    each(TYPE_CUT, KIND_BELOW_TOP, 100),
    each(OCTETS_TOO_MANY, OCTETS_TOO_MANY, 500),
    each(NO_SUCH_ITEM, NO_SUCH_ITEM, 500),
    each(VALUE_CUT, TOO_MANY_OPEN, 500),
];

/// What rewriting must bring, likewise.
const OF_REWRITES: [Demand; 5] = [
    each(0, 0, 500),
    each(TYPE_CUT, KIND_BELOW_TOP, 300),
    each(OCTETS_TOO_MANY, OCTETS_TOO_MANY, 500),
    each(VALUE_CUT, TOO_MANY_OPEN, 500),
    each(RESULT_TOO_LONG, RESULT_TOO_LONG, 500),
];

/// What profile bodies must bring.
const OF_PROFILES: [Demand; 3] = [
    each(0, 0, 500),
    each(OCTETS_TOO_MANY, OCTETS_TOO_MANY, 500),
    each(PROFILE_CUT, OCTETS_AFTER_KEY, 500),
];

/// What components must bring.
const OF_COMPONENTS: [Demand; 4] = [
    each(0, 0, 500),
    each(OCTETS_TOO_MANY, OCTETS_TOO_MANY, 500),
    each(PROFILE_CUT, OCTETS_AFTER_KEY, 500),
    each(NO_SUCH_PART, NO_SUCH_PART, 500),
];

/// What Request and Reply headers must bring.
const OF_HEADERS: [Demand; 4] = [
    each(0, 0, 500),
    each(HEADER_CUT, FRAGMENT_UNALIGNED, 100),
    each(OCTETS_TOO_MANY, OCTETS_TOO_MANY, 500),
    each(MESSAGE_CUT, NO_MESSAGE_HEADER, 500),
];

/// What contexts must bring, and profiles of references likewise.
const OF_CONTEXTS: [Demand; 5] = [
    each(0, 0, 500),
    each(HEADER_CUT, FRAGMENT_UNALIGNED, 100),
    each(OCTETS_TOO_MANY, OCTETS_TOO_MANY, 100),
    each(NO_SUCH_PART, NO_SUCH_PART, 500),
    each(MESSAGE_CUT, NO_MESSAGE_HEADER, 100),
];

/// What octets before a body must bring.
const OF_HEADS: [Demand; 5] = [
    each(0, 0, 500),
    each(HEADER_CUT, FRAGMENT_UNALIGNED, 100),
    each(OCTETS_TOO_MANY, OCTETS_TOO_MANY, 100),
    each(MESSAGE_CUT, NO_MESSAGE_HEADER, 100),
    each(HEAD_TOO_LONG, HEAD_TOO_LONG, 500),
];

impl Section {
    /// The section's numbers, each with how often it must be given.
    fn demands(self) -> impl Iterator<Item = (u32, u64)> {
        let demands: &[Demand] = match self {
            Section::Lines => &OF_LINES,
            Section::Joining => &OF_JOINING,
            Section::Types => &OF_TYPES,
            Section::Values => &OF_VALUES,
            Section::Items => &OF_ITEMS,
            Section::Rewrites => &OF_REWRITES,
            Section::Profiles => &OF_PROFILES,
            Section::Components => &OF_COMPONENTS,
            Section::Headers => &OF_HEADERS,
            Section::Contexts | Section::Targets => &OF_CONTEXTS,
            Section::Heads => &OF_HEADS,
        };
        demands
            .iter()
            .flat_map(|demand| demand.numbers.clone().map(|number| (number, demand.often)))
    }
}

impl fmt::Display for Section {
    fn fmt(&self, formatter: &mut fmt::Formatter<'_>) -> fmt::Result {
        formatter.write_str(match self {
            Section::Lines => "lines and frames",
            Section::Joining => "joining",
            Section::Types => "types",
            Section::Values => "values",
            Section::Items => "items",
            Section::Rewrites => "rewrites",
            Section::Profiles => "profiles",
            Section::Components => "components",
            Section::Headers => "headers",
            Section::Contexts => "contexts",
            Section::Targets => "targets",
            Section::Heads => "heads",
        })
    }
}

/// What an answer of the archive was held to.
pub struct Held {
    /// The second program's number, an answer or a refusal.
    pub number: u32,
    /// What lent memory holds other than it should, if anything.
    pub memory: Option<String>,
}

/// What the inputs have brought so far.
#[derive(Default)]
pub struct Tally {
    /// Inputs without a difference.
    passed: u64,
    /// Inputs with one.
    different: u64,
    /// Inputs of each section.
    judged: BTreeMap<Section, u64>,
    /// How often both programs gave a number in a section.
    given: BTreeMap<(Section, u32), u64>,
    /// The first differences.
    shown: Vec<String>,
}

impl Tally {
    /// Enters one input, the archive's number for it, and what it was held to.
    pub fn enter(&mut self, section: Section, name: &str, input: &[u8], number: u32, held: Held) {
        *self.judged.entry(section).or_default() += 1;
        let difference = if number != held.number {
            Some(format!("archive gives {number}, second {}", held.number))
        } else {
            *self.given.entry((section, number)).or_default() += 1;
            held.memory.map(|found| format!("number {number}, {found}"))
        };
        self.hold(name, input, difference);
    }

    /// Enters one input, and in what its outcome differs, if in anything.
    pub fn hold(&mut self, name: &str, input: &[u8], difference: Option<String>) {
        match difference {
            None => self.passed += 1,
            Some(difference) => {
                self.different += 1;
                if self.shown.len() < SHOWN {
                    let input = shortened(input);
                    self.shown
                        .push(format!("difference: {name} {input}: {difference}"));
                }
            }
        }
    }

    /// Adds what other inputs have brought.
    pub fn add(&mut self, other: Tally) {
        self.passed += other.passed;
        self.different += other.different;
        for (section, count) in other.judged {
            *self.judged.entry(section).or_default() += count;
        }
        for (number, count) in other.given {
            *self.given.entry(number).or_default() += count;
        }
        let room = SHOWN - self.shown.len();
        self.shown.extend(other.shown.into_iter().take(room));
    }

    /// How often a number was given by both programs.
    fn given(&self, section: Section, number: u32) -> u64 {
        self.given.get(&(section, number)).copied().unwrap_or(0)
    }

    /// Every refusal of the papers, with how often it was given in all sections.
    fn refusals(&self) -> impl Iterator<Item = (u32, u64)> + '_ {
        REFUSALS.into_iter().flatten().map(|number| {
            let counts = SECTIONS.iter().map(|&section| self.given(section, number));
            (number, counts.sum())
        })
    }

    /// What is said of the numbers that were given too seldom, or never.
    fn seldom(&self) -> Vec<String> {
        let never = self.refusals().filter(|&(_, count)| count == 0);
        let mut seldom: Vec<String> = never
            .map(|(number, _)| format!("never: {number}"))
            .collect();
        for section in SECTIONS {
            for (number, often) in section.demands() {
                let count = self.given(section, number);
                if count < often {
                    seldom.push(format!(
                        "seldom: {section}, {number} given {count} times, not {often}"
                    ));
                }
            }
        }
        seldom
    }

    /// How many inputs of a section there were.
    fn judged(&self, section: Section) -> u64 {
        self.judged.get(&section).copied().unwrap_or(0)
    }

    /// How many inputs there were.
    fn total(&self) -> u64 {
        self.passed + self.different
    }

    /// How many things are wrong.
    pub fn failed(&self) -> u64 {
        let few = u64::from(self.total() < ENOUGH);
        let few_of = ENOUGH_OF
            .iter()
            .filter(|(section, enough)| self.judged(*section) < *enough);
        self.different + self.seldom().len() as u64 + few + few_of.count() as u64
    }
}

impl fmt::Display for Tally {
    fn fmt(&self, formatter: &mut fmt::Formatter<'_>) -> fmt::Result {
        for section in SECTIONS {
            writeln!(formatter, "{section}: number count")?;
            for (number, _) in section.demands() {
                writeln!(formatter, "{number} {}", self.given(section, number))?;
            }
        }
        for (section, enough) in ENOUGH_OF {
            let judged = self.judged(section);
            writeln!(formatter, "{section} judged {judged}, at least {enough}")?;
        }
        writeln!(formatter, "total {}, at least {ENOUGH}", self.total())?;
        writeln!(formatter, "all sections: number count")?;
        for (number, count) in self.refusals() {
            writeln!(formatter, "{number} {count}")?;
        }
        for line in self.shown.iter().chain(&self.seldom()) {
            writeln!(formatter, "{line}")?;
        }
        writeln!(
            formatter,
            "{} passed, {} failed",
            self.passed,
            self.failed()
        )
    }
}

/// The input's digits, cut, with its length if they are.
fn shortened(input: &[u8]) -> String {
    let shown = &input[..input.len().min(SHOWN_DIGITS / 2)];
    let mut text = String::new();
    for octet in shown {
        // Writing to a string does not fail.
        let _ = write!(text, "{octet:02X}");
    }
    if shown.len() < input.len() {
        let _ = write!(text, "... ({} octets)", input.len());
    }
    if text.is_empty() {
        text.push_str("(empty)");
    }
    text
}
