//! Memory to lend, filled with a pattern so that every write to it shows.

use chance::Chance;
use second::frame::MINOR_AT;
use second::joining::{Record, PLACE_OCTETS};
use second::typecode;
use second::value::{Accepted, Content};

use crate::archive::{Checked, HeaderNumbers};
use crate::start::Start;

/// Octets on either side of the lent ones, which nobody may touch.
const MARGIN: usize = 32;

/// The pattern's octet at an index.
fn pattern(seed: u64, index: usize) -> u8 {
    (seed as usize).wrapping_add(index.wrapping_mul(0x9D)) as u8
}

/// The pattern's 64-bit number at an index.
fn pattern_number(seed: u64, index: u64) -> u64 {
    (seed ^ 0xA5C3_96E1_5A3C_691E).wrapping_add(index.wrapping_mul(0x0123_4567_89AB_CDEF))
}

/// A lent output and a lent count.
pub struct LentOutput {
    /// Which pattern.
    seed: u64,
    /// The lent octets between their margins.
    memory: Vec<u8>,
    /// The lent count.
    pub count: u64,
}

impl LentOutput {
    /// An output with room for so many octets.
    pub fn new(seed: u64, room: usize) -> Self {
        LentOutput {
            seed,
            memory: (0..room + 2 * MARGIN).map(|i| pattern(seed, i)).collect(),
            count: pattern_number(seed, 0),
        }
    }

    /// The lent octets and the lent count.
    pub fn lend(&mut self) -> (&mut [u8], &mut u64) {
        let end = self.memory.len() - MARGIN;
        (&mut self.memory[MARGIN..end], &mut self.count)
    }

    /// The first octets of the lent ones, at most so many.
    pub fn first(&self, count: u64) -> &[u8] {
        let lent = &self.memory[MARGIN..self.memory.len() - MARGIN];
        &lent[..lent.len().min(count as usize)]
    }

    /// What is not as it was.
    pub fn touched(&self) -> Option<String> {
        self.differs(&[], pattern_number(self.seed, 0))
    }

    /// What is not as if the octets were written and counted.
    pub fn unlike(&self, written: &[u8]) -> Option<String> {
        self.differs(written, written.len() as u64)
    }

    /// What differs from these octets followed by the pattern, or this count.
    fn differs(&self, written: &[u8], count: u64) -> Option<String> {
        if self.count != count {
            return Some(format!("count is {}, not {count}", self.count));
        }
        let mut expected: Vec<u8> = (0..self.memory.len())
            .map(|index| pattern(self.seed, index))
            .collect();
        expected[MARGIN..MARGIN + written.len()].copy_from_slice(written);
        let index = (0..expected.len()).find(|&index| self.memory[index] != expected[index])?;
        Some(format!(
            "octet {} of the output is {:02X}, not {:02X}",
            index as i64 - MARGIN as i64,
            self.memory[index],
            expected[index]
        ))
    }
}

/// A lent header, with a number on either side that nobody may touch.
pub struct LentHeader {
    /// Which pattern.
    seed: u64,
    /// The lent numbers between two others.
    memory: [u64; 9],
}

impl LentHeader {
    /// A header filled with the pattern.
    pub fn new(seed: u64) -> Self {
        LentHeader {
            seed,
            memory: Self::pattern(seed),
        }
    }

    /// The lent numbers.
    pub fn lend(&mut self) -> &mut HeaderNumbers {
        let [_, header @ .., _] = &mut self.memory;
        header
    }

    /// What is not as it was.
    pub fn touched(&self) -> Option<String> {
        self.differs(Self::pattern(self.seed))
    }

    /// What is not as if these numbers were written.
    pub fn unlike(&self, written: &HeaderNumbers) -> Option<String> {
        let mut expected = Self::pattern(self.seed);
        expected[1..8].copy_from_slice(written);
        self.differs(expected)
    }

    /// What differs from these contents.
    fn differs(&self, expected: [u64; 9]) -> Option<String> {
        let index = (0..expected.len()).find(|&index| self.memory[index] != expected[index])?;
        Some(format!(
            "number {} of the header is {:X}, not {:X}",
            index as i64 - 1,
            self.memory[index],
            expected[index]
        ))
    }

    /// The contents before the call.
    fn pattern(seed: u64) -> [u64; 9] {
        std::array::from_fn(|index| pattern_number(seed, index as u64))
    }
}

/// Octets by chance, of which any part can be lent. They are made once, as the
/// places have many.
pub struct Noise(Vec<u8>);

impl Noise {
    /// The octets of a seed.
    pub fn new(seed: u64) -> Self {
        Noise(Chance::new(seed).octets(1 << 20))
    }

    /// So many of them.
    fn part(&self, chance: &mut Chance, count: usize) -> &[u8] {
        let start = chance.below(self.0.len() - count);
        &self.0[start..start + count]
    }
}

/// A lent record, with a number on either side that nobody may touch.
#[repr(C)]
#[derive(Clone, Copy, PartialEq, Eq, Debug)]
struct GuardedRecord {
    before: u64,
    record: Record,
    after: u64,
}

/// All that is lent with the lines of a recording.
#[derive(Clone)]
pub struct LentJoining {
    /// The lent record.
    guarded: GuardedRecord,
    /// The places' octets between their margins.
    places: Vec<u8>,
    /// The output's octets between their margins.
    output: Vec<u8>,
    /// The lent count.
    count: u64,
}

/// The parts of what is lent with a line.
pub struct Parts<'a> {
    /// The lent record.
    pub record: &'a mut Record,
    /// The places' octets.
    pub places: &'a mut [u8],
    /// The output's octets.
    pub output: &'a mut [u8],
    /// The lent count.
    pub count: &'a mut u64,
}

impl LentJoining {
    /// What is lent at the start, with no output yet.
    pub fn new(chance: &mut Chance, noise: &Noise, start: &Start) -> Self {
        let guarded = GuardedRecord {
            before: chance.next(),
            record: start.record,
            after: chance.next(),
        };
        let mut places = noise.part(chance, start.places + 2 * MARGIN).to_vec();
        for (place, stored) in start.stored.iter().enumerate() {
            let frame = MARGIN + PLACE_OCTETS * place;
            let octets = places.get_mut(frame + MINOR_AT..frame + MINOR_AT + 2);
            if let (Some(stored), Some(octets)) = (stored, octets) {
                octets.copy_from_slice(stored);
            }
        }
        LentJoining {
            guarded,
            places,
            output: Vec::new(),
            count: 0,
        }
    }

    /// Lends an output with room for so many octets, and a count.
    pub fn renew_output(&mut self, chance: &mut Chance, noise: &Noise, room: usize) {
        self.output.clear();
        self.output
            .extend_from_slice(noise.part(chance, room + 2 * MARGIN));
        self.count = chance.next();
    }

    /// The lent parts.
    pub fn lend(&mut self) -> Parts<'_> {
        Parts {
            record: &mut self.guarded.record,
            places: within_margins(&mut self.places),
            output: within_margins(&mut self.output),
            count: &mut self.count,
        }
    }

    /// What is not as in the other.
    pub fn unlike(&self, other: &Self) -> Option<String> {
        if self.guarded != other.guarded {
            return Some(format!(
                "record {:?}, not {:?}",
                self.guarded, other.guarded
            ));
        }
        if self.count != other.count {
            return Some(format!("count is {}, not {}", self.count, other.count));
        }
        unlike_octets("places", &self.places, &other.places)
            .or_else(|| unlike_octets("output", &self.output, &other.output))
    }
}

/// What is lent with a type, with a number on either side that nobody may
/// touch.
#[repr(C)]
#[derive(Clone, Copy, PartialEq, Eq, Debug)]
pub struct LentChecked {
    before: u64,
    checked: Checked,
    after: u64,
}

impl LentChecked {
    /// All filled with a pattern.
    pub fn new(seed: u64) -> Self {
        let number = |index| pattern_number(seed, index as u64);
        LentChecked {
            before: number(0),
            checked: Checked {
                places: std::array::from_fn(|index| number(index + 5) as u16),
                starts: std::array::from_fn(|index| (number(index + 5) >> 16) as u16),
                orders: std::array::from_fn(|index| (number(index + 5) >> 32) as u8),
                numbers: [number(1), number(2)],
            },
            after: number(3),
        }
    }

    /// What is lent.
    pub fn lend(&mut self) -> &mut Checked {
        &mut self.checked
    }

    /// Fills the parts as an accepted type is to.
    pub fn accept(&mut self, accepted: &typecode::Checked) {
        let mut checked = Checked {
            places: [0; typecode::MOST_KINDS],
            starts: [0; typecode::MOST_KINDS],
            orders: [0; typecode::MOST_KINDS],
            numbers: [accepted.used as u64, accepted.kinds.len() as u64],
        };
        for (index, met) in accepted.kinds.iter().enumerate() {
            checked.places[index] = met.place as u16;
            checked.starts[index] = met.start as u16;
            checked.orders[index] = met.little.into();
        }
        self.checked = checked;
    }

    /// What is not as in the other.
    pub fn unlike(&self, other: &Self) -> Option<String> {
        if [self.before, self.after] != [other.before, other.after] {
            return Some("a number beside what is lent was touched".into());
        }
        (self.checked != other.checked)
            .then(|| format!("checked {:?}, not {:?}", self.checked, other.checked))
    }
}

/// What is lent with a value.
#[derive(Clone)]
pub struct LentValue {
    /// The table's numbers between their margins.
    table: Vec<u64>,
    /// The lent numbers and visits.
    cells: Cells,
}

/// Lent numbers and visits, with a number on either side that nobody may touch.
#[repr(C)]
#[derive(Clone, Copy, PartialEq, Eq, Debug)]
struct Cells {
    before: u64,
    numbers: [u64; 2],
    between: u64,
    visits: u64,
    after: u64,
}

/// Numbers on either side of the table, which nobody may touch.
const TABLE_MARGIN: usize = 4;

impl LentValue {
    /// A table of so many numbers, all filled with a pattern.
    pub fn new(seed: u64, length: usize) -> Self {
        let number = |index| pattern_number(seed, index);
        LentValue {
            table: (0..length as u64 + 2 * TABLE_MARGIN as u64)
                .map(|index| number(index + 6))
                .collect(),
            cells: Cells {
                before: number(0),
                numbers: [number(1), number(2)],
                between: number(3),
                visits: number(4),
                after: number(5),
            },
        }
    }

    /// The table, the numbers and the visits.
    pub fn lend(&mut self) -> (&mut [u64], &mut [u64; 2], &mut u64) {
        let end = self.table.len() - TABLE_MARGIN;
        let Cells {
            numbers, visits, ..
        } = &mut self.cells;
        (&mut self.table[TABLE_MARGIN..end], numbers, visits)
    }

    /// Fills the parts as an accepted value is to.
    pub fn accept(&mut self, accepted: &Accepted) {
        let (table, numbers, visits) = self.lend();
        for (row, item) in table.chunks_exact_mut(3).zip(&accepted.items) {
            row.copy_from_slice(&[item.kind.into(), item.place as u64, item.content]);
        }
        *numbers = [accepted.used as u64, accepted.items.len() as u64];
        *visits = accepted.visits;
    }

    /// Fills the visits as a refused value is to.
    pub fn refuse(&mut self, visits: u64) {
        self.cells.visits = visits;
    }

    /// What is not as in the other.
    pub fn unlike(&self, other: &Self) -> Option<String> {
        if self.cells != other.cells {
            return Some(format!("numbers {:?}, not {:?}", self.cells, other.cells));
        }
        if self.table == other.table {
            return None;
        }
        let index =
            (0..other.table.len()).find(|&index| self.table[index] != other.table[index])?;
        Some(format!(
            "number {} of the table is {:X}, not {:X}",
            index as i64 - TABLE_MARGIN as i64,
            self.table[index],
            other.table[index]
        ))
    }
}

/// What is lent for an item, with a number on either side that nobody may touch.
#[derive(Clone, Copy, PartialEq, Eq, Debug)]
pub struct LentItem([u64; 4]);

impl LentItem {
    /// All filled with a pattern.
    pub fn new(seed: u64) -> Self {
        LentItem(std::array::from_fn(|index| {
            pattern_number(seed, index as u64)
        }))
    }

    /// What is lent.
    pub fn lend(&mut self) -> &mut [u64; 2] {
        let [_, answer @ .., _] = &mut self.0;
        answer
    }

    /// Fills the answer as an item is to.
    pub fn accept(&mut self, item: Content) {
        *self.lend() = match item {
            Content::Signed(number) => [0, number.cast_unsigned()],
            Content::Unsigned(number) => [1, number],
            Content::Single(bits) => [2, bits.into()],
            Content::Double(bits) => [3, bits],
        };
    }

    /// What is not as in the other.
    pub fn unlike(&self, other: &Self) -> Option<String> {
        (self != other).then(|| format!("answer {:X?}, not {:X?}", self.0, other.0))
    }
}

/// Lent numbers, with a number on either side that nobody may touch.
#[repr(C)]
#[derive(Clone, Copy, PartialEq, Eq, Debug)]
pub struct LentNumbers<const COUNT: usize> {
    before: u64,
    numbers: [u64; COUNT],
    after: u64,
}

impl<const COUNT: usize> LentNumbers<COUNT> {
    /// All filled with a pattern.
    pub fn new(seed: u64) -> Self {
        let number = |index| pattern_number(seed, index as u64);
        LentNumbers {
            before: number(0),
            numbers: std::array::from_fn(|index| number(index + 2)),
            after: number(1),
        }
    }

    /// What is lent.
    pub fn lend(&mut self) -> &mut [u64; COUNT] {
        &mut self.numbers
    }

    /// What is not as in the other.
    pub fn unlike(&self, other: &Self) -> Option<String> {
        if [self.before, self.after] != [other.before, other.after] {
            return Some("a number beside what is lent was touched".into());
        }
        (self.numbers != other.numbers)
            .then(|| format!("numbers {:?}, not {:?}", self.numbers, other.numbers))
    }
}

/// The octets without their margins.
fn within_margins(memory: &mut [u8]) -> &mut [u8] {
    let end = memory.len() - MARGIN;
    &mut memory[MARGIN..end]
}

/// The first octet, counted after the margin, in which two memories differ.
fn unlike_octets(name: &str, found: &[u8], expected: &[u8]) -> Option<String> {
    if found == expected {
        return None;
    }
    let index = (0..expected.len()).find(|&index| found[index] != expected[index])?;
    Some(format!(
        "octet {} of the {name} is {:02X}, not {:02X}",
        index as i64 - MARGIN as i64,
        found[index],
        expected[index]
    ))
}
