//! What is lent at the start of a recording.

use chance::Chance;
use second::joining::{Record, PLACES, PLACE_OCTETS};

use crate::draft::LITTLE;

/// The octets of all places.
pub const ALL_PLACES: usize = PLACES * PLACE_OCTETS;

/// Lengths of which an open message can have none.
const IMPOSSIBLE_LENGTHS: [usize; 10] = [
    0,
    1,
    12,
    15,
    16_385,
    65_536,
    1 << 32,
    (1 << 32) + 16,
    usize::MAX - 16,
    usize::MAX,
];

/// Lengths of open messages at which tests turn.
const TELLING_LENGTHS: [usize; 12] = [
    16, 17, 24, 4_096, 12_304, 12_305, 16_336, 16_376, 16_377, 16_380, 16_383, 16_384,
];

/// Lengths of the lent places of which at least one is too short.
const SHORT_PLACES: [usize; 9] = [0, 1, 16_383, 16_384, 32_768, 49_152, 49_153, 65_520, 65_535];

/// The record, and how the places' octets begin.
pub struct Start {
    /// The lent record.
    pub record: Record,
    /// How many octets are lent for the places.
    pub places: usize,
    /// Minor version and flags in each place's first frame; by chance like the
    /// other octets if there are none.
    pub stored: [Option<[u8; 2]>; PLACES],
}

impl Start {
    /// Nothing open. What stands in closed places has no meaning, so it may be
    /// anything.
    pub fn closed(chance: &mut Chance, ids: &[u32; 6]) -> Self {
        let mut record = Record::default();
        if chance.once_in(2) {
            for place in 0..PLACES {
                record.ids[place] = chance.pick(ids);
                record.lengths[place] = any_length(chance);
            }
        }
        Start {
            record,
            places: ALL_PLACES + chance.pick(&[0, 0, 0, 1, 40]),
            stored: [None; PLACES],
        }
    }

    /// Some places open, under the first four ids in any order.
    pub fn open(chance: &mut Chance, ids: &[u32; 6]) -> Self {
        let mut start = Start::closed(chance, ids);
        let turn = chance.below(PLACES);
        for place in 0..PLACES {
            if !chance.once_in(4) {
                start.record.opened[place] = true;
                start.record.ids[place] = ids[(place + turn) % PLACES];
                start.record.lengths[place] = possible_length(chance);
                start.stored[place] = Some([2, chance.octet()]);
            }
        }
        start
    }

    /// The byte order of a place's first frame.
    pub fn order(&self, place: usize) -> u8 {
        self.stored[place].map_or(0, |[_, flags]| flags & LITTLE)
    }

    /// Makes the record or the places such that any message is refused.
    pub fn spoil(&mut self, chance: &mut Chance) {
        match chance.below(3) {
            0 => self.open_twice(chance),
            1 => {
                let any = chance.below(ALL_PLACES);
                self.places = match chance.once_in(3) {
                    true => any,
                    false => chance.pick(&SHORT_PLACES),
                };
            }
            _ => {
                let place = chance.below(PLACES);
                self.record.opened[place] = true;
                self.record.lengths[place] = chance.pick(&IMPOSSIBLE_LENGTHS);
            }
        }
    }

    /// Opens two places under one id.
    fn open_twice(&mut self, chance: &mut Chance) {
        let one = chance.below(PLACES);
        let other = (one + 1 + chance.below(PLACES - 1)) % PLACES;
        self.record.ids[other] = self.record.ids[one];
        for place in [one, other] {
            self.record.opened[place] = true;
            self.record.lengths[place] = possible_length(chance);
        }
    }
}

/// A length that an open message can have.
fn possible_length(chance: &mut Chance) -> usize {
    match chance.below(2) {
        0 => 16 + chance.below(PLACE_OCTETS - 15),
        _ => chance.pick(&TELLING_LENGTHS),
    }
}

/// Any length.
fn any_length(chance: &mut Chance) -> usize {
    match chance.below(2) {
        0 => possible_length(chance),
        _ => chance.pick(&IMPOSSIBLE_LENGTHS),
    }
}
