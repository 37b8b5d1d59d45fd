//! IIOP profile bodies before they are octets, and octets that can be changed.

use std::ops::Range;

use chance::Chance;
use second::primitive::{ulong, ulong_octets};
use second::profile::LONGEST_PROFILE;

/// The octets before the host's length.
const HEAD: usize = 4;

/// All numbers of a body are changed in turn if it has at most so many.
const FEW_NUMBERS: usize = 7;

/// Of octets that are not short, up to so many, one in 8 is cut at every octet.
const MIDDLING: usize = 400;

/// Makes bodies or messages by chance.
pub struct Generator {
    /// Its name.
    pub name: &'static str,
    /// Makes one.
    pub make: fn(&mut Chance) -> Body,
    /// How many are judged.
    pub each: u64,
}

/// A generator of so many.
pub const fn generator(name: &'static str, make: fn(&mut Chance) -> Body, each: u64) -> Generator {
    Generator { name, make, each }
}

/// The lengths that octets are cut to: all if they are short, mostly none if they
/// are not.
pub fn cuts(chance: &mut Chance, length: usize, short: usize) -> Range<usize> {
    match length <= short || length <= MIDDLING && chance.once_in(8) {
        true => 0..length,
        false => 0..0,
    }
}

/// The parts of a profile body.
#[derive(Clone)]
pub struct Outline {
    /// Order octet.
    pub order: u8,
    /// Major version.
    pub major: u8,
    /// Minor version.
    pub minor: u8,
    /// The host with its zero.
    pub host: Vec<u8>,
    /// The port.
    pub port: u16,
    /// The key.
    pub key: Vec<u8>,
    /// The components, if there is a list of them.
    pub components: Option<Vec<(u32, Vec<u8>)>>,
    /// What is after all these.
    pub extra: Vec<u8>,
}

/// A profile body or a message as octets.
#[derive(Clone)]
pub struct Body {
    /// The octets.
    pub octets: Vec<u8>,
    /// The places of all numbers of four octets.
    pub fields: Vec<usize>,
    /// The places of the lengths of texts.
    pub texts: Vec<usize>,
    /// Their byte order.
    pub little: bool,
    /// The octets before the first field that has a place.
    pub head: usize,
    /// Whether all gaps are zeros.
    pub zeros: bool,
}

impl Outline {
    /// A sound body of any version and order, with short parts.
    pub fn by_chance(chance: &mut Chance) -> Self {
        let minor = chance.below(3) as u8;
        let length = chance.below(12);
        let host = text_of(chance, length);
        let length = chance.below(10);
        let key = chance.octets(length);
        let components = (minor > 0).then(|| {
            let count = chance.pick(&[0, 0, 1, 1, 2, 3]);
            components_of(chance, count, 9)
        });
        Outline {
            order: chance.below(2) as u8,
            major: 1,
            minor,
            host,
            port: any_port(chance),
            key,
            components,
            extra: Vec::new(),
        }
    }

    /// The same with a list of components, from minor version 1 on.
    pub fn listed(chance: &mut Chance, components: Vec<(u32, Vec<u8>)>) -> Self {
        Outline {
            minor: 1 + chance.below(2) as u8,
            components: Some(components),
            ..Outline::by_chance(chance)
        }
    }

    /// The octets, with any octets in the gaps.
    pub fn laid_out(&self, chance: &mut Chance) -> Body {
        let little = match self.order {
            0 | 1 => self.order == 1,
            _ => chance.once_in(2),
        };
        let mut body = Body::of_octets(vec![self.order, self.major, self.minor], little);
        body.put_text(chance, &self.host);
        body.put_short(chance, self.port);
        body.put_counted(chance, &self.key);
        if let Some(components) = &self.components {
            body.put_list(chance, components);
        }
        body.octets.extend_from_slice(&self.extra);
        body
    }
}

/// A text of so many characters and its zero.
pub fn text_of(chance: &mut Chance, length: usize) -> Vec<u8> {
    let mut text: Vec<u8> = (0..length).map(|_| 1 + chance.below(255) as u8).collect();
    text.push(0);
    text
}

/// A text of any sort: empty, of length 0, with zeros where there are none, or
/// without the last one.
pub fn any_text(chance: &mut Chance) -> Vec<u8> {
    let length = chance.pick(&[0, 0, 1, 2, 3, 4, 5, 9, 30]);
    let mut text = text_of(chance, length);
    match chance.below(8) {
        0 => text.clear(),
        1 => text.fill(0),
        2 => drop(text.pop()),
        3 | 4 => {
            let place = chance.below(text.len());
            text[place] = 0;
        }
        5 => text.push(chance.pick(&[0, 0x61])),
        _ => {}
    }
    text
}

/// So many components, each with octets below this number.
pub fn components_of(chance: &mut Chance, count: usize, below: usize) -> Vec<(u32, Vec<u8>)> {
    let one = |_| {
        let length = chance.below(below);
        (any_tag(chance), chance.octets(length))
    };
    (0..count).map(one).collect()
}

/// Any tag, mostly one that an ORB writes.
pub fn any_tag(chance: &mut Chance) -> u32 {
    match chance.below(3) {
        0 => chance.next() as u32,
        1 => chance.pick(&[0, 1, 3, 20, 33, u32::MAX, 1 << 31]),
        _ => chance.below(40) as u32,
    }
}

/// Any port.
fn any_port(chance: &mut Chance) -> u16 {
    match chance.below(3) {
        0 => chance.pick(&[0, 1, 0xFF, 0x100, 0x8000, u16::MAX]),
        _ => chance.next() as u16,
    }
}

impl Body {
    /// The octets alone.
    pub fn of_octets(octets: Vec<u8>, little: bool) -> Self {
        Body {
            octets,
            fields: Vec::new(),
            texts: Vec::new(),
            little,
            head: HEAD,
            zeros: false,
        }
    }

    /// Writes so many octets that carry nothing.
    pub fn put_gap(&mut self, chance: &mut Chance, count: usize) {
        match self.zeros || chance.once_in(4) {
            true => self.octets.resize(self.octets.len() + count, 0),
            false => chance.add_octets(&mut self.octets, count),
        }
    }

    /// Writes octets that carry nothing up to a multiple of a size.
    pub fn align(&mut self, chance: &mut Chance, size: usize) {
        let gap = self.octets.len().next_multiple_of(size) - self.octets.len();
        self.put_gap(chance, gap);
    }

    /// Writes octets at a multiple of their number.
    fn put_aligned(&mut self, chance: &mut Chance, octets: &[u8]) {
        self.align(chance, octets.len());
        self.octets.extend_from_slice(octets);
    }

    /// Writes a number of two octets.
    pub fn put_short(&mut self, chance: &mut Chance, number: u16) {
        let octets = match self.little {
            true => number.to_le_bytes(),
            false => number.to_be_bytes(),
        };
        self.put_aligned(chance, &octets);
    }

    /// Writes a number of four octets.
    pub fn put_number(&mut self, chance: &mut Chance, number: u32) {
        self.put_aligned(chance, &ulong_octets(number, self.little));
        self.fields.push(self.octets.len() - 4);
    }

    /// Writes octets after their length.
    pub fn put_counted(&mut self, chance: &mut Chance, octets: &[u8]) {
        self.put_number(chance, octets.len() as u32);
        self.octets.extend_from_slice(octets);
    }

    /// Writes a text after its length.
    pub fn put_text(&mut self, chance: &mut Chance, text: &[u8]) {
        self.put_counted(chance, text);
        self.texts.push(self.octets.len() - text.len() - 4);
    }

    /// Writes a tag, and octets after their length.
    pub fn put_tagged(&mut self, chance: &mut Chance, (tag, octets): &(u32, Vec<u8>)) {
        self.put_number(chance, *tag);
        self.put_counted(chance, octets);
    }

    /// Writes a list after its count.
    pub fn put_list(&mut self, chance: &mut Chance, list: &[(u32, Vec<u8>)]) {
        self.put_number(chance, list.len() as u32);
        for tagged in list {
            self.put_tagged(chance, tagged);
        }
    }

    /// The number that is at a place.
    pub fn number_at(&self, place: usize) -> Option<u32> {
        let octets = self.octets.get(place..)?.first_chunk::<4>()?;
        Some(ulong(*octets, self.little))
    }

    /// The same with another number at a place.
    pub fn with_number(&self, place: usize, number: u32) -> Self {
        let mut body = self.clone();
        let octets = ulong_octets(number, self.little);
        body.octets[place..place + 4].copy_from_slice(&octets);
        body
    }

    /// The same with a few changes, mostly one.
    pub fn changed(&self, chance: &mut Chance) -> Self {
        let mut body = self.clone();
        body.change(chance);
        if chance.once_in(8) {
            body.change(chance);
        }
        body
    }

    /// Changes something: an octet of the head, a text or any, a number, or how
    /// many octets there are.
    fn change(&mut self, chance: &mut Chance) {
        let length = self.octets.len();
        match chance.below(32) {
            0 => self.octets.resize(LONGEST_PROFILE + chance.below(3), 0),
            1..=3 => self.octets.truncate(chance.below(length + 1)),
            4..=6 => self.octets.insert(chance.below(length + 1), 0),
            7..=8 if length > 0 => drop(self.octets.remove(chance.below(length))),
            9..=11 => {
                let count = 1 + chance.below(9);
                chance.add_octets(&mut self.octets, count);
            }
            12..=15 => self.change_octet(chance, 0, self.head.min(length)),
            16..=20 => self.change_text(chance),
            21..=25 => self.change_number(chance),
            _ => self.change_octet(chance, 0, length),
        }
    }

    /// Changes an octet among so many from a place on.
    fn change_octet(&mut self, chance: &mut Chance, place: usize, count: usize) {
        if let Some(octets) = self.octets.get_mut(place..place + count) {
            if count > 0 {
                let octet = &mut octets[chance.below(count)];
                let any = [chance.octet(), 0, 1, 2, 0xFF, *octet ^ 1, *octet ^ 0x80];
                *octet = chance.pick(&any);
            }
        }
    }

    /// Changes an octet of a text: its zero, or one before it.
    fn change_text(&mut self, chance: &mut Chance) {
        if self.texts.is_empty() {
            return self.change_octet(chance, 0, self.octets.len());
        }
        let place = chance.pick(&self.texts);
        let length = self.number_at(place).map_or(0, |length| length as usize);
        let any = chance.below(length.max(1));
        let place = place + 4 + chance.pick(&[length.saturating_sub(1), any]);
        if let Some(octet) = self.octets.get_mut(place) {
            *octet = if *octet == 0 { 0x61 } else { 0 };
        }
    }

    /// Changes a length, a tag or the count.
    fn change_number(&mut self, chance: &mut Chance) {
        if self.fields.is_empty() {
            return;
        }
        let place = chance.pick(&self.fields);
        if let Some(number) = self.number_at(place) {
            let other = self.other_number(chance, place, number);
            *self = self.with_number(place, other);
        }
    }

    /// Tells of the same with numbers changed in turn: all if they are few, else
    /// the first ones, any and the last.
    pub fn with_other_numbers(
        &self,
        chance: &mut Chance,
        mut tell: impl FnMut(&mut Chance, &[u8]),
    ) {
        let mut places = self.fields.clone();
        if places.len() > FEW_NUMBERS {
            let any = chance.pick(&places);
            places.drain(3..places.len() - 1);
            places.push(any);
        }
        for place in places {
            let Some(number) = self.number_at(place) else {
                continue;
            };
            let other = self.other_number(chance, place, number);
            let near = [number.wrapping_sub(1), number.wrapping_add(1)];
            for number in [0, near[0], near[1], u32::MAX, other] {
                tell(chance, &self.with_number(place, number).octets);
            }
        }
    }

    /// Another number for a place: near the one it has, near the octets that are
    /// left, or far above.
    fn other_number(&self, chance: &mut Chance, place: usize, number: u32) -> u32 {
        let left = (self.octets.len() - place - 4) as u32;
        chance.pick(&[
            number.wrapping_sub(1),
            number.wrapping_add(1),
            number.wrapping_add(4),
            number.swap_bytes(),
            left,
            left + 1,
            left.saturating_sub(1),
            u32::MAX - 3,
            1 << 31,
            0xFFFF,
        ])
    }
}
