//! Lays TypeCodes out as octets.

use chance::Chance;
use second::primitive::ulong_octets;

use crate::tree::{After, Aim, Capsule, Node, Part, Text};

/// A number of four octets in a laid-out type: a kind, length, count or offset.
#[derive(Clone, Copy)]
pub struct Field {
    /// The place of its first octet.
    pub place: usize,
    /// Its byte order.
    pub little: bool,
}

/// A type as octets.
#[derive(Clone)]
pub struct Sample {
    /// The octets.
    pub octets: Vec<u8>,
    /// The byte order at the top.
    pub little: bool,
    /// The places of all numbers of four octets but labels.
    pub fields: Vec<Field>,
    /// The places of kinds, as they are written.
    pub kinds: Vec<usize>,
}

impl Sample {
    /// The octets alone.
    pub fn of_octets(octets: Vec<u8>, little: bool) -> Self {
        Sample {
            octets,
            little,
            fields: Vec::new(),
            kinds: Vec::new(),
        }
    }
}

/// How the gaps are filled.
#[derive(Clone, Copy)]
enum Gaps {
    /// With zeros.
    Zeros,
    /// By chance.
    Junk,
}

/// The encapsulation that is written, or the whole.
#[derive(Clone, Copy)]
struct Surroundings {
    /// The place of its index 0.
    start: usize,
    /// Its byte order.
    little: bool,
}

/// Writes a type.
struct Writer<'a> {
    /// For the gaps.
    chance: &'a mut Chance,
    /// How they are filled.
    gaps: Gaps,
    /// The octets so far.
    octets: Vec<u8>,
    /// The numbers of four octets so far.
    fields: Vec<Field>,
    /// The places of the kinds so far.
    kinds: Vec<usize>,
    /// The places of the indirections so far, with what they aim at.
    aims: Vec<(Field, Aim)>,
}

/// Lays a type out in a byte order at the top.
pub fn laid_out(chance: &mut Chance, node: &Node, little: bool) -> Sample {
    let gaps = chance.pick(&[Gaps::Zeros, Gaps::Junk]);
    let mut writer = Writer {
        chance,
        gaps,
        octets: Vec::new(),
        fields: Vec::new(),
        kinds: Vec::new(),
        aims: Vec::new(),
    };
    writer.node(Surroundings { start: 0, little }, node);
    writer.aim();
    Sample {
        octets: writer.octets,
        little,
        fields: writer.fields,
        kinds: writer.kinds,
    }
}

impl Writer<'_> {
    /// Writes a type.
    fn node(&mut self, within: Surroundings, node: &Node) {
        let place = self.ulong(within, node.kind);
        if !matches!(node.after, After::Offset(_)) {
            self.kinds.push(place);
        }
        match &node.after {
            After::Nothing => {}
            After::Bound(bound) => drop(self.ulong(within, *bound)),
            After::Offset(aim) => self.offset(within, *aim),
            After::Capsule(capsule) => self.capsule(within, capsule),
        }
    }

    /// Writes an offset that is corrected at the end.
    fn offset(&mut self, within: Surroundings, aim: Aim) {
        let place = self.ulong(within, 0);
        let little = within.little;
        self.aims.push((Field { place, little }, aim));
    }

    /// Writes an encapsulation.
    fn capsule(&mut self, within: Surroundings, capsule: &Capsule) {
        let place = self.ulong(within, 0);
        let start = self.octets.len();
        let inside = Surroundings {
            start,
            little: capsule.little,
        };
        self.octets.push(capsule.order);
        for part in &capsule.parts {
            self.part(inside, part);
        }
        if self.octets.len() - start > capsule.kept {
            self.cut(start + capsule.kept);
        }
        let length = self.octets.len() - start;
        self.put(place, capsule.length.field(length, within.little));
    }

    /// Cuts off all octets from a place on, and what was noted of them.
    fn cut(&mut self, end: usize) {
        self.octets.truncate(end);
        self.fields.retain(|field| field.place + 4 <= end);
        self.kinds.retain(|&place| place + 4 <= end);
        self.aims.retain(|(field, _)| field.place + 4 <= end);
    }

    /// Writes a parameter.
    fn part(&mut self, within: Surroundings, part: &Part) {
        match part {
            Part::Text(text) => self.text(within, text),
            Part::Type(node) => self.node(within, node),
            Part::Number(_, 4, value) => drop(self.ulong(within, *value as u32)),
            Part::Number(_, width, value) => self.number(within, *width, *value),
        }
    }

    /// Writes a text.
    fn text(&mut self, within: Surroundings, text: &Text) {
        let place = self.ulong(within, 0);
        self.put(place, text.length.field(text.octets.len(), within.little));
        self.octets.extend_from_slice(&text.octets);
    }

    /// Writes a number of four octets, and says where.
    fn ulong(&mut self, within: Surroundings, number: u32) -> usize {
        self.gap(within, 4);
        let place = self.octets.len();
        let little = within.little;
        self.octets.extend_from_slice(&ulong_octets(number, little));
        self.fields.push(Field { place, little });
        place
    }

    /// Writes a number of so many octets.
    fn number(&mut self, within: Surroundings, width: usize, number: u64) {
        self.gap(within, width);
        let octets = number.to_le_bytes();
        let octets = octets[..width].iter();
        match within.little {
            true => self.octets.extend(octets),
            false => self.octets.extend(octets.rev()),
        }
    }

    /// Writes the gap before a number of so many octets.
    fn gap(&mut self, within: Surroundings, width: usize) {
        while !(self.octets.len() - within.start).is_multiple_of(width) {
            let octet = match self.gaps {
                Gaps::Zeros => 0,
                Gaps::Junk => self.chance.octet(),
            };
            self.octets.push(octet);
        }
    }

    /// Corrects a number of four octets.
    fn put(&mut self, place: usize, octets: [u8; 4]) {
        self.octets[place..place + 4].copy_from_slice(&octets);
    }

    /// Corrects all offsets.
    fn aim(&mut self) {
        for index in 0..self.aims.len() {
            let (field, aim) = self.aims[index];
            let offset = self.target(field, aim) - field.place as i64;
            self.put(field.place, ulong_octets(offset as u32, field.little));
        }
    }

    /// The place at which an offset aims. What is not there has place 0.
    fn target(&self, field: Field, aim: Aim) -> i64 {
        match aim {
            Aim::Kind(number) => self.kind(number),
            Aim::Near(number, by) => self.kind(number) + by,
            Aim::Indirection(number) => match self.aims.get(number) {
                Some((other, _)) => other.place as i64 - 4,
                None => 0,
            },
            Aim::Place(place) => place,
            Aim::Offset(offset) => field.place as i64 + i64::from(offset),
        }
    }

    /// The place of a kind.
    fn kind(&self, number: usize) -> i64 {
        self.kinds.get(number).map_or(0, |&place| place as i64)
    }
}
