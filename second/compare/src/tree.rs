//! TypeCodes before they are octets, so that faults can be planted in them.

use chance::Chance;
use second::typecode::{
    ALIAS, ARRAY, BOOLEAN, CHAR, ENUM, INDIRECTION, LONGLONG, OBJREF, SEQUENCE, SHORT, STRING,
    STRUCT, ULONGLONG, UNION, USHORT,
};

use crate::draft::Size;

/// Kinds without parameters that any type may have inside.
pub const PRIMITIVES: [u32; 11] = [2, 3, 4, 5, 6, 7, 8, 9, 10, 23, 24];
/// Those of them that a union can be chosen by.
pub const CHOOSING: [u32; 8] = [2, 3, 4, 5, 8, 9, 23, 24];

/// A type: its kind, and what follows it.
#[derive(Clone)]
pub struct Node {
    /// The number written for the kind.
    pub kind: u32,
    /// What follows it.
    pub after: After,
}

/// What follows a kind.
#[derive(Clone)]
pub enum After {
    /// Nothing.
    Nothing,
    /// The bound of a string.
    Bound(u32),
    /// The offset of an indirection.
    Offset(Aim),
    /// An encapsulation.
    Capsule(Capsule),
}

/// An encapsulation.
#[derive(Clone)]
pub struct Capsule {
    /// What its length says.
    pub length: Size,
    /// The order octet.
    pub order: u8,
    /// Whether its numbers are written in little-endian order.
    pub little: bool,
    /// Its parameters.
    pub parts: Vec<Part>,
    /// How many of its octets there are, all others being cut off.
    pub kept: usize,
}

/// A parameter.
#[derive(Clone)]
pub enum Part {
    /// A text.
    Text(Text),
    /// A type.
    Type(Node),
    /// A number of 1, 2, 4 or 8 octets.
    Number(Meaning, usize, u64),
}

/// What a number says.
#[derive(Clone, Copy, PartialEq, Eq)]
pub enum Meaning {
    /// How many members, cases or names there are.
    Count,
    /// The bound of a sequence.
    Bound,
    /// The length of an array.
    Length,
    /// The number of a union's default case.
    Default,
    /// The label of a case.
    Label,
    /// Nothing: it should not be there.
    Junk,
}

/// A text: all its octets, the zero among them, and what its length says.
#[derive(Clone)]
pub struct Text {
    /// The octets.
    pub octets: Vec<u8>,
    /// What its length says.
    pub length: Size,
}

/// What an indirection aims at.
#[derive(Clone, Copy)]
pub enum Aim {
    /// The place of the kind of this number, counted from 0 as they are
    /// written.
    Kind(usize),
    /// So many octets from such a place.
    Near(usize, i64),
    /// The place of the indirection of this number, counted likewise.
    Indirection(usize),
    /// This place.
    Place(i64),
    /// The place this offset leads to.
    Offset(i32),
}

/// The labels that a union's discriminant allows.
#[derive(Clone, Copy)]
pub struct Labels {
    /// The discriminant's kind, after aliases and indirections.
    pub kind: u32,
    /// How many names there are, if it is an enum.
    pub names: u64,
}

impl Labels {
    /// The labels of a kind that is no enum, if it can be a discriminant's.
    pub fn of_kind(kind: u32) -> Option<Self> {
        let names = 0;
        CHOOSING.contains(&kind).then_some(Labels { kind, names })
    }

    /// The octets of a label.
    pub fn width(self) -> usize {
        match self.kind {
            SHORT | USHORT => 2,
            BOOLEAN | CHAR => 1,
            LONGLONG | ULONGLONG => 8,
            _ => 4,
        }
    }

    /// The greatest label, as an unsigned number.
    pub fn greatest(self) -> u64 {
        match self.kind {
            BOOLEAN => 1,
            ENUM => self.names - 1,
            _ => u64::MAX >> (64 - 8 * self.width()),
        }
    }

    /// At most so many different labels, and at least one.
    pub fn different(self, chance: &mut Chance, most: usize) -> Vec<u64> {
        let greatest = self.greatest();
        let most = most.min(greatest.saturating_add(1).min(1 << 20) as usize);
        let mut labels = Vec::new();
        while labels.len() < most {
            let label = match (chance.below(5), labels.last()) {
                (0, _) => chance.next() & greatest,
                (1, _) => greatest - chance.below(most) as u64,
                // A neighbour that differs in one bit only.
                (2, Some(last)) => last ^ (1 << chance.below(8 * self.width())),
                _ => chance.below(most) as u64,
            };
            if label <= greatest && !labels.contains(&label) {
                labels.push(label);
            }
        }
        labels
    }
}

impl Text {
    /// A text of these octets, which are followed by a zero.
    pub fn of(octets: &[u8]) -> Self {
        Text {
            octets: [octets, &[0]].concat(),
            length: Size::Off(0),
        }
    }

    /// A short text by chance, sometimes the empty one.
    pub fn any(chance: &mut Chance) -> Self {
        let length = chance.pick(&[0, 1, 1, 2, 3, 3, 4, 5, 7, 8, 11]);
        Text::long(chance, length)
    }

    /// A text of so many octets and the zero.
    pub fn long(chance: &mut Chance, length: usize) -> Self {
        let mut octets = chance.octets(length);
        for octet in &mut octets {
            *octet = (*octet).max(1);
        }
        Text::of(&octets)
    }
}

impl Capsule {
    /// An encapsulation of these parameters in a byte order.
    pub fn new(little: bool, parts: Vec<Part>) -> Self {
        Capsule {
            length: Size::Off(0),
            order: little.into(),
            little,
            parts,
            kept: usize::MAX,
        }
    }
}

/// An id and a name by chance.
fn texts(chance: &mut Chance) -> Vec<Part> {
    vec![Part::Text(Text::any(chance)), Part::Text(Text::any(chance))]
}

/// A count.
fn count(number: usize) -> Part {
    Part::Number(Meaning::Count, 4, number as u64)
}

impl Node {
    /// A kind without parameters.
    pub fn plain(kind: u32) -> Self {
        let after = After::Nothing;
        Node { kind, after }
    }

    /// A string with a bound.
    pub fn string(bound: u32) -> Self {
        let after = After::Bound(bound);
        Node {
            kind: STRING,
            after,
        }
    }

    /// An indirection.
    pub fn indirection(aim: Aim) -> Self {
        let after = After::Offset(aim);
        Node {
            kind: INDIRECTION,
            after,
        }
    }

    /// A kind and its encapsulation in either byte order.
    fn capsule(chance: &mut Chance, kind: u32, parts: Vec<Part>) -> Self {
        let after = After::Capsule(Capsule::new(chance.once_in(2), parts));
        Node { kind, after }
    }

    /// An objref.
    pub fn objref(chance: &mut Chance) -> Self {
        let parts = texts(chance);
        Node::capsule(chance, OBJREF, parts)
    }

    /// An alias of a type.
    pub fn alias(chance: &mut Chance, of: Node) -> Self {
        let mut parts = texts(chance);
        parts.push(Part::Type(of));
        Node::capsule(chance, ALIAS, parts)
    }

    /// A struct of members.
    pub fn of_members(chance: &mut Chance, members: Vec<Node>) -> Self {
        Node::with_members(chance, STRUCT, members)
    }

    /// A struct or an exception of members.
    pub fn with_members(chance: &mut Chance, kind: u32, members: Vec<Node>) -> Self {
        let mut parts = texts(chance);
        parts.push(count(members.len()));
        for member in members {
            parts.push(Part::Text(Text::any(chance)));
            parts.push(Part::Type(member));
        }
        Node::capsule(chance, kind, parts)
    }

    /// An enum of so many names.
    pub fn enumeration(chance: &mut Chance, names: usize) -> Self {
        let mut parts = texts(chance);
        parts.push(count(names));
        for _ in 0..names {
            parts.push(Part::Text(Text::any(chance)));
        }
        Node::capsule(chance, ENUM, parts)
    }

    /// A sequence of a type.
    pub fn sequence(chance: &mut Chance, of: Node) -> Self {
        let bound = chance.pick(&[0, 0, 1, 7, 1 << 24, u64::from(u32::MAX)]);
        let parts = vec![Part::Type(of), Part::Number(Meaning::Bound, 4, bound)];
        Node::capsule(chance, SEQUENCE, parts)
    }

    /// An array of a type.
    pub fn array(chance: &mut Chance, of: Node) -> Self {
        let length = chance.pick(&[1, 2, 7, 1 << 24, u64::from(u32::MAX)]);
        let parts = vec![Part::Type(of), Part::Number(Meaning::Length, 4, length)];
        Node::capsule(chance, ARRAY, parts)
    }

    /// A union over a discriminant, with a case for each label and type.
    pub fn union(chance: &mut Chance, over: Choice, cases: Vec<(u64, Node)>) -> Self {
        let mut parts = texts(chance);
        parts.push(Part::Type(over.discriminant));
        let default = u64::from(over.default as u32);
        parts.push(Part::Number(Meaning::Default, 4, default));
        parts.push(count(cases.len()));
        for (label, case) in cases {
            parts.push(Part::Number(Meaning::Label, over.width, label));
            parts.push(Part::Text(Text::any(chance)));
            parts.push(Part::Type(case));
        }
        Node::capsule(chance, UNION, parts)
    }

    /// Its encapsulation, if it has one.
    pub fn capsule_mut(&mut self) -> Option<&mut Capsule> {
        match &mut self.after {
            After::Capsule(capsule) => Some(capsule),
            _ => None,
        }
    }

    /// The number of the kind that it aims at, if it is an indirection to one.
    pub fn aimed_kind(&self) -> Option<usize> {
        match self.after {
            After::Offset(Aim::Kind(number)) => Some(number),
            _ => None,
        }
    }

    /// The types directly inside it.
    fn inside(&self) -> impl Iterator<Item = &Node> {
        let parts: &[Part] = match &self.after {
            After::Capsule(capsule) => &capsule.parts,
            _ => &[],
        };
        parts.iter().filter_map(|part| match part {
            Part::Type(node) => Some(node),
            _ => None,
        })
    }

    /// The number of types in it, indirections and itself among them.
    pub fn types(&self) -> usize {
        1 + self.inside().map(Node::types).sum::<usize>()
    }

    /// The number of kinds in it, indirections not among them.
    pub fn kinds(&self) -> usize {
        let own = usize::from(!matches!(self.after, After::Offset(_)));
        own + self.inside().map(Node::kinds).sum::<usize>()
    }

    /// The type of this number in it, counted from 0 as they are written.
    pub fn nth(&mut self, number: usize) -> Option<&mut Node> {
        if number == 0 {
            return Some(self);
        }
        let mut left = number - 1;
        for part in &mut self.capsule_mut()?.parts {
            if let Part::Type(node) = part {
                let types = node.types();
                if left < types {
                    return node.nth(left);
                }
                left -= types;
            }
        }
        None
    }
}

/// What a union's cases are chosen by.
pub struct Choice {
    /// The discriminant.
    pub discriminant: Node,
    /// The octets of a label.
    pub width: usize,
    /// The number of the default case.
    pub default: i32,
}
