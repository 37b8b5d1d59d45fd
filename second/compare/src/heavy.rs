//! Large values, which take the longest to read.

use chance::Chance;
use second::shape::Scalar;
use second::typecode::{
    BOOLEAN, CHAR, DOUBLE, FLOAT, LONG, OCTET, SHORT, ULONG, ULONGLONG, USHORT,
};

use crate::fill::Value;
use crate::graphs::Wrapper;
use crate::layout::laid_out;
use crate::tree::{Aim, Meaning, Node, Part};
use crate::values::Question;

/// The octets that the values have, about.
const OCTETS: usize = 16_000;

/// A large value.
pub struct Row {
    /// What it is.
    pub name: &'static str,
    /// The type and the value.
    pub question: Question,
}

/// All large values.
pub fn rows() -> [Row; 6] {
    let chance = &mut Chance::new(0x4EA_711);
    [
        row(chance, "sequence of octets", octets),
        row(chance, "sequence of structs of primitives", structs),
        row(chance, "tree of structs, bushy", bushy),
        row(chance, "tree of structs, deep", deep),
        row(chance, "sequence of strings", strings),
        row(chance, "most visits an octet", most_visits),
    ]
}

/// Large values to be rewritten.
pub fn rewritten() -> [Row; 7] {
    let chance = &mut Chance::new(0x4EA_712);
    [
        row(chance, "sequence of octets", octets),
        row(chance, "sequence of longs", longs),
        row(chance, "sequence of doubles", doubles),
        row(chance, "sequence of structs of ten primitives", ten),
        row(chance, "tree of structs, bushy", bushy),
        row(chance, "sequence of strings", strings),
        row(chance, "sequence of objrefs", objrefs),
    ]
}

/// A large value of this name.
fn row(chance: &mut Chance, name: &'static str, make: fn(&mut Chance) -> (Node, Octets)) -> Row {
    let (node, octets) = make(chance);
    Row {
        name,
        question: Question {
            typecode: laid_out(chance, &node, false),
            value: Value::of_octets(octets.0, false, 0),
        },
    }
}

/// Octets of a big-endian value at index 0.
#[derive(Default)]
struct Octets(Vec<u8>);

impl Octets {
    /// Adds a number of these octets, after its gap.
    fn number(&mut self, octets: &[u8]) {
        let index = self.0.len().next_multiple_of(octets.len());
        self.0.resize(index, 0);
        self.0.extend_from_slice(octets);
    }

    /// Adds an unsigned long.
    fn ulong(&mut self, number: usize) {
        self.number(&(number as u32).to_be_bytes());
    }

    /// Adds a text of so many octets and the zero.
    fn text(&mut self, chance: &mut Chance, length: usize) {
        self.ulong(length + 1);
        for _ in 0..length {
            self.0.push(chance.octet().max(1));
        }
        self.0.push(0);
    }

    /// As many elements as there are octets for, after their count.
    fn of_elements(chance: &mut Chance, add: fn(&mut Chance, &mut Octets)) -> Self {
        let mut octets = Octets::default();
        octets.ulong(0);
        let mut count = 0;
        while octets.0.len() < OCTETS {
            add(chance, &mut octets);
            count += 1;
        }
        octets.0[..4].copy_from_slice(&u32::to_be_bytes(count));
        octets
    }
}

/// The octets of a primitive.
pub fn width(kind: u32) -> usize {
    Scalar::primitive(kind).map_or(0, |scalar| scalar.size.octets())
}

/// A sequence without bound.
pub fn sequence(chance: &mut Chance, of: Node) -> Node {
    let mut node = Node::sequence(chance, of);
    put(&mut node, Meaning::Bound, 0);
    node
}

/// An array of a length.
fn array(chance: &mut Chance, of: Node, length: u64) -> Node {
    let mut node = Node::array(chance, of);
    put(&mut node, Meaning::Length, length);
    node
}

/// Puts a number of this meaning into a type.
fn put(node: &mut Node, meaning: Meaning, number: u64) {
    let capsule = node.capsule_mut();
    for part in capsule
        .map(|capsule| &mut capsule.parts[..])
        .unwrap_or(&mut [])
    {
        if let Part::Number(found, _, value) = part {
            if *found == meaning {
                *value = number;
            }
        }
    }
}

/// A sequence of primitives for which any octets will do.
fn primitives(chance: &mut Chance, kind: u32) -> (Node, Octets) {
    let node = sequence(chance, Node::plain(kind));
    let mut octets = Octets::default();
    octets.ulong(OCTETS / width(kind));
    octets
        .0
        .resize(octets.0.len().next_multiple_of(width(kind)), 0);
    chance.add_octets(&mut octets.0, OCTETS);
    (node, octets)
}

/// A sequence of octets.
fn octets(chance: &mut Chance) -> (Node, Octets) {
    primitives(chance, OCTET)
}

/// A sequence of longs.
fn longs(chance: &mut Chance) -> (Node, Octets) {
    primitives(chance, LONG)
}

/// A sequence of doubles.
fn doubles(chance: &mut Chance) -> (Node, Octets) {
    primitives(chance, DOUBLE)
}

/// A sequence of so many structs of primitives.
fn structs_of(chance: &mut Chance, kinds: &[u32], count: usize) -> (Node, Octets) {
    let members = kinds.iter().map(|&kind| Node::plain(kind)).collect();
    let node = Node::of_members(chance, members);
    let node = sequence(chance, node);
    let mut octets = Octets::default();
    octets.ulong(count);
    for _ in 0..count {
        for &kind in kinds {
            match kind {
                BOOLEAN => octets.number(&[u8::from(chance.once_in(2))]),
                _ => octets.number(&chance.octets(width(kind))),
            }
        }
    }
    (node, octets)
}

/// A sequence of structs of primitives of all sizes.
fn structs(chance: &mut Chance) -> (Node, Octets) {
    let kinds = [
        OCTET, SHORT, LONG, DOUBLE, BOOLEAN, FLOAT, CHAR, USHORT, ULONGLONG,
    ];
    structs_of(chance, &kinds, 400)
}

/// A sequence of structs of ten primitives.
fn ten(chance: &mut Chance) -> (Node, Octets) {
    let kinds = [
        OCTET, SHORT, LONG, DOUBLE, BOOLEAN, FLOAT, CHAR, USHORT, ULONGLONG, ULONG,
    ];
    structs_of(chance, &kinds, 330)
}

/// A struct of a long and a sequence of itself.
fn tree(chance: &mut Chance) -> Node {
    let itself = Node::indirection(Aim::Kind(0));
    let members = vec![Node::plain(LONG), sequence(chance, itself)];
    Node::of_members(chance, members)
}

/// A tree in which every struct holds a few others.
fn bushy(chance: &mut Chance) -> (Node, Octets) {
    let mut octets = Octets::default();
    branch(chance, &mut octets, 10, 3);
    (tree(chance), octets)
}

/// Adds a struct that holds so many others, and those as many, so many levels
/// down, while there are few octets.
fn branch(chance: &mut Chance, octets: &mut Octets, levels: usize, each: usize) {
    octets.number(&chance.octets(4));
    let full = levels == 0 || octets.0.len() > OCTETS;
    let count = if full { 0 } else { each };
    octets.ulong(count);
    for _ in 0..count {
        branch(chance, octets, levels - 1, each);
    }
}

/// A tree of structs in structs, 64 visits deep, many beside one another.
fn deep(chance: &mut Chance) -> (Node, Octets) {
    let (each, levels) = (64, 30);
    let mut octets = Octets::default();
    octets.number(&chance.octets(4));
    octets.ulong(each);
    for _ in 0..each {
        branch(chance, &mut octets, levels, 1);
    }
    (tree(chance), octets)
}

/// A sequence of strings of mixed lengths.
fn strings(chance: &mut Chance) -> (Node, Octets) {
    let node = sequence(chance, Node::string(0));
    let octets = Octets::of_elements(chance, |chance, octets| {
        let length = chance.pick(&[0, 3, 8, 12, 20, 31, 64, 150]);
        octets.text(chance, length);
    });
    (node, octets)
}

/// A sequence of objrefs with one to three profiles.
fn objrefs(chance: &mut Chance) -> (Node, Octets) {
    let objref = Node::objref(chance);
    let node = sequence(chance, objref);
    let octets = Octets::of_elements(chance, |chance, octets| {
        let length = 12 + chance.below(30);
        octets.text(chance, length);
        let profiles = 1 + chance.below(3);
        octets.ulong(profiles);
        for _ in 0..profiles {
            octets.ulong(chance.below(2));
            let length = 30 + chance.below(70);
            octets.ulong(length);
            chance.add_octets(&mut octets.0, length);
        }
    });
    (node, octets)
}

/// The most visits an octet that we know of: of 64 kinds, 62 are in one another
/// around each octet of an array, 64 visits deep. Nesting does not allow that,
/// so that they are members of a struct, each with an indirection to the one
/// before innermost: 15 kinds, 15, 15, 3, and an array of 14.
fn most_visits(chance: &mut Chance) -> (Node, Octets) {
    let length = 16_380;
    let first = chain(chance, 14, Node::plain(OCTET));
    let second = chain(chance, 15, Node::indirection(Aim::Kind(1)));
    let third = chain(chance, 15, Node::indirection(Aim::Kind(16)));
    let fourth = chain(chance, 3, Node::indirection(Aim::Kind(31)));
    let element = chain(chance, 14, Node::indirection(Aim::Kind(46)));
    let last = array(chance, element, length);
    let members = vec![first, second, third, fourth, last];
    let node = Node::of_members(chance, members);
    let count = 4 + length as usize;
    (node, Octets(chance.octets(count)))
}

/// A type in so many aliases, structs and arrays of one element.
fn chain(chance: &mut Chance, count: usize, node: Node) -> Node {
    (0..count).fold(node, |node, number| match number % 3 {
        0 => Wrapper::Struct.wrap(chance, node),
        1 => array(chance, node, 1),
        _ => Wrapper::Alias.wrap(chance, node),
    })
}
