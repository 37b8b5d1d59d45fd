//! Inputs of the section on reading a value.

use std::ops::Range;

use chance::Chance;
use second::primitive::ulong_octets;
use second::typecode::{digest, DEEPEST, LONGEST_TYPE, MOST_KINDS};
use second::value::{self, Input, Lent, LONGEST_VALUE};

use crate::fill::{filled, Extent, Value};
use crate::graphs::{before, some_wrappers, wrap_all};
use crate::heavy;
use crate::judge::Judge;
use crate::layout::{laid_out, Sample};
use crate::maker::Maker;
use crate::mutations::mutated;
use crate::tree::{After, Aim, Meaning, Node, Part, PRIMITIVES};
use crate::types;
use crate::unions;
use crate::value_changes::changed;

/// Values of at most so many octets are cut at every octet.
const SHORT: usize = 40;

/// Of longer ones, up to so many octets, one in 16 is.
const MIDDLING: usize = 400;

/// The number from which on the types of other generators are taken.
const FIRST: u64 = 1 << 31;

/// So many items have room where room is not the matter.
const MUCH: usize = 700;

/// How many others are made of a question, some of them changed.
pub const OTHERS: usize = 6;

/// The octets that values mostly have.
const SIZES: [usize; 6] = [4, 12, 30, 30, 80, 200];

/// A type and a value, mostly of this type.
#[derive(Clone)]
pub struct Question {
    /// The type.
    pub typecode: Sample,
    /// The value.
    pub value: Value,
}

impl Question {
    /// What is read.
    pub fn input(&self) -> Input<'_> {
        Input {
            typecode: Lent {
                octets: &self.typecode.octets,
                little: self.typecode.little,
            },
            value: Lent {
                octets: &self.value.octets,
                little: self.value.little,
            },
            start: self.value.start,
        }
    }

    /// What is read if the value has so many octets only. The rest stays where
    /// it is, so that reading too far would show.
    pub fn cut(&self, kept: usize) -> Input<'_> {
        let mut input = self.input();
        input.value.octets = &input.value.octets[..kept];
        input
    }
}

/// Makes questions by chance.
pub struct Generator {
    /// Its name.
    pub name: &'static str,
    /// Makes one.
    make: fn(&mut Chance) -> Question,
    /// How many are judged.
    pub each: u64,
}

/// A generator of so many questions.
const fn generator(name: &'static str, make: fn(&mut Chance) -> Question, each: u64) -> Generator {
    Generator { name, make, each }
}

/// All generators.
pub const GENERATORS: [Generator; 15] = [
    generator("any", any, 12_000),
    generator("scalars", scalars, 8_000),
    generator("texts", texts, 5_000),
    generator("objrefs", objrefs, 4_000),
    generator("exceptions", exceptions, 4_000),
    generator("unions", union_types, 6_000),
    generator("labels", labels, 6_000),
    generator("elements", elements, 6_000),
    generator("many kinds", many_kinds, 2_000),
    generator("deep", deep, 2_500),
    generator("noise", noise, 6_000),
    generator("types of all sorts", other_types, 8_000),
    generator("endless", endless, 2_000),
    generator("16,384 octets", lengths, 200),
    generator("many octets", many_octets, 12),
];

/// A generator's question of this number.
pub fn question(generator: usize, number: u64) -> Question {
    (GENERATORS[generator].make)(&mut chance(generator, number))
}

/// What a generator's question of this number, and its changes, are made by.
fn chance(generator: usize, number: u64) -> Chance {
    Chance::new((0x9 << 48) + ((generator as u64) << 32) + number)
}

/// Judges the questions of every generator, as they are, changed and cut.
pub fn judge(judge: &mut Judge) {
    for (index, generator) in GENERATORS.iter().enumerate() {
        for number in 0..generator.each {
            let chance = &mut chance(index, number);
            let question = (generator.make)(chance);
            let name = format!("value ({}, sample {number}", generator.name);
            one(judge, chance, &name, &question);
        }
    }
    heaviest(judge);
}

/// Judges one question, as it is, changed and cut. The name has no closing
/// bracket yet.
pub fn one(judge: &mut Judge, chance: &mut Chance, name: &str, question: &Question) {
    let whole = format!("{name})");
    let input = question.input();
    match value::read(input, LONGEST_VALUE) {
        Ok(accepted) => {
            let items = accepted.items.len();
            for length in lengths_around(chance, items) {
                judge.value(&whole, input, length);
            }
            for number in numbers_around(chance, items as u64) {
                judge.item(&whole, input, number);
            }
        }
        Err(_) => {
            judge.value(&whole, input, enough(chance, question));
            judge.value(&whole, input, few(chance));
            judge.item(&whole, input, any_number(chance));
        }
    }
    for number in 0..OTHERS {
        let name = format!("{name}, change {number})");
        let changed = other(chance, question, number);
        let length = match chance.once_in(4) {
            true => few(chance),
            false => enough(chance, &changed),
        };
        judge.value(&name, changed.input(), length);
        judge.item(&name, changed.input(), any_number(chance));
    }
    let name = format!("{name}, cut)");
    let cuts = cuts(chance, question);
    let length = enough(chance, question);
    for kept in cuts {
        let input = question.cut(kept);
        judge.value(&name, input, length);
        if chance.once_in(4) {
            judge.item(&name, input, any_number(chance));
        }
    }
}

/// Where a question's value is cut: at every octet, if it is short and the type
/// is accepted.
pub fn cuts(chance: &mut Chance, question: &Question) -> Range<usize> {
    let length = question.value.octets.len();
    let short = length <= SHORT || length <= MIDDLING && chance.once_in(16);
    let Sample { octets, little, .. } = &question.typecode;
    match short && digest(octets, *little).is_ok() {
        true => 0..length,
        false => 0..0,
    }
}

/// The question of this number that is made of another: longer, elsewhere, or
/// changed.
pub fn other(chance: &mut Chance, question: &Question, number: usize) -> Question {
    match number {
        0 => longer(chance, question),
        1 => elsewhere(chance, question),
        _ => changed(chance, question),
    }
}

/// Judges the questions that take the longest to read.
fn heaviest(judge: &mut Judge) {
    for row in heavy::rows() {
        let name = format!("value (heavy: {})", row.name);
        let input = row.question.input();
        let items = value::read(input, LONGEST_VALUE).map_or(0, |accepted| accepted.items.len());
        for length in [3 * items, 3 * items + 2, (3 * items).saturating_sub(1)] {
            judge.value(&name, input, length);
        }
        judge.item(&name, input, items as u64);
        judge.item(&name, input, items as u64 - 1);
    }
}

/// Lengths of tables with just the room for so many items, and around it.
fn lengths_around(chance: &mut Chance, items: usize) -> [usize; 5] {
    let just = 3 * items;
    let more = match chance.once_in(64) {
        true => 3 * LONGEST_VALUE,
        false => just + 3 + chance.below(20),
    };
    [
        just,
        just + 1 + chance.below(2),
        just.saturating_sub(chance.pick(&[1, 1, 2, 3])),
        chance.below(4),
        more,
    ]
}

/// Numbers of items around so many, and far above.
fn numbers_around(chance: &mut Chance, items: u64) -> [u64; 4] {
    let any = chance.next();
    let far = [
        items + 1,
        1 << 32,
        (1 << 32) + items / 2,
        1 << 63,
        u64::MAX,
        any,
    ];
    [
        chance.below(items as usize + 1) as u64,
        items.saturating_sub(1),
        items,
        chance.pick(&far),
    ]
}

/// The length of a table that has room for everything, unless there is much.
fn enough(chance: &mut Chance, question: &Question) -> usize {
    3 * question.value.octets.len().min(MUCH) + chance.below(3)
}

/// The length of a small table.
fn few(chance: &mut Chance) -> usize {
    chance.below(40)
}

/// The number of an item, mostly a small one.
fn any_number(chance: &mut Chance) -> u64 {
    match chance.below(8) {
        0 => chance.next(),
        1 => chance.below(200) as u64,
        _ => chance.below(8) as u64,
    }
}

/// Any index of a first octet, mostly below 8.
pub fn any_start(chance: &mut Chance) -> usize {
    let below = chance.below(8);
    let any = chance.next() as usize;
    match chance.below(6) {
        0 => chance.pick(&[8 + below, 4_096 + below, usize::MAX - below, any]),
        _ => below,
    }
}

/// The question with octets after the value, which are not read.
fn longer(chance: &mut Chance, question: &Question) -> Question {
    let mut question = question.clone();
    let count = 1 + chance.below(20);
    chance.add_octets(&mut question.value.octets, count);
    question
}

/// The question with the value's first octet at another index.
fn elsewhere(chance: &mut Chance, question: &Question) -> Question {
    let mut question = question.clone();
    question.value.start = any_start(chance);
    question
}

/// A type with a value that fits it, or of noise if the type is refused.
pub fn of_type(chance: &mut Chance, typecode: Sample, extent: Extent) -> Question {
    let start = any_start(chance);
    let value = match digest(&typecode.octets, typecode.little) {
        Ok(digest) => filled(chance, &digest, start, extent),
        Err(_) => {
            let count = chance.below(40);
            Value::of_octets(chance.octets(count), chance.once_in(2), start)
        }
    };
    Question { typecode, value }
}

/// A type laid out in either order, with a value of a common size.
fn of_node(chance: &mut Chance, node: &Node) -> Question {
    let octets = chance.pick(&SIZES);
    let typecode = types::finished(chance, node);
    of_type(chance, typecode, Extent { octets, depth: 0 })
}

/// Makes all arrays of a type short, and all bounds low.
pub fn shorten(chance: &mut Chance, node: &mut Node, lengths: &[u64], bounds: &[u32]) {
    for number in 0..node.types() {
        let Some(node) = node.nth(number) else {
            continue;
        };
        match &mut node.after {
            After::Bound(bound) => *bound = chance.pick(bounds),
            After::Capsule(capsule) => {
                for part in &mut capsule.parts {
                    match part {
                        Part::Number(Meaning::Length, _, length) => *length = chance.pick(lengths),
                        Part::Number(Meaning::Bound, _, bound) => {
                            *bound = chance.pick(bounds).into();
                        }
                        _ => {}
                    }
                }
            }
            After::Nothing | After::Offset(_) => {}
        }
    }
}

/// A question about a type with short arrays and low bounds.
fn of_short(chance: &mut Chance, mut node: Node) -> Question {
    let bounds = [0, 0, 1, 2, 3, 5, 8, 80, u32::MAX];
    shorten(chance, &mut node, &[1, 1, 2, 3, 5], &bounds);
    of_node(chance, &node)
}

/// A value of any type.
fn any(chance: &mut Chance) -> Question {
    let node = Maker::new(chance).top();
    of_short(chance, node)
}

/// A type of one kind.
fn leaf(chance: &mut Chance) -> Node {
    match chance.below(3) {
        0 => Maker::new(chance).leaf(),
        _ => Node::plain(chance.pick(&PRIMITIVES)),
    }
}

/// A scalar alone, or a few in a struct.
fn scalars(chance: &mut Chance) -> Question {
    let kind = chance.below(11) as u32;
    let node = match chance.below(4) {
        0 => Node::plain(chance.pick(&[kind, 23, 24])),
        1 => {
            let names = chance.pick(&[1, 2, 3, 9, 300]);
            Node::enumeration(chance, names)
        }
        _ => {
            let count = 1 + chance.below(8);
            let members = (0..count).map(|_| leaf(chance)).collect();
            Node::of_members(chance, members)
        }
    };
    of_short(chance, node)
}

/// Strings with bounds, alone, in a struct, a sequence or an array.
fn texts(chance: &mut Chance) -> Question {
    let string = Node::string(0);
    let node = match chance.below(5) {
        0 | 1 => string,
        2 => Node::sequence(chance, string),
        3 => Node::array(chance, string),
        _ => {
            let members = vec![leaf(chance), string, Node::string(0)];
            Node::of_members(chance, members)
        }
    };
    of_short(chance, node)
}

/// Objrefs, alone or with others.
fn objrefs(chance: &mut Chance) -> Question {
    let objref = Node::objref(chance);
    let node = match chance.below(4) {
        0 | 1 => objref,
        2 => Node::sequence(chance, objref),
        _ => {
            let members = vec![leaf(chance), objref, leaf(chance)];
            Node::of_members(chance, members)
        }
    };
    of_short(chance, node)
}

/// Exceptions with members or none.
fn exceptions(chance: &mut Chance) -> Question {
    let node = Maker::new(chance).exception();
    of_short(chance, node)
}

/// Unions among others.
fn union_types(chance: &mut Chance) -> Question {
    let mut maker = Maker::new(chance);
    maker.deepest = maker.deepest.max(3);
    let node = maker.union(1);
    of_short(chance, node)
}

/// Unions whose labels and discriminants are of every kind.
fn labels(chance: &mut Chance) -> Question {
    let make = chance.pick(&[unions::labels, unions::unions, unions::defaults]);
    let typecode = make(chance);
    let octets = chance.pick(&SIZES);
    of_type(chance, typecode, Extent { octets, depth: 0 })
}

/// Sequences and arrays of scalars, or of one another.
fn elements(chance: &mut Chance) -> Question {
    let mut node = leaf(chance);
    for _ in 0..1 + chance.below(3) {
        node = match chance.below(5) {
            0..=2 => Node::sequence(chance, node),
            3 => Node::array(chance, node),
            _ => Node::alias(chance, node),
        };
    }
    of_short(chance, node)
}

/// Types of many kinds, with much inside one another.
fn many_kinds(chance: &mut Chance) -> Question {
    let mut maker = Maker::new(chance);
    maker.room = MOST_KINDS - 8;
    maker.deepest = DEEPEST;
    maker.members = 6;
    let mut node = maker.compound(1);
    let bounds = [0, 0, 3, 5, 80, u32::MAX];
    shorten(chance, &mut node, &[1, 2], &bounds);
    let typecode = types::finished(chance, &node);
    let octets = chance.pick(&[200, 600, 2_000]);
    of_type(chance, typecode, Extent { octets, depth: 0 })
}

/// A type that holds itself in sequences, and a value about 64 visits deep.
fn deep(chance: &mut Chance) -> Question {
    let mut outer = some_wrappers(chance, 2);
    outer.truncate(chance.below(3));
    let first = before(&outer);
    let inner = some_wrappers(chance, 2);
    let itself = wrap_all(chance, &inner, Node::indirection(Aim::Kind(first)));
    let itself = Node::sequence(chance, itself);
    let mut members = vec![itself];
    if chance.once_in(2) {
        let leaf = leaf(chance);
        let more = match chance.once_in(2) {
            true => Node::sequence(chance, leaf),
            false => leaf,
        };
        members.insert(chance.below(2), more);
    }
    let node = Node::of_members(chance, members);
    let mut node = wrap_all(chance, &outer, node);
    shorten(chance, &mut node, &[1], &[0, 1, 2, u32::MAX]);
    let typecode = types::finished(chance, &node);
    let depth = chance.pick(&[59, 61, 62, 63, 64, 65, 66]);
    of_type(
        chance,
        typecode,
        Extent {
            octets: 3_000,
            depth,
        },
    )
}

/// Octets by chance, or small numbers by chance, as a value of any type.
fn noise(chance: &mut Chance) -> Question {
    let mut question = any(chance);
    let value = &mut question.value;
    value.marks.clear();
    value.octets.clear();
    match chance.once_in(4) {
        true => {
            let count = chance.below(60);
            chance.add_octets(&mut value.octets, count);
        }
        false => {
            for _ in 0..chance.below(60) {
                let octet = chance.pick(&[0, 0, 0, 0, 1, 1, 2, 3, 0xFF]);
                value.octets.push(octet);
            }
        }
    }
    question
}

/// A value of a type of any of the other generators.
fn other_types(chance: &mut Chance) -> Question {
    // The last ones make large types.
    let large = chance.once_in(40);
    let all = types::GENERATORS.len();
    let generator = chance.below(if large { all } else { all - 5 });
    let number = FIRST + chance.below(1 << 20) as u64;
    let mut typecode = types::sample(generator, number);
    if chance.once_in(6) {
        typecode = mutated(chance, &typecode);
    }
    let octets = chance.pick(&SIZES);
    of_type(chance, typecode, Extent { octets, depth: 0 })
}

/// Arrays and sequences of up to 4,294,967,295 elements, of which there are a
/// few.
fn endless(chance: &mut Chance) -> Question {
    let mut node = leaf(chance);
    for _ in 0..1 + chance.below(3) {
        node = match chance.below(4) {
            0 => Node::alias(chance, node),
            1 => Node::sequence(chance, node),
            _ => Node::array(chance, node),
        };
    }
    let huge = u64::from(u32::MAX);
    let bounds = [0, u32::MAX, u32::MAX - 1, 1 << 31];
    let lengths = [huge, huge - 1, 1 << 31, 1 << 16, 3];
    shorten(chance, &mut node, &lengths, &bounds);
    of_node(chance, &node)
}

/// Octets around 16,384, in the type or in the value, most of them after it.
fn lengths(chance: &mut Chance) -> Question {
    let mut question = any(chance);
    let length = chance.pick(&[0, 1, 1, 1, 2, 9, 20_000, 50_000]);
    let octets = match chance.below(3) {
        0 => &mut question.typecode.octets,
        _ => &mut question.value.octets,
    };
    let missing = (LONGEST_TYPE + length).saturating_sub(octets.len());
    chance.add_octets(octets, missing);
    question
}

/// About 16,384 octets that are nearly all read: a sequence, of primitives or of
/// an alias of them.
fn many_octets(chance: &mut Chance) -> Question {
    let (kind, width) = chance.pick(&[(4, 2), (5, 4), (7, 8), (9, 1), (10, 1), (10, 1)]);
    let mut node = Node::plain(kind);
    if chance.once_in(2) {
        node = Node::alias(chance, node);
    }
    let mut node = Node::sequence(chance, node);
    shorten(chance, &mut node, &[1], &[0, u32::MAX]);
    let type_little = chance.once_in(2);
    let typecode = laid_out(chance, &node, type_little);
    let length = LONGEST_VALUE + 1 - chance.below(3);
    let mut octets = chance.octets(length);
    let little = chance.once_in(2);
    let count = (length - 4) / width;
    octets[..4].copy_from_slice(&ulong_octets(count as u32, little));
    // The elements follow the count without a gap.
    let start = 4 + 8 * chance.below(9);
    let value = Value::of_octets(octets, little, start);
    Question { typecode, value }
}
