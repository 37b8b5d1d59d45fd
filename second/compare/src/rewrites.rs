//! Inputs of the section on rewriting.

use std::cmp::Ordering;
use std::collections::BTreeMap;

use chance::Chance;
use second::primitive::ulong_octets;
use second::rewrite::{rewrite, Chosen};
use second::typecode::{digest, CHAR, DOUBLE, EXCEPTION, LONG, OCTET, SHORT, ULONG, USHORT};
use second::value::{Input, LONGEST_VALUE};

use crate::fill::{filled_in, Extent, Value};
use crate::heavy::{self, sequence, width, Row};
use crate::judge::Judge;
use crate::layout::{laid_out, Sample};
use crate::tree::{Choice, Labels, Node, CHOOSING, PRIMITIVES};
use crate::values::{self, any_start, cuts, other, shorten, Question, GENERATORS, OTHERS};

/// The number from which on a generator's questions are taken.
const FIRST: u64 = 1 << 29;

/// One in so many of a generator's questions is rewritten.
const ONE_IN: u64 = 3;

/// The orders that can be named, and none.
const ORDERS: [Option<bool>; 3] = [Some(false), Some(true), None];

/// The least number of results that are shorter than the longest value, of those
/// that are as long, and of those that are longer.
const ENOUGH_LONG: u64 = 100;

/// Judges the rewriting of all values.
pub fn judge(judge: &mut Judge) {
    paper(judge);
    generated(judge);
    all_indices(judge);
    long_results(judge);
    heaviest(judge);
}

/// Judges the paper's sample.
fn paper(judge: &mut Judge) {
    let name = "rewrite (the paper's)";
    let typecode = [0, 0, 0, 19, 0, 0, 0, 12, 0, 0, 0, 0, 0, 0, 0, 3, 0, 0, 0, 0];
    let big = [0, 0, 0, 2, 0, 0, 0, 1, 255, 255, 255, 255];
    let little = [2, 0, 0, 0, 1, 0, 0, 0, 255, 255, 255, 255];
    let question = Question {
        typecode: Sample::of_octets(typecode.into(), false),
        value: Value::of_octets(big.into(), false, 0),
    };
    for (named, expected) in [(Some(true), little), (Some(false), big), (None, big)] {
        let chosen = Chosen {
            little: named,
            start: 0,
        };
        hold_known(judge, name, question.input(), chosen, &expected);
    }
}

/// Judges a rewriting whose result is known.
pub fn hold_known(judge: &mut Judge, name: &str, input: Input, chosen: Chosen, expected: &[u8]) {
    let found = rewrite(input, chosen, usize::MAX);
    let difference = (found.as_deref() != Ok(expected))
        .then(|| format!("second gives {found:02X?}, and is to give {expected:02X?}"));
    judge.tally.hold(name, input.value.octets, difference);
    judge.rewrite(name, input, chosen, expected.len());
}

/// Judges questions of every generator, as they are, changed and cut.
fn generated(judge: &mut Judge) {
    for (index, generator) in GENERATORS.iter().enumerate() {
        for number in 0..generator.each.div_ceil(ONE_IN) {
            let chance = &mut Chance::new((0xB << 48) + ((index as u64) << 32) + number);
            let question = values::question(index, FIRST + number);
            let name = format!("rewrite ({}, sample {number}", generator.name);
            one(judge, chance, &name, &question);
        }
    }
}

/// Judges one question, as it is, changed and cut. The name has no closing
/// bracket yet.
pub fn one(judge: &mut Judge, chance: &mut Chance, name: &str, question: &Question) {
    let whole = format!("{name})");
    for room in [Room::Just, Room::OneLess, Room::None, Room::More] {
        once(judge, chance, &whole, question.input(), room);
    }
    for number in 0..OTHERS {
        let name = format!("{name}, change {number})");
        let room = any_room(chance);
        let changed = other(chance, question, number);
        once(judge, chance, &name, changed.input(), room);
    }
    let name = format!("{name}, cut)");
    for kept in cuts(chance, question) {
        let room = any_room(chance);
        once(judge, chance, &name, question.cut(kept), room);
    }
}

/// The room of an output.
#[derive(Clone, Copy)]
enum Room {
    /// Just what the result needs.
    Just,
    /// One octet less.
    OneLess,
    /// None.
    None,
    /// More.
    More,
}

/// Any room, mostly enough.
fn any_room(chance: &mut Chance) -> Room {
    chance.pick(&[
        Room::Just,
        Room::Just,
        Room::More,
        Room::OneLess,
        Room::None,
    ])
}

/// Judges one rewriting to any order and index.
fn once(judge: &mut Judge, chance: &mut Chance, name: &str, input: Input, room: Room) {
    let chosen = Chosen {
        little: chance.pick(&ORDERS),
        start: any_start(chance),
    };
    let needed = needed(input, chosen);
    let room = match room {
        Room::Just => needed,
        Room::OneLess => needed.saturating_sub(1),
        Room::None => 0,
        Room::More => needed + 1 + chance.below(40),
    };
    judge.rewrite(name, input, chosen, room);
}

/// The octets of a result; of a refused value its own.
pub fn needed(input: Input, chosen: Chosen) -> usize {
    let result = rewrite(input, chosen, usize::MAX);
    result.map_or(input.value.octets.len(), |octets| octets.len())
}

/// Judges values of all sizes of primitives at every index to every index.
fn all_indices(judge: &mut Judge) {
    let chance = &mut Chance::new(0x8_0008);
    for (number, node) in of_all_sizes(chance).iter().enumerate() {
        let typecode = laid_out(chance, node, number % 2 == 1);
        let name = format!("rewrite (every index, type {number})");
        let Ok(digest) = digest(&typecode.octets, typecode.little) else {
            let difference = "second refuses the type".to_owned();
            judge.tally.hold(&name, &typecode.octets, Some(difference));
            continue;
        };
        for (little, start) in orders_and_indices() {
            let extent = Extent {
                octets: 400,
                depth: 0,
            };
            let start = near_or_far(chance, start);
            let question = Question {
                typecode: typecode.clone(),
                value: filled_in(chance, &digest, little, start, extent),
            };
            to_all_indices(judge, chance, &name, question.input());
        }
    }
}

/// Judges a value to every order at every index.
pub fn to_all_indices(judge: &mut Judge, chance: &mut Chance, name: &str, input: Input) {
    for little in ORDERS {
        for start in 0..8 {
            let start = near_or_far(chance, start);
            let chosen = Chosen { little, start };
            judge.rewrite(name, input, chosen, needed(input, chosen));
        }
    }
}

/// Both orders at every index.
fn orders_and_indices() -> impl Iterator<Item = (bool, usize)> {
    [false, true]
        .into_iter()
        .flat_map(|little| (0..8).map(move |start| (little, start)))
}

/// An index below 8, or one of the highest that is the same modulo 8.
fn near_or_far(chance: &mut Chance, index: usize) -> usize {
    match chance.once_in(6) {
        true => usize::MAX - 7 + index,
        false => index,
    }
}

/// Types of every size of primitives: alone, and in all that types can be.
fn of_all_sizes(chance: &mut Chance) -> Vec<Node> {
    let mut nodes = vec![
        Node::enumeration(chance, 3),
        Node::string(0),
        Node::objref(chance),
    ];
    for members in [
        &[OCTET, SHORT, LONG, DOUBLE][..],
        &[DOUBLE, LONG, SHORT, OCTET],
        &[CHAR, DOUBLE, USHORT, DOUBLE, OCTET, ULONG, DOUBLE],
    ] {
        let members = members.iter().map(|&kind| Node::plain(kind)).collect();
        nodes.push(Node::of_members(chance, members));
    }
    for kind in PRIMITIVES {
        let plain = Node::plain(kind);
        nodes.push(plain.clone());
        nodes.push(Node::sequence(chance, plain.clone()));
        nodes.push(Node::array(chance, plain.clone()));
        nodes.push(Node::with_members(chance, EXCEPTION, vec![plain.clone()]));
        let objref = Node::objref(chance);
        let members = vec![plain.clone(), objref, plain.clone(), Node::string(0), plain];
        nodes.push(Node::of_members(chance, members));
    }
    nodes.extend(unions_of_all_sizes(chance));
    for node in &mut nodes {
        shorten(chance, node, &[1, 2, 3], &[0, 2, 5]);
    }
    nodes
}

/// Unions over every size of discriminants.
fn unions_of_all_sizes(chance: &mut Chance) -> Vec<Node> {
    let mut nodes = Vec::new();
    for labels in CHOOSING.into_iter().filter_map(Labels::of_kind) {
        let choice = Choice {
            discriminant: Node::plain(labels.kind),
            width: labels.width(),
            default: 0,
        };
        let cases = vec![(1, Node::plain(DOUBLE)), (0, Node::string(0))];
        nodes.push(Node::union(chance, choice, cases));
    }
    nodes
}

/// Judges values of about 16,384 octets, of which some have longer results: a few
/// numbers, then a sequence of as many elements as there are octets for.
fn long_results(judge: &mut Judge) {
    let chance = &mut Chance::new(0x4_0004);
    let mut counts = BTreeMap::new();
    for members in [&[][..], &[OCTET], &[OCTET, SHORT, LONG, DOUBLE]] {
        for element in [OCTET, USHORT, ULONG, DOUBLE] {
            let kinds = [members, &[element]].concat();
            for length in [LONGEST_VALUE, LONGEST_VALUE - 1, LONGEST_VALUE - 4] {
                for question in long_values(chance, &kinds, length) {
                    to_long_results(judge, chance, &question, &mut counts);
                }
            }
        }
    }
    for (length, name) in [
        (Ordering::Less, "results of under 16,384 octets"),
        (Ordering::Equal, "results of 16,384 octets"),
        (Ordering::Greater, "results of over 16,384 octets"),
    ] {
        let count = counts.get(&length).copied().unwrap_or(0);
        hold_enough(judge, name, count, ENOUGH_LONG);
    }
}

/// Holds a count to what there must be at least.
pub fn hold_enough(judge: &mut Judge, name: &str, count: u64, enough: u64) {
    let difference = (count < enough).then(|| format!("{count}, not {enough}"));
    judge.tally.hold(name, &[], difference);
}

/// Judges a long value to every index, and counts the lengths of the results.
fn to_long_results(
    judge: &mut Judge,
    chance: &mut Chance,
    question: &Question,
    counts: &mut BTreeMap<Ordering, u64>,
) {
    let input = question.input();
    let name = format!("rewrite (long, start {})", input.start);
    for start in 0..8 {
        let chosen = Chosen {
            little: chance.pick(&ORDERS),
            start,
        };
        let needed = needed(input, chosen);
        *counts.entry(needed.cmp(&LONGEST_VALUE)).or_default() += 1;
        judge.rewrite(&name, input, chosen, needed);
        if chance.once_in(4) {
            judge.rewrite(&name, input, chosen, needed - 1);
        }
    }
}

/// Values of at most so many octets at every index: a number of each kind but the
/// last, then a sequence of that one.
fn long_values(chance: &mut Chance, kinds: &[u32], length: usize) -> Vec<Question> {
    let Some((&element, members)) = kinds.split_last() else {
        return Vec::new();
    };
    let mut nodes: Vec<Node> = members.iter().map(|&kind| Node::plain(kind)).collect();
    nodes.push(sequence(chance, Node::plain(element)));
    let node = Node::of_members(chance, nodes);
    let typecode = laid_out(chance, &node, false);
    let question = |start| Question {
        typecode: typecode.clone(),
        value: long_value(chance, members, element, start, length),
    };
    (0..8).map(question).collect()
}

/// Such a value at an index.
fn long_value(
    chance: &mut Chance,
    members: &[u32],
    element: u32,
    start: usize,
    length: usize,
) -> Value {
    let mut value = Value::of_octets(Vec::new(), chance.once_in(2), start);
    for &kind in members {
        let number = chance.next();
        value.number(width(kind), number, || chance.octet());
    }
    let place = value.number(4, 0, || chance.octet());
    let mut count = 0;
    while value.octets.len() + width(element) <= length {
        let number = chance.next();
        value.number(width(element), number, || chance.octet());
        count += 1;
    }
    let octets = ulong_octets(count, value.little);
    value.octets[place..place + 4].copy_from_slice(&octets);
    value
}

/// Judges the questions that take the longest to read.
fn heaviest(judge: &mut Judge) {
    for Row { name, question } in heavy::rows().into_iter().chain(heavy::rewritten()) {
        let name = format!("rewrite (heavy: {name})");
        let input = question.input();
        for (little, start) in [
            (Some(false), 0),
            (Some(true), 0),
            (Some(true), 5),
            (None, 3),
        ] {
            let chosen = Chosen { little, start };
            let needed = needed(input, chosen);
            judge.rewrite(&name, input, chosen, needed);
            judge.rewrite(&name, input, chosen, needed - 1);
        }
    }
}
