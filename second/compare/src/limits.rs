//! Types around the limits: 64 kinds, nesting 16, 16,384 octets.

use chance::Chance;
use second::typecode::{DEEPEST, ENUM, EXCEPTION, LONGEST_TYPE, MOST_KINDS, NULL, VOID};

use crate::graphs::{wrap_all, Wrapper, WRAPPERS};
use crate::layout::{laid_out, Sample};
use crate::planted::{any_kind, plant};
use crate::tree::{Aim, Choice, Labels, Node, Part, Text, CHOOSING, PRIMITIVES};
use crate::types::finished;

/// A type of one kind.
fn small(chance: &mut Chance) -> Node {
    match chance.below(8) {
        0 => Node::string(chance.pick(&[0, 9])),
        1 => Node::objref(chance),
        2 => Node::enumeration(chance, 2),
        _ => Node::plain(chance.pick(&PRIMITIVES)),
    }
}

/// Types that come to so many kinds.
fn many(chance: &mut Chance, kinds: usize) -> Vec<Node> {
    let mut left = kinds;
    let mut nodes = Vec::new();
    while left > 0 {
        let most = left.min(chance.pick(&[1, 1, 2, 3, 6]));
        let first = small(chance);
        let node = match (most, chance.below(2)) {
            (1, _) => first,
            (2, 0) => Node::sequence(chance, first),
            (2, _) => Node::alias(chance, first),
            _ => {
                let members = (1..most).map(|_| small(chance)).collect();
                Node::of_members(chance, members)
            }
        };
        left -= node.kinds();
        nodes.push(node);
    }
    nodes
}

/// Where something may be that is no type: any kind, null, void, exception.
fn unfit(chance: &mut Chance) -> Node {
    match chance.below(4) {
        0 => Node::plain(any_kind(chance)),
        1 => Node::plain(chance.pick(&[NULL, VOID, EXCEPTION])),
        2 => Node::with_members(chance, EXCEPTION, Vec::new()),
        _ => Node::plain(chance.pick(&[11, 25, 1 << 31])),
    }
}

/// Something that may stand at a limit: a type, an indirection to a member
/// that is finished, or what is no type.
fn at_limit(chance: &mut Chance) -> Node {
    match chance.below(4) {
        0 => unfit(chance),
        1 => Node::indirection(Aim::Kind(1)),
        _ => small(chance),
    }
}

/// About 64 kinds, with indirections between and after them.
pub fn kinds(chance: &mut Chance) -> Sample {
    let count = chance.pick(&[62, 63, 64, 64, 64, 65, 65, 66, 70]);
    let mut members = many(chance, count - 1);
    for _ in 0..chance.below(4) {
        let place = 1 + chance.below(members.len());
        members.insert(place, Node::indirection(Aim::Kind(1)));
    }
    match chance.below(4) {
        0 => members.push(at_limit(chance)),
        1 => members.push(Node::indirection(Aim::Kind(chance.below(count)))),
        _ => {}
    }
    let mut node = Node::of_members(chance, members);
    if chance.once_in(8) {
        plant(chance, &mut node);
    }
    finished(chance, &node)
}

/// Wrappers for so many levels.
fn levels(chance: &mut Chance, count: usize) -> Vec<Wrapper> {
    let alone = chance.pick(&WRAPPERS);
    let mixed = chance.once_in(2);
    let one = |_| match mixed {
        true => chance.pick(&WRAPPERS),
        false => alone,
    };
    (0..count).map(one).collect()
}

/// Types inside one another around nesting 16, something at the limit
/// innermost. A discriminant nests too.
pub fn nesting(chance: &mut Chance) -> Sample {
    let innermost = DEEPEST - 2 + chance.below(5);
    let wrappers = levels(chance, innermost - 2);
    let mut node = at_limit(chance);
    if chance.once_in(4) {
        let choice = Choice {
            discriminant: node,
            width: 4,
            default: -1,
        };
        let only = small(chance);
        node = Node::union(chance, choice, vec![(0, only)]);
        node = wrap_all(chance, &wrappers[1..], node);
    } else {
        node = wrap_all(chance, &wrappers, node);
    }
    // The first member is finished, so that it can be aimed at.
    let members = vec![small(chance), node];
    let mut node = Node::of_members(chance, members);
    if chance.once_in(8) {
        plant(chance, &mut node);
    }
    finished(chance, &node)
}

/// About 64 kinds and about nesting 16 at once.
pub fn kinds_and_nesting(chance: &mut Chance) -> Sample {
    let innermost = DEEPEST - 1 + chance.below(3);
    let wrappers = levels(chance, innermost - 2);
    let last = at_limit(chance);
    let chain = wrap_all(chance, &wrappers, last);
    let count = MOST_KINDS + 2 - chance.below(4);
    let mut members = many(chance, count.saturating_sub(1 + chain.kinds()));
    members.push(chain);
    if chance.once_in(3) {
        members.push(at_limit(chance));
    }
    let node = Node::of_members(chance, members);
    finished(chance, &node)
}

/// An objref whose octets come to so many, at least 26.
fn objref_of(chance: &mut Chance, octets: usize) -> Node {
    let mut node = Node::objref(chance);
    let name = Text::long(chance, octets - 25);
    let parts = [Text::of(&[]), name].map(Part::Text);
    if let Some(capsule) = node.capsule_mut() {
        capsule.parts = parts.into();
    }
    node
}

/// Octets around 16,384: in the type, or in what is after it; also with
/// faults.
pub fn lengths(chance: &mut Chance) -> Sample {
    let length = chance.pick(&[
        16_380, 16_383, 16_384, 16_384, 16_385, 16_385, 16_386, 16_388, 32_768, 65_540,
    ]);
    let mut node = match chance.below(3) {
        0 => objref_of(chance, length),
        1 => small(chance),
        _ => {
            let long = objref_of(chance, LONGEST_TYPE / 2);
            let members = vec![small(chance), long, small(chance)];
            Node::of_members(chance, members)
        }
    };
    if chance.once_in(4) {
        plant(chance, &mut node);
    }
    let little = chance.once_in(2);
    let mut sample = laid_out(chance, &node, little);
    let missing = length.saturating_sub(sample.octets.len());
    chance.add_octets(&mut sample.octets, missing);
    sample
}

/// A type of these parts, without as many of the last as do not fit into
/// 16,384 octets.
fn fitted<T: Clone>(
    chance: &mut Chance,
    mut parts: Vec<T>,
    build: impl Fn(&mut Chance, Vec<T>) -> Node,
) -> Sample {
    let little = chance.once_in(2);
    loop {
        let node = build(chance, parts.clone());
        let sample = laid_out(chance, &node, little);
        let excess = sample.octets.len().saturating_sub(LONGEST_TYPE);
        if excess == 0 {
            return filled(chance, sample);
        }
        parts.truncate(parts.len() - 1 - excess / 40);
    }
}

/// The sample, sometimes with octets after it up to 16,384.
fn filled(chance: &mut Chance, mut sample: Sample) -> Sample {
    if chance.once_in(4) {
        let missing = LONGEST_TYPE - sample.octets.len();
        chance.add_octets(&mut sample.octets, missing);
    }
    sample
}

/// Indirections to any of the kinds but the first, so many of them.
fn pointers(chance: &mut Chance, kinds: usize, count: usize) -> Vec<Node> {
    let one = |_| Node::indirection(Aim::Kind(1 + chance.below(kinds - 1)));
    (0..count).map(one).collect()
}

/// 64 kinds and hundreds of indirections in a struct.
pub fn wide(chance: &mut Chance) -> Sample {
    let mut members = many(chance, MOST_KINDS - 1);
    members.extend(pointers(chance, MOST_KINDS, 800));
    if chance.once_in(4) {
        // A loop, or none because of the sequence.
        let back = Node::indirection(Aim::Kind(0));
        let back = match chance.once_in(2) {
            true => Node::sequence(chance, back),
            false => back,
        };
        members.truncate(400 + chance.below(300));
        members.drain(..2);
        members.push(back);
    }
    fitted(chance, members, Node::of_members)
}

/// A union with hundreds of cases, over a number or an enum of many names.
pub fn wide_union(chance: &mut Chance) -> Sample {
    let kind = chance.pick(&CHOOSING);
    let (discriminant, labels) = match Labels::of_kind(kind) {
        Some(labels) if labels.width() > 1 => (Node::plain(kind), labels),
        _ => {
            let (kind, names) = (ENUM, 300);
            (Node::enumeration(chance, 300), Labels { kind, names })
        }
    };
    let cases = wide_cases(chance, labels);
    fitted(chance, cases, |chance, cases| {
        let last = cases.len() as i32 - 1;
        let choice = Choice {
            discriminant: discriminant.clone(),
            width: labels.width(),
            default: chance.pick(&[-1, 0, last]),
        };
        Node::union(chance, choice, cases)
    })
}

/// Hundreds of cases, 62 of them kinds, the rest indirections; the last label is
/// sometimes another's.
fn wide_cases(chance: &mut Chance, labels: Labels) -> Vec<(u64, Node)> {
    let most = 300 + chance.below(300);
    let mut cases = Vec::new();
    for label in labels.different(chance, most) {
        let case = match cases.len() {
            0..62 => Node::plain(chance.pick(&PRIMITIVES)),
            _ => Node::indirection(Aim::Kind(2 + chance.below(60))),
        };
        cases.push((label, case));
    }
    if chance.once_in(3) {
        let (label, _) = cases[chance.below(cases.len())];
        let place = 200 + chance.below(50);
        cases[place].0 = label;
    }
    cases
}

/// 63 structs, each with indirections to many that are before it, so that the
/// ways from one to another are beyond counting. Sometimes one leads back.
pub fn dense(chance: &mut Chance) -> Sample {
    let each = chance.pick(&[6, 11, 12]);
    let mut members = vec![small(chance)];
    for number in 2..MOST_KINDS {
        let mut inside = Vec::new();
        for _ in 0..each.min(number) {
            let nearest = chance.once_in(2);
            let step = if nearest {
                1
            } else {
                1 + chance.below(number - 1)
            };
            inside.push(Node::indirection(Aim::Kind(number - step)));
        }
        if chance.once_in(200) {
            inside.push(Node::indirection(Aim::Kind(chance.pick(&[0, number]))));
        }
        members.push(Node::of_members(chance, inside));
    }
    fitted(chance, members, Node::of_members)
}

/// Aliases of aliases through indirections, and unions over the last one.
pub fn alias_chain(chance: &mut Chance) -> Sample {
    let aliases = 20 + chance.below(30);
    let mut members = vec![Node::enumeration(chance, 2)];
    for number in 1..=aliases {
        let step = if chance.once_in(8) {
            chance.below(number)
        } else {
            0
        };
        let before = Node::indirection(Aim::Kind(number - step));
        members.push(Node::alias(chance, before));
    }
    for _ in 0..MOST_KINDS - aliases - 2 {
        let choice = Choice {
            discriminant: Node::indirection(Aim::Kind(1 + aliases)),
            width: 4,
            default: chance.pick(&[-1, 0, 1]),
        };
        let first = Node::indirection(Aim::Kind(1));
        let second = Node::indirection(Aim::Kind(2));
        let labels = match chance.once_in(60) {
            true => chance.pick(&[[0, 2], [1, 1]]),
            false => chance.pick(&[[0, 1], [1, 0]]),
        };
        let cases = labels.into_iter().zip([first, second]).collect();
        members.push(Node::union(chance, choice, cases));
    }
    members.extend(pointers(chance, aliases, 500));
    fitted(chance, members, Node::of_members)
}
