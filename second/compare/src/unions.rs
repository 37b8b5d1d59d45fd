//! Types in which a union's discriminant, labels and default matter.

use chance::Chance;
use second::typecode::{ENUM, FLOAT, LONG, OCTET};

use crate::layout::Sample;
use crate::maker::Maker;
use crate::tree::{Aim, Choice, Labels, Meaning, Node, Part, CHOOSING};
use crate::types::finished;

/// A discriminant with all that is written before its union.
struct Before {
    /// Types before the union.
    types: Vec<Node>,
    /// The discriminant.
    discriminant: Node,
    /// The labels it allows.
    labels: Labels,
}

impl Before {
    /// Some type that can be chosen by, in one of these ways: direct, an alias,
    /// several, an indirection, an alias of one.
    fn any(chance: &mut Chance) -> Self {
        let (node, labels) = direct(chance);
        let node = aliased(chance, node);
        if chance.once_in(2) {
            return Before {
                types: Vec::new(),
                discriminant: node,
                labels,
            };
        }
        // The struct around is kind 0.
        let discriminant = Node::indirection(Aim::Kind(1));
        Before {
            types: vec![node],
            discriminant: aliased(chance, discriminant),
            labels,
        }
    }

    /// The union with these cases, and what is before it. Some unions end after
    /// the discriminant, the default or the count.
    fn union(self, chance: &mut Chance, default: i32, cases: Vec<(u64, Node)>) -> Node {
        let choice = Choice {
            discriminant: self.discriminant,
            width: self.labels.width(),
            default,
        };
        let mut union = Node::union(chance, choice, cases);
        if let (Some(capsule), true) = (union.capsule_mut(), chance.once_in(10)) {
            capsule.parts.truncate(3 + chance.below(3));
        }
        let mut members = self.types;
        if members.is_empty() && chance.once_in(2) {
            return union;
        }
        members.push(union);
        Node::of_members(chance, members)
    }
}

/// A primitive or an enum that can be chosen by.
fn direct(chance: &mut Chance) -> (Node, Labels) {
    let kind = chance.pick(&CHOOSING);
    match Labels::of_kind(kind) {
        Some(labels) if !chance.once_in(3) => (Node::plain(kind), labels),
        _ => {
            let names = chance.pick(&[1, 2, 3, 7]);
            let labels = Labels {
                kind: ENUM,
                names: names as u64,
            };
            (Node::enumeration(chance, names), labels)
        }
    }
}

/// The type in no, one or several aliases.
fn aliased(chance: &mut Chance, node: Node) -> Node {
    let count = chance.pick(&[0, 0, 0, 1, 1, 2, 5]);
    (0..count).fold(node, |node, _| Node::alias(chance, node))
}

/// Cases of these labels, with short types.
fn cases(chance: &mut Chance, labels: Vec<u64>) -> Vec<(u64, Node)> {
    let mut cases = Vec::new();
    for label in labels {
        let node = match chance.below(4) {
            0 => Node::string(0),
            1 => Node::objref(chance),
            2 => Node::indirection(Aim::Kind(1)),
            _ => Node::plain(LONG),
        };
        cases.push((label, node));
    }
    cases
}

/// Cases without an indirection among them.
fn plain_cases(chance: &mut Chance, labels: Vec<u64>) -> Vec<(u64, Node)> {
    let kind = chance.pick(&[LONG, FLOAT, OCTET]);
    let with_type = |label| (label, Node::plain(kind));
    labels.into_iter().map(with_type).collect()
}

/// Unions made with others around, mostly accepted.
pub fn unions(chance: &mut Chance) -> Sample {
    let mut maker = Maker::new(chance);
    maker.deepest = maker.deepest.max(4);
    let node = match maker.chance.below(3) {
        0 => maker.structure(1),
        _ => maker.union(1),
    };
    finished(chance, &node)
}

/// A union with labels of all kinds: different, equal, out of their kind,
/// the default case's too.
pub fn labels(chance: &mut Chance) -> Sample {
    let before = Before::any(chance);
    let most = 1 + chance.below(6);
    let mut labels = before.labels.different(chance, most);
    let greatest = before.labels.greatest();
    let count = labels.len();
    let spoilt = chance.below(count);
    match chance.below(6) {
        0 => labels[spoilt] = labels[chance.below(count)],
        1 => labels[spoilt] = greatest.wrapping_add(1),
        2 => labels[spoilt] = chance.next(),
        3 => labels.push(labels[spoilt]),
        _ => {}
    }
    let cases = plain_cases(chance, labels);
    let default = chance.pick(&[-1, -1, spoilt as i32, count as i32 - 1]);
    let node = before.union(chance, default, cases);
    finished(chance, &node)
}

/// A union with defaults around its limits, and with counts that are none.
pub fn defaults(chance: &mut Chance) -> Sample {
    let before = Before::any(chance);
    let most = 1 + chance.below(4);
    let labels = before.labels.different(chance, most);
    let count = labels.len() as i32;
    let default = chance.pick(&[
        -2,
        -1,
        0,
        count - 1,
        count,
        count + 1,
        i32::MIN,
        i32::MIN + 1,
        i32::MAX,
        1 << 24,
        -(1 << 24),
    ]);
    let cases = cases(chance, labels);
    let mut node = before.union(chance, default, cases);
    if chance.once_in(6) {
        let said = chance.pick(&[0, 0, 1 << 31, u64::from(u32::MAX), 1]);
        put_counts(&mut node, said);
    }
    finished(chance, &node)
}

/// Puts a number in the stead of every count.
fn put_counts(node: &mut Node, said: u64) {
    for number in 0..node.types() {
        let parts = node.nth(number).and_then(Node::capsule_mut);
        for part in parts
            .map(|capsule| &mut capsule.parts[..])
            .unwrap_or(&mut [])
        {
            if let Part::Number(Meaning::Count, _, value) = part {
                *value = said;
            }
        }
    }
}

/// A union over what is mostly no discriminant, in all ways.
pub fn discriminants(chance: &mut Chance) -> Sample {
    let other = match chance.below(8) {
        0 => Node::plain(chance.pick(&[FLOAT, 7, OCTET])),
        1 => Node::string(5),
        2 => Node::objref(chance),
        3 => Node::sequence(chance, Node::plain(LONG)),
        4 => Node::array(chance, Node::plain(LONG)),
        5 => Node::of_members(chance, vec![Node::plain(LONG)]),
        6 => Node::plain(chance.pick(&CHOOSING)),
        _ => Node::enumeration(chance, 3),
    };
    let other = aliased(chance, other);
    // The struct around is kind 0, the type before the union kind 1.
    let union = 1 + other.kinds();
    let (types, discriminant) = match chance.below(4) {
        0 => (vec![Node::plain(LONG)], other),
        1 => (vec![other], Node::indirection(Aim::Kind(1))),
        2 => {
            let aim = chance.pick(&[0, 1, union, union + 1]);
            (vec![other], Node::indirection(Aim::Kind(aim)))
        }
        _ => {
            let discriminant = Node::indirection(Aim::Kind(1));
            (vec![other], Node::alias(chance, discriminant))
        }
    };
    let before = Before {
        types,
        discriminant,
        labels: Labels {
            kind: chance.pick(&[2, 3, 8, 23]),
            names: 0,
        },
    };
    let most = 1 + chance.below(3);
    let labels = before.labels.different(chance, most);
    let cases = plain_cases(chance, labels);
    let node = before.union(chance, -1, cases);
    finished(chance, &node)
}
