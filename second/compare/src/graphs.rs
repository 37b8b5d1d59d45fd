//! Types in which indirections matter: what they aim at, and loops.

use chance::Chance;
use second::typecode::{EXCEPTION, LONG};

use crate::layout::Sample;
use crate::maker::Maker;
use crate::planted::any_aim;
use crate::tree::{Aim, Choice, Node};
use crate::types::finished;

/// What a type can be put into.
#[derive(Clone, Copy, PartialEq, Eq)]
pub enum Wrapper {
    /// An alias.
    Alias,
    /// An array.
    Array,
    /// A sequence.
    Sequence,
    /// A struct with this member only.
    Struct,
    /// A union with this case only.
    Union,
    /// An exception with this member only.
    Exception,
}

/// The wrappers that a type inside another can have.
pub const WRAPPERS: [Wrapper; 5] = [
    Wrapper::Alias,
    Wrapper::Array,
    Wrapper::Sequence,
    Wrapper::Struct,
    Wrapper::Union,
];

impl Wrapper {
    /// The kinds written before the type that is put into it.
    fn before(self) -> usize {
        match self {
            Wrapper::Union => 2,
            _ => 1,
        }
    }

    /// Puts a type into it.
    pub fn wrap(self, chance: &mut Chance, node: Node) -> Node {
        match self {
            Wrapper::Alias => Node::alias(chance, node),
            Wrapper::Array => Node::array(chance, node),
            Wrapper::Sequence => Node::sequence(chance, node),
            Wrapper::Struct => Node::of_members(chance, vec![node]),
            Wrapper::Union => union_of(chance, vec![node]),
            Wrapper::Exception => Node::with_members(chance, EXCEPTION, vec![node]),
        }
    }
}

/// A union over a long, its kind the first inside, with these cases.
fn union_of(chance: &mut Chance, cases: Vec<Node>) -> Node {
    let labels = (0..).map(|label| label * 3);
    let choice = Choice {
        discriminant: Node::plain(LONG),
        width: 4,
        default: -1,
    };
    Node::union(chance, choice, labels.zip(cases).collect())
}

/// Some wrappers, at most so many.
pub fn some_wrappers(chance: &mut Chance, most: usize) -> Vec<Wrapper> {
    let count = chance.below(most + 1);
    (0..count).map(|_| chance.pick(&WRAPPERS)).collect()
}

/// The kinds written before a type that is put into all of these.
pub fn before(wrappers: &[Wrapper]) -> usize {
    wrappers.iter().map(|wrapper| wrapper.before()).sum()
}

/// Puts a type into all of these, the first outermost.
pub fn wrap_all(chance: &mut Chance, wrappers: &[Wrapper], node: Node) -> Node {
    let wrap = |node, wrapper: &Wrapper| wrapper.wrap(chance, node);
    wrappers.iter().rev().fold(node, wrap)
}

/// A struct with many indirections, mostly accepted.
pub fn indirections(chance: &mut Chance) -> Sample {
    let mut maker = Maker::new(chance);
    maker.pointers = 2;
    maker.members = 6;
    let node = maker.structure(1);
    finished(chance, &node)
}

/// A type of which some indirections, or other types, are indirections that
/// aim anywhere.
pub fn aims(chance: &mut Chance) -> Sample {
    let mut maker = Maker::new(chance);
    maker.pointers = 3;
    maker.members = 4;
    let mut node = maker.compound(1);
    for _ in 0..1 + chance.below(2) {
        let kinds = node.kinds();
        let number = chance.below(node.types());
        if let Some(inner) = node.nth(number.max(1)) {
            let aim = match chance.below(2) {
                0 => Aim::Kind(chance.below(kinds)),
                _ => any_aim(chance, kinds),
            };
            *inner = Node::indirection(aim);
        }
    }
    finished(chance, &node)
}

/// Types inside one another, with an indirection to one of them innermost.
pub fn open_targets(chance: &mut Chance) -> Sample {
    let mut wrappers = some_wrappers(chance, 5);
    if chance.once_in(4) {
        wrappers.insert(0, Wrapper::Exception);
    }
    let outer = before(&wrappers);
    let aim = match chance.below(8) {
        0 => any_aim(chance, outer),
        _ => Aim::Kind(chance.below(outer + 1)),
    };
    let node = wrap_all(chance, &wrappers, Node::indirection(aim));
    finished(chance, &node)
}

/// An indirection at the top.
pub fn indirection_alone(chance: &mut Chance) -> Sample {
    let aim = any_aim(chance, 0);
    finished(chance, &Node::indirection(aim))
}

/// A type with many indirections to what is open.
pub fn loops(chance: &mut Chance) -> Sample {
    let mut maker = Maker::new(chance);
    maker.loops = maker.chance.pick(&[1, 2, 3, 8]);
    maker.pointers = maker.chance.pick(&[2, 3]);
    maker.members = maker.members.max(2);
    let node = maker.compound(1);
    finished(chance, &node)
}

/// A struct or union of these.
fn either(chance: &mut Chance, members: Vec<Node>) -> Node {
    match chance.once_in(2) {
        true => Node::of_members(chance, members),
        false => union_of(chance, members),
    }
}

/// Loops that are not reached from the top, or inside a sequence: a type put
/// into others, of which one at least is a sequence.
pub fn loops_aside(chance: &mut Chance) -> Sample {
    let mut outer = some_wrappers(chance, 2);
    let place = chance.below(outer.len() + 1);
    outer.insert(place, Wrapper::Sequence);
    let inner = some_wrappers(chance, 3);
    let first = before(&outer);
    let target = Node::indirection(Aim::Kind(first));
    let looping = wrap_all(chance, &inner, target);
    let node = either(chance, vec![looping]);
    let node = wrap_all(chance, &outer, node);
    finished(chance, &node)
}

/// 01's slip and its relatives: A holds B, mostly inside a sequence, B an
/// indirection to A, and A another one to B, each inside others or not.
pub fn slip(chance: &mut Chance) -> Sample {
    let outer = some_wrappers(chance, 2);
    let a = before(&outer);
    let mut to_b = some_wrappers(chance, 2);
    if !chance.once_in(4) {
        let place = chance.below(to_b.len() + 1);
        to_b.insert(place, Wrapper::Sequence);
    }
    let to_a = some_wrappers(chance, 2);
    let again = some_wrappers(chance, 2);
    let as_union = chance.once_in(3);
    let b = a + if as_union { 2 } else { 1 } + before(&to_b);
    let back = wrap_all(chance, &to_a, Node::indirection(Aim::Kind(a)));
    let node_b = either(chance, vec![back]);
    let first = wrap_all(chance, &to_b, node_b);
    let second = wrap_all(chance, &again, Node::indirection(Aim::Kind(b)));
    let node = match as_union {
        true => union_of(chance, vec![first, second]),
        false => Node::of_members(chance, vec![first, second]),
    };
    let node = wrap_all(chance, &outer, node);
    finished(chance, &node)
}

/// A struct whose members are sequences of links, each link an indirection to
/// the link before, the first one to the struct. The last link is in no
/// sequence and closes the ring, unless one link holds a sequence.
pub fn rings(chance: &mut Chance) -> Sample {
    let links = 1 + chance.below(28);
    let broken = chance.below(2 * links);
    let mut members = Vec::new();
    let mut kinds = 1;
    let mut before = 0;
    for number in 0..links {
        let to_before = Node::indirection(Aim::Kind(before));
        let wrapper = match number == broken {
            true => Wrapper::Sequence,
            false => chance.pick(&[
                Wrapper::Struct,
                Wrapper::Struct,
                Wrapper::Array,
                Wrapper::Alias,
            ]),
        };
        let link = wrapper.wrap(chance, to_before);
        let (member, place) = match number == links - 1 {
            true => (link, kinds),
            false => (Node::sequence(chance, link), kinds + 1),
        };
        before = place;
        kinds += member.kinds();
        members.push(member);
    }
    let node = Node::of_members(chance, members);
    finished(chance, &node)
}
