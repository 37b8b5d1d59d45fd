//! Faults to plant in TypeCodes before they are octets.

use chance::Chance;
use second::typecode::{EXCEPTION, INDIRECTION, NULL, VOID};

use crate::draft::Size;
use crate::tree::{After, Aim, Capsule, Meaning, Node, Part, Text};

/// Numbers that are no kind's, some of them near one or one's octets in the
/// other order.
const UNLISTED: [u32; 16] = [
    11,
    12,
    13,
    25,
    26,
    27,
    28,
    29,
    30,
    31,
    32,
    256,
    3 << 24,
    15 << 24,
    1 << 31,
    u32::MAX - 1,
];

/// Offsets that lead to no kind, or to one by chance.
const OFFSETS: [i32; 14] = [
    0,
    -4,
    -8,
    4,
    8,
    -12,
    -16,
    -1,
    -3,
    1,
    i32::MIN,
    i32::MIN + 1,
    i32::MAX,
    i32::MAX - 3,
];

/// Plants one fault somewhere in a type. Some are faults in some types only.
pub fn plant(chance: &mut Chance, top: &mut Node) {
    let kinds = top.kinds();
    let number = chance.below(top.types());
    if let Some(node) = top.nth(number) {
        spoil(chance, node, kinds);
    }
}

/// Plants one fault in this type of one with so many kinds.
fn spoil(chance: &mut Chance, node: &mut Node, kinds: usize) {
    match chance.below(12) {
        0 => node.kind = any_kind(chance),
        1 => *node = Node::plain(chance.pick(&[NULL, VOID, EXCEPTION])),
        2 => *node = Node::with_members(chance, EXCEPTION, Vec::new()),
        3 | 4 => *node = Node::indirection(any_aim(chance, kinds)),
        _ => match &mut node.after {
            After::Nothing => node.kind = any_kind(chance),
            After::Bound(_) => node.after = After::Nothing,
            After::Offset(aim) => *aim = any_aim(chance, kinds),
            After::Capsule(capsule) => spoil_capsule(chance, capsule),
        },
    }
}

/// A number for a kind: one that is not listed, or any of those that are.
pub fn any_kind(chance: &mut Chance) -> u32 {
    match chance.below(5) {
        0..=2 => chance.pick(&UNLISTED),
        3 => chance.below(25) as u32,
        _ => chance.pick(&[INDIRECTION, NULL, VOID, EXCEPTION]),
    }
}

/// An aim in a type of so many kinds: at any of these or near it, at an
/// indirection, before the start, after the end, at any place.
pub fn any_aim(chance: &mut Chance, kinds: usize) -> Aim {
    let number = chance.below(kinds + 1);
    match chance.below(8) {
        0 | 1 => Aim::Kind(number),
        2 => Aim::Near(number, chance.pick(&[-4, -1, 1, 2, 3, 4, 8, 9])),
        3 => Aim::Indirection(chance.below(4)),
        4 => Aim::Place(4 * chance.below(60) as i64),
        5 => Aim::Place(chance.pick(&[0, -1, -4, -8, 16_380, 16_384, 1 << 16, 1 << 31])),
        _ => Aim::Offset(chance.pick(&OFFSETS)),
    }
}

/// Plants one fault in an encapsulation: in its length, its order octet, or
/// one of its parameters.
fn spoil_capsule(chance: &mut Chance, capsule: &mut Capsule) {
    let part = chance.below(capsule.parts.len().max(1));
    match chance.below(10) {
        0 => capsule.length = any_length(chance),
        1 => {
            capsule.order = match chance.below(3) {
                0 => capsule.order ^ 1,
                1 => 2,
                _ => chance.octet(),
            }
        }
        2 => {
            let width = chance.pick(&[1, 2, 4, 8]);
            let junk = Part::Number(Meaning::Junk, width, chance.next());
            let place = chance.pick(&[part, capsule.parts.len(), capsule.parts.len()]);
            capsule.parts.insert(place, junk);
        }
        3 if !capsule.parts.is_empty() => drop(capsule.parts.remove(part)),
        4 => {
            if let Some(copy) = capsule.parts.get(part).cloned() {
                capsule.parts.insert(part, copy);
            }
        }
        _ => spoil_part(chance, &mut capsule.parts, part),
    }
}

/// A length that is not the true one.
fn any_length(chance: &mut Chance) -> Size {
    match chance.below(6) {
        0 => Size::Exactly(0),
        1 => Size::Exactly(chance.pick(&[1, 2, 4, 16_384, 1 << 31, u32::MAX, u32::MAX - 3])),
        2 => Size::WrongOrder,
        _ => Size::Off(chance.pick(&[-8, -4, -3, -2, -1, 1, 2, 3, 4, 8])),
    }
}

/// Plants a fault in a text or a number near this parameter.
fn spoil_part(chance: &mut Chance, parts: &mut [Part], from: usize) {
    let earlier = any_label(chance, parts);
    let count = parts.len();
    for step in 0..count {
        match &mut parts[(from + step) % count] {
            Part::Text(text) => return spoil_text(chance, text),
            Part::Number(meaning, _, value) => {
                *value = any_number(chance, *meaning, *value, earlier);
                return;
            }
            Part::Type(_) => {}
        }
    }
}

/// One of the labels.
fn any_label(chance: &mut Chance, parts: &[Part]) -> Option<u64> {
    let mut labels = Vec::new();
    for part in parts {
        if let Part::Number(Meaning::Label, _, value) = part {
            labels.push(*value);
        }
    }
    match labels.is_empty() {
        true => None,
        false => Some(chance.pick(&labels)),
    }
}

/// A number in the stead of another of this meaning; a label is sometimes
/// another case's.
fn any_number(chance: &mut Chance, meaning: Meaning, value: u64, label: Option<u64>) -> u64 {
    let near = match chance.once_in(2) {
        true => value.wrapping_add(1),
        false => value.wrapping_sub(1),
    };
    match meaning {
        Meaning::Count => match chance.below(3) {
            0 => 0,
            1 => near,
            _ => chance.pick(&[1 << 16, 1 << 31, u64::from(u32::MAX)]),
        },
        Meaning::Length => chance.pick(&[0, 0, 0, near]),
        Meaning::Bound => chance.pick(&[0, near, u64::from(u32::MAX)]),
        Meaning::Default => default_octets(chance.pick(&[-2, -1, 0, 1, 2, 9, i32::MIN, i32::MAX])),
        Meaning::Label => match (chance.below(3), label) {
            (0, Some(label)) => label,
            (1, _) => chance.next(),
            _ => near,
        },
        Meaning::Junk => chance.next(),
    }
}

/// A default as a number of four octets.
fn default_octets(default: i32) -> u64 {
    u64::from(default as u32)
}

/// Plants a fault in a text: in its length or its zeros.
pub fn spoil_text(chance: &mut Chance, text: &mut Text) {
    let last = text.octets.len().saturating_sub(1);
    match chance.below(5) {
        0 => {
            text.octets.clear();
            text.length = Size::Exactly(0);
        }
        1 => text.octets.iter_mut().skip(last).for_each(|zero| *zero = 7),
        2 => {
            let place = chance.below(last + 1);
            text.octets.insert(place, 0);
        }
        3 => text.octets.push(0),
        _ => text.length = any_length(chance),
    }
}
