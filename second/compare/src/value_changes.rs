//! Values changed a little.

use chance::Chance;
use second::primitive::{ulong, ulong_octets};
use second::value::LONGEST_VALUE;

use crate::fill::{Mark, Spot, Value};
use crate::mutations::mutated;
use crate::values::{any_start, Question};

/// The question with a few changes, mostly one.
pub fn changed(chance: &mut Chance, question: &Question) -> Question {
    let mut changed = question.clone();
    change(chance, &mut changed);
    if chance.once_in(8) {
        change(chance, &mut changed);
    }
    changed
}

/// Changes something: what can be made a fault, octets, the length, a byte
/// order, the start, the type.
fn change(chance: &mut Chance, question: &mut Question) {
    let value = &mut question.value;
    match chance.below(32) {
        0 => value.little = !value.little,
        1 => question.typecode.little = !question.typecode.little,
        2 => value.start = any_start(chance),
        3 => question.typecode = mutated(chance, &question.typecode),
        4 if chance.once_in(8) => {
            let length = chance.pick(&[LONGEST_VALUE, LONGEST_VALUE + 1]);
            value.octets.resize(length, 0);
        }
        4..=6 => value.octets.truncate(chance.below(value.octets.len() + 1)),
        7 => {
            let count = 1 + chance.below(9);
            chance.add_octets(&mut value.octets, count);
        }
        8 => {
            let place = chance.below(value.octets.len() + 1);
            value.octets.insert(place, chance.octet());
        }
        9 if !value.octets.is_empty() => {
            value.octets.remove(chance.below(value.octets.len()));
        }
        10..=14 => change_octet(chance, &mut value.octets),
        _ if value.marks.is_empty() => change_octet(chance, &mut value.octets),
        _ => change_mark(chance, value),
    }
}

/// Changes one octet.
fn change_octet(chance: &mut Chance, octets: &mut [u8]) {
    if octets.is_empty() {
        return;
    }
    let place = chance.below(octets.len());
    octets[place] = match chance.below(3) {
        0 => octets[place] ^ (1 << chance.below(8)),
        1 => chance.pick(&[0, 1, 2, 0xFF]),
        _ => chance.octet(),
    };
}

/// Makes something a fault, or nearly.
fn change_mark(chance: &mut Chance, value: &mut Value) {
    let Mark { place, spot } = chance.pick(&value.marks);
    let any = chance.octet();
    match spot {
        Spot::Zero => put(value, place, &[any]),
        Spot::Boolean => {
            let octet = chance.pick(&[0, 1, 2, 3, 0x80, 0xFF, any]);
            put(value, place, &[octet]);
        }
        Spot::Count(bound) | Spot::Length(bound) => {
            let near = [
                bound,
                bound.wrapping_add(1),
                bound.wrapping_add(2),
                bound.wrapping_sub(1),
            ];
            change_number(chance, value, place, near);
        }
        Spot::Enum(highest) => {
            let over = highest.wrapping_add(1);
            change_number(
                chance,
                value,
                place,
                [highest, over, over, over.wrapping_add(1)],
            );
        }
        Spot::Run => change_number(chance, value, place, [1 << 14, 1 << 24, 8, 1]),
    }
}

/// Changes a number of four octets: to one of these, by one, to a huge one, or
/// to its octets in the other order.
fn change_number(chance: &mut Chance, value: &mut Value, place: usize, near: [u32; 4]) {
    let Some(&octets) = value.octets[place.min(value.octets.len())..].first_chunk::<4>() else {
        return;
    };
    let number = ulong(octets, value.little);
    let other = match chance.below(10) {
        0 => 0,
        1 => number.swap_bytes(),
        2 | 3 => number.wrapping_add(1),
        4 => number.wrapping_sub(1),
        5 => chance.pick(&[u32::MAX, u32::MAX - 1, 1 << 31, 1 << 16, 16_384]),
        _ => chance.pick(&near),
    };
    put(value, place, &ulong_octets(other, value.little));
}

/// Puts octets at a place, if they are all there.
fn put(value: &mut Value, place: usize, octets: &[u8]) {
    if let Some(found) = value.octets.get_mut(place..place + octets.len()) {
        found.copy_from_slice(octets);
    }
}
