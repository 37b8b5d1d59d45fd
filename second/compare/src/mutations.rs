//! Laid-out TypeCodes changed a little.

use chance::Chance;
use second::primitive::{ulong, ulong_octets};

use crate::layout::{Field, Sample};

/// One octet more than the most that are lent.
const TOO_MANY: usize = second::typecode::LONGEST_TYPE + 1;

/// The sample with a few changes, mostly one.
pub fn mutated(chance: &mut Chance, sample: &Sample) -> Sample {
    let mut mutated = sample.clone();
    change(chance, &mut mutated);
    if chance.once_in(8) {
        change(chance, &mut mutated);
    }
    mutated
}

/// Changes something: an octet, a number of four octets, the length, the byte
/// order at the top.
fn change(chance: &mut Chance, sample: &mut Sample) {
    match chance.below(32) {
        0 => sample.little = !sample.little,
        1 => sample.octets.resize(TOO_MANY + chance.below(3), 0),
        2..=7 => cut(chance, &mut sample.octets),
        8..=9 => insert(chance, &mut sample.octets),
        10..=11 => remove(chance, &mut sample.octets),
        12..=22 => change_number(chance, sample),
        _ => change_octet(chance, &mut sample.octets),
    }
}

/// Cuts the octets anywhere.
fn cut(chance: &mut Chance, octets: &mut Vec<u8>) {
    octets.truncate(chance.below(octets.len() + 1));
}

/// Inserts an octet anywhere.
fn insert(chance: &mut Chance, octets: &mut Vec<u8>) {
    let place = chance.below(octets.len() + 1);
    let octet = any_octet(chance);
    octets.insert(place, octet);
}

/// Removes an octet from anywhere.
fn remove(chance: &mut Chance, octets: &mut Vec<u8>) {
    if !octets.is_empty() {
        octets.remove(chance.below(octets.len()));
    }
}

/// Changes one octet.
fn change_octet(chance: &mut Chance, octets: &mut [u8]) {
    if octets.is_empty() {
        return;
    }
    let place = chance.below(octets.len());
    octets[place] = match chance.below(3) {
        0 => octets[place] ^ (1 << chance.below(8)),
        _ => any_octet(chance),
    };
}

/// An octet, mostly one that is found in kinds and lengths.
fn any_octet(chance: &mut Chance) -> u8 {
    match chance.below(3) {
        0 => chance.octet(),
        1 => chance.pick(&[0, 0, 1, 0xFF]),
        _ => chance.below(26) as u8,
    }
}

/// Changes a kind, length, count, bound or offset, mostly by one.
fn change_number(chance: &mut Chance, sample: &mut Sample) {
    if sample.fields.is_empty() {
        return change_octet(chance, &mut sample.octets);
    }
    let Field { place, little } = chance.pick(&sample.fields);
    let Some(&octets) = sample.octets[place.min(sample.octets.len())..].first_chunk::<4>() else {
        return;
    };
    let number = ulong(octets, little);
    let other = match chance.below(12) {
        0 => 0,
        1 => u32::MAX,
        2 => number.swap_bytes(),
        3 => number.wrapping_add(4),
        4 => number.wrapping_sub(4),
        5 => chance.below(26) as u32,
        6 => number ^ (1 << chance.below(32)),
        7..=9 => number.wrapping_add(1),
        _ => number.wrapping_sub(1),
    };
    sample.octets[place..place + 4].copy_from_slice(&ulong_octets(other, little));
}
