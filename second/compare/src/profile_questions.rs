//! Lines for the proved program that ask about profiles and their components.

use chance::Chance;
use second::profile::read;

use crate::orb_profiles;
use crate::profiles::{self, GENERATORS};
use crate::questions::{digits_word, spoilt};
use crate::value_questions::{spelt, NO_NUMBERS};

/// The number from which on a generator's bodies are taken.
const FIRST: u64 = 1 << 30;

/// One in so many of a generator's bodies is asked about.
const ONE_IN: u64 = 8;

/// Questions about bodies of all generators and of the ORB, as they are and
/// changed, and lines that are nearly such.
pub fn lines(chance: &mut Chance) -> Vec<Vec<u8>> {
    let mut lines = Vec::new();
    for row in orb_profiles::rows() {
        let digits = row.digits;
        lines.push(format!("profile {digits}").into_bytes());
        lines.push(format!("profile {}", digits.to_ascii_lowercase()).into_bytes());
        for number in 0..6 {
            lines.push(format!("component {digits} {number}").into_bytes());
        }
    }
    for (index, generator) in GENERATORS.iter().enumerate() {
        for number in 0..generator.each.div_ceil(ONE_IN) {
            let body = profiles::body(index, FIRST + number);
            let changed = body.changed(chance);
            for octets in [&body.octets, &changed.octets] {
                lines.push(profile_line(chance, octets));
                lines.push(component_line(chance, octets));
            }
            if body.octets.len() < 300 {
                lines.extend(near_lines(chance, &body.octets));
            }
        }
    }
    lines
}

/// A question about a profile.
fn profile_line(chance: &mut Chance, octets: &[u8]) -> Vec<u8> {
    [b"profile", &digits_word(chance, octets)[..]].join(&b' ')
}

/// A question about a component, by a number around their count.
fn component_line(chance: &mut Chance, octets: &[u8]) -> Vec<u8> {
    let count = match read(octets) {
        Ok(profile) => profile.components as usize,
        Err(_) => chance.below(4),
    };
    let any = chance.below(count + 3);
    let number = chance.pick(&[0, count.saturating_sub(1), count, any]);
    let number = spelt(chance, number);
    [
        b"component",
        &digits_word(chance, octets)[..],
        number.as_bytes(),
    ]
    .join(&b' ')
}

/// Lines that are mostly no question: a number that is none, a word too few or too
/// many, or anything else.
fn near_lines(chance: &mut Chance, octets: &[u8]) -> Vec<Vec<u8>> {
    let profile = profile_line(chance, octets);
    let component = component_line(chance, octets);
    let mut words: Vec<&[u8]> = component.split(|&c| c == b' ').collect();
    match chance.below(3) {
        0 => words[2] = chance.pick(&NO_NUMBERS).as_bytes(),
        1 => drop(words.remove(chance.below(words.len()))),
        _ => {
            let place = chance.below(words.len() + 1);
            words.insert(place, chance.pick(&["", "", "0", "big", "-"]).as_bytes());
        }
    }
    vec![
        words.join(&b' '),
        spoilt(chance, profile),
        spoilt(chance, component),
    ]
}
