//! Inputs of the section on the archive's lines.

use chance::Chance;
use second::hexline::{LONGEST_LINE, LONGEST_MESSAGE};

use crate::judge::Judge;

/// Judges all inputs of the section.
pub fn judge(judge: &mut Judge) {
    let chance = &mut Chance::new(0x11_7E5);
    every_character(judge, chance);
    line_lengths(judge, chance);
    over_long_lines(judge, chance);
    rooms(judge, chance);
    spoilt_lines(judge, chance);
    encode_every_octet(judge);
    encode_runs(judge, chance);
}

/// The digits of the octets, each letter in either case.
pub fn digits_of(chance: &mut Chance, octets: &[u8]) -> Vec<u8> {
    let mut digits = second::encode(octets);
    for digit in &mut digits {
        if chance.once_in(2) {
            digit.make_ascii_lowercase();
        }
    }
    digits
}

/// So many digits by chance, of either case.
fn digits(chance: &mut Chance, count: usize) -> Vec<u8> {
    let octets = chance.octets(count.div_ceil(2));
    let mut digits = digits_of(chance, &octets);
    digits.truncate(count);
    digits
}

/// Rooms around so many octets: none, one too short, exact and larger.
fn rooms_around(count: usize) -> [usize; 5] {
    [0, count.saturating_sub(1), count, count + 1, count + 40]
}

/// A line in all rooms around its octets, and the whole way.
fn line_in_rooms(judge: &mut Judge, line: &[u8]) {
    for room in rooms_around(line.len() / 2) {
        judge.decode(line, room);
    }
    judge.decode(line, LONGEST_MESSAGE);
    judge.line(line);
}

/// Every character at the first, a middle and the last place of lines.
fn every_character(judge: &mut Judge, chance: &mut Chance) {
    for length in [1, 2, 3, 4, 24, 25, 64] {
        let line = digits(chance, length);
        for place in [0, length / 2, length - 1] {
            for character in 0..=u8::MAX {
                let mut line = line.clone();
                line[place] = character;
                line_in_rooms(judge, &line);
            }
        }
    }
    for length in LONGEST_LINE - 2..=LONGEST_LINE + 2 {
        let line = digits(chance, length);
        for place in [0, length / 2, length - 1] {
            for character in 0..=u8::MAX {
                let mut line = line.clone();
                line[place] = character;
                judge.decode(&line, LONGEST_MESSAGE + chance.below(2));
            }
        }
    }
}

/// Digits of every count up to 300 and around the limits.
fn line_lengths(judge: &mut Judge, chance: &mut Chance) {
    let limits = LONGEST_LINE - 6..=LONGEST_LINE + 6;
    for length in (0..=300).chain(4_090..=4_102).chain(limits) {
        for _ in 0..4 {
            let line = digits(chance, length);
            line_in_rooms(judge, &line);
            line_in_rooms(judge, &line.to_ascii_uppercase());
            line_in_rooms(judge, &line.to_ascii_lowercase());
        }
    }
}

/// Lines beyond the longest, of digits and of other characters.
fn over_long_lines(judge: &mut Judge, chance: &mut Chance) {
    for length in [
        8_192, 8_193, 8_194, 8_195, 12_288, 16_384, 16_386, 65_536, 65_538, 100_001,
    ] {
        for character in [b'0', b'f', b'g', b' ', b'\r', 0x00, 0x80, 0xC3, 0xFF] {
            line_in_rooms(judge, &vec![character; length]);
        }
        let line = chance.octets(length);
        line_in_rooms(judge, &line);
    }
}

/// Lines of digits in outputs of all kinds of room.
fn rooms(judge: &mut Judge, chance: &mut Chance) {
    for _ in 0..8_000 {
        let length = 2 * chance.below(200);
        let line = digits(chance, length);
        line_in_rooms(judge, &line);
        judge.decode(&line, chance.below(length / 2 + 8));
    }
    for _ in 0..200 {
        let length = 2 * chance.below(LONGEST_MESSAGE + 4);
        let line = digits(chance, length);
        line_in_rooms(judge, &line);
    }
}

/// Lines with one to three characters that are no digits, or one too few.
fn spoilt_lines(judge: &mut Judge, chance: &mut Chance) {
    let near_digits = b"/:@G`g \t\r\n-+xX\0\x80\xB0\xC1\xFF";
    for _ in 0..6_000 {
        let length = 1 + chance.below(120);
        let mut line = digits(chance, length);
        for _ in 0..1 + chance.below(3) {
            let place = chance.below(length);
            line[place] = chance.pick(near_digits);
        }
        line_in_rooms(judge, &line);
        line.pop();
        judge.decode(&line, chance.below(64));
    }
}

/// Octets into all rooms around their digits, and there and back.
fn encode_in_rooms(judge: &mut Judge, octets: &[u8]) {
    for room in rooms_around(2 * octets.len()) {
        judge.encode(octets, room);
    }
    judge.encode(octets, octets.len());
    judge.round_trip(octets);
}

/// Every octet alone, every two octets of some, and all at once.
fn encode_every_octet(judge: &mut Judge) {
    let all: Vec<u8> = (0..=u8::MAX).collect();
    encode_in_rooms(judge, &[]);
    encode_in_rooms(judge, &all);
    for &first in &all {
        encode_in_rooms(judge, &[first]);
        for second in [0x00, 0x09, 0x0A, 0x90, 0xA0, 0xFF] {
            encode_in_rooms(judge, &[first, second]);
        }
    }
}

/// Runs of octets: short ones, up to 16,384, and a few beyond.
fn encode_runs(judge: &mut Judge, chance: &mut Chance) {
    let long = [
        4_095, 4_096, 4_097, 8_192, 16_383, 16_384, 32_767, 32_768, 32_769, 100_000,
    ];
    for count in (0..=300).chain(long) {
        let octets = chance.octets(count);
        encode_in_rooms(judge, &octets);
    }
    for _ in 0..300 {
        let count = chance.below(16_385);
        let octets = chance.octets(count);
        encode_in_rooms(judge, &octets);
    }
}
