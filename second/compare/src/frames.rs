//! Inputs of the frame header's section.

use chance::Chance;
use second::frame::HEADER_LENGTH;

use crate::draft::{Draft, Fault, Size, FAULTS, LITTLE, MORE, OPEN_KINDS};
use crate::judge::Judge;
use crate::lines::digits_of;

/// The flags of every byte order and more flag.
const FLAGS: [u8; 4] = [0, LITTLE, MORE, LITTLE | MORE];

/// Judges all inputs of the section.
pub fn judge(judge: &mut Judge) {
    let chance = &mut Chance::new(0xF4A3E);
    header_octets(judge, chance);
    types(judge, chance);
    fault_pairs(judge, chance);
    cut_frames(judge, chance);
    sizes(judge, chance);
    longest_frames(judge, chance);
    body_lengths(judge, chance);
    request_ids(judge, chance);
    changed_octets(judge, chance);
    mutated_frames(judge, chance);
    random_octets(judge, chance);
}

/// Versions, all flags and types, with bodies around the least lengths.
fn header_octets(judge: &mut Judge, chance: &mut Chance) {
    for major in 0..=3 {
        for minor in 0..=4 {
            for flags in 0..=u8::MAX {
                for kind in 0..=9 {
                    for body in [0, 3, 4, 5, 12] {
                        let draft = Draft {
                            major,
                            ..Draft::new(minor, flags, kind, body)
                        };
                        judge.frame(&draft.octets(chance));
                    }
                }
            }
        }
    }
}

/// Every type octet.
fn types(judge: &mut Judge, chance: &mut Chance) {
    for kind in 0..=u8::MAX {
        for minor in 0..=2 {
            for flags in FLAGS {
                for body in [0, 1, 4, 8, 12] {
                    judge.frame(&Draft::new(minor, flags, kind, body).octets(chance));
                }
            }
        }
    }
}

/// Every two faults, in every version, type and order; one in four goes as a line too.
fn fault_pairs(judge: &mut Judge, chance: &mut Chance) {
    for minor in 0..=2 {
        for kind in 0..=7 {
            for flags in FLAGS {
                let body = match kind {
                    2 => 4,
                    5 | 6 => 0,
                    _ => 12,
                };
                let sound = Draft::new(minor, flags, kind, body);
                for first in FAULTS {
                    for second in FAULTS {
                        fault_pair(judge, chance, sound, [first, second]);
                    }
                }
            }
        }
    }
}

/// One frame with two faults, as octets and sometimes as a line.
fn fault_pair(judge: &mut Judge, chance: &mut Chance, mut draft: Draft, faults: [Fault; 2]) {
    for fault in faults {
        fault.plant(&mut draft);
    }
    let octets = draft.octets(chance);
    judge.frame(&octets);
    if chance.once_in(4) {
        judge.line(&digits_of(chance, &octets));
    }
}

/// The first 0 to 13 octets of frames, and of other octets.
fn cut_frames(judge: &mut Judge, chance: &mut Chance) {
    for kept in 0..=13 {
        for minor in 0..=2 {
            for kind in 0..=7 {
                for flags in FLAGS {
                    for body in [0, 1, 4] {
                        let draft = Draft {
                            kept,
                            ..Draft::new(minor, flags, kind, body)
                        };
                        judge.frame(&draft.octets(chance));
                    }
                }
            }
        }
        judge.frame(&vec![0; kept]);
        judge.frame(&vec![0xFF; kept]);
    }
}

/// Size fields around the body's length, and far from it.
fn sizes(judge: &mut Judge, chance: &mut Chance) {
    let bodies = [
        0, 1, 3, 4, 5, 7, 8, 11, 12, 13, 60, 243, 244, 245, 255, 256, 257, 300, 4_083, 4_084,
    ];
    let said = [
        Size::Off(-256),
        Size::Off(-12),
        Size::Off(-8),
        Size::Off(-1),
        Size::Off(0),
        Size::Off(1),
        Size::Off(8),
        Size::Off(12),
        Size::Off(256),
        Size::Off(1 << 16),
        Size::Off(1 << 24),
        Size::Off(1 << 31),
        Size::Exactly(0),
        Size::Exactly(u32::MAX),
        Size::Exactly(u32::MAX - 11),
        Size::Exactly(u32::MAX - 7),
        Size::WrongOrder,
    ];
    for body in bodies {
        for size in said {
            for minor in 0..=2 {
                for kind in 0..=7 {
                    for flags in FLAGS {
                        let draft = Draft {
                            size,
                            ..Draft::new(minor, flags, kind, body)
                        };
                        judge.frame(&draft.octets(chance));
                    }
                }
            }
        }
    }
}

/// Frames around the longest and beyond, sound and with a fault.
fn longest_frames(judge: &mut Judge, chance: &mut Chance) {
    for length in [4_088, 4_095, 4_096, 4_097, 4_098, 4_104, 8_192, 20_000] {
        for kind in 0..=8 {
            for flags in FLAGS {
                let sound = Draft::new(2, flags, kind, length - HEADER_LENGTH);
                judge.frame(&sound.octets(chance));
                for fault in [
                    Fault::Magic(1),
                    Fault::Minor(1),
                    Fault::Major(0),
                    Fault::Said(Size::Off(-1)),
                    Fault::Said(Size::Off(1)),
                ] {
                    let mut draft = sound;
                    fault.plant(&mut draft);
                    judge.frame(&draft.octets(chance));
                }
            }
        }
        judge.frame(&vec![0; length]);
    }
}

/// Bodies of every length up to 72, so that all remainders of 8 are met.
fn body_lengths(judge: &mut Judge, chance: &mut Chance) {
    for body in 0..=72 {
        for minor in 0..=2 {
            for kind in 0..=7 {
                for flags in FLAGS {
                    judge.frame(&Draft::new(minor, flags, kind, body).octets(chance));
                }
            }
        }
    }
}

/// Accepted messages with ids of one octet set, in either order.
fn request_ids(judge: &mut Judge, chance: &mut Chance) {
    for minor in 0..=2 {
        for kind in OPEN_KINDS.into_iter().chain([2]) {
            for flags in FLAGS {
                for place in 0..4 {
                    for octet in [0x00, 0x01, 0x7F, 0x80, 0xFF] {
                        let mut octets = Draft::new(minor, flags, kind, 4).octets(chance);
                        octets[HEADER_LENGTH..].fill(0);
                        octets[HEADER_LENGTH + place] = octet;
                        judge.frame(&octets);
                    }
                }
            }
        }
    }
}

/// Frames with each octet of the header set to every value.
fn changed_octets(judge: &mut Judge, chance: &mut Chance) {
    for draft in [
        Draft::new(0, LITTLE, 0, 6),
        Draft::new(1, 0, 2, 4),
        Draft::new(2, MORE, 7, 12),
        Draft::new(2, LITTLE, 5, 0),
    ] {
        let sound = draft.octets(chance);
        for place in 0..HEADER_LENGTH {
            for octet in 0..=u8::MAX {
                let mut octets = sound.clone();
                octets[place] = octet;
                judge.frame(&octets);
            }
        }
    }
}

/// Accepted frames, and such frames changed a little, as octets and as lines.
fn mutated_frames(judge: &mut Judge, chance: &mut Chance) {
    for _ in 0..10_000 {
        let sound = Draft::valid(chance).octets(chance);
        judge.frame(&sound);
        judge.line(&digits_of(chance, &sound));
        for _ in 0..4 {
            let octets = mutated(chance, sound.clone());
            judge.frame(&octets);
            judge.line(&digits_of(chance, &octets));
        }
    }
}

/// The octets with one to three changed, cut or lengthened.
pub fn mutated(chance: &mut Chance, mut octets: Vec<u8>) -> Vec<u8> {
    match chance.below(4) {
        0 => octets.truncate(chance.below(octets.len() + 1)),
        1 => {
            let added = 1 + chance.below(16);
            octets.extend(chance.octets(added));
        }
        _ => {
            for _ in 0..1 + chance.below(3) {
                let place = chance.below(octets.len().min(HEADER_LENGTH + 4));
                octets[place] = match chance.below(3) {
                    0 => chance.octet(),
                    1 => octets[place] ^ (1 << chance.below(8)),
                    _ => chance.below(9) as u8,
                };
            }
        }
    }
    octets
}

/// Octets by chance, some of them after a magic and a version.
fn random_octets(judge: &mut Judge, chance: &mut Chance) {
    for _ in 0..20_000 {
        let count = chance.below(40);
        let mut octets = chance.octets(count);
        judge.frame(&octets);
        for (place, octet) in b"GIOP\x01".iter().enumerate() {
            if let Some(here) = octets.get_mut(place) {
                *here = *octet;
            }
        }
        judge.frame(&octets);
    }
}
