//! Inputs of the section on IIOP profile bodies.

use chance::Chance;
use second::profile::{self, LONGEST_PROFILE};

use crate::bodies::{any_text, components_of, cuts, generator, Body, Generator, Outline};
use crate::judge::Judge;

/// Bodies of at most so many octets are cut at every octet.
const SHORT: usize = 40;

/// How often a body is changed anywhere.
const CHANGES: usize = 8;

/// All generators.
pub const GENERATORS: [Generator; 10] = [
    generator("any", any, 1_600),
    generator("versions", versions, 1_000),
    generator("hosts", hosts, 900),
    generator("components", components, 600),
    generator("extra", extra, 900),
    generator("after the key", after_key, 1_000),
    generator("lists", lists, 400),
    generator("noise", noise, 1_200),
    generator("16,384 octets", lengths, 400),
    generator("many components", many_components, 40),
];

/// A generator's body of this number.
pub fn body(generator: usize, number: u64) -> Body {
    (GENERATORS[generator].make)(&mut chance(generator, number))
}

/// What a generator's body of this number, and its changes, are made by.
fn chance(generator: usize, number: u64) -> Chance {
    Chance::new((0xB << 48) + ((generator as u64) << 32) + number)
}

/// Judges every head, and the bodies of every generator as they are, changed and
/// cut.
pub fn judge(judge: &mut Judge) {
    heads(judge);
    for (index, generator) in GENERATORS.iter().enumerate() {
        for number in 0..generator.each {
            let chance = &mut chance(index, number);
            let body = (generator.make)(chance);
            let name = format!("profile ({}, sample {number}", generator.name);
            one(judge, chance, &name, &body);
        }
    }
}

/// Judges every order octet, major and minor version, whole and cut.
fn heads(judge: &mut Judge) {
    let chance = &mut Chance::new(0x0_11EAD);
    for octet in 0..=u8::MAX {
        for (order, major, minor) in [(octet, 1, 1), (0, octet, 1), (1, 1, octet)] {
            let outline = Outline {
                order,
                major,
                minor,
                ..Outline::by_chance(chance)
            };
            let body = outline.laid_out(chance);
            for kept in [0, 1, 2, 3, 4, body.octets.len()] {
                both(judge, chance, "profile (heads)", &body.octets[..kept]);
            }
        }
    }
}

/// Judges one body, as it is, changed and cut. The name has no closing bracket
/// yet.
pub fn one(judge: &mut Judge, chance: &mut Chance, name: &str, body: &Body) {
    let whole = format!("{name})");
    judge.profile(&whole, &body.octets);
    for number in numbers_around(chance, &body.octets) {
        judge.component(&whole, &body.octets, number);
    }
    let name_changed = format!("{name}, a number changed)");
    body.with_other_numbers(chance, |chance, octets| {
        both(judge, chance, &name_changed, octets);
    });
    for change in 0..CHANGES {
        let name = format!("{name}, change {change})");
        let changed = body.changed(chance);
        both(judge, chance, &name, &changed.octets);
    }
    for kept in cuts(chance, body.octets.len(), SHORT) {
        // The rest stays where it is, so that reading too far would show.
        let name = format!("{name}, cut to {kept})");
        both(judge, chance, &name, &body.octets[..kept]);
    }
}

/// Judges a body, and one of its components.
fn both(judge: &mut Judge, chance: &mut Chance, name: &str, octets: &[u8]) {
    judge.profile(name, octets);
    let numbers = numbers_around(chance, octets);
    let number = chance.pick(&numbers);
    judge.component(name, octets, number);
}

/// Numbers around the count of a body's components, and far above.
fn numbers_around(chance: &mut Chance, octets: &[u8]) -> [u64; 5] {
    let count = match profile::read(octets) {
        Ok(profile) => u64::from(profile.components),
        Err(_) => chance.below(4) as u64,
    };
    numbers_near(chance, count)
}

/// Numbers around a count, and far above.
pub fn numbers_near(chance: &mut Chance, count: u64) -> [u64; 5] {
    let any = chance.next();
    let far = [
        count + 1,
        1 << 32,
        (1 << 32) + count / 2,
        1 << 63,
        u64::MAX,
        any,
    ];
    [
        0,
        chance.below(count as usize + 1) as u64,
        count.saturating_sub(1),
        count,
        chance.pick(&far),
    ]
}

/// A sound body.
fn any(chance: &mut Chance) -> Body {
    Outline::by_chance(chance).laid_out(chance)
}

/// Orders and versions that there are, or are not.
fn versions(chance: &mut Chance) -> Body {
    let any = chance.octet();
    let outline = Outline {
        order: chance.pick(&[0, 0, 1, 1, 2, 3, 0x80, 0xFF, any]),
        major: chance.pick(&[1, 1, 1, 1, 0, 2, 3, 0xFF, any]),
        minor: chance.pick(&[0, 1, 2, 3, 4, 0x80, 0xFF, any]),
        ..Outline::by_chance(chance)
    };
    outline.laid_out(chance)
}

/// Hosts of every sort.
fn hosts(chance: &mut Chance) -> Body {
    let host = any_text(chance);
    let outline = Outline {
        host,
        ..Outline::by_chance(chance)
    };
    outline.laid_out(chance)
}

/// Up to forty components, some of them with many octets.
fn components(chance: &mut Chance) -> Body {
    let count = chance.pick(&[1, 2, 3, 5, 8, 40]);
    let below = chance.pick(&[1, 2, 5, 9, 60]);
    let components = components_of(chance, count, below);
    Outline::listed(chance, components).laid_out(chance)
}

/// Octets after the components, of every small number, after gaps of every size.
fn extra(chance: &mut Chance) -> Body {
    let count = chance.below(3);
    let components = components_of(chance, count, 8);
    let mut outline = Outline::listed(chance, components);
    let length = chance.below(18);
    outline.extra = match chance.once_in(3) {
        true => vec![0; length],
        false => chance.octets(length),
    };
    outline.laid_out(chance)
}

/// Bodies of minor version 0 with octets after the key or with none.
fn after_key(chance: &mut Chance) -> Body {
    let mut outline = Outline::by_chance(chance);
    let length = chance.pick(&[0, 0, 1, 1, 2, 3, 4, 5, 8, 12]);
    outline.minor = 0;
    outline.components = None;
    outline.extra = match chance.once_in(2) {
        true => vec![0; length],
        false => chance.octets(length),
    };
    outline.laid_out(chance)
}

/// A list of components where the version has none, or none where it has one.
fn lists(chance: &mut Chance) -> Body {
    let mut outline = Outline::by_chance(chance);
    let count = chance.below(3);
    outline.components = match outline.minor {
        0 => Some(components_of(chance, count, 9)),
        _ => None,
    };
    let length = chance.below(9);
    outline.extra = chance.octets(length);
    outline.laid_out(chance)
}

/// Octets by chance, mostly after a head that there can be and mostly small.
fn noise(chance: &mut Chance) -> Body {
    let head = [chance.below(2) as u8, 1, chance.below(3) as u8];
    let mut octets = match chance.once_in(6) {
        true => Vec::new(),
        false => head.to_vec(),
    };
    for _ in 0..chance.below(60) {
        let any = chance.octet();
        octets.push(chance.pick(&[0, 0, 0, 0, 0, 1, 1, 2, 4, any]));
    }
    Body::of_octets(octets, head[0] == 1)
}

/// About 16,384 octets or far more: one of the parts has as many as are missing.
fn lengths(chance: &mut Chance) -> Body {
    let more = chance.pick(&[0, 0, 1, 2, 3, 4, 4, 5, 5, 6, 9, 5_000, 70_000]);
    let length = LONGEST_PROFILE - 4 + more;
    let count = 1 + chance.below(3);
    let components = components_of(chance, count, 9);
    let mut outline = match chance.once_in(4) {
        true => Outline::by_chance(chance),
        false => Outline::listed(chance, components),
    };
    let seed = chance.next();
    let short = outline.laid_out(&mut Chance::new(seed)).octets.len();
    let mut missing = Vec::new();
    chance.add_octets(&mut missing, length - short);
    match (
        chance.below(4),
        outline.components.as_mut().and_then(|all| all.last_mut()),
    ) {
        (0, _) => {
            missing.iter_mut().for_each(|octet| *octet |= 1);
            outline.host.splice(0..0, missing);
        }
        (1, _) => outline.key.extend(missing),
        (2, Some((_, octets))) => octets.extend(missing),
        _ => outline.extra = missing,
    }
    let mut body = outline.laid_out(&mut Chance::new(seed));
    if chance.once_in(2) {
        // The gaps may have become others.
        body.octets.resize(length, 0);
    }
    body
}

/// Hundreds or thousands of components, up to as many as there can be.
fn many_components(chance: &mut Chance) -> Body {
    if chance.once_in(4) {
        return most_components(chance);
    }
    let below: usize = chance.pick(&[1, 1, 2, 9, 30]);
    let each = 8 + (below - 1).next_multiple_of(4);
    let most = (LONGEST_PROFILE - 60) / each;
    let fewer = most - chance.below(most / 2);
    let count = chance.pick(&[most, most, fewer]);
    let components = components_of(chance, count, below);
    Outline::listed(chance, components).laid_out(chance)
}

/// As many components as there can be, or one more, which there are no octets for.
fn most_components(chance: &mut Chance) -> Body {
    let most = (LONGEST_PROFILE - 20) / 8;
    let components = components_of(chance, most + 1, 1);
    let outline = Outline {
        host: vec![0],
        key: Vec::new(),
        ..Outline::listed(chance, components)
    };
    let mut body = outline.laid_out(chance);
    body.octets.truncate(LONGEST_PROFILE);
    match chance.once_in(3) {
        true => body,
        false => body.with_number(16, most as u32),
    }
}
