//! Inputs of the section on kinds of type.

use chance::Chance;
use second::typecode::{EXCEPTION, LONGEST_TYPE, NULL, VOID};

use crate::graphs;
use crate::judge::Judge;
use crate::layout::{laid_out, Sample};
use crate::limits;
use crate::maker::Maker;
use crate::mutations::mutated;
use crate::planted::{any_kind, plant, spoil_text};
use crate::tree::{Meaning, Node, Part};
use crate::unions;

/// Types of at most so many octets are cut at every octet.
const SHORT: usize = 40;

/// Of longer ones, up to so many octets, one in 32 is.
const MIDDLING: usize = 400;

/// Makes types by chance.
pub struct Generator {
    /// Its name.
    pub name: &'static str,
    /// Makes one.
    make: fn(&mut Chance) -> Sample,
    /// How many are judged.
    pub each: u64,
}

/// A generator of so many types.
const fn generator(name: &'static str, make: fn(&mut Chance) -> Sample, each: u64) -> Generator {
    Generator { name, make, each }
}

/// All generators.
pub const GENERATORS: [Generator; 29] = [
    generator("any", any, 8_000),
    generator("planted", planted, 12_000),
    generator("kinds alone", kinds_alone, 3_000),
    generator("exceptions", exceptions, 3_000),
    generator("below the top", below_the_top, 3_000),
    generator("texts", texts, 4_000),
    generator("counts", counts, 4_000),
    generator("cut inside", cut_inside, 8_000),
    generator("noise", noise, 4_000),
    generator("indirections", graphs::indirections, 5_000),
    generator("aims", graphs::aims, 6_000),
    generator("open targets", graphs::open_targets, 4_000),
    generator("indirection alone", graphs::indirection_alone, 1_000),
    generator("loops", graphs::loops, 6_000),
    generator("loops aside", graphs::loops_aside, 4_000),
    generator("slip", graphs::slip, 6_000),
    generator("rings", graphs::rings, 3_000),
    generator("unions", unions::unions, 6_000),
    generator("labels", unions::labels, 6_000),
    generator("defaults", unions::defaults, 4_000),
    generator("discriminants", unions::discriminants, 5_000),
    generator("64 kinds", limits::kinds, 3_000),
    generator("nesting 16", limits::nesting, 5_000),
    generator("both limits", limits::kinds_and_nesting, 2_500),
    generator("16,384 octets", limits::lengths, 600),
    generator("wide", limits::wide, 250),
    generator("wide union", limits::wide_union, 250),
    generator("dense", limits::dense, 250),
    generator("alias chain", limits::alias_chain, 250),
];

/// A generator's type of this number.
pub fn sample(generator: usize, number: u64) -> Sample {
    (GENERATORS[generator].make)(&mut chance(generator, number))
}

/// What a generator's type of this number, and its changes, are made by.
fn chance(generator: usize, number: u64) -> Chance {
    Chance::new((0x7 << 48) + ((generator as u64) << 32) + number)
}

/// Judges the types of every generator, as they are, changed and cut.
pub fn judge(judge: &mut Judge) {
    for (index, generator) in GENERATORS.iter().enumerate() {
        for number in 0..generator.each {
            let chance = &mut chance(index, number);
            let sample = (generator.make)(chance);
            let name = format!("type ({}, sample {number}", generator.name);
            one(judge, chance, &name, &sample);
        }
    }
}

/// Judges one type, as it is, changed and cut. The name has no closing bracket
/// yet.
pub fn one(judge: &mut Judge, chance: &mut Chance, name: &str, sample: &Sample) {
    hold(judge, name, &sample.octets, sample.little);
    for change in 0..6 {
        let name = format!("{name}, change {change}");
        let changed = mutated(chance, sample);
        hold(judge, &name, &changed.octets, changed.little);
    }
    let length = sample.octets.len();
    if length <= SHORT || length <= MIDDLING && chance.once_in(32) {
        let name = format!("{name}, cut");
        // The rest stays where it is, so that reading too far would show.
        for kept in 0..length {
            hold(judge, &name, &sample.octets[..kept], sample.little);
        }
    }
}

/// Judges one type.
fn hold(judge: &mut Judge, name: &str, octets: &[u8], little: bool) {
    let name = format!("{name}, {})", order_name(little));
    judge.typecode(&name, octets, little);
}

/// What a byte order is called.
pub fn order_name(little: bool) -> &'static str {
    match little {
        true => "little",
        false => "big",
    }
}

/// Lays a type out in either order, sometimes with octets after it.
pub fn finished(chance: &mut Chance, node: &Node) -> Sample {
    let little = chance.once_in(2);
    let mut sample = laid_out(chance, node, little);
    if chance.once_in(3) {
        let room = LONGEST_TYPE.saturating_sub(sample.octets.len());
        let count = chance.below(40).min(room);
        chance.add_octets(&mut sample.octets, count);
    }
    sample
}

/// A type that is mostly accepted.
fn any(chance: &mut Chance) -> Sample {
    let node = Maker::new(chance).top();
    finished(chance, &node)
}

/// A type with one to three faults.
fn planted(chance: &mut Chance) -> Sample {
    let mut node = Maker::new(chance).top();
    for _ in 0..chance.pick(&[1, 1, 1, 2, 3]) {
        plant(chance, &mut node);
    }
    finished(chance, &node)
}

/// Any number for the kind at the top, and a few octets.
fn kinds_alone(chance: &mut Chance) -> Sample {
    let kind = match chance.once_in(3) {
        true => any_kind(chance),
        false => chance.below(34) as u32,
    };
    let mut sample = finished(chance, &Node::plain(kind));
    for _ in 0..chance.below(4) {
        let octets = match sample.little {
            true => (chance.below(14) as u32).to_le_bytes(),
            false => (chance.below(14) as u32).to_be_bytes(),
        };
        sample.octets.extend(octets);
    }
    sample
}

/// An exception at the top, sometimes with a fault.
fn exceptions(chance: &mut Chance) -> Sample {
    let mut node = Maker::new(chance).exception();
    if chance.once_in(3) {
        plant(chance, &mut node);
    }
    finished(chance, &node)
}

/// A type with a null, void or exception somewhere, also at the top.
fn below_the_top(chance: &mut Chance) -> Sample {
    let mut node = Maker::new(chance).compound(1);
    let number = chance.below(node.types());
    if let Some(inner) = node.nth(number) {
        *inner = match chance.below(4) {
            0 => Node::plain(NULL),
            1 => Node::plain(VOID),
            2 => Node::with_members(chance, EXCEPTION, Vec::new()),
            _ => Node::with_members(chance, EXCEPTION, vec![Node::plain(3)]),
        };
    }
    finished(chance, &node)
}

/// A type with texts in it, one to three of them with a fault.
fn texts(chance: &mut Chance) -> Sample {
    let mut node = Maker::new(chance).compound(1);
    for _ in 0..1 + chance.below(3) {
        let number = chance.below(node.types());
        let parts = node.nth(number).and_then(Node::capsule_mut);
        for part in parts
            .map(|capsule| &mut capsule.parts[..])
            .unwrap_or(&mut [])
        {
            if let Part::Text(text) = part {
                if chance.once_in(3) {
                    spoil_text(chance, text);
                }
            }
        }
    }
    finished(chance, &node)
}

/// A type with a count or a length that is 0, off by one, or huge.
fn counts(chance: &mut Chance) -> Sample {
    let mut node = Maker::new(chance).top();
    let number = chance.below(node.types());
    let parts = node.nth(number).and_then(Node::capsule_mut);
    for part in parts
        .map(|capsule| &mut capsule.parts[..])
        .unwrap_or(&mut [])
    {
        if let Part::Number(Meaning::Count | Meaning::Length | Meaning::Bound, _, value) = part {
            let less = value.wrapping_sub(1);
            *value = chance.pick(&[0, 0, less, *value + 1, 1 << 31, u64::from(u32::MAX)]);
        }
    }
    finished(chance, &node)
}

/// A type with an encapsulation that is cut, with lengths that fit.
fn cut_inside(chance: &mut Chance) -> Sample {
    let mut node = Maker::new(chance).top();
    let number = chance.below(node.types());
    if let Some(capsule) = node.nth(number).and_then(Node::capsule_mut) {
        let about = 8 * capsule.parts.len().min(12);
        capsule.kept = 1 + chance.below(about);
    }
    finished(chance, &node)
}

/// Octets by chance, or small numbers by chance in one byte order or both.
fn noise(chance: &mut Chance) -> Sample {
    let little = chance.once_in(2);
    let mut octets = Vec::new();
    match chance.below(4) {
        0 => {
            let count = chance.below(60);
            octets = chance.octets(count);
        }
        _ => {
            for _ in 0..chance.below(20) {
                let number = match chance.below(6) {
                    0 => u32::MAX - chance.below(40) as u32,
                    _ => chance.below(26) as u32,
                };
                match little ^ chance.once_in(16) {
                    true => octets.extend(number.to_le_bytes()),
                    false => octets.extend(number.to_be_bytes()),
                }
            }
        }
    }
    Sample::of_octets(octets, little)
}
