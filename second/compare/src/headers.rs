//! Inputs of the request for Request and Reply headers.

use chance::Chance;
use second::frame::{HEADER_LENGTH, MORE, REPLY, REQUEST};
use second::header::{self, Kind, Target as Read, LONGEST_JOINED};

use crate::archive;
use crate::bodies::{any_text, components_of, cuts, generator, Body, Generator};
use crate::header_judge::List;
use crate::judge::Judge;
use crate::messages::{fit, fitted_to, target_of, After, Outline, Target, TARGETED};
use crate::profiles::numbers_near;

/// Messages of at most so many octets are cut at every octet.
const SHORT: usize = 56;

/// How often a message is changed anywhere.
const CHANGES: usize = 8;

/// How many messages are laid out twice, with any octets and with zeros where
/// nothing is carried.
const TWINS: u64 = 6_000;

/// All generators.
pub const GENERATORS: [Generator; 12] = [
    generator("any", any, 2_000),
    generator("versions", versions, 400),
    generator("other types", other_types, 600),
    generator("more fragments", more_fragments, 600),
    generator("responses", responses, 600),
    generator("targets", targets, 1_000),
    generator("texts", texts, 1_000),
    generator("statuses", statuses, 600),
    generator("bodies", bodies, 1_200),
    generator("contexts", contexts, 500),
    generator("noise", noise, 1_200),
    generator("16,384 octets", lengths, 200),
];

/// A generator's message of this number.
pub fn message(generator: usize, number: u64) -> Body {
    (GENERATORS[generator].make)(&mut chance(generator, number))
}

/// What a generator's message of this number, and its changes, are made by.
fn chance(generator: usize, number: u64) -> Chance {
    Chance::new((0xC << 48) + ((generator as u64) << 32) + number)
}

/// Judges every octet of a frame header, the messages of every generator as they
/// are, changed and cut, and messages with known octets before their bodies.
pub fn judge(judge: &mut Judge) {
    frames(judge);
    for (index, generator) in GENERATORS.iter().enumerate() {
        for number in 0..generator.each {
            let chance = &mut chance(index, number);
            let message = (generator.make)(chance);
            let name = format!("header ({}, sample {number}", generator.name);
            one(judge, chance, &name, &message);
        }
    }
    twins(judge);
}

/// Judges sound messages with any octet at each place of the frame header.
fn frames(judge: &mut Judge) {
    let chance = &mut Chance::new(0x0_4EAD);
    for place in 0..HEADER_LENGTH {
        for octet in 0..=u8::MAX {
            let mut message = any(chance).octets;
            message[place] = octet;
            each(judge, chance, "header (frames)", &message);
        }
    }
}

/// Judges one message, as it is, changed and cut. The name has no closing bracket
/// yet.
pub fn one(judge: &mut Judge, chance: &mut Chance, name: &str, message: &Body) {
    whole(judge, chance, &format!("{name})"), &message.octets);
    let name_changed = format!("{name}, a number changed)");
    message.with_other_numbers(chance, |chance, octets| {
        each(judge, chance, &name_changed, octets);
    });
    for change in 0..CHANGES {
        let name = format!("{name}, change {change})");
        let changed = changed(chance, message);
        each(judge, chance, &name, &changed.octets);
    }
    for kept in cuts(chance, message.octets.len(), SHORT) {
        // The rest stays where it is, so that reading too far would show.
        let name = format!("{name}, cut to {kept})");
        let octets = match chance.once_in(6) {
            true => message.octets.clone(),
            false => fitted_to(message, kept),
        };
        each(judge, chance, &name, &octets[..kept]);
    }
}

/// Judges a message, its contexts and profiles by numbers around their counts, and
/// the octets before its body with all rooms.
fn whole(judge: &mut Judge, chance: &mut Chance, name: &str, message: &[u8]) {
    judge.header(name, message);
    for list in [List::Contexts, List::Profiles] {
        for number in numbers_around(chance, list, message) {
            judge.listed(list, name, message, number);
        }
    }
    for room in rooms(chance, message) {
        judge.head(name, message, room);
    }
}

/// Judges a message, and a context, a profile or the octets before its body.
fn each(judge: &mut Judge, chance: &mut Chance, name: &str, message: &[u8]) {
    judge.header(name, message);
    let list = match chance.below(3) {
        0 => List::Contexts,
        1 => List::Profiles,
        _ => {
            let rooms = rooms(chance, message);
            return judge.head(name, message, chance.pick(&rooms));
        }
    };
    let numbers = numbers_around(chance, list, message);
    judge.listed(list, name, message, chance.pick(&numbers));
}

/// The message changed, mostly with a size that fits.
pub fn changed(chance: &mut Chance, message: &Body) -> Body {
    let mut changed = message.changed(chance);
    if !chance.once_in(6) {
        fit(&mut changed);
    }
    changed
}

/// How many a list of an accepted message has.
pub fn count_of(list: List, message: &[u8]) -> Result<u32, u32> {
    let header = header::read(message)?;
    Ok(match (list, header.kind) {
        (List::Contexts, _) => header.contexts,
        (List::Profiles, Kind::Request(request)) => match request.target {
            Read::Reference { profiles, .. } => profiles,
            _ => 0,
        },
        _ => 0,
    })
}

/// Numbers around the count of a list, and far above.
fn numbers_around(chance: &mut Chance, list: List, message: &[u8]) -> [u64; 5] {
    let count = count_of(list, message).map_or_else(|_| chance.below(4) as u64, u64::from);
    numbers_near(chance, count)
}

/// Rooms for the octets before the body: just enough, one less, none and more.
pub fn rooms(chance: &mut Chance, message: &[u8]) -> [usize; 4] {
    let needed = match header::read(message) {
        Ok(header) => header.body,
        Err(_) => chance.below(80),
    };
    let more = needed + 1 + chance.below(40);
    [needed, needed.saturating_sub(1), 0, more]
}

/// Holds both sides to what is before the bodies of messages, and to where these
/// begin.
fn twins(judge: &mut Judge) {
    for number in 0..TWINS {
        let chance = &mut Chance::new((0xD << 48) + number);
        let mut outline = Outline::by_chance(chance);
        if chance.once_in(8) {
            outline.contexts = components_of(chance, 30, 40);
        }
        let (message, body) = outline.laid_out(chance, false);
        let (zeroed, _) = outline.laid_out(chance, true);
        let difference = unlike_twin(&message.octets, &zeroed.octets[..body]);
        let name = format!("header (with zeros, sample {number})");
        judge.tally.hold(&name, &message.octets, difference);
    }
}

/// What either side writes back other than it should.
fn unlike_twin(message: &[u8], expected: &[u8]) -> Option<String> {
    let mut out = vec![0xEE; expected.len()];
    let mut count = 0;
    let number = archive::head(message, &mut out, &mut count);
    let mut numbers = [0; 17];
    archive::header(message, &mut numbers);
    let place = expected.len() as u64;
    let archive_differs = number != 0 || out != expected || [count, numbers[16]] != [place; 2];
    let second_differs = header::head(message, expected.len()).as_deref() != Ok(expected);
    match (archive_differs, second_differs) {
        (false, false) => None,
        sides => Some(format!(
            "archive and second differ from the layout: {sides:?}"
        )),
    }
}

/// A sound message.
fn any(chance: &mut Chance) -> Body {
    Outline::by_chance(chance).laid_out(chance, false).0
}

/// An outline's octets.
fn of(chance: &mut Chance, outline: Outline) -> Body {
    outline.laid_out(chance, false).0
}

/// Minor versions that there are, or are not.
fn versions(chance: &mut Chance) -> Body {
    let any = chance.octet();
    let minor = chance.pick(&[0, 1, 2, 3, 3, 4, 255, any]);
    let kind = chance.pick(&[REQUEST, REPLY]);
    let outline = Outline::of(chance, minor, kind);
    of(chance, outline)
}

/// Messages of other types, with sizes that these can have or not.
fn other_types(chance: &mut Chance) -> Body {
    let outline = Outline {
        kind: chance.pick(&[2, 3, 4, 5, 6, 7, 8, 255]),
        ..Outline::by_chance(chance)
    };
    let kind = outline.kind;
    let mut message = of(chance, outline);
    let size = match kind {
        2 => 4,
        5 | 6 => 0,
        _ => 4 + chance.below(20),
    };
    if !chance.once_in(4) {
        message.octets.truncate(HEADER_LENGTH + size);
        fit(&mut message);
    }
    message
}

/// Messages with the more flag, mostly of a multiple of 8 octets.
fn more_fragments(chance: &mut Chance) -> Body {
    let minor = chance.pick(&[0, 1, 2, 2, 2, 3]);
    let kind = chance.pick(&[REQUEST, REPLY]);
    let mut outline = Outline::of(chance, minor, kind);
    outline.flags |= MORE;
    let mut message = of(chance, outline);
    if !chance.once_in(4) {
        message.align(chance, 8);
        fit(&mut message);
    }
    message
}

/// Any response boolean or flags.
fn responses(chance: &mut Chance) -> Body {
    let minor = chance.pick(&[0, 1, 2]);
    let any = chance.octet();
    let outline = Outline {
        response: chance.pick(&[0, 1, 2, 3, 4, 5, 7, 0x80, 0x81, 0xFF, any]),
        ..Outline::of(chance, minor, REQUEST)
    };
    of(chance, outline)
}

/// Targets of every kind, of no kind, and of another kind than is said.
fn targets(chance: &mut Chance) -> Body {
    let any = chance.next() as u16;
    let said = chance.pick(&[0, 1, 2, 2, 3, 4, 0x100, 0x200, 0xFFFF, any]);
    let kind = match chance.once_in(6) {
        true => chance.below(3) as u16,
        false => said,
    };
    let mut target = target_of(chance, kind);
    if let (Target::Reference(_, _, profiles), true) = (&mut target, chance.once_in(3)) {
        let count = chance.pick(&[4, 7, 20]);
        *profiles = components_of(chance, count, 30);
    }
    let outline = Outline {
        target: (said, target),
        ..Outline::of(chance, TARGETED, REQUEST)
    };
    of(chance, outline)
}

/// Operations and type ids of every sort.
fn texts(chance: &mut Chance) -> Body {
    let minor = chance.pick(&[0, 1, 2, 2]);
    let mut outline = Outline::of(chance, minor, REQUEST);
    match &mut outline.target.1 {
        Target::Reference(_, type_id, _) if !chance.once_in(3) => *type_id = any_text(chance),
        _ => outline.operation = any_text(chance),
    }
    of(chance, outline)
}

/// Any status.
fn statuses(chance: &mut Chance) -> Body {
    let minor = chance.pick(&[0, 1, 2, 2]);
    let any = chance.next() as u32;
    let outline = Outline {
        status: chance.pick(&[0, 1, 2, 3, 4, 5, 6, 7, 1 << 24, 1 << 31, u32::MAX, any]),
        ..Outline::of(chance, minor, REPLY)
    };
    of(chance, outline)
}

/// Octets of every small number after headers that end anywhere.
fn bodies(chance: &mut Chance) -> Body {
    let octets = chance.below(17);
    let outline = Outline {
        after: chance.pick(&[After::Octets(octets), After::Body(octets)]),
        ..Outline::by_chance(chance)
    };
    of(chance, outline)
}

/// Up to forty contexts, some of them with many octets.
fn contexts(chance: &mut Chance) -> Body {
    let count = chance.pick(&[4, 5, 8, 40]);
    let below = chance.pick(&[1, 2, 5, 9, 60]);
    let contexts = components_of(chance, count, below);
    let outline = Outline {
        contexts,
        ..Outline::by_chance(chance)
    };
    of(chance, outline)
}

/// Octets by chance, mostly small, after a frame header that there can be.
fn noise(chance: &mut Chance) -> Body {
    let mut message = any(chance);
    let known = chance.below(message.octets.len() + 1);
    message.octets.truncate(known.max(HEADER_LENGTH));
    message.fields.clear();
    message.texts.clear();
    for _ in 0..chance.below(60) {
        let any = chance.octet();
        message
            .octets
            .push(chance.pick(&[0, 0, 0, 0, 0, 1, 1, 2, 4, any]));
    }
    fit(&mut message);
    message
}

/// About 16,384 octets or far more: one of the parts has as many as are missing,
/// or there are as many contexts.
fn lengths(chance: &mut Chance) -> Body {
    let more = chance.pick(&[0, 0, 1, 2, 3, 4, 4, 5, 5, 6, 9, 5_000, 70_000]);
    let length = LONGEST_JOINED - 4 + more;
    let mut outline = Outline::by_chance(chance);
    let seed = chance.next();
    let (short, _) = outline.laid_out(&mut Chance::new(seed), false);
    let count = length - short.octets.len();
    let mut missing = Vec::new();
    chance.add_octets(&mut missing, count);
    match (chance.below(5), &mut outline.target.1) {
        (0, _) => {
            missing.iter_mut().for_each(|octet| *octet |= 1);
            outline.operation.splice(0..0, missing);
        }
        (1, Target::Key(octets) | Target::Profile((_, octets))) => octets.extend(missing),
        (1, Target::Reference(_, _, profiles)) => profiles.push((7, missing)),
        (2, _) => outline.contexts.push((9, missing)),
        (3, _) => outline.contexts = components_of(chance, count / 12, 5),
        _ => outline.after = After::Body(count),
    }
    let (mut message, _) = outline.laid_out(&mut Chance::new(seed), false);
    if chance.once_in(2) {
        // The gaps may have become others.
        message.octets.resize(length, 0);
        fit(&mut message);
    }
    message
}
