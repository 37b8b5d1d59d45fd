//! Requests and Replies before they are octets.

use chance::Chance;
use second::frame::{HEADER_LENGTH, LITTLE, REPLY, REQUEST, SIZE_AT};

use crate::bodies::{any_tag, components_of, text_of, Body};

/// The minor version from which on a header has flags, a target of three kinds and
/// contexts last.
pub const TARGETED: u8 = 2;

/// What a request is for.
#[derive(Clone)]
pub enum Target {
    /// A key.
    Key(Vec<u8>),
    /// A profile.
    Profile((u32, Vec<u8>)),
    /// Index, type id with its zero, and profiles.
    Reference(u32, Vec<u8>, Vec<(u32, Vec<u8>)>),
}

/// What is after a header.
#[derive(Clone, Copy)]
pub enum After {
    /// So many octets, wherever it ends.
    Octets(usize),
    /// A body of so many octets, in 1.2 at a multiple of 8.
    Body(usize),
}

/// The parts of a Request or Reply.
#[derive(Clone)]
pub struct Outline {
    /// Minor version.
    pub minor: u8,
    /// The frame header's flags.
    pub flags: u8,
    /// The frame header's type. What is no Reply is laid out as a Request.
    pub kind: u8,
    /// Request id.
    pub id: u32,
    /// Response boolean, or flags.
    pub response: u8,
    /// Status.
    pub status: u32,
    /// The target's kind, where it is written, and the target.
    pub target: (u16, Target),
    /// The operation with its zero.
    pub operation: Vec<u8>,
    /// Principal.
    pub principal: Vec<u8>,
    /// Contexts.
    pub contexts: Vec<(u32, Vec<u8>)>,
    /// What is after these.
    pub after: After,
}

impl Outline {
    /// A sound Request or Reply of any version and order, with short parts.
    pub fn by_chance(chance: &mut Chance) -> Self {
        let kind = chance.pick(&[REQUEST, REQUEST, REPLY]);
        let minor = chance.pick(&[0, 1, 2, 2]);
        Outline::of(chance, minor, kind)
    }

    /// A sound message of this version and type.
    pub fn of(chance: &mut Chance, minor: u8, kind: u8) -> Self {
        let targeted = minor >= TARGETED;
        let count = chance.pick(&[0, 0, 1, 1, 2, 3]);
        let [operation, principal] = [chance.below(12), chance.below(5)];
        let body = chance.pick(&[0, 0, 1, 4, 9, 20]);
        let kind_of_target = if targeted { chance.below(3) as u16 } else { 0 };
        Outline {
            minor,
            flags: chance.below(2) as u8,
            kind,
            id: any_tag(chance),
            response: match targeted {
                true => chance.pick(&[0, 1, 3, 3]),
                false => chance.below(2) as u8,
            },
            status: chance.below(if targeted { 6 } else { 4 }) as u32,
            target: (kind_of_target, target_of(chance, kind_of_target)),
            operation: text_of(chance, operation),
            principal: chance.octets(principal),
            contexts: components_of(chance, count, 9),
            after: match chance.below(3) {
                0 => After::Octets(0),
                _ => After::Body(body),
            },
        }
    }

    /// The octets, with any octets or zeros in gaps and reserved octets, and the
    /// body's place if there is one or none is begun.
    pub fn laid_out(&self, chance: &mut Chance, zeros: bool) -> (Body, usize) {
        let mut message = self.frame();
        message.zeros = zeros;
        let targeted = self.minor >= TARGETED;
        if !targeted {
            message.put_list(chance, &self.contexts);
        }
        message.put_number(chance, self.id);
        match self.kind {
            REPLY => message.put_number(chance, self.status),
            _ => self.put_request(&mut message, chance),
        }
        if targeted {
            message.put_list(chance, &self.contexts);
        }
        if matches!((self.after, targeted), (After::Body(_), true)) {
            message.align(chance, 8);
        }
        let place = message.octets.len();
        let (After::Octets(count) | After::Body(count)) = self.after;
        chance.add_octets(&mut message.octets, count);
        fit(&mut message);
        (message, place)
    }

    /// The frame header, with a size of 0.
    fn frame(&self) -> Body {
        let octets = [
            b"GIOP\x01",
            &[self.minor, self.flags, self.kind][..],
            &[0; 4],
        ]
        .concat();
        Body {
            head: HEADER_LENGTH,
            ..Body::of_octets(octets, self.flags & LITTLE != 0)
        }
    }

    /// Writes what only a Request has.
    fn put_request(&self, message: &mut Body, chance: &mut Chance) {
        message.octets.push(self.response);
        if self.minor > 0 {
            message.put_gap(chance, 3);
        }
        let (kind, target) = &self.target;
        if self.minor >= TARGETED {
            message.put_short(chance, *kind);
        }
        match target {
            Target::Key(key) => message.put_counted(chance, key),
            Target::Profile(profile) => message.put_tagged(chance, profile),
            Target::Reference(index, type_id, profiles) => {
                message.put_number(chance, *index);
                message.put_text(chance, type_id);
                message.put_list(chance, profiles);
            }
        }
        message.put_text(chance, &self.operation);
        if self.minor < TARGETED {
            message.put_counted(chance, &self.principal);
        }
    }
}

/// A target of a kind, with short parts; of no kind, a key.
pub fn target_of(chance: &mut Chance, kind: u16) -> Target {
    let length = chance.below(20);
    let octets = chance.octets(length);
    match kind {
        1 => Target::Profile((any_tag(chance), octets)),
        2 => {
            let length = chance.below(9);
            let type_id = text_of(chance, length);
            let count = chance.pick(&[0, 1, 1, 2, 3]);
            let profiles = components_of(chance, count, 9);
            Target::Reference(any_tag(chance), type_id, profiles)
        }
        _ => Target::Key(octets),
    }
}

/// Makes the size fit the message, if it has one.
pub fn fit(message: &mut Body) {
    if let Some(size) = message.octets.len().checked_sub(HEADER_LENGTH) {
        *message = message.with_number(SIZE_AT, size as u32);
    }
}

/// The message's octets with a size that fits a cut to so many.
pub fn fitted_to(message: &Body, kept: usize) -> Vec<u8> {
    match kept.checked_sub(HEADER_LENGTH) {
        Some(size) => message.with_number(SIZE_AT, size as u32).octets,
        None => message.octets.clone(),
    }
}
