//! Messages of 1.2 in fragments, as drafts.

use std::collections::VecDeque;

use chance::Chance;
use second::frame::{CANCEL_REQUEST, FRAGMENT, LOCATE_REPLY, LOCATE_REQUEST, REPLY, REQUEST};

use crate::draft::{Draft, LITTLE, MORE};

/// The octets of a request id.
const ID: usize = 4;

/// The longest part of a message that a frame of 4,096 octets has after the id.
pub const LONGEST_PART: usize = 4_080;

/// What the frames of one message have in common.
#[derive(Clone, Copy)]
pub struct Message {
    /// The request id.
    pub id: u32,
    /// The flags without the more flag.
    pub order: u8,
    /// The type of the first frame.
    pub kind: u8,
}

impl Message {
    /// A message with this id.
    pub fn by_chance(chance: &mut Chance, id: u32) -> Self {
        Message {
            id,
            order: chance.pick(&[0, LITTLE]),
            kind: chance.pick(&[REQUEST, REPLY, LOCATE_REQUEST, LOCATE_REPLY]),
        }
    }

    /// The same in the other byte order, with the same number as its id.
    pub fn in_other_order(self) -> Self {
        Message {
            order: self.order ^ LITTLE,
            ..self
        }
    }

    /// The whole message with so many octets after the id.
    pub fn whole(self, part: usize) -> Draft {
        Draft::new(2, self.order, self.kind, ID + part).with_id(self.id)
    }

    /// A first fragment; the part is a multiple of 8.
    pub fn first(self, part: usize) -> Draft {
        Draft::new(2, self.order | MORE, self.kind, ID + part).with_id(self.id)
    }

    /// A middle fragment; the part is a multiple of 8.
    pub fn middle(self, part: usize) -> Draft {
        Draft::new(2, self.order | MORE, FRAGMENT, ID + part).with_id(self.id)
    }

    /// A last fragment.
    pub fn last(self, part: usize) -> Draft {
        Draft::new(2, self.order, FRAGMENT, ID + part).with_id(self.id)
    }

    /// Any of these four.
    pub fn any_frame(self, chance: &mut Chance) -> Draft {
        let part = aligned_part(chance);
        match chance.below(4) {
            0 => self.whole(part + chance.below(8)),
            1 => self.first(part),
            2 => self.middle(part),
            _ => self.last(part + chance.below(8)),
        }
    }

    /// A middle or a last fragment.
    pub fn any_fragment(self, chance: &mut Chance) -> Draft {
        let part = aligned_part(chance);
        match chance.below(2) {
            0 => self.middle(part),
            _ => self.last(part + chance.below(8)),
        }
    }

    /// The message in two to seven fragments.
    pub fn in_fragments(self, chance: &mut Chance) -> VecDeque<Draft> {
        let mut fragments = VecDeque::from([self.first(aligned_part(chance))]);
        for _ in 0..chance.below(6) {
            fragments.push_back(self.middle(aligned_part(chance)));
        }
        fragments.push_back(self.last(chance.below(50)));
        fragments
    }
}

/// A CancelRequest of any version and order.
pub fn cancel(chance: &mut Chance, id: u32) -> Draft {
    let order = chance.pick(&[0, LITTLE]);
    Draft::new(chance.below(3) as u8, order, CANCEL_REQUEST, ID).with_id(id)
}

/// A multiple of 8 octets, mostly few, seldom as many as a frame can have.
pub fn aligned_part(chance: &mut Chance) -> usize {
    match chance.once_in(30) {
        true => LONGEST_PART,
        false => 8 * chance.below(7),
    }
}

/// Six different ids: neighbours, numbers whose octets are one another's in
/// the other order, or any.
pub fn ids(chance: &mut Chance) -> [u32; 6] {
    let any = chance.next() as u32;
    match chance.below(4) {
        0 => std::array::from_fn(|index| any.wrapping_add(index as u32)),
        1 => std::array::from_fn(|index| index as u32),
        2 => [9, 9 << 24, 9 << 8, 9 << 16, 0, u32::MAX],
        _ => {
            let other = any ^ 0x0102_0304;
            let swapped = [any.swap_bytes(), other.swap_bytes()];
            let numbers = [any, swapped[0], other, swapped[1], !any, !other];
            match all_differ(&numbers) {
                true => numbers,
                false => [0, 1, 2, 1 << 24, 2 << 24, u32::MAX],
            }
        }
    }
}

/// Whether no number is there twice.
fn all_differ(numbers: &[u32]) -> bool {
    (1..numbers.len()).all(|index| !numbers[..index].contains(&numbers[index]))
}

/// The drafts of all queues mixed, each queue's in its order.
pub fn interleave(chance: &mut Chance, mut queues: Vec<VecDeque<Draft>>) -> Vec<Draft> {
    let mut drafts = Vec::new();
    while !queues.is_empty() {
        let index = chance.below(queues.len());
        match queues[index].pop_front() {
            Some(draft) => drafts.push(draft),
            None => drop(queues.swap_remove(index)),
        }
    }
    drafts
}

/// So many messages in fragments, mixed.
pub fn interleaved(chance: &mut Chance, ids: &[u32]) -> Vec<Draft> {
    let mut queues = Vec::new();
    for &id in ids {
        queues.push(Message::by_chance(chance, id).in_fragments(chance));
    }
    interleave(chance, queues)
}

/// Puts the draft among the others.
pub fn put(chance: &mut Chance, drafts: &mut Vec<Draft>, draft: Draft) {
    drafts.insert(chance.below(drafts.len() + 1), draft);
}
