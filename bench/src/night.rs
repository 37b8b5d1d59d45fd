//! The lines of a night.

use chance::Chance;

use crate::frame::{
    add_digits, Frame, CANCEL_REQUEST, FRAGMENT, LEAST, LITTLE, LOCATE_REPLY, LOCATE_REQUEST,
    LONGEST, MORE, REPLY, REQUEST,
};

/// The most messages that are open at once.
const PLACES: usize = 4;
/// The octets of the longest short message.
const SHORT: usize = 200;
/// The types of messages that begin with a request id in 1.2.
const KINDS: [u8; 4] = [REQUEST, REPLY, LOCATE_REQUEST, LOCATE_REPLY];

/// A message of which not all fragments are written.
#[derive(Clone, Copy)]
struct Open {
    /// Request id.
    id: u32,
    /// The flags without the more flag.
    order: u8,
    /// Whether its frames are of the greatest length.
    long: bool,
    /// Fragments to come.
    left: usize,
}

/// A recording in the writing.
pub struct Night {
    chance: Chance,
    /// Messages with fragments to come.
    open: Vec<Open>,
    /// The last request id that was given to a message.
    id: u32,
    /// The octets of a line.
    octets: Vec<u8>,
}

impl Night {
    /// The night of a seed.
    pub fn new(seed: u64) -> Self {
        Night {
            chance: Chance::new(seed),
            open: Vec::with_capacity(PLACES),
            id: 0,
            octets: Vec::with_capacity(2 * LONGEST),
        }
    }

    /// Adds a line: about a third are fragments, a few are cancels, a few are
    /// refused, and the rest are whole messages.
    pub fn add_line(&mut self, text: &mut Vec<u8>) {
        match self.chance.below(1_000) {
            0..335 => {
                let frame = self.fragment();
                self.add_frame(frame, text);
            }
            335..341 => {
                let frame = self.cancel();
                self.add_frame(frame, text);
            }
            341..347 => self.add_refused(text),
            _ => {
                let frame = self.whole();
                self.add_frame(frame, text);
            }
        }
    }

    /// A request id that no message has had for long.
    fn next_id(&mut self) -> u32 {
        self.id = self.id.wrapping_add(1);
        self.id
    }

    /// A length from the least to that of the longest short message.
    fn short(&mut self) -> usize {
        LEAST + self.chance.below(SHORT - LEAST + 1)
    }

    /// The next fragment of an open message, or the first of another.
    fn fragment(&mut self) -> Frame {
        let room = self.open.len() < PLACES;
        if self.open.is_empty() || room && self.chance.once_in(3) {
            self.first()
        } else {
            self.next_fragment()
        }
    }

    /// The first fragment of a message.
    fn first(&mut self) -> Frame {
        let message = Open {
            id: self.next_id(),
            order: self.chance.pick(&[0, LITTLE]),
            long: self.chance.once_in(10),
            // With these, a joined message has at most 16,384 octets.
            left: 1 + self.chance.below(3),
        };
        self.open.push(message);
        let kind = self.chance.pick(&KINDS);
        self.frame_before_more(message, kind)
    }

    /// A middle fragment, or the last, of one of the open messages.
    fn next_fragment(&mut self) -> Frame {
        let index = self.chance.below(self.open.len());
        self.open[index].left -= 1;
        let message = self.open[index];
        if message.left > 0 {
            return self.frame_before_more(message, FRAGMENT);
        }
        self.open.remove(index);
        let length = match message.long {
            true => LONGEST,
            false => self.short(),
        };
        Frame {
            minor: 2,
            flags: message.order,
            kind: FRAGMENT,
            id: message.id,
            length,
        }
    }

    /// A frame with more to come, so its length is a multiple of 8.
    fn frame_before_more(&mut self, message: Open, kind: u8) -> Frame {
        let length = match message.long {
            true => LONGEST,
            false => self.short() / 8 * 8,
        };
        Frame {
            minor: 2,
            flags: message.order | MORE,
            kind,
            id: message.id,
            length,
        }
    }

    /// A cancel of an open message, or of one that is not.
    fn cancel(&mut self) -> Frame {
        let id = match self.open.pop() {
            Some(message) => message.id,
            None => self.next_id(),
        };
        Frame {
            minor: self.chance.below(3) as u8,
            flags: self.chance.pick(&[0, LITTLE]),
            kind: CANCEL_REQUEST,
            id,
            length: LEAST,
        }
    }

    /// A whole message of any version.
    fn whole(&mut self) -> Frame {
        let length = match self.chance.once_in(16) {
            true => LONGEST,
            false => self.short(),
        };
        Frame {
            minor: self.chance.pick(&[0, 1, 2, 2, 2, 2]),
            flags: self.chance.pick(&[0, LITTLE]),
            kind: self.chance.pick(&KINDS),
            id: self.next_id(),
            length,
        }
    }

    /// Adds a line that is refused: of an odd digit count, of an unknown version
    /// or type, over-long, a fragment of no message, or with an id that is open.
    fn add_refused(&mut self, text: &mut Vec<u8>) {
        let mut frame = self.whole();
        let fault = self.chance.below(6);
        match fault {
            0 => {}
            1 => frame.minor = 3,
            2 => frame.kind = 8,
            3 => frame.length = LONGEST + 1,
            _ => {
                frame.minor = 2;
                match self.open.last() {
                    Some(message) if fault == 4 => frame.id = message.id,
                    _ => frame.kind = FRAGMENT,
                }
            }
        }
        self.add_frame(frame, text);
        if fault == 0 {
            text.insert(text.len() - 1, b'0');
        }
    }

    /// Adds the frame as a line, its digits all of one case.
    fn add_frame(&mut self, frame: Frame, text: &mut Vec<u8>) {
        frame.fill(&mut self.chance, &mut self.octets);
        let digits = match self.chance.once_in(4) {
            true => b"0123456789abcdef",
            false => b"0123456789ABCDEF",
        };
        add_digits(&self.octets, digits, text);
        text.push(b'\n');
    }
}
