//! Frames and their lines.

use chance::Chance;

/// The flag of little-endian messages.
pub const LITTLE: u8 = 1;
/// The flag that says more fragments follow.
pub const MORE: u8 = 2;

/// Type of a Request; Reply, LocateRequest and LocateReply are like it.
pub const REQUEST: u8 = 0;
/// Type of a Reply.
pub const REPLY: u8 = 1;
/// Type of a CancelRequest.
pub const CANCEL_REQUEST: u8 = 2;
/// Type of a LocateRequest.
pub const LOCATE_REQUEST: u8 = 3;
/// Type of a LocateReply.
pub const LOCATE_REPLY: u8 = 4;
/// Type of a Fragment.
pub const FRAGMENT: u8 = 7;

/// The octets of a header and a request id.
pub const LEAST: usize = 16;
/// The octets of the longest frame.
pub const LONGEST: usize = 4_096;

/// The parts of a frame whose body begins with four octets of an id.
#[derive(Clone, Copy)]
pub struct Frame {
    /// Minor version.
    pub minor: u8,
    /// Flags octet.
    pub flags: u8,
    /// Type octet.
    pub kind: u8,
    /// Request id.
    pub id: u32,
    /// Octets of the whole frame, at least 16.
    pub length: usize,
}

impl Frame {
    /// Puts the frame's octets in the place of those that were there.
    pub fn fill(&self, chance: &mut Chance, octets: &mut Vec<u8>) {
        octets.clear();
        octets.extend_from_slice(b"GIOP\x01");
        octets.extend_from_slice(&[self.minor, self.flags, self.kind]);
        octets.extend_from_slice(&self.in_order((self.length - 12) as u32));
        octets.extend_from_slice(&self.in_order(self.id));
        chance.add_octets(octets, self.length - LEAST);
    }

    /// An unsigned long in the frame's byte order.
    fn in_order(&self, number: u32) -> [u8; 4] {
        match self.flags & LITTLE {
            0 => number.to_be_bytes(),
            _ => number.to_le_bytes(),
        }
    }
}

/// Adds the digits of the octets.
pub fn add_digits(octets: &[u8], digits: &[u8; 16], text: &mut Vec<u8>) {
    let start = text.len();
    text.resize(start + 2 * octets.len(), 0);
    for (pair, &octet) in text[start..].chunks_exact_mut(2).zip(octets) {
        pair[0] = digits[usize::from(octet >> 4)];
        pair[1] = digits[usize::from(octet & 0x0F)];
    }
}
