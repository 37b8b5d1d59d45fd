//! Frames before they are octets, so that faults can be planted in them.

use chance::Chance;
use second::frame::{
    CANCEL_REQUEST, CLOSE_CONNECTION, FRAGMENT, HEADER_LENGTH, LOCATE_REPLY, LOCATE_REQUEST,
    MESSAGE_ERROR, REPLY, REQUEST,
};
use second::primitive::ulong_octets;

pub use second::frame::{LITTLE, MORE};

/// What a frame says of its body's length.
#[derive(Clone, Copy)]
pub enum Size {
    /// The length and so many more, or fewer.
    Off(i64),
    /// This number.
    Exactly(u32),
    /// The length in the other byte order.
    WrongOrder,
}

impl Size {
    /// The four octets that say the length, in a byte order.
    pub fn field(self, length: usize, little: bool) -> [u8; 4] {
        match self {
            Size::Off(by) => ulong_octets((length as i64 + by) as u32, little),
            Size::Exactly(size) => ulong_octets(size, little),
            Size::WrongOrder => ulong_octets(length as u32, !little),
        }
    }
}

/// The parts of a frame.
#[derive(Clone, Copy)]
pub struct Draft {
    /// The first four octets.
    pub magic: [u8; 4],
    /// Major version.
    pub major: u8,
    /// Minor version.
    pub minor: u8,
    /// Flags octet.
    pub flags: u8,
    /// Type octet.
    pub kind: u8,
    /// What the size field says.
    pub size: Size,
    /// Octets of the body.
    pub body: usize,
    /// The request id at the body's start; by chance like the rest if there is
    /// none.
    pub id: Option<u32>,
    /// How many of the octets there are, all others being cut off.
    pub kept: usize,
}

impl Draft {
    /// A frame whose size is that of its body.
    pub fn new(minor: u8, flags: u8, kind: u8, body: usize) -> Self {
        Draft {
            magic: *b"GIOP",
            major: 1,
            minor,
            flags,
            kind,
            size: Size::Off(0),
            body,
            id: None,
            kept: usize::MAX,
        }
    }

    /// The frame with a request id in its own byte order.
    pub fn with_id(self, id: u32) -> Self {
        Draft {
            id: Some(id),
            ..self
        }
    }

    /// A frame that is accepted.
    pub fn valid(chance: &mut Chance) -> Self {
        let minor = chance.pick(&[0, 1, 2, 2]);
        let flags = chance.pick(&[0, LITTLE]);
        let kind = chance.below(if minor == 2 { 8 } else { 7 }) as u8;
        match kind {
            CANCEL_REQUEST => Draft::new(minor, flags, kind, 4),
            CLOSE_CONNECTION | MESSAGE_ERROR => Draft::new(minor, flags, kind, 0),
            _ if minor < 2 => Draft::new(minor, flags, kind, 1 + chance.below(80)),
            _ if chance.once_in(2) => Draft::new(minor, flags, kind, 4 + chance.below(80)),
            _ => Draft::new(minor, flags | MORE, kind, 4 + 8 * chance.below(10)),
        }
    }

    /// The octets, the body's by chance except for the id.
    pub fn octets(&self, chance: &mut Chance) -> Vec<u8> {
        let mut octets = Vec::with_capacity(HEADER_LENGTH + self.body);
        octets.extend_from_slice(&self.magic);
        octets.extend_from_slice(&[self.major, self.minor, self.flags, self.kind]);
        octets.extend_from_slice(&self.size.field(self.body, self.little()));
        octets.extend_from_slice(&chance.octets(self.body));
        let id_octets = octets.get_mut(HEADER_LENGTH..HEADER_LENGTH + 4);
        if let (Some(id), Some(octets)) = (self.id, id_octets) {
            octets.copy_from_slice(&ulong_octets(id, self.little()));
        }
        octets.truncate(self.kept);
        octets
    }

    /// Whether the flags say little-endian.
    fn little(&self) -> bool {
        self.flags & LITTLE != 0
    }
}

/// A fault to plant in a frame. Some are faults in some frames only.
#[derive(Clone, Copy)]
pub enum Fault {
    /// The whole has so many octets.
    Whole(usize),
    /// The frame is cut to so many octets.
    Cut(usize),
    /// The magic's octet at this index is another.
    Magic(usize),
    /// The major version is this.
    Major(u8),
    /// The minor version is this.
    Minor(u8),
    /// The flags of these bits are set.
    Flags(u8),
    /// The type is this.
    Kind(u8),
    /// The size field says this.
    Said(Size),
    /// The body has so many octets.
    Body(usize),
}

/// Faults of every row of the table, several kinds for most rows.
pub const FAULTS: [Fault; 36] = [
    Fault::Whole(4_097),
    Fault::Whole(4_096),
    Fault::Cut(0),
    Fault::Cut(4),
    Fault::Cut(8),
    Fault::Cut(11),
    Fault::Cut(12),
    Fault::Magic(0),
    Fault::Magic(3),
    Fault::Major(0),
    Fault::Major(2),
    Fault::Minor(3),
    Fault::Minor(255),
    Fault::Flags(MORE),
    Fault::Flags(4),
    Fault::Flags(128),
    Fault::Kind(FRAGMENT),
    Fault::Kind(8),
    Fault::Kind(255),
    Fault::Kind(CANCEL_REQUEST),
    Fault::Kind(CLOSE_CONNECTION),
    Fault::Said(Size::Off(1)),
    Fault::Said(Size::Off(-1)),
    Fault::Said(Size::Off(256)),
    Fault::Said(Size::Off(1 << 16)),
    Fault::Said(Size::Exactly(0)),
    Fault::Said(Size::Exactly(u32::MAX)),
    Fault::Said(Size::WrongOrder),
    Fault::Body(0),
    Fault::Body(1),
    Fault::Body(3),
    Fault::Body(4),
    Fault::Body(5),
    Fault::Body(8),
    Fault::Body(12),
    Fault::Body(13),
];

/// The types of the messages with a body of any length.
pub const OPEN_KINDS: [u8; 5] = [REQUEST, REPLY, LOCATE_REQUEST, LOCATE_REPLY, FRAGMENT];

impl Fault {
    /// Plants the fault.
    pub fn plant(self, draft: &mut Draft) {
        match self {
            Fault::Whole(length) => draft.body = length - HEADER_LENGTH,
            Fault::Cut(length) => draft.kept = length,
            Fault::Magic(index) => draft.magic[index] ^= 0x20,
            Fault::Major(major) => draft.major = major,
            Fault::Minor(minor) => draft.minor = minor,
            Fault::Flags(bits) => draft.flags |= bits,
            Fault::Kind(kind) => draft.kind = kind,
            Fault::Said(size) => draft.size = size,
            Fault::Body(length) => draft.body = length,
        }
    }
}
