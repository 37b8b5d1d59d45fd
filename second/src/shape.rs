//! What kinds of type say of their values.

use std::ops::Range;

use crate::typecode::{
    BOOLEAN, CHAR, DOUBLE, ENUM, FLOAT, LONG, LONGLONG, OCTET, SHORT, ULONG, ULONGLONG, USHORT,
};

/// An accepted TypeCode as the reader of its values needs it. Kinds are named by
/// their index in the order met, an indirection by its target's.
#[derive(Clone, Debug, PartialEq, Eq)]
pub struct Digest {
    /// The octets of the TypeCode; those after it are not read.
    pub used: usize,
    /// What each kind written is; the top is the first.
    shapes: Vec<Shape>,
    /// The members of all structs, unions and exceptions.
    members: Vec<Member>,
}

impl Digest {
    /// A TypeCode of these kinds and members.
    pub fn new(used: usize, shapes: Vec<Shape>, members: Vec<Member>) -> Self {
        Digest {
            used,
            shapes,
            members,
        }
    }

    /// What a kind is.
    pub fn shape(&self, kind: usize) -> Shape {
        self.shapes[kind]
    }

    /// Members of a struct, union or exception.
    pub fn members(&self, members: Members) -> &[Member] {
        &self.members[members.range()]
    }

    /// The member of a union that a discriminant, taken as unsigned, chooses, if
    /// any.
    pub fn chosen(&self, union: Union, discriminant: u64) -> Option<usize> {
        let members = self.members(union.members);
        match members.binary_search_by_key(&discriminant, |member| member.label) {
            Ok(index) => Some(members[index].kind),
            Err(_) => union.default,
        }
    }
}

/// A kind and what its parameters say of values.
#[derive(Clone, Copy, Debug, PartialEq, Eq)]
pub enum Shape {
    /// Null or void.
    Nothing,
    /// A primitive or an enum.
    Scalar(Scalar),
    /// A string, with its bound; 0 is none.
    Text(u32),
    /// An objref.
    Objref,
    /// A struct, with its members.
    Struct(Members),
    /// An exception, with its members.
    Exception(Members),
    /// A union.
    Union(Union),
    /// A sequence, with its element and its bound; 0 is none.
    Sequence(usize, u32),
    /// An array, with its element and its length.
    Array(usize, u32),
    /// An alias, with what it stands for.
    Alias(usize),
}

/// A primitive or an enum: what is read as one number.
#[derive(Clone, Copy, Debug, PartialEq, Eq)]
pub struct Scalar {
    /// Which kind it is.
    pub number: u32,
    /// Its octets.
    pub size: Size,
    /// The highest there can be, taken as unsigned.
    pub highest: u64,
}

/// The octets of a scalar.
#[derive(Clone, Copy, Debug, PartialEq, Eq)]
pub enum Size {
    /// One octet.
    One,
    /// Two octets.
    Two,
    /// Four octets.
    Four,
    /// Eight octets.
    Eight,
}

impl Size {
    /// How many octets these are.
    pub fn octets(self) -> usize {
        match self {
            Size::One => 1,
            Size::Two => 2,
            Size::Four => 4,
            Size::Eight => 8,
        }
    }
}

/// What a union's members are chosen by.
#[derive(Clone, Copy, Debug, PartialEq, Eq)]
pub struct Union {
    /// The discriminant.
    pub discriminant: usize,
    /// The members, their labels in rising order.
    pub members: Members,
    /// The default member, if there is one.
    pub default: Option<usize>,
}

/// A member of a struct, union or exception.
#[derive(Clone, Copy, Debug, PartialEq, Eq)]
pub struct Member {
    /// The label, taken as unsigned; 0 if it is no union's.
    pub label: u64,
    /// The kind.
    pub kind: usize,
}

/// Where the members of a kind are among all.
#[derive(Clone, Copy, Debug, PartialEq, Eq)]
pub struct Members {
    /// The first one's index.
    first: u32,
    /// How many there are.
    count: u32,
}

impl Members {
    /// The members in this range of all.
    pub fn new(range: Range<usize>) -> Self {
        // There are fewer than octets of a TypeCode.
        Members {
            first: range.start as u32,
            count: range.len() as u32,
        }
    }

    /// The range among all.
    fn range(self) -> Range<usize> {
        let first = self.first as usize;
        first..first + self.count as usize
    }
}

impl Scalar {
    /// A primitive, if the kind is one's.
    pub fn primitive(number: u32) -> Option<Self> {
        let (size, highest) = match number {
            BOOLEAN => (Size::One, 1),
            CHAR | OCTET => (Size::One, u64::MAX),
            SHORT | USHORT => (Size::Two, u64::MAX),
            LONG | ULONG | FLOAT => (Size::Four, u64::MAX),
            LONGLONG | ULONGLONG | DOUBLE => (Size::Eight, u64::MAX),
            _ => return None,
        };
        Some(Scalar {
            number,
            size,
            highest,
        })
    }

    /// An enum of so many names, which are not 0.
    pub fn enumeration(names: u32) -> Self {
        Scalar {
            number: ENUM,
            size: Size::Four,
            highest: u64::from(names) - 1,
        }
    }

    /// Whether a union can be chosen by it.
    pub fn can_choose(&self) -> bool {
        !matches!(self.number, FLOAT | DOUBLE | OCTET)
    }

    /// Whether any octets will do for it.
    pub fn is_any(&self) -> bool {
        self.highest == u64::MAX
    }

    /// Whether it is a signed number.
    pub fn is_signed(&self) -> bool {
        matches!(self.number, SHORT | LONG | LONGLONG)
    }
}
