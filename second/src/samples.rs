//! Types and values for the tests.

use crate::hexline::digits_into;
use crate::typecode::{ALIAS, ARRAY, ENUM, INDIRECTION, OCTET, SEQUENCE, STRUCT, UNION};
use crate::value::{Input, Lent};

/// The empty text.
pub const EMPTY: &[u8] = &[0, 0, 0, 1, 0];

/// The octets of digits and spaces.
pub fn octets(digits: &str) -> Vec<u8> {
    let mut octets = Vec::new();
    digits_into(digits.replace(' ', "").as_bytes(), &mut octets).expect("digits");
    octets
}

/// Big-endian numbers.
pub fn ulongs(numbers: &[u32]) -> Vec<u8> {
    numbers.iter().flat_map(|n| n.to_be_bytes()).collect()
}

/// A kind with an encapsulation of these parts, each at a multiple of 4.
pub fn capsule(kind: u32, parts: &[&[u8]]) -> Vec<u8> {
    let mut inner = vec![0];
    for part in parts {
        inner.resize(inner.len().next_multiple_of(4), 0);
        inner.extend_from_slice(part);
    }
    [ulongs(&[kind, inner.len() as u32]), inner].concat()
}

/// A kind without parameters.
pub fn plain(kind: u32) -> Vec<u8> {
    ulongs(&[kind])
}

/// An alias.
pub fn alias(of: &[u8]) -> Vec<u8> {
    capsule(ALIAS, &[EMPTY, EMPTY, of])
}

/// A sequence.
pub fn sequence(of: &[u8], bound: u32) -> Vec<u8> {
    capsule(SEQUENCE, &[of, &ulongs(&[bound])])
}

/// An array.
pub fn array(of: &[u8], length: u32) -> Vec<u8> {
    capsule(ARRAY, &[of, &ulongs(&[length])])
}

/// A struct or an exception.
pub fn with_members(kind: u32, members: &[&[u8]]) -> Vec<u8> {
    let count = ulongs(&[members.len() as u32]);
    let mut parts = vec![EMPTY, EMPTY, &count];
    for member in members {
        parts.extend([EMPTY, member]);
    }
    capsule(kind, &parts)
}

/// An enum of so many names.
pub fn enumeration(names: u32) -> Vec<u8> {
    let count = ulongs(&[names]);
    let mut parts = vec![EMPTY, EMPTY, &count];
    parts.extend((0..names).map(|_| EMPTY));
    capsule(ENUM, &parts)
}

/// A union with a default and a case for each label.
pub fn union(discriminant: &[u8], default: i32, cases: &[(&[u8], u32)]) -> Vec<u8> {
    let numbers = ulongs(&[default.cast_unsigned(), cases.len() as u32]);
    let types: Vec<Vec<u8>> = cases.iter().map(|&(_, kind)| plain(kind)).collect();
    let mut parts = vec![EMPTY, EMPTY, discriminant, &numbers];
    for ((label, _), case) in cases.iter().zip(&types) {
        parts.extend([label, EMPTY, case]);
    }
    capsule(UNION, &parts)
}

/// A struct of octets and of itself: a sequence of each.
pub fn tree() -> Vec<u8> {
    let octets = sequence(&plain(OCTET), 0);
    // The struct is at place 0; its second member's element, after the
    // first member and its own name, kind, length and order.
    let itself = |offset: i32| {
        let element = ulongs(&[INDIRECTION, offset.cast_unsigned()]);
        with_members(STRUCT, &[&octets, &sequence(&element, 0)])
    };
    let offset = itself(0).len() as i32 - 8;
    itself(-offset)
}

/// An input in which both are big-endian, at index 0.
pub fn input<'a>(typecode: &'a [u8], value: &'a [u8]) -> Input<'a> {
    let lent = |octets| Lent {
        octets,
        little: false,
    };
    Input {
        typecode: lent(typecode),
        value: lent(value),
        start: 0,
    }
}

/// A tree inside so many others, and the octets in it.
pub fn deep(levels: usize, octets: &[u8]) -> Vec<u8> {
    let mut value = ulongs(&[0, 1]).repeat(levels);
    value.extend(ulongs(&[octets.len() as u32]));
    value.extend(octets);
    value.resize(value.len().next_multiple_of(4), 0);
    value.extend(ulongs(&[0]));
    value
}
