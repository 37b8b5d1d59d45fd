//! Rewriting a value in another byte order and at another index.

use crate::refusal::{demand, RESULT_TOO_LONG};
use crate::value::{read_into, Input, Sink, LONGEST_VALUE};

/// The octets of the longest gap. A result has at most so many more than its
/// value: each primitive brings the two indices to a multiple of its size apart.
const LONGEST_GAP: usize = 7;

/// How a value is rewritten.
#[derive(Clone, Copy, Debug)]
pub struct Chosen {
    /// Whether the result is little-endian; if no order is named, it is not.
    pub little: Option<bool>,
    /// The index of the result's first octet, which is taken modulo 8.
    pub start: usize,
}

impl Chosen {
    /// Whether the result is little-endian.
    pub fn is_little(self) -> bool {
        self.little.unwrap_or(false)
    }
}

/// Rewrites a value into an output with room for so many octets; refusals as
/// reading without 56, then 57.
pub fn rewrite(input: Input, chosen: Chosen, room: usize) -> Result<Vec<u8>, u32> {
    let most = input.value.octets.len().min(LONGEST_VALUE) + LONGEST_GAP;
    let writer = Writer {
        octets: Vec::with_capacity(most),
        start: chosen.start % 8,
        turned: chosen.is_little() != input.value.little,
    };
    let reading = read_into(input, writer).map_err(|refused| refused.number)?;
    let Writer { octets, .. } = reading.sink;
    demand(octets.len() <= room, RESULT_TOO_LONG)?;
    Ok(octets)
}

/// A value in the writing.
struct Writer {
    /// The octets so far.
    octets: Vec<u8>,
    /// The index of the first octet, below 8. Gaps are counted from index 0.
    start: usize,
    /// Whether numbers are in the other order than they were.
    turned: bool,
}

impl Writer {
    /// Writes the gap before a number of so many octets.
    #[inline]
    fn gap(&mut self, size: usize) {
        let index = self.start + self.octets.len();
        let gap = index.next_multiple_of(size) - index;
        self.octets.resize(self.octets.len() + gap, 0);
    }
}

impl Sink for Writer {
    const AT_ONCE: bool = true;

    fn number<const SIZE: usize>(&mut self, mut octets: [u8; SIZE]) {
        self.gap(SIZE);
        if self.turned {
            octets.reverse();
        }
        self.octets.extend_from_slice(&octets);
    }

    fn numbers<const SIZE: usize>(&mut self, octets: &[u8]) {
        self.gap(SIZE);
        let first = self.octets.len();
        self.octets.extend_from_slice(octets);
        if self.turned && SIZE > 1 {
            for number in self.octets[first..].chunks_exact_mut(SIZE) {
                number.reverse();
            }
        }
    }

    fn octets(&mut self, octets: &[u8]) {
        self.octets.extend_from_slice(octets);
    }
}

#[cfg(test)]
mod tests {
    use super::*;
    use crate::samples::{
        alias, array, capsule, deep, enumeration, input, octets, plain, sequence, tree, ulongs,
        union, with_members, EMPTY,
    };
    use crate::typecode::{
        BOOLEAN, CHAR, DOUBLE, EXCEPTION, FLOAT, LONG, LONGLONG, OBJREF, OCTET, SHORT, STRING,
        STRUCT, ULONG, ULONGLONG, USHORT,
    };
    use crate::value::{read, Item, Lent, RUN};

    /// Room for every result.
    const ROOM: usize = 2 * LONGEST_VALUE;

    /// The orders that can be named, and none.
    const ORDERS: [Option<bool>; 3] = [Some(false), Some(true), None];

    /// What a value is made of.
    enum Part {
        /// A number, big-endian.
        Number(Vec<u8>),
        /// Octets as they are.
        Octets(Vec<u8>),
    }

    /// What a big-endian value at index 0 is made of, as its items say.
    fn parts(typecode: &[u8], value: &[u8]) -> Vec<Part> {
        let accepted = read(input(typecode, value), LONGEST_VALUE).expect("a value");
        let mut parts = Vec::new();
        for item in accepted.items {
            let range = item.range();
            if [STRING, RUN].contains(&item.kind) {
                parts.push(Part::Number(value[range.start..item.place].to_vec()));
                parts.push(Part::Octets(value[item.place..range.end].to_vec()));
            } else {
                parts.push(Part::Number(value[range].to_vec()));
            }
        }
        parts
    }

    /// The parts in an order from an index on, with these gaps.
    fn laid_out(parts: &[Part], little: bool, start: usize, gap: u8) -> Vec<u8> {
        let mut octets = Vec::new();
        for part in parts {
            match part {
                Part::Number(number) => {
                    while !(start % 8 + octets.len()).is_multiple_of(number.len()) {
                        octets.push(gap);
                    }
                    match little {
                        true => octets.extend(number.iter().rev()),
                        false => octets.extend(number),
                    }
                }
                Part::Octets(plain) => octets.extend(plain),
            }
        }
        octets
    }

    /// A value in an order at an index.
    fn lent<'a>(typecode: &'a [u8], value: &'a [u8], little: bool, start: usize) -> Input<'a> {
        let octets = value;
        Input {
            value: Lent { octets, little },
            start,
            ..input(typecode, value)
        }
    }

    /// Holds a rewriting to what is expected, with just the room, more and less,
    /// and octets after the value; the result to the value's items and visits;
    /// and what it is rewritten to as the value was to the value, gaps zeroed.
    fn hold(from: Input, chosen: Chosen, expected: &[u8]) {
        let count = expected.len();
        for room in [count, count + 1, usize::MAX] {
            assert_eq!(rewrite(from, chosen, room).as_deref(), Ok(expected));
        }
        for room in (0..count).rev().step_by(3) {
            assert_eq!(rewrite(from, chosen, room), Err(57));
        }
        let mut longer = from;
        let more = [from.value.octets, &[0xEE; 9]].concat();
        longer.value.octets = &more;
        assert_eq!(rewrite(longer, chosen, count).as_deref(), Ok(expected));

        let little = chosen.is_little();
        let result = lent(from.typecode.octets, expected, little, chosen.start);
        let first = read(from, LONGEST_VALUE).expect("a value");
        let again = read(result, LONGEST_VALUE).expect("a value");
        assert_eq!((again.used, again.visits), (count, first.visits));
        let contents = |items: Vec<Item>| -> Vec<(u32, u64)> {
            let contents = items.iter().map(|item| (item.kind, item.content));
            contents.collect()
        };
        let zeroed = first.gaps_zeroed(from.value.octets);
        assert!(count <= first.used + LONGEST_GAP);
        assert_eq!(contents(again.items), contents(first.items));
        let back = Chosen {
            little: Some(from.value.little),
            start: from.start,
        };
        assert_eq!(rewrite(result, back, zeroed.len()), Ok(zeroed));
    }

    /// Holds a big-endian value at index 0, whose gaps do not matter, in every
    /// order and at every index to every other.
    fn hold_all(typecode: &[u8], value: &str) {
        let parts = parts(typecode, &octets(value));
        for little in [false, true] {
            for start in (0..8).chain([usize::MAX - 2]) {
                let value = laid_out(&parts, little, start, 0xEE);
                let from = lent(typecode, &value, little, start);
                for named in ORDERS {
                    for start in (0..8).chain([8, usize::MAX]) {
                        let expected = laid_out(&parts, named == Some(true), start, 0);
                        hold(
                            from,
                            Chosen {
                                little: named,
                                start,
                            },
                            &expected,
                        );
                    }
                }
            }
        }
    }

    /// A big-endian value at index 0 in an order and at an index, as digits.
    fn answer(typecode: &[u8], value: &str, little: bool, start: usize) -> Result<Vec<u8>, u32> {
        let value = octets(value);
        let chosen = Chosen {
            little: Some(little),
            start,
        };
        rewrite(input(typecode, &value), chosen, ROOM)
    }

    #[test]
    fn sample() {
        let t = octets("00000013 0000000C 00000000 00000003 00000000");
        let value = "00000002 00000001 FFFFFFFF";
        let little = octets("02000000 01000000 FFFFFFFF");
        assert_eq!(answer(&t, value, true, 0), Ok(little.clone()));
        assert_eq!(answer(&t, value, false, 0), Ok(octets(value)));
        // No order named.
        let unnamed = Chosen {
            little: None,
            start: 0,
        };
        let big = octets(value);
        assert_eq!(rewrite(input(&t, &big), unnamed, 12), Ok(big.clone()));
        let from_little = lent(&t, &little, true, 0);
        assert_eq!(rewrite(from_little, unnamed, 12), Ok(big));
        hold_all(&t, value);
        hold_all(&t, "00000000");
    }

    #[test]
    fn scalars_of_every_kind() {
        for (kind, value) in [
            (SHORT, "8001"),
            (LONG, "80000102"),
            (USHORT, "8001"),
            (ULONG, "80010203"),
            // Signalling and quiet.
            (FLOAT, "7F800001"),
            (FLOAT, "FFC00001"),
            (DOUBLE, "7FF0000000000001"),
            (DOUBLE, "FFF8000000000001"),
            (BOOLEAN, "01"),
            (CHAR, "FF"),
            (OCTET, "80"),
            (LONGLONG, "8001020304050607"),
            (ULONGLONG, "8001020304050607"),
        ] {
            let typecode = plain(kind);
            let size = value.len() / 2;
            let mut little = octets(value);
            little.reverse();
            for start in 0..8 {
                // Reading W1: the gap before the first belongs to the result.
                let gap = vec![0; (8 - start) % size];
                let big = [&gap[..], &octets(value)].concat();
                assert_eq!(answer(&typecode, value, false, start), Ok(big));
                let little = [&gap[..], &little].concat();
                assert_eq!(answer(&typecode, value, true, start), Ok(little));
            }
            hold_all(&typecode, value);
        }
        hold_all(&enumeration(3), "00000002");
    }

    #[test]
    fn nothing_is_no_octets() {
        for kind in [0, 1] {
            hold_all(&plain(kind), "");
            assert_eq!(answer(&plain(kind), "EEEE", true, 3), Ok(vec![]));
        }
    }

    #[test]
    fn gaps_are_the_smallest_and_zero() {
        let kinds = [OCTET, SHORT, LONG, DOUBLE, CHAR].map(plain);
        let members: Vec<&[u8]> = kinds.iter().map(|kind| &kind[..]).collect();
        let typecode = with_members(STRUCT, &members);
        let value = "01 EE 0203 04050607 08090A0B0C0D0E0F 10";
        for (start, expected) in [
            (0, "01 00 0302 07060504 0F0E0D0C0B0A0908 10"),
            (1, "01 0302 07060504 0F0E0D0C0B0A0908 10"),
            (2, "01 00 0302 0000 07060504 00000000 0F0E0D0C0B0A0908 10"),
            (3, "01 0302 0000 07060504 00000000 0F0E0D0C0B0A0908 10"),
            (4, "01 00 0302 07060504 00000000 0F0E0D0C0B0A0908 10"),
            (5, "01 0302 07060504 00000000 0F0E0D0C0B0A0908 10"),
            (6, "01 00 0302 0000 07060504 0F0E0D0C0B0A0908 10"),
            (7, "01 0302 0000 07060504 0F0E0D0C0B0A0908 10"),
        ] {
            let expected = octets(expected);
            assert_eq!(answer(&typecode, value, true, start), Ok(expected));
        }
        hold_all(&typecode, value);
        let kinds = [DOUBLE, LONG, SHORT, OCTET].map(plain);
        let members: Vec<&[u8]> = kinds.iter().map(|kind| &kind[..]).collect();
        let typecode = array(&with_members(STRUCT, &members), 2);
        let one = "08090A0B0C0D0E0F 04050607 0203 01 EE";
        hold_all(&typecode, &one.repeat(2));
    }

    #[test]
    fn texts_keep_their_octets() {
        let string = ulongs(&[STRING, 3]);
        let value = "00000004 414243 00";
        let expected = octets("0000 04000000 414243 00");
        assert_eq!(answer(&string, value, true, 6), Ok(expected));
        hold_all(&string, value);
        hold_all(&string, "00000001 00");
        let typecode = sequence(&string, 0);
        hold_all(
            &typecode,
            "00000003 00000002 4100 EEEE 00000001 00 EEEEEE 00000004 FFFEFD 00",
        );
        let typecode = with_members(STRUCT, &[&string, &plain(DOUBLE)]);
        hold_all(&typecode, "00000001 00 EEEEEE 0102030405060708");
    }

    #[test]
    fn sequences_and_arrays() {
        for (kind, element) in [
            (OCTET, "01"),
            (SHORT, "0102"),
            (FLOAT, "01020304"),
            (ULONGLONG, "0102030405060708"),
            (BOOLEAN, "01"),
        ] {
            let gap = if kind == ULONGLONG { "EEEEEEEE" } else { "" };
            let value = |count| format!("{count:08X} {gap} {}", element.repeat(count));
            hold_all(&sequence(&plain(kind), 0), &value(3));
            hold_all(&sequence(&alias(&plain(kind)), 3), &value(3));
            hold_all(&array(&plain(kind), 5), &element.repeat(5));
            // There is no gap where nothing follows.
            hold_all(&sequence(&plain(kind), 0), "00000000");
        }
        let empty = answer(&sequence(&plain(DOUBLE), 0), "00000000", false, 4);
        assert_eq!(empty, Ok(octets("00000000")));
        hold_all(&sequence(&enumeration(3), 0), "00000002 00000000 00000002");
        hold_all(&tree(), "00000000 00000001 00000001 07EEEEEE 00000000");
    }

    #[test]
    fn objrefs() {
        let typecode = capsule(OBJREF, &[EMPTY, EMPTY]);
        let two = "00000002 4100 EEEE 00000002 \
            FFFFFF00 00000003 010203 EE 00000001 00000000";
        let expected = "00 02000000 4100 0000 02000000 \
            00FFFFFF 03000000 010203 00 01000000 00000000";
        assert_eq!(answer(&typecode, two, true, 3), Ok(octets(expected)));
        hold_all(&typecode, two);
        hold_all(&typecode, "00000001 00 EEEEEE 00000000");
    }

    #[test]
    fn exceptions() {
        let typecode = with_members(EXCEPTION, &[&plain(SHORT), &plain(LONGLONG)]);
        let value = "00000003 4142 00 EE 0102 EEEEEEEEEEEE 0102030405060708";
        hold_all(&typecode, value);
        let expected = "03000000 4142 00 00 0201 000000000000 0807060504030201";
        assert_eq!(answer(&typecode, value, true, 0), Ok(octets(expected)));
        hold_all(&with_members(EXCEPTION, &[]), "00000001 00");
    }

    #[test]
    fn unions() {
        let labels: [(&[u8], u32); 2] = [(&[0x80, 0x01], OCTET), (&[0x00, 0x05], DOUBLE)];
        for default in [-1, 0, 1] {
            let typecode = union(&plain(SHORT), default, &labels);
            hold_all(&typecode, "8001 09");
            hold_all(&typecode, "0005 EEEEEEEEEEEE 0102030405060708");
        }
        // The other order of a label is none, so that the default is chosen.
        let first = union(&plain(SHORT), 0, &labels);
        let turned = answer(&first, "0500 09", true, 0);
        assert_eq!(turned, Ok(octets("0005 09")));
        hold_all(&first, "0500 09");
        hold_all(&union(&plain(SHORT), -1, &labels), "0500");
        let boolean = union(&alias(&plain(BOOLEAN)), -1, &[(&[1], LONG)]);
        hold_all(&boolean, "01 EEEEEE 01020304");
        hold_all(&boolean, "00");
        let choice = union(&enumeration(2), -1, &[(&[0, 0, 0, 1], ULONGLONG)]);
        hold_all(&choice, "00000001 EEEEEEEE 0102030405060708");
    }

    #[test]
    fn refusals_of_reading_come_before_57() {
        let string = ulongs(&[STRING, 1]);
        let long = vec![0; LONGEST_VALUE + 1];
        let deep = deep(32, &[]);
        let cases: [(&[u8], &[u8], u32); 16] = [
            (&[], &[], 30),
            (&ulongs(&[11]), &[], 31),
            (&long, &[], 42),
            (&plain(OCTET), &long, 42),
            (&[], &long, 42),
            (&plain(LONG), &[1, 2, 3], 50),
            (&sequence(&plain(OCTET), 0), &[255, 255, 255, 255, 1], 50),
            (&sequence(&plain(DOUBLE), 0), &[0, 0, 0, 1, 1], 50),
            (&array(&plain(LONG), 2), &[1, 2, 3, 4, 5, 6, 7], 50),
            (&plain(BOOLEAN), &[2], 51),
            (&array(&plain(BOOLEAN), 3), &[1, 1, 2], 51),
            (&enumeration(2), &[0, 0, 0, 2], 52),
            (&string, &[0, 0, 0, 0], 53),
            (&string, &[0, 0, 0, 1, 1], 53),
            (&string, &[0, 0, 0, 3, 1, 1, 0], 54),
            (&tree(), &deep, 55),
        ];
        for (typecode, value, number) in cases {
            for room in [0, 1, ROOM] {
                for little in ORDERS {
                    let chosen = Chosen { little, start: 5 };
                    let answer = rewrite(input(typecode, value), chosen, room);
                    assert_eq!(answer, Err(number));
                }
            }
        }
        assert_eq!(
            answer(&sequence(&plain(OCTET), 1), "00000002 0102", true, 0),
            Err(54)
        );
        // A fault in the last element, far behind the output's end.
        let booleans = [&ulongs(&[9])[..], &[1; 8], &[2]].concat();
        let chosen = Chosen {
            little: None,
            start: 0,
        };
        let refused = rewrite(input(&sequence(&plain(BOOLEAN), 0), &booleans), chosen, 3);
        assert_eq!(refused, Err(51));
    }

    #[test]
    fn a_result_may_be_over_16384_octets() {
        // Reading W2. The elements follow the count at index 4 without a gap.
        let typecode = sequence(&plain(DOUBLE), 0);
        let count = (LONGEST_VALUE - 4) / 8;
        let value = [&ulongs(&[count as u32])[..], &vec![7; 8 * count]].concat();
        assert_eq!(value.len(), LONGEST_VALUE - 4);
        let from = lent(&typecode, &value, false, 4);
        for (start, length) in [
            (0, LONGEST_VALUE),
            (4, LONGEST_VALUE - 4),
            (1, LONGEST_VALUE - 1),
            (5, LONGEST_VALUE + 3),
            (7, LONGEST_VALUE + 1),
        ] {
            let chosen = Chosen {
                little: Some(true),
                start,
            };
            let result = rewrite(from, chosen, length).expect("a result");
            assert_eq!(result.len(), length);
            assert_eq!(rewrite(from, chosen, length - 1), Err(57));
            assert!(result.ends_with(&value[4..]));
        }
    }
}
