//! Reading a value of a TypeCode.

use std::ffi::CStr;
use std::ops::Range;

use crate::primitive::{number, ulong};
use crate::refusal::{
    demand, BOOLEAN_UNFIT, BOUND_PASSED, ENUM_UNFIT, NO_ROOM, NO_SUCH_ITEM, OCTETS_TOO_MANY,
    STRING_UNFIT, TOO_MANY_OPEN, VALUE_CUT,
};
use crate::shape::{Digest, Members, Scalar, Shape, Size, Union};
use crate::typecode::{
    digest, BOOLEAN, DOUBLE, ENUM, FLOAT, LONG, LONGEST_TYPE, LONGLONG, SEQUENCE, SHORT, STRING,
    ULONG,
};

/// The most octets of a value that are lent.
pub const LONGEST_VALUE: usize = 16_384;
/// The most visits that are open at once.
pub const MOST_OPEN: usize = 64;
/// What the item of an octet run has in the place of a kind.
pub const RUN: u32 = 256;

/// Octets lent in a byte order.
#[derive(Clone, Copy, Debug)]
pub struct Lent<'a> {
    /// The octets.
    pub octets: &'a [u8],
    /// Whether they are little-endian.
    pub little: bool,
}

/// A value to be read.
#[derive(Clone, Copy, Debug)]
pub struct Input<'a> {
    /// The TypeCode.
    pub typecode: Lent<'a>,
    /// The value.
    pub value: Lent<'a>,
    /// The index of the value's first octet, which is taken modulo 8.
    pub start: usize,
}

/// A primitive, enum, text, count, tag or octet run of a value.
#[derive(Clone, Copy, Debug, PartialEq, Eq)]
pub struct Item {
    /// The kind: that of a primitive or enum, 18 for a text, 19 for a count, 5
    /// for a tag, 256 for an octet run.
    pub kind: u32,
    /// The offset in the value octets, after any gap and any length.
    pub place: usize,
    /// The number, sign-extended or zero-extended, or the length.
    pub content: u64,
}

impl Item {
    /// Where its octets are, with the length before a text or an octet run and
    /// the zero after a text.
    pub fn range(&self) -> Range<usize> {
        let Item {
            kind,
            place,
            content,
        } = *self;
        let length = size_of::<u32>();
        match kind {
            STRING => place - length..place + content as usize + 1,
            RUN => place - length..place + content as usize,
            SEQUENCE | ENUM => place..place + length,
            _ => {
                let size = Scalar::primitive(kind).map_or(0, |scalar| scalar.size.octets());
                place..place + size
            }
        }
    }
}

/// An accepted value.
#[derive(Clone, Debug, PartialEq, Eq)]
pub struct Accepted {
    /// The octets used; those after them are not read.
    pub used: usize,
    /// The visits.
    pub visits: u64,
    /// The items in reading order.
    pub items: Vec<Item>,
}

impl Accepted {
    /// The octets used of those that were read, with all gaps zero.
    pub fn gaps_zeroed(&self, octets: &[u8]) -> Vec<u8> {
        let mut zeroed = vec![0; self.used];
        for range in self.items.iter().map(Item::range) {
            zeroed[range.clone()].copy_from_slice(&octets[range]);
        }
        zeroed
    }
}

/// A refused value.
#[derive(Clone, Copy, Debug, PartialEq, Eq)]
pub struct Refused {
    /// The number that says why.
    pub number: u32,
    /// The visits begun.
    pub visits: u64,
}

impl Refused {
    /// Refused before any visit.
    fn unvisited(number: u32) -> Self {
        Refused { number, visits: 0 }
    }
}

/// The content of an item asked for by number; of the floats, the recorded bits.
#[derive(Clone, Copy, Debug, PartialEq, Eq)]
pub enum Content {
    /// A short, long or longlong.
    Signed(i64),
    /// Any other number, a text's or run's length, a count or a tag.
    Unsigned(u64),
    /// The bits of a float.
    Single(u32),
    /// The bits of a double.
    Double(u64),
}

impl From<Item> for Content {
    fn from(item: Item) -> Self {
        match item.kind {
            SHORT | LONG | LONGLONG => Content::Signed(item.content.cast_signed()),
            FLOAT => Content::Single(item.content as u32),
            DOUBLE => Content::Double(item.content),
            _ => Content::Unsigned(item.content),
        }
    }
}

/// Reads a value into a table with room for so many items; refusal 42, then the
/// type's, then the first of 50 to 56 in reading order.
pub fn read(input: Input, room: usize) -> Result<Accepted, Refused> {
    // Every item takes an octet at least.
    let most = room.min(input.value.octets.len());
    let table = Table {
        items: Vec::with_capacity(most.min(LONGEST_VALUE)),
        room,
    };
    let Reading {
        used,
        visits,
        sink: Table { items, .. },
    } = read_into(input, table)?;
    Ok(Accepted {
        used,
        visits,
        items,
    })
}

/// Reads a value for its item of this number, from 0; refusals as reading
/// without 56, then 49.
pub fn item(input: Input, number: u64) -> Result<Content, u32> {
    let search = Search {
        left: number,
        found: None,
    };
    match read_into(input, search) {
        Ok(reading) => reading.sink.found.map(Content::from).ok_or(NO_SUCH_ITEM),
        Err(refused) => Err(refused.number),
    }
}

/// What hears of a value as it is read.
pub(crate) trait Sink {
    /// Whether it hears of elements at once if any octets will do for them, and
    /// not of each one and its item.
    const AT_ONCE: bool = false;

    /// Hears of a primitive, enum, length, count or tag.
    fn number<const SIZE: usize>(&mut self, _octets: [u8; SIZE]) {}

    /// Hears of such numbers in a row, one at least.
    fn numbers<const SIZE: usize>(&mut self, _octets: &[u8]) {}

    /// Hears of the octets of a text or an octet run.
    fn octets(&mut self, _octets: &[u8]) {}

    /// Takes a finished item; refusal 56.
    fn take(&mut self, _item: Item) -> Result<(), u32> {
        Ok(())
    }
}

/// A table with room for so many items.
struct Table {
    /// The items so far.
    items: Vec<Item>,
    /// The most there can be.
    room: usize,
}

impl Sink for Table {
    fn take(&mut self, item: Item) -> Result<(), u32> {
        demand(self.items.len() < self.room, NO_ROOM)?;
        self.items.push(item);
        Ok(())
    }
}

/// A search for one item.
struct Search {
    /// The items before it.
    left: u64,
    /// The item.
    found: Option<Item>,
}

impl Sink for Search {
    fn take(&mut self, item: Item) -> Result<(), u32> {
        match self.left.checked_sub(1) {
            Some(left) => self.left = left,
            None => {
                self.found.get_or_insert(item);
            }
        }
        Ok(())
    }
}

/// What reading a value has brought.
pub(crate) struct Reading<S> {
    /// The octets used.
    pub used: usize,
    /// The visits.
    pub visits: u64,
    /// What has heard of the value.
    pub sink: S,
}

/// Reads a value of which the sink hears.
pub(crate) fn read_into<S: Sink>(input: Input, sink: S) -> Result<Reading<S>, Refused> {
    let Input {
        typecode,
        value,
        start,
    } = input;
    let fit = typecode.octets.len() <= LONGEST_TYPE && value.octets.len() <= LONGEST_VALUE;
    demand(fit, OCTETS_TOO_MANY).map_err(Refused::unvisited)?;
    let digest = digest(typecode.octets, typecode.little).map_err(Refused::unvisited)?;
    let mut reader = Reader {
        digest: &digest,
        octets: value.octets,
        offset: 0,
        start: start % 8,
        little: value.little,
        open: 0,
        visits: 0,
        scalar: 0,
        sink,
    };
    match reader.visit(0) {
        Ok(()) => Ok(Reading {
            used: reader.offset,
            visits: reader.visits,
            sink: reader.sink,
        }),
        Err(number) => Err(Refused {
            number,
            visits: reader.visits,
        }),
    }
}

/// A value in the reading.
struct Reader<'a, S> {
    /// The type.
    digest: &'a Digest,
    /// The value's octets.
    octets: &'a [u8],
    /// The next octet's offset, not above their number.
    offset: usize,
    /// The index of the first octet, below 8. Gaps are counted from index 0.
    start: usize,
    /// Whether the value is little-endian.
    little: bool,
    /// The visits that are open.
    open: usize,
    /// The visits begun.
    visits: u64,
    /// The scalar read last, taken as unsigned.
    scalar: u64,
    /// What hears of the value.
    sink: S,
}

impl<'a, S: Sink> Reader<'a, S> {
    /// Visits a kind; refusal 55, then the first in its value.
    fn visit(&mut self, kind: usize) -> Result<(), u32> {
        demand(self.open < MOST_OPEN, TOO_MANY_OPEN)?;
        self.visits += 1;
        self.open += 1;
        match self.digest.shape(kind) {
            Shape::Nothing => {}
            Shape::Scalar(scalar) => self.scalar(scalar)?,
            Shape::Text(bound) => self.text(bound)?,
            Shape::Objref => self.objref()?,
            Shape::Struct(members) => self.members(members)?,
            Shape::Exception(members) => self.exception(members)?,
            Shape::Union(union) => self.union(union)?,
            Shape::Sequence(element, bound) => self.sequence(element, bound)?,
            Shape::Array(element, length) => self.elements(element, length)?,
            Shape::Alias(aliased) => self.visit(aliased)?,
        }
        self.open -= 1;
        Ok(())
    }

    /// Visits the members of a struct or exception.
    fn members(&mut self, members: Members) -> Result<(), u32> {
        let members = self.digest.members(members).iter();
        members
            .map(|member| member.kind)
            .try_for_each(|kind| self.visit(kind))
    }

    /// Reads an exception: its id, which is no visit, and its members.
    fn exception(&mut self, members: Members) -> Result<(), u32> {
        self.text(0)?;
        self.members(members)
    }

    /// Visits a union's discriminant, and the member that it chooses.
    fn union(&mut self, union: Union) -> Result<(), u32> {
        self.visit(union.discriminant)?;
        match self.digest.chosen(union, self.scalar) {
            Some(member) => self.visit(member),
            None => Ok(()),
        }
    }

    /// Reads a sequence: its count, then visits its elements.
    fn sequence(&mut self, element: usize, bound: u32) -> Result<(), u32> {
        let (place, count) = self.ulong()?;
        demand(bound == 0 || count <= bound, BOUND_PASSED)?;
        self.finish(SEQUENCE, place, count.into())?;
        self.elements(element, count)
    }

    /// Visits so many elements. Those that are scalars are read here: each is a
    /// visit in which no other begins.
    fn elements(&mut self, element: usize, count: u32) -> Result<(), u32> {
        match self.digest.shape(element) {
            Shape::Scalar(scalar) if count > 0 => {
                demand(self.open < MOST_OPEN, TOO_MANY_OPEN)?;
                self.scalar_elements(scalar, count)
            }
            _ => (0..count).try_for_each(|_| self.visit(element)),
        }
    }

    /// Reads so many elements that are scalars, each of them a visit.
    fn scalar_elements(&mut self, scalar: Scalar, count: u32) -> Result<(), u32> {
        match scalar.size {
            Size::One => self.sized_elements::<1>(scalar, count),
            Size::Two => self.sized_elements::<2>(scalar, count),
            Size::Four => self.sized_elements::<4>(scalar, count),
            Size::Eight => self.sized_elements::<8>(scalar, count),
        }
    }

    /// Reads such elements of so many octets each.
    fn sized_elements<const SIZE: usize>(&mut self, scalar: Scalar, count: u32) -> Result<(), u32> {
        if S::AT_ONCE && scalar.is_any() {
            return self.elements_at_once::<SIZE>(count);
        }
        for _ in 0..count {
            self.visits += 1;
            self.sized_scalar::<SIZE>(scalar)?;
        }
        Ok(())
    }

    /// Reads so many elements, one at least, for which any octets will do;
    /// refusal 50. There is a gap before the first one only.
    fn elements_at_once<const SIZE: usize>(&mut self, count: u32) -> Result<(), u32> {
        let place = self.place(SIZE);
        let rest = self.octets.get(place..).unwrap_or(&[]);
        let (count, there) = (count as usize, rest.len() / SIZE);
        // The one that is cut is a visit too.
        self.visits += count.min(there + 1) as u64;
        demand(count <= there, VALUE_CUT)?;
        let octets = &rest[..count * SIZE];
        self.offset = place + octets.len();
        self.sink.numbers::<SIZE>(octets);
        Ok(())
    }

    /// Reads a scalar; refusals 50, 51, 52, 56.
    fn scalar(&mut self, scalar: Scalar) -> Result<(), u32> {
        match scalar.size {
            Size::One => self.sized_scalar::<1>(scalar),
            Size::Two => self.sized_scalar::<2>(scalar),
            Size::Four => self.sized_scalar::<4>(scalar),
            Size::Eight => self.sized_scalar::<8>(scalar),
        }
    }

    /// Reads a scalar of so many octets.
    fn sized_scalar<const SIZE: usize>(&mut self, scalar: Scalar) -> Result<(), u32> {
        let (place, octets) = self.primitive()?;
        self.scalar = number::<SIZE>(octets, self.little);
        if self.scalar > scalar.highest {
            return Err(match scalar.number {
                BOOLEAN => BOOLEAN_UNFIT,
                _ => ENUM_UNFIT,
            });
        }
        let content = match scalar.is_signed() {
            true => sign_extended::<SIZE>(self.scalar),
            false => self.scalar,
        };
        self.finish(scalar.number, place, content)
    }

    /// Reads an objref: its text, its count of profiles, and of each a tag and
    /// an octet run.
    fn objref(&mut self) -> Result<(), u32> {
        self.text(0)?;
        let (place, profiles) = self.ulong()?;
        self.finish(SEQUENCE, place, profiles.into())?;
        for _ in 0..profiles {
            let (place, tag) = self.ulong()?;
            self.finish(ULONG, place, tag.into())?;
            self.run()?;
        }
        Ok(())
    }

    /// Reads a text with a bound, 0 for none; refusals 50, 53, 54, 50, 53, 56.
    fn text(&mut self, bound: u32) -> Result<(), u32> {
        let (_, length) = self.ulong()?;
        let content = length.checked_sub(1).ok_or(STRING_UNFIT)?;
        demand(bound == 0 || content <= bound, BOUND_PASSED)?;
        let (place, octets) = self.counted(length)?;
        demand(CStr::from_bytes_with_nul(octets).is_ok(), STRING_UNFIT)?;
        self.finish(STRING, place, content.into())
    }

    /// Reads an octet run after its length; refusals 50, 56.
    fn run(&mut self) -> Result<(), u32> {
        let (_, length) = self.ulong()?;
        let (place, _) = self.counted(length)?;
        self.finish(RUN, place, length.into())
    }

    /// Reads so many octets, and says where they are; refusal 50.
    fn counted(&mut self, length: u32) -> Result<(usize, &'a [u8]), u32> {
        let place = self.offset;
        let rest = &self.octets[place..];
        let octets = rest.get(..length as usize).ok_or(VALUE_CUT)?;
        self.offset += octets.len();
        self.sink.octets(octets);
        Ok((place, octets))
    }

    /// Reads an unsigned long, and says where it is; refusal 50.
    fn ulong(&mut self) -> Result<(usize, u32), u32> {
        let (place, octets) = self.primitive()?;
        Ok((place, ulong(octets, self.little)))
    }

    /// Reads a primitive of so many octets after its gap, and says where it is;
    /// refusal 50.
    fn primitive<const SIZE: usize>(&mut self) -> Result<(usize, [u8; SIZE]), u32> {
        let place = self.place(SIZE);
        let rest = self.octets.get(place..).ok_or(VALUE_CUT)?;
        let octets = rest.first_chunk().ok_or(VALUE_CUT)?;
        self.offset = place + SIZE;
        self.sink.number(*octets);
        Ok((place, *octets))
    }

    /// Where the next primitive of so many octets is, after its gap.
    fn place(&self, size: usize) -> usize {
        let index = self.start + self.offset;
        index.next_multiple_of(size) - self.start
    }

    /// Finishes an item; refusal 56.
    fn finish(&mut self, kind: u32, place: usize, content: u64) -> Result<(), u32> {
        self.sink.take(Item {
            kind,
            place,
            content,
        })
    }
}

/// A number of so many octets with its sign in all 64 bits.
fn sign_extended<const SIZE: usize>(number: u64) -> u64 {
    let unused = 64 - 8 * SIZE;
    ((number << unused).cast_signed() >> unused).cast_unsigned()
}

#[cfg(test)]
mod tests {
    use super::*;
    use crate::samples::{
        alias, array, capsule, deep, enumeration, input, octets, plain, sequence, tree, ulongs,
        union, with_members, EMPTY,
    };
    use crate::typecode::{CHAR, EXCEPTION, OBJREF, OCTET, STRUCT, ULONGLONG, USHORT};

    /// The octets used, the visits and the items, or the number and the visits.
    type Answer = Result<(usize, u64, Vec<(u32, usize, u64)>), (u32, u64)>;

    /// The answer to an input with room for so many items.
    fn with_room(input: Input, room: usize) -> Answer {
        match read(input, room) {
            Ok(accepted) => {
                let triple = |item: &Item| (item.kind, item.place, item.content);
                let items = accepted.items.iter().map(triple).collect();
                Ok((accepted.used, accepted.visits, items))
            }
            Err(Refused { number, visits }) => Err((number, visits)),
        }
    }

    /// The answer to a type and a value of digits with room for all items. A
    /// table with just the room gives the same, and one with less 56; nothing
    /// after the value matters, and nothing can be missing.
    fn answer(typecode: &[u8], value: &str) -> Answer {
        let value = octets(value);
        let answer = with_room(input(typecode, &value), LONGEST_VALUE);
        if let Ok((used, _, items)) = &answer {
            let kept = input(typecode, &value[..*used]);
            assert_eq!(with_room(kept, items.len()), answer);
            for room in 0..items.len() {
                let refused = with_room(kept, room).expect_err("no room");
                assert_eq!(refused.0, 56);
            }
            for length in 0..*used {
                let cut = input(typecode, &value[..length]);
                assert_eq!(with_room(cut, items.len()).expect_err("cut").0, 50);
            }
        }
        answer
    }

    #[test]
    fn samples() {
        let t = octets("00000013 0000000C 00000000 00000003 00000000");
        let minus_one = u64::MAX;
        let items = vec![(19, 0, 2), (3, 4, 1), (3, 8, minus_one)];
        let value = "00000002 00000001 FFFFFFFF";
        assert_eq!(answer(&t, value), Ok((12, 3, items.clone())));
        assert_eq!(answer(&t, "00000002 00000001"), Err((50, 3)));
        assert_eq!(answer(&plain(0), ""), Ok((0, 1, vec![])));
        assert_eq!(answer(&plain(1), "FF"), Ok((0, 1, vec![])));
        assert_eq!(answer(&plain(BOOLEAN), "02"), Err((51, 1)));
        let string = ulongs(&[STRING, 0]);
        assert_eq!(answer(&string, "00000001 00"), Ok((5, 1, vec![(18, 4, 0)])));
        assert_eq!(answer(&string, "00000000"), Err((53, 1)));
        // The same value rewritten little reads as the same items.
        let little = octets("02000000 01000000 FFFFFFFF");
        let mut other = input(&t, &little);
        other.value.little = true;
        assert_eq!(with_room(other, 3), Ok((12, 3, items)));
    }

    #[test]
    fn scalars_of_every_kind() {
        // Reading V6.
        for (kind, digits, content) in [
            (2, "8001", 0xFFFF_FFFF_FFFF_8001),
            (2, "7FFF", 0x7FFF),
            (3, "80000001", 0xFFFF_FFFF_8000_0001),
            (4, "8001", 0x8001),
            (5, "80000001", 0x8000_0001),
            (6, "FFC00001", 0xFFC0_0001),
            (7, "FFF0000000000001", 0xFFF0_0000_0000_0001),
            (8, "01", 1),
            (9, "FF", 0xFF),
            (10, "80", 0x80),
            (23, "8000000000000001", 0x8000_0000_0000_0001),
            (24, "8000000000000001", 0x8000_0000_0000_0001),
        ] {
            let size = digits.len() / 2;
            let items = vec![(kind, 0, content)];
            assert_eq!(answer(&plain(kind), digits), Ok((size, 1, items)));
            // Every index, both orders: the place is after the gap.
            for start in (0..24).chain([usize::MAX, usize::MAX - 7]) {
                for little in [false, true] {
                    let gap = (8 - start % 8) % size.min(8);
                    let mut value = octets(digits);
                    if little {
                        value.reverse();
                    }
                    value.splice(..0, vec![0xEE; gap]);
                    let mut other = input(&[], &value);
                    let typecode = plain(kind);
                    other.typecode.octets = &typecode;
                    other.value.little = little;
                    other.start = start;
                    let items = vec![(kind, gap, content)];
                    assert_eq!(with_room(other, 1), Ok((gap + size, 1, items)));
                    other.value.octets = &value[..gap + size - 1];
                    assert_eq!(with_room(other, 1), Err((50, 1)));
                }
            }
        }
    }

    #[test]
    fn booleans_and_enums_out_of_their_kind() {
        for (value, expected) in [
            ("00", None),
            ("01", None),
            ("02", Some(51)),
            ("FF", Some(51)),
        ] {
            let refused = answer(&plain(BOOLEAN), value).err();
            assert_eq!(refused, expected.map(|number| (number, 1)));
        }
        let typecode = enumeration(3);
        let items = vec![(17, 0, 2)];
        assert_eq!(answer(&typecode, "00000002"), Ok((4, 1, items)));
        assert_eq!(answer(&typecode, "00000003"), Err((52, 1)));
        assert_eq!(answer(&typecode, "FFFFFFFF"), Err((52, 1)));
        // Reading V3: before 56.
        let value = octets("00000003");
        assert_eq!(with_room(input(&typecode, &value), 0), Err((52, 1)));
        let value = octets("00000002");
        assert_eq!(with_room(input(&typecode, &value), 0), Err((56, 1)));
    }

    #[test]
    fn faults_of_a_text_in_their_order() {
        let string = |bound| ulongs(&[STRING, bound]);
        let two = Ok((7, 1, vec![(18, 4, 2)]));
        assert_eq!(answer(&string(0), "00000003 4142 00"), two);
        assert_eq!(answer(&string(2), "00000003 4142 00"), two);
        assert_eq!(answer(&string(1), "00000003 4142 00"), Err((54, 1)));
        // The bound before the end, the end before the zeros.
        assert_eq!(answer(&string(1), "00000003"), Err((54, 1)));
        assert_eq!(answer(&string(2), "00000003 0000"), Err((50, 1)));
        assert_eq!(answer(&string(2), "FFFFFFFF 0000"), Err((54, 1)));
        assert_eq!(answer(&string(0), "FFFFFFFF 0000"), Err((50, 1)));
        assert_eq!(answer(&string(2), "00000003 000000"), Err((53, 1)));
        assert_eq!(answer(&string(2), "00000003 414200"), two);
        assert_eq!(answer(&string(2), "00000003 414243"), Err((53, 1)));
        assert_eq!(answer(&string(1), "00000000"), Err((53, 1)));
        assert_eq!(answer(&string(u32::MAX), "FFFFFFFF"), Err((50, 1)));
        assert_eq!(answer(&string(u32::MAX - 2), "FFFFFFFF"), Err((54, 1)));
    }

    #[test]
    fn sequences_and_their_bounds() {
        let bounded = sequence(&plain(OCTET), 2);
        let items = vec![(19, 0, 2), (10, 4, 7), (10, 5, 8)];
        assert_eq!(answer(&bounded, "00000002 0708 09"), Ok((6, 3, items)));
        // Reading V3: 54 right after the count, room before the first element.
        assert_eq!(answer(&bounded, "00000003 0708 09"), Err((54, 1)));
        let value = octets("00000003 0708 09");
        assert_eq!(with_room(input(&bounded, &value), 0), Err((54, 1)));
        let value = octets("00000002 0708 09");
        assert_eq!(with_room(input(&bounded, &value), 0), Err((56, 1)));
        assert_eq!(with_room(input(&bounded, &value), 1), Err((56, 2)));
        assert_eq!(with_room(input(&bounded, &value), 2), Err((56, 3)));
        // Reading V7.
        let endless = sequence(&plain(OCTET), 0);
        assert_eq!(answer(&endless, "FFFFFFFF 0708"), Err((50, 4)));
        let endless = sequence(&alias(&plain(OCTET)), u32::MAX);
        assert_eq!(answer(&endless, "FFFFFFFF 0708"), Err((50, 7)));
    }

    #[test]
    fn arrays_have_no_count() {
        let items = vec![(4, 0, 1), (4, 2, 2)];
        let typecode = array(&plain(USHORT), 2);
        assert_eq!(answer(&typecode, "0001 0002"), Ok((4, 3, items)));
        let typecode = array(&array(&plain(CHAR), 2), 2);
        let items = (0..4).map(|place| (9, place, 0x41)).collect();
        assert_eq!(answer(&typecode, "41414141"), Ok((4, 7, items)));
        let typecode = array(&plain(USHORT), u32::MAX);
        assert_eq!(answer(&typecode, "0001 0002"), Err((50, 4)));
    }

    #[test]
    fn gaps_inside_structs_count_from_the_start() {
        let typecode = with_members(STRUCT, &[&plain(OCTET), &plain(ULONGLONG), &plain(CHAR)]);
        let items = vec![(10, 0, 1), (24, 8, 2), (9, 16, 3)];
        let digits = "01 EEEEEEEEEEEEEE 0000000000000002 03";
        assert_eq!(answer(&typecode, digits), Ok((17, 4, items)));
        let value = octets("01 EEEE 0000000000000002 03");
        let mut other = input(&typecode, &value);
        other.start = 5;
        let items = vec![(10, 0, 1), (24, 3, 2), (9, 11, 3)];
        assert_eq!(with_room(other, 3), Ok((12, 4, items)));
    }

    #[test]
    fn members_of_members() {
        // Each kind has its own members, also those after one that has some.
        let inner = with_members(STRUCT, &[&plain(SHORT), &plain(USHORT)]);
        let choice = union(&plain(BOOLEAN), -1, &[(&[1], CHAR), (&[0], ULONG)]);
        let middle = with_members(STRUCT, &[&inner, &choice, &plain(OCTET)]);
        let outer = with_members(STRUCT, &[&plain(CHAR), &middle, &inner, &plain(BOOLEAN)]);
        let items = vec![
            (9, 0, 0x41),
            (2, 2, 1),
            (4, 4, 2),
            (8, 6, 1),
            (9, 7, 0x42),
            (10, 8, 3),
            (2, 10, 4),
            (4, 12, 5),
            (8, 14, 0),
        ];
        let value = "41 EE 0001 0002 01 42 03 EE 0004 0005 00";
        assert_eq!(answer(&outer, value), Ok((15, 14, items)));
    }

    #[test]
    fn unions_choose_a_member() {
        let labels: [(&[u8], u32); 2] = [(&[0x80, 0x00], OCTET), (&[0x00, 0x05], SHORT)];
        let short = plain(SHORT);
        let low = 0xFFFF_FFFF_FFFF_8000;
        for default in [-1, 0, 1] {
            let typecode = union(&short, default, &labels);
            let items = vec![(2, 0, low), (10, 2, 9)];
            assert_eq!(answer(&typecode, "8000 09"), Ok((3, 3, items)));
            let items = vec![(2, 0, 5), (2, 2, 9)];
            assert_eq!(answer(&typecode, "0005 0009"), Ok((4, 3, items)));
        }
        let none = union(&short, -1, &labels);
        assert_eq!(answer(&none, "0006"), Ok((2, 2, vec![(2, 0, 6)])));
        let first = union(&short, 0, &labels);
        let items = vec![(2, 0, 6), (10, 2, 9)];
        assert_eq!(answer(&first, "0006 09"), Ok((3, 3, items)));
        // A discriminant's aliases are visits, and its faults come first.
        let labels: [(&[u8], u32); 1] = [(&[1], OCTET)];
        let typecode = union(&alias(&alias(&plain(BOOLEAN))), -1, &labels);
        let items = vec![(8, 0, 1), (10, 1, 9)];
        assert_eq!(answer(&typecode, "01 09"), Ok((2, 5, items)));
        assert_eq!(answer(&typecode, "02 09"), Err((51, 4)));
        assert_eq!(answer(&typecode, "00 09"), Ok((1, 4, vec![(8, 0, 0)])));
    }

    #[test]
    fn unions_over_negative_numbers_and_the_largest() {
        for (kind, content) in [(LONG, u64::MAX), (ULONG, u64::from(u32::MAX))] {
            let typecode = union(&plain(kind), -1, &[(&[0xFF; 4], OCTET)]);
            let items = vec![(kind, 0, content), (10, 4, 9)];
            assert_eq!(answer(&typecode, "FFFFFFFF 09"), Ok((5, 3, items)));
            assert_eq!(answer(&typecode, "0000FFFF 09").map(|ok| ok.0), Ok(4));
        }
        for kind in [LONGLONG, ULONGLONG] {
            // The label is at a multiple of 8 as it is.
            let typecode = union(&plain(kind), -1, &[(&[0xFF; 8], OCTET)]);
            let items = vec![(kind, 0, u64::MAX), (10, 8, 9)];
            let answer = answer(&typecode, "FFFFFFFF FFFFFFFF 09");
            assert_eq!(answer, Ok((9, 3, items)));
        }
        let typecode = union(&enumeration(2)[..], -1, &[(&[0, 0, 0, 1], OCTET)]);
        let items = vec![(17, 0, 1), (10, 4, 9)];
        assert_eq!(answer(&typecode, "00000001 09"), Ok((5, 3, items)));
        assert_eq!(answer(&typecode, "00000002 09"), Err((52, 2)));
    }

    #[test]
    fn exceptions_begin_with_their_id() {
        // Reading V5: no visit, no bound, any text.
        let none = with_members(EXCEPTION, &[]);
        assert_eq!(
            answer(&none, "00000003 4142 00"),
            Ok((7, 1, vec![(18, 4, 2)]))
        );
        assert_eq!(answer(&none, "00000000"), Err((53, 1)));
        let one = with_members(EXCEPTION, &[&plain(LONG)]);
        let items = vec![(18, 4, 0), (3, 8, 9)];
        assert_eq!(
            answer(&one, "00000001 00EEEEEE 00000009"),
            Ok((12, 2, items))
        );
    }

    #[test]
    fn objrefs_are_one_visit() {
        // Reading V4.
        let typecode = capsule(OBJREF, &[EMPTY, EMPTY]);
        let none = "00000002 4100 EEEE 00000000";
        let items = vec![(18, 4, 1), (19, 8, 0)];
        assert_eq!(answer(&typecode, none), Ok((12, 1, items)));
        let two = "00000002 4100 EEEE 00000002 \
            FFFFFFFF 00000003 010203 EE 00000001 00000000";
        let items = vec![
            (18, 4, 1),
            (19, 8, 2),
            (5, 12, 0xFFFF_FFFF),
            (256, 20, 3),
            (5, 24, 1),
            (256, 32, 0),
        ];
        assert_eq!(answer(&typecode, two), Ok((32, 1, items)));
        let endless = "00000002 4100 EEEE FFFFFFFF 00000000 00000000";
        assert_eq!(answer(&typecode, endless), Err((50, 1)));
        let long = "00000002 4100 EEEE 00000001 00000000 FFFFFFFF 00";
        assert_eq!(answer(&typecode, long), Err((50, 1)));
    }

    #[test]
    fn indirections_add_no_visit() {
        let typecode = tree();
        // No octets, one child with one octet and no children.
        let items = vec![(19, 0, 0), (19, 4, 1), (19, 8, 1), (10, 12, 7), (19, 16, 0)];
        let value = "00000000 00000001 00000001 07EEEEEE 00000000";
        assert_eq!(answer(&typecode, value), Ok((20, 7, items)));
    }

    #[test]
    fn refusal_55_with_64_open() {
        // Reading V2. Trees are open at odd depths, their sequences at even
        // ones: the innermost of 31 others is at 63, its sequences at 64.
        let typecode = tree();
        let visits = |levels: u64| 3 * levels + 3;
        let read = |value: &[u8]| with_room(input(&typecode, value), LONGEST_VALUE);
        let accepted = read(&deep(31, &[])).map(|(used, visits, _)| (used, visits));
        assert_eq!(accepted, Ok((8 * 31 + 8, visits(31))));
        assert_eq!(read(&deep(31, &[7])), Err((55, visits(31) - 1)));
        assert_eq!(read(&deep(32, &[])), Err((55, visits(31))));
        // Before any octet is read, and after the count's own item.
        assert_eq!(
            read(&deep(31, &[7])[..8 * 31 + 4]),
            Err((55, visits(31) - 1))
        );
        let cut = deep(31, &[7]);
        let cut = input(&typecode, &cut[..8 * 31 + 4]);
        assert_eq!(with_room(cut, 62), Err((56, visits(31) - 1)));
        // In an alias, trees are open at even depths, so that an octet can be at
        // 64 and a tree too, but not its sequences.
        let aliased = alias(&tree());
        let read = |value: &[u8]| with_room(input(&aliased, value), LONGEST_VALUE);
        let accepted = read(&deep(30, &[7])).map(|(used, visits, _)| (used, visits));
        assert_eq!(accepted, Ok((8 * 30 + 12, 1 + visits(30) + 1)));
        assert_eq!(read(&deep(31, &[])), Err((55, 1 + visits(31) - 2)));
    }

    #[test]
    fn refusal_42_comes_first() {
        // Reading V1.
        let long = vec![0; LONGEST_VALUE + 1];
        let just = &long[1..];
        let octet = plain(OCTET);
        assert_eq!(with_room(input(&octet, just), 1).map(|ok| ok.0), Ok(1));
        assert_eq!(with_room(input(&octet, &long), 1), Err((42, 0)));
        assert_eq!(with_room(input(&long, &[]), 1), Err((42, 0)));
        assert_eq!(with_room(input(&[], &long), 1), Err((42, 0)));
        assert_eq!(with_room(input(just, &[]), 1), Ok((0, 1, vec![])));
        assert_eq!(with_room(input(&[], &[]), 1), Err((30, 0)));
        assert_eq!(item(input(&[], &long), 9), Err(42));
        assert_eq!(item(input(&[], &[]), 9), Err(30));
    }

    #[test]
    fn items_by_number() {
        let kinds = [2, 3, 4, 5, 6, 7, 8, 9, 10, 23, 24].map(plain);
        let members: Vec<&[u8]> = kinds.iter().map(|kind| &kind[..]).collect();
        let typecode = with_members(STRUCT, &members);
        let value = octets(
            "FFFE EEEE FFFFFFFD FFFC EEEE FFFFFFFB FF800001 EEEEEEEE FFF0000000000001 \
             01 FF FE EEEEEEEEEE FFFFFFFFFFFFFFFA FFFFFFFFFFFFFFF9",
        );
        let expected = [
            Content::Signed(-2),
            Content::Signed(-3),
            Content::Unsigned(0xFFFC),
            Content::Unsigned(0xFFFF_FFFB),
            Content::Single(0xFF80_0001),
            Content::Double(0xFFF0_0000_0000_0001),
            Content::Unsigned(1),
            Content::Unsigned(0xFF),
            Content::Unsigned(0xFE),
            Content::Signed(-6),
            Content::Unsigned(u64::MAX - 6),
        ];
        let whole = input(&typecode, &value);
        for (number, content) in (0..).zip(expected) {
            assert_eq!(item(whole, number), Ok(content));
        }
        for number in [11, 12, u64::MAX] {
            assert_eq!(item(whole, number), Err(49));
        }
        // 49 after the refusals of reading, which number does not change.
        let cut = input(&typecode, &value[..value.len() - 1]);
        for number in [0, 10, 11, u64::MAX] {
            assert_eq!(item(cut, number), Err(50));
        }
        assert_eq!(item(input(&plain(0), &[]), 0), Err(49));
    }

    /// Hears of elements at once, and does nothing.
    struct Deaf;

    impl Sink for Deaf {
        const AT_ONCE: bool = true;
    }

    #[test]
    fn elements_at_once_are_as_many_visits() {
        for kind in [OCTET, USHORT, ULONG, DOUBLE] {
            let typecode = with_members(STRUCT, &[&plain(CHAR), &sequence(&plain(kind), 0)]);
            for count in [0, 1, 3, u32::MAX] {
                let value = [&[0x41, 0, 0, 0][..], &ulongs(&[count]), &[7; 24]].concat();
                for length in 0..value.len() {
                    let input = input(&typecode, &value[..length]);
                    let one_by_one = read(input, LONGEST_VALUE).map(|ok| (ok.used, ok.visits));
                    let at_once = read_into(input, Deaf).map(|ok| (ok.used, ok.visits));
                    assert_eq!(at_once, one_by_one);
                }
            }
        }
    }

    #[test]
    fn gaps_are_what_no_item_has() {
        let zeroed = |typecode: &[u8], digits: &str| {
            let value = octets(digits);
            let accepted = read(input(typecode, &value), LONGEST_VALUE).expect("a value");
            accepted.gaps_zeroed(&value)
        };
        let kinds = [10, 2, 8, 3, 9, 7, 10, 4, 6, 5, 23, 24].map(plain);
        let members: Vec<&[u8]> = kinds.iter().map(|kind| &kind[..]).collect();
        assert_eq!(
            zeroed(
                &with_members(STRUCT, &members),
                "01 EE 0203 01 EEEEEE 04050607 08 EEEEEE 090A0B0C0D0E0F10 11 EE 1213 \
                 14151617 18191A1B EEEEEEEE 1C1D1E1F20212223 2425262728292A2B FFFF"
            ),
            octets(
                "01 00 0203 01 000000 04050607 08 000000 090A0B0C0D0E0F10 11 00 1213 \
                 14151617 18191A1B 00000000 1C1D1E1F20212223 2425262728292A2B"
            )
        );
        assert_eq!(
            zeroed(
                &with_members(
                    STRUCT,
                    &[&capsule(OBJREF, &[EMPTY, EMPTY]), &enumeration(2)]
                ),
                "00000002 4100 EEEE 00000002 FFFFFFFF 00000003 010203 EE 00000001 00000000 \
                 00000001"
            ),
            octets(
                "00000002 4100 0000 00000002 FFFFFFFF 00000003 010203 00 00000001 00000000 \
                 00000001"
            )
        );
    }

    #[test]
    fn texts_counts_tags_runs_and_enums_are_unsigned() {
        let objref = capsule(OBJREF, &[EMPTY, EMPTY]);
        let value = octets("00000002 4100 EEEE 00000001 FFFFFFFF 00000003 010203");
        for (number, content) in [1, 1, 0xFFFF_FFFF, 3].into_iter().enumerate() {
            let found = item(input(&objref, &value), number as u64);
            assert_eq!(found, Ok(Content::Unsigned(content)));
        }
        let value = octets("00000001");
        let found = item(input(&enumeration(2), &value), 0);
        assert_eq!(found, Ok(Content::Unsigned(1)));
    }
}
