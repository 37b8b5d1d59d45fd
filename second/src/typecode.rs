//! Kinds of type: the check of a TypeCode.

use std::ffi::CStr;

use crate::primitive::{number, ulong};
use crate::refusal::{
    demand, COUNT_ZERO, ENCAPSULATION_UNFIT, KIND_BELOW_TOP, KIND_UNKNOWN, LOOP, NESTED_TOO_DEEP,
    OCTETS_TOO_MANY, TARGET_UNFIT, TEXT_UNFIT, TOO_MANY_KINDS, TYPE_CUT, UNION_UNFIT,
};
use crate::shape::{Digest, Member, Members, Scalar, Shape, Size, Union};

/// The kind null.
pub const NULL: u32 = 0;
/// The kind void.
pub const VOID: u32 = 1;
/// The kind short.
pub const SHORT: u32 = 2;
/// The kind long.
pub const LONG: u32 = 3;
/// The kind ushort.
pub const USHORT: u32 = 4;
/// The kind ulong.
pub const ULONG: u32 = 5;
/// The kind float.
pub const FLOAT: u32 = 6;
/// The kind double.
pub const DOUBLE: u32 = 7;
/// The kind boolean.
pub const BOOLEAN: u32 = 8;
/// The kind char.
pub const CHAR: u32 = 9;
/// The kind octet.
pub const OCTET: u32 = 10;
/// The kind objref.
pub const OBJREF: u32 = 14;
/// The kind struct.
pub const STRUCT: u32 = 15;
/// The kind union.
pub const UNION: u32 = 16;
/// The kind enum.
pub const ENUM: u32 = 17;
/// The kind string.
pub const STRING: u32 = 18;
/// The kind sequence.
pub const SEQUENCE: u32 = 19;
/// The kind array.
pub const ARRAY: u32 = 20;
/// The kind alias.
pub const ALIAS: u32 = 21;
/// The kind exception.
pub const EXCEPTION: u32 = 22;
/// The kind longlong.
pub const LONGLONG: u32 = 23;
/// The kind ulonglong.
pub const ULONGLONG: u32 = 24;
/// What an indirection has in the place of a kind.
pub const INDIRECTION: u32 = 0xFFFF_FFFF;

/// The most octets that are lent.
pub const LONGEST_TYPE: usize = 16_384;
/// The most kinds of a TypeCode, indirections not counted.
pub const MOST_KINDS: usize = 64;
/// The deepest nesting; the top is 1.
pub const DEEPEST: usize = 16;

/// An accepted TypeCode.
#[derive(Clone, Debug, PartialEq, Eq)]
pub struct Checked {
    /// The octets of the TypeCode; those after it are not read.
    pub used: usize,
    /// The kinds written, in the order met.
    pub kinds: Vec<Met>,
}

/// Where a kind is written and how it is read.
#[derive(Clone, Copy, Debug, PartialEq, Eq)]
pub struct Met {
    /// The place of the kind's first octet in the whole TypeCode.
    pub place: usize,
    /// The place of index 0 of the encapsulation that the kind stands in.
    pub start: usize,
    /// Whether the kind is little-endian.
    pub little: bool,
}

/// Checks a TypeCode in the given byte order; refusal 42, then the first of 30
/// to 38 and 40 in octet order, then 39.
pub fn check(octets: &[u8], little: bool) -> Result<Checked, u32> {
    let (used, types) = read_type::<false>(octets, little)?;
    Ok(Checked {
        used,
        kinds: types.kinds.iter().map(|kind| kind.met).collect(),
    })
}

/// Checks a TypeCode likewise, for the reading of values.
pub fn digest(octets: &[u8], little: bool) -> Result<Digest, u32> {
    let (used, types) = read_type::<true>(octets, little)?;
    let shapes = types.kinds.iter().map(|kind| kind.shape).collect();
    Ok(Digest::new(used, shapes, types.members))
}

/// Reads a TypeCode: the octets used and the kinds met. Refusals as the check's.
fn read_type<const KEEP: bool>(octets: &[u8], little: bool) -> Result<(usize, Types<KEEP>), u32> {
    demand(octets.len() <= LONGEST_TYPE, OCTETS_TOO_MANY)?;
    let mut top = Part {
        octets,
        index: 0,
        start: 0,
        little,
    };
    let mut types = Types::default();
    types.read(&mut top, 1)?;
    demand(!Graph::of(&types).has_loop(), LOOP)?;
    Ok((top.index, types))
}

/// An encapsulation in the reading, or the top, which has no order octet.
struct Part<'a> {
    /// The octets of this part alone.
    octets: &'a [u8],
    /// The next octet's index, not above their number. Gaps are counted by it.
    index: usize,
    /// The place of index 0 in the whole TypeCode.
    start: usize,
    /// Whether the part is little-endian.
    little: bool,
}

impl<'a> Part<'a> {
    /// The next octet's place in the whole TypeCode.
    fn place(&self) -> usize {
        self.start + self.index
    }

    /// The octets that are left.
    fn rest(&self) -> &'a [u8] {
        &self.octets[self.index..]
    }

    /// Reads a primitive of so many octets, after its gap; refusal 30.
    fn primitive<const SIZE: usize>(&mut self) -> Result<[u8; SIZE], u32> {
        let index = self.index.next_multiple_of(SIZE);
        let left = self.octets.get(index..).ok_or(TYPE_CUT)?;
        let octets = left.first_chunk().ok_or(TYPE_CUT)?;
        self.index = index + SIZE;
        Ok(*octets)
    }

    /// Reads an unsigned long; refusal 30.
    fn ulong(&mut self) -> Result<u32, u32> {
        let little = self.little;
        self.primitive().map(|octets| ulong(octets, little))
    }

    /// Reads a long; refusal 30.
    fn long(&mut self) -> Result<i32, u32> {
        self.ulong().map(u32::cast_signed)
    }

    /// Reads a count or length that may not be 0; refusals 30, 34.
    fn count(&mut self) -> Result<u32, u32> {
        let count = self.ulong()?;
        demand(count > 0, COUNT_ZERO)?;
        Ok(count)
    }

    /// Reads a string; refusals 30, 32, 30, 32.
    fn text(&mut self) -> Result<(), u32> {
        let length = self.ulong()? as usize;
        demand(length > 0, TEXT_UNFIT)?;
        let text = self.rest().get(..length).ok_or(TYPE_CUT)?;
        demand(CStr::from_bytes_with_nul(text).is_ok(), TEXT_UNFIT)?;
        self.index += length;
        Ok(())
    }

    /// Reads what kinds with a name begin with; refusals as a string's.
    fn id_and_name(&mut self) -> Result<(), u32> {
        self.text()?;
        self.text()
    }

    /// Reads an encapsulation's length and order octet, and passes over it;
    /// refusals 30, 33.
    fn encapsulation(&mut self) -> Result<Part<'a>, u32> {
        let length = self.ulong()? as usize;
        let octets = self.rest().get(..length).ok_or(ENCAPSULATION_UNFIT)?;
        let &order = octets.first().ok_or(ENCAPSULATION_UNFIT)?;
        demand(order <= 1, ENCAPSULATION_UNFIT)?;
        let part = Part {
            octets,
            index: 1,
            start: self.place(),
            little: order == 1,
        };
        self.index += length;
        Ok(part)
    }

    /// Holds the parameters to their end; refusal 33.
    fn end(&self) -> Result<(), u32> {
        demand(self.rest().is_empty(), ENCAPSULATION_UNFIT)
    }

    /// Reads a label of a discriminant; refusal 30, then 35 if it is out of its
    /// kind.
    fn label(&mut self, discriminant: Scalar) -> Result<u64, u32> {
        let little = self.little;
        let label = match discriminant.size {
            Size::One => number::<1>(self.primitive()?, little),
            Size::Two => number::<2>(self.primitive()?, little),
            Size::Four => number::<4>(self.primitive()?, little),
            Size::Eight => number::<8>(self.primitive()?, little),
        };
        demand(label <= discriminant.highest, UNION_UNFIT)?;
        Ok(label)
    }
}

/// A kind written in the TypeCode. Kinds name each other by their index in the
/// list of those met.
struct Kind {
    /// Where it is written and how it is read.
    met: Met,
    /// Which kind it is.
    number: u32,
    /// How deep it is; the top is 1.
    nesting: usize,
    /// Whether it is still being read.
    open: bool,
    /// The kinds directly inside, an indirection counting as its target: a bit
    /// for each.
    inside: u64,
    /// The kind without aliases: of a finished alias another one.
    resolved: usize,
    /// What values of it are, once it is finished.
    shape: Shape,
}

/// The kinds met, at most 64. The members are kept for the reading of values, or
/// only the labels of unions while these are read.
#[derive(Default)]
struct Types<const KEEP: bool> {
    /// The kinds, in the order met, which is the order of their places.
    kinds: Vec<Kind>,
    /// The members of the kinds that are finished, if they are kept.
    members: Vec<Member>,
    /// Those of the kinds that are still being read, the top's first.
    unfinished: Vec<Member>,
}

impl<const KEEP: bool> Types<KEEP> {
    /// Reads a type at the given nesting. Says which kind it is, of an
    /// indirection its target.
    fn read(&mut self, part: &mut Part, nesting: usize) -> Result<usize, u32> {
        let number = part.ulong()?;
        if number == INDIRECTION {
            return self.read_indirection(part);
        }
        let place = part.place() - size_of_val(&number);
        let met = Met {
            place,
            start: part.start,
            little: part.little,
        };
        let kind = self.meet(number, nesting, met)?;
        self.kinds[kind].shape = self.read_parameters(part, kind)?;
        self.kinds[kind].open = false;
        Ok(kind)
    }

    /// Reads a type directly inside a kind. Says which kind it is, of an
    /// indirection its target.
    fn read_inside(&mut self, part: &mut Part, holder: usize) -> Result<usize, u32> {
        let kind = self.read(part, self.kinds[holder].nesting + 1)?;
        self.kinds[holder].inside |= 1 << kind;
        Ok(kind)
    }

    /// Reads an indirection's offset. Says which kind the target is; refusals
    /// 30, 36.
    fn read_indirection(&self, part: &mut Part) -> Result<usize, u32> {
        let origin = part.place();
        let offset = part.long()? as isize;
        let target = origin.checked_add_signed(offset).ok_or(TARGET_UNFIT)?;
        let kind = self
            .kinds
            .binary_search_by_key(&target, |kind| kind.met.place)
            .map_err(|_| TARGET_UNFIT)?;
        let Kind { number, open, .. } = self.kinds[kind];
        demand(!open || matches!(number, STRUCT | UNION), TARGET_UNFIT)?;
        Ok(kind)
    }

    /// Adds a kind to those met; refusals 31, 40, 38, 37.
    fn meet(&mut self, number: u32, nesting: usize, met: Met) -> Result<usize, u32> {
        demand(
            matches!(number, NULL..=OCTET | OBJREF..=ULONGLONG),
            KIND_UNKNOWN,
        )?;
        let top_only = matches!(number, NULL | VOID | EXCEPTION);
        demand(nesting == 1 || !top_only, KIND_BELOW_TOP)?;
        demand(nesting <= DEEPEST, NESTED_TOO_DEEP)?;
        let kind = self.kinds.len();
        demand(kind < MOST_KINDS, TOO_MANY_KINDS)?;
        self.kinds.push(Kind {
            met,
            number,
            nesting,
            open: true,
            inside: 0,
            resolved: kind,
            shape: Shape::Nothing,
        });
        Ok(kind)
    }

    /// Reads what follows a kind.
    fn read_parameters(&mut self, part: &mut Part, kind: usize) -> Result<Shape, u32> {
        match self.kinds[kind].number {
            STRING => part.ulong().map(Shape::Text),
            OBJREF..=ENUM | SEQUENCE..=EXCEPTION => {
                let mut inner = part.encapsulation()?;
                let shape = self.read_encapsulated(&mut inner, kind)?;
                inner.end()?;
                Ok(shape)
            }
            number => Ok(Scalar::primitive(number).map_or(Shape::Nothing, Shape::Scalar)),
        }
    }

    /// Reads the parameters that stand in an encapsulation, after its order
    /// octet.
    fn read_encapsulated(&mut self, part: &mut Part, kind: usize) -> Result<Shape, u32> {
        match self.kinds[kind].number {
            OBJREF => part.id_and_name().map(|()| Shape::Objref),
            STRUCT => self.read_struct(part, kind),
            EXCEPTION => self.read_exception(part, kind),
            UNION => self.read_union(part, kind),
            ENUM => self.read_enum(part),
            ALIAS => self.read_alias(part, kind),
            SEQUENCE => self.read_sequence(part, kind),
            _ => self.read_array(part, kind),
        }
    }

    /// Reads the parameters of a struct.
    fn read_struct(&mut self, part: &mut Part, kind: usize) -> Result<Shape, u32> {
        part.id_and_name()?;
        let count = part.count()?;
        self.read_members(part, kind, count).map(Shape::Struct)
    }

    /// Reads the parameters of an exception.
    fn read_exception(&mut self, part: &mut Part, kind: usize) -> Result<Shape, u32> {
        part.id_and_name()?;
        let count = part.ulong()?;
        self.read_members(part, kind, count).map(Shape::Exception)
    }

    /// Reads so many members.
    fn read_members(&mut self, part: &mut Part, kind: usize, count: u32) -> Result<Members, u32> {
        let first = self.unfinished.len();
        for _ in 0..count {
            let member = Member {
                label: 0,
                kind: self.read_member(part, kind)?,
            };
            if KEEP {
                self.unfinished.push(member);
            }
        }
        Ok(self.finish_members(first))
    }

    /// Reads the name and type of a member. Says which kind it is.
    fn read_member(&mut self, part: &mut Part, holder: usize) -> Result<usize, u32> {
        part.text()?;
        self.read_inside(part, holder)
    }

    /// Finishes the members from this one on.
    fn finish_members(&mut self, first: usize) -> Members {
        let start = self.members.len();
        if KEEP {
            self.members.extend_from_slice(&self.unfinished[first..]);
        }
        self.unfinished.truncate(first);
        Members::new(start..self.members.len())
    }

    /// Reads the parameters of a union.
    fn read_union(&mut self, part: &mut Part, kind: usize) -> Result<Shape, u32> {
        part.id_and_name()?;
        let discriminant = self.read_inside(part, kind)?;
        let scalar = self.chooser(discriminant).ok_or(UNION_UNFIT)?;
        let default = part.long()?;
        let count = part.count()?;
        let highest = i64::from(count) - 1;
        demand((-1..=highest).contains(&default.into()), UNION_UNFIT)?;
        let default_number = u32::try_from(default).ok();
        let mut default = None;
        let first = self.unfinished.len();
        for number in 0..count {
            let label = part.label(scalar)?;
            let index = self.label_index(first, label)?;
            let member = self.read_member(part, kind)?;
            let labelled = Member {
                label,
                kind: member,
            };
            self.unfinished.insert(index, labelled);
            if default_number == Some(number) {
                default = Some(member);
            }
        }
        Ok(Shape::Union(Union {
            discriminant,
            members: self.finish_members(first),
            default,
        }))
    }

    /// Where a label belongs among those of the members from this one on, which
    /// are in rising order; refusal 35.
    fn label_index(&self, first: usize, label: u64) -> Result<usize, u32> {
        let found = self.unfinished[first..].binary_search_by_key(&label, |member| member.label);
        let index = found.err().ok_or(UNION_UNFIT)?;
        Ok(first + index)
    }

    /// What a union is chosen by whose discriminant is this kind, aliased or
    /// not, if it can be chosen by that.
    fn chooser(&self, kind: usize) -> Option<Scalar> {
        match self.kinds[self.kinds[kind].resolved].shape {
            Shape::Scalar(scalar) if scalar.can_choose() => Some(scalar),
            _ => None,
        }
    }

    /// Reads the parameters of an enum.
    fn read_enum(&mut self, part: &mut Part) -> Result<Shape, u32> {
        part.id_and_name()?;
        let names = part.count()?;
        for _ in 0..names {
            part.text()?;
        }
        Ok(Shape::Scalar(Scalar::enumeration(names)))
    }

    /// Reads the parameters of an alias. A kind that is still being read is no
    /// alias, so that the type's own aliases are resolved by now.
    fn read_alias(&mut self, part: &mut Part, kind: usize) -> Result<Shape, u32> {
        part.id_and_name()?;
        let aliased = self.read_inside(part, kind)?;
        self.kinds[kind].resolved = self.kinds[aliased].resolved;
        Ok(Shape::Alias(aliased))
    }

    /// Reads the parameters of a sequence.
    fn read_sequence(&mut self, part: &mut Part, kind: usize) -> Result<Shape, u32> {
        let element = self.read_inside(part, kind)?;
        part.ulong().map(|bound| Shape::Sequence(element, bound))
    }

    /// Reads the parameters of an array.
    fn read_array(&mut self, part: &mut Part, kind: usize) -> Result<Shape, u32> {
        let element = self.read_inside(part, kind)?;
        part.count().map(|length| Shape::Array(element, length))
    }
}

/// The steps between the kinds of a finished type.
struct Graph {
    /// Where one can step from each kind: a bit for each other one.
    steps: Vec<u64>,
}

impl Graph {
    /// The steps of a type; from a sequence there is none.
    fn of<const KEEP: bool>(types: &Types<KEEP>) -> Self {
        let steps = types.kinds.iter().map(|kind| match kind.number {
            SEQUENCE => 0,
            _ => kind.inside,
        });
        Graph {
            steps: steps.collect(),
        }
    }

    /// Whether some kind returns to itself: a depth-first search from each.
    fn has_loop(&self) -> bool {
        let mut search = Search {
            graph: self,
            path: 0,
            done: 0,
        };
        (0..self.steps.len()).any(|kind| search.meets_its_path(kind))
    }
}

/// A depth-first search for a kind that returns to itself.
struct Search<'a> {
    /// Where the search goes.
    graph: &'a Graph,
    /// The kinds on the way to the one searched: a bit for each.
    path: u64,
    /// The kinds searched without finding a loop: a bit for each.
    done: u64,
}

impl Search<'_> {
    /// Whether the search from this kind comes to a kind on its own path.
    fn meets_its_path(&mut self, kind: usize) -> bool {
        let bit = 1 << kind;
        if self.path & bit != 0 {
            return true;
        }
        if self.done & bit != 0 {
            return false;
        }
        self.path |= bit;
        let mut steps = self.graph.steps[kind];
        while steps != 0 {
            if self.meets_its_path(steps.trailing_zeros() as usize) {
                return true;
            }
            steps &= steps - 1;
        }
        self.path &= !bit;
        self.done |= bit;
        false
    }
}

#[cfg(test)]
mod tests {
    use super::*;
    use crate::hexline::digits_into;
    use crate::primitive::ulong_octets;

    /// What gaps are filled with.
    const GAP: u8 = 0xEE;

    /// Where the type of the first member of a struct at the top begins.
    const FIRST: usize = 48;

    /// The default of a union without one, -1.
    const NONE: u32 = u32::MAX;

    /// The answer to a big-endian type of digits and spaces: octets used and
    /// kinds.
    fn answer(digits: &str) -> Result<(usize, usize), u32> {
        let mut octets = Vec::new();
        digits_into(digits.replace(' ', "").as_bytes(), &mut octets).expect("digits");
        check(&octets, false).map(|checked| (checked.used, checked.kinds.len()))
    }

    /// A TypeCode in the making.
    #[derive(Clone)]
    struct Draft {
        octets: Vec<u8>,
        start: usize,
        little: bool,
        /// The starts and orders of the parts around.
        around: Vec<(usize, bool)>,
        /// Where the texts' final zeros are.
        zeros: Vec<usize>,
    }

    impl Draft {
        /// No octets in this order.
        fn new(little: bool) -> Self {
            Draft {
                octets: Vec::new(),
                start: 0,
                little,
                around: Vec::new(),
                zeros: Vec::new(),
            }
        }

        /// A draft of all that the parts add to a big-endian one.
        fn of(write: impl FnOnce(&mut Draft)) -> Self {
            let mut draft = Draft::new(false);
            write(&mut draft);
            draft
        }

        /// Adds a primitive of so many octets. Says where.
        fn primitive(&mut self, number: u64, size: usize) -> usize {
            let index = (self.octets.len() - self.start).next_multiple_of(size);
            self.octets.resize(self.start + index, GAP);
            let mut octets = number.to_be_bytes()[8 - size..].to_vec();
            if self.little {
                octets.reverse();
            }
            self.octets.extend(octets);
            self.start + index
        }

        /// Adds an unsigned long, which a kind is too. Says where.
        fn ulong(&mut self, number: u32) -> usize {
            self.primitive(number.into(), 4)
        }

        /// Adds a string.
        fn text(&mut self, text: &str) {
            self.ulong(text.len() as u32 + 1);
            self.octets.extend(text.as_bytes());
            self.zeros.push(self.octets.len());
            self.octets.push(0);
        }

        /// Adds a kind and the start of its encapsulation. Says where.
        fn open(&mut self, kind: u32, little: bool) -> usize {
            let place = self.ulong(kind);
            self.ulong(0);
            self.around.push((self.start, self.little));
            self.start = self.octets.len();
            self.little = little;
            self.octets.push(little.into());
            place
        }

        /// Adds a kind and the start of its encapsulation, big-endian, with an
        /// id and a name. Says where.
        fn named(&mut self, kind: u32) -> usize {
            let place = self.open(kind, false);
            self.text("IDL:a:1.0");
            self.text("a");
            place
        }

        /// Ends an encapsulation, whose length is now known.
        fn close(&mut self) {
            let (inner, length) = (self.start, self.octets.len() - self.start);
            (self.start, self.little) = self.around.pop().expect("one open");
            let length = ulong_octets(length as u32, self.little);
            self.octets[inner - 4..inner].copy_from_slice(&length);
        }

        /// Adds an indirection to this place.
        fn to(&mut self, place: usize) {
            self.ulong(INDIRECTION);
            let offset = place as i64 - self.octets.len() as i64;
            self.ulong(offset as u32);
        }

        /// Adds an enum with so many names. Says where.
        fn enumeration(&mut self, names: u32) -> usize {
            let place = self.named(ENUM);
            self.ulong(names);
            for _ in 0..names {
                self.text("n");
            }
            self.close();
            place
        }

        /// Adds a struct with what is written for its only member. Says where.
        fn structure(&mut self, write: impl FnOnce(&mut Draft)) -> usize {
            let place = self.named(STRUCT);
            self.ulong(1);
            self.text("m");
            write(self);
            self.close();
            place
        }

        /// Adds an alias of what is written. Says where.
        fn alias(&mut self, write: impl FnOnce(&mut Draft)) -> usize {
            let place = self.named(ALIAS);
            write(self);
            self.close();
            place
        }

        /// Adds a sequence of what is written, without bound. Says where.
        fn sequence(&mut self, write: impl FnOnce(&mut Draft)) -> usize {
            let place = self.open(SEQUENCE, false);
            write(self);
            self.ulong(0);
            self.close();
            place
        }

        /// Adds an array of two of what is written. Says where.
        fn array(&mut self, write: impl FnOnce(&mut Draft)) -> usize {
            let place = self.open(ARRAY, false);
            write(self);
            self.ulong(2);
            self.close();
            place
        }

        /// Adds the start of a union with what is written for discriminant.
        fn union(&mut self, write: impl FnOnce(&mut Draft)) -> usize {
            let place = self.named(UNION);
            write(self);
            place
        }

        /// Adds a default, a count and a member for each label of so many
        /// octets, and ends the union.
        fn members(&mut self, default: i32, labels: &[u64], size: usize) {
            self.ulong(default.cast_unsigned());
            self.ulong(labels.len() as u32);
            for &label in labels {
                self.primitive(label, size);
                self.text("m");
                self.ulong(OCTET);
            }
            self.close();
        }

        /// What the check says: the octets used and the kinds written.
        fn answer(&self) -> Result<(usize, usize), u32> {
            let little = self.around.first().map_or(self.little, |top| top.1);
            check(&self.octets, little).map(|checked| (checked.used, checked.kinds.len()))
        }

        /// The draft is accepted as a whole, with this many kinds.
        fn accepted(&self, kinds: usize) {
            assert_eq!(self.answer(), Ok((self.octets.len(), kinds)));
        }

        /// The draft is refused, with whatever is still open ended.
        fn refused(mut self, number: u32) {
            while !self.around.is_empty() {
                self.close();
            }
            assert_eq!(self.answer(), Err(number));
        }
    }

    /// Adds the kind long.
    fn long(draft: &mut Draft) {
        draft.ulong(LONG);
    }

    /// A struct with so many members of kind long, and what is written last.
    fn members(count: u32, write: impl FnOnce(&mut Draft)) -> Draft {
        let mut draft = Draft::new(false);
        draft.named(STRUCT);
        draft.ulong(count + 1);
        for _ in 0..count {
            draft.text("m");
            draft.ulong(LONG);
        }
        draft.text("m");
        write(&mut draft);
        draft
    }

    /// A struct that holds a sequence of a sequence and so on, and in the last
    /// one, at the given nesting, what is written. The struct's place is 0.
    fn nested(nesting: usize, write: impl FnOnce(&mut Draft)) -> Draft {
        let mut draft = Draft::new(false);
        draft.named(STRUCT);
        draft.ulong(1);
        draft.text("m");
        for _ in 2..nesting {
            draft.open(SEQUENCE, false);
        }
        write(&mut draft);
        draft
    }

    /// Ends the sequences and the struct of a nested draft.
    fn ended(mut draft: Draft) -> Draft {
        while draft.around.len() > 1 {
            draft.ulong(0);
            draft.close();
        }
        draft.close();
        draft
    }

    #[test]
    fn sample_t() {
        let octets = [
            [0, 0, 0, 0x13],
            [0, 0, 0, 0x0C],
            [0, 0, 0, 0],
            [0, 0, 0, 3],
            [0, 0, 0, 0],
        ];
        let top = Met {
            place: 0,
            start: 0,
            little: false,
        };
        let element = Met {
            place: 12,
            start: 8,
            little: false,
        };
        let checked = Checked {
            used: 20,
            kinds: vec![top, element],
        };
        assert_eq!(check(octets.as_flattened(), false), Ok(checked));
    }

    #[test]
    fn sample_indirection_to_a_sequence_still_being_read() {
        let digits = "00000013 00000010 00000000 FFFFFFFF FFFFFFF0 00000000";
        assert_eq!(answer(digits), Err(36));
    }

    #[test]
    fn sample_empty_type() {
        assert_eq!(check(&[], false), Err(30));
        assert_eq!(check(&[], true), Err(30));
    }

    #[test]
    fn slip_seeking_a_sequence_only_between_an_indirection_and_its_target() {
        let mut draft = Draft::new(false);
        let a = draft.named(STRUCT);
        draft.ulong(2);
        draft.text("bs");
        let mut b = 0;
        draft.sequence(|draft| b = draft.structure(|draft| draft.to(a)));
        let mut harmless = draft.clone();
        draft.text("b");
        draft.to(b);
        draft.close();
        draft.refused(39);
        // Without the second member there is no loop.
        harmless.text("b");
        harmless.ulong(LONG);
        harmless.close();
        harmless.accepted(4);
    }

    #[test]
    fn slip_aligning_from_the_start_of_the_whole_typecode() {
        let mut draft = Draft::new(false);
        draft.open(ALIAS, false);
        draft.text("");
        draft.text("");
        draft.union(|draft| {
            draft.ulong(LONGLONG);
        });
        assert_eq!(draft.start, 36);
        draft.ulong(NONE);
        draft.ulong(1);
        // The label stands at a multiple of 8 in the union, not in the whole.
        assert_eq!(draft.primitive(9, 8), 36 + 40);
        draft.text("m");
        draft.ulong(OCTET);
        draft.close();
        draft.close();
        draft.accepted(4);
    }

    /// A struct of an enum of two names, which stands in a sequence of the first
    /// order and has the second one, and of a union in the third order, whose
    /// discriminant is an indirection to the enum. Says where the enum is.
    fn pointed(orders: [bool; 3], label: u64) -> (Draft, Met) {
        let mut draft = Draft::new(false);
        draft.named(STRUCT);
        draft.ulong(2);
        draft.text("e");
        draft.open(SEQUENCE, orders[0]);
        let (start, little) = (draft.start, draft.little);
        let place = draft.open(ENUM, orders[1]);
        draft.text("");
        draft.text("");
        draft.ulong(2);
        draft.text("n");
        draft.text("o");
        draft.close();
        draft.ulong(0);
        draft.close();
        draft.text("u");
        draft.open(UNION, orders[2]);
        draft.text("");
        draft.text("");
        draft.to(place);
        draft.members(-1, &[label], 4);
        draft.close();
        let met = Met {
            place,
            start,
            little,
        };
        (draft, met)
    }

    #[test]
    fn slip_reading_a_target_in_the_byte_order_of_the_pointer() {
        for orders in 0..8 {
            let orders = [1, 2, 4].map(|bit| orders & bit != 0);
            let (draft, met) = pointed(orders, 1);
            draft.accepted(5);
            let kinds = check(&draft.octets, false).map(|checked| checked.kinds);
            assert_eq!(kinds.map(|kinds| kinds[2]), Ok(met));
            assert_eq!(pointed(orders, 2).0.answer(), Err(35));
            assert_eq!(pointed(orders, 0x0100_0000).0.answer(), Err(35));
        }
    }

    #[test]
    fn kinds_without_parameters() {
        for little in [false, true] {
            for kind in (NULL..=OCTET).chain([LONGLONG, ULONGLONG]) {
                let mut draft = Draft::new(little);
                draft.ulong(kind);
                draft.accepted(1);
                // Octets after the TypeCode are not read.
                draft.octets.extend([0xFF; 9]);
                assert_eq!(draft.answer(), Ok((4, 1)));
                for length in 0..4 {
                    assert_eq!(check(&draft.octets[..length], little), Err(30));
                }
            }
        }
    }

    #[test]
    fn a_string_has_any_bound() {
        for bound in [0, 1, u32::MAX] {
            let draft = Draft::of(|draft| {
                draft.ulong(STRING);
                draft.ulong(bound);
            });
            draft.accepted(1);
            for length in 0..8 {
                assert_eq!(check(&draft.octets[..length], false), Err(30));
            }
        }
    }

    #[test]
    fn kinds_with_an_encapsulation() {
        let objref = Draft::of(|draft| {
            draft.named(OBJREF);
            draft.close();
        });
        objref.accepted(1);
        Draft::of(|draft| _ = draft.structure(long)).accepted(2);
        Draft::of(|draft| _ = draft.alias(long)).accepted(2);
        Draft::of(|draft| _ = draft.sequence(long)).accepted(2);
        Draft::of(|draft| _ = draft.array(long)).accepted(2);
        Draft::of(|draft| _ = draft.enumeration(3)).accepted(1);
        let union = Draft::of(|draft| {
            draft.union(long);
            draft.members(1, &[0, 1], 4);
        });
        union.accepted(4);
    }

    #[test]
    fn each_part_is_in_its_own_byte_order() {
        for little in [false, true] {
            let mut draft = Draft::new(little);
            let orders = [!little, little, little, !little];
            let mut met = Vec::new();
            for order in orders {
                let (start, little) = (draft.start, draft.little);
                let place = draft.open(SEQUENCE, order);
                met.push(Met {
                    place,
                    start,
                    little,
                });
            }
            let (start, little) = (draft.start, draft.little);
            let place = draft.ulong(DOUBLE);
            met.push(Met {
                place,
                start,
                little,
            });
            while !draft.around.is_empty() {
                draft.ulong(7);
                draft.close();
            }
            draft.accepted(5);
            let checked = check(&draft.octets, draft.little);
            assert_eq!(checked.map(|checked| checked.kinds), Ok(met));
        }
    }

    #[test]
    fn refusal_42_counts_all_octets_and_comes_first() {
        // Reading T1.
        let mut octets = vec![0; 16_384];
        assert_eq!(check(&octets, false).map(|checked| checked.used), Ok(4));
        octets.push(0);
        assert_eq!(check(&octets, false), Err(42));
        octets[0] = 0xFF;
        assert_eq!(check(&octets, false), Err(42));
        octets.pop();
        assert_eq!(check(&octets, false), Err(31));
    }

    #[test]
    fn refusal_31_for_kinds_not_listed() {
        let listed = |kind| kind <= 10 || (14..=24).contains(&kind);
        for kind in (0..=300).chain([1 << 24, 1 << 31, u32::MAX - 1]) {
            let refused = check(&kind.to_be_bytes(), false) == Err(31);
            assert_eq!(refused, !listed(kind));
            let refused = check(&kind.to_le_bytes(), true) == Err(31);
            assert_eq!(refused, !listed(kind));
        }
        assert_eq!(answer("03000000"), Err(31));
    }

    #[test]
    fn refusal_40_below_the_top() {
        for kind in [NULL, VOID, EXCEPTION] {
            Draft::of(|draft| {
                draft.open(SEQUENCE, false);
                draft.ulong(kind);
            })
            .refused(40);
            // Also where a discriminant cannot be of such a kind.
            Draft::of(|draft| {
                draft.named(UNION);
                draft.ulong(kind);
            })
            .refused(40);
        }
        let exception = Draft::of(|draft| {
            draft.named(EXCEPTION);
            draft.ulong(1);
            draft.text("m");
            draft.ulong(LONG);
            draft.close();
        });
        exception.accepted(2);
    }

    #[test]
    fn nesting_16_and_17() {
        ended(nested(16, long)).accepted(16);
        nested(17, long).refused(38);
        nested(17, |draft| _ = draft.ulong(SEQUENCE)).refused(38);
        // Each other kind with a type inside nests as well.
        for kind in [STRUCT, UNION, ALIAS, ARRAY] {
            nested(16, |draft| {
                if kind == ARRAY {
                    draft.open(ARRAY, false);
                } else {
                    draft.named(kind);
                }
                if kind == STRUCT {
                    draft.ulong(1);
                    draft.text("m");
                }
                draft.ulong(LONG);
            })
            .refused(38);
        }
    }

    #[test]
    fn a_discriminant_nests_like_a_member() {
        // Reading T8.
        let union = |draft: &mut Draft| {
            draft.union(long);
            draft.members(-1, &[1], 4);
        };
        ended(nested(15, union)).accepted(17);
        nested(16, union).refused(38);
    }

    #[test]
    fn kinds_64_and_65() {
        let mut draft = members(62, long);
        draft.close();
        draft.accepted(64);
        members(63, long).refused(37);
        members(63, |draft| _ = draft.enumeration(1)).refused(37);
    }

    #[test]
    fn at_one_kind_the_order_is_31_40_38_37() {
        nested(17, |draft| _ = draft.ulong(25)).refused(31);
        nested(17, |draft| _ = draft.ulong(NULL)).refused(40);
        members(63, |draft| _ = draft.ulong(25)).refused(31);
        members(63, |draft| _ = draft.ulong(EXCEPTION)).refused(40);
        // The struct, 48 longs and 15 sequences are 64 kinds.
        let full = |kind| {
            members(48, |draft| {
                for _ in 0..15 {
                    draft.open(SEQUENCE, false);
                }
                draft.ulong(kind);
            })
        };
        full(LONG).refused(38);
        full(VOID).refused(40);
        full(11).refused(31);
        // The kind itself comes before what follows it, and 30 before the kind.
        members(63, |draft| _ = draft.ulong(STRING)).refused(37);
        nested(17, |draft| _ = draft.ulong(STRUCT)).refused(38);
        members(63, |_| ()).refused(30);
    }

    #[test]
    fn an_indirection_is_accepted_at_nesting_17_and_after_64_kinds() {
        // Reading T7.
        ended(nested(17, |draft| draft.to(0))).accepted(16);
        let mut draft = members(63, |draft| draft.to(FIRST));
        draft.close();
        draft.accepted(64);
        nested(17, |draft| draft.to(4)).refused(36);
        nested(17, |draft| _ = draft.ulong(INDIRECTION)).refused(30);
        members(63, |draft| draft.to(4)).refused(36);
        members(63, |draft| _ = draft.ulong(INDIRECTION)).refused(30);
    }

    #[test]
    fn an_indirection_at_the_top_is_36_or_30() {
        for length in 4..8 {
            assert_eq!(check(&[0xFF; 8][..length], false), Err(30));
        }
        for offset in ["FFFFFFFF", "FFFFFFFC", "00000000", "80000000", "7FFFFFFF"] {
            assert_eq!(answer(&format!("FFFFFFFF {offset} 00000003")), Err(36));
        }
    }

    #[test]
    fn refusal_33_for_a_length_of_0_or_beyond_the_surroundings() {
        // Reading T2.
        for kind in (OBJREF..=ENUM).chain(SEQUENCE..=EXCEPTION) {
            for length in ["00000000", "00000002", "80000000", "FFFFFFFF"] {
                assert_eq!(answer(&format!("{kind:08X} {length} 00")), Err(33));
            }
            // The length comes before the order octet, which may be missing.
            assert_eq!(answer(&format!("{kind:08X} 00000001")), Err(33));
            assert_eq!(answer(&format!("{kind:08X} 000000")), Err(30));
            assert_eq!(answer(&format!("{kind:08X} 00000001 02")), Err(33));
            assert_eq!(answer(&format!("{kind:08X} 00000001 FF")), Err(33));
            assert_eq!(answer(&format!("{kind:08X} 00000001 01")), Err(30));
        }
        // The surroundings are the enclosing encapsulation, not the whole.
        let inner = "00000013 00000010 00000000 00000013 00000005 00000000 00000003 00000000";
        assert_eq!(answer(inner), Err(33));
        let inner = "00000013 00000010 00000000 00000013 00000004 00000000 00000003 00000000";
        assert_eq!(answer(inner), Err(30));
    }

    #[test]
    fn a_cut_typecode_is_30_up_to_its_first_length_and_then_33() {
        let draft = Draft::of(|draft| _ = draft.structure(long));
        for length in 0..draft.octets.len() {
            let number = if length < 8 { 30 } else { 33 };
            assert_eq!(check(&draft.octets[..length], false), Err(number));
        }
    }

    #[test]
    fn refusal_30_for_parameters_past_their_encapsulation() {
        // Reading T3. The encapsulation is cut and its length says so; octets
        // after it are not taken.
        let drafts = [
            Draft::of(|draft| _ = draft.structure(long)),
            Draft::of(|draft| _ = draft.alias(long)),
            Draft::of(|draft| _ = draft.sequence(long)),
            Draft::of(|draft| _ = draft.array(long)),
            Draft::of(|draft| _ = draft.enumeration(2)),
            Draft::of(|draft| {
                draft.named(OBJREF);
                draft.close();
            }),
            Draft::of(|draft| {
                draft.union(long);
                draft.members(-1, &[1], 4);
            }),
        ];
        for draft in drafts {
            let whole = draft.octets.len() - 8;
            for length in 1..whole {
                let mut octets = draft.octets.clone();
                octets[4..8].copy_from_slice(&(length as u32).to_be_bytes());
                assert_eq!(check(&octets, false), Err(30));
            }
        }
    }

    #[test]
    fn refusal_33_for_octets_after_the_parameters() {
        // Reading T3.
        let longer = |mut draft: Draft| {
            draft.octets.push(0);
            draft.close();
            draft.answer()
        };
        let objref = Draft::of(|draft| _ = draft.named(OBJREF));
        assert_eq!(longer(objref), Err(33));
        let array = |kind, length| {
            Draft::of(|draft| {
                draft.open(ARRAY, false);
                draft.ulong(kind);
                draft.ulong(length);
            })
        };
        assert_eq!(longer(array(LONG, 1)), Err(33));
        // Any fault inside comes first.
        assert_eq!(longer(array(LONG, 0)), Err(34));
        assert_eq!(longer(array(11, 1)), Err(31));
        let exception = Draft::of(|draft| {
            draft.named(EXCEPTION);
            draft.ulong(0);
        });
        assert_eq!(longer(exception), Err(33));
        // The inner one's end comes before the outer one's parameters.
        let inner = Draft::of(|draft| {
            draft.open(ARRAY, false);
            draft.open(ARRAY, false);
            draft.ulong(LONG);
            draft.ulong(1);
            draft.octets.push(0);
            draft.close();
            draft.ulong(0);
        });
        inner.refused(33);
    }

    #[test]
    fn strings_are_30_32_30_32() {
        // Reading T10: an objref's id, all octets of its encapsulation given.
        let id = |octets: &str| {
            let digits = octets.replace(' ', "");
            let length = 4 + digits.len() / 2;
            answer(&format!("0000000E {length:08X} 00EEEEEE {digits}"))
        };
        assert_eq!(id(""), Err(30));
        assert_eq!(id("000000"), Err(30));
        assert_eq!(id("00000000"), Err(32));
        assert_eq!(id("00000001"), Err(30));
        assert_eq!(id("00000001 01"), Err(32));
        assert_eq!(id("00000003 0000"), Err(30));
        assert_eq!(id("00000003 006100"), Err(32));
        assert_eq!(id("00000003 610000"), Err(32));
        assert_eq!(id("00000003 616161"), Err(32));
        assert_eq!(id("FFFFFFFF 616100"), Err(30));
        assert_eq!(id("00000003 616100"), Err(30));
        assert_eq!(id("00000003 FF6100 EE 00000001 00"), Ok((25, 1)));
        assert_eq!(id("00000003 616100 EE 00000000"), Err(32));
    }

    #[test]
    fn every_text_is_checked() {
        let structure = Draft::of(|draft| _ = draft.structure(long));
        let alias = Draft::of(|draft| _ = draft.alias(long));
        let enumeration = Draft::of(|draft| _ = draft.enumeration(2));
        let objref = Draft::of(|draft| {
            draft.named(OBJREF);
            draft.close();
        });
        let union = Draft::of(|draft| {
            draft.union(long);
            draft.members(-1, &[1, 2], 4);
        });
        let drafts = [
            (structure, 3),
            (alias, 2),
            (enumeration, 4),
            (objref, 2),
            (union, 4),
        ];
        for (draft, texts) in drafts {
            assert!(draft.answer().is_ok());
            assert_eq!(draft.zeros.len(), texts);
            for &zero in &draft.zeros {
                let mut octets = draft.octets.clone();
                octets[zero] = 1;
                assert_eq!(check(&octets, false), Err(32));
                octets[zero - 1..=zero].fill(0);
                assert_eq!(check(&octets, false), Err(32));
            }
        }
    }

    #[test]
    fn refusal_34_for_counts_and_lengths_of_0() {
        for kind in [STRUCT, ENUM] {
            Draft::of(|draft| {
                draft.named(kind);
                draft.ulong(0);
            })
            .refused(34);
        }
        Draft::of(|draft| {
            draft.union(long);
            draft.members(-1, &[], 4);
        })
        .refused(34);
        assert_eq!(
            answer("00000014 0000000C 00000000 00000003 00000000"),
            Err(34)
        );
        let exception = Draft::of(|draft| {
            draft.named(EXCEPTION);
            draft.ulong(0);
            draft.close();
        });
        exception.accepted(1);
    }

    #[test]
    fn counts_beyond_the_octets_are_30() {
        for kind in [STRUCT, EXCEPTION, ENUM] {
            Draft::of(|draft| {
                draft.named(kind);
                draft.ulong(u32::MAX);
            })
            .refused(30);
        }
        Draft::of(|draft| {
            draft.union(long);
            draft.ulong(NONE);
            draft.ulong(u32::MAX);
        })
        .refused(30);
    }

    #[test]
    fn defaults_are_judged_after_the_count() {
        // Reading T4.
        let union = |default: i32, labels: &[u64]| {
            let mut draft = Draft::new(false);
            draft.union(long);
            draft.members(default, labels, 4);
            draft.answer().err()
        };
        for default in [-1, 0, 1] {
            assert_eq!(union(default, &[5, 6]), None);
        }
        for default in [i32::MIN, -2, 2, 3, i32::MAX] {
            assert_eq!(union(default, &[5, 6]), Some(35));
            // Before the labels, and after a count of 0.
            assert_eq!(union(default, &[5, 5]), Some(35));
            assert_eq!(union(default, &[]), Some(34));
        }
        for default in [-1, 0] {
            assert_eq!(union(default, &[]), Some(34));
        }
        for count in 0..4 {
            let mut draft = Draft::new(false);
            draft.union(long);
            draft.ulong(NONE - 1);
            draft.octets.extend(&[0; 4][..count]);
            draft.refused(30);
        }
        let mut draft = Draft::new(false);
        draft.union(long);
        draft.ulong(NONE - 1);
        draft.ulong(1);
        draft.refused(35);
    }

    #[test]
    fn discriminants_of_the_kinds_that_can_be() {
        // Reading T5: judged after the discriminant's last octet, so that the
        // good ones are cut (30) and the bad ones 35.
        let good = [
            SHORT, LONG, USHORT, ULONG, BOOLEAN, CHAR, LONGLONG, ULONGLONG,
        ];
        for kind in good {
            Draft::of(|draft| _ = draft.union(|draft| _ = draft.ulong(kind))).refused(30);
        }
        Draft::of(|draft| _ = draft.union(|draft| _ = draft.enumeration(1))).refused(30);
        for kind in [FLOAT, DOUBLE, OCTET] {
            Draft::of(|draft| _ = draft.union(|draft| _ = draft.ulong(kind))).refused(35);
        }
        let bad: [fn(&mut Draft); 5] = [
            |draft| {
                draft.ulong(STRING);
                draft.ulong(0);
            },
            |draft| _ = draft.structure(long),
            |draft| _ = draft.sequence(long),
            |draft| _ = draft.array(long),
            |draft| {
                draft.union(long);
                draft.members(-1, &[1], 4);
            },
        ];
        for bad in bad {
            Draft::of(|draft| _ = draft.union(bad)).refused(35);
        }
    }

    #[test]
    fn faults_in_a_discriminant_come_before_35() {
        // Reading T5.
        Draft::of(|draft| {
            draft.named(UNION);
            draft.ulong(STRING);
        })
        .refused(30);
        Draft::of(|draft| {
            draft.named(UNION);
            draft.open(ARRAY, false);
            draft.ulong(LONG);
            draft.ulong(0);
        })
        .refused(34);
        Draft::of(|draft| {
            draft.named(UNION);
            draft.named(STRUCT);
            draft.ulong(1);
            draft.text("m");
            draft.ulong(25);
        })
        .refused(31);
        Draft::of(|draft| {
            draft.named(UNION);
            draft.ulong(INDIRECTION);
        })
        .refused(30);
        Draft::of(|draft| {
            draft.named(UNION);
            draft.to(4);
        })
        .refused(36);
    }

    #[test]
    fn an_indirection_to_what_is_being_read_is_a_bad_discriminant() {
        // Reading T5.
        Draft::of(|draft| {
            draft.named(UNION);
            draft.to(0);
        })
        .refused(35);
        Draft::of(|draft| _ = draft.structure(|draft| _ = draft.union(|draft| draft.to(0))))
            .refused(35);
        // Through an alias too.
        Draft::of(|draft| {
            draft.named(UNION);
            draft.alias(|draft| draft.to(0));
        })
        .refused(35);
    }

    /// Whether the labels are accepted for a discriminant that is written.
    fn labels_fit(write: impl FnOnce(&mut Draft), labels: &[u64], size: usize) -> bool {
        let mut draft = Draft::new(false);
        draft.union(write);
        draft.members(-1, labels, size);
        match draft.answer() {
            Ok((used, _)) => used == draft.octets.len(),
            Err(refusal) => {
                assert_eq!(refusal, 35);
                false
            }
        }
    }

    #[test]
    fn labels_of_every_discriminant() {
        // Reading T6.
        for (kind, size) in [
            (SHORT, 2),
            (USHORT, 2),
            (LONG, 4),
            (ULONG, 4),
            (CHAR, 1),
            (LONGLONG, 8),
            (ULONGLONG, 8),
        ] {
            let write = |draft: &mut Draft| _ = draft.ulong(kind);
            let highest = u64::MAX >> (64 - 8 * size);
            let middle = highest / 2;
            let labels = [highest, 0, middle, middle + 1, 1];
            assert!(labels_fit(write, &labels, size));
            for label in labels {
                assert!(!labels_fit(
                    write,
                    &[9, highest, 0, middle, middle + 1, 1, label],
                    size
                ));
            }
        }
        let boolean = |draft: &mut Draft| _ = draft.ulong(BOOLEAN);
        assert!(labels_fit(boolean, &[1, 0], 1));
        assert!(!labels_fit(boolean, &[1, 1], 1));
        for label in 2..=255 {
            assert!(!labels_fit(boolean, &[label], 1));
        }
    }

    #[test]
    fn labels_of_an_enum_and_of_its_aliases() {
        // Reading T6.
        let writes: [fn(&mut Draft); 3] = [
            |draft| _ = draft.enumeration(3),
            |draft| _ = draft.alias(|draft| _ = draft.enumeration(3)),
            |draft| {
                draft.alias(|draft| {
                    draft.alias(|draft| _ = draft.enumeration(3));
                });
            },
        ];
        for write in writes {
            assert!(labels_fit(write, &[2, 0, 1], 4));
            assert!(labels_fit(write, &[2], 4));
            assert!(!labels_fit(write, &[3], 4));
            assert!(!labels_fit(write, &[0, u32::MAX.into()], 4));
            assert!(!labels_fit(write, &[2, 0, 2], 4));
        }
    }

    #[test]
    fn labels_of_an_enum_through_indirections() {
        // A struct of an enum, of an alias of an indirection to it, and of a
        // union whose discriminant is an alias of an indirection to that alias.
        let draft = |label| {
            let mut draft = Draft::new(false);
            draft.named(STRUCT);
            draft.ulong(3);
            draft.text("e");
            let e = draft.enumeration(2);
            draft.text("a");
            let a = draft.alias(|draft| draft.to(e));
            draft.text("u");
            draft.union(|draft| _ = draft.alias(|draft| draft.to(a)));
            draft.members(0, &[label, 0], 4);
            draft.close();
            draft
        };
        draft(1).accepted(7);
        assert_eq!(draft(0).answer(), Err(35));
        assert_eq!(draft(2).answer(), Err(35));
    }

    #[test]
    fn labels_are_in_the_order_of_the_union() {
        let draft = |label| {
            let mut draft = Draft::new(false);
            draft.open(UNION, true);
            draft.text("");
            draft.text("");
            draft.enumeration(2);
            draft.members(-1, &[label], 4);
            draft.answer().err()
        };
        assert_eq!(draft(1), None);
        assert_eq!(draft(0x0100_0000), Some(35));
    }

    #[test]
    fn a_label_is_judged_after_its_own_last_octet() {
        // Reading T6: before the member's name, and after a cut label.
        let union = |kind: u32, first: &[u8]| {
            let mut draft = Draft::new(false);
            draft.union(|draft| _ = draft.ulong(kind));
            draft.ulong(0);
            draft.ulong(2);
            draft.octets.extend(first);
            draft
        };
        union(BOOLEAN, &[2]).refused(35);
        union(BOOLEAN, &[1]).refused(30);
        union(BOOLEAN, &[]).refused(30);
        let mut draft = union(BOOLEAN, &[1]);
        draft.text("m");
        draft.ulong(25);
        draft.clone().refused(31);
        let mut draft = union(USHORT, &[0, 7]);
        draft.text("m");
        draft.ulong(LONG);
        draft.octets.push(0);
        draft.clone().refused(30);
        draft.octets.push(7);
        draft.clone().refused(35);
        draft.octets.pop();
        draft.octets.push(8);
        draft.refused(30);
    }

    #[test]
    fn many_labels_are_told_apart() {
        let write = |draft: &mut Draft| _ = draft.ulong(CHAR);
        // There are 62 members at most, for want of kinds.
        let labels: Vec<u64> = (0..62).map(|label| label * 37 % 256).collect();
        assert!(labels_fit(write, &labels, 1));
        for index in 0..61 {
            let mut labels = labels.clone();
            labels[61] = labels[index];
            assert!(!labels_fit(write, &labels, 1));
        }
    }

    #[test]
    fn refusal_36_unless_the_target_is_a_kind_already_met() {
        // Reading T7. The member before is a long.
        let draft = |target: usize| {
            let mut draft = members(1, |draft| draft.to(target));
            draft.close();
            draft
        };
        assert_eq!(draft(FIRST).octets[FIRST..][..4], [0, 0, 0, 3]);
        let end = draft(FIRST).octets.len();
        for target in 0..=end {
            match target {
                0 => assert_eq!(draft(target).answer(), Err(39)),
                FIRST => draft(target).accepted(2),
                _ => assert_eq!(draft(target).answer(), Err(36)),
            }
        }
        // Offsets that lead out of the TypeCode, below 0 too.
        for offset in [i32::MIN, -100, i32::MAX] {
            members(1, |draft| {
                draft.ulong(INDIRECTION);
                draft.ulong(offset.cast_unsigned());
            })
            .refused(36);
        }
    }

    #[test]
    fn refusal_36_for_a_target_that_is_an_indirection() {
        let mut draft = Draft::new(false);
        draft.named(STRUCT);
        draft.ulong(3);
        draft.text("m");
        draft.ulong(LONG);
        draft.text("m");
        draft.to(FIRST);
        let indirection = draft.octets.len() - 8;
        draft.text("m");
        let mut good = draft.clone();
        good.to(FIRST);
        good.close();
        good.accepted(2);
        draft.to(indirection);
        draft.refused(36);
    }

    #[test]
    fn refusal_36_for_a_kind_to_come() {
        let mut draft = Draft::new(false);
        draft.named(STRUCT);
        draft.ulong(2);
        draft.text("m");
        let next = draft.octets.len().next_multiple_of(4) + 8 + 8;
        draft.to(next);
        draft.text("m");
        assert_eq!(draft.ulong(LONG), next);
        draft.refused(36);
    }

    #[test]
    fn refusal_36_for_what_is_still_being_read_unless_a_struct_or_union() {
        // Reading T7.
        let to_top = |draft: &mut Draft| draft.to(0);
        Draft::of(|draft| _ = draft.sequence(to_top)).refused(36);
        Draft::of(|draft| _ = draft.array(to_top)).refused(36);
        Draft::of(|draft| _ = draft.alias(to_top)).refused(36);
        Draft::of(|draft| {
            draft.named(EXCEPTION);
            draft.ulong(1);
            draft.text("m");
            draft.to(0);
        })
        .refused(36);
        Draft::of(|draft| _ = draft.structure(|draft| _ = draft.sequence(to_top))).accepted(2);
        let mut union = Draft::of(|draft| {
            draft.union(|draft| _ = draft.ulong(BOOLEAN));
            draft.ulong(NONE);
            draft.ulong(1);
            draft.octets.push(1);
            draft.text("m");
            draft.sequence(to_top);
        });
        union.close();
        union.accepted(3);
        // Within a struct, an alias or array further out is no target either.
        Draft::of(|draft| _ = draft.alias(|draft| _ = draft.structure(to_top))).refused(36);
        Draft::of(|draft| _ = draft.array(|draft| _ = draft.structure(to_top))).refused(36);
    }

    #[test]
    fn finished_kinds_of_every_sort_are_targets() {
        let writes: [&dyn Fn(&mut Draft); 7] = [
            &|draft| _ = draft.sequence(long),
            &|draft| _ = draft.array(long),
            &|draft| _ = draft.alias(long),
            &|draft| _ = draft.structure(long),
            &|draft| {
                draft.union(long);
                draft.members(-1, &[1], 4);
            },
            &|draft| _ = draft.enumeration(1),
            &|draft| {
                draft.ulong(STRING);
                draft.ulong(3);
            },
        ];
        for write in writes {
            let mut draft = Draft::new(false);
            draft.named(STRUCT);
            draft.ulong(2);
            draft.text("m");
            let place = draft.octets.len().next_multiple_of(4);
            write(&mut draft);
            draft.text("m");
            draft.to(place);
            draft.close();
            assert_eq!(draft.answer().map(|(used, _)| used), Ok(draft.octets.len()));
        }
    }

    #[test]
    fn refusal_39_for_a_kind_that_holds_itself() {
        // Reading T9.
        Draft::of(|draft| _ = draft.structure(|draft| draft.to(0))).refused(39);
        Draft::of(|draft| _ = draft.structure(|draft| _ = draft.array(|draft| draft.to(0))))
            .refused(39);
        Draft::of(|draft| _ = draft.structure(|draft| _ = draft.alias(|draft| draft.to(0))))
            .refused(39);
        Draft::of(|draft| {
            draft.union(|draft| _ = draft.ulong(BOOLEAN));
            draft.ulong(NONE);
            draft.ulong(1);
            draft.octets.push(1);
            draft.text("m");
            draft.to(0);
        })
        .refused(39);
    }

    #[test]
    fn refusal_39_inside_a_sequence_too() {
        // Reading T9: no step leads from the top to the struct.
        let mut place = 0;
        Draft::of(|draft| {
            draft.open(SEQUENCE, false);
            place = draft.named(STRUCT);
            draft.ulong(1);
            draft.text("m");
            draft.to(place);
            draft.close();
            draft.ulong(0);
        })
        .refused(39);
    }

    #[test]
    fn a_sequence_on_the_way_ends_a_loop() {
        let sequence = |draft: &mut Draft| _ = draft.sequence(|draft| draft.to(0));
        Draft::of(|draft| _ = draft.structure(sequence)).accepted(2);
        Draft::of(|draft| _ = draft.structure(|draft| _ = draft.array(sequence))).accepted(3);
        // A kind that is met twice is no loop.
        let mut draft = Draft::new(false);
        draft.named(STRUCT);
        draft.ulong(3);
        draft.text("m");
        let place = draft.structure(long);
        for _ in 0..2 {
            draft.text("m");
            draft.to(place);
        }
        draft.close();
        draft.accepted(3);
    }

    #[test]
    fn refusal_39_is_the_last_of_all() {
        let mut draft = Draft::of(|draft| {
            draft.named(STRUCT);
            draft.ulong(2);
            draft.text("m");
            draft.to(0);
            draft.text("m");
        });
        draft.clone().refused(30);
        let mut unknown = draft.clone();
        unknown.ulong(25);
        unknown.refused(31);
        draft.ulong(LONG);
        draft.octets.push(0);
        draft.clone().refused(33);
        draft.octets.pop();
        draft.refused(39);
    }
}
