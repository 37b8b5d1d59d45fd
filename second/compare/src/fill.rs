//! Values made to fit a type, and what stands where in them.

use chance::Chance;
use second::shape::{Digest, Members, Scalar, Shape, Size, Union};
use second::typecode::{BOOLEAN, DOUBLE, ENUM, FLOAT, LONG};
use second::value::MOST_OPEN;

/// Something in a value that can be made a fault.
#[derive(Clone, Copy)]
pub struct Mark {
    /// The place of its first octet.
    pub place: usize,
    /// What it is.
    pub spot: Spot,
}

/// What can be made a fault.
#[derive(Clone, Copy)]
pub enum Spot {
    /// A count with a bound, 0 for none.
    Count(u32),
    /// A text's length with a bound, 0 for none.
    Length(u32),
    /// A text's last octet.
    Zero,
    /// A boolean.
    Boolean,
    /// An enum, with its highest value.
    Enum(u32),
    /// An octet run's length.
    Run,
}

/// A value as octets.
#[derive(Clone)]
pub struct Value {
    /// The octets.
    pub octets: Vec<u8>,
    /// Their byte order.
    pub little: bool,
    /// The index of the first octet.
    pub start: usize,
    /// What can be made a fault.
    pub marks: Vec<Mark>,
}

impl Value {
    /// The octets alone.
    pub fn of_octets(octets: Vec<u8>, little: bool, start: usize) -> Self {
        Value {
            octets,
            little,
            start,
            marks: Vec::new(),
        }
    }

    /// Adds a number of so many octets after its gap, and says where.
    pub fn number(&mut self, width: usize, number: u64, mut gap: impl FnMut() -> u8) -> usize {
        let first = self.start % 8;
        while !(first + self.octets.len()).is_multiple_of(width) {
            self.octets.push(gap());
        }
        let place = self.octets.len();
        let octets = number.to_le_bytes();
        let octets = octets[..width].iter();
        match self.little {
            true => self.octets.extend(octets),
            false => self.octets.extend(octets.rev()),
        }
        place
    }
}

/// How large a value becomes.
#[derive(Clone, Copy)]
pub struct Extent {
    /// From so many octets on, sequences are empty. At twice as many the value
    /// is given up, and ends there.
    pub octets: usize,
    /// Sequences with fewer visits open are not empty, so that the value becomes
    /// so deep if it can; 0 lets chance decide.
    pub depth: usize,
}

/// Makes a value.
struct Filler<'a> {
    /// What everything is chosen by.
    chance: &'a mut Chance,
    /// The type.
    digest: &'a Digest,
    /// How large the value becomes.
    extent: Extent,
    /// Whether the gaps are filled by chance, not with zeros.
    junk: bool,
    /// The visits open.
    open: usize,
    /// The value so far.
    value: Value,
}

/// A value of a type in either order, whose first octet has this index.
pub fn filled(chance: &mut Chance, digest: &Digest, start: usize, extent: Extent) -> Value {
    let little = chance.once_in(2);
    filled_in(chance, digest, little, start, extent)
}

/// A value of a type in this order.
pub fn filled_in(
    chance: &mut Chance,
    digest: &Digest,
    little: bool,
    start: usize,
    extent: Extent,
) -> Value {
    let junk = chance.once_in(2);
    let mut filler = Filler {
        chance,
        digest,
        extent,
        junk,
        open: 0,
        value: Value::of_octets(Vec::new(), little, start),
    };
    // A value that is given up is cut where it is.
    let _ = filler.visit(0, None);
    filler.value
}

impl Filler<'_> {
    /// Adds a value of a kind, if it is a scalar or an alias of one a certain
    /// value; none if all is given up.
    fn visit(&mut self, kind: usize, wanted: Option<u64>) -> Option<()> {
        if self.open > MOST_OPEN || self.value.octets.len() > 2 * self.extent.octets {
            return None;
        }
        self.open += 1;
        match self.digest.shape(kind) {
            Shape::Nothing => {}
            Shape::Scalar(scalar) => self.scalar(scalar, wanted),
            Shape::Text(bound) => self.text(bound),
            Shape::Objref => self.objref(),
            Shape::Struct(members) => self.members(members)?,
            Shape::Exception(members) => {
                self.text(0);
                self.members(members)?;
            }
            Shape::Union(union) => self.union(union)?,
            Shape::Sequence(element, bound) => self.sequence(element, bound)?,
            Shape::Array(element, length) => self.elements(element, length)?,
            Shape::Alias(aliased) => self.visit(aliased, wanted)?,
        }
        self.open -= 1;
        Some(())
    }

    /// Adds the members of a struct or exception.
    fn members(&mut self, members: Members) -> Option<()> {
        let members = self.digest.members(members).iter();
        members
            .map(|member| member.kind)
            .try_for_each(|kind| self.visit(kind, None))
    }

    /// Adds so many elements.
    fn elements(&mut self, element: usize, count: u32) -> Option<()> {
        (0..count).try_for_each(|_| self.visit(element, None))
    }

    /// Adds a union: mostly one of its labels, sometimes any other.
    fn union(&mut self, union: Union) -> Option<()> {
        let discriminant = match self.chance.once_in(4) {
            true => self.any_of(self.chosen_by(union.discriminant)),
            false => self.chance.pick(self.digest.members(union.members)).label,
        };
        self.visit(union.discriminant, Some(discriminant))?;
        match self.digest.chosen(union, discriminant) {
            Some(member) => self.visit(member, None),
            None => Some(()),
        }
    }

    /// The scalar that a discriminant stands for.
    fn chosen_by(&self, kind: usize) -> Scalar {
        match self.digest.shape(kind) {
            Shape::Alias(aliased) => self.chosen_by(aliased),
            Shape::Scalar(scalar) => scalar,
            // There is no other discriminant.
            _ => Scalar {
                number: LONG,
                size: Size::Four,
                highest: u64::MAX,
            },
        }
    }

    /// Adds a sequence.
    fn sequence(&mut self, element: usize, bound: u32) -> Option<()> {
        let count = self.count(bound);
        let place = self.ulong(count);
        self.mark(place, Spot::Count(bound));
        self.elements(element, count)
    }

    /// How many elements a sequence has.
    fn count(&mut self, bound: u32) -> u32 {
        let most = if bound == 0 { u32::MAX } else { bound };
        if self.open < self.extent.depth {
            return 1;
        }
        if self.extent.depth > 0 {
            return self.chance.pick(&[0, 0, 1]);
        }
        if self.value.octets.len() > self.extent.octets || self.open > 40 {
            return 0;
        }
        let full = if most <= 8 { most } else { 1 };
        self.chance.pick(&[0, 1, 1, 2, 3, 5, full]).min(most)
    }

    /// Adds a text.
    fn text(&mut self, bound: u32) {
        let most = if bound == 0 { 12 } else { bound.min(90) } as usize;
        let any = self.chance.below(most + 1);
        let length = self.chance.pick(&[0, 1, most, any, any]).min(most);
        let place = self.ulong(length as u32 + 1);
        self.mark(place, Spot::Length(bound));
        for _ in 0..length {
            let octet = self.chance.octet().max(1);
            self.value.octets.push(octet);
        }
        self.mark(self.value.octets.len(), Spot::Zero);
        self.value.octets.push(0);
    }

    /// Adds an objref.
    fn objref(&mut self) {
        self.text(0);
        let profiles = self.chance.pick(&[0, 0, 1, 1, 2, 3, 6]);
        let place = self.ulong(profiles);
        self.mark(place, Spot::Count(0));
        for _ in 0..profiles {
            let tag = self.chance.pick(&[0, 1, u32::MAX, 0x4F4D_4700]);
            self.ulong(tag);
            let length = self.chance.pick(&[0, 1, 3, 4, 8, 21]);
            let place = self.ulong(length as u32);
            self.mark(place, Spot::Run);
            self.chance.add_octets(&mut self.value.octets, length);
        }
    }

    /// Adds a scalar, a certain one or any.
    fn scalar(&mut self, scalar: Scalar, wanted: Option<u64>) {
        let number = match wanted {
            Some(number) => number,
            None => self.any_of(scalar),
        };
        let place = self.number(scalar.size.octets(), number);
        match scalar.number {
            BOOLEAN => self.mark(place, Spot::Boolean),
            ENUM => self.mark(place, Spot::Enum(scalar.highest as u32)),
            _ => {}
        }
    }

    /// Any number that a scalar can be.
    fn any_of(&mut self, scalar: Scalar) -> u64 {
        let all = u64::MAX >> (64 - 8 * scalar.size.octets());
        let highest = scalar.highest.min(all);
        if highest < all {
            return self.chance.below(highest as usize + 1) as u64;
        }
        let any = self.chance.next() & all;
        let sign = all - all / 2;
        let telling = match scalar.number {
            // Infinities, NaNs of both sorts, the smallest, minus zero.
            FLOAT => [
                0x7F80_0000,
                0x7F80_0001,
                0xFFC0_0000,
                0xFFBF_FFFF,
                1,
                0x8000_0000,
            ],
            DOUBLE => [
                0x7FF0 << 48,
                (0x7FF0 << 48) + 1,
                0xFFF8 << 48,
                (0xFFF8 << 48) - 1,
                1,
                1 << 63,
            ],
            _ => [0, 1, sign, sign - 1, all, all - 1],
        };
        match self.chance.once_in(2) {
            true => any,
            false => self.chance.pick(&telling),
        }
    }

    /// Adds a number of four octets, and says where.
    fn ulong(&mut self, number: u32) -> usize {
        self.number(4, number.into())
    }

    /// Adds a number of so many octets after its gap, and says where.
    fn number(&mut self, width: usize, number: u64) -> usize {
        let (chance, junk) = (&mut *self.chance, self.junk);
        let gap = || if junk { chance.octet() } else { 0 };
        self.value.number(width, number, gap)
    }

    /// Notes what is at a place.
    fn mark(&mut self, place: usize, spot: Spot) {
        self.value.marks.push(Mark { place, spot });
    }
}
