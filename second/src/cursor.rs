//! Octets in the reading: primitives after their gaps, counted octets, texts and
//! what is listed with a number.

use std::ffi::CStr;
use std::ops::Range;

use crate::primitive::number;
use crate::refusal::demand;

/// Octets of the caller's, and where they are.
#[derive(Clone, Copy, Debug, PartialEq, Eq)]
pub struct Run<'a> {
    /// The first one's place, or where it would be.
    pub place: usize,
    /// The octets.
    pub octets: &'a [u8],
}

/// Octets with a tag or an id: a component, a profile or a context.
#[derive(Clone, Copy, Debug, PartialEq, Eq)]
pub struct Tagged<'a> {
    /// The tag or the id.
    pub tag: u32,
    /// The octets.
    pub run: Run<'a>,
}

/// Hears of every range of octets that carries nothing.
pub trait Gaps {
    /// A gap, which may be empty.
    fn gap(&mut self, gap: Range<usize>);
}

/// Nobody listens.
impl Gaps for () {
    fn gap(&mut self, _: Range<usize>) {}
}

/// Octets in the reading, refused by the number `CUT` where they end.
pub struct Cursor<'a, const CUT: u32, G = ()> {
    /// All octets; gaps are counted from the first.
    octets: &'a [u8],
    /// The next octet's index, not above their number.
    index: usize,
    /// Whether they are little-endian.
    pub little: bool,
    /// Who hears of the gaps.
    gaps: G,
}

impl<'a, const CUT: u32> Cursor<'a, CUT> {
    /// The octets from the first on.
    pub fn new(octets: &'a [u8], little: bool) -> Self {
        Cursor::heard(octets, 0, little, ())
    }
}

impl<'a, const CUT: u32, G: Gaps> Cursor<'a, CUT, G> {
    /// The octets from an index on, which is not above their number.
    pub fn heard(octets: &'a [u8], index: usize, little: bool, gaps: G) -> Self {
        Cursor {
            octets,
            index,
            little,
            gaps,
        }
    }

    /// The next octet's index.
    pub fn index(&self) -> usize {
        self.index
    }

    /// The octets that are left.
    pub fn rest(&self) -> &'a [u8] {
        &self.octets[self.index..]
    }

    /// Reads a primitive of so many octets, after its gap.
    fn primitive<const SIZE: usize>(&mut self) -> Result<u64, u32> {
        let index = self.index.next_multiple_of(SIZE);
        let left = self.octets.get(index..).ok_or(CUT)?;
        let octets = left.first_chunk::<SIZE>().ok_or(CUT)?;
        self.gaps.gap(self.index..index);
        self.index = index + SIZE;
        Ok(number(*octets, self.little))
    }

    /// Reads an octet.
    pub fn octet(&mut self) -> Result<u8, u32> {
        Ok(self.primitive::<1>()? as u8)
    }

    /// Reads an unsigned short.
    pub fn ushort(&mut self) -> Result<u16, u32> {
        Ok(self.primitive::<2>()? as u16)
    }

    /// Reads an unsigned long.
    pub fn ulong(&mut self) -> Result<u32, u32> {
        Ok(self.primitive::<4>()? as u32)
    }

    /// Passes over so many octets that carry nothing.
    pub fn skip(&mut self, count: u32) -> Result<(), u32> {
        let place = self.counted(count)?.place;
        self.gaps.gap(place..self.index);
        Ok(())
    }

    /// Reads octets after their length.
    pub fn run(&mut self) -> Result<Run<'a>, u32> {
        let length = self.ulong()?;
        self.counted(length)
    }

    /// Reads a text after its length, and gives it without its zero; the second
    /// number refuses length 0, a missing last zero and an earlier one.
    pub fn text(&mut self, unfit: u32) -> Result<Run<'a>, u32> {
        let length = self.ulong()?;
        demand(length > 0, unfit)?;
        let Run { place, octets } = self.counted(length)?;
        let text = CStr::from_bytes_with_nul(octets).map_err(|_| unfit)?;
        Ok(Run {
            place,
            octets: text.to_bytes(),
        })
    }

    /// Reads a tag or an id, and octets after their length.
    pub fn tagged(&mut self) -> Result<Tagged<'a>, u32> {
        let tag = self.ulong()?;
        let run = self.run()?;
        Ok(Tagged { tag, run })
    }

    /// Reads a count and a list of so many, tells of each with its number, and
    /// gives the count.
    pub fn list(&mut self, mut tell: impl FnMut(u32, Tagged<'a>)) -> Result<u32, u32> {
        let count = self.ulong()?;
        for index in 0..count {
            tell(index, self.tagged()?);
        }
        Ok(count)
    }

    /// Reads so many octets.
    fn counted(&mut self, length: u32) -> Result<Run<'a>, u32> {
        let place = self.index;
        let octets = self.rest().get(..length as usize).ok_or(CUT)?;
        self.index += octets.len();
        Ok(Run { place, octets })
    }
}
