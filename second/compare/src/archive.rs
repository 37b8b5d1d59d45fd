//! The proved library, each of its functions behind one safe call.

use second::joining::Record;
use second::rewrite::Chosen;
use second::typecode::MOST_KINDS;
use second::value::Input;

/// The numbers of an accepted header: minor, order, more, type, size, whether
/// there is a request id, request id.
pub type HeaderNumbers = [u64; 7];

/// The numbers of an accepted profile body: order octet, major, minor, the host's
/// place and its length without the zero, port, the key's place and length,
/// number of components, extra octets.
pub type ProfileNumbers = [u64; 10];

/// The numbers of a component, a context or a profile of a reference: tag or id,
/// its octets' place and length.
pub type TaggedNumbers = [u64; 3];

/// The numbers of an accepted Request or Reply header: type, minor, order, request
/// id, response boolean or flags, status, the target's kind, its tag or index, the
/// place and length of its key, octets or type id, its number of profiles, the
/// places and lengths of operation and principal, number of contexts, place of the
/// body. What a message does not have is 0.
pub type MessageNumbers = [u64; 17];

/// What the archive's interface gives of an accepted type.
#[repr(C)]
#[derive(Clone, Copy, PartialEq, Eq, Debug)]
pub struct Checked {
    /// The places of the kinds met, in their order; 0 past the last.
    pub places: [u16; MOST_KINDS],
    /// The starts of the encapsulations they stand in; 0 past the last.
    pub starts: [u16; MOST_KINDS],
    /// Their byte orders, 0 big, 1 little; 0 past the last.
    pub orders: [u8; MOST_KINDS],
    /// The octets used and the kinds written.
    pub numbers: [u64; 2],
}

extern "C" {
    /// A line's characters to octets: 0, or a refusal, 10, 11 or 27.
    fn haulspar_decode(
        line: *const u8,
        line_len: usize,
        out: *mut u8,
        out_len: usize,
        count: *mut u64,
    ) -> u32;

    /// Octets to upper-case digits: 0, or refusal 27.
    fn haulspar_encode(
        octets: *const u8,
        len: usize,
        out: *mut u8,
        out_len: usize,
        count: *mut u64,
    ) -> u32;

    /// The header of a message: 0, or a refusal, 10 or 12 to 21.
    fn haulspar_frame(octets: *const u8, len: usize, header: *mut u64) -> u32;

    /// A line's octets with the record of its recording: an answer, 0 to 3, or
    /// a refusal, 10, 12 to 21 or 22 to 28. The count becomes the octets
    /// written at answers 0, 2 and 3 only.
    fn haulspar_join(
        octets: *const u8,
        octets_len: usize,
        record: *mut Record,
        places: *mut u8,
        places_len: usize,
        out: *mut u8,
        out_len: usize,
        count: *mut u64,
    ) -> u32;

    /// A TypeCode in a byte order: 0, or a refusal, 30 to 40 or 42. What is
    /// lent changes at 0 only.
    fn haulspar_type(
        octets: *const u8,
        count: usize,
        little: bool,
        places: *mut u16,
        starts: *mut u16,
        orders: *mut u8,
        numbers: *mut u64,
    ) -> u32;

    /// A value of a type: 0, or a refusal, of the type, 42 or 50 to 56. The
    /// table and the numbers, octets used and items, change at 0 only; the
    /// visits are always filled.
    fn haulspar_value(
        typecode: *const u8,
        type_len: usize,
        type_little: bool,
        value: *const u8,
        value_len: usize,
        value_little: bool,
        start: usize,
        table: *mut u64,
        table_len: usize,
        numbers: *mut u64,
        visits: *mut u64,
    ) -> u32;

    /// An item of a value: 0, or a refusal, of the type, 42, 49 or 50 to 55. The
    /// answer, which of its cases it is and the content's bits, changes at 0
    /// only.
    fn haulspar_item(
        typecode: *const u8,
        type_len: usize,
        type_little: bool,
        value: *const u8,
        value_len: usize,
        value_little: bool,
        start: usize,
        number: u64,
        answer: *mut u64,
    ) -> u32;

    /// A value in a chosen order and from a chosen index on: 0, or a refusal, of
    /// the type, 42, 50 to 55 or 57. The output and the count, the octets
    /// written, change at 0 only.
    fn haulspar_rewrite(
        typecode: *const u8,
        type_len: usize,
        type_little: bool,
        value: *const u8,
        value_len: usize,
        value_little: bool,
        start: usize,
        to_little: bool,
        to_start: usize,
        out: *mut u8,
        out_len: usize,
        count: *mut u64,
    ) -> u32;

    /// The same with no order named.
    fn haulspar_rewrite_unnamed(
        typecode: *const u8,
        type_len: usize,
        type_little: bool,
        value: *const u8,
        value_len: usize,
        value_little: bool,
        start: usize,
        to_start: usize,
        out: *mut u8,
        out_len: usize,
        count: *mut u64,
    ) -> u32;

    /// A profile body: 0, or a refusal, 42 or 60 to 64. The ten numbers change at
    /// 0 only.
    fn haulspar_profile(octets: *const u8, len: usize, numbers: *mut u64) -> u32;

    /// A component of a profile body: 0, or a refusal, 42, 60 to 64 or 69. The
    /// three numbers change at 0 only.
    fn haulspar_component(octets: *const u8, len: usize, number: u64, found: *mut u64) -> u32;

    /// The header of a whole or joined Request or Reply: 0, or a refusal, 42, 12 to
    /// 21 or 70 to 75. The seventeen numbers change at 0 only.
    fn haulspar_header(octets: *const u8, len: usize, numbers: *mut u64) -> u32;

    /// A context of such a message: 0, or a refusal as the header's, or 69. The
    /// three numbers change at 0 only.
    fn haulspar_context(octets: *const u8, len: usize, number: u64, found: *mut u64) -> u32;

    /// A profile of the reference that is such a message's target, likewise.
    fn haulspar_target(octets: *const u8, len: usize, number: u64, found: *mut u64) -> u32;

    /// All octets before the body of such a message, gaps and reserved octets zero:
    /// 0, or a refusal as the header's, or 76. The output and the count, the octets
    /// written, change at 0 only.
    fn haulspar_head(
        octets: *const u8,
        len: usize,
        out: *mut u8,
        out_len: usize,
        count: *mut u64,
    ) -> u32;
}

/// A line's characters to octets at the start of `out`.
pub fn decode(line: &[u8], out: &mut [u8], count: &mut u64) -> u32 {
    // SAFETY: pointers and lengths are those of live, distinct borrows.
    unsafe {
        haulspar_decode(
            line.as_ptr(),
            line.len(),
            out.as_mut_ptr(),
            out.len(),
            count,
        )
    }
}

/// Octets to upper-case digits at the start of `out`.
pub fn encode(octets: &[u8], out: &mut [u8], count: &mut u64) -> u32 {
    // SAFETY: pointers and lengths are those of live, distinct borrows.
    unsafe {
        haulspar_encode(
            octets.as_ptr(),
            octets.len(),
            out.as_mut_ptr(),
            out.len(),
            count,
        )
    }
}

/// The header of a message's octets.
pub fn frame(octets: &[u8], header: &mut HeaderNumbers) -> u32 {
    // SAFETY: pointers and lengths are those of live, distinct borrows.
    unsafe { haulspar_frame(octets.as_ptr(), octets.len(), header.as_mut_ptr()) }
}

/// A line's octets with the record of its recording and the places' octets; a
/// message goes to the start of `out`.
pub fn join(
    octets: &[u8],
    record: &mut Record,
    places: &mut [u8],
    out: &mut [u8],
    count: &mut u64,
) -> u32 {
    // SAFETY: pointers and lengths are those of live, distinct borrows.
    unsafe {
        haulspar_join(
            octets.as_ptr(),
            octets.len(),
            record,
            places.as_mut_ptr(),
            places.len(),
            out.as_mut_ptr(),
            out.len(),
            count,
        )
    }
}

/// A TypeCode's octets used, and its kinds.
pub fn typecode(octets: &[u8], little: bool, checked: &mut Checked) -> u32 {
    // SAFETY: pointers and lengths are those of live, distinct borrows.
    unsafe {
        haulspar_type(
            octets.as_ptr(),
            octets.len(),
            little,
            checked.places.as_mut_ptr(),
            checked.starts.as_mut_ptr(),
            checked.orders.as_mut_ptr(),
            checked.numbers.as_mut_ptr(),
        )
    }
}

/// A value's items, three numbers each, its octets used and count of items, and
/// its visits.
pub fn value(input: Input, table: &mut [u64], numbers: &mut [u64; 2], visits: &mut u64) -> u32 {
    // SAFETY: pointers and lengths are those of live, distinct borrows.
    unsafe {
        haulspar_value(
            input.typecode.octets.as_ptr(),
            input.typecode.octets.len(),
            input.typecode.little,
            input.value.octets.as_ptr(),
            input.value.octets.len(),
            input.value.little,
            input.start,
            table.as_mut_ptr(),
            table.len(),
            numbers.as_mut_ptr(),
            visits,
        )
    }
}

/// A value's item of a number: its case, from 0 signed, unsigned, single or
/// double, and its content's bits.
pub fn item(input: Input, number: u64, answer: &mut [u64; 2]) -> u32 {
    // SAFETY: pointers and lengths are those of live, distinct borrows.
    unsafe {
        haulspar_item(
            input.typecode.octets.as_ptr(),
            input.typecode.octets.len(),
            input.typecode.little,
            input.value.octets.as_ptr(),
            input.value.octets.len(),
            input.value.little,
            input.start,
            number,
            answer.as_mut_ptr(),
        )
    }
}

/// A value rewritten as chosen at the start of `out`.
pub fn rewrite(input: Input, chosen: Chosen, out: &mut [u8], count: &mut u64) -> u32 {
    match chosen.little {
        Some(little) => rewrite_named(input, little, chosen.start, out, count),
        None => rewrite_unnamed(input, chosen.start, out, count),
    }
}

/// A value rewritten in an order that is named.
fn rewrite_named(input: Input, little: bool, start: usize, out: &mut [u8], count: &mut u64) -> u32 {
    // SAFETY: pointers and lengths are those of live, distinct borrows.
    unsafe {
        haulspar_rewrite(
            input.typecode.octets.as_ptr(),
            input.typecode.octets.len(),
            input.typecode.little,
            input.value.octets.as_ptr(),
            input.value.octets.len(),
            input.value.little,
            input.start,
            little,
            start,
            out.as_mut_ptr(),
            out.len(),
            count,
        )
    }
}

/// A value rewritten with no order named.
fn rewrite_unnamed(input: Input, start: usize, out: &mut [u8], count: &mut u64) -> u32 {
    // SAFETY: pointers and lengths are those of live, distinct borrows.
    unsafe {
        haulspar_rewrite_unnamed(
            input.typecode.octets.as_ptr(),
            input.typecode.octets.len(),
            input.typecode.little,
            input.value.octets.as_ptr(),
            input.value.octets.len(),
            input.value.little,
            input.start,
            start,
            out.as_mut_ptr(),
            out.len(),
            count,
        )
    }
}

/// What a profile body has.
pub fn profile(octets: &[u8], numbers: &mut ProfileNumbers) -> u32 {
    // SAFETY: pointers and lengths are those of live, distinct borrows.
    unsafe { haulspar_profile(octets.as_ptr(), octets.len(), numbers.as_mut_ptr()) }
}

/// A profile body's component of a number.
pub fn component(octets: &[u8], number: u64, found: &mut TaggedNumbers) -> u32 {
    // SAFETY: pointers and lengths are those of live, distinct borrows.
    unsafe { haulspar_component(octets.as_ptr(), octets.len(), number, found.as_mut_ptr()) }
}

/// What the header of a Request or Reply has.
pub fn header(message: &[u8], numbers: &mut MessageNumbers) -> u32 {
    // SAFETY: pointers and lengths are those of live, distinct borrows.
    unsafe { haulspar_header(message.as_ptr(), message.len(), numbers.as_mut_ptr()) }
}

/// A message's context of a number.
pub fn context(message: &[u8], number: u64, found: &mut TaggedNumbers) -> u32 {
    // SAFETY: pointers and lengths are those of live, distinct borrows.
    unsafe { haulspar_context(message.as_ptr(), message.len(), number, found.as_mut_ptr()) }
}

/// The profile of a number of the reference that is a message's target.
pub fn target(message: &[u8], number: u64, found: &mut TaggedNumbers) -> u32 {
    // SAFETY: pointers and lengths are those of live, distinct borrows.
    unsafe { haulspar_target(message.as_ptr(), message.len(), number, found.as_mut_ptr()) }
}

/// The octets before a message's body at the start of `out`.
pub fn head(message: &[u8], out: &mut [u8], count: &mut u64) -> u32 {
    // SAFETY: pointers and lengths are those of live, distinct borrows.
    unsafe {
        haulspar_head(
            message.as_ptr(),
            message.len(),
            out.as_mut_ptr(),
            out.len(),
            count,
        )
    }
}
