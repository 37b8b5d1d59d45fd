//! The numbers that say why an input is refused.

/// Line over 8,192 characters, or a message over 4,096 octets.
pub const LINE_TOO_LONG: u32 = 10;
/// Odd digit count, or a character that is no digit.
pub const NOT_HEXADECIMAL: u32 = 11;
/// Under 12 octets.
pub const HEADER_CUT: u32 = 12;
/// Magic wrong.
pub const MAGIC_WRONG: u32 = 13;
/// Not 1.0, 1.1 or 1.2.
pub const VERSION_UNKNOWN: u32 = 14;
/// Flags that the version does not have.
pub const FLAGS_UNKNOWN: u32 = 15;
/// A type that the version does not have.
pub const TYPE_UNKNOWN: u32 = 16;
/// Size above the octets after the header.
pub const SIZE_ABOVE: u32 = 17;
/// Size below the octets after the header.
pub const SIZE_BELOW: u32 = 18;
/// A size that the type does not allow.
pub const SIZE_UNFIT: u32 = 19;
/// A fragment, or the more flag, where there are none.
pub const FRAGMENT_UNFIT: u32 = 20;
/// The more flag on a message that is no multiple of 8 octets.
pub const FRAGMENT_UNALIGNED: u32 = 21;
/// A message with a request id that is open already.
pub const ID_OPEN: u32 = 22;
/// A first fragment when every place is in use.
pub const NO_FREE_PLACE: u32 = 23;
/// A fragment whose request id is not open.
pub const ID_NOT_OPEN: u32 = 24;
/// A fragment of another minor version or byte order than the first.
pub const FRAGMENT_DIFFERS: u32 = 25;
/// A joined message that would be over 16,384 octets.
pub const JOINED_TOO_LONG: u32 = 26;
/// Output shorter than what is to be written.
pub const OUTPUT_TOO_SHORT: u32 = 27;
/// A lent record that no recording can have brought about.
pub const RECORD_UNSOUND: u32 = 28;
/// Octets of the TypeCode or of an encapsulation end.
pub const TYPE_CUT: u32 = 30;
/// A kind that is not listed.
pub const KIND_UNKNOWN: u32 = 31;
/// A string in a type of length 0, without a last zero octet or with an
/// earlier one.
pub const TEXT_UNFIT: u32 = 32;
/// An encapsulation of length 0, beyond its surroundings, with an order octet
/// above 1 or with octets after its parameters.
pub const ENCAPSULATION_UNFIT: u32 = 33;
/// A count or length of 0.
pub const COUNT_ZERO: u32 = 34;
/// A discriminant, default or label that a union cannot have.
pub const UNION_UNFIT: u32 = 35;
/// An indirection to what it cannot lead to.
pub const TARGET_UNFIT: u32 = 36;
/// A 65th kind.
pub const TOO_MANY_KINDS: u32 = 37;
/// Nesting over 16.
pub const NESTED_TOO_DEEP: u32 = 38;
/// A kind that returns to itself.
pub const LOOP: u32 = 39;
/// Null, void or an exception below the top.
pub const KIND_BELOW_TOP: u32 = 40;
/// Over 16,384 octets lent.
pub const OCTETS_TOO_MANY: u32 = 42;
/// A number not below the count of a value's items.
pub const NO_SUCH_ITEM: u32 = 49;
/// Octets of the value end.
pub const VALUE_CUT: u32 = 50;
/// A boolean above 1.
pub const BOOLEAN_UNFIT: u32 = 51;
/// An enum not below its count of names.
pub const ENUM_UNFIT: u32 = 52;
/// A string in a value of length 0, without a last zero octet or with an
/// earlier one.
pub const STRING_UNFIT: u32 = 53;
/// A string or sequence over its bound.
pub const BOUND_PASSED: u32 = 54;
/// A visit with 64 open above it.
pub const TOO_MANY_OPEN: u32 = 55;
/// No room for a finished item.
pub const NO_ROOM: u32 = 56;
/// Output shorter than the rewritten value.
pub const RESULT_TOO_LONG: u32 = 57;
/// Octets of the profile body end.
pub const PROFILE_CUT: u32 = 60;
/// An order octet above 1.
pub const ORDER_UNFIT: u32 = 61;
/// Not IIOP 1.0, 1.1 or 1.2.
pub const PROFILE_VERSION_UNKNOWN: u32 = 62;
/// A host of length 0, without a last zero octet or with an earlier one.
pub const HOST_UNFIT: u32 = 63;
/// Octets after the key in 1.0.
pub const OCTETS_AFTER_KEY: u32 = 64;
/// A number not below the count of a profile's components, of a header's contexts
/// or of its target's profiles.
pub const NO_SUCH_PART: u32 = 69;
/// Octets of the message end in its Request or Reply header, or in the gap before
/// its body.
pub const MESSAGE_CUT: u32 = 70;
/// A response boolean above 1, or response flags that there are not.
pub const RESPONSE_UNFIT: u32 = 71;
/// A target that is neither a key, a profile nor a reference.
pub const TARGET_KIND_UNKNOWN: u32 = 72;
/// An operation or a reference's type id of length 0, without a last zero octet or
/// with an earlier one.
pub const NAME_UNFIT: u32 = 73;
/// A status that the version does not have.
pub const STATUS_UNKNOWN: u32 = 74;
/// A message that is neither Request nor Reply, or has the more flag.
pub const NO_MESSAGE_HEADER: u32 = 75;
/// Output shorter than the octets before the body.
pub const HEAD_TOO_LONG: u32 = 76;

/// Gives the refusal unless the demand is met.
pub fn demand(met: bool, refusal: u32) -> Result<(), u32> {
    if met {
        Ok(())
    } else {
        Err(refusal)
    }
}
