//! What the archive hands us: lines of hexadecimal digits, one message each.

use crate::refusal::{demand, LINE_TOO_LONG, NOT_HEXADECIMAL};

/// The most characters of a line.
pub const LONGEST_LINE: usize = 8_192;

/// The most octets of a message that comes as a line.
pub const LONGEST_MESSAGE: usize = 4_096;

/// The digits that are written.
const UPPER_CASE: &[u8; 16] = b"0123456789ABCDEF";

/// What stands in [`VALUES`] for a character that is no digit.
const NO_DIGIT: u8 = 0xFF;

/// The value of each character, 0 to 15 for the digits of either case.
static VALUES: [u8; 256] = values();

/// The two upper-case digits of each octet.
static DIGITS: [[u8; 2]; 256] = digits();

/// Turns a line's characters, without its LF, into octets; refusals 10 and 11.
pub fn decode(line: &[u8]) -> Result<Vec<u8>, u32> {
    let mut octets = Vec::new();
    decode_into(line, &mut octets).map(|()| octets)
}

/// Turns a line's characters into octets, which take the place of those that
/// were there; after a refusal nothing is said of them.
pub fn decode_into(line: &[u8], octets: &mut Vec<u8>) -> Result<(), u32> {
    demand(line.len() <= LONGEST_LINE, LINE_TOO_LONG)?;
    digits_into(line, octets)
}

/// Turns any number of digits into octets; refusal 11. The octets are lent as
/// for a line.
pub fn digits_into(digits: &[u8], octets: &mut Vec<u8>) -> Result<(), u32> {
    demand(digits.len().is_multiple_of(2), NOT_HEXADECIMAL)?;
    octets.resize(digits.len() / 2, 0);
    let mut all_bits = 0;
    for (octet, pair) in octets.iter_mut().zip(digits.chunks_exact(2)) {
        let high = VALUES[usize::from(pair[0])];
        let low = VALUES[usize::from(pair[1])];
        all_bits |= high | low;
        *octet = high << 4 | low;
    }
    demand(all_bits < 16, NOT_HEXADECIMAL)
}

/// Turns octets into upper-case digits.
pub fn encode(octets: &[u8]) -> Vec<u8> {
    let mut text = Vec::new();
    encode_into(octets, &mut text);
    text
}

/// Adds the upper-case digits of octets to a text.
pub fn encode_into(octets: &[u8], text: &mut Vec<u8>) {
    let start = text.len();
    text.resize(start + 2 * octets.len(), 0);
    for (pair, &octet) in text[start..].chunks_exact_mut(2).zip(octets) {
        pair.copy_from_slice(&DIGITS[usize::from(octet)]);
    }
}

/// The table of the characters' values.
const fn values() -> [u8; 256] {
    let mut values = [NO_DIGIT; 256];
    let mut value = 0;
    while value < 16 {
        let digit = UPPER_CASE[value as usize];
        values[digit as usize] = value;
        values[digit.to_ascii_lowercase() as usize] = value;
        value += 1;
    }
    values
}

/// The table of the octets' digits.
const fn digits() -> [[u8; 2]; 256] {
    let mut digits = [[0; 2]; 256];
    let mut octet = 0;
    while octet < 256 {
        digits[octet] = [UPPER_CASE[octet >> 4], UPPER_CASE[octet & 0x0F]];
        octet += 1;
    }
    digits
}

#[cfg(test)]
mod tests {
    use super::*;

    #[test]
    fn an_empty_line_is_a_message_of_no_octets() {
        assert_eq!(decode(b""), Ok(vec![]));
    }

    #[test]
    fn digits_of_either_case_are_read() {
        let octets = vec![0x01, 0x23, 0x45, 0x67, 0x89, 0xAB, 0xCD, 0xEF];
        assert_eq!(decode(b"0123456789ABCDEF"), Ok(octets.clone()));
        assert_eq!(decode(b"0123456789abcdef"), Ok(octets.clone()));
        assert_eq!(decode(b"0123456789aBCdEf"), Ok(octets));
    }

    #[test]
    fn the_longest_line_is_8192_digits() {
        assert_eq!(decode(&[b'0'; 8_192]), Ok(vec![0; 4_096]));
        assert_eq!(decode(&[b'0'; 8_193]), Err(10));
        assert_eq!(decode(&[b'0'; 8_194]), Err(10));
    }

    #[test]
    fn length_is_judged_before_digits() {
        assert_eq!(decode(&[b'x'; 8_192]), Err(11));
        assert_eq!(decode(&[b'x'; 8_193]), Err(10));
        // A character of two octets counts twice.
        assert_eq!(decode("é".repeat(4_096).as_bytes()), Err(11));
        assert_eq!(decode("é".repeat(4_097).as_bytes()), Err(10));
    }

    #[test]
    fn an_odd_digit_count_is_refused() {
        assert_eq!(decode(b"4"), Err(11));
        assert_eq!(decode(b"474"), Err(11));
        assert_eq!(decode(&[b'0'; 8_191]), Err(11));
    }

    #[test]
    fn only_digits_are_digits() {
        for character in 0..=u8::MAX {
            let is_digit = b"0123456789abcdefABCDEF".contains(&character);
            assert_eq!(decode(&[character, b'0']).is_ok(), is_digit);
            assert_eq!(decode(&[b'0', character]).is_ok(), is_digit);
        }
        assert_eq!(decode(b"47\r\r"), Err(11));
        assert_eq!(decode(b"47 4"), Err(11));
    }

    #[test]
    fn octets_are_written_in_upper_case() {
        assert_eq!(encode(&[]), b"");
        assert_eq!(encode(&[0x00, 0x0A, 0xF0, 0xBC]), b"000AF0BC");
    }

    #[test]
    fn lent_vectors_are_used_again() {
        let mut octets = vec![0xAA; 7];
        assert_eq!(decode_into(b"0102", &mut octets), Ok(()));
        assert_eq!(octets, [0x01, 0x02]);
        let mut text = b"1 0 ".to_vec();
        encode_into(&octets, &mut text);
        assert_eq!(text, b"1 0 0102");
    }

    #[test]
    fn digits_alone_may_be_many() {
        let mut octets = Vec::new();
        assert_eq!(digits_into(&[b'a'; 8_194], &mut octets), Ok(()));
        assert_eq!(octets, [0xAA; 4_097]);
        assert_eq!(digits_into(&[b'a'; 8_193], &mut octets), Err(11));
        assert_eq!(digits_into(&[b'x'; 8_194], &mut octets), Err(11));
    }

    #[test]
    fn what_is_written_reads_back() {
        let octets: Vec<u8> = (0..=u8::MAX).collect();
        assert_eq!(decode(&encode(&octets)), Ok(octets));
    }
}
