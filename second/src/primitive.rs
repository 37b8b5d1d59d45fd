//! Primitives in either byte order.

/// Reads an unsigned long.
pub fn ulong(octets: [u8; 4], little: bool) -> u32 {
    if little {
        u32::from_le_bytes(octets)
    } else {
        u32::from_be_bytes(octets)
    }
}

/// Reads an unsigned number of at most eight octets.
pub fn number<const SIZE: usize>(octets: [u8; SIZE], little: bool) -> u64 {
    let mut wide = [0; 8];
    if little {
        wide[..SIZE].copy_from_slice(&octets);
        u64::from_le_bytes(wide)
    } else {
        wide[8 - SIZE..].copy_from_slice(&octets);
        u64::from_be_bytes(wide)
    }
}

/// The octets of an unsigned long.
pub fn ulong_octets(number: u32, little: bool) -> [u8; 4] {
    if little {
        number.to_le_bytes()
    } else {
        number.to_be_bytes()
    }
}

#[cfg(test)]
mod tests {
    use super::{number, ulong, ulong_octets};

    #[test]
    fn reads_both_orders() {
        assert_eq!(ulong([0x01, 0x02, 0x03, 0x04], false), 0x0102_0304);
        assert_eq!(ulong([0x01, 0x02, 0x03, 0x04], true), 0x0403_0201);
        assert_eq!(number([0x81], false), 0x81);
        assert_eq!(number([0x81], true), 0x81);
        assert_eq!(number([0x81, 0x02], false), 0x8102);
        assert_eq!(number([0x01, 0x82], true), 0x8201);
        assert_eq!(number([0x81, 0x02, 0x03, 0x04], false), 0x8102_0304);
        let octets = [0x81, 0x02, 0x03, 0x04, 0x05, 0x06, 0x07, 0x08];
        assert_eq!(number(octets, false), 0x8102_0304_0506_0708);
        assert_eq!(number(octets, true), 0x0807_0605_0403_0281);
    }

    #[test]
    fn writes_both_orders() {
        assert_eq!(ulong_octets(0x0102_0304, false), [0x01, 0x02, 0x03, 0x04]);
        assert_eq!(ulong_octets(0x0102_0304, true), [0x04, 0x03, 0x02, 0x01]);
    }
}
