//! Bit-packed numbers, most significant bit first.

/// The number in `count` bits from bit `from`.
pub fn get(bytes: &[u8], from: usize, count: usize) -> u64 {
    (from..from + count).fold(0, |value, bit| value << 1 | u64::from(bytes[bit / 8] >> (7 - bit % 8) & 1))
}

/// Puts a number into `count` bits from bit `from`.
pub fn put(bytes: &mut [u8], from: usize, count: usize, value: u64) {
    for place in 0..count {
        let bit = from + place;
        let here = 1u8 << (7 - bit % 8);
        if value >> (count - 1 - place) & 1 == 1 {
            bytes[bit / 8] |= here;
        } else {
            bytes[bit / 8] &= !here;
        }
    }
}
