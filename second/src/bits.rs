//! Strings of single bits, most significant first.
//!
//! A sheet is written as one long string of bits and packed at the end, and
//! read by cutting a string out of it. No field has to know where in a byte
//! it begins.

/// Appends the last `width` bits of `value`.
pub(crate) fn append(bits: &mut Vec<bool>, value: u32, width: usize) {
    bits.extend((0..width).rev().map(|place| value >> place & 1 == 1));
}

/// Appends a whole number in two's complement of `width` bits, which it has
/// to fit.
pub(crate) fn append_signed(bits: &mut Vec<bool>, value: i8, width: usize) {
    append(bits, i32::from(value).rem_euclid(1 << width) as u32, width);
}

/// Whether a number can be held in two's complement of `width` bits, for a
/// width from 1 to 8.
pub(crate) fn fits(value: i8, width: usize) -> bool {
    let half = 1 << (width - 1);
    (-half..half).contains(&i32::from(value))
}

/// The bytes of a string of bits, with zero bits to the last byte's end.
pub(crate) fn pack(bits: &[bool]) -> Vec<u8> {
    bits.chunks(8)
        .map(|byte| {
            byte.iter()
                .zip([128, 64, 32, 16, 8, 4, 2, 1])
                .map(|(&bit, weight)| if bit { weight } else { 0 })
                .sum()
        })
        .collect()
}

/// The string of `length` bits that begins at bit `from` of the bytes, which
/// have to be long enough.
pub(crate) fn cut(bytes: &[u8], from: usize, length: usize) -> impl Iterator<Item = bool> + '_ {
    (from..from + length).map(|bit| bytes[bit / 8] >> (7 - bit % 8) & 1 == 1)
}

/// Takes the next `width` bits off a string, as a number from 0 up.
pub(crate) fn take(bits: &mut impl Iterator<Item = bool>, width: usize) -> u32 {
    bits.take(width)
        .fold(0, |number, bit| 2 * number + u32::from(bit))
}

/// Takes the next `width` bits, 1 to 8 of them, as a number in two's
/// complement.
pub(crate) fn take_signed(bits: &mut impl Iterator<Item = bool>, width: usize) -> i8 {
    let number = take(bits, width) as i32;
    let half = 1 << (width - 1);
    (if number < half {
        number
    } else {
        number - 2 * half
    }) as i8
}
