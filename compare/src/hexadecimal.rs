//! Hexadecimal digits, high digit first.
//! The standard library's formatting is too slow for millions of lines.

pub const DIGITS: &[u8; 16] = b"0123456789abcdef";

/// The value of a digit; 16 for what is none.
pub const VALUES: [u8; 256] = {
    let mut values = [16; 256];
    let mut value = 0;
    while value < 16 {
        values[DIGITS[value] as usize] = value as u8;
        value += 1;
    }
    values
};

/// Appends the last so many digits of a word.
pub fn append(text: &mut Vec<u8>, word: u64, digits: u32) {
    text.extend((0..digits).rev().map(|place| DIGITS[(word >> (4 * place)) as usize % 16]));
}
