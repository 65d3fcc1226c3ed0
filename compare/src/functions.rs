//! The table of the float layer: one row gives number, arguments, inputs and both sides.
//! Also all tables together.

use crate::answer::Answer;
use crate::function::{Function, Linked};
use crate::{inputs, original, ours, reference, second};

/// An argument read from its word.
pub trait Argument {
    fn of(word: u64) -> Self;
}

impl Argument for f64 {
    fn of(word: u64) -> Self {
        f64::from_bits(word)
    }
}

impl Argument for u64 {
    fn of(word: u64) -> Self {
        word
    }
}

macro_rules! call {
    ($function:path, $($argument:ident),+) => {
        |words| {
            let &[$($argument),+] = words else { panic!("{} arguments", words.len()) };
            Answer::from($function($(Argument::of($argument)),+))
        }
    };
}

/// A row, with the module whose function of that name is tested and that of the reference.
macro_rules! row {
    ($number:literal $name:ident($($argument:ident),+) $inputs:ident: $tested:ident, $reference:ident) => {
        Linked {
            function: Function {
                number: $number,
                name: stringify!($name),
                fewest: [$(stringify!($argument)),+].len(),
                arity: [$(stringify!($argument)),+].len(),
                inputs: &inputs::$inputs,
                examples: |_| Vec::new(),
                reference: call!($reference::$name, $($argument),+),
            },
            tested: call!($tested::$name, $($argument),+),
        }
    };
}

/// The proved functions against the Rust.
pub const FUNCTIONS: &[Linked] = &[
    row!(0x01 sign_bit(x) FLOATS: ours, reference),
    row!(0x02 magnitude(x) FLOATS: ours, reference),
    row!(0x03 to_bits(x) FLOATS: ours, reference),
    row!(0x04 from_bits(bits) FLOATS: ours, reference),
    row!(0x05 sqrt(x) ROOTS: ours, reference),
    row!(0x06 rem(x, y) REMAINDERS: ours, reference),
    row!(0x07 sin(x) ANGLES: ours, reference),
    row!(0x08 cos(x) ANGLES: ours, reference),
    row!(0x09 atan2(y, x) DIRECTIONS: ours, reference),
    row!(0x0a to_radians(x) FLOATS: ours, reference),
    row!(0x0b to_degrees(x) FLOATS: ours, reference),
    row!(0x0c from_seconds(t) SECONDS: ours, reference),
    row!(0x0d from_hours(h) HOURS: ours, reference),
    row!(0x0e to_seconds(nanoseconds) NANOSECONDS: ours, reference),
    row!(0x8e sin_cos(x) ANGLES: ours, reference),
];

/// References against a second opinion on document 01's words.
pub const CHECKS: &[Linked] = &[
    row!(0x0a to_radians(x) FLOATS: reference, second),
    row!(0x0b to_degrees(x) FLOATS: reference, second),
    row!(0x0c from_seconds(t) SECONDS: reference, second),
    row!(0x0d from_hours(h) HOURS: reference, second),
    row!(0x0e to_seconds(nanoseconds) NANOSECONDS: reference, second),
    row!(0x8e sin_cos(x) ANGLES: reference, second),
];

/// The functions 01 to 0e, and 8e.
pub fn floats() -> impl Iterator<Item = &'static Function> {
    FUNCTIONS.iter().map(|linked| &linked.function)
}

/// The functions 10 to 8d.
pub fn ported() -> impl Iterator<Item = &'static Function> {
    original::FUNCTIONS.iter().chain(original::SPHERE).chain(original::NINE)
}
