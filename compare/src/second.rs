//! The references held to a second opinion: whole numbers for the roundings
//! of durations, the standard library for what the references write out,
//! sine and cosine by themselves for both together.

use crate::answer::Outcome;
use crate::ground;
use crate::reference::{TOO_MANY_NANOSECONDS, TOO_MANY_SECONDS, asked};
use std::time::Duration;

/// As the ported source writes it.
const NANOS_PER_HOUR: f64 = 3_600.0 * 1_000.0 * 1_000_000.0;

/// The exact value times 10^9, nearest, ties to even.
pub fn from_seconds(t: f64) -> Outcome {
    asked(t, t < TOO_MANY_SECONDS, || {
        let (significand, exponent) = parts(t);
        nearest(significand * 1_000_000_000, exponent, |whole| whole % 2 == 1)
    })
}

/// The float product, nearest, halves away from zero.
pub fn from_hours(h: f64) -> Outcome {
    let product = h * NANOS_PER_HOUR;
    asked(h, product < TOO_MANY_NANOSECONDS, || {
        let (significand, exponent) = parts(product);
        nearest(significand, exponent, |_| true)
    })
}

/// Each by itself.
pub fn sin_cos(x: f64) -> [f64; 2] {
    [ground::sin(x), ground::cos(x)]
}

pub fn to_seconds(nanoseconds: u64) -> f64 {
    Duration::from_nanos(nanoseconds).as_secs_f64()
}

pub fn to_radians(x: f64) -> f64 {
    x.to_radians()
}

pub fn to_degrees(x: f64) -> f64 {
    x.to_degrees()
}

/// Significand and exponent of two of a finite float that is zero or more.
fn parts(x: f64) -> (u128, i32) {
    let magnitude = x.to_bits() & (u64::MAX >> 1);
    let (field, fraction) = ((magnitude >> 52) as i32, magnitude & ((1 << 52) - 1));
    if field == 0 {
        (fraction as u128, -1074)
    } else {
        ((fraction | 1 << 52) as u128, field - 1075)
    }
}

/// `significand` times 2^`exponent`, nearest; `up` says whether a half goes up from a whole number.
fn nearest(significand: u128, exponent: i32, up: impl Fn(u128) -> bool) -> u64 {
    if exponent >= 0 {
        return (significand << exponent) as u64;
    }
    // A significand has at most 83 bits here, so a longer shift leaves less than a half.
    let shift = exponent.unsigned_abs().min(100);
    let whole = significand >> shift;
    let (rest, half) = (significand - (whole << shift), 1 << (shift - 1));
    let raise = rest > half || (rest == half && up(whole));
    (whole + raise as u128) as u64
}
