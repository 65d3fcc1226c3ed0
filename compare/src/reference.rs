//! The Rust answers. None is inlined: in `time` both sides pay for a call.

use crate::answer::{self, NOT_ZERO_OR_MORE, Outcome, TOO_LONG};
use crate::ground;
use std::{f64::consts::PI, time::Duration};

/// 2^34, the seconds from which a duration is refused.
pub const TOO_MANY_SECONDS: f64 = (1u64 << 34) as f64;
/// 2^34 times 10^9, exact as a float.
pub const TOO_MANY_NANOSECONDS: f64 = TOO_MANY_SECONDS * 1e9;
pub const NANOSECONDS_AN_HOUR: f64 = 3.6e12;

/// A NaN has no sign.
#[inline(never)]
pub fn sign_bit(x: f64) -> bool {
    !x.is_nan() && x.is_sign_negative()
}

#[inline(never)]
pub fn magnitude(x: f64) -> f64 {
    x.abs()
}

#[inline(never)]
pub fn to_bits(x: f64) -> u64 {
    answer::bits(x)
}

#[inline(never)]
pub fn from_bits(bits: u64) -> f64 {
    f64::from_bits(bits)
}

#[inline(never)]
pub fn sqrt(x: f64) -> f64 {
    x.sqrt()
}

#[inline(never)]
pub fn rem(x: f64, y: f64) -> f64 {
    x % y
}

#[inline(never)]
pub fn sin(x: f64) -> f64 {
    ground::sin(x)
}

#[inline(never)]
pub fn cos(x: f64) -> f64 {
    ground::cos(x)
}

#[inline(never)]
pub fn sin_cos(x: f64) -> [f64; 2] {
    ground::sin_cos(x)
}

/// Two calls, for `time`.
pub fn sin_and_cos(x: f64) -> [f64; 2] {
    [sin(x), cos(x)]
}

#[inline(never)]
pub fn atan2(y: f64, x: f64) -> f64 {
    ground::atan2(y, x)
}

#[inline(never)]
pub fn to_radians(x: f64) -> f64 {
    x * (PI / 180.0)
}

#[inline(never)]
pub fn to_degrees(x: f64) -> f64 {
    x * (180.0 / PI)
}

#[inline(never)]
pub fn from_seconds(t: f64) -> Outcome {
    asked(t, t < TOO_MANY_SECONDS, || Duration::from_secs_f64(t).as_nanos() as u64)
}

#[inline(never)]
pub fn from_hours(h: f64) -> Outcome {
    let product = h * NANOSECONDS_AN_HOUR;
    asked(h, product < TOO_MANY_NANOSECONDS, || product.round() as u64)
}

#[inline(never)]
pub fn to_seconds(nanoseconds: u64) -> f64 {
    let (whole, rest) = (nanoseconds / 1_000_000_000, nanoseconds % 1_000_000_000);
    whole as f64 + rest as f64 / 1e9
}

/// Document 01's two questions about a time, in its order, then the nanoseconds.
pub fn asked(time: f64, short_enough: bool, nanoseconds: impl Fn() -> u64) -> Outcome {
    if time < 0.0 || time.is_nan() {
        Outcome::refused(NOT_ZERO_OR_MORE)
    } else if !short_enough {
        Outcome::refused(TOO_LONG)
    } else {
        Outcome::found(nanoseconds())
    }
}
