//! Boundaries that every run meets: special patterns, document 01's bounds, and neighbours.

use super::random::{neighbour, power};
use crate::reference::{NANOSECONDS_AN_HOUR, TOO_MANY_NANOSECONDS, TOO_MANY_SECONDS};
use std::f64::consts::PI;

/// Zeros, infinities, ends of the subnormals and normals, some ordinary numbers, NaN of both signs.
pub const SPECIAL: &[u64] = &[
    0x0000_0000_0000_0000,
    0x8000_0000_0000_0000,
    0x7ff0_0000_0000_0000,
    0xfff0_0000_0000_0000,
    0x7ff8_0000_0000_0000,
    0xfff8_0000_0000_0000,
    0x7ff0_0000_0000_0001,
    0xfff0_0000_0000_0001,
    0x7fff_ffff_ffff_ffff,
    0xffff_ffff_ffff_ffff,
    0x7ff4_dead_beef_0000,
    0x0000_0000_0000_0001,
    0x8000_0000_0000_0001,
    0x000f_ffff_ffff_ffff,
    0x800f_ffff_ffff_ffff,
    0x0010_0000_0000_0000,
    0x8010_0000_0000_0000,
    0x7fef_ffff_ffff_ffff,
    0xffef_ffff_ffff_ffff,
    0x3ff0_0000_0000_0000,
    0xbff0_0000_0000_0000,
    0x3fb9_9999_9999_999a,
    0x4008_0000_0000_0000,
    0xc059_0000_0000_0000,
];

/// Where document 01 or the format turns from one case to the next.
pub const BOUNDS: &[f64] = &[
    0.0,
    f64::MIN_POSITIVE,
    power(-537),
    power(-52),
    power(-51),
    power(-40),
    0.4140625,
    0.5,
    1.0,
    PI / 4.0,
    PI / 2.0,
    0.75 * PI,
    PI,
    1.25 * PI,
    1.75 * PI,
    2.0 * PI,
    180.0,
    TOO_MANY_NANOSECONDS / NANOSECONDS_AN_HOUR,
    TOO_MANY_SECONDS,
    power(53),
    TOO_MANY_NANOSECONDS,
    power(64),
    f64::MAX,
];

pub fn floats(reach: u32) -> Vec<Vec<u64>> {
    let mut inputs = around(BOUNDS.iter().copied(), reach);
    inputs.splice(0..0, SPECIAL.iter().map(|word| vec![*word]));
    inputs
}

pub fn roots(reach: u32) -> Vec<Vec<u64>> {
    let squares = (2..=20).map(|n| (n * n) as f64);
    let long = [(1u64 << 26) - 1, (1 << 26) - 3, 94_906_265, 67_108_859].map(|n| (n * n) as f64);
    // Halfway between two roots of 53 bits, where one step decides the rounding.
    let halfway = [0u128, 1, 2, 3, (1 << 52) - 2, (1 << 52) - 1]
        .map(|n| (1 << 52) + n)
        .map(|n| (n * n + n) as f64);
    let powers = (-1074..1024).step_by(61).map(power);
    let more = squares.chain(long).chain(halfway).chain(powers);
    joined(floats(reach), around_positive(more, reach))
}

pub fn angles(reach: u32) -> Vec<Vec<u64>> {
    // Just within an eighth of a turn the last coefficients count most.
    let within = (1..=128).map(|k| PI / 4.0 - k as f64 / 16384.0);
    joined(turns(reach), around_positive(within, 0))
}

fn turns(reach: u32) -> Vec<Vec<u64>> {
    let few = 1..=24u64;
    let many = [100, 1_000, 10_000, 1_000_003, 1 << 30, (1 << 40) + 1, 1 << 52];
    let eighths = few.chain(many).map(|k| k as f64 * (PI / 4.0));
    let huge = [1e17, 1e22, 1e100, power(1000), power(1023)];
    joined(floats(reach), around(eighths.chain(huge), reach))
}

pub fn seconds(reach: u32) -> Vec<Vec<u64>> {
    let ties = [1u64, 3, 5, 7, 1023, 1025, (1 << 43) - 1, (1 << 44) - 1].map(|k| k as f64 / 1024.0);
    joined(floats(reach), around_positive(ties.into_iter().chain(halves(1e9)), reach))
}

pub fn hours(reach: u32) -> Vec<Vec<u64>> {
    joined(floats(reach), around_positive(halves(NANOSECONDS_AN_HOUR), reach))
}

pub fn nanoseconds(reach: u32) -> Vec<Vec<u64>> {
    let seconds = [0, 1, 2, 59, 3_600, 86_400, 1 << 33, (1 << 34) - 1, 1 << 34, 18_446_744_073];
    let whole = seconds.into_iter().map(|s: u64| s * 1_000_000_000);
    let parts = [999_999_999, 500_000_000, 123_456_789, u64::MAX];
    let powers = (0..64).map(|k| 1u64 << k);
    let about = |word: u64| {
        let first = word.wrapping_sub(reach as u64);
        (0..=2 * reach as u64).map(move |step| vec![first.wrapping_add(step)])
    };
    whole.chain(parts).chain(powers).flat_map(about).collect()
}

pub fn remainders(reach: u32) -> Vec<Vec<u64>> {
    let over_a_turn = |angle: Vec<u64>| vec![angle[0], (2.0 * PI).to_bits()];
    joined(pairs(), turns(reach).into_iter().map(over_a_turn).collect())
}

pub fn directions(reach: u32) -> Vec<Vec<u64>> {
    let sizes = [1.0, 0.1, 3.0, power(-1022), power(1022)];
    // Just below the bound the last coefficient counts most.
    let below = (1..=64).map(|k| vec![(0.4140625 - k as f64 / 4096.0).to_bits(), 1f64.to_bits()]);
    let mut inputs = joined(pairs(), below.collect());
    for size in sizes {
        for lesser in around([0.4140625 * size, size], reach) {
            inputs.push(vec![lesser[0], size.to_bits()]);
            inputs.push(vec![(-size).to_bits(), lesser[0]]);
        }
    }
    inputs
}

/// Every special pattern with every other.
pub fn pairs() -> Vec<Vec<u64>> {
    let with_all =
        |first: &u64| SPECIAL.iter().map(|second| vec![*first, *second]).collect::<Vec<_>>();
    SPECIAL.iter().flat_map(with_all).collect()
}

/// Some whole numbers and a half, over `unit`.
fn halves(unit: f64) -> impl Iterator<Item = f64> {
    let few = 0..5u64;
    let many = [999_999_999, 123_456_789_012, 1 << 51, (1 << 52) - 1, (1 << 52) + 1, (1 << 53) - 1];
    few.chain(many).map(move |n| (n as f64 + 0.5) / unit)
}

/// Each float with either sign and its neighbours.
pub fn around(floats: impl IntoIterator<Item = f64>, reach: u32) -> Vec<Vec<u64>> {
    around_positive(floats.into_iter().flat_map(|x| [x, -x]), reach)
}

/// Each float with its neighbours.
pub fn around_positive(floats: impl IntoIterator<Item = f64>, reach: u32) -> Vec<Vec<u64>> {
    let steps = -(reach as i32)..=reach as i32;
    let about = |x: f64| steps.clone().map(move |n| vec![neighbour(x, n).to_bits()]);
    floats.into_iter().flat_map(about).collect()
}

pub fn joined(mut first: Vec<Vec<u64>>, second: Vec<Vec<u64>>) -> Vec<Vec<u64>> {
    first.extend(second);
    first
}
