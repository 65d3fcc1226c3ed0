//! Nanoseconds a call on both sides, on the same inputs.

use crate::functions::Argument;
use crate::inputs::classes::{BITS, DIRECTION, Draw, TURN, WIDTH};
use crate::inputs::random::{Random, power};
use crate::{ours, reference};
use std::hint::black_box;
use std::time::{Duration, Instant};

const INPUTS: usize = 4096;
/// How long a case goes on: rounds enough that a busy spell spoils none.
const PATIENCE: Duration = Duration::from_millis(500);

const DEGREES: Draw = Draw::Float(|r| r.within(-360.0, 360.0));
const SMALL: Draw = Draw::Float(|r| r.within(0.0, 4.0));
const MAGNITUDES: Draw = Draw::Float(|r| r.scaled(-1074, 1023));
const FAR: Draw = Draw::Float(|r| r.within(-1e4, 1e4));
const WRAPPED: Draw = Draw::Pair(|r| [r.within(0.0, 1e4), 2.0 * std::f64::consts::PI]);
const WORST: Draw = Draw::Pair(|_| [power(1023), power(-1074)]);
const LONG: Draw = Draw::Pair(|r| [r.scaled(1000, 1023), r.scaled(-1070, -1022)]);
const ODD: Draw = Draw::Pair(|r| [r.scaled(1000, 1000), r.scaled(-1000, -1000)]);
const APART: Draw = Draw::Pair(|r| [r.scaled(64, 64), r.scaled(0, 0)]);
const BETWEEN: Draw = Draw::Pair(|r| [r.scaled(53, 53), r.scaled(0, 0)]);
const HUGE: Draw = Draw::Float(|r| r.scaled(60, 1023));
const SECONDS: Draw = Draw::Float(|r| r.within(0.0, 1e6));
const HOURS: Draw = Draw::Float(|r| r.within(0.0, 1e6 / 3600.0));

/// A row: what is timed on which inputs, and how to get the best nanoseconds here and in Rust.
struct Case {
    name: &'static str,
    inputs: &'static str,
    measure: fn() -> [f64; 2],
}

macro_rules! case {
    ($name:ident($($argument:ident),+), $range:literal, $draw:expr) => {
        Case {
            name: stringify!($name),
            inputs: $range,
            measure: || measure(
                $draw,
                |[$($argument),+]| ours::$name($(Argument::of($argument)),+),
                |[$($argument),+]| reference::$name($(Argument::of($argument)),+),
            ),
        }
    };
}

const CASES: &[Case] = &[
    case!(sign_bit(x), "-360..360", DEGREES),
    case!(magnitude(x), "-360..360", DEGREES),
    case!(to_bits(x), "-360..360", DEGREES),
    case!(from_bits(bits), "all patterns", BITS),
    case!(sqrt(x), "0..4", SMALL),
    case!(sqrt(x), "all magnitudes", MAGNITUDES),
    case!(rem(x, y), "0..1e4 % 2π", WRAPPED),
    case!(rem(x, y), "2^1023 % 2^-1074", WORST),
    case!(rem(x, y), "huge % subnormal", LONG),
    case!(rem(x, y), "exponents 2000 apart", ODD),
    case!(rem(x, y), "exponents 64 apart", APART),
    case!(rem(x, y), "exponents 53 apart", BETWEEN),
    case!(sin(x), "-2π..2π", TURN),
    case!(sin(x), "-1e4..1e4", FAR),
    case!(sin(x), "huge", HUGE),
    case!(cos(x), "-2π..2π", TURN),
    case!(cos(x), "-1e4..1e4", FAR),
    case!(cos(x), "huge", HUGE),
    case!(sin_cos(x), "-2π..2π", TURN),
    case!(sin_cos(x), "-1e4..1e4", FAR),
    case!(sin_cos(x), "huge", HUGE),
    case!(sin_and_cos(x), "-2π..2π", TURN),
    case!(sin_and_cos(x), "-1e4..1e4", FAR),
    case!(sin_and_cos(x), "huge", HUGE),
    case!(atan2(y, x), "unit vectors", DIRECTION),
    case!(to_radians(x), "-360..360", DEGREES),
    case!(to_degrees(x), "-2π..2π", TURN),
    case!(from_seconds(t), "0..1e6 s", SECONDS),
    case!(from_hours(h), "0..1e6 s", HOURS),
    case!(to_seconds(nanoseconds), "every width", WIDTH),
];

pub fn run() {
    println!("{:<14}{:<26}{:>9}{:>9}{:>8}", "function", "inputs", "ns here", "ns Rust", "ratio");
    for Case { name, inputs, measure } in CASES {
        let [here, rust] = measure();
        println!("{name:<14}{inputs:<26}{here:>9.2}{rust:>9.2}{:>8.2}", here / rust);
    }
}

/// The ratio of a function's first row.
pub fn ratio(name: &str) -> Option<f64> {
    let case = CASES.iter().find(|case| case.name == name)?;
    let [here, rust] = (case.measure)();
    Some(here / rust)
}

/// The best of several rounds, the sides taking turns.
fn measure<const N: usize, A, B>(
    draw: Draw,
    here: impl Fn([u64; N]) -> A,
    rust: impl Fn([u64; N]) -> B,
) -> [f64; 2] {
    let inputs = prepared(draw);
    let mut best = [f64::INFINITY; 2];
    let start = Instant::now();
    while start.elapsed() < PATIENCE {
        best = [best[0].min(round(&inputs, &here)), best[1].min(round(&inputs, &rust))];
    }
    best
}

fn prepared<const N: usize>(draw: Draw) -> Vec<[u64; N]> {
    let mut random = Random::new(0);
    let mut words = [0; N];
    let mut input = || {
        draw.fill(&mut random, &mut words);
        words
    };
    (0..INPUTS).map(|_| input()).collect()
}

/// Nanoseconds a call over all inputs once.
fn round<const N: usize, A>(inputs: &[[u64; N]], call: impl Fn([u64; N]) -> A) -> f64 {
    let start = Instant::now();
    for words in black_box(inputs) {
        // A float register is written whole between calls: a conversion into a part of it would
        // wait for the last answer, and the row would tell of that wait.
        black_box(f64::from_bits(words[0]));
        black_box(call(*words));
    }
    start.elapsed().as_secs_f64() * 1e9 / inputs.len() as f64
}
