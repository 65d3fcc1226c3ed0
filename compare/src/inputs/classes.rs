//! The classes that inputs are drawn from.

use super::fixed::{BOUNDS, SPECIAL};
use super::random::{Random, power};
use super::scenes::{self, Class, Layout};
use super::vectors::{self, Group};
use crate::ground;
use crate::reference::{NANOSECONDS_AN_HOUR, TOO_MANY_SECONDS};
use std::f64::consts::PI;

/// How a class fills the arguments of an input.
#[derive(Clone, Copy)]
pub enum Draw {
    /// A word for each argument by itself.
    Word(fn(&mut Random) -> u64),
    /// A float for each argument by itself.
    Float(fn(&mut Random) -> f64),
    /// Two floats that belong together.
    Pair(fn(&mut Random) -> [f64; 2]),
    /// A float and nanoseconds.
    Timed(fn(&mut Random) -> (f64, u64)),
    /// Vectors that belong together, then single floats for what is left.
    Vectors(Group),
    /// A radius, then the same.
    Led(Group),
    /// Either of the two, and a last word of its own.
    Ended(bool, Group, fn(&mut Random) -> u64),
    /// Numbers of a scene.
    Scene(Class, Layout),
    /// The same, some of them replaced.
    Spoilt(Class, Layout),
}

impl Draw {
    pub fn fill(self, random: &mut Random, words: &mut [u64]) {
        match self {
            Draw::Word(draw) => words.fill_with(|| draw(random)),
            Draw::Float(draw) => words.fill_with(|| draw(random).to_bits()),
            Draw::Pair(draw) => words.copy_from_slice(&draw(random).map(f64::to_bits)),
            Draw::Timed(draw) => {
                let (x, nanoseconds) = draw(random);
                words.copy_from_slice(&[x.to_bits(), nanoseconds]);
            }
            Draw::Vectors(group) => vectors::fill(group, random, words),
            Draw::Led(group) => {
                words[0] = scenes::radius(random).to_bits();
                vectors::fill(group, random, &mut words[1..]);
            }
            Draw::Ended(led, group, end) => {
                let (last, rest) = words.split_last_mut().expect("a last word");
                let draw = if led { Draw::Led(group) } else { Draw::Vectors(group) };
                draw.fill(random, rest);
                *last = end(random);
            }
            Draw::Scene(class, layout) => fill(words, &layout(&class(random))),
            Draw::Spoilt(class, layout) => {
                fill(words, &layout(&class(random)));
                scenes::spoil(random, words);
            }
        }
    }

    /// The class with a radius ahead of its vectors.
    pub const fn led(self) -> Draw {
        match self {
            Draw::Vectors(group) => Draw::Led(group),
            other => other,
        }
    }

    /// The class with a last word of its own after its vectors.
    pub const fn ended(self, end: fn(&mut Random) -> u64) -> Draw {
        match self {
            Draw::Vectors(group) => Draw::Ended(false, group, end),
            Draw::Led(group) => Draw::Ended(true, group, end),
            other => other,
        }
    }
}

fn fill(words: &mut [u64], floats: &[f64]) {
    assert_eq!(words.len(), floats.len(), "the numbers of a scene");
    words.iter_mut().zip(floats).for_each(|(word, x)| *word = x.to_bits());
}

/// Every bit pattern alike.
pub const BITS: Draw = Draw::Word(Random::next);
/// Zeros, infinities, NaN and other special patterns.
pub const SPECIALS: Draw = Draw::Word(|r| r.choose(SPECIAL));
/// Sizes of everyday use.
pub const ORDINARY: Draw = Draw::Float(ordinary);
/// Either sign, any number of leading zeros.
pub const SUBNORMAL: Draw = Draw::Float(subnormal);
/// Powers of two and neighbours.
pub const POWER: Draw = Draw::Float(near_power);
/// Document 01's bounds and neighbours.
pub const BOUND: Draw = Draw::Float(near_bound);
/// From 2^53 up.
pub const HUGE: Draw = Draw::Float(huge);
/// Within one turn of zero.
pub const TURN: Draw = Draw::Float(|r| r.within(-2.0 * PI, 2.0 * PI));
/// Multiples of PI/4 and neighbours.
pub const EIGHTH: Draw = Draw::Float(near_eighth);
/// Squares that have an exact root, and neighbours.
pub const SQUARE: Draw = Draw::Float(near_square);
/// Squares of what lies halfway between two floats, and neighbours.
pub const HALFWAY_SQUARE: Draw = Draw::Float(near_halfway_square);
/// Each argument from a class of its own.
pub const MIXED: Draw = Draw::Float(mixed);
/// A multiple of the second argument, or a neighbour of it.
pub const MULTIPLE: Draw = Draw::Pair(multiple);
/// Exponents at most 64 apart.
pub const CLOSE: Draw = Draw::Pair(close);
/// The first argument huge, the second tiny.
pub const APART: Draw = Draw::Pair(|r| [huge(r), r.scaled(-1074, -900)]);
/// Any angle over a whole turn, as sine and cosine take it.
pub const WRAP: Draw = Draw::Pair(|r| [mixed(r), 2.0 * PI]);
/// The components of a unit vector.
pub const DIRECTION: Draw = Draw::Pair(direction);
/// Ratios at and about atan2's bounds, and neighbours.
pub const SLOPE: Draw = Draw::Pair(slope);
/// Seconds from zero to past the limit.
pub const SECOND: Draw = Draw::Float(|r| span(r, TOO_MANY_SECONDS));
/// Seconds that lie halfway between two nanoseconds, and neighbours.
pub const TIE: Draw = Draw::Float(near_tie);
/// Half nanoseconds rounded to a float, and neighbours.
pub const HALF_NANOSECOND: Draw = Draw::Float(|r| near_half(r, 1e9));
/// Hours from zero to past the limit.
pub const HOUR: Draw = Draw::Float(|r| span(r, TOO_MANY_SECONDS / 3600.0));
/// Hours whose product is about half a nanosecond from a whole one.
pub const HOUR_HALF_NANOSECOND: Draw = Draw::Float(|r| near_half(r, NANOSECONDS_AN_HOUR));
/// Whole numbers, every width alike.
pub const WIDTH: Draw = Draw::Word(|r| r.width(64));
/// Whole seconds and nanoseconds about them.
pub const WHOLE_SECOND: Draw = Draw::Word(near_whole_second);

pub fn ordinary(r: &mut Random) -> f64 {
    let size = r.choose(&[1e-3, 1.0, 4.0, 10.0, 360.0, 1e4, 1e6, 1e9]);
    r.within(-size, size)
}

fn subnormal(r: &mut Random) -> f64 {
    let x = f64::from_bits(r.width(52));
    r.signed(x)
}

fn near_power(r: &mut Random) -> f64 {
    let x = power(r.below(2098) as i32 - 1074);
    r.about(x)
}

fn near_bound(r: &mut Random) -> f64 {
    let x = r.choose(BOUNDS);
    r.about(x)
}

fn huge(r: &mut Random) -> f64 {
    let x = r.scaled(53, 1023);
    r.signed(x)
}

fn near_eighth(r: &mut Random) -> f64 {
    let x = r.width(52) as f64 * (PI / 4.0);
    r.about(x)
}

fn near_square(r: &mut Random) -> f64 {
    let root = r.width(26) as f64;
    let x = root * root * even_power(r);
    r.near(x)
}

fn near_halfway_square(r: &mut Random) -> f64 {
    let root = (1 << 52 | r.width(52)) as u128;
    // (root + 1/2)^2 less a quarter.
    let x = (root * root + root) as f64 * even_power(r);
    r.near(x)
}

/// A power of two with an exact root; times a square of 106 bits it stays finite.
fn even_power(r: &mut Random) -> f64 {
    power(2 * (r.below(960) as i32 - 510))
}

pub fn mixed(r: &mut Random) -> f64 {
    let any = |r: &mut Random| f64::from_bits(r.next());
    r.choose(&[any, ordinary, subnormal, near_power, near_bound, huge, near_eighth])(r)
}

fn multiple(r: &mut Random) -> [f64; 2] {
    let y = r.scaled(-1074, 900);
    let x = r.width(53) as f64 * y;
    [r.about(x), r.signed(y)]
}

fn close(r: &mut Random) -> [f64; 2] {
    let y = r.scaled(-1000, 950);
    let x = y * r.scaled(-64, 64);
    [r.signed(x), r.signed(y)]
}

fn direction(r: &mut Random) -> [f64; 2] {
    let angle = r.within(-PI, PI);
    [ground::sin(angle), ground::cos(angle)]
}

fn slope(r: &mut Random) -> [f64; 2] {
    let x = r.scaled(-1022, 1022);
    let about = r.within(0.375, 0.4375);
    let y = x * r.choose(&[0.4140625, 1.0, 1.0 / 0.4140625, about]);
    [r.about(y), r.signed(x)]
}

/// From zero to a little past `limit`, over one of several spans.
fn span(r: &mut Random, limit: f64) -> f64 {
    let end = r.choose(&[1.0, 1e3, 1e6, limit, 1.01 * limit]);
    r.within(0.0, end)
}

/// An odd number of 1024th seconds is an odd number of half nanoseconds.
fn near_tie(r: &mut Random) -> f64 {
    let x = (r.width(44) | 1) as f64 / 1024.0;
    r.near(x)
}

/// Some whole number and a half, over `unit`.
fn near_half(r: &mut Random, unit: f64) -> f64 {
    let x = (r.width(54) as f64 + 0.5) / unit;
    r.near(x)
}

pub fn near_whole_second(r: &mut Random) -> u64 {
    let whole = r.width(34) * 1_000_000_000;
    whole.wrapping_add(r.below(9)).wrapping_sub(4)
}
