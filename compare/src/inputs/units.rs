//! Classes of angles, of latitudes and longitudes, and of what else comes in a unit.

use super::classes::{Draw, mixed, near_whole_second, ordinary};
use super::random::Random;
use std::f64::consts::PI;

/// At and about the bound of equality.
pub const EPSILON: Draw = Draw::Float(near_epsilon);
/// Numbers that differ by about the bound of equality.
pub const EPSILON_APART: Draw = Draw::Pair(epsilon_apart);
/// Equal numbers.
pub const SAME: Draw = Draw::Pair(|r| [mixed(r); 2]);
/// Radians: quarters of a circle and about them, tiny ones, zeros, within two turns.
pub const TURNED: Draw = Draw::Float(turned);
/// Degrees: multiples of 15 and about them, within two turns.
pub const DEGREES: Draw = Draw::Float(degrees);
/// Just below zero: one turn is added and swallows it.
pub const JUST_BELOW_ZERO: Draw = Draw::Float(|r| -r.scaled(-1074, -44));
/// An angle and the end of the range to bring it into.
pub const ANGLE_AND_END: Draw = Draw::Pair(|r| [turned(r), end(r)]);
/// Any float and the end of a range.
pub const MIXED_AND_END: Draw = Draw::Pair(|r| [mixed(r), end(r)]);
/// Latitude and longitude in degrees.
pub const PLACE_IN_DEGREES: Draw = Draw::Pair(|r| [r.within(-90.0, 90.0), r.within(-180.0, 180.0)]);
/// Latitude and longitude in radians.
pub const PLACE: Draw = Draw::Pair(|r| [r.within(-PI / 2.0, PI / 2.0), r.within(-PI, PI)]);
/// A latitude at and about a pole, any longitude.
pub const POLAR: Draw = Draw::Pair(|r| [r.about(PI / 2.0), turned(r)]);
/// A latitude in degrees at and about a pole, any longitude.
pub const POLAR_IN_DEGREES: Draw = Draw::Pair(|r| [r.about(90.0), degrees(r)]);
/// Ordinary amounts over ordinary times.
pub const OVER_TIME: Draw = Draw::Timed(|r| (ordinary(r), r.width(50)));
/// Any amount over any time.
pub const MIXED_OVER_TIME: Draw = Draw::Timed(|r| (mixed(r), r.width(64)));
/// Any amount over about whole seconds.
pub const OVER_WHOLE_SECONDS: Draw = Draw::Timed(|r| (mixed(r), near_whole_second(r)));

/// An angle in radians where something turns from one case to the next, or any.
pub fn turned(r: &mut Random) -> f64 {
    match r.below(5) {
        0 => r.within(-4.0 * PI, 4.0 * PI),
        1 => r.within(0.0, 2.0 * PI),
        2 => {
            let quarters = r.below(9) as f64 * (PI / 2.0);
            r.about(quarters)
        }
        3 => {
            let x = r.scaled(-1074, -40);
            r.signed(x)
        }
        _ => r.choose(&[0.0, -0.0, PI / 2.0, -PI / 2.0, PI, -PI, 2.0 * PI, -2.0 * PI]),
    }
}

fn degrees(r: &mut Random) -> f64 {
    let fifteens = 15.0 * r.below(49) as f64;
    if r.coin() { r.about(fifteens) } else { r.within(-720.0, 720.0) }
}

fn end(r: &mut Random) -> f64 {
    r.choose(&[PI / 2.0, PI, PI, 2.0 * PI, 2.0 * PI, -PI, 1.0, 0.0])
}

fn near_epsilon(r: &mut Random) -> f64 {
    let x = f64::EPSILON * r.choose(&[0.5, 1.0, 1.0, 2.0, 10.0]);
    r.about(x)
}

fn epsilon_apart(r: &mut Random) -> [f64; 2] {
    let size = r.choose(&[0.0, 1e-15, 0.5, 1.0, 2.0, 4.0]);
    let x = r.within(-size, size);
    [x, x + near_epsilon(r)]
}
