//! Frames that put the board's questions at their bounds, one after another.

use super::frames::*;
use super::random::{neighbour, power};
use super::scenes::EARTH;
use super::vectors::{Vector, antipode};
use std::f64::consts::PI;

pub const X: Vector = [1.0, 0.0, 0.0];
const Y: Vector = [0.0, 1.0, 0.0];
const Z: Vector = [0.0, 0.0, 1.0];
/// X but for the signs of its zeros.
pub const SIGNED_X: Vector = [1.0, -0.0, -0.0];
pub const ZERO: Vector = [0.0; 3];
/// Its squared norm is infinite.
const HUGE: Vector = [1e200, 0.0, 0.0];
pub const NAN: f64 = f64::NAN;
const LEAST: f64 = power(-1074);
/// How far a squared norm may lie from one, and steps about that bound.
const TOLERANCE: f64 = power(-40);
const STEPS: [i32; 5] = [-2, -1, 0, 1, 2];

/// Patterns that are no finite numbers, NaN of several payloads among them.
const NOT_FINITE: [u64; 6] = [
    0x7ff0_0000_0000_0000,
    0xfff0_0000_0000_0000,
    0x7ff8_0000_0000_0000,
    0xfff8_0000_0000_0000,
    0x7ff0_0000_0000_0001,
    0xffff_ffff_ffff_ffff,
];

/// Radii that are refused.
pub fn radii() -> Vec<Frame> {
    let refused = [0.0, -0.0, -1.0, -LEAST, -EARTH].map(f64::to_bits);
    refused.into_iter().chain(NOT_FINITE).map(Frame::fresh).collect()
}

/// A frame of each kind but 00, none of them refused for what it hands over.
pub fn kinds() -> Vec<Frame> {
    vec![
        Frame::report(7, state(X, 0.0, 0.0)),
        Frame::withdraw(7),
        Frame::own_ship(state(Y, 0.0, 1.0)),
        Frame::track(ends(X, Y)),
        Frame::solve(7),
        Frame::asking(MEAN),
        Frame::asking(PICK),
        Frame::asking(TOTAL),
    ]
}

/// All but question 9, one after another.
pub fn frames() -> Vec<Frame> {
    let mut frames = radii();
    frames.extend(asked());
    frames.extend([LEAST, f64::MAX, EARTH].map(|radius| Frame::fresh(radius.to_bits())));
    frames.extend(asked());
    frames.extend([0, 9].iter().flat_map(|name| [Frame::solve(*name), Frame::withdraw(*name)]));
    frames.extend(reports());
    frames.extend([Frame::solve(1), Frame::track(ends(X, Y)), Frame::solve(1)]);
    frames.extend(own_ships());
    frames.push(Frame::solve(1));
    frames.push(Frame::fresh(EARTH.to_bits()));
    frames.extend([Frame::report(1, state(X, 0.0, 1.0)), Frame::own_ship(state(Y, 0.0, 1.0))]);
    frames.extend([Frame::solve(1), Frame::solve(2)]);
    frames.extend(tracks());
    frames.push(Frame::solve(1));
    frames.extend(asked());
    frames
}

pub fn asked() -> [Frame; 3] {
    [MEAN, PICK, TOTAL].map(Frame::asking)
}

/// Questions 3 to 6 of a report, each before the ones after it.
fn reports() -> Vec<Frame> {
    let mut frames =
        vec![Frame::report(0, state(X, NAN, -1.0)), Frame::report(0, state(X, 0.0, 1.0))];
    frames.extend(states().into_iter().map(|state| Frame::report(1, state)));
    frames.push(Frame::report(u16::MAX, state(Z, 0.0, 1.0)));
    frames
}

fn own_ships() -> Vec<Frame> {
    states().into_iter().map(Frame::own_ship).collect()
}

/// A vehicle at each bound; the last is accepted.
fn states() -> Vec<State> {
    let mut states = Vec::new();
    for (place, word) in (0..5).flat_map(|place| NOT_FINITE.map(|word| (place, word))) {
        let mut spoilt = state(X, 0.0, 1.0);
        spoilt[place] = word;
        states.push(spoilt);
    }
    states.extend([state(ZERO, NAN, -1.0), state(HUGE, 0.0, -1.0), state(ZERO, 0.0, 1.0)]);
    states.extend(about_tolerance().map(|place| state(place, 0.0, 1.0)));
    states.extend([-LEAST, -1.0, -0.0, LEAST, f64::MAX, 1.0].map(|speed| state(X, 0.0, speed)));
    states.extend([f64::MAX, -0.0, -7.0 * PI].map(|bearing| state(SIGNED_X, bearing, 1.0)));
    states
}

/// On the axes, squared norms at and about 2^-40 from one.
fn about_tolerance() -> impl Iterator<Item = Vector> {
    let roots = [1.0 + TOLERANCE, 1.0 - TOLERANCE].map(f64::sqrt);
    roots.into_iter().flat_map(|root| {
        STEPS.iter().enumerate().map(move |(place, steps)| {
            let mut v = ZERO;
            v[place % 3] = neighbour(root, *steps);
            v
        })
    })
}

/// Questions 4, 5 and 7; the last is accepted.
fn tracks() -> Vec<Frame> {
    let mut frames = Vec::new();
    for (place, word) in NOT_FINITE.into_iter().enumerate() {
        let mut spoilt = ends(X, Y);
        spoilt[place] = word;
        frames.push(Frame::track(spoilt));
    }
    let mut long: Vec<[Vector; 2]> = about_tolerance().map(|v| [v, [0.6, 0.0, 0.8]]).collect();
    long.extend(about_tolerance().map(|v| [Z, v]));
    let near = [1.0, LEAST, 0.0];
    let equal = [[X, X], [X, SIGNED_X], [X, antipode(X)], [SIGNED_X, antipode(X)], [ZERO, ZERO]];
    let apart = [[X, near], [near, antipode(X)], [Z, antipode(Y)]];
    let all = long.into_iter().chain(equal).chain(apart);
    frames.extend(all.map(|[start, end]| Frame::track(ends(start, end))));
    frames
}

pub fn state([x, y, z]: Vector, bearing: f64, speed: f64) -> State {
    [x, y, z, bearing, speed].map(f64::to_bits)
}

pub fn ends([a, b, c]: Vector, [d, e, f]: Vector) -> Ends {
    [a, b, c, d, e, f].map(f64::to_bits)
}
