//! Boundaries of the walks and of a solve.

use super::fixed::SPECIAL;
use super::random::neighbour;
use super::scenes::{EARTH, Layout, Scene, Ship};
use super::vectors::{Vector, at};
use crate::reference::TOO_MANY_SECONDS;
use std::f64::consts::PI;

const X: Vector = [1.0, 0.0, 0.0];
const Y: Vector = [0.0, 1.0, 0.0];
const Z: Vector = [0.0, 0.0, 1.0];
const OPPOSITE: Vector = [-1.0, 0.0, 0.0];
const SOUTH: Vector = [0.0, 0.0, -1.0];
const ZERO: Vector = [0.0; 3];
const BETWEEN: Vector = [0.6, 0.8, 0.0];

const EAST: f64 = PI / 2.0;
const WEST: f64 = 1.5 * PI;
const TINY: f64 = f64::from_bits(1);
const INFINITY: f64 = f64::INFINITY;
const NAN: f64 = f64::NAN;

const TRACKS: [[Vector; 2]; 6] =
    [[X, Y], [Y, X], [X, X], [X, OPPOSITE], [SOUTH, BETWEEN], [[0.0, -0.0, NAN], Z]];

/// Position, bearing, speed.
type Row = (Vector, f64, f64);

/// On a sphere of radius one: document 01's table first.
const ON_ONE: [(Row, Row); 26] = [
    ((X, 0.0, 0.0), (X, 0.0, 0.0)),
    ((X, 0.0, 1.0), (X, 0.0, 1.0)),
    ((X, 0.0, 1.0), (X, PI, 1.0)),
    ((X, 0.0, 0.0), (Y, 0.0, 0.0)),
    ((X, EAST, 1.0), (Y, WEST, 1.0)),
    ((X, EAST, 1.0), (Y, EAST, 0.5)),
    ((X, EAST, 0.5), (Y, EAST, 1.0)),
    ((X, WEST, 1.0), (Y, EAST, 1.0)),
    ((X, 0.0, 1.0), (OPPOSITE, 0.0, 1.0)),
    ((X, EAST, 1.0), (OPPOSITE, 0.0, 0.25)),
    ((Z, 0.0, 1.0), (X, 0.0, 1.0)),
    ((Z, PI, 1.0), (SOUTH, -0.0, 1.0)),
    ((SOUTH, EAST, 2.0), (Z, WEST, 1.0)),
    ((X, 0.0, 1.0), (BETWEEN, PI, 0.125)),
    ((BETWEEN, 0.5, -1.0), (Y, 0.25, -0.5)),
    ((X, EAST, TINY), (Y, WEST, TINY)),
    ((X, EAST, 1e-300), (Y, WEST, 1e300)),
    ((X, EAST, INFINITY), (Y, WEST, 1.0)),
    ((X, NAN, 1.0), (Y, WEST, NAN)),
    ((ZERO, 0.0, 1.0), (X, EAST, 1.0)),
    ((X, 0.0, 1.0), (ZERO, EAST, 1.0)),
    (([NAN, 0.0, 0.0], 0.0, 1.0), (Y, INFINITY, 1.0)),
    // The first correction is 1e-11 to the last bit: of 77, of 78.
    (([137079632664.7817, 0.0, 0.0], 0.0, 1.0), (Y, WEST, 1.0)),
    ((X, 0.0, 1.0), (BETWEEN, 0.0, 275726632177.07465)),
    // The last correction changes the nanoseconds: of 77, of 78.
    ((X, 0.0, 1.0), ([0.0, 1.0, 3.0], EAST, 0.5)),
    ((X, 0.0, 1.0), (BETWEEN, 0.0, 3.19e8)),
];

/// On the earth, by degrees: latitude, longitude, bearing, then metres a second.
const AT_SEA: [([f64; 4], [f64; 4]); 14] = [
    ([0.0, 0.0, 90.0, 5.0], [0.0, 1.0, 270.0, 1.0]),
    ([0.0, 0.0, 90.0, 5.0], [0.0, 5.0, 90.0, 1.0]),
    ([0.0, 0.0, 90.0, 5.0], [0.0, 60.0, 90.0, 1.0]),
    ([0.0, 0.0, 270.0, 1.0], [0.0, 5.0, 90.0, 5.0]),
    ([60.0, -10.0, 0.0, 8.0], [61.0, -10.0, 180.0, 0.5]),
    ([60.0, -10.0, 45.0, 8.0], [62.0, -5.0, 120.0, 0.5]),
    ([-40.0, 170.0, 300.0, 8.0], [-20.0, -170.0, 200.0, 0.2]),
    ([89.0, 0.0, 0.0, 8.0], [89.0, 180.0, 0.0, 8.0]),
    ([10.0, 20.0, 135.0, 0.2], [-70.0, 150.0, 33.0, 20.0]),
    ([10.0, 20.0, 135.0, 3.0], [10.0, 20.0, 135.0, 3.0]),
    // 77 has a time that stands still; ends in 13, for its times swing.
    ([0.0, 0.0, 90.0, 3.0], [0.0, 6.0, 270.0, 1.0]),
    ([0.0, 0.0, 0.0, 2.0], [0.0, 1.0, 0.0, 1.0]),
    // 77 accepts on step 50; would accept on step 51.
    ([0.0, 0.0, 90.0, 2.0], [1.0, 15.0, 315.0, 3.0]),
    ([0.0, 0.0, 90.0, 2.0], [0.0, 9.0, 90.0, 3.0]),
];

/// A millisecond in hours: closest approach accepts a correction strictly below it.
const TOLERANCE: f64 = 1.0 / (3_600.0 * 1_000.0);
/// A mile's radius and a knot: one radian an hour, and the first correction is the own ship's z.
const MILE: f64 = 1_852.0;
const KNOT: f64 = 1_852.0 / 3_600.0;

/// A quarter turn of radius one takes 2^34 seconds.
const SLOW: f64 = PI / 2.0 / TOO_MANY_SECONDS;

/// Some radii with the first scenes at sea.
const RADII: [f64; 8] = [0.0, -EARTH, 1.0, TINY, 1e300, INFINITY, NAN, 1_737_400.0];

/// The scenes; with neighbours asked for, each of them with each number once each special one.
pub fn inputs(reach: u32, layout: Layout) -> Vec<Vec<u64>> {
    let mut inputs: Vec<Vec<u64>> = scenes().iter().map(|scene| words(&layout(scene))).collect();
    if reach > 0 {
        let spoilt: Vec<_> = inputs.iter().flat_map(|input| each_special(input)).collect();
        inputs.extend(spoilt);
    }
    inputs
}

fn scenes() -> Vec<Scene> {
    let ship = |(position, bearing, speed): Row| Ship { position, bearing, speed };
    let on = |radius: f64, own: Row, target: Row| (radius, ship(own), ship(target));
    let sail = |radius: f64, own: [f64; 4], target: [f64; 4]| (radius, at_sea(own), at_sea(target));
    let mut scenes: Vec<_> = ON_ONE.iter().map(|(own, target)| on(1.0, *own, *target)).collect();
    scenes.extend(AT_SEA.iter().map(|(own, target)| sail(EARTH, *own, *target)));
    let turns = RADII.iter().zip(AT_SEA.iter().cycle());
    scenes.extend(turns.map(|(radius, (own, target))| sail(*radius, *own, *target)));
    for steps in [-1, 0, 1] {
        let z = neighbour(TOLERANCE, steps);
        scenes.extend([z, -z].map(|z| on(MILE, ([1.0, 0.0, z], 0.0, 0.0), (X, 0.0, KNOT))));
        let slow = neighbour(SLOW, steps);
        scenes.push(on(1.0, (X, EAST, slow), (Y, EAST, 0.0)));
        scenes.push(on(1.0, (X, EAST, 0.0), (Y, WEST, slow)));
    }
    let scene = |((radius, own, target), track): (_, &[Vector; 2])| Scene {
        radius,
        own,
        track: *track,
        target,
    };
    scenes.into_iter().zip(TRACKS.iter().cycle()).map(scene).collect()
}

fn at_sea([latitude, longitude, bearing, speed]: [f64; 4]) -> Ship {
    let position = at(radians(latitude), radians(longitude));
    Ship { position, bearing: radians(bearing), speed }
}

fn each_special(input: &[u64]) -> Vec<Vec<u64>> {
    let mut inputs = Vec::new();
    for place in 0..input.len() {
        inputs.extend(SPECIAL.iter().map(|word| {
            let mut other = input.to_vec();
            other[place] = *word;
            other
        }));
    }
    inputs
}

fn radians(degrees: f64) -> f64 {
    degrees * (PI / 180.0)
}

fn words(floats: &[f64]) -> Vec<u64> {
    floats.iter().map(|x| x.to_bits()).collect()
}
