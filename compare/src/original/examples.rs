//! The source's documented examples as inputs of the functions that they meet on their way.

use super::shapes::components;
use crate::jord::{Angle, NVector, Speed};
use std::f64::consts::PI;

/// A part of an example as it is documented.
#[derive(Clone, Copy)]
enum Part {
    Number(f64),
    Two(f64, f64),
    /// Degrees, handed over as radians.
    Degrees(f64),
    /// Knots, handed over as metres a second.
    Knots(f64),
    /// Seconds, handed over as nanoseconds.
    Seconds(u64),
    /// Latitude and longitude in degrees, handed over as radians.
    Place(f64, f64),
    /// Latitude and longitude in degrees, handed over as a position.
    At(f64, f64),
    Vector(f64, f64, f64),
}

use Part::*;

/// Degrees of the examples of angles.
const DEGREES: &[f64] =
    &[45.0, -45.0, 359.0, -361.0, 358.0, -2.0, 154.0, 360.0, 179.0, -181.0, 1.0, 181.0, 180.0];

/// Latitudes and longitudes of the examples of positions, arcs and vehicles.
const PLACES: &[(f64, f64)] = &[
    (0.0, 0.0),
    (0.0, 1.0),
    (0.0, 45.0),
    (0.0, -10.0),
    (0.0, 10.0),
    (1.0, 0.0),
    (1.0, 5.0),
    (90.0, 0.0),
    (-90.0, 0.0),
    (45.0, 0.0),
    (60.0, -10.0),
    (10.0, 10.0),
    (-10.0, -10.0),
    (20.0, -60.0),
    (34.0, -50.0),
    (53.2611, -0.7972),
    (53.3206, -1.7297),
    (53.1887, 0.1334),
    (54.0, 154.0),
    (55.0, 155.0),
    (55.4295, 13.82),
    (56.0465, 12.6945),
    (56.0294, 14.1567),
];

/// Functions that every degree and every place is handed to.
const OF_DEGREES: &[u8] = &[0x14];
const OF_RADIANS: &[u8] = &[0x15, 0x16, 0x17];
const OF_PLACES_IN_DEGREES: &[u8] = &[0x50, 0x54];
const OF_PLACES: &[u8] = &[0x52, 0x53];
const OF_POSITIONS: &[u8] = &[0x51, 0x55, 0x62];

const X: Part = Vector(1.0, 0.0, 0.0);
const Y: Part = Vector(0.0, 1.0, 0.0);
const DOUBLE_X: Part = Vector(2.0, 0.0, 0.0);
const DOUBLE_Y: Part = Vector(0.0, 2.0, 0.0);
const SIDE: [Part; 3] = [At(55.4295, 13.82), At(56.0465, 12.6945), At(56.0294, 14.1567)];
const EARTH: Part = Number(6_371_000.8);
const OFF: [Part; 3] = [At(53.2611, -0.7972), At(53.3206, -1.7297), At(53.1887, 0.1334)];
const SHIP: [Part; 3] = [At(20.0, -60.0), Degrees(10.0), Knots(15.0)];
const SEEN: [Part; 2] = [At(34.0, -50.0), Degrees(220.0)];

const EXAMPLES: &[(u8, &[Part])] = &[
    (0x18, &[Degrees(-181.0), Number(PI)]),
    (0x18, &[Degrees(181.0), Number(PI)]),
    (0x18, &[Degrees(154.0), Number(PI)]),
    (0x18, &[Degrees(180.0), Number(PI)]),
    (0x1a, &[Number(1.0)]),
    (0x1b, &[Number(1.0)]),
    (0x1c, &[Number(1.0)]),
    (0x1c, &[Number(2.0)]),
    (0x21, &[Number(2.0), Number(3.0)]),
    (0x21, &[Number(6_371_000.8), Number(2.0)]),
    (0x22, &[Number(1.0), Number(PI)]),
    (0x23, &[Number(1.0), Seconds(1)]),
    (0x23, &[Number(1_852.0), Seconds(3_600)]),
    (0x24, &[Number(1.0)]),
    (0x25, &[Number(1.0)]),
    (0x25, &[Number(15.0)]),
    (0x25, &[Number(300.0)]),
    (0x25, &[Number(600.0)]),
    (0x25, &[Number(50.0)]),
    (0x25, &[Number(700.0)]),
    (0x26, &[Knots(1.0)]),
    (0x27, &[Knots(1.0)]),
    (0x28, &[Number(1.0), Seconds(2)]),
    (0x28, &[Knots(1.0), Seconds(7_200)]),
    (0x31, &[DOUBLE_X]),
    (0x32, &[Vector(1.0, 5.0, 4.0), Vector(2.0, 6.0, 5.0)]),
    (0x33, &[DOUBLE_X, DOUBLE_Y]),
    (0x34, &[Vector(1.0, 5.0, 4.0), Vector(2.0, 6.0, 5.0)]),
    (0x35, &[X, Y]),
    (0x35, &[X, X]),
    (0x35, &[X, Vector(-1.0, 0.0, 0.0)]),
    (0x36, &[Vector(3.0, 2.0, 1.0)]),
    (0x38, &[DOUBLE_X, DOUBLE_Y]),
    (0x39, &[DOUBLE_X, DOUBLE_Y]),
    (0x3b, &[DOUBLE_X]),
    (0x41, &[Vector(1.0, 2.0, 3.0), Vector(4.0, 5.0, 6.0), Vector(7.0, 8.0, 9.0)]),
    (0x60, &[At(90.0, 0.0), At(-90.0, 0.0)]),
    (0x60, &[At(54.0, 154.0), At(55.0, 155.0)]),
    (0x63, &[SIDE[0], SIDE[1], SIDE[2]]),
    (0x63, &[SIDE[0], SIDE[2], SIDE[1]]),
    (0x64, &[At(0.0, -10.0), At(0.0, 10.0)]),
    (0x64, &[At(53.3206, -1.7297), At(53.1887, 0.1334)]),
    (0x65, &[At(53.3206, -1.7297), Degrees(96.0)]),
    (0x66, &[At(20.0, -60.0), Degrees(10.0), Knots(15.0)]),
    (0x66, &[At(34.0, -50.0), Degrees(220.0), Knots(300.0)]),
    (0x66, &[At(34.0, -50.0), Degrees(220.0), Knots(600.0)]),
    (0x70, &[At(0.0, 0.0), At(0.0, 1.0)]),
    (0x71, &[At(90.0, 0.0), At(-90.0, 0.0)]),
    (0x71, &[At(54.0, 154.0), At(55.0, 155.0)]),
    (0x72, &[EARTH, At(90.0, 0.0), At(-90.0, 0.0)]),
    (0x72, &[EARTH, At(54.0, 154.0), At(55.0, 155.0)]),
    (0x73, &[At(0.0, 0.0), At(0.0, 1.0)]),
    (0x73, &[At(0.0, 1.0), At(0.0, 0.0)]),
    (0x74, &[SIDE[0], SIDE[1], SIDE[2]]),
    (0x74, &[SIDE[0], SIDE[2], SIDE[1]]),
    (0x75, &[EARTH, OFF[0], OFF[1], OFF[2]]),
    (0x76, &[EARTH, SHIP[0], SHIP[1], SHIP[2], SEEN[0], SEEN[1], Knots(300.0)]),
    (0x77, &[EARTH, SHIP[0], Knots(50.0), SEEN[0], SEEN[1], Knots(600.0)]),
    (0x77, &[EARTH, SHIP[0], Knots(700.0), SEEN[0], SEEN[1], Knots(600.0)]),
    (0x78, &[EARTH, SHIP[0], SEEN[0], SEEN[1], Knots(600.0)]),
    (0x79, &[At(10.0, 10.0), At(10.0, -10.0), At(-10.0, -10.0), At(-10.0, 10.0)]),
    (0x79, &[At(10.0, 0.0), At(0.0, -10.0), At(0.0, 10.0)]),
    (0x7a, &[EARTH, SHIP[0], SHIP[1], SHIP[2], OFF[1], OFF[2], SEEN[0], SEEN[1], Knots(300.0)]),
    (
        0x7a,
        &[EARTH, SHIP[0], SHIP[1], Knots(700.0), OFF[1], OFF[2], SEEN[0], SEEN[1], Knots(600.0)],
    ),
    (0x80, &[At(0.0, -10.0), At(0.0, 10.0), At(1.0, 0.0)]),
    (0x81, &[SIDE[1], SIDE[2]]),
    (0x82, &[EARTH, OFF[0], OFF[1], OFF[2]]),
    (0x83, &[EARTH, Number(PI)]),
    (0x84, &[EARTH, Number(PI * 6_371_000.8)]),
    (0x85, &[EARTH, At(90.0, 0.0), Degrees(180.0), Number(6_371_000.8 * PI / 4.0)]),
    (0x86, &[At(0.0, 0.0), At(0.0, 1.0)]),
    (0x87, &[At(0.0, 0.0), At(0.0, 1.0), Number(PI / 4.0)]),
    (0x89, &[At(10.0, 0.0), At(0.0, -10.0), At(0.0, 10.0)]),
    (0x8a, &[At(0.0, 0.0), At(45.0, 0.0), At(60.0, -10.0)]),
    (0x8b, &[EARTH, SHIP[0], SHIP[1], SHIP[2], Seconds(11_396)]),
    (0x8b, &[EARTH, SEEN[0], SEEN[1], Knots(600.0), Seconds(5_993)]),
    (0x8d, &[At(10.0, 10.0), At(10.0, -10.0), At(-10.0, -10.0), At(-10.0, 10.0)]),
];

/// The words of every example of the function with this number.
pub fn of(number: u8) -> Vec<Vec<u64>> {
    let of_its_own = EXAMPLES.iter().filter(|(function, _)| *function == number);
    let mut inputs: Vec<Vec<u64>> = of_its_own.map(|(_, parts)| words(parts)).collect();
    let mut add = |functions: &[u8], more: Vec<Part>| {
        if functions.contains(&number) {
            inputs.extend(more.iter().map(|part| part.words()));
        }
    };
    add(OF_DEGREES, DEGREES.iter().map(|d| Number(*d)).collect());
    add(OF_RADIANS, DEGREES.iter().map(|d| Degrees(*d)).collect());
    add(OF_PLACES_IN_DEGREES, PLACES.iter().map(|(a, b)| Two(*a, *b)).collect());
    add(OF_PLACES, PLACES.iter().map(|(a, b)| Place(*a, *b)).collect());
    add(OF_POSITIONS, PLACES.iter().map(|(a, b)| At(*a, *b)).collect());
    inputs
}

fn words(parts: &[Part]) -> Vec<u64> {
    parts.iter().flat_map(|part| part.words()).collect()
}

impl Part {
    fn words(self) -> Vec<u64> {
        let radians = |degrees| Angle::from_degrees(degrees).as_radians();
        let floats = match self {
            Number(x) => vec![x],
            Two(x, y) => vec![x, y],
            Degrees(x) => vec![radians(x)],
            Knots(x) => vec![Speed::from_knots(x).as_metres_per_second()],
            Seconds(s) => return vec![s * 1_000_000_000],
            Place(a, b) => vec![radians(a), radians(b)],
            At(a, b) => components(NVector::from_lat_long_degrees(a, b).as_vec3()).to_vec(),
            Vector(x, y, z) => vec![x, y, z],
        };
        floats.into_iter().map(f64::to_bits).collect()
    }
}
