//! Inputs of module 9: fractions, angles and lengths of arcs, ways from a place.

use super::classes::{Draw, near_whole_second};
use super::corners::{led, radians, vector_pairs, vector_triples, vectors_and_two};
use super::fixed::{SPECIAL, around, joined};
use super::random::{Random, neighbour};
use super::scenes::{EARTH, radius};
use super::units::turned;
use super::vectors::antipode;
use std::f64::consts::PI;

/// A radius and an angle.
pub const RADIUS_AND_ANGLE: Draw = Draw::Pair(|r| [radius(r), turned(r)]);
/// A radius and a length about whole and half multiples of half a circle's arc, or within some.
pub const RADIUS_AND_ARC: Draw = Draw::Pair(radius_and_arc);

/// Radii that take turns with the lengths of arcs.
const RADII: [f64; 9] =
    [EARTH, 1.0, 1_737_400.0, 0.0, -1.0, f64::INFINITY, f64::NAN, f64::MAX, f64::from_bits(1)];
const HALVES: [f64; 6] = [0.0, 0.5, 1.0, 1.5, 2.0, 3.0];
const TIMES: [u64; 6] = [0, 1, 999_999_999, 3_600_000_000_000, 86_400_000_000_001, u64::MAX];
/// Angles that take turns after two positions.
const ANGLES: [f64; 8] = [0.0, -0.0, PI / 4.0, PI, -PI / 2.0, 2.0 * PI, f64::NAN, f64::INFINITY];

/// A fraction: within, at and about the ends, tiny, or any special number.
pub fn fraction(r: &mut Random) -> u64 {
    let f = match r.below(8) {
        0..4 => r.within(0.0, 1.0),
        4 | 5 => {
            let end = r.choose(&[0.0, 0.5, 1.0, 1.0]);
            r.about(end)
        }
        6 => r.scaled(-1074, 0),
        _ => return r.choose(SPECIAL),
    };
    f.to_bits()
}

/// Nanoseconds of every width, or about whole seconds.
pub fn nanoseconds(r: &mut Random) -> u64 {
    r.choose(&[|r: &mut Random| r.width(64), |r: &mut Random| r.width(50), near_whole_second])(r)
}

fn radius_and_arc(r: &mut Random) -> [f64; 2] {
    let radius = radius(r);
    let half = PI * radius;
    let length = r.choose(&HALVES) * half;
    let within = r.within(-4.0, 4.0) * half;
    [radius, if r.coin() { r.about(length) } else { within }]
}

pub fn radius_and_angles(reach: u32) -> Vec<Vec<u64>> {
    let half_circles = around([PI], reach.max(1));
    let on = |radius: f64| half_circles.iter().map(move |a| vec![radius.to_bits(), a[0]]);
    joined(RADII.into_iter().flat_map(on).collect(), led(radians(reach)))
}

pub fn radius_and_arcs(reach: u32) -> Vec<Vec<u64>> {
    let arcs = |radius: f64| {
        let lengths = around(HALVES.map(|half| half * (PI * radius)), reach.max(1));
        lengths.into_iter().map(move |length| vec![radius.to_bits(), length[0]])
    };
    let special = SPECIAL.iter().map(|word| vec![*word]).collect();
    joined(RADII.into_iter().flat_map(arcs).collect(), led(special))
}

/// A radius, a position, a bearing and a distance.
pub fn ways(reach: u32) -> Vec<Vec<u64>> {
    led(vectors_and_two(reach))
}

/// A radius, a vehicle and nanoseconds.
pub fn times(reach: u32) -> Vec<Vec<u64>> {
    ended(ways(reach), &TIMES)
}

/// Two positions and an angle.
pub fn pairs_and_angles(reach: u32) -> Vec<Vec<u64>> {
    ended(vector_pairs(reach), &ANGLES.map(f64::to_bits))
}

/// Two positions and a fraction.
pub fn pairs_and_fractions(reach: u32) -> Vec<Vec<u64>> {
    let (before, after) = (neighbour(1.0, -1), neighbour(1.0, 1));
    let (tiny, infinity) = (f64::from_bits(1), f64::INFINITY);
    let within = [0.0, -0.0, 1.0, 0.5, before, tiny, 0.25];
    let outside = [-tiny, after, 2.0, -1.0, f64::NAN, infinity, -infinity];
    let ends: Vec<u64> = within.iter().chain(&outside).map(|f| f.to_bits()).collect();
    let mut inputs = ended(vector_pairs(reach), &ends);
    let ways = [[1.0, 0.0, 0.0, 0.0, 1.0, 0.0], [0.6, 0.8, 0.0, -0.6, -0.8, 0.0]];
    for way in ways.map(|way: [f64; 6]| way.map(f64::to_bits)) {
        inputs.extend(ends.iter().map(|end| [&way[..], &[*end]].concat()));
    }
    inputs
}

/// Three positions, two of them antipodes among the rest.
pub fn triangles(reach: u32) -> Vec<Vec<u64>> {
    let (x, y, z) = ([1.0, 0.0, 0.0], [0.0, 1.0, 0.0], [0.0, 0.0, 0.0]);
    let lists = [[x, antipode(x), y], [x, y, antipode(x)], [y, x, antipode(x)], [z, z, x]];
    let bits = |list: [[f64; 3]; 3]| list.as_flattened().iter().map(|x| x.to_bits()).collect();
    joined(lists.map(bits).to_vec(), vector_triples(reach))
}

/// Words that take turns after each input.
fn ended(inputs: Vec<Vec<u64>>, ends: &[u64]) -> Vec<Vec<u64>> {
    let ended =
        |(place, input): (usize, &Vec<u64>)| [&input[..], &[ends[place % ends.len()]]].concat();
    inputs.iter().enumerate().map(ended).collect()
}
