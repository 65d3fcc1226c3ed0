//! Boundaries of the ported functions: a short list for the stored sample, which asks for
//! no neighbours, and a long one else.

use super::fixed::{SPECIAL, around, joined, pairs};
use super::random::neighbour;
use super::scenes::EARTH;
use super::vectors::{Vector, antipode};
use std::f64::consts::PI;
use std::ops::Range;

const TINY: f64 = f64::from_bits(1);
const INFINITY: f64 = f64::INFINITY;
const NAN: f64 = f64::NAN;
const MAX: f64 = f64::MAX;

/// The fewest numbers that take different ways through most operations.
const FEW: [f64; 6] = [0.0, -0.0, 1.0, INFINITY, -INFINITY, NAN];

/// The six axes first; then zeros, ties, sizes, numbers that are no position, and about the poles.
const CORNERS: [Vector; 33] = [
    [1.0, 0.0, 0.0],
    [0.0, 1.0, 0.0],
    [0.0, 0.0, 1.0],
    [-1.0, 0.0, 0.0],
    [0.0, -1.0, 0.0],
    [0.0, 0.0, -1.0],
    [0.6, 0.8, 0.0],
    [0.6, 0.0, -0.8],
    [-0.6, -0.48, 0.64],
    [INFINITY, 0.0, 0.0],
    [0.0, 0.0, 0.0],
    [-0.0, -0.0, -0.0],
    [-0.0, 0.0, 1.0],
    [-1.0, -0.0, 0.0],
    [-1.0, 0.0, -0.0],
    [1.0, 1.0, 0.0],
    [0.0, 1.0, 1.0],
    [1.0, 0.0, 1.0],
    [1.0, 1.0, 1.0],
    [-1.0, 1.0, -1.0],
    [3.0, 2.0, 1.0],
    [1.0, -2.0, 3.0],
    [NAN, 0.0, 1.0],
    [0.0, 0.0, NAN],
    [INFINITY, -INFINITY, 1.0],
    [TINY, 0.0, 0.0],
    [-TINY, TINY, -TINY],
    [1e-162, 1e-162, 1e-162],
    [1e154, -1e154, 1e154],
    [MAX, MAX, MAX],
    [1e-9, 0.0, 1.0],
    [0.0, -1e-17, 1.0 - f64::EPSILON / 2.0],
    [0.0, 0.0, 1.0 + f64::EPSILON],
];
const AXES: usize = 6;
/// The corners with an antipode in the short list, and those with neighbours: positions.
const FEW_PAIRS: (Range<usize>, Range<usize>) = (0..10, 8..9);

pub fn numbers(reach: u32) -> Vec<Vec<u64>> {
    let bounds = [0.5, 1.0, 2.0, 10.0].map(|part| part * f64::EPSILON);
    joined(special(), around(bounds, reach.max(1)))
}

pub fn number_pairs(reach: u32) -> Vec<Vec<u64>> {
    let mut inputs = few_pairs(reach);
    for left in [0.0, 1.0, -1.0, 4.0] {
        for away in around([f64::EPSILON], reach.max(1)) {
            inputs.push(words(&[left, left + f64::from_bits(away[0])]));
        }
    }
    inputs
}

pub fn amounts(reach: u32) -> Vec<Vec<u64>> {
    let factors = [0.3048, 1_852.0, 1e3, 3.6e3, 1.0 / 3.6, 1_852.0 / 3.6e3, 1e300, 1e-300];
    joined(special(), around(factors, reach))
}

pub fn degrees(reach: u32) -> Vec<Vec<u64>> {
    let angles = [15.0, 30.0, 45.0, 90.0, 180.0, 270.0, 360.0, 540.0, 720.0];
    joined(special(), around(angles, reach))
}

pub fn radians(reach: u32) -> Vec<Vec<u64>> {
    let quarters = (1..=8).map(|k| k as f64 * (PI / 2.0));
    let tiny = [1e-15, 1e-16, 1e-17, 1e-300];
    joined(special(), around(quarters.chain(tiny), reach))
}

/// An angle and the end of its range.
pub fn angle_pairs(reach: u32) -> Vec<Vec<u64>> {
    let angles = [0.0, -0.0, -TINY, -1e-17, -1e-15, PI / 2.0, -PI / 2.0, PI, -PI, 2.0 * PI];
    let more = [-2.0 * PI, 3.0 * PI, neighbour(PI, -1), neighbour(2.0 * PI, -1), NAN, INFINITY];
    let mut inputs = crossed(&[angles.as_slice(), &more].concat(), &[PI, 2.0 * PI]);
    inputs.extend(crossed(&[1.0, -1.0, -0.0], &[0.0, NAN, INFINITY, -PI]));
    if reach > 0 {
        let end = |angle: Vec<u64>, end: f64| vec![angle[0], end.to_bits()];
        inputs.extend(radians(reach).into_iter().map(|angle| end(angle, PI)));
        inputs.extend(radians(reach).into_iter().map(|angle| end(angle, 2.0 * PI)));
        inputs.extend(pairs());
    }
    inputs
}

/// Two factors.
pub fn factors(reach: u32) -> Vec<Vec<u64>> {
    let more = [[2.0, 3.0], [-1.0, TINY], [MAX, 2.0], [TINY, 0.5], [PI, 6_371_000.8], [0.1, 0.1]];
    joined(few_pairs(reach), more.iter().map(|pair| words(pair)).collect())
}

/// An amount and nanoseconds.
pub fn amounts_over_time(reach: u32) -> Vec<Vec<u64>> {
    let times = [0, 1, 999_999_999, 1_000_000_000, 3_600_000_000_000, u64::MAX];
    let more = if reach > 0 { SPECIAL } else { &[] };
    let amounts = FEW.iter().chain(&[-1.0, 1_852.0, MAX]).map(|x| x.to_bits());
    let amounts: Vec<u64> = amounts.chain(more.iter().copied()).collect();
    let over = |amount: &u64| times.map(|time| vec![*amount, time]);
    amounts.iter().flat_map(over).collect()
}

/// Latitudes and longitudes in degrees.
pub fn places_in_degrees(reach: u32) -> Vec<Vec<u64>> {
    places(90.0, reach)
}

/// Latitudes and longitudes in radians.
pub fn places_in_radians(reach: u32) -> Vec<Vec<u64>> {
    places(PI / 2.0, reach)
}

fn places(quarter: f64, reach: u32) -> Vec<Vec<u64>> {
    let (before, after) = (neighbour(quarter, -1), neighbour(quarter, 1));
    let latitudes = [0.0, -0.0, 0.5 * quarter, quarter, -quarter, before, -after, 1.1 * quarter];
    let longitudes = [0.0, -0.0, quarter, 2.0 * quarter, -2.0 * quarter];
    let mut inputs = crossed(&latitudes, &longitudes);
    inputs.extend(crossed(&[quarter, 1.0], &[NAN, INFINITY]));
    inputs.extend(crossed(&[NAN, -INFINITY], &[1.0]));
    if reach > 0 {
        inputs.extend(pairs());
    }
    inputs
}

pub fn vectors(reach: u32) -> Vec<Vec<u64>> {
    let nudges = CORNERS.iter().flat_map(|corner| nudged(*corner, reach));
    CORNERS.into_iter().chain(nudges).map(|vector| words(&vector)).collect()
}

/// A vector and a bearing or a factor.
pub fn vectors_and_one(reach: u32) -> Vec<Vec<u64>> {
    followed(reach, |x| vec![x])
}

/// A vector, a bearing and a speed.
pub fn vectors_and_two(reach: u32) -> Vec<Vec<u64>> {
    followed(reach, |x| vec![x, 2.0 - x])
}

/// Two vectors: equal, antipodal, a step apart, and corners that stand side by side.
pub fn vector_pairs(reach: u32) -> Vec<Vec<u64>> {
    let (far, near) = if reach > 0 { (0..CORNERS.len(), 0..CORNERS.len()) } else { FEW_PAIRS };
    let pair = |v: Vector, other: Vector| words(&[v, other].concat());
    let antipodal = CORNERS[far].iter().map(|v| pair(*v, antipode(*v)));
    let nudged = |v: &Vector| {
        nudged(*v, reach.max(1)).into_iter().map(|other| pair(*v, other)).collect::<Vec<_>>()
    };
    let a_step_apart = CORNERS[near].iter().flat_map(nudged);
    joined(groups(2, reach), antipodal.chain(a_step_apart).collect())
}

/// Three vectors, those about the bounds of `side` among them.
pub fn vector_triples(reach: u32) -> Vec<Vec<u64>> {
    let [x, y, z] = [0, 1, 2].map(|place| CORNERS[place]);
    let orders = [[z, x, y], [z, y, x], [x, y, z], [x, z, y], [y, z, x], [y, x, z]];
    let long = [MAX, 0.0, 0.0];
    // The sum of the long ones is infinite: NaN where the side is asked.
    let equal_ends = [[antipode(y), x, x], [y, x, antipode(x)], [x, x, x], [y, long, long]];
    let mut inputs: Vec<_> = orders.iter().chain(&equal_ends).map(|v| words(&v.concat())).collect();
    for bound in around([f64::EPSILON, 10.0 * f64::EPSILON], reach.max(1)) {
        // Past the first bound with a longer arm, yet within the second.
        for arm in [1.0, 16.0] {
            let leaving = [0.6, 0.8, f64::from_bits(bound[0]) / arm];
            inputs.push(words(&[leaving, x.map(|x| arm * x), y].concat()));
        }
    }
    joined(inputs, groups(3, reach))
}

/// A radius and two vectors.
pub fn radius_and_pairs(reach: u32) -> Vec<Vec<u64>> {
    led(vector_pairs(reach))
}

/// A radius and three vectors.
pub fn radius_and_triples(reach: u32) -> Vec<Vec<u64>> {
    led(vector_triples(reach))
}

/// Radii that take turns ahead of vectors.
pub fn led(inputs: Vec<Vec<u64>>) -> Vec<Vec<u64>> {
    let radii = [EARTH, 1.0, EARTH, 0.0, 1_737_400.0, -1.0, EARTH, INFINITY, 1.0, NAN, MAX, TINY];
    let radii = radii.map(f64::to_bits);
    let led =
        |(place, input): (usize, &Vec<u64>)| [&[radii[place % radii.len()]], &input[..]].concat();
    inputs.iter().enumerate().map(led).collect()
}

/// Lists of positions: none, one, pairs, up to six, and coordinates left over.
pub fn means(reach: u32) -> Vec<Vec<u64>> {
    let mut inputs: Vec<Vec<u64>> = (0..3).map(|count| words(&vec![1.0; count])).collect();
    let [x, y, z] = [0, 1, 2].map(|place| CORNERS[place]);
    let zeros = [[0.0; 3], [-0.0; 3], [0.0, -0.0, 0.0]];
    inputs.extend(CORNERS.iter().chain(&zeros).map(|v| words(v)));
    let lists: [&[Vector]; 10] = [
        &[x, antipode(x)],
        &[x, y, antipode(x)],
        &[y, x, z, y, antipode(z)],
        &[x, x],
        &[x, y, z],
        &[x, y, z, x, y, z],
        &[x, zeros[0]],
        &[zeros[1], zeros[2], y],
        &[x, [NAN, 0.0, 0.0]],
        &[[1.0, NAN, 0.0], [-1.0, NAN, 0.0]],
    ];
    for list in lists {
        let entries = words(list.as_flattened());
        let leftovers = (entries.len() < 18).then(|| [&entries[..], &words(&[-1.0])].concat());
        inputs.extend([entries].into_iter().chain(leftovers));
    }
    joined(inputs, if reach > 0 { vector_pairs(reach) } else { Vec::new() })
}

pub fn matrices(reach: u32) -> Vec<Vec<u64>> {
    groups(3, reach)
}

pub fn vectors_and_matrices(reach: u32) -> Vec<Vec<u64>> {
    groups(4, reach)
}

pub fn matrix_pairs(reach: u32) -> Vec<Vec<u64>> {
    groups(6, reach)
}

/// Corners in their order, and with every other stride if neighbours are asked for; equal ones too.
fn groups(count: usize, reach: u32) -> Vec<Vec<u64>> {
    let strides = if reach > 0 { 0..CORNERS.len() } else { 0..2 };
    let group = |first: usize, stride: usize| {
        let corner = |place| CORNERS[(first + place * stride) % CORNERS.len()];
        words((0..count).map(corner).collect::<Vec<_>>().as_flattened())
    };
    // Equal axes stand for all equal ones in the short list, but for pairs.
    let last = |stride| if stride == 0 && count > 2 { AXES } else { CORNERS.len() };
    strides.flat_map(|stride| (0..last(stride)).map(move |first| group(first, stride))).collect()
}

/// Corners with numbers after them that take turns.
fn followed(reach: u32, rest: impl Fn(f64) -> Vec<f64>) -> Vec<Vec<u64>> {
    let numbers = [0.0, PI / 2.0, PI, -PI, 2.0 * PI, -0.0, 1.0, 0.5, -3.0, NAN, INFINITY, TINY];
    let turns = if reach > 0 { numbers.len() } else { 1 };
    let mut inputs = Vec::new();
    for turn in 0..turns {
        for (place, corner) in CORNERS.iter().enumerate() {
            let number = numbers[(place + turn) % numbers.len()];
            inputs.push(words(&[corner.as_slice(), &rest(number)].concat()));
        }
    }
    inputs
}

/// The vector with one component moved, up to so many steps either way.
fn nudged(vector: Vector, reach: u32) -> Vec<Vector> {
    let mut moved = Vec::new();
    for place in 0..3 {
        for steps in (1..=reach as i32).flat_map(|steps| [steps, -steps]) {
            let mut other = vector;
            other[place] = neighbour(vector[place], steps);
            moved.push(other);
        }
    }
    moved
}

fn special() -> Vec<Vec<u64>> {
    SPECIAL.iter().map(|word| vec![*word]).collect()
}

/// Few pairs of special numbers, or all if neighbours are asked for.
fn few_pairs(reach: u32) -> Vec<Vec<u64>> {
    if reach > 0 { pairs() } else { crossed(&FEW, &FEW) }
}

fn crossed(first: &[f64], second: &[f64]) -> Vec<Vec<u64>> {
    let with_all = |x: &f64| second.iter().map(|y| words(&[*x, *y])).collect::<Vec<_>>();
    first.iter().flat_map(with_all).collect()
}

fn words(floats: &[f64]) -> Vec<u64> {
    floats.iter().map(|x| x.to_bits()).collect()
}
