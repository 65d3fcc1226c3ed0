//! Classes of vectors: positions, and what is hard about one of them or several together.

use super::classes::{Draw, mixed, ordinary};
use super::fixed::SPECIAL;
use super::random::{Random, power};
use super::units;
use crate::ground;
use std::f64::consts::PI;

pub type Vector = [f64; 3];

/// How a class fills the vectors of an input.
pub type Group = fn(&mut Random, &mut [Vector]);

/// The most vectors of an input: two matrices.
const MOST: usize = 6;

/// Positions all over the sphere.
pub const POSITIONS: Draw = Draw::Vectors(|r, vectors| vectors.fill_with(|| position(r)));
/// At and about the poles, the date line and the other meridians through an axis.
pub const EDGES: Draw = Draw::Vectors(|r, vectors| vectors.fill_with(|| edge(r)));
/// An axis, or about one.
pub const AXES: Draw = Draw::Vectors(|r, vectors| vectors.fill_with(|| near_axis(r)));
/// Components of equal or nearly equal magnitude.
pub const LEVEL: Draw = Draw::Vectors(|r, vectors| vectors.fill_with(|| level(r)));
/// Sizes whose squares leave the range of the normal floats, or nearly.
pub const SIZED: Draw = Draw::Vectors(sized);
/// All equal or antipodal.
pub const EQUAL: Draw = Draw::Vectors(equal);
/// Equal or antipodal but for a few steps in some components.
pub const NEAR: Draw = Draw::Vectors(near);
/// Positions a short way apart.
pub const CLOSE_BY: Draw = Draw::Vectors(close_by);
/// On one great circle, but for a few steps.
pub const COLLINEAR: Draw = Draw::Vectors(collinear);
/// Three vectors whose triple product is about a bound of `side`.
pub const TRIPLE: Draw = Draw::Vectors(triple);
/// Entries of a mean: some equal, some antipodal, some zero or NaN.
pub const ENTRIES: Draw = Draw::Vectors(entries);
/// Entries about one place.
pub const SWARM: Draw = Draw::Vectors(swarm);
/// Rows of rotations about an axis.
pub const ROTATIONS: Draw = Draw::Vectors(rotations);

/// Fills whole vectors, then angles and factors for the words that are left.
pub fn fill(group: Group, r: &mut Random, words: &mut [u64]) {
    let mut vectors = [[0.0; 3]; MOST];
    let vectors = &mut vectors[..words.len() / 3];
    group(r, vectors);
    let (whole, left) = words.split_at_mut(3 * vectors.len());
    for (word, x) in whole.iter_mut().zip(vectors.as_flattened()) {
        *word = x.to_bits();
    }
    left.fill_with(|| r.choose(&[units::turned, units::turned, ordinary, mixed])(r).to_bits());
}

/// The position at a latitude and a longitude.
pub fn at(latitude: f64, longitude: f64) -> Vector {
    let c = ground::cos(latitude);
    [c * ground::cos(longitude), c * ground::sin(longitude), ground::sin(latitude)]
}

pub fn antipode(v: Vector) -> Vector {
    v.map(|x| -x)
}

pub fn position(r: &mut Random) -> Vector {
    at(r.within(-PI / 2.0, PI / 2.0), r.within(-PI, PI))
}

pub fn edge(r: &mut Random) -> Vector {
    let quarter = r.choose(&[0.0, PI / 2.0, PI]);
    let away = r.choose(&[0.0, 1e-15, 1e-9, 1e-4]);
    let near = r.about(quarter + away);
    let any = r.within(-PI, PI);
    if r.coin() { at(near, any) } else { at(any, near) }
}

fn near_axis(r: &mut Random) -> Vector {
    let mut v = [0.0; 3].map(|zero| if r.coin() { r.signed(zero) } else { tiny(r) });
    v[r.below(3) as usize] = if r.coin() { r.signed(1.0) } else { r.about(1.0) };
    v
}

fn level(r: &mut Random) -> Vector {
    let size = r.choose(&[1.0, 0.5f64.sqrt(), (1.0 / 3.0f64).sqrt(), 3.0, power(-1074)]);
    [size; 3].map(|x| match r.below(4) {
        0 => r.about(x),
        1 => r.signed(0.5 * x),
        _ => r.signed(x),
    })
}

fn sized(r: &mut Random, vectors: &mut [Vector]) {
    let low = r.choose(&[-1074, -1022, -540, -538, -512, -270, 200, 508, 511, 1000, 1020]);
    let component = |r: &mut Random| {
        let x = r.scaled(low, low + 3);
        r.signed(x)
    };
    vectors.as_flattened_mut().fill_with(|| component(r));
}

fn equal(r: &mut Random, vectors: &mut [Vector]) {
    let first = r.choose(&[any, any, special])(r);
    vectors.fill_with(|| either(r, first));
    lead(vectors, first);
}

fn near(r: &mut Random, vectors: &mut [Vector]) {
    let first = any(r);
    vectors.fill_with(|| {
        let v = either(r, first);
        nudged(r, v)
    });
}

fn close_by(r: &mut Random, vectors: &mut [Vector]) {
    let first = any(r);
    let distance = r.scaled(-54, -8);
    vectors.fill_with(|| {
        let away = position(r);
        let v = sum(first, away, distance);
        either(r, unit(v))
    });
    lead(vectors, first);
}

/// Puts a vector first, if there are any.
fn lead(vectors: &mut [Vector], first: Vector) {
    if let Some(place) = vectors.first_mut() {
        *place = first;
    }
}

/// Any vectors; one or two of them are then told by another entry, or are no position.
fn entries(r: &mut Random, vectors: &mut [Vector]) {
    vectors.fill_with(|| any(r));
    let count = vectors.len() as u64;
    for _ in 0..r.below(3).min(count) {
        let other = vectors[r.below(count) as usize];
        let moved = nudged(r, antipode(other));
        let zero = [0.0; 3].map(|zero| r.signed(zero));
        let none = special(r);
        let entry = r.choose(&[other, other, antipode(other), moved, zero, none]);
        vectors[r.below(count) as usize] = entry;
    }
}

fn swarm(r: &mut Random, vectors: &mut [Vector]) {
    let (place, size) = (any(r), r.scaled(-54, 1));
    vectors.fill_with(|| {
        let away = position(r);
        let v = sum(place, away, size);
        if r.coin() { v } else { unit(v) }
    });
}

fn collinear(r: &mut Random, vectors: &mut [Vector]) {
    let (a, b) = (any(r), any(r));
    vectors.fill_with(|| {
        let share = r.within(-2.0, 2.0);
        let v = unit(sum(a, b, share));
        if r.coin() { v } else { nudged(r, v) }
    });
    if r.coin() {
        vectors[vectors.len() - 1] = a;
    }
}

/// In a coordinate plane a third component alone makes the triple product, to its last bit.
fn triple(r: &mut Random, vectors: &mut [Vector]) {
    let [mut v0, mut v1, mut v2] = [(); 3].map(|()| at(0.0, r.within(-PI, PI)));
    if r.below(4) == 0 {
        v2 = nudged(r, v1);
        v2[2] = 0.0;
    }
    // A longer arm tells the two bounds apart: past the first, within the second.
    let length = r.choose(&[1.0, 16.0, 64.0]);
    v1 = v1.map(|x| length * x);
    let cross = v1[0] * v2[1] - v1[1] * v2[0];
    let bound = f64::EPSILON * r.choose(&[1.0, 1.0, 10.0, 10.0, 0.5, 2.0, 9.0, 11.0]);
    v0[2] = if r.coin() || cross == 0.0 { r.about(bound) } else { r.about(bound / cross) };
    let turn = r.below(3) as usize;
    for (vector, mut value) in vectors.iter_mut().zip([v0, v1, v2]) {
        value.rotate_left(turn);
        *vector = value;
    }
}

fn rotations(r: &mut Random, vectors: &mut [Vector]) {
    for rows in vectors.chunks_mut(3) {
        let theta = units::turned(r);
        let (s, c) = (ground::sin(theta), ground::cos(theta));
        let axis = r.below(3) as usize;
        let turned = [[1.0, 0.0, 0.0], [0.0, c, s], [0.0, -s, c]];
        for (place, row) in rows.iter_mut().enumerate() {
            *row = turned[(place + axis) % 3];
            row.rotate_right(axis);
        }
    }
}

fn special(r: &mut Random) -> Vector {
    [(); 3].map(|()| f64::from_bits(r.choose(SPECIAL)))
}

/// A vector of one of the classes of single ones.
pub fn any(r: &mut Random) -> Vector {
    r.choose(&[position, position, edge, near_axis, level])(r)
}

/// The vector or its antipode.
fn either(r: &mut Random, v: Vector) -> Vector {
    if r.coin() { v } else { antipode(v) }
}

/// A few steps away in one or several components, or in none.
pub fn nudged(r: &mut Random, v: Vector) -> Vector {
    v.map(|x| if r.coin() { x } else { r.near(x) })
}

fn tiny(r: &mut Random) -> f64 {
    let x = r.scaled(-1074, -26);
    r.signed(x)
}

fn sum(a: Vector, b: Vector, share: f64) -> Vector {
    [0, 1, 2].map(|place| a[place] + share * b[place])
}

fn unit(v: Vector) -> Vector {
    let norm = v.iter().map(|x| x * x).sum::<f64>().sqrt();
    if norm == 0.0 { v } else { v.map(|x| x / norm) }
}
