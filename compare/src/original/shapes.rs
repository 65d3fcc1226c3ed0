//! How the original's types stand in words: arguments read from them, answers put into them.

use crate::answer::Answer;
use crate::inputs::scenes::Ship;
use crate::inputs::vectors::Vector;
use crate::jord::spherical::{GreatCircle, MinorArc, Side, Sphere};
use crate::jord::{Angle, LatLong, Length, Mat33, NVector, Speed, Vec3, Vehicle};
use std::time::Duration;

/// An argument that takes so many words.
pub trait Argument {
    const WIDTH: usize;

    fn of(words: &[u64]) -> Self;
}

/// Reads an argument off the front.
pub fn taken<A: Argument>(words: &mut &[u64]) -> A {
    let (first, rest) = words.split_at(A::WIDTH);
    *words = rest;
    A::of(first)
}

macro_rules! arguments {
    ($($type:ty, $width:literal: $words:ident => $value:expr;)+) => {
        $(impl Argument for $type {
            const WIDTH: usize = $width;

            fn of($words: &[u64]) -> Self {
                $value
            }
        })+
    };
}

arguments! {
    f64, 1: words => f64::from_bits(words[0]);
    Duration, 1: words => Duration::from_nanos(words[0]);
    Angle, 1: words => Angle::from_radians(f64::of(words));
    Length, 1: words => Length::from_metres(f64::of(words));
    Speed, 1: words => Speed::from_metres_per_second(f64::of(words));
    LatLong, 2: words => LatLong::new(Angle::of(words), Angle::of(&words[1..]));
    Vec3, 3: words => Vec3::new(f64::of(words), f64::of(&words[1..]), f64::of(&words[2..]));
    NVector, 3: words => NVector::new(Vec3::of(words));
    Sphere, 1: words => Sphere::new(Length::of(words));
    Vehicle, 5: words =>
        Vehicle::new(NVector::of(words), Angle::of(&words[3..]), Speed::of(&words[4..]));
    Mat33, 9: words => Mat33::new(Vec3::of(words), Vec3::of(&words[3..]), Vec3::of(&words[6..]));
}

macro_rules! answers {
    ($($type:ty: $value:ident => $answer:expr;)+) => {
        $(impl From<$type> for Answer {
            fn from($value: $type) -> Self {
                Answer::from($answer)
            }
        })+
    };
}

answers! {
    Angle: angle => angle.as_radians();
    Length: length => length.as_metres();
    Speed: speed => speed.as_metres_per_second();
    LatLong: place => [place.latitude().as_radians(), place.longitude().as_radians()];
    Vec3: v => components(v);
    NVector: position => components(position.as_vec3());
    GreatCircle: circle => components(circle.normal());
    MinorArc: arc => nine([arc.start().as_vec3(), arc.end().as_vec3(), arc.normal()]);
    Mat33: m => nine([m.row0(), m.row1(), m.row2()]);
    Vehicle: vehicle => state(vehicle);
    Side: side => Answer::Byte(number(side));
}

pub fn nvector([x, y, z]: Vector) -> NVector {
    NVector::new(Vec3::new(x, y, z))
}

pub fn vehicle(ship: Ship) -> Vehicle {
    let speed = Speed::from_metres_per_second(ship.speed);
    Vehicle::new(nvector(ship.position), Angle::from_radians(ship.bearing), speed)
}

pub fn components(v: Vec3) -> [f64; 3] {
    [v.x(), v.y(), v.z()]
}

/// Three vectors, one after another.
fn nine(vectors: [Vec3; 3]) -> [f64; 9] {
    let mut floats = [0.0; 9];
    floats.copy_from_slice(vectors.map(components).as_flattened());
    floats
}

fn state(vehicle: Vehicle) -> [f64; 5] {
    let [x, y, z] = components(vehicle.position().as_vec3());
    [x, y, z, vehicle.bearing().as_radians(), vehicle.speed().as_metres_per_second()]
}

/// Document 01's digits for a side.
pub fn number(side: Side) -> u8 {
    match side {
        Side::Left => 0,
        Side::Right => 1,
        Side::Collinear => 2,
    }
}
