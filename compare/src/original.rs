//! The table of the ported functions: one row gives number, arguments, inputs and the original's
//! call.

mod again;
pub mod answering;
mod arcs;
mod beside;
mod board;
pub mod boards;
pub mod chases;
pub mod cost;
pub mod costs;
mod ends;
mod examples;
mod exchanges;
mod frame;
mod meetings;
mod met;
mod playing;
pub mod plot;
pub mod plots;
mod script;
mod second_solves;
mod sessions;
mod shapes;
mod smallest;
pub mod solves;
pub mod speeds;
pub mod stored;
mod tables;
pub mod thirteen;
mod walks;
pub mod whole;

use crate::answer::{ANTIPODAL, Answer, EMPTY, OUTSIDE};
use crate::function::Function;
use crate::inputs;
use crate::jord::spherical::{GreatCircle, MinorArc, Sphere, base};
use crate::jord::{Angle, LatLong, Length, Mat33, NVector, Speed, Vec3, Vehicle, numbers};
use shapes::{Argument, taken};
use std::time::Duration;

/// Whether the published source stood in its place when this was built.
pub const BUILT: bool = true;

macro_rules! row {
    ($number:literal $name:literal ($($argument:ident: $type:ty),+) $inputs:ident: $call:expr) => {
        Function {
            number: $number,
            name: $name,
            fewest: 0 $(+ <$type as Argument>::WIDTH)+,
            arity: 0 $(+ <$type as Argument>::WIDTH)+,
            inputs: &inputs::$inputs,
            examples: examples::of,
            reference: |words| {
                let mut left = words;
                $(let $argument: $type = taken(&mut left);)+
                assert!(left.is_empty(), "{} arguments", words.len());
                Answer::from($call)
            },
        }
    };
}

/// Modules 1 to 6.
pub const FUNCTIONS: &[Function] = &[
    row!(0x10 "eq_zero" (f: f64) NUMBERS: numbers::eq_zero(f)),
    row!(0x11 "eq" (l: f64, r: f64) NUMBER_PAIRS: numbers::eq(l, r)),
    row!(0x12 "lte" (l: f64, r: f64) NUMBER_PAIRS: numbers::lte(l, r)),
    row!(0x13 "gte" (l: f64, r: f64) NUMBER_PAIRS: numbers::gte(l, r)),
    row!(0x14 "Angle::from_degrees" (d: f64) IN_DEGREES: Angle::from_degrees(d)),
    row!(0x15 "Angle::as_degrees" (a: Angle) IN_RADIANS: a.as_degrees()),
    row!(0x16 "Angle::abs" (a: Angle) IN_RADIANS: a.abs()),
    row!(0x17 "Angle::normalised" (a: Angle) IN_RADIANS: a.normalised()),
    row!(0x18 "Angle::normalised_to" (a: Angle, max: Angle) ANGLE_PAIRS: a.normalised_to(max)),
    row!(0x19 "Angle * f64" (a: Angle, f: f64) FACTORS: a * f),
    row!(0x1a "Length::from_kilometres" (x: f64) AMOUNTS: Length::from_kilometres(x)),
    row!(0x1b "Length::from_feet" (x: f64) AMOUNTS: Length::from_feet(x)),
    row!(0x1c "Length::from_nautical_miles" (x: f64) AMOUNTS: Length::from_nautical_miles(x)),
    row!(0x1d "Length::as_kilometres" (l: Length) AMOUNTS: l.as_kilometres()),
    row!(0x1e "Length::as_feet" (l: Length) AMOUNTS: l.as_feet()),
    row!(0x1f "Length::as_nautical_miles" (l: Length) AMOUNTS: l.as_nautical_miles()),
    row!(0x20 "Length::abs" (l: Length) AMOUNTS: l.abs()),
    row!(0x21 "Length * f64" (l: Length, f: f64) FACTORS: l * f),
    row!(0x22 "Length * Angle" (l: Length, a: Angle) FACTORS: l * a),
    row!(0x23 "Length / Duration" (l: Length, t: Duration) AMOUNTS_OVER_TIME: l / t),
    row!(0x24 "Speed::from_kilometres_per_hour" (x: f64) AMOUNTS:
        Speed::from_kilometres_per_hour(x)),
    row!(0x25 "Speed::from_knots" (x: f64) AMOUNTS: Speed::from_knots(x)),
    row!(0x26 "Speed::as_kilometres_per_hour" (s: Speed) AMOUNTS: s.as_kilometres_per_hour()),
    row!(0x27 "Speed::as_knots" (s: Speed) AMOUNTS: s.as_knots()),
    row!(0x28 "Speed * Duration" (s: Speed, t: Duration) AMOUNTS_OVER_TIME: s * t),
    row!(0x30 "Vec3::new" (v: Vec3) VECTORS: v),
    row!(0x31 "Vec3::new_unit" (x: f64, y: f64, z: f64) VECTORS: Vec3::new_unit(x, y, z)),
    row!(0x32 "Vec3::cross_prod" (a: Vec3, b: Vec3) VECTOR_PAIRS: a.cross_prod(b)),
    row!(0x33 "Vec3::cross_prod_unit" (a: Vec3, b: Vec3) VECTOR_PAIRS: a.cross_prod_unit(b)),
    row!(0x34 "Vec3::dot_prod" (a: Vec3, b: Vec3) VECTOR_PAIRS: a.dot_prod(b)),
    row!(0x35 "Vec3::orthogonal_to" (a: Vec3, b: Vec3) VECTOR_PAIRS: a.orthogonal_to(b)),
    row!(0x36 "Vec3::orthogonal" (v: Vec3) VECTORS: v.orthogonal()),
    row!(0x37 "Vec3::norm" (v: Vec3) VECTORS: v.norm()),
    row!(0x38 "Vec3::stable_cross_prod_unit" (a: Vec3, b: Vec3) VECTOR_PAIRS:
        a.stable_cross_prod_unit(b)),
    row!(0x39 "Vec3::stable_cross_prod" (a: Vec3, b: Vec3) VECTOR_PAIRS: a.stable_cross_prod(b)),
    row!(0x3a "Vec3::squared_norm" (v: Vec3) VECTORS: v.squared_norm()),
    row!(0x3b "Vec3::unit" (v: Vec3) VECTORS: v.unit()),
    row!(0x3c "Vec3 + Vec3" (a: Vec3, b: Vec3) VECTOR_PAIRS: a + b),
    row!(0x3d "Vec3 - Vec3" (a: Vec3, b: Vec3) VECTOR_PAIRS: a - b),
    row!(0x3e "Vec3 * f64" (v: Vec3, f: f64) VECTORS_AND_ONE: v * f),
    row!(0x3f "Vec3 / f64" (v: Vec3, f: f64) VECTORS_AND_ONE: v / f),
    row!(0x40 "-Vec3" (v: Vec3) VECTORS: -v),
    row!(0x41 "Mat33::transpose" (m: Mat33) MATRICES: m.transpose()),
    row!(0x42 "Vec3 * Mat33" (v: Vec3, m: Mat33) VECTORS_AND_MATRICES: v * m),
    row!(0x43 "Mat33 * Mat33" (m: Mat33, n: Mat33) MATRIX_PAIRS: m * n),
    row!(0x50 "LatLong::from_degrees" (a: f64, b: f64) PLACES_IN_DEGREES:
        LatLong::from_degrees(a, b)),
    row!(0x51 "LatLong::from_nvector" (p: NVector) VECTORS: LatLong::from_nvector(p)),
    row!(0x52 "LatLong::to_nvector" (place: LatLong) PLACES: place.to_nvector()),
    row!(0x53 "NVector::from_lat_long" (a: Angle, b: Angle) PLACES: NVector::from_lat_long(a, b)),
    row!(0x54 "NVector::from_lat_long_degrees" (a: f64, b: f64) PLACES_IN_DEGREES:
        NVector::from_lat_long_degrees(a, b)),
    row!(0x55 "NVector::antipode" (p: NVector) VECTORS: p.antipode()),
    row!(0x56 "NVector::is_antipode_of" (p: NVector, q: NVector) VECTOR_PAIRS: p.is_antipode_of(q)),
    row!(0x60 "angle_radians_between, None" (a: Vec3, b: Vec3) VECTOR_PAIRS:
        base::angle_radians_between(a, b, None)),
    row!(0x61 "angle_radians_between, Some" (a: Vec3, b: Vec3, n: Vec3) VECTOR_TRIPLES:
        base::angle_radians_between(a, b, Some(n))),
    row!(0x62 "easting" (v: Vec3) VECTORS: base::easting(v)),
    row!(0x63 "side" (a: Vec3, b: Vec3, c: Vec3) VECTOR_TRIPLES: base::side(a, b, c)),
    row!(0x64 "GreatCircle::new" (p: NVector, q: NVector) VECTOR_PAIRS: GreatCircle::new(p, q)),
    row!(0x65 "GreatCircle::from_heading" (p: NVector, b: Angle) VECTORS_AND_ONE:
        GreatCircle::from_heading(p, b)),
    row!(0x66 "Vehicle::new" (p: NVector, b: Angle, s: Speed) VECTORS_AND_TWO:
        Vehicle::new(p, b, s)),
];

/// Module 7 and a solve.
pub const SPHERE: &[Function] = &[
    row!(0x70 "Sphere::is_great_circle" (p: NVector, q: NVector) VECTOR_PAIRS:
        Sphere::is_great_circle(p, q)),
    row!(0x71 "Sphere::angle" (p: NVector, q: NVector) VECTOR_PAIRS: Sphere::angle(p, q)),
    row!(0x72 "Sphere::distance" (s: Sphere, p: NVector, q: NVector) RADIUS_AND_PAIRS:
        s.distance(p, q)),
    row!(0x73 "Sphere::initial_bearing" (p: NVector, q: NVector) VECTOR_PAIRS:
        Sphere::initial_bearing(p, q)),
    row!(0x74 "Sphere::side" (p: NVector, q: NVector, r: NVector) VECTOR_TRIPLES:
        Sphere::side(p, q, r)),
    row!(0x75 "Sphere::cross_track_distance"
        (s: Sphere, p: NVector, start: NVector, end: NVector) RADIUS_AND_TRIPLES:
        s.cross_track_distance(p, GreatCircle::new(start, end))),
    row!(0x76 "Sphere::time_to_cpa" (s: Sphere, own: Vehicle, intruder: Vehicle) APPROACHES:
        walks::time_to_cpa(s, own, intruder)),
    row!(0x77 "Sphere::time_to_intercept" (s: Sphere, p: NVector, v: Speed, intruder: Vehicle)
        INTERCEPTS: walks::time_to_intercept(s, p, v, intruder)),
    row!(0x78 "Sphere::max_time_to_intercept" (s: Sphere, p: NVector, intruder: Vehicle)
        LONGEST: walks::max_time_to_intercept(s, p, intruder)),
    row_of_positions(0x79, "Sphere::mean_position"),
    row!(0x7a "solve" (s: Sphere, own: Vehicle, start: NVector, end: NVector, target: Vehicle)
        SOLVES: walks::solve(s, own, [start, end], target)),
];

/// Module 9.
pub const NINE: &[Function] = &[
    row!(0x80 "GreatCircle::projection" (start: NVector, end: NVector, p: NVector) VECTOR_TRIPLES:
        GreatCircle::new(start, end).projection(p).expect("a projection")),
    row!(0x81 "MinorArc::new" (start: NVector, end: NVector) VECTOR_PAIRS:
        MinorArc::new(start, end)),
    row!(0x82 "Sphere::along_track_distance"
        (s: Sphere, p: NVector, start: NVector, end: NVector) RADIUS_AND_TRIPLES:
        s.along_track_distance(p, MinorArc::new(start, end))),
    row!(0x83 "Sphere::angle_to_distance" (s: Sphere, a: Angle) RADIUS_AND_ANGLES:
        arcs::angle_to_distance(s, a)),
    row!(0x84 "Sphere::distance_to_angle" (s: Sphere, d: Length) RADIUS_AND_ARCS:
        s.distance_to_angle(d)),
    row!(0x85 "Sphere::destination_position" (s: Sphere, p: NVector, b: Angle, d: Length) WAYS:
        s.destination_position(p, b, d)),
    row!(0x86 "Sphere::final_bearing" (p: NVector, q: NVector) VECTOR_PAIRS:
        Sphere::final_bearing(p, q)),
    row!(0x87 "Sphere::position_on_great_circle" (p: NVector, q: NVector, a: Angle)
        PAIRS_AND_ANGLES: Sphere::position_on_great_circle(p, q, a)),
    row!(0x88 "Sphere::interpolated_position" (p: NVector, q: NVector, f: f64)
        PAIRS_AND_FRACTIONS: found(Sphere::interpolated_position(p, q, f), OUTSIDE)),
    row!(0x89 "Sphere::triangle_mean_position" (p: NVector, q: NVector, r: NVector) TRIANGLES:
        found(Sphere::triangle_mean_position(p, q, r), ANTIPODAL)),
    row!(0x8a "Sphere::turn" (a: NVector, b: NVector, c: NVector) VECTOR_TRIPLES:
        Sphere::turn(a, b, c)),
    row!(0x8b "Sphere::position_after" (s: Sphere, v: Vehicle, t: Duration) TIMES:
        s.position_after(v, t)),
    row!(0x8c "Sphere::radius, EARTH, MOON" (s: Sphere) AMOUNTS:
        [s, Sphere::EARTH, Sphere::MOON].map(|sphere| sphere.radius().as_metres())),
    row_of_positions(0x8d, "Sphere::mean_position, lent"),
];

/// The mean of up to six positions.
const fn row_of_positions(number: u8, name: &'static str) -> Function {
    Function {
        number,
        name,
        fewest: 0,
        arity: 18,
        inputs: &inputs::MEANS,
        examples: examples::of,
        reference: mean,
    }
}

/// 00 and a position, or the number of the question that refused it.
fn found(position: Option<NVector>, refusal: u8) -> Answer {
    match position {
        Some(position) => Answer::Row(vec![Answer::Byte(0), position.into()]),
        None => Answer::Byte(refusal),
    }
}

/// Three words to a position; one or two left over count for nothing.
fn mean(words: &[u64]) -> Answer {
    let positions: Vec<NVector> = words.chunks_exact(3).map(NVector::of).collect();
    found(Sphere::mean_position(&positions), if positions.is_empty() { EMPTY } else { ANTIPODAL })
}
