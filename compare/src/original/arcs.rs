//! The length of an angle's arc. What the published rule answers of any angle but half a circle,
//! and minus half a circle, must be answered again (request 2026-03).

use crate::jord::spherical::{Sphere, before};
use crate::jord::{Angle, Length};

pub fn angle_to_distance(sphere: Sphere, angle: Angle) -> Length {
    let length = sphere.angle_to_distance(angle);
    if angle.abs() != Angle::HALF_CIRCLE {
        let before = before::Sphere::new(sphere.radius()).angle_to_distance(angle);
        assert!(same(length, before), "an answer of the rule before is not kept");
    }
    length
}

fn same(a: Length, b: Length) -> bool {
    let (a, b) = (a.as_metres(), b.as_metres());
    a.to_bits() == b.to_bits() || a.is_nan() && b.is_nan()
}
