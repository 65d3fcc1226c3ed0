//! Identities, vehicles and tracks of a board's calls.

use super::frames::{Ends, State};
use super::random::{Random, power};
use super::scenes::{self, EARTH};
use super::vectors::{Vector, any};
use std::f64::consts::PI;

const TURN: f64 = 2.0 * PI;

/// So many different identities, the least and the greatest more often than others.
pub fn names(r: &mut Random, count: usize) -> Vec<u16> {
    let mut names: Vec<u16> = Vec::new();
    let near = r.coin();
    while names.len() < count {
        let name = match r.below(20) {
            0 => r.choose(&[1, u16::MAX]),
            _ if near => 1 + r.below(2 * count as u64) as u16,
            _ => 1 + r.below(u16::MAX.into()) as u16,
        };
        if !names.contains(&name) {
            names.push(name);
        }
    }
    names
}

/// A ship some kilometres from a place.
pub fn near(r: &mut Random, from: Vector) -> State {
    let away = r.sized(1e3, 2e6) / EARTH;
    let [x, y, z] = scenes::moved(from, r.within(0.0, TURN), away);
    [x, y, z, r.within(0.0, TURN), r.sized(0.2, 20.0)].map(f64::to_bits)
}

/// An axis, or a position of one of the classes.
pub fn place(r: &mut Random) -> Vector {
    let mut axis = [0.0; 3].map(|zero| r.signed(zero));
    axis[r.below(3) as usize] = r.signed(1.0);
    if r.coin() { axis } else { any(r) }
}

/// A position whose squared norm is about 2^-40 from one.
pub fn about_tolerance(r: &mut Random) -> Vector {
    let away = power(-41) * r.choose(&[1.0, 1.0, 1.0, 0.999, 1.001]);
    let length = 1.0 + r.signed(away);
    let place = place(r);
    place.map(|x| r.near(x * length))
}

pub fn both(start: Vector, end: Vector) -> Ends {
    let ([a, b, c], [d, e, f]) = (start, end);
    [a, b, c, d, e, f].map(f64::to_bits)
}
