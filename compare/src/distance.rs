//! For the record: how far document 01's sine, cosine and atan2 lie from the standard library's.

use crate::ground;
use crate::inputs::classes::{DIRECTION, Draw, TURN};
use crate::inputs::random::Random;

const MOST: u64 = 1_000_000;
/// A stream that no comparison draws from.
const STREAM: u64 = 1 << 16;

pub fn print(count: u64) {
    let count = count.min(MOST);
    println!("farthest from the standard library's, {count} inputs (for the record):");
    let sine = farthest(count, TURN, |[x]| ground::sin(x) - x.sin());
    let cosine = farthest(count, TURN, |[x]| ground::cos(x) - x.cos());
    let atan2 = farthest(count, DIRECTION, |[y, x]| ground::atan2(y, x) - y.atan2(x));
    println!(
        "  sin {sine:.3e} and cos {cosine:.3e} within one turn, atan2 {atan2:.3e} of unit vectors"
    );
}

/// The greatest magnitude of a difference.
fn farthest<const N: usize>(count: u64, draw: Draw, difference: impl Fn([f64; N]) -> f64) -> f64 {
    let mut random = Random::new(STREAM);
    let mut words = [0; N];
    let mut most = 0.0;
    for _ in 0..count {
        draw.fill(&mut random, &mut words);
        most = f64::max(most, difference(words.map(f64::from_bits)).abs());
    }
    most
}
