//! Inputs: a fixed list of boundaries for each function, then classes of drawn ones that take
//! turns.

pub mod calls;
pub mod classes;
mod corners;
pub mod fixed;
pub mod frames;
pub mod full_boards;
pub mod malformed;
pub mod questions;
pub mod random;
mod scene_corners;
pub mod scenes;
mod ships;
mod units;
pub mod vectors;
mod ways;

use classes::*;
use random::Random;
use std::collections::HashSet;
use units::*;
use vectors::*;

pub struct Inputs {
    /// Boundaries with their neighbours up to so many steps away.
    fixed: fn(u32) -> Vec<Vec<u64>>,
    classes: &'static [Draw],
}

impl Inputs {
    /// The fixed list, each input once.
    pub fn boundaries(&self, reach: u32) -> Vec<Vec<u64>> {
        let mut met = HashSet::new();
        let mut inputs = (self.fixed)(reach);
        inputs.retain(|words| met.insert(words.clone()));
        inputs
    }

    /// Draws the words of one input from the class whose turn it is.
    pub fn draw(&self, turn: usize, random: &mut Random, words: &mut [u64]) {
        self.classes[turn % self.classes.len()].fill(random, words);
    }
}

pub const FLOATS: Inputs =
    Inputs { fixed: fixed::floats, classes: &[BITS, ORDINARY, SUBNORMAL, POWER, BOUND, HUGE] };

pub const ROOTS: Inputs = Inputs {
    fixed: fixed::roots,
    classes: &[BITS, ORDINARY, SUBNORMAL, POWER, BOUND, HUGE, SQUARE, HALFWAY_SQUARE],
};

pub const ANGLES: Inputs = Inputs {
    fixed: fixed::angles,
    classes: &[BITS, ORDINARY, SUBNORMAL, POWER, BOUND, HUGE, TURN, EIGHTH],
};

pub const REMAINDERS: Inputs = Inputs {
    fixed: fixed::remainders,
    classes: &[BITS, ORDINARY, SUBNORMAL, MIXED, MULTIPLE, CLOSE, APART, WRAP],
};

pub const DIRECTIONS: Inputs = Inputs {
    fixed: fixed::directions,
    classes: &[BITS, ORDINARY, SUBNORMAL, MIXED, DIRECTION, SLOPE, CLOSE],
};

pub const SECONDS: Inputs = Inputs {
    fixed: fixed::seconds,
    classes: &[BITS, ORDINARY, SUBNORMAL, POWER, BOUND, SECOND, TIE, HALF_NANOSECOND],
};

pub const HOURS: Inputs = Inputs {
    fixed: fixed::hours,
    classes: &[BITS, ORDINARY, SUBNORMAL, POWER, BOUND, HOUR, HOUR_HALF_NANOSECOND],
};

pub const NANOSECONDS: Inputs =
    Inputs { fixed: fixed::nanoseconds, classes: &[BITS, WIDTH, WHOLE_SECOND] };

pub const NUMBERS: Inputs = Inputs {
    fixed: corners::numbers,
    classes: &[BITS, ORDINARY, SUBNORMAL, POWER, BOUND, EPSILON],
};

pub const NUMBER_PAIRS: Inputs = Inputs {
    fixed: corners::number_pairs,
    classes: &[BITS, ORDINARY, SUBNORMAL, MIXED, SPECIALS, CLOSE, SAME, EPSILON_APART],
};

pub const AMOUNTS: Inputs =
    Inputs { fixed: corners::amounts, classes: &[BITS, ORDINARY, SUBNORMAL, POWER, BOUND, HUGE] };

pub const FACTORS: Inputs = Inputs {
    fixed: corners::factors,
    classes: &[BITS, ORDINARY, SUBNORMAL, MIXED, SPECIALS, CLOSE, ANGLE_AND_END],
};

pub const AMOUNTS_OVER_TIME: Inputs = Inputs {
    fixed: corners::amounts_over_time,
    classes: &[BITS, OVER_TIME, MIXED_OVER_TIME, OVER_WHOLE_SECONDS],
};

pub const IN_DEGREES: Inputs = Inputs {
    fixed: corners::degrees,
    classes: &[BITS, ORDINARY, SUBNORMAL, POWER, BOUND, HUGE, DEGREES],
};

pub const IN_RADIANS: Inputs = Inputs {
    fixed: corners::radians,
    classes: &[BITS, ORDINARY, SUBNORMAL, BOUND, HUGE, EIGHTH, TURNED, JUST_BELOW_ZERO],
};

pub const ANGLE_PAIRS: Inputs = Inputs {
    fixed: corners::angle_pairs,
    classes: &[BITS, ORDINARY, SUBNORMAL, MIXED, MULTIPLE, CLOSE, MIXED_AND_END, ANGLE_AND_END],
};

pub const PLACES_IN_DEGREES: Inputs = Inputs {
    fixed: corners::places_in_degrees,
    classes: &[BITS, ORDINARY, MIXED, SPECIALS, DEGREES, POLAR_IN_DEGREES, PLACE_IN_DEGREES],
};

pub const PLACES: Inputs = Inputs {
    fixed: corners::places_in_radians,
    classes: &[BITS, ORDINARY, MIXED, SPECIALS, TURNED, EIGHTH, POLAR, PLACE],
};

/// What any vectors are drawn from, one or several.
const ANY: [Draw; 10] =
    [BITS, ORDINARY, SUBNORMAL, MIXED, SPECIALS, POSITIONS, EDGES, AXES, LEVEL, SIZED];
const TOGETHER: [Draw; 13] = with(&[EQUAL, NEAR, CLOSE_BY]);
const ON_A_CIRCLE: [Draw; 15] = with(&[EQUAL, NEAR, CLOSE_BY, COLLINEAR, TRIPLE]);
const ROWS: [Draw; 11] = with(&[ROTATIONS]);

/// The classes of any vectors, then more.
const fn with<const N: usize>(more: &[Draw]) -> [Draw; N] {
    let mut classes = [BITS; N];
    let mut place = 0;
    while place < N {
        classes[place] = if place < ANY.len() { ANY[place] } else { more[place - ANY.len()] };
        place += 1;
    }
    classes
}

pub const VECTORS: Inputs = Inputs { fixed: corners::vectors, classes: &ANY };
pub const VECTORS_AND_ONE: Inputs = Inputs { fixed: corners::vectors_and_one, classes: &ANY };
pub const VECTORS_AND_TWO: Inputs = Inputs { fixed: corners::vectors_and_two, classes: &ANY };
pub const VECTOR_PAIRS: Inputs = Inputs { fixed: corners::vector_pairs, classes: &TOGETHER };
pub const VECTOR_TRIPLES: Inputs = Inputs { fixed: corners::vector_triples, classes: &ON_A_CIRCLE };
pub const MATRICES: Inputs = Inputs { fixed: corners::matrices, classes: &ROWS };
pub const VECTORS_AND_MATRICES: Inputs =
    Inputs { fixed: corners::vectors_and_matrices, classes: &ANY };
pub const MATRIX_PAIRS: Inputs = Inputs { fixed: corners::matrix_pairs, classes: &ROWS };

/// Classes of vectors with a radius ahead.
const fn led<const N: usize>(mut classes: [Draw; N]) -> [Draw; N] {
    let mut place = 0;
    while place < N {
        classes[place] = classes[place].led();
        place += 1;
    }
    classes
}

pub const RADIUS_AND_PAIRS: Inputs =
    Inputs { fixed: corners::radius_and_pairs, classes: &led(TOGETHER) };
pub const RADIUS_AND_TRIPLES: Inputs =
    Inputs { fixed: corners::radius_and_triples, classes: &led(ON_A_CIRCLE) };

const ENTRY_CLASSES: [Draw; 17] = with(&[EQUAL, NEAR, CLOSE_BY, ENTRIES, ENTRIES, SWARM, SWARM]);
pub const MEANS: Inputs = Inputs { fixed: corners::means, classes: &ENTRY_CLASSES };

/// Classes of vectors with a last word of their own.
const fn ended<const N: usize>(mut classes: [Draw; N], end: fn(&mut Random) -> u64) -> [Draw; N] {
    let mut place = 0;
    while place < N {
        classes[place] = classes[place].ended(end);
        place += 1;
    }
    classes
}

pub const RADIUS_AND_ANGLES: Inputs = Inputs {
    fixed: ways::radius_and_angles,
    classes: &[BITS, ORDINARY, SUBNORMAL, MIXED, SPECIALS, CLOSE, ways::RADIUS_AND_ANGLE],
};
pub const RADIUS_AND_ARCS: Inputs = Inputs {
    fixed: ways::radius_and_arcs,
    classes: &[BITS, ORDINARY, SUBNORMAL, MIXED, SPECIALS, CLOSE, ways::RADIUS_AND_ARC],
};
pub const WAYS: Inputs = Inputs { fixed: ways::ways, classes: &led(ANY) };
pub const TIMES: Inputs =
    Inputs { fixed: ways::times, classes: &ended(led(ANY), ways::nanoseconds) };
pub const PAIRS_AND_ANGLES: Inputs = Inputs { fixed: ways::pairs_and_angles, classes: &TOGETHER };
pub const PAIRS_AND_FRACTIONS: Inputs =
    Inputs { fixed: ways::pairs_and_fractions, classes: &ended(TOGETHER, ways::fraction) };
pub const TRIANGLES: Inputs = Inputs { fixed: ways::triangles, classes: &ENTRY_CLASSES };

pub const APPROACHES: Inputs = Inputs {
    fixed: |reach| scene_corners::inputs(reach, scenes::approach),
    classes: &scenes::classes(scenes::approach),
};
pub const INTERCEPTS: Inputs = Inputs {
    fixed: |reach| scene_corners::inputs(reach, scenes::intercept),
    classes: &scenes::classes(scenes::intercept),
};
pub const LONGEST: Inputs = Inputs {
    fixed: |reach| scene_corners::inputs(reach, scenes::longest),
    classes: &scenes::classes(scenes::longest),
};
pub const SOLVES: Inputs = Inputs {
    fixed: |reach| scene_corners::inputs(reach, scenes::solve),
    classes: &scenes::classes(scenes::solve),
};
