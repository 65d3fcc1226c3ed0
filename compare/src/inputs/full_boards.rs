//! Frames of boards with many targets: means, question 9, lines stored and taken away; then the
//! boundaries of the solves.

use super::SOLVES;
use super::frames::*;
use super::questions::{NAN, SIGNED_X, X, ZERO, asked, ends, radii, state};
use super::scenes::EARTH;
use super::vectors::{antipode, at};
use crate::reference::TOO_MANY_SECONDS;
use std::f64::consts::PI;

const MOST: u16 = 64;
const WEST: f64 = 1.5 * PI;

/// All of them, one after another.
pub fn frames() -> Vec<Frame> {
    [means(), full(), lines(), late(), corners()].concat()
}

/// None, one, antipodes, then some in falling identity: the order of the sum shows.
fn means() -> Vec<Frame> {
    let mut frames = vec![Frame::fresh(EARTH.to_bits()), Frame::asking(MEAN)];
    let place = [0.6, -0.8, 0.0];
    for (name, v) in [(9, place), (2, antipode(place)), (2, place), (3, SIGNED_X), (1, antipode(X))]
    {
        frames.extend([Frame::report(name, state(v, 0.0, 1.0)), Frame::asking(MEAN)]);
    }
    frames.push(Frame::withdraw(1));
    for turn in (10..20).rev() {
        let angle = f64::from(turn);
        frames.extend([Frame::report(turn, state(at(angle, 2.0 * angle), 0.0, 1.0))]);
        frames.push(Frame::asking(MEAN));
    }
    frames
}

/// Question 9: 64 and more, one replaced, one withdrawn.
fn full() -> Vec<Frame> {
    let mut frames = vec![Frame::fresh(EARTH.to_bits())];
    let report = |name: u16| Frame::report(1_000 - 3 * name, target(name));
    frames.extend((0..=MOST).map(report));
    frames.extend([Frame::report(5, state(X, NAN, 1.0)), Frame::report(5, state(ZERO, 0.0, 1.0))]);
    frames.extend([Frame::report(5, state(X, 0.0, -1.0)), Frame::report(5, state(X, 0.0, 1.0))]);
    frames.extend([report(3), Frame::report(0, target(1)), Frame::asking(MEAN)]);
    frames.extend([Frame::withdraw(1_000), report(MOST), report(0), Frame::asking(MEAN)]);
    frames
}

/// Solves of all, which own ship, track, report and withdrawal take away, and refusals leave.
fn lines() -> Vec<Frame> {
    let own = Frame::own_ship(state(at(0.1, 0.2), 1.0, 8.0));
    let track = Frame::track(ends(at(0.1, 0.1), at(0.2, 0.4)));
    let solves = || (0..=MOST).map(|name| Frame::solve(1_000 - 3 * name)).chain(asked());
    let mut frames = vec![own, track];
    frames.extend(solves());
    frames.extend([Frame::own_ship(state(ZERO, 0.0, 1.0)), Frame::track(ends(X, X))]);
    frames.extend(radii().into_iter().take(1).chain(asked()));
    frames.push(own);
    frames.extend(asked());
    frames.extend(solves());
    frames.push(track);
    frames.extend(asked());
    frames.extend(solves());
    for name in (1..=MOST).step_by(2) {
        let identity = 1_000 - 3 * name;
        let withdraw = name % 4 == 1;
        let report = Frame::report(identity, target(name + 1));
        frames.push(if withdraw { Frame::withdraw(identity) } else { report });
        frames.push(Frame::asking(PICK));
    }
    frames
}

/// A target that comes along the equator and is there about 2^34 seconds later.
fn late() -> Vec<Frame> {
    let own = Frame::own_ship(state(X, 0.0, 0.0));
    let track = Frame::track(ends(at(0.1, 0.1), at(0.2, 0.4)));
    let mut frames = vec![Frame::fresh(EARTH.to_bits()), own, track];
    for (name, share) in (1..).zip([0.9, 1.0 - 1e-9, 1.0, 1.0 + 1e-9, 1.1]) {
        let speed = EARTH * 0.5 / (share * TOO_MANY_SECONDS);
        let report = Frame::report(name, state(at(0.0, 0.5), WEST, speed));
        frames.extend([report, Frame::solve(name)]);
    }
    frames
}

/// Each of the solves' own boundaries on a board by itself.
fn corners() -> Vec<Frame> {
    let boards = SOLVES.boundaries(0);
    let frames = boards.iter().flat_map(|words| {
        let part = |from: usize| *words[from..].first_chunk().expect("a scene has 17 words");
        let track = Frame::track(*words[6..].first_chunk().expect("a scene has 17 words"));
        let ships = [Frame::own_ship(part(1)), track, Frame::report(1, part(12))];
        [Frame::fresh(words[0])].into_iter().chain(ships).chain([Frame::solve(1)])
    });
    frames.collect()
}

fn target(place: u16) -> State {
    let x = f64::from(place);
    state(at(0.1 + 0.003 * x, 0.2 - 0.002 * x), x, 0.25 * x)
}
