//! How a walk ends: the numbers, and what the times found and the walks of number 13 are.

use super::meetings::{CLOSED, Pursuit};
use super::shapes::{nvector, vehicle};
use super::walks;
use crate::answer::{FLAT, NOT_ACCEPTED, NOT_ZERO_OR_MORE, Walk};
use crate::inputs::scenes::{self, Layout, Scene};
use crate::jord::spherical::Sphere;
use crate::jord::watch::{self, Notes};
use crate::jord::{Length, NVector, Speed, Vehicle};

/// Seconds: a meeting that much past the first is a later one.
pub const LATER: f64 = 1.0;

/// Ends of the rows in hours; the last row has none.
const ENDS: [f64; 10] = [1.0, 6.0, 12.0, 24.0, 36.0, 48.0, 96.0, 192.0, 384.0, 768.0];
pub const NAMES: [&str; 12] = [
    "below 1 hour",
    "1 to 6",
    "6 to 12",
    "12 to 24",
    "24 to 36",
    "36 to 48",
    "2 to 4 days",
    "4 to 8",
    "8 to 16",
    "16 to 32",
    "more",
    "none",
];
const NONE: usize = NAMES.len() - 1;

/// The row of a time to the meeting.
pub fn row(seconds: Option<f64>) -> usize {
    let hours = |seconds: f64| seconds / 3_600.0;
    seconds.map_or(NONE, |seconds| ENDS.iter().filter(|end| hours(seconds) >= **end).count())
}

/// How a walk ends.
#[derive(Clone, Copy, PartialEq)]
pub enum End {
    /// The first meeting.
    First,
    /// A later one.
    Later,
    /// The time of a farthest point, or of a greatest needed speed.
    Opposite,
    /// A time of neither.
    Other,
    /// Number 13, closed on a meeting: the last times are about it, and so about each other.
    Closed,
    /// Number 13, about to close on a meeting.
    Closing,
    /// Number 13, and the last time is no meeting.
    Astray,
    Flat,
    Negative,
    Long,
}

pub const KINDS: usize = 10;

impl End {
    /// Whether it is number 13.
    pub fn is_thirteen(self) -> bool {
        matches!(self, End::Closed | End::Closing | End::Astray)
    }
}

/// The rules: before request 2026-05, and now.
pub const RULES: [&str; 2] = ["before 2026-05", "now"];

/// How a walk ended under each rule, the seconds found now, and those to the first meeting.
pub struct Ended {
    pub before: End,
    pub now: End,
    pub found: Option<f64>,
    pub first: Option<f64>,
}

/// A walk, what tells whether a time is its goal, and a search for its first goal.
pub struct Kind {
    pub name: &'static str,
    /// `probe`'s function, and the layout of its numbers.
    pub number: u8,
    pub layout: Layout,
    pub before: fn(&Scene) -> Walk,
    pub now: fn(&Scene) -> Walk,
    /// Seconds in the unit of its times.
    unit: f64,
    is_goal: fn(&Pursuit, f64) -> bool,
    is_opposite: fn(&Pursuit, f64) -> bool,
    pub first: fn(&Pursuit) -> Option<f64>,
}

pub const WALKS: [Kind; 3] = [
    Kind {
        name: "time_to_cpa",
        number: 0x76,
        layout: scenes::approach,
        before: |scene| walks::before_cpa(sphere(scene), vehicle(scene.own), target(scene)),
        now: |scene| walks::watched_cpa(sphere(scene), vehicle(scene.own), target(scene)).0,
        unit: 3_600.0,
        is_goal: Pursuit::is_approach,
        is_opposite: Pursuit::is_farthest,
        first: Pursuit::first_approach,
    },
    Kind {
        name: "time_to_intercept",
        number: 0x77,
        layout: scenes::intercept,
        before: |scene| {
            walks::before_intercept(sphere(scene), from(scene), own_speed(scene), target(scene))
        },
        now: |scene| {
            walks::watched_intercept(sphere(scene), from(scene), own_speed(scene), target(scene)).0
        },
        unit: 1.0,
        is_goal: Pursuit::is_meeting,
        is_opposite: |_, _| false,
        first: Pursuit::first_meeting,
    },
    Kind {
        name: "max_time_to_intercept",
        number: 0x78,
        layout: scenes::longest,
        before: |scene| walks::before_longest(sphere(scene), from(scene), target(scene)),
        now: |scene| walks::watched_longest(sphere(scene), from(scene), target(scene)).0,
        unit: 1.0,
        is_goal: Pursuit::is_least,
        is_opposite: Pursuit::is_greatest,
        first: Pursuit::first_least,
    },
];

fn from(scene: &Scene) -> NVector {
    nvector(scene.own.position)
}

fn target(scene: &Scene) -> Vehicle {
    vehicle(scene.target)
}

fn own_speed(scene: &Scene) -> Speed {
    Speed::from_metres_per_second(scene.own.speed)
}

fn sphere(scene: &Scene) -> Sphere {
    Sphere::new(Length::from_metres(scene.radius))
}

pub fn ended(kind: &Kind, scene: &Scene) -> Ended {
    let pursuit = Pursuit::of(scene);
    let first = (kind.first)(&pursuit);
    let before = end(kind, &pursuit, first, (kind.before)(scene));
    let walk = (kind.now)(scene);
    let found = (walk.number == 0).then(|| found(walk));
    Ended { before, now: end(kind, &pursuit, first, walk), found, first }
}

/// How the walk ended that gave this, the last one run.
pub fn end(kind: &Kind, pursuit: &Pursuit, first: Option<f64>, walk: Walk) -> End {
    let is_goal = |seconds| (kind.is_goal)(pursuit, seconds);
    let is_later = |seconds| first.is_some_and(|first| seconds > first + LATER);
    match walk.number {
        0 if is_goal(found(walk)) && is_later(found(walk)) => End::Later,
        0 if is_goal(found(walk)) => End::First,
        0 if (kind.is_opposite)(pursuit, found(walk)) => End::Opposite,
        0 => End::Other,
        FLAT => End::Flat,
        NOT_ACCEPTED if !is_goal(kind.unit * watch::read(last_time)) => End::Astray,
        NOT_ACCEPTED if kind.unit * watch::read(spread) < CLOSED => End::Closed,
        NOT_ACCEPTED => End::Closing,
        NOT_ZERO_OR_MORE => End::Negative,
        _ => End::Long,
    }
}

/// The seconds of a time found.
pub fn found(walk: Walk) -> f64 {
    walk.nanoseconds as f64 / 1e9
}

pub fn last_time(notes: &Notes) -> f64 {
    notes.time(notes.calls())
}

/// How far the last times lie from the very last.
fn spread(notes: &Notes) -> f64 {
    let last = last_time(notes);
    (0..watch::KEPT).map(|call| (notes.time(call) - last).abs()).fold(0.0, f64::max)
}
