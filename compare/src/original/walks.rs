//! The walks: answers of the plain original, with the count and the kind of refusal that the
//! watched copy notes. The two must agree wherever document 01's domain reaches. What the rule
//! before request 2026-05 answered, but for 13 of an intercept, must be answered again.

use super::shapes::number;
use crate::answer::{Answer, FLAT, NOT_ACCEPTED, NOT_ZERO_OR_MORE, TOO_LONG, Walk};
use crate::jord::spherical::{GreatCircle, Sphere, before, watched};
use crate::jord::watch::{self, Notes};
use crate::jord::{NVector, Speed, Vehicle};
use crate::reference::{NANOSECONDS_AN_HOUR, TOO_MANY_NANOSECONDS, TOO_MANY_SECONDS};
use std::time::Duration;

/// A walk of the watched copy, and what it gave.
pub type Watched = (Walk, Option<Duration>);

pub fn time_to_cpa(sphere: Sphere, own: Vehicle, intruder: Vehicle) -> Walk {
    let watched = watched_cpa(sphere, own, intruder);
    let walk = agreed(watched, || sphere.time_to_cpa(own, intruder));
    assert_eq!(walk, before_cpa(sphere, own, intruder), "closest approach has moved");
    walk
}

pub fn time_to_intercept(sphere: Sphere, from: NVector, speed: Speed, intruder: Vehicle) -> Walk {
    let watched = watched_intercept(sphere, from, speed, intruder);
    let walk = agreed(watched, || sphere.time_to_intercept(from, speed, intruder));
    kept(before_intercept(sphere, from, speed, intruder), walk)
}

pub fn max_time_to_intercept(sphere: Sphere, from: NVector, intruder: Vehicle) -> Walk {
    let watched = watched_longest(sphere, from, intruder);
    let walk = agreed(watched, || sphere.max_time_to_intercept(from, intruder));
    kept(before_longest(sphere, from, intruder), walk)
}

pub fn watched_cpa(sphere: Sphere, own: Vehicle, intruder: Vehicle) -> Watched {
    watch::begin();
    let duration = copy(sphere).time_to_cpa(own, intruder);
    (watch::read(|notes| approach(notes, duration)), duration)
}

pub fn watched_intercept(
    sphere: Sphere,
    from: NVector,
    speed: Speed,
    intruder: Vehicle,
) -> Watched {
    watch::begin();
    let duration = copy(sphere).time_to_intercept(from, speed, intruder);
    (watch::read(|notes| intercept(notes, duration)), duration)
}

pub fn watched_longest(sphere: Sphere, from: NVector, intruder: Vehicle) -> Watched {
    watch::begin();
    let duration = copy(sphere).max_time_to_intercept(from, intruder);
    (watch::read(|notes| intercept(notes, duration)), duration)
}

fn copy(sphere: Sphere) -> watched::Sphere {
    watched::Sphere::new(sphere.radius())
}

/// The walk to the closest approach under the rule before request 2026-05.
pub fn before_cpa(sphere: Sphere, own: Vehicle, intruder: Vehicle) -> Walk {
    watch::begin();
    let duration = copy_before(sphere).time_to_cpa(own, intruder);
    watch::read(|notes| approach(notes, duration))
}

/// The same of the walk to an intercept.
pub fn before_intercept(sphere: Sphere, from: NVector, speed: Speed, intruder: Vehicle) -> Walk {
    watch::begin();
    let duration = copy_before(sphere).time_to_intercept(from, speed, intruder);
    watch::read(|notes| intercept(notes, duration))
}

/// And of the walk to the longest.
pub fn before_longest(sphere: Sphere, from: NVector, intruder: Vehicle) -> Walk {
    watch::begin();
    let duration = copy_before(sphere).max_time_to_intercept(from, intruder);
    watch::read(|notes| intercept(notes, duration))
}

fn copy_before(sphere: Sphere) -> before::Sphere {
    before::Sphere::new(sphere.radius())
}

/// The walk, once it is seen to be the one before, which may have lacked a time.
fn kept(before: Walk, walk: Walk) -> Walk {
    if before.number != NOT_ACCEPTED {
        assert_eq!(walk, before, "an answer of the rule before is not kept");
    }
    walk
}

/// The watched walk, once the plain original has given the same; number 15 is outside the domain.
fn agreed((walk, duration): Watched, plain: impl FnOnce() -> Option<Duration>) -> Walk {
    if walk.number != TOO_LONG {
        assert_eq!(plain(), duration, "two copies of sphere.rs differ");
    }
    walk
}

/// Two calls a step; an accepted time in hours.
fn approach(notes: &Notes, duration: Option<Duration>) -> Walk {
    let number = match notes.accepted() {
        _ if notes.was_flat() => FLAT,
        None => NOT_ACCEPTED,
        Some(hours) if hours >= 0.0 => {
            late(hours * NANOSECONDS_AN_HOUR < TOO_MANY_NANOSECONDS, duration)
        }
        Some(_) => NOT_ZERO_OR_MORE,
    };
    walk(number, notes.calls() / 2, duration)
}

/// One call a step; an accepted time in seconds, which the original refuses below zero itself.
fn intercept(notes: &Notes, duration: Option<Duration>) -> Walk {
    let number = match notes.accepted() {
        _ if notes.was_spent() => NOT_ACCEPTED,
        None => NOT_ZERO_OR_MORE,
        Some(seconds) => late(seconds < TOO_MANY_SECONDS, duration),
    };
    walk(number, notes.calls(), duration)
}

/// Question 15.
fn late(short_enough: bool, duration: Option<Duration>) -> u8 {
    assert!(duration.is_some() || !short_enough, "a time without a duration");
    if short_enough { 0 } else { TOO_LONG }
}

fn walk(number: u8, count: usize, duration: Option<Duration>) -> Walk {
    // A refusal is a None, but for number 15.
    assert!(duration.is_none() || matches!(number, 0 | TOO_LONG), "{number} with a duration");
    let nanoseconds = duration.filter(|_| number == 0).map_or(0, |time| time.as_nanos() as u64);
    Walk { number, nanoseconds, count: count as u8 }
}

/// Document 01's line.
pub struct Line<W> {
    pub distance: f64,
    pub bearing: f64,
    pub side: u8,
    pub offset: f64,
    pub walks: [W; 3],
}

/// What a solve asks, with the walks of a choice.
pub fn line<W>(
    sphere: Sphere,
    own: Vehicle,
    [start, end]: [NVector; 2],
    target: Vehicle,
    walks: impl FnOnce() -> [W; 3],
) -> Line<W> {
    let (from, to) = (own.position(), target.position());
    Line {
        distance: sphere.distance(from, to).as_metres(),
        bearing: Sphere::initial_bearing(from, to).as_radians(),
        side: number(Sphere::side(to, start, end)),
        offset: sphere.cross_track_distance(to, GreatCircle::new(start, end)).as_metres(),
        walks: walks(),
    }
}

/// A solve with all copies of each walk.
pub fn solve(sphere: Sphere, own: Vehicle, track: [NVector; 2], target: Vehicle) -> Line<Walk> {
    let (from, speed) = (own.position(), own.speed());
    line(sphere, own, track, target, || {
        [
            time_to_cpa(sphere, own, target),
            time_to_intercept(sphere, from, speed, target),
            max_time_to_intercept(sphere, from, target),
        ]
    })
}

/// A solve by the watched copy alone, which spares the time of the others.
pub fn watched_solve(
    sphere: Sphere,
    own: Vehicle,
    track: [NVector; 2],
    target: Vehicle,
) -> Line<Walk> {
    let (from, speed) = (own.position(), own.speed());
    line(sphere, own, track, target, || {
        [
            watched_cpa(sphere, own, target),
            watched_intercept(sphere, from, speed, target),
            watched_longest(sphere, from, target),
        ]
        .map(|(walk, _)| walk)
    })
}

impl From<Line<Walk>> for Answer {
    fn from(line: Line<Walk>) -> Self {
        let mut row = vec![
            line.distance.into(),
            line.bearing.into(),
            Answer::Byte(line.side),
            line.offset.into(),
        ];
        row.extend(line.walks.map(Answer::from));
        Answer::Row(row)
    }
}
