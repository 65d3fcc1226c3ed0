//! Meetings found without the walks: searches on the separation that cannot miss the first one,
//! with the standard library's functions.

use crate::inputs::scenes::{Scene, course, dot};
use crate::inputs::vectors::Vector;
use std::f64::consts::PI;

/// Seconds: a walk within this of a meeting has closed on it.
pub const CLOSED: f64 = 1e-3;
/// Seconds: the search takes no shorter steps; then it looks just ahead, and no farther than that.
const NEAR: f64 = 1e-4;
const FAR: f64 = 1e5;
const MOST_STEPS: u32 = 1_000_000;
const HALVINGS: u32 = 80;

pub struct Pursuit {
    own: [Vector; 2],
    target: [Vector; 2],
    /// Radians a second.
    own_rate: f64,
    rate: f64,
}

impl Pursuit {
    pub fn of(scene: &Scene) -> Self {
        let (own, target) = (scene.own, scene.target);
        Pursuit {
            own: [own.position, course(own.position, own.bearing)],
            target: [target.position, course(target.position, target.bearing)],
            own_rate: own.speed / scene.radius,
            rate: target.speed / scene.radius,
        }
    }

    /// The first time at which the own ship can be where the target is, on whatever course.
    pub fn first_meeting(&self) -> Option<f64> {
        let mut seconds = 0.0;
        for _ in 0..MOST_STEPS {
            // The gap shrinks no faster than both move, so no step passes a meeting.
            let step = self.gap(seconds) / (self.own_rate + self.rate);
            if step < NEAR {
                return Some(self.next_meeting(seconds));
            }
            seconds += step;
        }
        None
    }

    /// The meeting just after a time; that time itself if the gap only comes near to closing.
    fn next_meeting(&self, seconds: f64) -> f64 {
        let ends = (0..).map(|turn| NEAR * 1.1f64.powi(turn)).take_while(|step| *step < FAR);
        let past = ends.into_iter().find(|step| self.gap(seconds + step) <= 0.0);
        past.map_or(seconds, |step| halved([seconds, seconds + step], |t| self.gap(t) > 0.0))
    }

    /// The first time at which the speed that a meeting needs is less than just before and after.
    /// The separation falls and rises once a turn. Its rate grows for a quarter of a turn from the
    /// least separation on, and only there can the needed speed be least.
    pub fn first_least(&self) -> Option<f64> {
        let [place, way] = self.target;
        let (a, b) = (dot(self.own[0], place), dot(self.own[0], way));
        let (steepest, nearest) = (a.hypot(b), b.atan2(a));
        let ends = (0..1_000).map(|turn| nearest + 2.0 * PI * turn as f64 + PI / 2.0);
        let end = ends.into_iter().find(|end| end * steepest >= PI / 2.0)?;
        let seconds = |phase: f64| phase.max(0.0) / self.rate;
        Some(halved([seconds(end - PI / 2.0), seconds(end)], |t| self.excess(t) < 0.0))
    }

    /// The first time at which the two on their courses are nearer than just before and after.
    pub fn first_approach(&self) -> Option<f64> {
        let step = PI / 32.0 / (self.own_rate + self.rate);
        let closing = |turn: u32| self.closing(turn as f64 * step) > 0.0;
        let turn = (0..MOST_STEPS).find(|turn| closing(*turn) && !closing(turn + 1))?;
        let ends = [turn, turn + 1].map(|turn| turn as f64 * step);
        Some(halved(ends, |t| self.closing(t) > 0.0))
    }

    /// Whether there is a meeting within a millisecond.
    pub fn is_meeting(&self, seconds: f64) -> bool {
        seconds >= 0.0 && self.gap(seconds - CLOSED) * self.gap(seconds + CLOSED) <= 0.0
    }

    /// Whether the needed speed is least within a millisecond.
    pub fn is_least(&self, seconds: f64) -> bool {
        turns(seconds, CLOSED, |t| self.excess(t))
    }

    /// Whether it is greatest.
    pub fn is_greatest(&self, seconds: f64) -> bool {
        turns(seconds, CLOSED, |t| -self.excess(t))
    }

    /// Whether the two are nearest within two milliseconds: the walk's tolerance and its rounding.
    pub fn is_approach(&self, seconds: f64) -> bool {
        turns(seconds, 2.0 * CLOSED, |t| -self.closing(t))
    }

    /// Whether they are farthest.
    pub fn is_farthest(&self, seconds: f64) -> bool {
        turns(seconds, 2.0 * CLOSED, |t| self.closing(t))
    }

    /// How far the two on their courses are from each other, in radians.
    pub fn apart(&self, seconds: f64) -> f64 {
        between(self.own_at(seconds).0, self.target_at(seconds).0)
    }

    /// What the own ship lacks, in radians.
    fn gap(&self, seconds: f64) -> f64 {
        self.separation(seconds) - self.own_rate * seconds
    }

    /// Below zero while the needed speed falls.
    fn excess(&self, seconds: f64) -> f64 {
        let (_, way) = self.target_at(seconds);
        let separation = self.separation(seconds);
        -seconds * self.rate * dot(self.own[0], way) / separation.sin() - separation
    }

    /// From where the own ship is to where the target will be, in radians.
    fn separation(&self, seconds: f64) -> f64 {
        between(self.own[0], self.target_at(seconds).0)
    }

    /// Place and way.
    fn own_at(&self, seconds: f64) -> (Vector, Vector) {
        moved(self.own, self.own_rate * seconds)
    }

    fn target_at(&self, seconds: f64) -> (Vector, Vector) {
        moved(self.target, self.rate * seconds)
    }

    /// Above zero while the two on their courses close.
    fn closing(&self, seconds: f64) -> f64 {
        let (own, ahead) = self.own_at(seconds);
        let (target, way) = self.target_at(seconds);
        self.own_rate * dot(ahead, target) + self.rate * dot(own, way)
    }
}

/// The angle between two places.
fn between([x, y, z]: Vector, [u, v, w]: Vector) -> f64 {
    let cross = [y * w - z * v, z * u - x * w, x * v - y * u];
    dot(cross, cross).sqrt().atan2(x * u + y * v + z * w)
}

/// Place and way after an angle.
fn moved([place, way]: [Vector; 2], angle: f64) -> (Vector, Vector) {
    let (s, c) = angle.sin_cos();
    let turned = |a: Vector, b: Vector, s: f64| [0, 1, 2].map(|i| a[i] * c + b[i] * s);
    (turned(place, way, s), turned(way, place, -s))
}

/// Whether something goes from below zero to above it within so many seconds of a time to come.
fn turns(seconds: f64, within: f64, rate: impl Fn(f64) -> f64) -> bool {
    seconds >= 0.0 && rate(seconds - within) <= 0.0 && rate(seconds + within) >= 0.0
}

/// Where something that holds at the first end holds no more.
fn halved([mut low, mut high]: [f64; 2], holds: impl Fn(f64) -> bool) -> f64 {
    for _ in 0..HALVINGS {
        let middle = 0.5 * (low + high);
        if holds(middle) {
            low = middle;
        } else {
            high = middle;
        }
    }
    0.5 * (low + high)
}
