//! What a second solve finds, above all where the first says 13: with a speed changed a little, or
//! on a smaller sphere, which is a faster clock.

use super::ends::{End, Kind, LATER, end, found};
use super::meetings::Pursuit;
use super::tables::{Counts, seconds, share};
use crate::inputs::scenes::{Scene, angle};
use std::iter;

/// Metres a second.
pub const NUDGE: f64 = 1e-6;
const MOST: usize = 8;
/// Seconds from the first meeting.
const OFF: [f64; 3] = [0.4, 1.0, 60.0];

/// How a chase is solved once more, up to so many times.
pub enum Method {
    /// By one nudge, by two, and so on.
    Nudges(fn(&mut Scene, f64), usize),
    /// On a sphere whose radius is divided by each of these in turn.
    Clocks(&'static [f64]),
    /// On a sphere whose radius is divided by the largest power of two whose clock begins no later
    /// than the two can meet; then by half of it, and so on.
    Early,
}

/// A time found, after so many solves, in seconds of the chase; whether it is the first meeting:
/// of the changed chase, exactly, or under another clock within a second.
pub struct Second {
    pub solves: usize,
    pub time: f64,
    pub is_first: bool,
}

impl Method {
    pub fn solve(&self, kind: &Kind, scene: &Scene, first: f64) -> Option<Second> {
        match self {
            Method::Nudges(change, most) => {
                (1..=*most).find_map(|nudges| solve_changed(kind, *change, scene, nudges))
            }
            Method::Clocks(clocks) => in_turn(kind, scene, clocks.iter().copied(), first),
            Method::Early => in_turn(kind, scene, early_clocks(scene), first),
        }
    }
}

/// What is found under the first of these clocks that finds.
fn in_turn(
    kind: &Kind,
    scene: &Scene,
    clocks: impl Iterator<Item = f64>,
    first: f64,
) -> Option<Second> {
    (1..).zip(clocks.take(MOST)).find_map(|(solves, clock)| {
        let time = clock * found_time(kind, &faster(scene, clock))?;
        Some(Second { solves, time, is_first: (time - first).abs() <= LATER })
    })
}

/// The powers of two, falling, under whose clock the walk to a meeting begins no later than the two
/// can meet: it begins at a tenth of a second, and they close by no more than both speeds.
fn early_clocks(scene: &Scene) -> impl Iterator<Item = f64> {
    let apart = scene.radius * angle(scene.own.position, scene.target.position);
    let most = 10.0 * apart / (scene.own.speed + scene.target.speed);
    let largest = 2.0f64.powf(most.log2().floor());
    iter::successors(Some(largest), |clock| Some(clock / 2.0)).take_while(|clock| *clock >= 2.0)
}

/// The same chase under a clock that much faster. A power of two changes no digit: each walk takes
/// the same way, but for the tenth of a second at which that to a meeting begins; and 1e-11 s of
/// such a clock are a longer time.
pub fn faster(scene: &Scene, clock: f64) -> Scene {
    Scene { radius: scene.radius / clock, ..*scene }
}

/// The same chase with a target faster by so many nudges.
pub fn faster_target(scene: &Scene, nudges: usize) -> Scene {
    changed(scene, |scene, by| scene.target.speed += by, nudges)
}

fn changed(scene: &Scene, change: fn(&mut Scene, f64), nudges: usize) -> Scene {
    let mut changed = *scene;
    change(&mut changed, nudges as f64 * NUDGE);
    changed
}

pub fn found_time(kind: &Kind, scene: &Scene) -> Option<f64> {
    let walk = (kind.now)(scene);
    (walk.number == 0).then(|| found(walk))
}

fn solve_changed(
    kind: &Kind,
    change: fn(&mut Scene, f64),
    scene: &Scene,
    nudges: usize,
) -> Option<Second> {
    let changed = changed(scene, change, nudges);
    let walk = (kind.now)(&changed);
    if walk.number != 0 {
        return None;
    }
    let pursuit = Pursuit::of(&changed);
    let is_first = end(kind, &pursuit, (kind.first)(&pursuit), walk) == End::First;
    Some(Second { solves: nudges, time: found(walk), is_first })
}

/// What one method finds of some walks.
#[derive(Clone, Copy, Default)]
pub struct Tries {
    pub walks: u64,
    /// How many are found with so many solves and not with fewer.
    found: [u64; MOST],
    /// How many of them are the first meeting; of these, how many lie how far from the chase's.
    first: u64,
    off: [u64; OFF.len()],
    greatest: f64,
}

impl Tries {
    pub fn meet(&mut self, second: &Option<Second>, first: f64) {
        self.walks += 1;
        let Some(second) = second else { return };
        self.found[second.solves - 1] += 1;
        if second.is_first {
            let apart = (second.time - first).abs();
            self.first += 1;
            self.off.iter_mut().zip(OFF).for_each(|(count, off)| *count += u64::from(apart > off));
            self.greatest = self.greatest.max(apart);
        }
    }

    fn add(&mut self, other: &Self) {
        self.walks += other.walks;
        self.found.iter_mut().zip(other.found).for_each(|(sum, count)| *sum += count);
        self.first += other.first;
        self.off.iter_mut().zip(other.off).for_each(|(sum, count)| *sum += count);
        self.greatest = self.greatest.max(other.greatest);
    }

    /// The share found with so many solves or fewer.
    pub fn within(&self, solves: usize) -> String {
        share(self.found[..solves].iter().sum(), self.walks)
    }

    /// The share that is not.
    pub fn without(&self, solves: usize) -> String {
        share(self.walks - self.found[..solves].iter().sum::<u64>(), self.walks)
    }

    /// The share of the walks that is found and the first meeting.
    pub fn right(&self) -> String {
        share(self.first, self.walks)
    }

    /// What share of those found is the first meeting.
    pub fn first(&self) -> String {
        share(self.first, self.found.iter().sum())
    }

    /// How far the first meetings lie from the chase's: shares, and the greatest.
    pub fn apart(&self) -> Vec<String> {
        let shares = self.off.iter().map(|count| share(*count, self.first));
        shares.chain([seconds(self.greatest)]).collect()
    }
}

impl Counts for Vec<Tries> {
    fn add(&mut self, other: &Self) {
        self.iter_mut().zip(other).for_each(|(sum, tries)| sum.add(tries));
    }

    fn is_empty(&self) -> bool {
        self.iter().all(|tries| tries.walks == 0)
    }
}
