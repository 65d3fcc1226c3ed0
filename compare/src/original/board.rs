//! Document 01's plain board, written from its words over the original's functions.
//! A refusal is an error that holds the question's number.

use super::shapes::nvector;
use super::walks::Line;
use crate::answer::{ANTIPODAL, EMPTY, Walk};
use crate::inputs::random::power;
use crate::jord::spherical::Sphere;
use crate::jord::{Angle, Length, NVector, Speed, Vehicle};
use std::collections::BTreeMap;
use std::collections::btree_map::Entry;

/// Document 01's numbers that the board alone gives.
const RADIUS: u8 = 2;
const IDENTITY: u8 = 3;
const FINITE: u8 = 4;
const UNIT: u8 = 5;
const SPEED: u8 = 6;
const GREAT_CIRCLE: u8 = 7;
const HELD: u8 = 8;
const FULL: u8 = 9;
const OWN_SHIP: u8 = 10;
const TRACK: u8 = 11;
const MEETING: u8 = 19;

/// The most targets at a time.
const MOST: usize = 64;
/// How far a squared norm may lie from one.
const TOLERANCE: f64 = power(-40);

/// What makes a line: the walks by all copies of the original, or by the watched one alone.
pub type Solver = fn(Sphere, Vehicle, [NVector; 2], Vehicle) -> Line<Walk>;

struct Target {
    report: Vehicle,
    line: Option<Line<Walk>>,
}

pub struct Board {
    sphere: Sphere,
    own: Option<Vehicle>,
    track: Option<[NVector; 2]>,
    targets: BTreeMap<u16, Target>,
    total: u32,
    solver: Solver,
}

impl Board {
    pub fn fresh(radius: f64, solver: Solver) -> Result<Board, u8> {
        ask(radius.is_finite() && radius > 0.0, RADIUS)?;
        Ok(Board {
            sphere: Sphere::new(Length::from_metres(radius)),
            own: None,
            track: None,
            targets: BTreeMap::new(),
            total: 0,
            solver,
        })
    }

    pub fn report(&mut self, identity: u16, state: [f64; 5]) -> Result<(), u8> {
        ask(identity != 0, IDENTITY)?;
        let target = Target { report: vehicle(state)?, line: None };
        let held = self.targets.len();
        match self.targets.entry(identity) {
            Entry::Occupied(mut place) => {
                place.insert(target);
            }
            Entry::Vacant(place) => {
                ask(held < MOST, FULL)?;
                place.insert(target);
            }
        }
        Ok(())
    }

    pub fn withdraw(&mut self, identity: u16) -> Result<(), u8> {
        ask(identity != 0, IDENTITY)?;
        self.targets.remove(&identity).map(|_| ()).ok_or(HELD)
    }

    pub fn own_ship(&mut self, state: [f64; 5]) -> Result<(), u8> {
        self.own = Some(vehicle(state)?);
        self.forget_lines();
        Ok(())
    }

    pub fn track(&mut self, ends: [f64; 6]) -> Result<(), u8> {
        ask(ends.iter().all(|x| x.is_finite()), FINITE)?;
        let [a, b, c, d, e, f] = ends;
        let [start, end] = [nvector([a, b, c]), nvector([d, e, f])];
        ask(is_unit(start) && is_unit(end), UNIT)?;
        ask(Sphere::is_great_circle(start, end), GREAT_CIRCLE)?;
        self.track = Some([start, end]);
        self.forget_lines();
        Ok(())
    }

    fn forget_lines(&mut self) {
        self.targets.values_mut().for_each(|target| target.line = None);
    }

    pub fn solve(&mut self, identity: u16) -> Result<&Line<Walk>, u8> {
        ask(identity != 0, IDENTITY)?;
        let target = self.targets.get_mut(&identity).ok_or(HELD)?;
        let own = self.own.ok_or(OWN_SHIP)?;
        let track = self.track.ok_or(TRACK)?;
        let line = (self.solver)(self.sphere, own, track, target.report);
        for walk in &line.walks {
            self.total = self.total.wrapping_add(walk.count.into());
        }
        Ok(target.line.insert(line))
    }

    /// The mean position of all targets in rising identity.
    pub fn mean(&self) -> Result<NVector, u8> {
        let positions: Vec<_> = self.targets.values().map(|held| held.report.position()).collect();
        let refusal = if positions.is_empty() { EMPTY } else { ANTIPODAL };
        Sphere::mean_position(&positions).ok_or(refusal)
    }

    /// The lowest identity among the targets whose meeting time is least (request 2026-06):
    /// the first in the order of the targets.
    pub fn pick(&self) -> Result<u16, u8> {
        self.met().min_by_key(|(time, _)| *time).map(|(_, identity)| identity).ok_or(MEETING)
    }

    /// Whether several targets have the least meeting time.
    pub fn is_tied(&self) -> bool {
        let least = self.met().map(|(time, _)| time).min();
        self.met().filter(|(time, _)| Some(*time) == least).count() > 1
    }

    /// The targets with a found meeting time, in rising identity.
    fn met(&self) -> impl Iterator<Item = (u64, u16)> {
        self.targets.iter().filter_map(|(identity, held)| Some((meeting(held)?, *identity)))
    }

    pub fn total(&self) -> u32 {
        self.total
    }
}

/// The found time of the meeting at own speed, if there is a line and it has one.
fn meeting(target: &Target) -> Option<u64> {
    let [_, meeting, _] = &target.line.as_ref()?.walks;
    (meeting.number == 0).then_some(meeting.nanoseconds)
}

/// A question: the first no gives its number.
fn ask(yes: bool, number: u8) -> Result<(), u8> {
    if yes { Ok(()) } else { Err(number) }
}

fn vehicle(state: [f64; 5]) -> Result<Vehicle, u8> {
    ask(state.iter().all(|x| x.is_finite()), FINITE)?;
    let [x, y, z, bearing, speed] = state;
    let position = nvector([x, y, z]);
    ask(is_unit(position), UNIT)?;
    ask(speed >= 0.0, SPEED)?;
    let speed = Speed::from_metres_per_second(speed);
    Ok(Vehicle::new(position, Angle::from_radians(bearing), speed))
}

fn is_unit(position: NVector) -> bool {
    (position.as_vec3().squared_norm() - 1.0).abs() <= TOLERANCE
}
