//! Classes of scenes: a sphere, an own ship, a track and a target.

use super::classes::{BITS, Draw, MIXED, SPECIALS, mixed, ordinary};
use super::fixed::SPECIAL;
use super::random::Random;
use super::units::turned;
use super::vectors::{Vector, antipode, any, at, edge, nudged, position};
use crate::ground;
use crate::reference::TOO_MANY_SECONDS;
use std::f64::consts::PI;

/// Metres.
pub const EARTH: f64 = 6_371_000.8;
const HOUR: f64 = 3_600.0;
const DAY: f64 = 24.0 * HOUR;

#[derive(Clone, Copy)]
pub struct Ship {
    pub position: Vector,
    pub bearing: f64,
    pub speed: f64,
}

#[derive(Clone, Copy)]
pub struct Scene {
    pub radius: f64,
    pub own: Ship,
    pub track: [Vector; 2],
    pub target: Ship,
}

pub type Class = fn(&mut Random) -> Scene;
/// The numbers of a scene that a function takes.
pub type Layout = fn(&Scene) -> Vec<f64>;

/// Meetings take more turns than what seldom has one.
const CLASSES: [Class; 19] = [
    chase,
    near,
    far,
    chase,
    near,
    far,
    far,
    missed,
    missed,
    past,
    late,
    aligned,
    together,
    polar,
    fast_or_slow,
    any_radius,
    small,
    no_position,
    corner,
];
/// Classes that are drawn from again, some numbers replaced.
const SPOILT: [Class; 4] = [near, far, aligned, corner];
/// Any floats, of several kinds.
const FLOATS: [Draw; 3] = [BITS, MIXED, SPECIALS];
const COUNT: usize = CLASSES.len() + SPOILT.len() + FLOATS.len();

/// The classes as one function takes them.
pub const fn classes(layout: Layout) -> [Draw; COUNT] {
    let mut draws = [FLOATS[0]; COUNT];
    let mut place = 0;
    while place < COUNT {
        draws[place] = if place < CLASSES.len() {
            Draw::Scene(CLASSES[place], layout)
        } else if place < CLASSES.len() + SPOILT.len() {
            Draw::Spoilt(SPOILT[place - CLASSES.len()], layout)
        } else {
            FLOATS[place - CLASSES.len() - SPOILT.len()]
        };
        place += 1;
    }
    draws
}

/// What 76 takes.
pub fn approach(scene: &Scene) -> Vec<f64> {
    [vec![scene.radius], ship(scene.own), ship(scene.target)].concat()
}

/// What 77 takes.
pub fn intercept(scene: &Scene) -> Vec<f64> {
    let from = scene.own.position.to_vec();
    [vec![scene.radius], from, vec![scene.own.speed], ship(scene.target)].concat()
}

/// What 78 takes.
pub fn longest(scene: &Scene) -> Vec<f64> {
    [vec![scene.radius], scene.own.position.to_vec(), ship(scene.target)].concat()
}

/// What 7a takes.
pub fn solve(scene: &Scene) -> Vec<f64> {
    let track = scene.track.as_flattened().to_vec();
    [vec![scene.radius], ship(scene.own), track, ship(scene.target)].concat()
}

pub fn radius_and(scene: &Scene, positions: &[Vector]) -> Vec<f64> {
    [&[scene.radius], positions.as_flattened()].concat()
}

fn ship(ship: Ship) -> Vec<f64> {
    let [x, y, z] = ship.position;
    vec![x, y, z, ship.bearing, ship.speed]
}

/// One to three numbers become any.
pub fn spoil(r: &mut Random, words: &mut [u64]) {
    for _ in 0..=r.below(3) {
        let place = r.below(words.len() as u64) as usize;
        words[place] = if r.coin() { mixed(r).to_bits() } else { r.choose(SPECIAL) };
    }
}

/// As at sea: 1 to 20,000 km away, both at 0.2 to 20 metres a second, sizes alike.
pub fn chase(r: &mut Random) -> Scene {
    apart(r, 1e3, 2e7)
}

/// The same, 10 m to 1 km away.
pub fn close(r: &mut Random) -> Scene {
    apart(r, 10.0, 1e3)
}

/// So many metres away.
fn apart(r: &mut Random, least: f64, most: f64) -> Scene {
    let own = Ship { position: position(r), bearing: any_bearing(r), speed: r.sized(0.2, 20.0) };
    let away = r.sized(least, most) / EARTH;
    let position = moved(own.position, any_bearing(r), away);
    let target = Ship { position, bearing: any_bearing(r), speed: r.sized(0.2, 20.0) };
    scene(r, own, target)
}

/// With a track that begins and ends within some thousand kilometres.
fn scene(r: &mut Random, own: Ship, target: Ship) -> Scene {
    let start = moved(own.position, any_bearing(r), r.sized(1e2, 1e5) / EARTH);
    let end = moved(start, own.bearing, r.sized(1e3, 4e6) / EARTH);
    Scene { radius: EARTH, own, track: [start, end], target }
}

/// A meeting within hours.
fn near(r: &mut Random) -> Scene {
    let seconds = r.sized(60.0, 12.0 * HOUR);
    meeting(r, seconds)
}

/// A meeting hours, days or weeks away.
fn far(r: &mut Random) -> Scene {
    let seconds = r.sized(6.0 * HOUR, 60.0 * DAY);
    meeting(r, seconds)
}

/// Both on straight courses to one place, there after so many seconds.
fn meeting(r: &mut Random, seconds: f64) -> Scene {
    let place = position(r);
    let [own, target] = [(); 2].map(|()| {
        let speed = r.sized(0.2, 20.0);
        let from = moved(place, any_bearing(r), speed * seconds / EARTH);
        Ship { position: from, bearing: bearing(from, place), speed }
    });
    scene(r, own, target)
}

/// A meeting that one course misses.
fn missed(r: &mut Random) -> Scene {
    let mut scene = r.choose(&[near, far])(r);
    let away = r.sized(1e-9, 1.0);
    scene.own.bearing += r.signed(away);
    scene
}

/// A meeting that both ships come from.
fn past(r: &mut Random) -> Scene {
    let mut scene = r.choose(&[near, missed])(r);
    scene.own.bearing += PI;
    scene.target.bearing += PI;
    scene
}

/// Head on, about 2^34 seconds before the meeting.
fn late(r: &mut Random) -> Scene {
    let (from, to) = (position(r), position(r));
    let near_one = r.about(1.0).abs();
    let seconds = TOO_MANY_SECONDS * r.choose(&[near_one, 1.0 - 1e-9, 1.0 + 1e-9, 0.9, 1.1]);
    let speed = EARTH * angle(from, to) / seconds;
    let share = r.choose(&[0.0, 0.5, 1.0]);
    let own = Ship { position: from, bearing: bearing(from, to), speed: speed * (1.0 - share) };
    let target = Ship { position: to, bearing: bearing(to, from), speed: speed * share };
    scene(r, own, target)
}

/// On the equator or a meridian: head on, astern, or at the same speed.
fn aligned(r: &mut Random) -> Scene {
    let axis = r.below(3) as usize;
    let quarter = r.below(4) as f64 * (PI / 2.0);
    let course = r.below(4) as f64 * (PI / 2.0);
    let on_the_way = |degrees: f64| {
        let mut v = at(0.0, quarter + degrees.to_radians());
        v.rotate_right(axis);
        v
    };
    let mut speed = || r.choose(&[0.0, 0.5, 1.0, 2.0, 5.0, 10.0, 10.0, 600.0]);
    let (fast, slow) = (speed(), speed());
    let degrees = r.below(361) as f64 - 180.0;
    let position = on_the_way(0.0);
    let own = Ship { position, bearing: course, speed: fast };
    let to = if r.coin() { course } else { course + PI };
    let target = Ship { position: on_the_way(degrees), bearing: to, speed: slow };
    scene(r, own, target)
}

/// Equal or opposite positions, or nearly.
fn together(r: &mut Random) -> Scene {
    let mut scene = chase(r);
    let place = any(r);
    scene.own.position = place;
    scene.target.position = match r.below(4) {
        0 => place,
        1 => antipode(place),
        2 => nudged(r, place),
        _ => nudged(r, antipode(place)),
    };
    if r.coin() {
        scene.target.bearing = scene.own.bearing;
        scene.target.speed = scene.own.speed;
    }
    scene
}

/// At and about the poles and other edges, on bearings at and about the quarters.
fn polar(r: &mut Random) -> Scene {
    let mut scene = chase(r);
    let pole = [0.0, 0.0, 1.0];
    for ship in [&mut scene.own, &mut scene.target] {
        ship.position =
            if r.coin() { edge(r) } else { moved(pole, any_bearing(r), r.sized(1e-9, 0.1)) };
        ship.bearing = turned(r);
    }
    scene
}

fn fast_or_slow(r: &mut Random) -> Scene {
    let mut scene = r.choose(&[chase, aligned])(r);
    for ship in [&mut scene.own, &mut scene.target] {
        ship.speed = match r.below(5) {
            0 => r.choose(&[0.0, -0.0, 1.0]),
            1 => r.scaled(-1074, -100),
            2 => r.sized(1e-12, 1e-1),
            3 => r.sized(1e2, 1e12),
            _ => r.scaled(100, 1023),
        };
        ship.speed = if r.below(8) == 0 { -ship.speed } else { ship.speed };
    }
    scene
}

fn any_radius(r: &mut Random) -> Scene {
    Scene { radius: radius(r), ..r.choose(&[chase, near, far])(r) }
}

/// A sphere of radius one, or about it, on which minutes count.
fn small(r: &mut Random) -> Scene {
    let mut scene = r.choose(&[chase, near, far])(r);
    let scale = r.sized(0.5, 2.0);
    scene.radius = scale;
    scene.own.speed *= scale / EARTH;
    scene.target.speed *= scale / EARTH;
    scene
}

/// A radius of any size, seldom none.
pub fn radius(r: &mut Random) -> f64 {
    match r.below(6) {
        0 | 1 => EARTH,
        2 => r.choose(&[1.0, 1_737_400.0, 0.0, -1.0, -EARTH]),
        3 => r.sized(1e-3, 1e9),
        4 => r.scaled(-1074, 1023),
        _ => mixed(r),
    }
}

/// Vectors of other lengths than one.
fn no_position(r: &mut Random) -> Scene {
    let mut scene = chase(r);
    let length = r.choose(&[0.0, 0.5, 1.0 + 1e-9, 2.0, 1e6, 1e200, 1e-200]);
    let [start, end] = &mut scene.track;
    for v in [&mut scene.own.position, &mut scene.target.position, start, end] {
        *v = match r.below(3) {
            0 => v.map(|x| x * length),
            1 => any(r),
            _ => [(); 3].map(|()| ordinary(r)),
        };
    }
    scene
}

/// Each number from a short list.
fn corner(r: &mut Random) -> Scene {
    let place = |r: &mut Random| {
        let axis = [0.0; 3].map(|zero| r.signed(zero));
        let mut v = r.choose(&[axis, axis, [0.6, 0.8, 0.0], [0.6, 0.0, -0.8]]);
        v[r.below(3) as usize] = r.choose(&[1.0, 1.0, -1.0, -1.0, 0.0]);
        v
    };
    let ship = |r: &mut Random| Ship {
        position: place(r),
        bearing: r.choose(&[0.0, -0.0, PI / 2.0, PI, -PI, 2.0 * PI]),
        speed: r.choose(&[0.0, -0.0, 0.001, 1.0, 1.0, 2.0, -1.0, f64::INFINITY]),
    };
    let (own, target) = (ship(r), ship(r));
    Scene {
        radius: r.choose(&[1.0, 1.0, EARTH, 1_000.0]),
        own,
        track: [place(r), place(r)],
        target,
    }
}

fn any_bearing(r: &mut Random) -> f64 {
    r.within(0.0, 2.0 * PI)
}

/// East and north at a place that is no pole; at a pole the east of longitude zero.
fn directions([x, y, z]: Vector) -> [Vector; 2] {
    let level = (x * x + y * y).sqrt();
    let east = if level == 0.0 { [0.0, 1.0, 0.0] } else { [-y / level, x / level, 0.0] };
    let north = [-z * east[1], z * east[0], x * east[1] - y * east[0]];
    [east, north]
}

/// The unit vector of a course.
pub fn course(from: Vector, bearing: f64) -> Vector {
    let [east, north] = directions(from);
    let (s, c) = (ground::sin(bearing), ground::cos(bearing));
    [0, 1, 2].map(|place| north[place] * c + east[place] * s)
}

/// So many radians along a great circle.
pub fn moved(from: Vector, bearing: f64, angle: f64) -> Vector {
    let course = course(from, bearing);
    let (s, c) = (ground::sin(angle), ground::cos(angle));
    [0, 1, 2].map(|place| from[place] * c + course[place] * s)
}

/// From a place to another, less than half a turn.
pub fn bearing(from: Vector, to: Vector) -> f64 {
    let [east, north] = directions(from);
    ground::atan2(dot(to, east), dot(to, north))
}

pub fn angle(from: Vector, to: Vector) -> f64 {
    let [east, north] = directions(from);
    let (x, y) = (dot(to, east), dot(to, north));
    ground::atan2((x * x + y * y).sqrt(), dot(to, from))
}

pub fn dot(a: Vector, b: Vector) -> f64 {
    a[0] * b[0] + a[1] * b[1] + a[2] * b[2]
}
