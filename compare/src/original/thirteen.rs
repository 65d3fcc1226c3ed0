//! Chases that a user can tell apart, and the numbers in which their walks end.

use super::chases::STREAM;
use super::ends::{End, Kind, WALKS, end, found};
use super::meetings::Pursuit;
use super::smallest::{self, call};
use super::tables::{seconds, share};
use crate::answer::{Answer, FLAT, NOT_ACCEPTED, NOT_ZERO_OR_MORE, TOO_LONG};
use crate::inputs::random::{Random, SEED};
use crate::inputs::scenes::{self, EARTH, Scene, Ship, angle, bearing};
use crate::inputs::vectors::antipode;
use std::f64::consts::PI;

/// What is made of a chase.
struct Situation {
    name: &'static str,
    change: fn(&mut Scene),
}

const SITUATIONS: [Situation; 14] = [
    Situation { name: "a chase", change: |_| () },
    Situation { name: "own ship at rest", change: rest_own },
    Situation {
        name: "own ship at rest, target heading for it",
        change: |scene| {
            rest_own(scene);
            scene.target.bearing = bearing(scene.target.position, scene.own.position);
        },
    },
    Situation { name: "target at rest", change: rest_target },
    Situation { name: "both at rest", change: rest_both },
    Situation { name: "alongside", change: alongside },
    Situation { name: "alongside, own ship at rest", change: |s| both(s, alongside, rest_own) },
    Situation { name: "alongside, target at rest", change: |s| both(s, alongside, rest_target) },
    Situation { name: "alongside, both at rest", change: |s| both(s, alongside, rest_both) },
    Situation {
        name: "alongside, on one course at one speed",
        change: |scene| scene.target = scene.own,
    },
    Situation { name: "antipodal", change: opposite },
    Situation { name: "antipodal, own ship at rest", change: |s| both(s, opposite, rest_own) },
    Situation { name: "antipodal, target at rest", change: |s| both(s, opposite, rest_target) },
    Situation { name: "antipodal, both at rest", change: |s| both(s, opposite, rest_both) },
];

fn both(scene: &mut Scene, first: fn(&mut Scene), second: fn(&mut Scene)) {
    first(scene);
    second(scene);
}

fn rest_own(scene: &mut Scene) {
    scene.own.speed = 0.0;
}

fn rest_target(scene: &mut Scene) {
    scene.target.speed = 0.0;
}

fn rest_both(scene: &mut Scene) {
    both(scene, rest_own, rest_target);
}

fn alongside(scene: &mut Scene) {
    scene.target.position = scene.own.position;
}

fn opposite(scene: &mut Scene) {
    // No minus zero, for the sake of the round inputs.
    scene.target.position = antipode(scene.own.position).map(|x| x + 0.0);
}

/// A quarter turn apart on the equator, head on: the first round input.
const ROUND: Scene = Scene {
    radius: EARTH,
    own: Ship { position: [1.0, 0.0, 0.0], bearing: PI / 2.0, speed: 10.0 },
    track: [[1.0, 0.0, 0.0], [0.0, 1.0, 0.0]],
    target: Ship { position: [0.0, 1.0, 0.0], bearing: 1.5 * PI, speed: 5.0 },
};

/// Numbers of a walk in the order of the columns.
const NUMBERS: [u8; 5] = [0, FLAT, NOT_ACCEPTED, NOT_ZERO_OR_MORE, TOO_LONG];

pub fn run(count: u64) {
    println!("seed {SEED:016x}, {count} chases for each row");
    WALKS.iter().for_each(|kind| print(kind, count));
    print_at_rest(count);
    println!("\nThe first of some round inputs with each number, as `probe` reads it, its answer:");
    for situation in &SITUATIONS {
        println!("\n{}", situation.name);
        WALKS.iter().for_each(|kind| show(situation, kind));
    }
}

/// A line for each number that some round input has.
fn show(situation: &Situation, kind: &Kind) {
    for number in NUMBERS {
        let rounds = smallest::degrees().map(|(_, scene)| scene);
        let mut scenes = [ROUND].into_iter().chain(rounds).map(|scene| changed(situation, scene));
        if let Some(scene) = scenes.find(|scene| (kind.now)(scene).number == number) {
            println!("{}\n{}", call(kind, &scene), Answer::from((kind.now)(&scene)));
        }
    }
}

fn changed(situation: &Situation, mut scene: Scene) -> Scene {
    (situation.change)(&mut scene);
    scene
}

fn each(situation: &Situation, count: u64, mut meet: impl FnMut(&Scene)) {
    let mut random = Random::new(STREAM + 1);
    (0..count).for_each(|_| meet(&changed(situation, scenes::chase(&mut random))));
}

/// One walk in all situations: shares in percent, the steps begun.
fn print(kind: &Kind, count: u64) {
    println!("\n`{}`\n", kind.name);
    println!("| situation | found | 12 | 13 | 14 | 15 | 13: closed | counts |");
    println!("|---|---:|---:|---:|---:|---:|---:|---:|");
    for situation in &SITUATIONS {
        let (mut numbers, mut closed, mut counts) = ([0; NUMBERS.len()], 0, [u8::MAX, 0]);
        each(situation, count, |scene| {
            let walk = (kind.now)(scene);
            let is_closed = end(kind, &Pursuit::of(scene), None, walk) == End::Closed;
            numbers.iter_mut().zip(NUMBERS).for_each(|(met, number)| {
                *met += u64::from(walk.number == number);
            });
            closed += u64::from(is_closed);
            counts = [counts[0].min(walk.count), counts[1].max(walk.count)];
        });
        let cells: Vec<String> =
            numbers.iter().chain([&closed]).map(|met| share(*met, count)).collect();
        println!("| {} | {} | {} to {} |", situation.name, cells.join(" | "), counts[0], counts[1]);
    }
}

/// A target at rest is met after its distance over the own speed.
fn print_at_rest(count: u64) {
    let (mut times, mut greatest) = (0, 0f64);
    let at_rest = SITUATIONS.iter().find(|situation| situation.name == "target at rest");
    let at_rest = at_rest.expect("a target at rest");
    each(at_rest, count, |scene| {
        let walk = (WALKS[1].now)(scene);
        let apart = scene.radius * angle(scene.own.position, scene.target.position);
        if walk.number == 0 {
            times += 1;
            greatest = greatest.max((found(walk) - apart / scene.own.speed).abs());
        }
    });
    let name = WALKS[1].name;
    println!(
        "\n`{name}` of a target at rest, less distance over own speed: {} s at most, {times} times",
        seconds(greatest)
    );
}
