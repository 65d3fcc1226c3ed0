//! Times many solves: `probe` and a Rust program that reads and writes the same lines.

use super::beside::{Timed, lesser, milliseconds};
use super::{answering, playing, speeds, walks};
use crate::inputs::random::{Random, SEED};
use crate::inputs::scenes::{self, Layout, Scene};
use crate::{lines, stream};
use std::hint::black_box;
use std::io;
use std::time::{Duration, Instant};

const SOLVES: usize = 10_000;
const ROUNDS: usize = 25;
/// A stream that no comparison draws from.
const STREAM: u64 = 1 << 18;

/// What is timed: a name, and for each scene a line for each number.
type Case = (&'static str, &'static [(u8, Layout)]);

const CASES: [Case; 7] = [
    ("solves, 7a", &[(0x7a, scenes::solve)]),
    ("closest approach alone, 76", &[(0x76, scenes::approach)]),
    ("meeting at own speed alone, 77", &[(0x77, scenes::intercept)]),
    ("longest time to meet alone, 78", &[(0x78, scenes::longest)]),
    (
        "distance, bearing, side and offset, a line each",
        &[
            (0x72, |scene| scenes::radius_and(scene, &[scene.own.position, scene.target.position])),
            (0x73, |scene| [scene.own.position, scene.target.position].concat()),
            (0x74, |scene| [scene.target.position, scene.track[0], scene.track[1]].concat()),
            (0x75, |scene| {
                let [start, end] = scene.track;
                scenes::radius_and(scene, &[scene.target.position, start, end])
            }),
        ],
    ),
    ("the solves' numbers as entries of a mean, 79", &[(0x79, scenes::solve)]),
    ("no line: starting the program", &[]),
];

/// Whether both programs answer alike. Rounds go through all cases: a busy spell spoils none.
pub fn run() -> io::Result<bool> {
    let mut random = Random::new(STREAM);
    let chases: Vec<Scene> = (0..SOLVES).map(|_| scenes::chase(&mut random)).collect();
    let inputs: Vec<_> = chases.iter().map(|scene| words(scene, scenes::solve)).collect();
    let mut timed = Vec::new();
    for (place, (_, calls)) in CASES.iter().enumerate() {
        timed.push(Timed::new(&format!("lines-{place}"), text(&chases, calls).as_bytes())?);
    }
    let mut framed = Timed::new("frames-of-lines", &speeds::solves(&chases))?;
    let mut alone = [f64::INFINITY; 2];
    for _ in 0..ROUNDS {
        timed.iter_mut().try_for_each(|case| case.round(&stream::program(), "answer"))?;
        framed.round(&playing::program(), "plot")?;
        alone = lesser(alone, [run_all(&inputs, plain), run_all(&inputs, answering::solved)]);
    }
    print(&timed, &framed, alone);
    let equal = timed.iter().chain([&framed]).all(|case| case.differences == 0);
    println!("\nanswers {}", if equal { "equal" } else { "differ" });
    Ok(equal)
}

fn print(timed: &[Timed], framed: &Timed, [plain, watched]: [f64; 2]) {
    println!("seed {SEED:016x}, {SOLVES} chases, best of {ROUNDS} rounds\n");
    println!("| lines | here, ms | Rust, ms | ratio |\n|---|---:|---:|---:|");
    let row = |name: &str, case: &Timed| {
        let ([here, rust], ratio) = (case.best, case.ratio());
        println!("| {name} | {here:.1} | {rust:.1} | {ratio:.2} |");
    };
    CASES.iter().zip(timed).for_each(|((name, _), case)| row(name, case));
    row("the solves through `plot`: own ship, track, report, solve of each", framed);
    println!("\n| solves in Rust, computation alone | ms |\n|---|---:|");
    println!("| the original | {plain:.1} |\n| its watched copy | {watched:.1} |");
}

/// The lines of a case.
fn text(chases: &[Scene], calls: &[(u8, Layout)]) -> String {
    let text = |scene: &Scene| {
        let line = |(number, layout): &(u8, Layout)| lines::text(*number, &words(scene, *layout));
        calls.iter().map(|call| line(call) + "\n").collect::<String>()
    };
    chases.iter().map(text).collect()
}

fn words(scene: &Scene, layout: Layout) -> Vec<u64> {
    layout(scene).into_iter().map(f64::to_bits).collect()
}

/// Milliseconds of all solves within this program.
fn run_all<A>(inputs: &[Vec<u64>], solve: impl Fn(&[u64]) -> A) -> f64 {
    let start = Instant::now();
    for words in black_box(inputs) {
        black_box(solve(words));
    }
    milliseconds(start)
}

/// No chase of this seed has a time of 2^64 seconds or more, at which the original would trap.
fn plain(words: &[u64]) -> walks::Line<Option<Duration>> {
    let (sphere, own, track, target) = answering::arguments(words);
    walks::line(sphere, own, track, target, || {
        let (from, speed) = (own.position(), own.speed());
        [
            sphere.time_to_cpa(own, target),
            sphere.time_to_intercept(from, speed, target),
            sphere.max_time_to_intercept(from, target),
        ]
    })
}
