//! Times `plot` and the same in Rust on the same lines.

use super::beside::Timed;
use super::playing;
use crate::inputs::frames::{Ends, Frame, MEAN, State, TOTAL};
use crate::inputs::random::{Random, SEED};
use crate::inputs::scenes::{self, EARTH, Scene};
use std::io;

const ROUNDS: usize = 7;
/// A stream that no comparison draws from.
const STREAM: u64 = 1 << 19;
const HELD: usize = 64;

/// What is timed: a name, how many lines, and the line in a place of the file.
/// Ahead of them stand a fresh board, own ship, track and a report of each target.
pub type Case = (&'static str, usize, fn(&Fleet, usize, &mut Vec<u8>));

pub const CASES: &[Case] = &[
    ("reports, 64 identities", 1_000_000, |fleet, place, text| {
        Frame::report(identity(place), fleet.report(place)).write(text);
    }),
    ("reports, one identity", 1_000_000, |fleet, place, text| {
        Frame::report(identity(0), fleet.report(place)).write(text);
    }),
    ("solves, 64 targets", 20_000, |_, place, text| Frame::solve(identity(place)).write(text)),
    ("own ship, 64 targets", 200_000, |fleet, place, text| {
        Frame::own_ship(fleet.report(place)).write(text);
    }),
    ("means, 64 targets", 20_000, |_, _, text| Frame::asking(MEAN).write(text)),
    ("totals", 1_000_000, |_, _, text| Frame::asking(TOTAL).write(text)),
    ("reports with one bad digit", 1_000_000, |fleet, place, text| {
        Frame::report(identity(place), fleet.report(place)).write(text);
        let last = text.len() - 1;
        text[last - place % 86] = b'g';
    }),
    ("empty lines", 1_000_000, |_, _, _| ()),
    ("withdraw, report in turns", 1_000_000, |fleet, place, text| {
        let (identity, turn) = (identity(place / 2), place % 2);
        match turn {
            0 => Frame::withdraw(identity).write(text),
            _ => Frame::report(identity, fleet.report(place)).write(text),
        }
    }),
    ("starting the program", 0, |_, _, _| ()),
];

/// A scene for each target; reports take turns through all.
pub struct Fleet(Vec<Scene>);

impl Fleet {
    fn report(&self, place: usize) -> State {
        state(&self.0[place % self.0.len()].target)
    }

    fn begin(&self, text: &mut Vec<u8>) {
        write(text, &[Frame::fresh(EARTH.to_bits())]);
        write(text, &setting(&self.0[0]));
        (0..HELD).for_each(|place| {
            write(text, &[Frame::report(identity(place), self.report(place))]);
        });
    }
}

/// The frames that solve each scene: a fresh board, and for each own ship, track, report and solve.
pub fn solves(scenes: &[Scene]) -> Vec<u8> {
    let mut text = Vec::new();
    write(&mut text, &[Frame::fresh(EARTH.to_bits())]);
    for scene in scenes {
        write(&mut text, &setting(scene));
        let target = identity(0);
        write(&mut text, &[Frame::report(target, state(&scene.target)), Frame::solve(target)]);
    }
    text
}

/// Own ship and track of a scene.
fn setting(Scene { own, track, .. }: &Scene) -> [Frame; 2] {
    let mut ends: Ends = [0; 6];
    ends.iter_mut().zip(track.as_flattened()).for_each(|(word, x)| *word = x.to_bits());
    [Frame::own_ship(state(own)), Frame::track(ends)]
}

fn write(text: &mut Vec<u8>, frames: &[Frame]) {
    for frame in frames {
        frame.write(text);
        text.push(b'\n');
    }
}

fn state(ship: &scenes::Ship) -> State {
    let [x, y, z] = ship.position;
    [x, y, z, ship.bearing, ship.speed].map(f64::to_bits)
}

/// Identities that do not come in their order.
fn identity(place: usize) -> u16 {
    (place % HELD) as u16 * 40_503 % 65_521 + 1
}

/// Whether both programs answer alike.
pub fn run() -> io::Result<bool> {
    let timed = timed()?;
    print(&timed);
    let equal = timed.iter().all(|case| case.differences == 0);
    println!("\nreplies {}", if equal { "equal" } else { "differ" });
    Ok(equal)
}

/// Both programs on all cases. Rounds go through all: a busy spell spoils none.
pub fn timed() -> io::Result<Vec<Timed>> {
    let mut random = Random::new(STREAM);
    // One own ship, so that most targets are met as at sea; a prime number of reports.
    let fleet = Fleet((0..1009).map(|_| scenes::chase(&mut random)).collect());
    let mut timed = Vec::new();
    for (place, case) in CASES.iter().enumerate() {
        timed.push(Timed::new(&format!("frames-{place}"), &text(case, &fleet))?);
    }
    for _ in 0..ROUNDS {
        timed.iter_mut().try_for_each(|case| case.round(&playing::program(), "plot"))?;
    }
    Ok(timed)
}

/// The lines of a case.
fn text((_, count, line): &Case, fleet: &Fleet) -> Vec<u8> {
    let mut text = Vec::new();
    if *count > 0 {
        fleet.begin(&mut text);
    }
    for place in 0..*count {
        line(fleet, place, &mut text);
        text.push(b'\n');
    }
    text
}

fn print(timed: &[Timed]) {
    println!("seed {SEED:016x}, best of {ROUNDS} rounds\n");
    println!("| lines | count | here, ms | Rust, ms | ratio | here, µs a line | Rust, µs a line |");
    println!("|---|---:|---:|---:|---:|---:|---:|");
    for ((name, count, _), case) in CASES.iter().zip(timed) {
        let [here, rust] = case.best;
        let each = |time: f64| match count {
            0 => "-".into(),
            _ => format!("{:.3}", time * 1e3 / *count as f64),
        };
        let (ratio, ours, theirs) = (case.ratio(), each(here), each(rust));
        println!("| {name} | {count} | {here:.1} | {rust:.1} | {ratio:.2} | {ours} | {theirs} |");
    }
}
