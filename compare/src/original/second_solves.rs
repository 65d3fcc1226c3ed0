//! Second solves of the walks to a meeting and to the longest time, in tables.

use super::again::{Method, NUDGE, Second, Tries};
use super::chases::{self, COLUMNS, Ends};
use super::ends::{End, Ended, KINDS, Kind, NAMES, WALKS, row};
use super::smallest::call;
use super::tables::{self, Rows, seconds};
use crate::inputs::scenes::{Scene, angle};
use std::array;

const FASTER_TARGET: Method = Method::Nudges(|scene, by| scene.target.speed += by, 8);
const SPHERES: [f64; 4] = [256.0, 4096.0, 65536.0, 1048576.0];
const IN_TURN: Method = Method::Clocks(&SPHERES);
/// Seconds: eight days are near.
pub const NEAR: f64 = 8.0 * 86_400.0;
const CLOCK: Method = Method::Clocks(&[256.0]);

/// Of walks that swing; what changes the own ship comes last, for the longest time has none.
const SWINGING: [Method; 5] = [
    FASTER_TARGET,
    IN_TURN,
    Method::Nudges(|scene, by| scene.target.speed -= by, 8),
    Method::Nudges(|scene, by| scene.own.speed += by, 8),
    Method::Nudges(|scene, by| scene.own.speed -= by, 8),
];
/// Of other walks that end in 13.
const LOST: [Method; 2] = [FASTER_TARGET, IN_TURN];
/// Of walks that find the first meeting.
const FOUND: [Method; 2] = [Method::Nudges(|scene, by| scene.target.speed += by, 1), CLOCK];
/// Single clocks, the first that of the chase itself.
const CLOCKS: [Method; 9] = [
    Method::Clocks(&[1.0]),
    Method::Clocks(&[16.0]),
    Method::Clocks(&[64.0]),
    CLOCK,
    Method::Clocks(&[1024.0]),
    Method::Clocks(&[4096.0]),
    Method::Clocks(&[16384.0]),
    Method::Clocks(&[65536.0]),
    Method::Clocks(&[1048576.0]),
];

/// Of all walks to a meeting that end in 13.
const EARLY: [Method; 2] = [Method::Early, IN_TURN];

/// Some walks and how they are solved again.
struct Walks {
    methods: &'static [Method],
    rows: Rows<Vec<Tries>>,
}

impl Walks {
    fn new(methods: &'static [Method]) -> Self {
        Walks { methods, rows: array::from_fn(|_| vec![Tries::default(); methods.len()]) }
    }

    /// Solves a chase by each method; what they find.
    fn meet(&mut self, kind: &Kind, scene: &Scene, row: usize, first: f64) -> Vec<Option<Second>> {
        let solved: Vec<_> = self.methods.iter().map(|way| way.solve(kind, scene, first)).collect();
        self.rows[row].iter_mut().zip(&solved).for_each(|(tries, way)| tries.meet(way, first));
        solved
    }

    fn print(&self, title: &str, columns: &str, cells: impl Fn(&[Tries]) -> Vec<String>) {
        let columns: Vec<&str> = columns.split(", ").collect();
        tables::print(title, &columns, &self.rows, |row| {
            [vec![row[0].walks.to_string()], cells(row)].concat()
        });
    }
}

/// What holds of every time that is found with a faster target.
struct Law {
    words: &'static str,
    /// A number that is to be small, for the scene, metres a second, the time and the first one.
    measure: fn(&Scene, f64, f64, f64) -> Option<f64>,
    times: u64,
    greatest: f64,
}

impl Law {
    fn meet(&mut self, scene: &Scene, second: &Second, first: f64) {
        let by = second.solves as f64 * NUDGE;
        if let Some(measured) = (self.measure)(scene, by, second.time, first) {
            self.times += 1;
            self.greatest = self.greatest.max(measured);
        }
    }
}

/// The own ship's speed less the target's bounds how fast the gap closes.
const OWN_FASTER: Law = Law {
    words: "The own ship faster: seconds from the first meeting, beyond nudge times time over the \
            difference of the speeds",
    measure: |scene, by, time, first| {
        let closing = scene.own.speed - scene.target.speed;
        (closing > 0.0).then(|| (time - first).abs() - by * time / closing)
    },
    times: 0,
    greatest: 0.0,
};
/// The longest time is a phase of the target's turn, so it is inverse to the target's speed.
const INVERSE: Law = Law {
    words: "The time found, times the changed speed over the speed: seconds from the first",
    measure: |scene, by, time, first| {
        Some((time * ((scene.target.speed + by) / scene.target.speed) - first).abs())
    },
    times: 0,
    greatest: 0.0,
};

/// The second solves of one kind of walk.
pub struct SecondSolves {
    pub kind: &'static Kind,
    swinging: Walks,
    clocks: Walks,
    lost: Walks,
    found: Walks,
    all: Walks,
    law: Law,
    /// Inputs of walks that swing near a meeting, by how many spheres they need; last, more.
    needing: [Option<String>; SPHERES.len() + 1],
    /// Chases whose own ship is faster, by how long the meeting can take at most.
    latest: Rows<Ends>,
    late: Walks,
    /// Those that end in 13, by the clocks that begin no later than the two can meet.
    early: Walks,
}

impl SecondSolves {
    /// Of the walk to a meeting and of that to the longest time.
    pub fn both() -> [Self; 2] {
        let new = |kind, swinging, law| SecondSolves {
            kind,
            swinging: Walks::new(swinging),
            clocks: Walks::new(&CLOCKS),
            lost: Walks::new(&LOST),
            found: Walks::new(&FOUND),
            all: Walks::new(&CLOCKS),
            law,
            needing: [const { None }; SPHERES.len() + 1],
            latest: [[0; KINDS]; NAMES.len()],
            late: Walks::new(&LOST),
            early: Walks::new(&EARLY),
        };
        let [_, intercept, longest] = &WALKS;
        [new(intercept, &SWINGING, OWN_FASTER), new(longest, &SWINGING[..3], INVERSE)]
    }

    pub fn is_of(&self, kind: &Kind) -> bool {
        self.kind.number == kind.number
    }

    pub fn meet(&mut self, scene: &Scene, ended: &Ended) {
        let Some(first) = ended.first else { return };
        let (kind, row) = (self.kind, row(ended.first));
        self.all.meet(kind, scene, row, first);
        match ended.now {
            End::Closed => {
                let solved = self.swinging.meet(kind, scene, row, first);
                self.meet_swinging(scene, first, &solved);
                self.clocks.meet(kind, scene, row, first);
            }
            End::Closing | End::Astray => drop(self.lost.meet(kind, scene, row, first)),
            End::First => drop(self.found.meet(kind, scene, row, first)),
            _ => (),
        }
        if ended.now.is_thirteen() {
            self.early.meet(kind, scene, row, first);
        }
        self.meet_latest(scene, ended.now, first);
    }

    /// Holds the nudges to their law, and keeps an input for each number of spheres needed.
    fn meet_swinging(&mut self, scene: &Scene, first: f64, solved: &[Option<Second>]) {
        let [nudged, in_turn, ..] = solved else { return };
        let rights = nudged.iter().filter(|second| second.is_first);
        rights.for_each(|second| self.law.meet(scene, second, first));
        let spheres = in_turn.as_ref().map_or(SPHERES.len() + 1, |second| second.solves);
        if first < NEAR && self.needing[spheres - 1].is_none() {
            self.needing[spheres - 1] = Some(call(self.kind, scene));
        }
    }

    /// The gap closes at least by the difference of the speeds.
    fn meet_latest(&mut self, scene: &Scene, end: End, first: f64) {
        let closing = scene.own.speed - scene.target.speed;
        if closing > 0.0 {
            let apart = scene.radius * angle(scene.own.position, scene.target.position);
            let row = row(Some(apart / closing));
            self.latest[row][end as usize] += 1;
            if end.is_thirteen() {
                self.late.meet(self.kind, scene, row, first);
            }
        }
    }

    pub fn print(&self) {
        self.print_swinging();
        self.print_clocks();
        self.print_others();
        if self.is_of_meeting() {
            self.print_latest();
            self.print_early();
        }
    }

    /// The walk to a meeting alone begins at a tenth of a second of whatever clock.
    pub fn is_of_meeting(&self) -> bool {
        self.swinging.methods.len() == SWINGING.len()
    }

    pub fn print_early(&self) {
        let name = self.kind.name;
        self.early.print(
            &format!("`{name}`, 13: the radius over the largest power of two in time, then halves"),
            "to the meeting, walks, 1, 2, 3, 4, 8, first, over 0.4 s, over 1 s, over 60 s, \
             greatest s, 256, 4096, 65536, 1048576, first, over 0.4 s, over 1 s, over 60 s, \
             greatest s",
            |row| {
                let within = [1, 2, 3, 4, 8].map(|solves| row[0].within(solves));
                let early = [within.to_vec(), vec![row[0].first()], row[0].apart()].concat();
                [early, in_turn(&row[1])].concat()
            },
        );
    }

    fn print_swinging(&self) {
        let name = self.kind.name;
        self.swinging.print(
            &format!("`{name}`, 13 that swings: the target 1e-6 m/s faster, and again"),
            "to the meeting, walks, 1, 2, 3, 4, 6, 8, first, over 0.4 s, over 1 s, over 60 s, \
             greatest s",
            |row| {
                let within = [1, 2, 3, 4, 6, 8].map(|solves| row[0].within(solves));
                [within.to_vec(), vec![row[0].first()], row[0].apart()].concat()
            },
        );
        let Law { words, times, greatest, .. } = &self.law;
        println!("\n{words}: {} at most, {times} times", seconds(*greatest));
        self.swinging.print(
            &format!("`{name}`, 13 that swings: found after one nudge and after eight"),
            match self.swinging.methods.len() {
                3 => "to the meeting, walks, target faster, 8, target slower, 8",
                _ => {
                    "to the meeting, walks, target faster, 8, target slower, 8, own faster, 8, own \
                     slower, 8"
                }
            },
            |row| {
                let ways = [&row[..1], &row[2..]].concat();
                ways.iter().flat_map(|way| [1, 8].map(|solves| way.within(solves))).collect()
            },
        );
    }

    pub fn print_in_turn(&self) {
        let name = self.kind.name;
        self.swinging.print(
            &format!("`{name}`, 13 that swings: the radius over these in turn"),
            "to the meeting, walks, 256, 4096, 65536, 1048576, first, over 0.4 s, over 1 s, over \
             60 s, greatest s",
            |row| in_turn(&row[1]),
        );
    }

    fn print_clocks(&self) {
        let name = self.kind.name;
        self.print_in_turn();
        for (spheres, input) in (1..).zip(&self.needing) {
            if let Some(input) = input {
                println!("\nThe first that needs {spheres}, within eight days:\n{input}");
            }
        }
        let clocks = "16, 64, 256, 1024, 4096, 16384, 65536, 1048576";
        self.clocks.print(
            &format!("`{name}`, 13 that swings: found and the first, the radius over"),
            &format!("to the meeting, walks, {clocks}"),
            |row| row[1..].iter().map(Tries::right).collect(),
        );
        self.all.print(
            &format!("`{name}`, all chases: found and the first, the radius over"),
            &format!("to the meeting, chases, 1, {clocks}"),
            |row| row.iter().map(Tries::right).collect(),
        );
    }

    fn print_others(&self) {
        let name = self.kind.name;
        self.found.print(
            &format!("`{name}`, found and the first: one nudge, then the radius over 256"),
            "to the meeting, walks, not found, first, over 0.4 s, over 1 s, over 60 s, greatest \
             s, 256: not found, first, over 0.4 s, over 1 s, over 60 s, greatest s",
            |row| {
                let cells = |way: &Tries| [vec![way.without(1), way.first()], way.apart()].concat();
                row.iter().flat_map(cells).collect()
            },
        );
        self.lost.print(
            &format!("`{name}`, 13 that does not swing: nudges, then the radius over these"),
            LOST_COLUMNS,
            lost,
        );
    }

    fn print_latest(&self) {
        let name = self.kind.name;
        let columns = [&["at the latest", "chases"][..], &COLUMNS.map(|(name, _)| name)].concat();
        let title = format!("`{name}`, the own ship faster, by distance over difference of speeds");
        tables::print(&title, &columns, &self.latest, chases::cells);
        let title = format!("`{name}`, 13 of these: nudges, then the radius over these in turn");
        self.late.print(&title, &LOST_COLUMNS.replacen("to the meeting", "at the latest", 1), lost);
    }
}

const LOST_COLUMNS: &str = "to the meeting, walks, 1, 2, 4, 8, first, 256, 4096, 65536, 1048576, \
                            first, over 0.4 s, over 1 s, over 60 s, greatest s";

fn lost(row: &[Tries]) -> Vec<String> {
    let within = [1, 2, 4, 8].map(|solves| row[0].within(solves));
    [within.to_vec(), vec![row[0].first()], in_turn(&row[1])].concat()
}

fn in_turn(clocks: &Tries) -> Vec<String> {
    let within = [1, 2, 3, 4].map(|solves| clocks.within(solves));
    [within.to_vec(), vec![clocks.first()], clocks.apart()].concat()
}
