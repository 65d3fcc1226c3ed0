//! Realistic chases: how each walk ends, and ended before request 2026-05, by the hours to the
//! meeting; what a second solve says; and the smallest inputs of a few ways to end.

use super::ends::{End, KINDS, NAMES, RULES, WALKS, ended, row};
use super::second_solves::SecondSolves;
use super::smallest;
use super::tables::{self, Counts, Rows};
use crate::inputs::random::{Random, SEED};
use crate::inputs::scenes;

/// A stream that no comparison draws from.
pub const STREAM: u64 = 1 << 17;

/// So many chases for one that is close.
const CLOSE: u64 = 5;

/// The numbers, then what 0 and 13 are made of.
pub const COLUMNS: [(&str, &[End]); 12] = [
    ("found", &[End::First, End::Later, End::Opposite, End::Other]),
    ("12", &[End::Flat]),
    ("13", &[End::Closed, End::Closing, End::Astray]),
    ("14", &[End::Negative]),
    ("15", &[End::Long]),
    ("found: first", &[End::First]),
    ("found: later", &[End::Later]),
    ("found: opposite", &[End::Opposite]),
    ("found: other", &[End::Other]),
    ("13: closed", &[End::Closed]),
    ("13: closing", &[End::Closing]),
    ("13: astray", &[End::Astray]),
];

/// How often each end.
pub type Ends = [u64; KINDS];

impl Counts for Ends {
    fn add(&mut self, other: &Self) {
        self.iter_mut().zip(other).for_each(|(sum, count)| *sum += count);
    }

    fn is_empty(&self) -> bool {
        self.iter().all(|count| *count == 0)
    }
}

pub fn run(count: u64) {
    println!("seed {SEED:016x}, {count} chases");
    let mut tables = [[[[0; KINDS]; NAMES.len()]; RULES.len()]; WALKS.len()];
    let mut second = SecondSolves::both();
    let mut random = Random::new(STREAM);
    for _ in 0..count {
        let scene = scenes::chase(&mut random);
        for (kind, [before, now]) in WALKS.iter().zip(&mut tables) {
            let ended = ended(kind, &scene);
            let row = row(ended.first);
            before[row][ended.before as usize] += 1;
            now[row][ended.now as usize] += 1;
            let of_kind = second.iter_mut().filter(|second| second.is_of(kind));
            of_kind.for_each(|second| second.meet(&scene, &ended));
        }
    }
    for (kind, tables) in WALKS.iter().zip(&tables) {
        RULES.iter().zip(tables).for_each(|(rule, table)| print(kind.name, rule, table));
    }
    second.iter().for_each(SecondSolves::print);
    close(count / CLOSE);
    smallest::show_all();
}

/// The same of chases at 10 m to 1 km, in which a smaller sphere's clock may begin after the meeting.
fn close(count: u64) {
    println!("\n{count} chases, 10 m to 1 km apart");
    let mut second = SecondSolves::both();
    let mut table = [[0; KINDS]; NAMES.len()];
    let mut random = Random::new(STREAM + 1);
    for _ in 0..count {
        let scene = scenes::close(&mut random);
        for second in &mut second {
            let ended = ended(second.kind, &scene);
            if second.is_of_meeting() {
                table[row(ended.first)][ended.now as usize] += 1;
            }
            second.meet(&scene, &ended);
        }
    }
    print(second[0].kind.name, "now", &table);
    second[0].print_early();
    second[1].print_in_turn();
}

/// Shares of a row in percent.
fn print(name: &str, rule: &str, table: &Rows<Ends>) {
    let columns = [&["to the meeting", "chases"][..], &COLUMNS.map(|(name, _)| name)].concat();
    tables::print(&format!("`{name}`, {rule}"), &columns, table, cells);
}

/// How many, and the share of each column.
pub fn cells(counts: &Ends) -> Vec<String> {
    let chases: u64 = counts.iter().sum();
    let share = |(_, ends): &(_, &[End])| {
        tables::share(ends.iter().map(|end| counts[*end as usize]).sum(), chases)
    };
    [chases.to_string()].into_iter().chain(COLUMNS.iter().map(share)).collect()
}
