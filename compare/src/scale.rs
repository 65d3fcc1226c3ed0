//! Runs every function and its reference on many inputs and counts the differences.

use crate::function::Linked;
use crate::functions::{CHECKS, FUNCTIONS};
use crate::inputs::random::SEED;
use crate::{distance, lines};
use std::thread;

const THREADS: u64 = 2;
const REACH: u32 = 4;
const SHOWN: usize = 5;

/// Whether nothing differs on so many drawn inputs for each function.
pub fn run(count: u64) -> bool {
    println!("seed {SEED:016x}");
    println!("{:<28}{:>12}{:>12}", "function", "inputs", "differences");
    let mut equal = true;
    for (functions, note) in [(FUNCTIONS, ""), (CHECKS, " (reference)")] {
        for linked in functions {
            let tally = compared(linked, count);
            let name = format!("{}{note}", linked.function.name);
            println!("{name:<28}{:>12}{:>12}", tally.inputs, tally.differences);
            tally.print_first();
            equal &= tally.differences == 0;
        }
    }
    distance::print(count);
    equal
}

/// What one comparison met.
#[derive(Default)]
pub struct Tally {
    pub inputs: u64,
    pub differences: u64,
    first: Vec<String>,
}

impl Tally {
    fn meet(&mut self, Linked { function, tested }: &Linked, words: &[u64]) {
        self.inputs += 1;
        let (tested, reference) = (tested(words), (function.reference)(words));
        if tested != reference {
            self.differences += 1;
            self.show(|| {
                let call = lines::call(function, words);
                format!("  {call}: tested {tested}, reference {reference}")
            });
        }
    }

    /// Keeps the first few lines that are not the same.
    fn show(&mut self, line: impl Fn() -> String) {
        if self.first.len() < SHOWN {
            let line = line();
            if !self.first.contains(&line) {
                self.first.push(line);
            }
        }
    }

    fn add(mut self, other: Tally) -> Tally {
        self.inputs += other.inputs;
        self.differences += other.differences;
        other.first.iter().for_each(|line| self.show(|| line.clone()));
        self
    }

    pub fn print_first(&self) {
        self.first.iter().for_each(|line| println!("{line}"));
    }
}

/// The boundaries, then the drawn inputs, parted among the threads.
pub fn compared(linked: &Linked, count: u64) -> Tally {
    let mut fixed = Tally::default();
    linked.function.each_fixed(REACH, |words| fixed.meet(linked, words));
    thread::scope(|scope| {
        let parts: Vec<_> = (1..=THREADS)
            .map(|part| scope.spawn(move || drawn(linked, part, count.div_ceil(THREADS))))
            .collect();
        let join = |part: thread::ScopedJoinHandle<Tally>| part.join().expect("no function panics");
        parts.into_iter().map(join).fold(fixed, Tally::add)
    })
}

fn drawn(linked: &Linked, part: u64, count: u64) -> Tally {
    let mut tally = Tally::default();
    let stream = part << 8 | linked.function.number as u64;
    linked.function.each_drawn(stream, count, |words| tally.meet(linked, words));
    tally
}
