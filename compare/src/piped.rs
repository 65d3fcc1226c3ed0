//! Holds ported functions to the original's, one function after another, through `probe`.

use crate::function::Function;
use crate::inputs::random::SEED;
use crate::lines::{self, Share};
use crate::original;
use crate::stream::{self, Tally};
use std::io;
use std::ops::RangeInclusive;

const REACH: u32 = 4;
/// The walks meet twice as many inputs as the rest of the sphere.
const WALKS: RangeInclusive<u8> = 0x76..=0x78;
const SPHERE: RangeInclusive<u8> = 0x70..=0x7a;
/// Answers that begin with a kind: an outcome's number.
const OUTCOMES: [u8; 7] = [0x76, 0x77, 0x78, 0x79, 0x88, 0x89, 0x8d];

/// Whether nothing differs on so many drawn inputs for each function of modules 1 to 6.
pub fn jord(drawn: u64) -> io::Result<bool> {
    compare(original::FUNCTIONS, drawn)
}

/// Whether nothing differs on so many drawn inputs for each walk, and half as many for the rest.
pub fn sphere(drawn: u64) -> io::Result<bool> {
    compare(original::SPHERE, drawn)
}

/// Whether nothing differs on so many drawn inputs for each function of module 9.
pub fn nine(drawn: u64) -> io::Result<bool> {
    compare(original::NINE, drawn)
}

fn compare(functions: &[Function], drawn: u64) -> io::Result<bool> {
    println!("seed {SEED:016x}");
    println!("{:<4}{:<34}{:>12}{:>12}", "", "function", "inputs", "differences");
    let mut equal = true;
    for function in functions {
        let (number, name) = (function.number, function.name);
        let tally = compared(function, drawn)?;
        println!("{number:02x}  {name:<34}{:>12}{:>12}", tally.lines, tally.differences);
        if OUTCOMES.contains(&number) {
            tally.print_kinds();
        }
        tally.print_first();
        equal &= tally.is_clean();
    }
    Ok(equal)
}

/// One function on what its command draws for it if handed that number.
pub fn compared(function: &Function, drawn: u64) -> io::Result<Tally> {
    let number = function.number;
    let halved = SPHERE.contains(&number) && !WALKS.contains(&number);
    let share = Share { reach: REACH, drawn: if halved { drawn / 2 } else { drawn } };
    stream::run(|feed| lines::each_call(function, share, |line| feed.add(line)))
}
