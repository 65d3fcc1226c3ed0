//! Runs the program `probe` on every function and on malformed lines.

use crate::inputs::random::SEED;
use crate::lines::{self, Share};
use crate::stream;
use std::io;

const REACH: u32 = 4;

/// Whether every line is the reference's.
pub fn compare(drawn: u64) -> io::Result<bool> {
    let share = Share { reach: REACH, drawn };
    let tally = stream::run(|feed| lines::each(share, share, |line| feed.add(line)))?;
    println!("seed {SEED:016x}");
    println!("probe: {} lines, {} differences", tally.lines, tally.differences);
    tally.print_first();
    Ok(tally.is_clean())
}
