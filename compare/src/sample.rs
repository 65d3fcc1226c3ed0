//! Writes the stored sample: lines for `probe` and the reference's answers to them.

use crate::inputs::random::SEED;
use crate::lines::{self, Script, Share};
use std::{fs, io};

const FLOATS: Share = Share { reach: 1, drawn: 96 };
const ORIGINAL: Share = Share { reach: 0, drawn: 20 };

pub fn write(stdin: &str, stdout: &str) -> io::Result<()> {
    let mut script = Script::default();
    lines::each(FLOATS, ORIGINAL, |line| script.add(line));
    fs::write(stdin, &script.lines)?;
    fs::write(stdout, &script.answers)?;
    println!("seed {SEED:016x}, {} lines", script.count);
    Ok(())
}
