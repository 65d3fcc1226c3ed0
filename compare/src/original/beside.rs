//! Times two programs on the same file of lines: one of ours, and this one in its place.

use std::ffi::OsStr;
use std::fs::{self, File};
use std::process::{self, Command};
use std::time::Instant;
use std::{env, io};

/// In the build's own folder.
const FOLDER: &str = env!("OUT_DIR");

/// A file of lines, and what both programs made of it so far.
pub struct Timed {
    file: String,
    pub lines: u64,
    /// The best milliseconds here and in Rust.
    pub best: [f64; 2],
    /// Answers that differ, in the worst round.
    pub differences: u64,
}

impl Timed {
    /// Writes the lines into a file of that name and this process's own.
    pub fn new(name: &str, text: &[u8]) -> io::Result<Self> {
        let file = format!("{FOLDER}/{name}-{}", process::id());
        fs::write(&file, text)?;
        let lines = text.iter().filter(|byte| **byte == b'\n').count() as u64;
        Ok(Timed { file, lines, best: [f64::INFINITY; 2], differences: 0 })
    }

    /// Runs the program, then this one with a word that makes it answer the same lines.
    pub fn round(&mut self, program: &OsStr, word: &str) -> io::Result<()> {
        let (here, answers) = self.once(program, &[])?;
        let (rust, owed) = self.once(env::current_exe()?.as_os_str(), &[word])?;
        self.best = lesser(self.best, [here, rust]);
        self.differences = self.differences.max(differing(&answers, &owed));
        Ok(())
    }

    pub fn ratio(&self) -> f64 {
        self.best[0] / self.best[1]
    }

    /// Milliseconds from the start of a program to its end, from a file into a file; the answers.
    fn once(&self, program: &OsStr, words: &[&str]) -> io::Result<(f64, Vec<u8>)> {
        let answers = format!("{}-answers", self.file);
        let (stdin, stdout) = (File::open(&self.file)?, File::create(&answers)?);
        let start = Instant::now();
        let status = Command::new(program).args(words).stdin(stdin).stdout(stdout).status()?;
        let time = milliseconds(start);
        let written = fs::read(&answers)?;
        fs::remove_file(&answers)?;
        let failed = || io::Error::other(format!("{status}"));
        status.success().then_some((time, written)).ok_or_else(failed)
    }
}

impl Drop for Timed {
    fn drop(&mut self) {
        // What is left in the build's folder does no harm.
        let _ = fs::remove_file(&self.file);
    }
}

/// How many lines are not the same; one that only one side has is a difference.
fn differing(answers: &[u8], owed: &[u8]) -> u64 {
    if answers == owed {
        return 0;
    }
    let mut answers = answers.split_inclusive(|byte| *byte == b'\n');
    let mut owed = owed.split_inclusive(|byte| *byte == b'\n');
    let mut count = 0;
    loop {
        match (answers.next(), owed.next()) {
            (None, None) => return count,
            (answer, owed) => count += (answer != owed) as u64,
        }
    }
}

pub fn lesser(a: [f64; 2], b: [f64; 2]) -> [f64; 2] {
    [a[0].min(b[0]), a[1].min(b[1])]
}

pub fn milliseconds(start: Instant) -> f64 {
    start.elapsed().as_secs_f64() * 1e3
}
