//! Runs the program `probe` on a stream of lines and holds each answer to the one it owes.

use crate::lines::{Line, Script};
use std::collections::BTreeMap;
use std::ffi::OsString;
use std::io::{self, BufRead, BufReader, Cursor, Read, Write};
use std::process::{ChildStdin, ChildStdout, Command, Stdio};
use std::sync::Arc;
use std::sync::mpsc::{self, Receiver, Sender};
use std::{env, mem, thread};

/// The program, unless `PROBE` names another.
const PROGRAM: &str = concat!(env!("CARGO_MANIFEST_DIR"), "/../crates/probe/out/probe");
const SHOWN: usize = 5;
/// Bytes that are handed over at once.
const BATCH: usize = 1 << 16;

pub fn program() -> OsString {
    env::var_os("PROBE").unwrap_or_else(|| PROGRAM.into())
}

/// Where lines go: to the program, and with their answers to whoever reads what it writes.
pub struct Feed {
    batch: Script,
    stdin: ChildStdin,
    owed: Sender<Arc<Script>>,
}

impl Feed {
    pub fn add(&mut self, line: Line) {
        self.batch.add(line);
        if self.batch.lines.len() >= BATCH {
            self.pass_on();
        }
    }

    fn pass_on(&mut self) {
        let batch = Arc::new(mem::take(&mut self.batch));
        // Whoever reads takes all of it, so the channel stays open.
        let _ = self.owed.send(batch.clone());
        // A program that stops reading is seen by the answers that it owes.
        let _ = self.stdin.write_all(&batch.lines);
    }
}

/// What the program wrote, taken off its pipe by a thread of its own.
struct Written {
    pieces: Receiver<Vec<u8>>,
    piece: Cursor<Vec<u8>>,
}

impl Read for Written {
    fn read(&mut self, into: &mut [u8]) -> io::Result<usize> {
        if self.piece.position() as usize == self.piece.get_ref().len() {
            // No more pieces: the empty one that stands for the end.
            self.piece = Cursor::new(self.pieces.recv().unwrap_or_default());
        }
        self.piece.read(into)
    }
}

/// Passes on what is written until the end, or until reading fails.
fn drain(mut stdout: ChildStdout, pieces: Sender<Vec<u8>>) {
    let mut piece = vec![0; BATCH];
    while let Ok(length @ 1..) = stdout.read(&mut piece) {
        let _ = pieces.send(piece[..length].to_vec());
    }
}

/// What one run met.
#[derive(Default)]
pub struct Tally {
    pub lines: u64,
    pub differences: u64,
    /// How many answers are owed with each first field of two digits.
    pub kinds: BTreeMap<[u8; 2], u64>,
    first: Vec<String>,
    ended_well: bool,
}

impl Tally {
    pub fn is_clean(&self) -> bool {
        self.differences == 0 && self.ended_well
    }

    /// The kinds, where the first field is one.
    pub fn print_kinds(&self) {
        let kinds = self.kinds.iter().map(|(kind, count)| format!("{} {count}", shown(kind)));
        println!("      {}", kinds.collect::<Vec<_>>().join(", "));
    }

    /// The first differences, and a word if the program failed.
    pub fn print_first(&self) {
        self.first.iter().for_each(|line| println!("{line}"));
        if !self.ended_well {
            println!("  probe ended with a status other than 0");
        }
    }

    fn differ(&mut self, text: impl Fn() -> String) {
        self.differences += 1;
        if self.first.len() < SHOWN {
            self.first.push(text());
        }
    }

    fn meet(&mut self, line: &[u8], written: &[u8], answer: &[u8]) {
        self.lines += 1;
        if let [first, second, b' ' | b'\n', ..] = *answer {
            *self.kinds.entry([first, second]).or_default() += 1;
        }
        if written != answer {
            let written = if written.is_empty() { b"nothing" } else { written };
            let [line, written, answer] = [line, written, answer].map(shown);
            self.differ(|| format!("  {line:?}: probe {written:?}, reference {answer:?}"));
        }
    }
}

fn shown(text: &[u8]) -> String {
    String::from_utf8_lossy(text).trim_end_matches('\n').into()
}

/// Runs the program between a thread that feeds it and one that empties its pipe:
/// it never waits, whatever it writes.
pub fn run(fill: impl FnOnce(&mut Feed) + Send) -> io::Result<Tally> {
    let mut child = Command::new(program()).stdin(Stdio::piped()).stdout(Stdio::piped()).spawn()?;
    let stdin = child.stdin.take().expect("stdin is a pipe");
    let stdout = child.stdout.take().expect("stdout is a pipe");
    let (owed, batches) = mpsc::channel();
    let (sender, pieces) = mpsc::channel();
    let mut tally = thread::scope(|scope| {
        scope.spawn(move || {
            let mut feed = Feed { batch: Script::default(), stdin, owed };
            fill(&mut feed);
            feed.pass_on();
        });
        scope.spawn(move || drain(stdout, sender));
        compared(BufReader::new(Written { pieces, piece: Cursor::default() }), batches)
    })?;
    tally.ended_well = child.wait()?.success();
    Ok(tally)
}

/// Reads a line for each that is owed; what comes after the last is a difference.
fn compared(mut stdout: impl BufRead, batches: Receiver<Arc<Script>>) -> io::Result<Tally> {
    let mut tally = Tally::default();
    let mut written = Vec::new();
    for batch in batches {
        let lines = batch.lines.split_inclusive(|byte| *byte == b'\n');
        for (line, answer) in lines.zip(batch.answers.split_inclusive(|byte| *byte == b'\n')) {
            written.clear();
            stdout.read_until(b'\n', &mut written)?;
            tally.meet(line, &written, answer);
        }
    }
    written.clear();
    stdout.read_to_end(&mut written)?;
    for line in written.split_inclusive(|byte| *byte == b'\n') {
        tally.differ(|| format!("  after the last line: probe {:?}", shown(line)));
    }
    Ok(tally)
}
