//! Plays scripts on the program `plot` and holds its replies to those that are owed.

use super::script::Script;
use crate::inputs::random::Random;
use std::ffi::OsString;
use std::io::{self, Read, Write};
use std::process::{Child, ChildStdin, ChildStdout, Command, Stdio};
use std::sync::mpsc::{self, Receiver, Sender};
use std::time::Duration;
use std::{env, fs, thread};

/// The program, unless `PLOT` names another.
const PROGRAM: &str = concat!(env!("CARGO_MANIFEST_DIR"), "/../crates/plot/out/plot");
/// The lines of a run whose replies differ are kept here.
const DIFFERING: &str = concat!(env!("OUT_DIR"), "/differing");
const SHOWN: u64 = 5;
/// How long a reply that is owed may take.
const PATIENCE: Duration = Duration::from_secs(20);
/// Pieces of a cut input: their greatest length, how many come before a pause, its length.
const LONGEST_PIECE: u32 = 12;
const BETWEEN_PAUSES: u64 = 8;
const PAUSE: Duration = Duration::from_micros(200);

pub fn program() -> OsString {
    env::var_os("PLOT").unwrap_or_else(|| PROGRAM.into())
}

/// What all runs of a command met.
#[derive(Default)]
pub struct Tally {
    pub runs: u64,
    pub lines: u64,
    pub pieces: u64,
    pub differences: u64,
}

impl Tally {
    /// Writes the input in one go; gives the replies.
    pub fn whole(&mut self, script: &Script) -> io::Result<Vec<u8>> {
        self.pieces += 1;
        self.run(script, |stdin| stdin.write_all(&script.lines))
    }

    /// Writes it in pieces of any length, with pauses.
    pub fn cut(&mut self, script: &Script, r: &mut Random) -> io::Result<Vec<u8>> {
        let pieces = pieces(&script.lines, || r.width(LONGEST_PIECE) as usize + 1);
        self.pieces += pieces.len() as u64;
        self.run(script, |stdin| {
            for (place, piece) in pieces.iter().enumerate() {
                stdin.write_all(piece)?;
                if (place as u64).is_multiple_of(BETWEEN_PAUSES) {
                    thread::sleep(PAUSE);
                }
            }
            Ok(())
        })
    }

    fn run(
        &mut self,
        script: &Script,
        write: impl FnOnce(&mut ChildStdin) -> io::Result<()> + Send,
    ) -> io::Result<Vec<u8>> {
        let (mut child, mut stdin, mut stdout) = started()?;
        let mut replies = Vec::with_capacity(script.replies.len());
        thread::scope(|scope| {
            // A program that stops reading is seen by the replies that it owes.
            scope.spawn(move || write(&mut stdin));
            stdout.read_to_end(&mut replies)
        })?;
        self.compare(script, &replies, child.wait()?.success())?;
        Ok(replies)
    }

    /// Writes pieces of the lengths drawn, each once all that is owed to those before has come.
    pub fn in_step(&mut self, script: &Script, length: impl FnMut() -> usize) -> io::Result<()> {
        let (mut child, mut stdin, stdout) = started()?;
        let (sender, heard) = mpsc::channel();
        let replies = thread::scope(|scope| {
            scope.spawn(move || drain(stdout, sender));
            let (mut sent, mut replies) = (0, Vec::new());
            for piece in pieces(&script.lines, length) {
                self.pieces += 1;
                sent += piece.len();
                let _ = stdin.write_all(piece);
                if !hear(&heard, &mut replies, script.owed(sent)) {
                    self.differ(|| format!("  plot waits after {sent} bytes, a reply is owed"));
                    break;
                }
            }
            drop(stdin);
            hear(&heard, &mut replies, usize::MAX);
            replies
        });
        self.compare(script, &replies, child.wait()?.success())
    }

    fn compare(&mut self, script: &Script, replies: &[u8], ended_well: bool) -> io::Result<()> {
        self.runs += 1;
        self.lines += script.count() as u64;
        if replies == script.replies && ended_well {
            return Ok(());
        }
        let before = self.differences;
        if !ended_well {
            self.differ(|| "  plot ended with a status other than 0".into());
        }
        let mut written = replies.split_inclusive(|byte| *byte == b'\n');
        for place in 0..script.count() {
            let (line, owed) = script.line(place);
            let reply = written.next().unwrap_or(b"nothing");
            if reply != owed {
                let [line, reply, owed] = [line, reply, owed].map(|text| text.escape_ascii());
                self.differ(|| format!("  line {}: {line}: plot {reply}, Rust {owed}", place + 1));
            }
        }
        written.for_each(|reply| {
            self.differ(|| format!("  after the last line: plot {}", reply.escape_ascii()));
        });
        let file = format!("{DIFFERING}-{before}");
        println!("  the lines are in {file}");
        fs::write(file, &script.lines)
    }

    fn differ(&mut self, text: impl Fn() -> String) {
        self.differences += 1;
        if self.differences <= SHOWN {
            println!("{}", text());
        }
    }
}

fn started() -> io::Result<(Child, ChildStdin, ChildStdout)> {
    let mut child = Command::new(program()).stdin(Stdio::piped()).stdout(Stdio::piped()).spawn()?;
    let stdin = child.stdin.take().expect("stdin is a pipe");
    let stdout = child.stdout.take().expect("stdout is a pipe");
    Ok((child, stdin, stdout))
}

/// Cuts a text into pieces of the lengths drawn.
fn pieces(mut text: &[u8], mut length: impl FnMut() -> usize) -> Vec<&[u8]> {
    let mut pieces = Vec::new();
    while !text.is_empty() {
        let (piece, rest) = text.split_at(length().min(text.len()));
        pieces.push(piece);
        text = rest;
    }
    pieces
}

/// Passes on what is written until the end, or until reading fails.
fn drain(mut stdout: ChildStdout, heard: Sender<Vec<u8>>) {
    let mut piece = vec![0; 1 << 16];
    while let Ok(length @ 1..) = stdout.read(&mut piece) {
        let _ = heard.send(piece[..length].to_vec());
    }
}

/// Waits for so many bytes; whether they came before the end, and in time.
fn hear(heard: &Receiver<Vec<u8>>, replies: &mut Vec<u8>, length: usize) -> bool {
    while replies.len() < length {
        match heard.recv_timeout(PATIENCE) {
            Ok(piece) => replies.extend(piece),
            Err(_) => return false,
        }
    }
    true
}
