//! Writes the stored run of `plot`: lines, and the replies of the same in Rust to them.

use super::met::Met;
use super::script::Script;
use crate::inputs::calls::Calls;
use crate::inputs::frames::{Frame, TOTAL};
use crate::inputs::malformed::{self, SORTS};
use crate::inputs::random::{Random, SEED};
use crate::inputs::{full_boards, questions, scenes::EARTH};
use std::{fs, io};

/// Document 01's worked example, its lines byte for byte.
const WORKED: &str = "\
003ff0000000000000
0100073ff00000000000000000000000000000000000000000000000000000000000000000000000000000
020008
06
08
";
/// A stream that nothing else draws from.
const STREAM: u64 = 1 << 22;
/// Identities of the drawn calls, more than a board holds, and how many calls.
const NAMES: usize = 80;
const DRAWN: usize = 2_500;
/// Numbers of digits about the longest frame.
const LENGTHS: [usize; 6] = [0, 1, 97, 99, 100, 101];

/// Digits of a line longer than a usual buffer.
const VERY_LONG: usize = 70_000;
/// A frame of more digits is spoilt in each place.
const LONG: usize = 80;

/// Lines before any board, the worked example, the questions, lines that are no frames, drawn
/// calls, and a last line without its end.
pub fn write(stdin: &str, stdout: &str) -> io::Result<()> {
    let mut r = Random::new(STREAM);
    let mut script = Script::new();
    before(&mut script);
    for line in WORKED.lines() {
        script.add(line.as_bytes());
    }
    script.add_frames(&questions::frames());
    script.add_frames(&full_boards::frames());
    no_frames(&mut r, &mut script);
    drawn(&mut r, &mut script);
    script.add_frame(&Frame::asking(TOTAL));
    script.leave_open();
    fs::write(stdin, &script.lines)?;
    fs::write(stdout, &script.replies)?;
    let mut met = Met::default();
    met.add(&script.replies);
    let (lines, bytes, ties) = (script.count(), script.lines.len(), script.ties);
    println!("seed {SEED:016x}, {lines} lines, {bytes} bytes, picks among equals {ties}");
    met.print();
    met.missing().is_empty().then_some(()).ok_or_else(|| io::Error::other("a number is not met"))
}

/// Nothing is a frame yet but a radius, and these are refused.
fn before(script: &mut Script) {
    script.add_frames(&questions::kinds());
    script.add(b"");
    script.add_frames(&questions::radii());
    script.add_frame(&Frame::asking(TOTAL));
}

/// Frames of each kind spoilt in each way, with a board that shows that nothing changes.
fn no_frames(r: &mut Random, script: &mut Script) {
    let mut frames = vec![Frame::fresh(EARTH.to_bits())];
    frames.extend(questions::kinds());
    script.add_frames(&frames);
    let mut text = Vec::new();
    for frame in &frames {
        text.clear();
        frame.write(&mut text);
        for sort in 0..SORTS.len() {
            let mut line = text.clone();
            malformed::spoil(r, sort, &mut line);
            script.add(&line);
        }
        for length in LENGTHS {
            let mut line = text.clone();
            line.resize(length, b'0');
            script.add(&line);
        }
        if text.len() > LONG {
            for line in malformed::each_place(&text) {
                script.add(&line);
            }
        }
        script.add(&text);
    }
    text.resize(VERY_LONG, b'0');
    script.add(&text);
    script.ask();
}

/// Calls on one board after another, each with more identities than it holds.
fn drawn(r: &mut Random, script: &mut Script) {
    let mut calls = Calls::new(r, NAMES);
    script.add_frame(&Frame::fresh(EARTH.to_bits()));
    script.add_frames(&calls.setting(r));
    for _ in 0..DRAWN {
        script.add_frame(&calls.any(r));
    }
    script.ask();
}
