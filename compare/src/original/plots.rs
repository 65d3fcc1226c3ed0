//! Holds `plot` to the same in Rust: whole sessions with lines that are no frames among them,
//! in one go, in pieces, and in step.

use super::met::Met;
use super::playing::Tally;
use super::script::Script;
use super::sessions::session;
use crate::inputs::malformed::SORTS;
use crate::inputs::random::{Random, SEED};
use std::{io, mem};

/// Streams that nothing else draws from.
const WHOLE: u64 = 1 << 21;
const PIECES: u64 = (1 << 21) + 1;
/// Lines that a session may have.
const LENGTHS: [u64; 6] = [4, 20, 60, 60, 1_500, 20_000];
/// Runs in pieces with their lines, and in step.
const CUT: [u64; 6] = [20_000, 20_000, 2_000, 500, 50, 5];
const IN_STEP: [u64; 6] = [4_000, 4_000, 200, 50, 50, 5];
/// Inputs that are cut at each place, at most so far from the beginning.
const SHORT: [u64; 3] = [8, 8, 8];
const FARTHEST: usize = 1_000;

/// Whether nothing differs over so many lines, and over the runs in pieces and in step.
pub fn run(lines: u64) -> io::Result<bool> {
    println!("seed {SEED:016x}");
    let whole = whole(lines)?;
    whole.print();
    let mut equal = whole.tally.differences == 0 && whole.missing().is_empty();
    for play in WAYS {
        let (name, Tally { runs, lines, pieces, differences }) = play()?;
        println!("{name}: {runs} runs, {lines} lines, {pieces} pieces, differences {differences}");
        equal &= differences == 0;
    }
    Ok(equal)
}

/// What the inputs in one go came to.
pub struct Whole {
    pub tally: Tally,
    met: Met,
    /// For each sort of spoilt line how many there were, and how many of them are no frames.
    spoilt: Vec<[u64; 2]>,
    ties: u64,
    open: u64,
}

impl Whole {
    fn print(&self) {
        let Whole { tally: Tally { runs, lines, differences, .. }, ties, open, .. } = self;
        println!("in one go: {runs} runs, {lines} lines, differences {differences}");
        println!("  the last newline lacks in {open} runs; picks among equals {ties}");
        self.met.print();
        println!("spoilt lines, and how many of them are no frames:");
        for ((name, _), [count, none]) in SORTS.iter().zip(&self.spoilt) {
            println!("  {name:<30}{count:>9}{none:>9}");
        }
    }

    /// The numbers that were not met.
    pub fn missing(&self) -> Vec<String> {
        self.met.missing()
    }
}

pub fn whole(lines: u64) -> io::Result<Whole> {
    let mut r = Random::new(WHOLE);
    let (mut tally, mut met) = (Tally::default(), Met::default());
    let mut spoilt = vec![[0; 2]; SORTS.len()];
    let (mut ties, mut open) = (0, 0);
    // No line; an empty one; one that the end of the input ends.
    tally.whole(&Script::new())?;
    for line in ["", "08", "003ff0000000000000", "0"] {
        let mut script = Script::new();
        script.add(line.as_bytes());
        script.leave_open();
        tally.whole(&script)?;
    }
    while tally.lines < lines {
        let most = r.choose(&LENGTHS);
        let length = r.below(most);
        let script = session(&mut r, length, &mut spoilt);
        tally.whole(&script)?;
        met.add(&script.replies);
        ties += script.ties;
        open += (script.lines.last() != Some(&b'\n')) as u64;
    }
    Ok(Whole { tally, met, spoilt, ties, open })
}

type Played = io::Result<(&'static str, Tally)>;

/// The ways in pieces and in step; what they play does not depend on a number handed over.
pub const WAYS: [fn() -> Played; 4] = [cut, by_line, by_piece, by_place];

/// Written in pieces, without waiting for replies.
fn cut() -> Played {
    let mut tally = Tally::default();
    scripts(0, &CUT, |script, r| tally.cut(script, r).map(drop))?;
    Ok(("in pieces", tally))
}

/// Each line once the reply to the one before has come.
fn by_line() -> Played {
    let mut tally = Tally::default();
    scripts(1, &IN_STEP, |script, _| {
        let mut place = 0;
        tally.in_step(script, || {
            place += 1;
            script.line(place - 1).0.len()
        })
    })?;
    Ok(("line by line", tally))
}

/// Pieces of any length, each once all that is owed to those before has come.
fn by_piece() -> Played {
    let mut tally = Tally::default();
    scripts(2, &IN_STEP, |script, r| tally.in_step(script, || r.width(10) as usize + 1))?;
    Ok(("piece by piece", tally))
}

/// A short input cut in two at each place.
fn by_place() -> Played {
    let mut tally = Tally::default();
    scripts(3, &SHORT, |script, _| {
        (1..script.lines.len().min(FARTHEST)).try_for_each(|place| {
            let mut next = place;
            tally.in_step(script, || mem::replace(&mut next, usize::MAX))
        })
    })?;
    Ok(("cut at each place", tally))
}

fn scripts(
    way: u64,
    lengths: &[u64],
    mut play: impl FnMut(&Script, &mut Random) -> io::Result<()>,
) -> io::Result<()> {
    let mut r = Random::new(PIECES + way);
    lengths.iter().try_for_each(|length| {
        let script = session(&mut r, *length, &mut vec![[0; 2]; SORTS.len()]);
        play(&script, &mut r)
    })
}
