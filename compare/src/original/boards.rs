//! Holds `plot` to the plain board over random lists of calls.

use super::exchanges;
use super::met::Met;
use super::playing::Tally;
use super::script::Script;
use crate::inputs::calls::Calls;
use crate::inputs::frames::Frame;
use crate::inputs::random::{Random, SEED};
use std::io;

/// A stream that nothing else draws from.
const STREAM: u64 = 1 << 20;
/// About so many lines for each run of the program.
pub const RUN: usize = 20_000;
/// Identities that a list may name, and calls that it may have.
const NAMES: [usize; 11] = [1, 2, 3, 8, 20, 63, 64, 65, 70, 100, 200];
const LENGTHS: [u64; 6] = [1, 10, 50, 200, 600, 1_500];

/// Whether nothing differs over so many calls and every number is met.
pub fn run(calls: u64) -> io::Result<bool> {
    println!("seed {SEED:016x}");
    let lists = lists(calls.div_ceil(2))?;
    lists.print();
    let exchanged = exchanges::compare(calls.div_ceil(2))?;
    exchanged.print();
    let differences = lists.tally.differences + exchanged.differences();
    Ok(differences == 0 && lists.missing().is_empty())
}

/// What some lists came to.
#[derive(Default)]
pub struct Lists {
    pub tally: Tally,
    met: Met,
    lists: u64,
    ties: u64,
}

impl Lists {
    fn print(&self) {
        let Lists { tally: Tally { lines, differences, .. }, lists, ties, .. } = self;
        print!("lists: {lists}, calls {lines}, picks among equals {ties}, ");
        println!("differences {differences}");
        self.met.print();
    }

    /// The numbers that were not met; a list has no line that is no frame.
    pub fn missing(&self) -> Vec<String> {
        let missing = self.met.missing().into_iter();
        missing.filter(|number| number != "ff no frame 01").collect()
    }
}

/// Random lists, each on a fresh board.
pub fn lists(calls: u64) -> io::Result<Lists> {
    let mut r = Random::new(STREAM);
    let mut all = Lists::default();
    while all.tally.lines < calls {
        let mut script = Script::new();
        while script.count() < RUN {
            all.lists += 1;
            list(&mut r, &mut script);
        }
        all.tally.whole(&script)?;
        all.met.add(&script.replies);
        all.ties += script.ties;
    }
    Ok(all)
}

fn list(r: &mut Random, script: &mut Script) {
    let (mut calls, _) = begun(r, &NAMES, script);
    let most = r.choose(&LENGTHS);
    let setting = calls.setting(r);
    script.add_frames(&setting);
    for _ in 0..1 + r.below(most) {
        script.add_frame(&calls.any(r));
    }
    script.ask();
}

/// A fresh board, after refused ones now and then, and the frame that began it.
pub fn begun(r: &mut Random, names: &[usize], script: &mut Script) -> (Calls, Frame) {
    let most = r.choose(names);
    let mut calls = Calls::new(r, most);
    loop {
        let fresh = calls.fresh(r);
        if script.add_frame(&fresh) == b"0000" {
            return (calls, fresh);
        }
    }
}
