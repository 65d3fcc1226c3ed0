//! Holds lists of calls to what exchanges of neighbours make of them, both played on `plot`.

use super::boards::{RUN, begun};
use super::met::Met;
use super::playing::Tally;
use super::script::Script;
use crate::inputs::frames::{Frame, PICK};
use crate::inputs::random::Random;
use std::collections::BTreeSet;
use std::io;
use std::ops::RangeInclusive;

/// A stream that nothing else draws from.
const STREAM: u64 = (1 << 20) + 1;
/// Identities that a list may name, 64 at most, and calls that it may have.
const NAMES: [usize; 8] = [2, 3, 5, 8, 20, 40, 63, 64];
const LENGTHS: [u64; 5] = [4, 20, 80, 300, 1_000];

/// A list and one made from it: where their calls begin, how many, where what is asked ends.
struct Pair {
    starts: [usize; 2],
    length: usize,
    ends: [usize; 2],
    /// The place in the list of each call of the other.
    order: Vec<usize>,
}

impl Pair {
    /// The lines of one of the two, counted from 1.
    fn lines(&self, list: usize) -> RangeInclusive<usize> {
        self.starts[list] + 1..=self.ends[list]
    }
}

/// What the exchanges came to.
#[derive(Default)]
pub struct Exchanged {
    pub tally: Tally,
    met: Met,
    pairs: u64,
    exchanges: u64,
    moved: u64,
    /// Pairs whose lists are not alike.
    unlike: u64,
}

/// So many calls: each reply beside the board's here, each list beside what exchanges make of it.
pub fn compare(calls: u64) -> io::Result<Exchanged> {
    let mut r = Random::new(STREAM);
    let mut all = Exchanged::default();
    while all.tally.lines < calls {
        let mut script = Script::new();
        let mut pairs = Vec::new();
        while script.count() < RUN {
            pairs.push(pair(&mut r, &mut script, &mut all.exchanges));
        }
        let replies = all.tally.whole(&script)?;
        let replies: Vec<&[u8]> = replies.split(|byte| *byte == b'\n').collect();
        pairs.iter().for_each(|pair| all.meet(pair, &replies));
        all.met.add(&script.replies);
    }
    Ok(all)
}

impl Exchanged {
    pub fn print(&self) {
        let Exchanged { tally: Tally { lines, differences, .. }, pairs, exchanges, .. } = self;
        println!("exchanges: {pairs} pairs of lists, calls {lines}, exchanges {exchanges}");
        println!("  calls elsewhere in the second list {}", self.moved);
        println!("  differences {differences}, between the two lists {}", self.unlike);
        self.met.print();
    }

    /// From the board's replies, and between two lists.
    pub fn differences(&self) -> u64 {
        self.tally.differences + self.unlike
    }

    /// Each call keeps its answer, and all that is asked afterwards is answered alike.
    fn meet(&mut self, pair: &Pair, replies: &[&[u8]]) {
        let [first, second] = [0, 1].map(|list| {
            let all = replies.get(pair.starts[list]..pair.ends[list]).unwrap_or_default();
            all.split_at(pair.length.min(all.len()))
        });
        let kept = |(place, from): (usize, &usize)| second.0.get(place) == first.0.get(*from);
        let alike = pair.order.iter().enumerate().all(kept) && first.1 == second.1;
        let moved = pair.order.iter().enumerate().filter(|(place, from)| place != *from).count();
        self.pairs += 1;
        self.moved += moved as u64;
        if !alike {
            self.unlike += 1;
            println!(
                "  the lists in lines {:?} and {:?} of a run differ",
                pair.lines(0),
                pair.lines(1)
            );
        }
    }
}

fn pair(r: &mut Random, script: &mut Script, exchanges: &mut u64) -> Pair {
    let (mut calls, fresh) = begun(r, &NAMES, script);
    let mut list = calls.setting(r);
    let most = r.choose(&LENGTHS);
    list.extend((0..1 + r.below(most)).map(|_| calls.call(r)));
    let order = exchanged(r, &list, exchanges);
    let again = r.coin();
    let starts_and_end = |script: &mut Script, calls: &[Frame]| {
        let start = script.count();
        script.add_frames(calls);
        look(script, calls, again);
        [start, script.count()]
    };
    let [first, end] = starts_and_end(script, &list);
    script.add_frame(&fresh);
    let other: Vec<Frame> = order.iter().map(|place| list[*place]).collect();
    let [second, last] = starts_and_end(script, &other);
    Pair { starts: [first, second], length: list.len(), ends: [end, last], order }
}

/// Moves calls past neighbours that name other targets, as far as it goes or less far.
fn exchanged(r: &mut Random, list: &[Frame], exchanges: &mut u64) -> Vec<usize> {
    let mut order: Vec<usize> = (0..list.len()).collect();
    for _ in 0..r.below(4 * list.len() as u64) {
        let mut place = r.below(list.len() as u64) as usize;
        let up = r.coin();
        for _ in 0..r.width(7) {
            let next = if up { place + 1 } else { place.wrapping_sub(1) };
            let named = |place: usize| list[*order.get(place)?].named();
            let (Some(one), Some(other)) = (named(place), named(next)) else { break };
            if one == other {
                break;
            }
            order.swap(place, next);
            place = next;
            *exchanges += 1;
        }
    }
    order
}

/// Asks all that can be asked. Then either solves every target named, which shows the reports,
/// or withdraws each target picked, which shows the lines that have a meeting.
fn look(script: &mut Script, list: &[Frame], again: bool) {
    script.ask();
    if again {
        let named: BTreeSet<u16> = list.iter().filter_map(Frame::named).collect();
        script.add_frames(&named.into_iter().map(Frame::solve).collect::<Vec<_>>());
    } else {
        while let Some(digits) = script.add_frame(&Frame::asking(PICK)).strip_prefix(b"0700") {
            let digits = str::from_utf8(digits).expect("digits are ASCII");
            let picked = u16::from_str_radix(digits, 16).expect("a pick has an identity");
            script.add_frame(&Frame::withdraw(picked));
        }
    }
    script.ask();
}
