//! Random sessions of `plot`: frames, and lines that are none among them.

use super::script::Script;
use crate::inputs::calls::Calls;
use crate::inputs::frames::{FRESH, Frame, TOTAL};
use crate::inputs::malformed::{self, SORTS};
use crate::inputs::random::Random;

/// Identities that a session may name.
const NAMES: [usize; 6] = [1, 3, 20, 64, 70, 120];
/// One line in so many begins a fresh board; in some sessions none does.
const RESTARTS: [u64; 3] = [40, 1_000, u64::MAX];
/// Of 100 lines, those that are spoilt.
const SPOILT: u64 = 15;
/// Lines before a board is begun.
const BEFORE: [u64; 5] = [0, 0, 1, 4, 16];

/// What each sort of spoilt lines came to: how many, how many of them no frames.
pub type Spoilt = Vec<[u64; 2]>;

/// A session: lines before a board is begun, its beginning, then so many lines.
pub fn session(r: &mut Random, length: u64, spoilt: &mut Spoilt) -> Script {
    let names = r.choose(&NAMES);
    let mut session = Drawn { calls: Calls::new(r, names), script: Script::new(), spoilt };
    for _ in 0..r.choose(&BEFORE) {
        session.before(r);
    }
    let restarts = r.choose(&RESTARTS);
    session.begin(r);
    for _ in 0..length {
        match r.below(100) {
            ..SPOILT => session.spoil(r),
            _ if r.below(restarts) == 0 => session.begin(r),
            _ => {
                let frame = session.calls.any(r);
                session.script.add_frame(&frame);
            }
        }
    }
    let mut script = session.script;
    if r.below(3) == 0 {
        script.leave_open();
    }
    script
}

struct Drawn<'a> {
    calls: Calls,
    script: Script,
    spoilt: &'a mut Spoilt,
}

impl Drawn<'_> {
    /// A line that begins no board: one that needs one, a spoilt one or a refused radius.
    fn before(&mut self, r: &mut Random) {
        match r.below(4) {
            0 => self.spoil(r),
            1 => {
                let radius = r.choose(&[0.0, -0.0, -1.0, f64::NAN, f64::INFINITY]);
                self.script.add_frame(&Frame::fresh(f64::to_bits(radius)));
            }
            _ => {
                let kind = 1 + r.below(TOTAL.into()) as u8;
                let frame = self.calls.of_kind(r, kind);
                self.script.add_frame(&frame);
            }
        }
    }

    /// A radius, refused now and then, and what most sessions go on with.
    fn begin(&mut self, r: &mut Random) {
        let fresh = self.calls.of_kind(r, FRESH);
        self.script.add_frame(&fresh);
        let setting = self.calls.setting(r);
        self.script.add_frames(&setting);
    }

    /// A line of some sort that is no frame, or seldom is.
    fn spoil(&mut self, r: &mut Random) {
        let kind = r.below(u64::from(TOTAL) + 1) as u8;
        let mut line = Vec::new();
        self.calls.of_kind(r, kind).write(&mut line);
        let sort = r.below(SORTS.len() as u64) as usize;
        malformed::spoil(r, sort, &mut line);
        let none = self.script.add(&line) == b"ff01";
        self.spoilt[sort][0] += 1;
        self.spoilt[sort][1] += none as u64;
    }
}
