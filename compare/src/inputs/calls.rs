//! Random calls of a board: most of them as at sea, some at the questions' bounds, some spoilt.

use super::SOLVES;
use super::frames::*;
use super::random::Random;
use super::scenes::{self, EARTH};
use super::ships::{about_tolerance, both, names, near, place};
use super::vectors::{Vector, antipode, position};

/// Words of a scene: radius, own ship, track, target.
const WORDS: usize = 17;

/// How often each kind comes, from report to total.
type Shares = [u64; 8];

/// How calls may be mixed: as at sea, crowded, restless, with no own ship or no track.
const MIXTURES: [Shares; 6] = [
    [40, 4, 1, 1, 36, 6, 8, 4],
    [40, 4, 1, 1, 36, 6, 8, 4],
    [70, 3, 1, 1, 18, 3, 2, 2],
    [30, 24, 8, 8, 20, 4, 4, 2],
    [40, 20, 0, 10, 20, 4, 4, 2],
    [40, 20, 10, 0, 20, 4, 4, 2],
];
/// One call in so many names identity 0, or has some numbers replaced.
const NAMELESS: u64 = 60;
const SPOILT: u64 = 16;

pub struct Calls {
    names: Vec<u16>,
    /// Whether identity 0 may be named too.
    nameless: bool,
    shares: Shares,
    scene: [u64; WORDS],
    turn: usize,
    last: State,
}

impl Calls {
    /// Calls that name at most so many identities.
    pub fn new(r: &mut Random, most: usize) -> Self {
        let nameless = most > 1 && r.coin();
        let mut calls = Calls {
            names: names(r, most - nameless as usize),
            nameless,
            shares: r.choose(&MIXTURES),
            scene: [0; WORDS],
            turn: r.below(1 << 32) as usize,
            last: [0; 5],
        };
        calls.change_scene(r);
        calls
    }

    /// A fresh board, seldom refused; most on the scene's sphere or the earth.
    pub fn fresh(&mut self, r: &mut Random) -> Frame {
        Frame::fresh(match r.below(8) {
            0 => scenes::radius(r).to_bits(),
            1 => 1f64.to_bits(),
            2..5 => self.scene[0],
            _ => EARTH.to_bits(),
        })
    }

    /// Calls that set own ship and track, so that solves are answered; sometimes one, or none.
    pub fn setting(&mut self, r: &mut Random) -> Vec<Frame> {
        let both = r.below(4) > 0;
        let frames = [self.own_ship(r), self.track(r)];
        frames.into_iter().filter(|_| both || r.coin()).collect()
    }

    /// A report, withdrawal, own ship, track or solve.
    pub fn call(&mut self, r: &mut Random) -> Frame {
        let kinds = self.shares[..5].iter().sum();
        self.of_share(r, kinds)
    }

    /// A call, or what is only asked.
    pub fn any(&mut self, r: &mut Random) -> Frame {
        let kinds = self.shares.iter().sum();
        self.of_share(r, kinds)
    }

    fn of_share(&mut self, r: &mut Random, end: u64) -> Frame {
        let mut place = r.below(end);
        let mut kind = REPORT;
        for share in self.shares {
            if place < share {
                break;
            }
            place -= share;
            kind += 1;
        }
        self.of_kind(r, kind)
    }

    /// One or another frame of a kind.
    pub fn of_kind(&mut self, r: &mut Random, kind: u8) -> Frame {
        let mut frame = match kind {
            FRESH => self.fresh(r),
            REPORT => Frame::report(self.name(r), self.state(r)),
            WITHDRAW => Frame::withdraw(self.name(r)),
            OWN_SHIP => self.own_ship(r),
            TRACK => self.track(r),
            SOLVE => Frame::solve(self.name(r)),
            _ => Frame::asking(kind),
        };
        if r.below(SPOILT) == 0 && !frame.words_mut().is_empty() {
            scenes::spoil(r, frame.words_mut());
        }
        frame
    }

    fn name(&self, r: &mut Random) -> u16 {
        let nobody = self.nameless && r.below(NAMELESS) == 0;
        if nobody { 0 } else { r.choose(&self.names) }
    }

    fn own_ship(&mut self, r: &mut Random) -> Frame {
        self.change_scene(r);
        Frame::own_ship(self.words(1))
    }

    fn track(&mut self, r: &mut Random) -> Frame {
        let start = place(r);
        Frame::track(match r.below(12) {
            0 => both(start, start),
            1 => both(start, antipode(start)),
            2 => both(start, place(r)),
            3 => both(start, about_tolerance(r)),
            4..7 => both(start, position(r)),
            _ => self.words(6),
        })
    }

    /// The scene's target, one near the own ship, one on an axis, the last one again or its
    /// antipode, one whose length is at the bound.
    fn state(&mut self, r: &mut Random) -> State {
        let at = |place: Vector, [_, _, _, bearing, speed]: State| {
            let [x, y, z] = place.map(f64::to_bits);
            [x, y, z, bearing, speed]
        };
        let target = self.words(12);
        let state = match r.below(16) {
            0..7 => target,
            7..11 => near(r, self.words(1).map(f64::from_bits)),
            11 => at(place(r), target),
            12 => self.last,
            13 => {
                let [x, y, z, ..] = self.last.map(f64::from_bits);
                at(antipode([x, y, z]), target)
            }
            14 => at(about_tolerance(r), target),
            _ => at(place(r), [0, 0, 0, 0, r.choose(&[0.0f64, -0.0, 1.0]).to_bits()]),
        };
        self.last = state;
        state
    }

    /// So many words of the scene.
    fn words<const N: usize>(&self, from: usize) -> [u64; N] {
        *self.scene[from..].first_chunk().expect("a scene has so many words")
    }

    /// A chase, or a scene of the class whose turn it is.
    fn change_scene(&mut self, r: &mut Random) {
        if r.coin() {
            let chase = scenes::solve(&scenes::chase(r));
            self.scene.iter_mut().zip(chase).for_each(|(word, x)| *word = x.to_bits());
        } else {
            SOLVES.draw(self.turn, r, &mut self.scene);
            self.turn += 1;
        }
    }
}
