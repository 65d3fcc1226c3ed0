//! Frames of `plot` as they are written: kind, identity, words.

use crate::hexadecimal;

/// The kinds, by their digits.
pub const FRESH: u8 = 0;
pub const REPORT: u8 = 1;
pub const WITHDRAW: u8 = 2;
pub const OWN_SHIP: u8 = 3;
pub const TRACK: u8 = 4;
pub const SOLVE: u8 = 5;
pub const MEAN: u8 = 6;
pub const PICK: u8 = 7;
pub const TOTAL: u8 = 8;

/// Words of a vehicle and of a track.
pub type State = [u64; 5];
pub type Ends = [u64; 6];

#[derive(Clone, Copy)]
pub struct Frame {
    pub kind: u8,
    identity: u16,
    /// As many as the kind has, the rest unused.
    words: [u64; 6],
}

impl Frame {
    pub fn fresh(radius: u64) -> Self {
        Frame::of(FRESH, 0, &[radius])
    }

    pub fn report(identity: u16, state: State) -> Self {
        Frame::of(REPORT, identity, &state)
    }

    pub fn withdraw(identity: u16) -> Self {
        Frame::of(WITHDRAW, identity, &[])
    }

    pub fn own_ship(state: State) -> Self {
        Frame::of(OWN_SHIP, 0, &state)
    }

    pub fn track(ends: Ends) -> Self {
        Frame::of(TRACK, 0, &ends)
    }

    pub fn solve(identity: u16) -> Self {
        Frame::of(SOLVE, identity, &[])
    }

    /// Mean, pick or total.
    pub fn asking(kind: u8) -> Self {
        Frame::of(kind, 0, &[])
    }

    fn of(kind: u8, identity: u16, some: &[u64]) -> Self {
        let mut words = [0; 6];
        words[..some.len()].copy_from_slice(some);
        Frame { kind, identity, words }
    }

    /// The target that a call names.
    pub fn named(&self) -> Option<u16> {
        matches!(self.kind, REPORT | WITHDRAW | SOLVE).then_some(self.identity)
    }

    /// The floats that a call hands over.
    pub fn words_mut(&mut self) -> &mut [u64] {
        let count = self.width();
        &mut self.words[..count]
    }

    fn width(&self) -> usize {
        match self.kind {
            FRESH => 1,
            REPORT | OWN_SHIP => 5,
            TRACK => 6,
            _ => 0,
        }
    }

    /// Appends the digits, without the line's end.
    pub fn write(&self, text: &mut Vec<u8>) {
        hexadecimal::append(text, self.kind as u64, 2);
        if let Some(identity) = self.named() {
            hexadecimal::append(text, identity as u64, 4);
        }
        for word in &self.words[..self.width()] {
            hexadecimal::append(text, *word, 16);
        }
    }
}
