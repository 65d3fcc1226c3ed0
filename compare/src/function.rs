//! A compared function: its number, its inputs and the Rust's answer.

use crate::answer::Answer;
use crate::inputs::{Inputs, random::Random};

/// A call with its arguments as words.
pub type Call = fn(&[u64]) -> Answer;

pub struct Function {
    /// `probe`'s number.
    pub number: u8,
    pub name: &'static str,
    /// How many words it takes, at least and at most.
    pub fewest: usize,
    pub arity: usize,
    pub inputs: &'static Inputs,
    /// The documented examples of the function with a number.
    pub examples: fn(u8) -> Vec<Vec<u64>>,
    pub reference: Call,
}

/// A function whose tested side is linked.
pub struct Linked {
    pub function: Function,
    pub tested: Call,
}

impl Function {
    /// Hands over the boundaries, with neighbours up to so many steps away, then the examples.
    pub fn each_fixed(&self, reach: u32, mut meet: impl FnMut(&[u64])) {
        let boundaries = self.inputs.boundaries(reach);
        let examples = (self.examples)(self.number);
        boundaries.iter().chain(&examples).for_each(|words| meet(words));
    }

    /// Hands over so many inputs drawn from a stream.
    pub fn each_drawn(&self, stream: u64, count: u64, mut meet: impl FnMut(&[u64])) {
        let mut random = Random::new(stream);
        let mut words = vec![0; self.arity];
        for turn in 0..count {
            let length = self.length(&mut random);
            self.inputs.draw(turn as usize, &mut random, &mut words[..length]);
            meet(&words[..length]);
        }
    }

    fn length(&self, random: &mut Random) -> usize {
        match self.arity - self.fewest {
            0 => self.arity,
            more => self.fewest + random.below(more as u64 + 1) as usize,
        }
    }
}
