//! Answers in one comparable form; all NaN are one pattern.

use crate::hexadecimal;
use std::fmt;

/// Document 01's numbers for a derivative that is zero and for fifty steps spent.
pub const FLAT: u8 = 12;
pub const NOT_ACCEPTED: u8 = 13;
/// Document 01's number for a time that is not zero or more.
pub const NOT_ZERO_OR_MORE: u8 = 14;
/// Document 01's number for a time that is not below 2^34 seconds.
pub const TOO_LONG: u8 = 15;
/// Document 01's numbers for a mean of nothing and of antipodal entries.
pub const EMPTY: u8 = 16;
pub const ANTIPODAL: u8 = 17;
/// Document 01's number for a fraction that is not within 0.0 to 1.0.
pub const OUTSIDE: u8 = 18;

/// The pattern that stands for every NaN.
const NAN: u64 = 0x7ff8_0000_0000_0000;

/// The bits of a float, one pattern for every NaN.
pub fn bits(x: f64) -> u64 {
    if x.is_nan() { NAN } else { x.to_bits() }
}

/// A duration, or the number of the question that refused it.
#[derive(Clone, Copy, PartialEq, Eq)]
pub struct Outcome {
    pub number: u8,
    pub nanoseconds: u64,
}

impl Outcome {
    pub fn found(nanoseconds: u64) -> Self {
        Outcome { number: 0, nanoseconds }
    }

    pub fn refused(number: u8) -> Self {
        Outcome { number, nanoseconds: 0 }
    }
}

/// The most floats of an answer: a matrix.
const MOST: usize = 9;

/// A walk's outcome with its steps begun.
#[derive(Clone, Copy, PartialEq, Eq, Debug)]
pub struct Walk {
    pub number: u8,
    pub nanoseconds: u64,
    pub count: u8,
}

#[derive(Clone, PartialEq, Eq)]
pub enum Answer {
    /// Two digits: a truth, or one of a few cases.
    Byte(u8),
    Word(u64),
    /// So many words, the rest zero.
    Words(usize, [u64; MOST]),
    Outcome(Outcome),
    Walk(Walk),
    /// Several, one after another.
    Row(Vec<Answer>),
}

impl From<bool> for Answer {
    fn from(truth: bool) -> Self {
        Answer::Byte(truth as u8)
    }
}

impl From<f64> for Answer {
    fn from(x: f64) -> Self {
        Answer::Word(bits(x))
    }
}

impl From<u64> for Answer {
    fn from(word: u64) -> Self {
        Answer::Word(word)
    }
}

impl<const N: usize> From<[f64; N]> for Answer {
    fn from(floats: [f64; N]) -> Self {
        let mut words = [0; MOST];
        words[..N].copy_from_slice(&floats.map(bits));
        Answer::Words(N, words)
    }
}

impl From<Outcome> for Answer {
    fn from(outcome: Outcome) -> Self {
        Answer::Outcome(outcome)
    }
}

impl From<Walk> for Answer {
    fn from(walk: Walk) -> Self {
        Answer::Walk(walk)
    }
}

impl Answer {
    /// Appends the fields as `probe` writes them, with a space between two.
    /// A refusal that altered the number lent to it shows the bits, so that the fault is seen.
    pub fn write(&self, text: &mut Vec<u8>) {
        match self {
            Answer::Byte(byte) => hexadecimal::append(text, *byte as u64, 2),
            Answer::Word(word) => hexadecimal::append(text, *word, 16),
            Answer::Words(count, words) => {
                for (place, word) in words[..*count].iter().enumerate() {
                    text.extend((place > 0).then_some(b' '));
                    hexadecimal::append(text, *word, 16);
                }
            }
            Answer::Outcome(outcome) => {
                hexadecimal::append(text, outcome.number as u64, 2);
                if outcome.number == 0 || outcome.nanoseconds != 0 {
                    text.push(b' ');
                    hexadecimal::append(text, outcome.nanoseconds, 16);
                }
            }
            Answer::Walk(walk) => {
                hexadecimal::append(text, walk.number as u64, 2);
                text.push(b' ');
                hexadecimal::append(text, walk.nanoseconds, 16);
                text.push(b' ');
                hexadecimal::append(text, walk.count as u64, 2);
            }
            Answer::Row(answers) => {
                for (place, answer) in answers.iter().enumerate() {
                    text.extend((place > 0).then_some(b' '));
                    answer.write(text);
                }
            }
        }
    }
}

impl fmt::Display for Answer {
    fn fmt(&self, f: &mut fmt::Formatter) -> fmt::Result {
        let mut text = Vec::new();
        self.write(&mut text);
        f.write_str(&String::from_utf8_lossy(&text))
    }
}
