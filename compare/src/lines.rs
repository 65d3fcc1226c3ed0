//! `probe`'s text: lines that it reads, and those that the reference would write.

use crate::function::Function;
use crate::{functions, hexadecimal};

/// Lines that are no call; the answer to each is `?`.
const MALFORMED: &[&str] = &[
    "",
    " ",
    "?",
    "0",
    "07",
    "07 ",
    "7 3ff0000000000000",
    "007 3ff0000000000000",
    "073ff0000000000000",
    "07 3ff000000000000",
    "07 3ff00000000000000",
    "07 3ff0000000000000 ",
    " 07 3ff0000000000000",
    "07  3ff0000000000000",
    "07\t3ff0000000000000",
    "07 3ff0000000000000\r",
    "07 3FF0000000000000",
    "0A 3ff0000000000000",
    "07 3ff000000000000/",
    "07 3ff000000000000:",
    "07 3ff000000000000`",
    "07 3ff000000000000g",
    "07 -3ff000000000000",
    "00 3ff0000000000000",
    "0f 3ff0000000000000",
    "ff 3ff0000000000000",
    "06 3ff0000000000000",
    "06 3ff0000000000000,3ff0000000000000",
    "06 3ff0000000000000 3ff000000000000",
    "06 3ff0000000000000 3ff0000000000000 3ff0000000000000",
    "07 3ff0000000000000 3ff0000000000000",
    "0e 1",
    "07 3ff0000000000000 3ff0000000000000 3ff0000000000000 3ff0000000000000 3ff0000000000000 \
     3ff0000000000000 3ff0000000000000 3ff0000000000000 3ff0000000000000 3ff0000000000000",
    "10",
    "10 3ff0000000000000 3ff0000000000000",
    "11 3ff0000000000000",
    "29 3ff0000000000000",
    "2f 3ff0000000000000 3ff0000000000000",
    "30 3ff0000000000000 3ff0000000000000",
    "30 3ff0000000000000 3ff0000000000000 3ff0000000000000 3ff0000000000000",
    "32 3ff0000000000000 3ff0000000000000 3ff0000000000000 3ff0000000000000 3ff0000000000000",
    "3A 3ff0000000000000 3ff0000000000000 3ff0000000000000",
    "3e 3ff0000000000000 3ff0000000000000 3ff0000000000000",
    "44 3ff0000000000000 3ff0000000000000 3ff0000000000000",
    "60 3ff0000000000000 3ff0000000000000 3ff0000000000000",
    "66 3ff0000000000000 3ff0000000000000 3ff0000000000000 3ff0000000000000",
    "66 3ff0000000000000 3ff0000000000000 3ff0000000000000 3ff0000000000000 3ff000000000000g",
    "70",
    "79 ",
    "79 3ff000000000000",
    "79 3ff0000000000000 ",
    "79 3ff0000000000000 3ff0000000000000 3ff000000000000g",
    "7A",
    "8d ",
    "8D",
];

/// Numbers with more or fewer arguments than they take, the widest among them.
const MISCOUNTED: &[(u8, usize)] = &[
    (0x43, 17),
    (0x43, 19),
    (0x70, 5),
    (0x71, 7),
    (0x72, 6),
    (0x72, 8),
    (0x73, 3),
    (0x74, 8),
    (0x75, 9),
    (0x75, 11),
    (0x76, 10),
    (0x76, 12),
    (0x77, 9),
    (0x77, 11),
    (0x78, 8),
    (0x78, 10),
    (0x79, 19),
    (0x7a, 16),
    (0x7a, 18),
    (0x7b, 0),
    (0x7b, 17),
    (0x7f, 6),
    (0x80, 8),
    (0x80, 10),
    (0x82, 9),
    (0x83, 1),
    (0x84, 3),
    (0x85, 5),
    (0x88, 6),
    (0x88, 8),
    (0x8b, 6),
    (0x8b, 8),
    (0x8c, 0),
    (0x8c, 2),
    (0x8d, 19),
    (0x8e, 0),
    (0x8f, 9),
];

/// What `probe` is handed: a line that is no call, or a call.
pub enum Line<'a> {
    Malformed(&'a str),
    Call(&'a Function, &'a [u64]),
}

/// How much each function of a table meets.
#[derive(Clone, Copy)]
pub struct Share {
    /// Steps to the farthest neighbour of a boundary.
    pub reach: u32,
    pub drawn: u64,
}

/// Lines for `probe` and the answers that it is to write, each with its end.
#[derive(Default)]
pub struct Script {
    pub lines: Vec<u8>,
    pub answers: Vec<u8>,
    pub count: u64,
}

impl Script {
    pub fn add(&mut self, line: Line) {
        match line {
            Line::Malformed(text) => {
                self.lines.extend(text.as_bytes());
                self.answers.push(b'?');
            }
            Line::Call(function, words) => {
                write_call(&mut self.lines, function.number, words);
                (function.reference)(words).write(&mut self.answers);
            }
        }
        self.lines.push(b'\n');
        self.answers.push(b'\n');
        self.count += 1;
    }
}

/// Malformed lines, then for each function its boundaries, its examples and drawn inputs.
pub fn each(floats: Share, original: Share, mut meet: impl FnMut(Line)) {
    MALFORMED.iter().for_each(|line| meet(Line::Malformed(line)));
    for (number, count) in MISCOUNTED {
        meet(Line::Malformed(&text(*number, &vec![1f64.to_bits(); *count])));
    }
    functions::floats().for_each(|function| each_call(function, floats, &mut meet));
    functions::ported().for_each(|function| each_call(function, original, &mut meet));
}

/// The calls of one function.
pub fn each_call(function: &Function, share: Share, mut meet: impl FnMut(Line)) {
    let mut call = |words: &[u64]| meet(Line::Call(function, words));
    function.each_fixed(share.reach, &mut call);
    function.each_drawn(function.number as u64, share.drawn, &mut call);
}

/// A call as `probe` reads it.
pub fn call(function: &Function, words: &[u64]) -> String {
    text(function.number, words)
}

pub fn text(number: u8, words: &[u64]) -> String {
    let mut text = Vec::new();
    write_call(&mut text, number, words);
    String::from_utf8_lossy(&text).into_owned()
}

fn write_call(text: &mut Vec<u8>, number: u8, words: &[u64]) {
    hexadecimal::append(text, number as u64, 2);
    for word in words {
        text.push(b' ');
        hexadecimal::append(text, *word, 16);
    }
}
