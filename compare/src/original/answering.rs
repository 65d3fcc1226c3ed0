//! A Rust program with `probe`'s lines: every function, the walks by the watched copy alone.

use super::shapes::{Argument, taken};
use super::walks::{self, Line};
use crate::answer::{Answer, Walk};
use crate::function::Function;
use crate::functions;
use crate::hexadecimal::VALUES;
use crate::jord::spherical::Sphere;
use crate::jord::{NVector, Vehicle};
use std::io::{self, BufRead, BufWriter, Write};

const BUFFER: usize = 1 << 16;

/// Answers every line of standard input; what is no call gets `?`.
pub fn run() -> io::Result<()> {
    let mut stdin = io::stdin().lock();
    let mut stdout = BufWriter::with_capacity(BUFFER, io::stdout().lock());
    let functions = by_number();
    let (mut line, mut words, mut answer) = (Vec::new(), Vec::new(), Vec::new());
    while stdin.read_until(b'\n', &mut line)? > 0 {
        let call = parsed(line.strip_suffix(b"\n").unwrap_or(&line), &mut words);
        match call.and_then(|number| answered(functions[number as usize]?, &words)) {
            Some(fields) => fields.write(&mut answer),
            None => answer.push(b'?'),
        }
        answer.push(b'\n');
        stdout.write_all(&answer)?;
        line.clear();
        answer.clear();
    }
    stdout.flush()
}

/// Every function in the place of its number: a search for each line would count as its time.
fn by_number() -> [Option<&'static Function>; 256] {
    let mut by_number = [None; 256];
    let all = functions::floats().chain(functions::ported());
    all.for_each(|function| by_number[function.number as usize] = Some(function));
    by_number
}

fn answered(function: &Function, words: &[u64]) -> Option<Answer> {
    let fits = (function.fewest..=function.arity).contains(&words.len());
    fits.then(|| walked(function.number, words).unwrap_or_else(|| (function.reference)(words)))
}

/// A walk or a solve without the other copies' opinion, which would take its time.
fn walked(number: u8, mut words: &[u64]) -> Option<Answer> {
    let left = &mut words;
    let (walk, _) = match number {
        0x76 => walks::watched_cpa(taken(left), taken(left), taken(left)),
        0x77 => walks::watched_intercept(taken(left), taken(left), taken(left), taken(left)),
        0x78 => walks::watched_longest(taken(left), taken(left), taken(left)),
        0x7a => return Some(solved(words).into()),
        _ => return None,
    };
    Some(walk.into())
}

pub fn solved(words: &[u64]) -> Line<Walk> {
    let (sphere, own, track, target) = arguments(words);
    walks::watched_solve(sphere, own, track, target)
}

/// A solve's arguments.
pub fn arguments(mut words: &[u64]) -> (Sphere, Vehicle, [NVector; 2], Vehicle) {
    let left = &mut words;
    (taken(left), taken(left), [taken(left), taken(left)], Vehicle::of(left))
}

/// The number of a call; its arguments go into `words`.
fn parsed(line: &[u8], words: &mut Vec<u64>) -> Option<u8> {
    let mut fields = line.split(|byte| *byte == b' ');
    let number = digits(fields.next()?, 2)?;
    words.clear();
    for field in fields {
        words.push(digits(field, 16)?);
    }
    Some(number as u8)
}

/// Some lowercase digits; all are looked up before any is judged, for speed.
fn digits(field: &[u8], count: usize) -> Option<u64> {
    let add = |(word, all): (u64, u8), byte: &u8| {
        let digit = VALUES[*byte as usize];
        (word << 4 | (digit & 15) as u64, all | digit)
    };
    let (word, all) = field.iter().fold((0, 0), add);
    (field.len() == count && all < 16).then_some(word)
}
