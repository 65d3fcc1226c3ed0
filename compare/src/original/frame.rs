//! Frames and replies of `plot`: a line read into a frame, an answer put into digits.
//! Nothing is allocated for a line.

use super::shapes::components;
use super::walks::Line;
use crate::answer::{Walk, bits};
use crate::hexadecimal::{DIGITS, VALUES};
use crate::jord::NVector;

pub enum Frame {
    Fresh(f64),
    Report(u16, [f64; 5]),
    Withdraw(u16),
    OwnShip([f64; 5]),
    Track([f64; 6]),
    Solve(u16),
    Mean,
    Pick,
    Total,
}

/// The most digits of a frame: a track's.
pub const LONGEST: usize = 98;

/// The frame of a line without its end.
pub fn read(line: &[u8]) -> Option<Frame> {
    let (kind, rest) = line.split_first_chunk()?;
    let frame = match (digits::<2>(kind)?, rest.len()) {
        (0, 16) => Frame::Fresh(floats::<1>(rest)?[0]),
        (1, 84) => Frame::Report(identity(rest)?, floats(&rest[4..])?),
        (2, 4) => Frame::Withdraw(identity(rest)?),
        (3, 80) => Frame::OwnShip(floats(rest)?),
        (4, 96) => Frame::Track(floats(rest)?),
        (5, 4) => Frame::Solve(identity(rest)?),
        (6, 0) => Frame::Mean,
        (7, 0) => Frame::Pick,
        (8, 0) => Frame::Total,
        _ => return None,
    };
    Some(frame)
}

fn identity(text: &[u8]) -> Option<u16> {
    digits::<4>(text.first_chunk()?).map(|word| word as u16)
}

fn floats<const N: usize>(text: &[u8]) -> Option<[f64; N]> {
    let mut floats = [0.0; N];
    for (x, field) in floats.iter_mut().zip(text.as_chunks::<16>().0) {
        *x = f64::from_bits(digits(field)?);
    }
    Some(floats)
}

/// Lowercase digits; all are looked up before any is judged, for speed.
fn digits<const N: usize>(text: &[u8; N]) -> Option<u64> {
    let add = |(word, all): (u64, u8), byte: &u8| {
        let digit = VALUES[*byte as usize];
        (word << 4 | (digit & 15) as u64, all | digit)
    };
    let (word, all) = text.iter().fold((0, 0), add);
    (all < 16).then_some(word)
}

/// Two digits for each byte.
const PAIRS: [[u8; 2]; 256] = {
    let mut pairs = [[0; 2]; 256];
    let mut byte = 0;
    while byte < 256 {
        pairs[byte] = [DIGITS[byte >> 4], DIGITS[byte & 15]];
        byte += 1;
    }
    pairs
};

/// Appends the digits of some bytes, high byte first.
pub fn put<const N: usize>(text: &mut Vec<u8>, bytes: [u8; N]) {
    text.extend_from_slice(bytes.map(|byte| PAIRS[byte as usize]).as_flattened());
}

pub fn put_position(text: &mut Vec<u8>, position: NVector) {
    components(position.as_vec3()).into_iter().for_each(|x| put_float(text, x));
}

pub fn put_line(text: &mut Vec<u8>, line: &Line<Walk>) {
    put_float(text, line.distance);
    put_float(text, line.bearing);
    put(text, [line.side]);
    put_float(text, line.offset);
    for walk in &line.walks {
        put(text, [walk.number]);
        put(text, walk.nanoseconds.to_be_bytes());
        put(text, [walk.count]);
    }
}

fn put_float(text: &mut Vec<u8>, x: f64) {
    put(text, bits(x).to_be_bytes());
}
