//! Lines that are no frames: frames spoilt in every way that a reader may overlook.

use super::random::Random;
use crate::hexadecimal::{self, DIGITS};

/// How a frame's digits become something else.
pub type Sort = fn(&mut Random, &mut Vec<u8>);

/// What stands where a digit belongs: neighbours of digits, capitals, controls, high bytes.
const NO_DIGITS: &[u8] = b"/:`g@AFGZz xX-+.\0\t\r\x0b\x1a\x1b\x7f\x80\xb0\xe9\xff";
/// Lengths about the longest frame, and about usual sizes of buffers.
const LENGTHS: [u64; 9] = [97, 98, 99, 100, 101, 128, 196, 4_096, 65_536];

/// Some of them leave a frame now and then; whoever answers has to see that.
pub const SORTS: &[(&str, Sort)] = &[
    ("empty", |_, line| line.clear()),
    ("a CR at the end", |_, line| line.push(b'\r')),
    ("a byte more in front", |r, line| line.insert(0, r.choose(b" 0\t\0\r+-"))),
    ("a byte more at the end", |r, line| line.push(r.choose(b" \t\0,;"))),
    ("a byte more within", |r, line| {
        let place = r.below(line.len() as u64 + 1) as usize;
        line.insert(place, r.choose(b" \t\0\r0"));
    }),
    ("one digit more", |r, line| line.push(digit(r))),
    ("some digits more", |r, line| {
        let more = 2 + r.below(15);
        line.extend((0..more).map(|_| digit(r)));
    }),
    ("one digit fewer", |_, line| line.truncate(line.len().saturating_sub(1))),
    ("cut", |r, line| line.truncate(r.below(line.len() as u64 + 1) as usize)),
    ("a capital", |r, line| change(r, line, |r, _| r.choose(b"ABCDEF"))),
    ("all letters capitals", |_, line| line.make_ascii_uppercase()),
    ("no digit in the place of one", |r, line| change(r, line, |r, _| r.choose(NO_DIGITS))),
    ("any byte in the place of one", |r, line| change(r, line, |r, _| r.next() as u8)),
    ("a high bit", |r, line| change(r, line, |_, byte| byte | 0x80)),
    ("the last digit is none", |r, line| {
        line.pop();
        line.push(r.choose(NO_DIGITS));
    }),
    ("another kind", |r, line| {
        line.drain(..line.len().min(2));
        let kind = if r.coin() { r.below(256) } else { r.below(11) };
        let mut front = Vec::new();
        hexadecimal::append(&mut front, kind, 2);
        line.splice(0..0, front);
    }),
    ("some length", |r, line| {
        let length = r.choose(&LENGTHS[..7]) as usize;
        line.resize_with(length, || digit(r));
    }),
    ("two frames", |_, line| line.extend_from_within(..)),
    ("a prefix", |_, line| {
        line.splice(0..0, *b"0x");
    }),
    ("a mark of byte order", |_, line| {
        line.splice(0..0, *b"\xef\xbb\xbf");
    }),
    ("digits parted", |r, line| {
        let parted: Vec<u8> = line.chunks(16).collect::<Vec<_>>().join(&r.choose(b" ,_"));
        *line = parted;
    }),
    ("any bytes", |r, line| {
        let length = r.below(120) as usize;
        line.clear();
        line.resize_with(length, || r.next() as u8);
    }),
    ("any digits", |r, line| {
        let length = r.below(120) as usize;
        line.clear();
        line.resize_with(length, || digit(r));
    }),
];

/// One line in so many of those spoilt is very long.
const VERY_LONG: u64 = 1_000;

/// Spoils a line in the way of a sort; it stays one line.
pub fn spoil(r: &mut Random, sort: usize, line: &mut Vec<u8>) {
    SORTS[sort % SORTS.len()].1(r, line);
    if r.below(VERY_LONG) == 0 {
        lengthen(r, line);
    }
    one_line(line);
}

/// Makes a line longer than a usual buffer, its beginning kept.
pub fn lengthen(r: &mut Random, line: &mut Vec<u8>) {
    let length = r.choose(&LENGTHS[7..]) * (1 + r.below(3)) + r.below(3) - 1;
    line.resize_with(length as usize, || digit(r));
}

/// A frame with one digit changed to what is none, twice in each place.
pub fn each_place(frame: &[u8]) -> Vec<Vec<u8>> {
    let spoilt = |place: usize| {
        [NO_DIGITS[place % NO_DIGITS.len()], b'g'].map(|byte| {
            let mut line = frame.to_vec();
            line[place] = byte;
            line
        })
    };
    (0..frame.len()).flat_map(spoilt).collect()
}

fn change(r: &mut Random, line: &mut [u8], to: impl Fn(&mut Random, u8) -> u8) {
    if !line.is_empty() {
        let place = r.below(line.len() as u64) as usize;
        line[place] = to(r, line[place]);
    }
}

fn digit(r: &mut Random) -> u8 {
    r.choose(DIGITS)
}

fn one_line(line: &mut [u8]) {
    for byte in line.iter_mut().filter(|byte| **byte == b'\n') {
        *byte = b'\x0b';
    }
}
