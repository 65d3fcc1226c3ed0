//! The program `costs` in Rust: makes one call of the plain board many times, prints a digest.

use super::board::Board;
use super::walks;
use crate::inputs::scenes::EARTH;
use crate::jord::NVector;
use std::hint::black_box;
use std::io::{self, Read, Write};

/// The most targets of a board.
const HELD: u64 = 64;
/// Digits of a line that name the call; the rest say how many times.
const CALL: usize = 2;

/// Answers each line on standard input by a digest.
pub fn run() -> io::Result<()> {
    let mut text = String::new();
    io::stdin().read_to_string(&mut text)?;
    for line in text.lines() {
        let number = |digits| u64::from_str_radix(digits, 16).map_err(io::Error::other);
        let (call, count) = line.split_at_checked(CALL).ok_or(io::ErrorKind::InvalidData)?;
        writeln!(io::stdout(), "{:016x}", cost(number(call)?, number(count)?))?;
    }
    Ok(())
}

/// The call that a number names, so many times, from a board with 64 targets.
fn cost(call: u64, count: u64) -> u64 {
    let mut board = full();
    let seen = match call {
        1 => turns(&mut board, count, |board, turn| {
            *board = begun(EARTH + turn as f64);
            0
        }),
        2 => turns(&mut board, count, report),
        3 => turns(&mut board, count, |board, turn| {
            number(board.withdraw(identity(turn))).wrapping_add(report(board, turn))
        }),
        4 => turns(&mut board, count, |board, turn| number(board.own_ship(fix(turn)))),
        5 => turns(&mut board, count, |board, turn| number(board.track(track(turn)))),
        6 => turns(&mut board, count, solve),
        7 => turns(&mut board, count, |board, _| of_mean(board.mean())),
        8 => turns(&mut board, count, |board, _| of_choice(board.pick())),
        _ => turns(&mut board, count, |board, _| board.total().into()),
    };
    let solved = solve(&mut board, 0).wrapping_add(board.total().into());
    let asked = of_mean(board.mean()).wrapping_add(of_choice(board.pick()));
    seen.wrapping_add(solved).wrapping_add(asked)
}

/// The sum of what the turns answered. The board is new to each turn, so that none is saved.
fn turns(board: &mut Board, count: u64, call: impl Fn(&mut Board, u64) -> u64) -> u64 {
    (0..count).fold(0, |seen, turn| seen.wrapping_add(call(black_box(board), turn)))
}

/// A board with an own ship, a track and 64 targets, each with a line.
fn full() -> Board {
    let mut board = begun(EARTH);
    board.own_ship(fix(HELD)).expect("an own ship");
    board.track(track(0)).expect("a track");
    turns(&mut board, HELD, report);
    turns(&mut board, HELD, solve);
    board
}

fn begun(radius: f64) -> Board {
    Board::fresh(radius, walks::watched_solve).expect("a radius")
}

fn report(board: &mut Board, turn: u64) -> u64 {
    number(board.report(identity(turn), fix(turn)))
}

fn solve(board: &mut Board, turn: u64) -> u64 {
    board.solve(identity(turn)).map_or_else(u64::from, |_| 1)
}

/// 0 for done, or the refusal's number.
fn number(answer: Result<(), u8>) -> u64 {
    answer.err().unwrap_or(0).into()
}

/// The bits of the position's x, or the refusal's number.
fn of_mean(mean: Result<NVector, u8>) -> u64 {
    mean.map_or_else(u64::from, |position| position.as_vec3().x().to_bits())
}

fn of_choice(choice: Result<u16, u8>) -> u64 {
    choice.map_or_else(u64::from, u64::from)
}

/// One of 64 identities, which do not come in their order.
fn identity(turn: u64) -> u16 {
    (turn % HELD * 40_503 % 65_521 + 1) as u16
}

fn part(turn: u64, of: u64) -> f64 {
    (turn % of) as f64 / of as f64
}

/// The point of the unit sphere that is seen at (u, v) from its south pole.
fn coordinates(turn: u64) -> [f64; 3] {
    let [u, v] = [part(turn, 1009), part(turn, 997)];
    let s = u * u + v * v;
    let q = 1.0 + s;
    [2.0 * u / q, 2.0 * v / q, (1.0 - s) / q]
}

fn fix(turn: u64) -> [f64; 5] {
    let [x, y, z] = coordinates(turn);
    [x, y, z, 6.0 * part(turn, 991), 1.0 + 10.0 * part(turn, 983)]
}

fn track(turn: u64) -> [f64; 6] {
    let ([a, b, c], [d, e, f]) = (coordinates(turn), coordinates(turn + 1));
    [a, b, c, d, e, f]
}
