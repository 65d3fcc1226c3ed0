//! Times each call of a board by value, by the program `costs`, and the same of the plain board here.

use super::beside::Timed;
use std::ffi::OsString;
use std::{env, io};

/// The program, unless `COSTS` names another.
const PROGRAM: &str = concat!(env!("CARGO_MANIFEST_DIR"), "/../crates/costs/out/costs");
/// Many short rounds: other work on the machine then spoils some of them and not the best.
const ROUNDS: usize = 25;
/// Less than that many microseconds are no time, and have no ratio.
const NOTHING: f64 = 0.0005;

/// What is timed: a name, the call's number, how many times it is made.
type Case = (&'static str, u8, u32);

const CASES: [Case; 9] = [
    ("fresh", 1, 50_000),
    ("report of a held target", 2, 50_000),
    ("withdraw, then a first report", 3, 25_000),
    ("own_ship", 4, 50_000),
    ("track", 5, 50_000),
    ("solve", 6, 2_000),
    ("mean", 7, 25_000),
    ("pick", 8, 100_000),
    ("total", 9, 1_000_000),
];

/// Whether both sides have the same digests. Rounds go through all cases: a busy spell spoils none.
pub fn run() -> io::Result<bool> {
    let mut timed = Vec::new();
    for (_, call, count) in CASES {
        timed.push(Timed::new(&format!("cost-{call}"), &line(call, count))?);
    }
    let mut none = Timed::new("cost-none", &line(1, 0))?;
    for _ in 0..ROUNDS {
        none.round(&program(), "cost")?;
        timed.iter_mut().try_for_each(|case| case.round(&program(), "cost"))?;
    }
    println!("64 targets held, best of {ROUNDS} rounds, less a run without the calls\n");
    println!("| call | here, µs | Rust, µs | ratio |\n|---|---:|---:|---:|");
    for ((name, _, count), case) in CASES.iter().zip(&timed) {
        let each = |side: usize| (case.best[side] - none.best[side]) * 1e3 / f64::from(*count);
        let [here, rust] = [each(0), each(1)];
        let ratio = if rust < NOTHING { "-".into() } else { format!("{:.2}", here / rust) };
        println!("| {name} | {here:.3} | {rust:.3} | {ratio} |");
    }
    let equal = timed.iter().all(|case| case.differences == 0);
    println!("\ndigests {}", if equal { "equal" } else { "differ" });
    Ok(equal)
}

fn program() -> OsString {
    env::var_os("COSTS").unwrap_or_else(|| PROGRAM.into())
}

/// A line of the program.
fn line(call: u8, count: u32) -> Vec<u8> {
    format!("{call:02x}{count:08x}\n").into_bytes()
}
