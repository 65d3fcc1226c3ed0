//! Holds the proved functions to their Rust references.

// Without the original nobody draws its inputs.
#![cfg_attr(not(original), allow(dead_code))]

mod answer;
mod distance;
mod function;
mod functions;
mod ground;
mod hexadecimal;
mod inputs;
#[cfg(original)]
#[allow(dead_code, unused_imports, clippy::all)]
mod jord;
mod lines;
#[cfg_attr(not(original), path = "absent.rs")]
mod original;
mod ours;
mod piped;
mod probe;
mod reference;
mod sample;
mod scale;
mod second;
mod stream;
mod time;

use original::{
    answering, boards, chases, cost, costs, plot, plots, solves, speeds, stored, thirteen, whole,
};
use std::{env, io, process::ExitCode};

const USAGE: &str = "usage: compare whole [PERCENT] | scale [N] | time | jord [N] | sphere [N] \
                     | nine [N] | chases [N] | thirteen [N] | solves | answer | sample STDIN STDOUT | probe [N] | board [N] | plots [N] \
                     | speeds | plot | costs | cost | session STDIN STDOUT";
const NOT_LINKED: &str =
    "no library: run `rt lib` in crates/exports, then build again";
const NOT_BUILT: &str = "no original: put its source in ../../shared/docs/src, or name its folder \
                         in JORD_SRC, then build again";
/// Commands that need the original.
const ORIGINAL: [&str; 17] = [
    "whole", "jord", "sphere", "nine", "chases", "thirteen", "solves", "answer", "sample", "probe",
    "board", "plots", "speeds", "plot", "costs", "cost", "session",
];
/// How much of all the following numbers the whole comparison meets.
const PERCENT: u64 = 100;
/// Drawn inputs for each function, unless the command says otherwise.
const SCALE: u64 = 10_000_000;
const JORD: u64 = 1_000_000;
const SPHERE: u64 = 2_000_000;
const NINE: u64 = 1_000_000;
const CHASES: u64 = 1_000_000;
const THIRTEEN: u64 = 100_000;
const PROBE: u64 = 20_000;
/// Calls of boards, and lines of `plot`.
const BOARD: u64 = 1_000_000;
const PLOTS: u64 = 5_000_000;

fn main() -> ExitCode {
    let words: Vec<String> = env::args().skip(1).collect();
    let words: Vec<&str> = words.iter().map(String::as_str).collect();
    match run(&words) {
        Ok(true) => ExitCode::SUCCESS,
        Ok(false) => ExitCode::from(1),
        Err(message) => {
            eprintln!("{message}");
            ExitCode::from(2)
        }
    }
}

/// Whether all compared answers are equal; an error if nothing could be compared.
fn run(words: &[&str]) -> Result<bool, String> {
    match words {
        ["whole" | "scale" | "time", ..] if !ours::LINKED => Err(NOT_LINKED.into()),
        [command, ..] if ORIGINAL.contains(command) && !original::BUILT => Err(NOT_BUILT.into()),
        ["whole", rest @ ..] => whole::run(count(rest, PERCENT)?),
        ["scale", rest @ ..] => Ok(scale::run(count(rest, SCALE)?)),
        ["time"] => {
            time::run();
            Ok(true)
        }
        ["sample", stdin, stdout] => sample::write(stdin, stdout)
            .map(|()| true)
            .map_err(|error| format!("the sample is not written: {error}")),
        ["jord", rest @ ..] => piped::jord(count(rest, JORD)?).map_err(unfit),
        ["sphere", rest @ ..] => piped::sphere(count(rest, SPHERE)?).map_err(unfit),
        ["nine", rest @ ..] => piped::nine(count(rest, NINE)?).map_err(unfit),
        ["chases", rest @ ..] => {
            chases::run(count(rest, CHASES)?);
            Ok(true)
        }
        ["thirteen", rest @ ..] => {
            thirteen::run(count(rest, THIRTEEN)?);
            Ok(true)
        }
        ["solves"] => solves::run().map_err(unfit),
        ["answer"] => answering::run().map(|()| true).map_err(|error| error.to_string()),
        ["session", stdin, stdout] => stored::write(stdin, stdout)
            .map(|()| true)
            .map_err(|error| format!("the session is not written: {error}")),
        ["board", rest @ ..] => boards::run(count(rest, BOARD)?).map_err(unplotted),
        ["plots", rest @ ..] => plots::run(count(rest, PLOTS)?).map_err(unplotted),
        ["speeds"] => speeds::run().map_err(unplotted),
        ["plot"] => plot::run().map(|()| true).map_err(|error| error.to_string()),
        ["costs"] => costs::run().map_err(|error| format!("crates/costs/out/costs: {error}")),
        ["cost"] => cost::run().map(|()| true).map_err(|error| error.to_string()),
        ["probe", rest @ ..] => probe::compare(count(rest, PROBE)?).map_err(unfit),
        _ => Err(USAGE.into()),
    }
}

/// The program could not be run.
fn unfit(error: io::Error) -> String {
    format!("crates/probe/out/probe: {error}")
}

fn unplotted(error: io::Error) -> String {
    format!("crates/plot/out/plot: {error}")
}

/// The one number handed over, or the usual one.
fn count(words: &[&str], usual: u64) -> Result<u64, String> {
    match words {
        [] => Ok(usual),
        [number] => number.parse().map_err(|_| USAGE.into()),
        _ => Err(USAGE.into()),
    }
}
