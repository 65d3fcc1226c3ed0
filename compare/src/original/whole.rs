//! The whole comparison: every function, the board and `plot` beside the Rust, a line each.

use super::beside::Timed;
use super::{boards, exchanges, plots, speeds};
use crate::function::{Function, Linked};
use crate::inputs::random::SEED;
use crate::{functions, lines, original, piped, scale, stream, time, unfit, unplotted};
use std::io;
use std::time::{Duration, Instant};

/// What a function of `probe` is timed on: so many of the lines that it is compared on.
/// Fewer, and the start of the programs would count for much.
const LINES: u64 = 50_000;
/// Rounds at least, and how long they go on: a busy spell of the machine is not to spoil all.
const ROUNDS: usize = 5;
const PATIENCE: Duration = Duration::from_secs(1);
/// From here on a number that is never met is a failure, as in `board` and `plots`.
const FULL: u64 = 100;

/// What all lines so far came to.
struct Whole {
    percent: u64,
    functions: u64,
    inputs: u64,
    differences: u64,
    /// Whether every program ended well and met what it was to meet.
    well: bool,
}

/// Whether nothing differs on so many percent of what each command meets by itself.
pub fn run(percent: u64) -> Result<bool, String> {
    println!("seed {SEED:016x}, {percent} percent of the usual inputs");
    println!("ratio: the time here over the Rust's; 01 to 0e, 8e: of the calls alone; all others:");
    println!("of two programs from a file into a file, text and their start included");
    println!("{:<4}{:<38}{:>12}{:>13}{:>8}", "", "function", "inputs", "differences", "ratio");
    let mut all = Whole { percent, functions: 0, inputs: 0, differences: 0, well: true };
    functions::FUNCTIONS.iter().for_each(|linked| all.linked(linked));
    let piped = [
        (original::FUNCTIONS, crate::JORD),
        (original::SPHERE, crate::SPHERE),
        (original::NINE, crate::NINE),
    ];
    for (functions, usual) in piped {
        functions.iter().try_for_each(|function| all.piped(function, usual)).map_err(unfit)?;
    }
    all.plot().map_err(unplotted)?;
    let Whole { functions, inputs, differences, well, .. } = all;
    print!("{functions} functions, the board and plot: {inputs} inputs, {differences} differences");
    println!("{}", if well { "" } else { "; not all ended well" });
    Ok(differences == 0 && well)
}

impl Whole {
    fn scaled(&self, usual: u64) -> u64 {
        usual.saturating_mul(self.percent) / 100
    }

    fn row(&mut self, head: &str, inputs: u64, differences: u64, ratio: Option<f64>) {
        print(head, inputs, differences, ratio);
        self.inputs += inputs;
        self.differences += differences;
    }

    fn function(&mut self, function: &Function, counts: [u64; 2], ratio: Option<f64>) {
        let head = format!("{:02x}  {}", function.number, function.name);
        self.row(&head, counts[0], counts[1], ratio);
        self.functions += 1;
    }

    /// A function of the library.
    fn linked(&mut self, linked: &Linked) {
        let tally = scale::compared(linked, self.scaled(crate::SCALE));
        let ratio = time::ratio(linked.function.name);
        self.function(&linked.function, [tally.inputs, tally.differences], ratio);
        tally.print_first();
    }

    /// A function of `probe`; one that differs is not timed.
    fn piped(&mut self, function: &Function, usual: u64) -> io::Result<()> {
        let tally = piped::compared(function, self.scaled(usual))?;
        let timed = tally.is_clean().then(|| timed(function)).transpose()?;
        let late = timed.as_ref().map_or(0, |timed| timed.differences);
        let counts = [tally.lines, tally.differences + late];
        self.function(function, counts, timed.map(|timed| timed.ratio()));
        tally.print_first();
        self.well &= tally.is_clean();
        Ok(())
    }

    fn board(&mut self) -> io::Result<()> {
        let calls = self.scaled(crate::BOARD).div_ceil(2);
        let lists = boards::lists(calls)?;
        self.row("board: lists", lists.tally.lines, lists.tally.differences, None);
        self.missing(lists.missing());
        let exchanged = exchanges::compare(calls)?;
        self.row("board: exchanges", exchanged.tally.lines, exchanged.differences(), None);
        Ok(())
    }

    /// The board by itself, then all lines; a `plot` that differs is not timed.
    fn plot(&mut self) -> io::Result<()> {
        let before = self.differences;
        self.board()?;
        self.lines()?;
        if self.differences == before { self.speeds() } else { Ok(()) }
    }

    fn lines(&mut self) -> io::Result<()> {
        let whole = plots::whole(self.scaled(crate::PLOTS))?;
        self.row("plot: in one go", whole.tally.lines, whole.tally.differences, None);
        self.missing(whole.missing());
        plots::WAYS.iter().try_for_each(|play| {
            let (name, tally) = play()?;
            self.row(&format!("plot: {name}"), tally.lines, tally.differences, None);
            Ok(())
        })
    }

    /// The lines are many and much alike: they would only swell the inputs in all.
    fn speeds(&mut self) -> io::Result<()> {
        for ((name, ..), case) in speeds::CASES.iter().zip(speeds::timed()?) {
            let head = format!("plot: {name}");
            print(&head, case.lines, case.differences, Some(case.ratio()));
            self.differences += case.differences;
        }
        Ok(())
    }

    /// Numbers that no reply had; in a short run that is to be expected.
    fn missing(&mut self, numbers: Vec<String>) {
        if !numbers.is_empty() {
            println!("    not met: {}", numbers.join(", "));
            self.well &= self.percent < FULL;
        }
    }
}

fn print(head: &str, inputs: u64, differences: u64, ratio: Option<f64>) {
    let ratio = ratio.map_or("-".into(), |ratio| format!("{ratio:.2}"));
    println!("{head:<42}{inputs:>12}{differences:>13}{ratio:>8}");
}

/// Both programs on the first of a function's drawn inputs.
fn timed(function: &Function) -> io::Result<Timed> {
    let mut text = String::new();
    function.each_drawn(function.number as u64, LINES, |words| {
        text += &lines::call(function, words);
        text.push('\n');
    });
    let mut timed = Timed::new("function", text.as_bytes())?;
    let start = Instant::now();
    let mut rounds = 0;
    while rounds < ROUNDS || start.elapsed() < PATIENCE {
        timed.round(&stream::program(), "answer")?;
        rounds += 1;
    }
    Ok(timed)
}
