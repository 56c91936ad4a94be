//! What the benchmarks share. All sides take their turn in every round.

pub mod heap;
mod stack;
mod whole_match;

use crate::entries::Input;
use std::fmt::Display;
use std::hint::black_box;
use std::panic;
use std::process::ExitCode;
use std::time::Instant;

pub use whole_match::{Board, WholeMatch, seen};

pub const ROUNDS: usize = 31;

/// A short case is repeated until a round takes about so many nanoseconds.
const LENGTH_OF_A_ROUND: f64 = 5e6;

/// A case that takes upstream longer than this has one round.
const LONG: f64 = 1e9;

/// The sides whose times are divided.
const RATIOS: [[&str; 2]; 4] = [
    ["ours", "theirs"],
    ["second", "theirs"],
    ["second", "ours"],
    ["ours", "calls"],
];

/// Runs that are ready to be timed.
pub type Runs<'a> = Box<dyn FnOnce() + Send + 'a>;

/// So many runs, each a call.
pub fn runs<'a, T>(count: usize, mut call: impl FnMut() -> T + Send + 'a) -> Runs<'a> {
    Box::new(move || {
        for _ in 0..count {
            black_box(call());
        }
    })
}

/// One side of a case: its name, and what makes so many runs of it. The output arrays of these runs, and what they use up,
/// are made before they are timed.
pub struct Side<'a> {
    name: &'static str,
    runs_of: Box<dyn Fn(usize) -> Runs<'a> + 'a>,
}

impl<'a> Side<'a> {
    pub fn ours(runs_of: impl Fn(usize) -> Runs<'a> + 'a) -> Self {
        Self::new("ours", runs_of)
    }

    /// This library's match with scores.
    pub fn second(runs_of: impl Fn(usize) -> Runs<'a> + 'a) -> Self {
        Self::new("second", runs_of)
    }

    /// The calls of this library that a program makes, without the rest of it.
    pub fn calls(runs_of: impl Fn(usize) -> Runs<'a> + 'a) -> Self {
        Self::new("calls", runs_of)
    }

    pub fn theirs(runs_of: impl Fn(usize) -> Runs<'a> + 'a) -> Self {
        Self::new("theirs", runs_of)
    }

    fn new(name: &'static str, runs_of: impl Fn(usize) -> Runs<'a> + 'a) -> Self {
        Self {
            name,
            runs_of: Box::new(runs_of),
        }
    }
}

pub trait Case {
    /// Ours first, upstream's last.
    fn sides(&self) -> Vec<Side<'_>>;

    /// Do all sides return the same?
    fn agrees(&self) -> bool;

    /// How many units a run has, by which times are divided.
    fn units(&self) -> usize {
        1
    }

    /// Runs of a round, if their number is fixed.
    fn fixed_runs(&self) -> Option<usize> {
        None
    }
}

/// The arguments of a benchmark: `[SIDE|all [ROUNDS [CASE]]]`.
struct Arguments {
    /// The name of the side that is run alone.
    side: Option<String>,
    rounds: usize,
    case: Option<usize>,
}

impl Arguments {
    /// None if they are not understood, for a benchmark with so many cases, these sides and, unless another number is given, so
    /// many rounds.
    fn read(cases: usize, sides: &[&str], rounds: usize) -> Option<Self> {
        let words: Vec<String> = std::env::args().skip(1).collect();
        let side = words.first().filter(|&side| side != "all").cloned();
        let rounds = words.get(1).map_or(Ok(rounds), |word| word.parse()).ok()?;
        let case = words.get(2).map(|word| word.parse()).transpose().ok()?;
        let is_known = side.as_ref().is_none_or(|side| sides.contains(&&side[..]))
            && words.len() <= 3
            && rounds > 0
            && case.is_none_or(|case| case < cases);
        is_known.then_some(Self { side, rounds, case })
    }

    fn includes(&self, side: &Side) -> bool {
        self.side.as_ref().is_none_or(|name| name == side.name)
    }
}

/// What a benchmark prints.
pub struct Bench {
    pub program: &'static str,
    /// What a time is for.
    pub unit: &'static str,
    /// Whether the memory of a call is printed. This takes the allocator `heap::Counting`.
    pub tells_memory: bool,
    pub rounds: usize,
    /// Printed before all cases.
    pub first: fn(),
}

impl Bench {
    /// One that prints the memory too.
    pub const fn with_memory(program: &'static str, unit: &'static str) -> Self {
        Self {
            program,
            unit,
            tells_memory: true,
            rounds: ROUNDS,
            first: || (),
        }
    }

    /// Ends with 1 if the sides differ.
    pub fn run<C: Case>(&self, cases: Vec<(impl Display, C)>) -> ExitCode {
        let sides = cases.first().map_or(Vec::new(), |(_, case)| case.sides());
        let sides: Vec<&str> = sides.iter().map(|side| side.name).collect();
        let Some(arguments) = Arguments::read(cases.len(), &sides, self.rounds) else {
            let program = self.program;
            eprintln!("usage: {program} [{}|all [ROUNDS [CASE]]]", sides.join("|"));
            return ExitCode::FAILURE;
        };
        warn_of_checks();
        if arguments.case.is_none() {
            (self.first)();
        }
        let mut agree = true;
        for (number, (name, case)) in cases.iter().enumerate() {
            if arguments.case.is_none_or(|case| case == number) {
                println!("case {number}: {name}");
                agree &= self.measure(case, &arguments);
                if self.tells_memory {
                    case.sides().iter().for_each(print_memory);
                }
            }
        }
        ExitCode::from(u8::from(!agree))
    }

    /// Prints the times. Do the answers agree, if all sides are run?
    fn measure(&self, case: &impl Case, arguments: &Arguments) -> bool {
        let mut rounds = arguments.rounds;
        let mut sides = case.sides();
        let count = case.fixed_runs().unwrap_or_else(|| {
            let theirs = sides.last().expect("upstream's side");
            let length = nanoseconds((theirs.runs_of)(1));
            if length > LONG {
                rounds = 1;
            }
            runs_of_a_round(length)
        });
        let units = (count * case.units()) as f64;
        sides.retain(|side| arguments.includes(side));
        let mut times = vec![Vec::new(); sides.len()];
        for _ in 0..rounds {
            for (side, times) in sides.iter().zip(&mut times) {
                times.push(nanoseconds((side.runs_of)(count)) / units);
            }
        }
        let times: Vec<(&str, [f64; 2])> = (sides.iter().zip(times))
            .map(|(side, times)| (side.name, self.print_times(side.name, times)))
            .collect();
        let of = |name: &str| times.iter().find(|(side, _)| *side == name);
        for [one, other] in RATIOS {
            if let (Some((_, ones)), Some((_, others))) = (of(one), of(other)) {
                let [best, median] = [0, 1].map(|i| ones[i] / others[i]);
                println!("    {one} / {other}  best {best:.3}, median {median:.3}");
            }
        }
        if arguments.side.is_some() {
            return true;
        }
        let agrees = case.agrees();
        if !agrees {
            println!("    the answers differ");
        }
        agrees
    }

    /// The best round and the median one.
    fn print_times(&self, side: &str, mut times: Vec<f64>) -> [f64; 2] {
        times.sort_by(f64::total_cmp);
        let [best, median] = [times[0], times[times.len() / 2]];
        let unit = self.unit;
        println!("    {side:6}  best {best:8.2} ns a {unit}, median {median:8.2}");
        [best, median]
    }
}

/// For a run that takes so many nanoseconds.
fn runs_of_a_round(length: f64) -> usize {
    (LENGTH_OF_A_ROUND / length).ceil() as usize
}

/// The best round of each, in nanoseconds a run. All take their turn in every round, so that a slow moment of the machine
/// meets one round of many cases and not all rounds of one.
pub fn best_of_each(sides: &[Side]) -> Vec<f64> {
    let lengths = sides.iter().map(|side| nanoseconds((side.runs_of)(1)));
    let counts: Vec<usize> = lengths.map(runs_of_a_round).collect();
    let mut best = vec![f64::INFINITY; sides.len()];
    for _ in 0..ROUNDS {
        for ((side, &count), best) in sides.iter().zip(&counts).zip(&mut best) {
            *best = best.min(nanoseconds((side.runs_of)(count)) / count as f64);
        }
    }
    best
}

pub fn nanoseconds(round: impl FnOnce()) -> f64 {
    let start = Instant::now();
    round();
    start.elapsed().as_nanos() as f64
}

/// On standard error, so that the lines of a table stay alone.
pub fn warn_of_checks() {
    if checks_overflow() {
        let advice = "use --profile speed";
        eprintln!("Built with checks for overflow, which slow upstream down: {advice}.");
    }
}

/// Whether the program is built with checks for overflow.
fn checks_overflow() -> bool {
    let hook = panic::take_hook();
    panic::set_hook(Box::new(|_| ()));
    let overflows = panic::catch_unwind(|| black_box(u8::MAX) + black_box(1)).is_err();
    panic::set_hook(hook);
    overflows
}

/// What a call uses besides what it is given: the most bytes of the heap at a time, and how deep it goes into the stack.
fn print_memory(side: &Side) {
    let heap = heap::most_used((side.runs_of)(1));
    let stack = stack::used((side.runs_of)(1));
    let name = side.name;
    println!("    {name:6}  {heap:9} bytes of heap, {stack:7} of stack");
}

/// An entry point whose first word is the number of results.
pub struct EntryCase {
    input: Box<dyn Input + Sync>,
    /// The results of upstream, counted.
    theirs: Box<dyn Fn() -> usize + Sync>,
}

impl EntryCase {
    pub fn new(
        input: impl Input + Sync + 'static,
        theirs: impl Fn() -> usize + Sync + 'static,
    ) -> Self {
        Self {
            input: Box::new(input),
            theirs: Box::new(theirs),
        }
    }
}

impl Case for EntryCase {
    fn sides(&self) -> Vec<Side<'_>> {
        let ours = Side::ours(move |count| {
            let mut values = [0; 2];
            let mut lent = vec![0; self.input.places()];
            let ours = self.input.ours();
            runs(count, move || ours(&mut values, black_box(&mut lent)))
        });
        vec![ours, Side::theirs(|count| runs(count, &self.theirs))]
    }

    /// Whether there are as many results. Upstream does not refuse too many cells.
    fn agrees(&self) -> bool {
        let mut values = [0; 2];
        let number = self.input.ours()(&mut values, &mut vec![0; self.input.places()]);
        number == 20 || number == 0 && values[0] as usize == (self.theirs)()
    }
}
