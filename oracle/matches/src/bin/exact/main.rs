//! The accuracy rule: the rounding error of the reported evidence of a placed shot is at most N × (N + 67) / 65,536, with the
//! legacy flag and without it, by the weights after the cut of document 02, 2.8. Computes both for every placement of many
//! shots, then searches for bad shots. Ends with 1 if one breaks the rule, or if `oracle/RESULTS.md` has other figures;
//! `--write` writes them there.

mod search;

use cases::results::{self, number, table};
use matches::exact::{self, Worst};
use matches::given::{KINDS, Kind, LEGACY_KINDS};
use matches::match_record;
use matches::weights::Uncut;
use records::{Shot, built_in_table};
use search::Search;
use std::process::ExitCode;

/// Records of each kind, but of the large ones no more than this.
const OF_EACH_KIND: usize = 1_500;
const LARGE: usize = 60;
const MOST_CELLS_OF_MANY: usize = 64;

/// The last number of cells in each class.
const CLASSES: [usize; 5] = [1, 4, 16, 64, 256];

const SEARCHED: [usize; 5] = [1, 2, 4, 16, 256];

#[derive(Clone, Copy, Default)]
struct Class {
    shots: usize,
    placements: usize,
    ratio: f64,
    broken: usize,
    /// Shots with a weight that the least weight cuts.
    cut: usize,
}

impl Class {
    fn add(&mut self, worst: &Worst, shot: &Shot) {
        self.shots += 1;
        self.cut += usize::from(Uncut::all(shot).iter().any(Uncut::is_lost));
        self.placements += worst.placements;
        self.ratio = self.ratio.max(worst.ratio.unwrap_or(0.0));
        self.broken += usize::from(worst.breaks_the_rule);
    }
}

/// The block of `oracle/RESULTS.md`.
const BLOCK: &str = "exact";

fn main() -> ExitCode {
    let words: Vec<String> = std::env::args().skip(1).collect();
    let writes = match &words.iter().map(String::as_str).collect::<Vec<_>>()[..] {
        [] => false,
        ["--write"] => true,
        _ => {
            eprintln!("usage: exact [--write]");
            return ExitCode::FAILURE;
        }
    };
    let random = [&KINDS, &LEGACY_KINDS].map(|kinds| of_many_shots(kinds));
    let searched = [false, true].map(of_bad_shots);
    let random_broken = random.as_flattened().iter().map(|class| class.broken);
    let searched_broken = searched.as_flattened().iter().map(|found| found.broken);
    let broken = random_broken.chain(searched_broken).sum::<usize>();
    let block = block(&random, &searched);
    print!("{block}");
    println!("shots that break the rule: {broken}");
    if broken != 0 {
        return ExitCode::FAILURE;
    }
    if random.iter().any(|classes| cut(classes) == 0) {
        eprintln!("no shot has a weight above 0 that is below the least weight");
        return ExitCode::FAILURE;
    }
    if let Err(message) = results::settle(BLOCK, &block, writes) {
        eprintln!("{message}");
        return ExitCode::FAILURE;
    }
    ExitCode::SUCCESS
}

/// The tables of a run in which no shot breaks the rule.
fn block(random: &[[Class; CLASSES.len()]; 2], searched: &[[Found; SEARCHED.len()]; 2]) -> String {
    let rows: Vec<Vec<String>> = (CLASSES.into_iter().enumerate())
        .map(|(place, last)| {
            let of = |class: Class| {
                let [shots, placements] = [class.shots, class.placements];
                let counts = [shots, placements].map(|count| number(count as u64));
                [&counts[..], &[share(class.ratio)]].concat()
            };
            let [one, legacy] = [random[0][place], random[1][place]].map(of);
            [vec![format!("up to {last}")], one, legacy].concat()
        })
        .collect();
    let heads = [
        "cells",
        "shots placed",
        "placements",
        "worst",
        "legacy boards: shots placed",
        "placements",
        "worst",
    ];
    let mut text = format!("Random shots:\n\n{}", table(&heads, &rows));
    let [current, legacy] = random.map(|classes| number(cut(&classes)));
    text += &format!(
        "\nOf these, {current} shots and {legacy} of legacy boards have a weight above 0 that is below the least weight.\n"
    );
    let rows: Vec<Vec<String>> = (SEARCHED.into_iter().enumerate())
        .map(|(place, cells)| {
            let of_table = |table: usize| {
                let ratios = searched.map(|found| found[place].ratios[table]);
                share(ratios[0].max(ratios[1]))
            };
            vec![cells.to_string(), of_table(0), of_table(1)]
        })
        .collect();
    let heads = ["cells", "any table", "built-in table"];
    text += "\nWorst shots found by hill climbing on grey levels, weights and tables, with and without the legacy flag:\n\n";
    text + &table(&heads, &rows)
}

/// The shots of all classes with a weight that the least weight cuts.
fn cut(classes: &[Class]) -> u64 {
    classes.iter().map(|class| class.cut as u64).sum()
}

fn share(ratio: f64) -> String {
    format!("{ratio:.3}")
}

fn of_many_shots(kinds: &[Kind]) -> [Class; CLASSES.len()] {
    let mut classes = [Class::default(); CLASSES.len()];
    let mut large = 0;
    for given in kinds
        .iter()
        .flat_map(|kind| kind.first(OF_EACH_KIND.min(kind.count)))
    {
        let matched = match_record(&given.record, given.places);
        let (Ok(_), Some(read)) = (matched, records::read(&given.record)) else {
            continue;
        };
        let cells = read.shot.cells.len();
        if cells > MOST_CELLS_OF_MANY {
            large += 1;
            if large > LARGE {
                continue;
            }
        }
        let class = CLASSES.iter().position(|&last| cells <= last);
        let worst = exact::worst(&read.shot);
        classes[class.expect("no more than 256")].add(&worst, &read.shot);
    }
    classes
}

/// The worst shots of a search with any table and with the built-in one.
#[derive(Clone, Copy, Default)]
struct Found {
    ratios: [f64; 2],
    broken: usize,
}

/// The search starts anew for each number of cells, for errors up and down, and for both kinds of tables.
fn of_bad_shots(legacy: bool) -> [Found; SEARCHED.len()] {
    SEARCHED.map(|cells| {
        let mut found = Found::default();
        let tables = [search::near_the_floor(), built_in_table()];
        for (ratio, table) in found.ratios.iter_mut().zip(tables) {
            for is_up in [true, false] {
                let shot = Search::new(table, cells, is_up).run(legacy);
                let matched = matches::match_shot(&shot, usize::MAX);
                matched.expect("a search ends with a shot that is placed");
                let worst = exact::worst(&shot);
                *ratio = ratio.max(worst.ratio.unwrap_or(0.0));
                found.broken += usize::from(worst.breaks_the_rule);
            }
        }
        found
    })
}
