//! Prints the rows that the program `replay` compares this library with: the answers of upstream, and of the oracle's own
//! rules where upstream has none. This library is not used. How many rows there are of each kind is printed on standard
//! error.

mod covered;
mod entries;
mod kinds;
mod least_weights;
mod many_codes;
mod matches;
mod parts;
mod records;
mod restated;
mod score_arrays;
mod scores;
mod script;

use script::Script;
use std::io::{self, Write};

fn main() -> io::Result<()> {
    let mut script = Script::default();
    parts::ask(&mut script);
    scores::ask(&mut script);
    entries::ask_boards(&mut script);
    records::ask(&mut script);
    entries::ask_cells(&mut script);
    entries::ask_corners(&mut script, false);
    entries::ask_links(&mut script, false);
    matches::ask(&mut script);
    // Legacy boards come after all others, equal codes after them, then cells at the same position, then counts, then many
    // codes, then matches with scores, then restated records, and least weights last, so that the rows before stay.
    parts::ask_layouts(&mut script, true);
    records::ask_marked(&mut script);
    entries::ask_corners(&mut script, true);
    entries::ask_links(&mut script, true);
    matches::ask_marked(&mut script);
    entries::ask_look_alikes(&mut script, false);
    entries::ask_look_alikes(&mut script, true);
    matches::ask_repeats(&mut script, false);
    matches::ask_repeats(&mut script, true);
    matches::ask_counts(&mut script, false);
    matches::ask_counts(&mut script, true);
    many_codes::ask(&mut script);
    score_arrays::ask(&mut script, false);
    score_arrays::ask(&mut script, true);
    restated::ask(&mut script);
    least_weights::ask(&mut script);
    covered::check(&script);
    for &kind in kinds::ALL {
        let rows = script.asked.iter().filter(|asked| asked.kind == kind);
        eprintln!("{:3X} {}: {}", kind.number, kind.name, rows.count());
    }
    eprintln!("all: {}", script.asked.len());
    let mut out = io::stdout().lock();
    write!(out, "{}{}", include_str!("header.txt"), script.lines)
}
