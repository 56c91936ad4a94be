//! A search for shots whose reported evidence is far from the exact one: grey levels, weights and the table are changed step
//! by step, and a change stays if the error grows.
//!
//! The cells lie on the first markers of a board of 32 by 32 squares and show all bits, of 8 by 8. The 256 markers of the upper half
//! have all bits but for two at most, so that the shot is placed. Those of the lower half have two bits at most: their
//! evidence sums entries below the middle of the table, 62 to 64 for each cell, as far from 0 as they can be. The placement
//! that expects these, 16 rows below, is the one that errs.

use cases::codes::least_turn;
use cases::layout::marker_squares;
use cases::prng::Prng;
use matches::Wide;
use records::{Cell, Sample, Shot, TABLE_LENGTH, built_in_table, settings};
use theirs::null_score;

const BITS: u8 = 8;
const SIDE: usize = 10;
const ENTRIES: usize = 64;
const MIDDLE: usize = 255;

/// Rows and columns of the board, and the markers of one half of it.
const ROWS: u8 = 32;
const HALF: usize = 256;

/// Cells that are tried before one is taken, and changes that are tried afterwards.
const TRIED: usize = 300;
const CHANGES: usize = 30_000;

type Table = [u32; TABLE_LENGTH];

/// Entries just above -8, an ulp apart; what the cells show adds 0.
pub fn near_the_floor() -> Table {
    let floor = (-8.0f32).to_bits();
    std::array::from_fn(|k| if k <= MIDDLE { floor - k as u32 } else { 0 })
}

/// Codes of two bits at most, no two of them equal up to rotation: those of fewer bits first.
fn few_bits() -> Vec<u64> {
    let bit = |k: usize| 1u64 << k;
    let one = (0..ENTRIES).map(bit);
    let two = (0..ENTRIES).flat_map(|b| (0..b).map(move |a| bit(a) | bit(b)));
    let all = [0].into_iter().chain(one).chain(two);
    let least = all.filter(|&code| least_turn(code, BITS) == code);
    least.take(HALF).collect()
}

/// A cell by the differences of threshold and grey in its bits, 1 to 255, its weight, and the code that it is compared with.
#[derive(Clone)]
struct Row {
    code: u64,
    differences: [u8; ENTRIES],
    weight: f32,
}

/// What a cell adds: as reported, and exactly.
#[derive(Clone, Copy)]
struct Part {
    reported: f32,
    exact: Wide,
}

pub struct Search {
    prng: Prng,
    table: Table,
    is_table_fixed: bool,
    cells: usize,
    is_up: bool,
    /// Of the markers that the placement expects, cell by cell.
    codes: Vec<u64>,
    rows: Vec<Row>,
    parts: Vec<Part>,
}

impl Search {
    pub fn new(table: Table, cells: usize, is_up: bool) -> Self {
        Self {
            prng: Prng::new(cells as u64),
            is_table_fixed: table == built_in_table(),
            table,
            cells,
            is_up,
            codes: few_bits(),
            rows: Vec::new(),
            parts: Vec::new(),
        }
    }

    /// On a board with the legacy flag, or without it.
    pub fn run(mut self, legacy: bool) -> Shot {
        for _ in 0..self.cells {
            self.take_best_cell();
        }
        let mut error = self.error(&self.parts);
        for _ in 0..CHANGES {
            if self.prng.one_in(8) && !self.is_table_fixed && self.cells <= 16 {
                self.change_table(&mut error);
            } else {
                self.change_cell(&mut error);
            }
        }
        self.shot(legacy)
    }

    /// What a bit adds that is set, or not, in the code.
    fn entry(&self, difference: u8, is_set: bool) -> f32 {
        let difference = usize::from(difference);
        let place = if is_set {
            MIDDLE + difference
        } else {
            MIDDLE - difference
        };
        f32::from_bits(self.table[place])
    }

    fn part(&self, row: &Row) -> Part {
        let entries: [f32; ENTRIES] =
            std::array::from_fn(|k| self.entry(row.differences[k], is_set(row.code, k)));
        let score = entries.iter().fold(0.0, |sum, entry| sum + entry);
        let exact = entries.map(Wide::of_float);
        let exact = exact.into_iter().fold(Wide::ZERO, |sum, entry| sum + entry);
        let null_score = null_score(BITS);
        Part {
            reported: row.weight * (score - null_score),
            exact: Wide::of_float(row.weight) * (exact - Wide::of_float(null_score)),
        }
    }

    /// Of the sum over cells, in the direction that is looked for.
    fn error(&self, parts: &[Part]) -> f64 {
        let reported = parts.iter().fold(0.0, |sum, part| sum + part.reported);
        let exact = parts.iter().fold(Wide::ZERO, |sum, part| sum + part.exact);
        let error = (Wide::of_float(reported).shifted(149) - exact).about();
        if self.is_up { error } else { -error }
    }

    fn take_best_cell(&mut self) {
        let mut best: Option<(f64, Row, Part)> = None;
        for _ in 0..TRIED {
            let row = self.greedy_row();
            let part = self.part(&row);
            let error = self.error(&[&self.parts[..], &[part]].concat());
            if best.as_ref().is_none_or(|&(most, ..)| error > most) {
                best = Some((error, row, part));
            }
        }
        let (_, row, part) = best.expect("some cells were tried");
        self.rows.push(row);
        self.parts.push(part);
    }

    /// Each entry is the one among some whose addition errs most.
    fn greedy_row(&mut self) -> Row {
        let code = self.codes[self.rows.len()];
        let mut score = 0.0f32;
        let mut differences = [1; ENTRIES];
        for (k, place) in differences.iter_mut().enumerate() {
            let tried = self.prng.many(48, |prng| 1 + prng.below(255) as u8);
            let error = |difference: u8| {
                let entry = self.entry(difference, is_set(code, k));
                let error = f64::from(score + entry) - (f64::from(score) + f64::from(entry));
                if self.is_up { error } else { -error }
            };
            let best = |&a: &u8, &b: &u8| error(a).total_cmp(&error(b));
            *place = tried.into_iter().max_by(best).expect("some were tried");
            score += self.entry(*place, is_set(code, k));
        }
        Row {
            code,
            differences,
            weight: self.weight(),
        }
    }

    fn weight(&mut self) -> f32 {
        let below = self.prng.pick(&[0, 1, 64, 4096]);
        f32::from_bits(1.0f32.to_bits() - self.prng.below(below + 1) as u32)
    }

    fn change_cell(&mut self, error: &mut f64) {
        let cell = self.prng.place(self.cells);
        let mut row = self.rows[cell].clone();
        match self.prng.below(4) {
            0 => row.weight = self.weight(),
            1 => {
                let [a, b] = self.prng.two(|prng| prng.place(ENTRIES));
                row.differences.swap(a, b);
            }
            _ => {
                let place = self.prng.place(ENTRIES);
                row.differences[place] = 1 + self.prng.below(255) as u8;
            }
        }
        let mut parts = self.parts.clone();
        parts[cell] = self.part(&row);
        let changed = self.error(&parts);
        if changed >= *error {
            *error = changed;
            self.rows[cell] = row;
            self.parts = parts;
        }
    }

    fn change_table(&mut self, error: &mut f64) {
        let place = self.prng.place(MIDDLE);
        let before = self.table[place];
        let lower = self.prng.pick(&[64, 4096, 1 << 22]);
        self.table[place] = (-8.0f32).to_bits() - self.prng.below(lower) as u32;
        let parts: Vec<Part> = self.rows.iter().map(|row| self.part(row)).collect();
        let changed = self.error(&parts);
        if changed >= *error {
            *error = changed;
            self.parts = parts;
        } else {
            self.table[place] = before;
        }
    }

    fn shot(self, legacy: bool) -> Shot {
        let squares = marker_squares(ROWS.into(), ROWS.into(), legacy);
        let cells = self.rows.iter().zip(squares).map(|(row, square)| {
            let [u, v] = square.map(|x| x as i16);
            let sample = Some(sample(row));
            Cell { u, v, sample }
        });
        let many_bits = self.codes.iter().map(|code| !code);
        let shot = Shot {
            map: settings::MINIMUM_MARGIN | settings::BORDER_THRESHOLD | settings::TABLE,
            minimum_margin: 0,
            border_threshold: 1.0f32.to_bits(),
            table: self.table,
            rows: ROWS,
            cols: ROWS,
            bits: BITS,
            codes: many_bits.chain(self.codes.iter().copied()).collect(),
            cells: cells.collect(),
            ..Shot::default()
        };
        if legacy { shot.marked() } else { shot }
    }
}

const fn is_set(code: u64, bit: usize) -> bool {
    code >> bit & 1 != 0
}

fn sample(row: &Row) -> Sample {
    let mut grid = vec![0; SIDE * SIDE];
    for (k, difference) in row.differences.iter().enumerate() {
        let [column, line] = [1 + k % usize::from(BITS), 1 + k / usize::from(BITS)];
        grid[line * SIDE + column] = 255 - difference;
    }
    Sample::new(row.weight, 255, grid)
}
