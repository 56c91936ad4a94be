//! A board of which some squares are seen, under a rotation and a translation: the true placement of the shot made from it.

use crate::model::turned_point;
use cases::cells::Cell as Grid;
use cases::codes::{most_different, random_code, random_different_codes, turned_code};
use cases::corner_lists::rectangle;
use cases::floats::random_fraction;
use cases::layout::marker_squares;
use cases::prng::Prng;
use records::{Cell, Sample, Shot, settings};

#[derive(Clone, Debug)]
pub struct Scene {
    pub rows: u8,
    pub cols: u8,
    pub legacy: bool,
    pub bits: u8,
    pub border: u8,
    pub turn: u8,
    pub translation: [i32; 2],
    pub codes: Vec<u64>,
    /// In the order of the cells.
    pub squares: Vec<[i32; 2]>,
}

/// How well the cells can be read.
#[derive(Clone, Copy, Debug)]
pub enum Look {
    Clear,
    /// Some bits in doubt, some cells unsampled or of random grey levels, fractions of any size.
    Noisy,
    Random,
}

pub const LOOKS: [Look; 4] = [Look::Clear, Look::Noisy, Look::Noisy, Look::Random];

pub fn markers_of(rows: u8, cols: u8) -> usize {
    usize::from(rows) * usize::from(cols) / 2
}

impl Scene {
    /// A board of 2 to 8 rows and columns, now and then up to 32, with random codes and a part of it seen.
    pub fn random(prng: &mut Prng, legacy: bool) -> Self {
        let most = prng.pick(&[3, 5, 7, 7, 7, 7, 7, 7, 31]);
        let size = prng.two(|prng| 2 + prng.below(most) as u8);
        Self::of_board(prng, size, legacy).with_part_seen(prng)
    }

    /// Nothing of it is seen yet. Most codes are of 2 to 5 bits a side, as far as the side has so many that no two markers
    /// are equal up to rotation; those past the last marker are any.
    pub fn of_board(prng: &mut Prng, [rows, cols]: [u8; 2], legacy: bool) -> Self {
        let markers = markers_of(rows, cols);
        let mut sides = vec![1, 2, 2, 3, 3, 4, 4, 4, 5, 6, 7, 8];
        sides.retain(|&bits| markers <= most_different(bits));
        let bits = prng.pick(&sides);
        let mut codes = random_different_codes(prng, bits, markers);
        let more = prng.pick(&[0, 0, 0, 1, 3]);
        codes.extend(prng.many(more, |prng| random_code(prng, bits)));
        let far = prng.pick(&[1, 3, 40, 4000]);
        Self {
            rows,
            cols,
            legacy,
            bits,
            border: prng.pick(&[1, 1, 1, 2, 3, 4]),
            turn: prng.below(4) as u8,
            translation: prng.two(|prng| prng.below(2 * far + 1) as i32 - far as i32),
            codes,
            squares: Vec::new(),
        }
    }

    /// A rectangle of squares, some of which are missing, in any order half of the time. At least one is seen.
    pub fn with_part_seen(mut self, prng: &mut Prng) -> Self {
        let [cols, rows] = [self.cols, self.rows].map(|n| 1 + prng.below(u64::from(n)) as i32);
        let left = prng.below((i32::from(self.cols) - cols + 1) as u64) as i32;
        let top = prng.below((i32::from(self.rows) - rows + 1) as u64) as i32;
        let missing = prng.pick(&[0, 0, 1, 3, 6]);
        let all = rectangle([left, top], [cols, rows]);
        self.squares = all.filter(|_| prng.below(8) >= missing).collect();
        if self.squares.is_empty() {
            self.squares.push([left, top]);
        }
        self.squares.truncate(prng.pick(&[1, 2, 5, 12, 30, 60]));
        if prng.one_in(2) {
            prng.shuffle(&mut self.squares);
        }
        self
    }

    /// The cell from which the rotation and the translation make the square.
    pub fn point(&self, [i, j]: [i32; 2]) -> [i16; 2] {
        let [tx, ty] = self.translation;
        let back = (4 - self.turn) % 4;
        turned_point(back, [i - tx, j - ty]).map(|x| x as i16)
    }

    /// The code of the marker in a square.
    pub fn code(&self, square: [i32; 2]) -> Option<u64> {
        let mut squares = marker_squares(self.rows.into(), self.cols.into(), self.legacy);
        let id = squares.position(|marker| marker.map(u32::cast_signed) == square);
        id.map(|id| self.codes[id])
    }

    pub fn any_shot(&self, prng: &mut Prng) -> Shot {
        let look = prng.pick(&LOOKS);
        self.shot(prng, look)
    }

    pub fn shot(&self, prng: &mut Prng, look: Look) -> Shot {
        let cells = self.squares.iter().map(|&square| {
            let [u, v] = self.point(square);
            let sample = self.sample(prng, square, look);
            Cell { u, v, sample }
        });
        Shot {
            map: if self.legacy { settings::LEGACY } else { 0 },
            cells: cells.collect(),
            rows: self.rows,
            cols: self.cols,
            bits: self.bits,
            border: self.border,
            codes: self.codes.clone(),
            ..Shot::default()
        }
    }

    fn sample(&self, prng: &mut Prng, square: [i32; 2], look: Look) -> Option<Sample> {
        let size = [self.bits, self.border];
        let shown = self.code(square);
        let is_odd_one = prng.one_in(8);
        let grid = match (look, shown) {
            (Look::Noisy, _) if is_odd_one && prng.one_in(2) => return None,
            (Look::Noisy, Some(_)) if is_odd_one => Grid::random(prng, size),
            (Look::Random, _) => Grid::random(prng, size),
            (_, Some(code)) => {
                let code = turned_code(code, self.bits, self.turn);
                Grid::showing(prng, size, code)
            }
            (_, None) => plain(prng, size),
        };
        let fraction = match look {
            Look::Clear => 1.0,
            _ if prng.one_in(3) => random_fraction(prng),
            _ => 1.0,
        };
        Some(Sample::new(fraction, grid.threshold, grid.grid))
    }
}

/// A square without a marker: white, with some dirt now and then.
fn plain(prng: &mut Prng, size: [u8; 2]) -> Grid {
    let dirt = prng.pick(&[1, 1, 60]);
    let threshold = 60 + prng.below(190) as u8;
    let greys = Grid::side(size).pow(2);
    let grid = prng.many(greys, |prng| 255 - prng.below(dirt) as u8);
    Grid::new(size, threshold, grid)
}
