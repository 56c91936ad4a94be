//! The match by the rules of the documents alone, for tables that no formula gives and for legacy boards with an even row
//! count: naive, sentence by sentence, without upstream. It is compared with upstream, also for such boards, which are
//! rotated for it (`turned.rs`), where there is a formula. All scores of a shot, for a match with scores, are here too.

use crate::answer::{Alignment, Hypothesis, Marker, Matched, Placed, Selected, below_minimum};
use crate::weights::{USES, Uncut, Use, weight};
use cases::answer::Answer;
use cases::cells::Cell as Grid;
use cases::codes::turned_code;
use cases::layout::marker_squares;
use records::{Cell, Shot, TABLE_LENGTH};

/// Its bits are 3F317218.
const LN_2: f32 = f32::from_bits(0x3F31_7218);

/// 2⁻²³.
const LEAST_CAPACITY: f32 = 1.0 / 8_388_608.0;

/// A shot that passes the checks 1 to 8, 22, 9, 10, 12, 23, 13 and 14.
pub fn match_shot(shot: &Shot) -> Matched {
    match_by(shot, weight)
}

/// The same with other weights.
pub fn match_by(shot: &Shot, weight: impl Fn(Use, &Uncut) -> f32) -> Matched {
    if shot.cells.is_empty() {
        return Err(Answer::refused(11));
    }
    let model = Model::by(shot, weight);
    let Some(selected) = model.selected(&model.hypotheses()) else {
        return Err(Answer::refused(15));
    };
    if selected.margin < f32::from_bits(shot.minimum_margin) {
        return Err(below_minimum(selected.margin));
    }
    let at = selected.best.alignment;
    let markers = model.markers(at);
    if markers.is_empty() {
        return Err(Answer::refused(17));
    }
    Ok(Placed::new(selected, corner_alignment(at), markers))
}

/// The place of the first of the greatest, but for one that does not count. None is below every number.
fn first_greatest(all: &[Hypothesis], without: Option<usize>) -> Option<usize> {
    let places = (0..all.len()).filter(|&place| Some(place) != without);
    places.reduce(|best, place| {
        let is_above = all[place].evidence > all[best].evidence;
        if is_above { place } else { best }
    })
}

pub fn turned_point(turn: u8, [u, v]: [i32; 2]) -> [i32; 2] {
    match turn {
        0 => [u, v],
        1 => [v, -u],
        2 => [-u, -v],
        _ => [-v, u],
    }
}

/// For each rotation the corner of a cell that becomes top left is elsewhere in the cell.
fn corner_alignment(cells: Alignment) -> Alignment {
    let [dx, dy] = [[0, 0], [0, 1], [1, 1], [1, 0]][usize::from(cells.turn)];
    Alignment {
        turn: cells.turn,
        tx: cells.tx + dx,
        ty: cells.ty + dy,
    }
}

pub struct Model<'a> {
    shot: &'a Shot,
    table: [f32; TABLE_LENGTH],
    /// The number of the marker in each square, row by row.
    markers: Vec<Option<usize>>,
    /// The samples of each cell.
    grids: Vec<Option<Grid>>,
    /// By the places of `USES`, of each cell.
    weights: [Vec<f32>; USES.len()],
}

impl<'a> Model<'a> {
    pub fn new(shot: &'a Shot) -> Self {
        Self::by(shot, weight)
    }

    fn by(shot: &'a Shot, weight: impl Fn(Use, &Uncut) -> f32) -> Self {
        let [rows, cols] = [shot.rows, shot.cols].map(u32::from);
        let mut markers = vec![None; (rows * cols) as usize];
        for (id, [i, j]) in marker_squares(rows, cols, shot.is_legacy()).enumerate() {
            markers[(j * cols + i) as usize] = Some(id);
        }
        let samples = shot.cells.iter().map(|cell| cell.sample.as_ref());
        let uncut = Uncut::all(shot);
        let weights = |of: Use| uncut.iter().map(|uncut| weight(of, uncut)).collect();
        Self {
            shot,
            table: shot.table.map(f32::from_bits),
            markers,
            grids: samples.map(|sample| Some(shot.grid(sample?))).collect(),
            weights: USES.map(weights),
        }
    }

    /// The place of the square where a cell lies, row by row, if it is on the board.
    fn square(&self, cell: &Cell, at: Alignment) -> Option<usize> {
        let [u, v] = turned_point(at.turn, [cell.u.into(), cell.v.into()]);
        let [i, j] = [u + at.tx, v + at.ty];
        let [cols, rows] = [self.shot.cols, self.shot.rows].map(i32::from);
        let is_on_board = (0..cols).contains(&i) && (0..rows).contains(&j);
        is_on_board.then_some((j * cols + i) as usize)
    }

    pub fn is_on_marker(&self, cell: &Cell, at: Alignment) -> bool {
        let square = self.square(cell, at);
        square.is_some_and(|square| self.markers[square].is_some())
    }

    /// For each rotation, every translation that puts all cells on the board, tx outer, ty inner, rising. Only those that
    /// put the first cell there are tried.
    pub fn alignments(&self) -> Vec<Alignment> {
        let first = &self.shot.cells[0];
        let mut alignments = Vec::new();
        for turn in 0..4 {
            let [u, v] = turned_point(turn, [first.u.into(), first.v.into()]);
            for tx in -u..i32::from(self.shot.cols) - u {
                for ty in -v..i32::from(self.shot.rows) - v {
                    let at = Alignment { turn, tx, ty };
                    let mut cells = self.shot.cells.iter();
                    if cells.all(|cell| self.square(cell, at).is_some()) {
                        alignments.push(at);
                    }
                }
            }
        }
        alignments
    }

    pub fn hypotheses(&self) -> Vec<Hypothesis> {
        let alignments = self.alignments().into_iter();
        alignments.map(|at| self.hypothesis(at)).collect()
    }

    /// Of all placements.
    pub fn selected(&self, all: &[Hypothesis]) -> Option<Selected> {
        let best = first_greatest(all, None)?;
        let runner_up = first_greatest(all, Some(best)).map(|place| all[place]);
        Some(Selected {
            best: all[best],
            runner_up,
            margin: self.margin(&all[best], runner_up.as_ref()),
            placements: all.len(),
        })
    }

    fn hypothesis(&self, at: Alignment) -> Hypothesis {
        let contributing = self.contributing(at);
        let weighted = contributing
            .iter()
            .map(|&(cell, id)| self.weight(cell) * self.evidence(cell, id, at.turn));
        Hypothesis {
            alignment: at,
            evidence: weighted.fold(None, |sum, part| Some(sum.unwrap_or(0.0) + part)),
            contributing_cells: self.weighing(Use::Count, at).len(),
        }
    }

    pub fn contributing(&self, at: Alignment) -> Vec<(usize, usize)> {
        self.weighing(Use::Evidence, at)
    }

    /// The cells in order, with the ids of the markers expected there, that have a weight above 0.
    fn weighing(&self, of: Use, at: Alignment) -> Vec<(usize, usize)> {
        let cells = self.shot.cells.iter().enumerate();
        let expected = cells.filter_map(|(place, cell)| {
            let id = self.markers[self.square(cell, at)?]?;
            (self.weight_for(of, place) > 0.0).then_some((place, id))
        });
        expected.collect()
    }

    pub fn weight(&self, cell: usize) -> f32 {
        self.weight_for(Use::Evidence, cell)
    }

    fn weight_for(&self, of: Use, cell: usize) -> f32 {
        self.weights[of as usize][cell]
    }

    fn grid(&self, cell: usize) -> &Grid {
        self.grids[cell].as_ref().expect("a sampled cell")
    }

    fn turned_code(&self, id: usize, turn: u8) -> u64 {
        turned_code(self.shot.codes[id], self.shot.bits, turn)
    }

    /// The table entries that the score of a sampled cell adds, in their order.
    pub fn entries(&self, cell: usize, id: usize, turn: u8) -> impl Iterator<Item = f32> {
        theirs::entries(&self.table, self.grid(cell), self.turned_code(id, turn))
    }

    fn score(&self, cell: usize, id: usize, turn: u8) -> f32 {
        let entries = self.entries(cell, id, turn);
        entries.fold(0.0, |sum, entry| sum + entry)
    }

    /// By cell, then marker, then rotation; 0 for a cell that is not sampled.
    pub fn scores(&self) -> Vec<f32> {
        let markers = self.markers.iter().flatten().count();
        let of_cell = |cell: usize| {
            let is_sampled = self.grids[cell].is_some();
            (0..4 * markers).map(move |place| match is_sampled {
                true => self.score(cell, place / 4, (place % 4) as u8),
                false => 0.0,
            })
        };
        (0..self.grids.len()).flat_map(of_cell).collect()
    }

    fn bit_count(&self) -> f32 {
        f32::from(self.shot.bits) * f32::from(self.shot.bits)
    }

    pub fn null_score(&self) -> f32 {
        self.bit_count() * -LN_2
    }

    fn evidence(&self, cell: usize, id: usize, turn: u8) -> f32 {
        self.score(cell, id, turn) - self.null_score()
    }

    fn capacity(&self, at: Alignment) -> f32 {
        let weighing = self.weighing(Use::Capacity, at).into_iter();
        let weights = weighing.map(|(cell, _)| self.weight_for(Use::Capacity, cell));
        let weighted = weights.map(|weight| weight * -self.null_score());
        weighted.fold(0.0, |sum, capacity| sum + capacity)
    }

    fn margin(&self, best: &Hypothesis, runner_up: Option<&Hypothesis>) -> f32 {
        let Some(evidence) = best.evidence.filter(|&evidence| evidence > 0.0) else {
            return 0.0;
        };
        let Some(next) = runner_up.and_then(|next| next.evidence) else {
            return 1.0;
        };
        let capacity = self.capacity(best.alignment).max(LEAST_CAPACITY);
        (evidence - next) / capacity
    }

    /// Of the contributing cells those whose markers are emitted.
    pub fn emitted(&self, at: Alignment) -> Vec<(usize, usize)> {
        let mut emitted = self.weighing(Use::Emission, at);
        emitted.retain(|&(cell, id)| self.evidence(cell, id, at.turn) > 0.0);
        emitted
    }

    fn markers(&self, at: Alignment) -> Vec<Marker> {
        let emitted = self.emitted(at).into_iter();
        emitted
            .map(|(cell, id)| self.marker(cell, id, at.turn))
            .collect()
    }

    fn marker(&self, place: usize, id: usize, turn: u8) -> Marker {
        let cell = &self.shot.cells[place];
        let [u, v] = [cell.u, cell.v].map(i32::from);
        // A bit is set where the grey is below the threshold.
        let read = (0..).zip(self.grid(place).differences());
        let code = read.fold(0, |code, (k, d)| code | u64::from(d > 0) << k);
        let fraction = cell.sample.as_ref().map_or(0, |sample| sample.fraction);
        Marker {
            cell: place,
            id: id as u32,
            point: match turn {
                0 => [u, v],
                1 => [u + 1, v],
                2 => [u + 1, v + 1],
                _ => [u, v + 1],
            },
            turn,
            differing: (code ^ self.turned_code(id, turn)).count_ones(),
            code,
            quotient: self.score(place, id, turn) / self.bit_count(),
            fraction: f32::from_bits(fraction),
            corners: self.rect_corners([u, v]),
        }
    }

    fn rect_corners(&self, point: [i32; 2]) -> [[f32; 2]; 4] {
        let px = f32::from_bits(self.shot.px_per_square);
        let [left, top] = point.map(|x| x as f32 * px);
        let [right, bottom] = [left + px, top + px];
        [[left, top], [right, top], [right, bottom], [left, bottom]]
    }
}
