//! How long this library and upstream take for all scores of a board's cells: `bench_scores`, or `bench_scores
//! ours|theirs|all ROUNDS [CASE]`. Without a case, the machine's own limits come first. `ours` and `theirs` are not
//! inlined, so that a profile shows them.

mod limits;

use cases::cells::Cell;
use cases::codes::{TURNS, random_code};
use cases::prng::Prng;
use differential::bench::{self, Bench, Side, runs};
use differential::ours;
use std::process::ExitCode;
use theirs::{BUILT_IN, Samples, ScoreBoard, Scores, TABLE_LENGTH, likelihood_table};

fn main() -> ExitCode {
    let bench = Bench {
        program: "bench_scores",
        unit: "score",
        tells_memory: false,
        rounds: bench::ROUNDS,
        first: limits::print,
    };
    let cases = CASES.map(|size| (name(size), Case::new(size)));
    bench.run(cases.into())
}

const BORDER: u8 = 1;

/// A small case is repeated until a round has so many scores.
const SCORES_OF_A_ROUND: usize = 200_000;

/// Bits, cells and markers.
type Size = (u8, usize, usize);

/// The most cells there may be on a board of 22 by 22 squares, for the usual sides; and a small board.
const CASES: [Size; 5] = [
    (4, 256, 242),
    (5, 256, 242),
    (6, 256, 242),
    (8, 256, 242),
    (4, 24, 12),
];

fn name((bits, cells, markers): Size) -> String {
    format!("{cells} cells, {markers} markers of {bits} by {bits} bits")
}

struct Case {
    bits: u8,
    cells: Vec<Cell>,
    codes: Vec<u64>,
    table: [f32; TABLE_LENGTH],
    board: ScoreBoard,
    samples: Samples,
}

impl Case {
    /// Every cell shows one of the codes.
    fn new((bits, cells, markers): Size) -> Self {
        let mut prng = Prng::new(5);
        let codes = prng.many(markers, |prng| random_code(prng, bits));
        let cells = prng.many(cells, |prng| {
            let code = prng.pick(&codes);
            Cell::showing(prng, [bits, BORDER], code)
        });
        Self {
            bits,
            table: likelihood_table(BUILT_IN),
            board: ScoreBoard::new(bits, &codes),
            samples: Samples::new(&cells),
            cells,
            codes,
        }
    }

    fn score_count(&self) -> usize {
        self.cells.len() * self.codes.len() * 4
    }

    /// Rotates the codes once, then scores cell by cell, in the order of upstream.
    #[inline(never)]
    fn ours(&self) -> Vec<f32> {
        let mut turned = Vec::with_capacity(self.codes.len() * 4);
        for &code in &self.codes {
            turned.extend(TURNS.map(|turn| ours::rotate_code(code, self.bits, turn)));
        }
        let mut scores = vec![0.0; self.score_count()];
        for (cell, out) in self.cells.iter().zip(scores.chunks_mut(turned.len())) {
            ours::scores::cell_scores(&self.table, cell, &turned, out);
        }
        scores
    }

    /// The whole of `build_score_matrix`, which rotates the codes too.
    #[inline(never)]
    fn theirs(&self) -> Scores {
        self.board.scores(&self.samples, BUILT_IN)
    }
}

impl bench::Case for Case {
    fn sides(&self) -> Vec<Side<'_>> {
        vec![
            Side::ours(|count| runs(count, || self.ours())),
            Side::theirs(|count| runs(count, || self.theirs())),
        ]
    }

    /// The sums of the scores.
    fn agrees(&self) -> bool {
        let sum = |scores: &[f32]| -> f64 { scores.iter().copied().map(f64::from).sum() };
        sum(&self.ours()) == sum(self.theirs().all())
    }

    fn units(&self) -> usize {
        self.score_count()
    }

    fn fixed_runs(&self) -> Option<usize> {
        Some(SCORES_OF_A_ROUND.div_ceil(self.score_count()))
    }
}
