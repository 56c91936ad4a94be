//! A whole match as all sides do it, for the benchmarks. `ours`, `second` and `theirs` are not inlined, so that a profile
//! shows them.

use super::{Case, Side, runs};
use crate::entries::Input;
use cases::answer::after;
use cases::codes::random_different_codes;
use cases::prng::Prng;
use matches::given::{Given, Look, Scene};
use matches::{ANSWER_WORDS, MARKER_WORDS, Matching, Samples, scores};
use records::{Shot, write};
use std::hint::black_box;
use theirs::BUILT_IN;

/// The words of an answer that have the count of placements and that of markers.
const PLACEMENTS: usize = 12;
const MARKERS: usize = 16;

/// A match that both sides place.
pub struct WholeMatch {
    given: Given,
    /// Elements of the score array.
    scores: usize,
    matching: Matching,
}

/// Rows and columns of a board, and bits.
pub type Board = ([u8; 2], u8);

/// A board of random codes, no two of them equal up to rotation, of which these squares are seen, rotated by 90°.
pub fn seen(([rows, cols], bits): Board, squares: Vec<[i32; 2]>) -> Shot {
    let mut prng = Prng::new(9);
    let markers = usize::from(rows) * usize::from(cols) / 2;
    let scene = Scene {
        rows,
        cols,
        legacy: false,
        bits,
        border: 1,
        turn: 1,
        translation: [3, -2],
        codes: random_different_codes(&mut prng, bits, markers),
        squares,
    };
    scene.shot(&mut prng, Look::Clear)
}

impl WholeMatch {
    /// With arrays that are just long enough. One cell alone may have a twin, so no margin is too small.
    pub fn new(mut shot: Shot) -> Self {
        shot.set_minimum_margin(0.0);
        Self {
            given: Given {
                record: write(&shot).bytes,
                places: shot.cells.len() * MARKER_WORDS,
            },
            scores: scores::count(&shot),
            matching: Matching::new(&shot, BUILT_IN),
        }
    }

    /// How many placements there are, by our answer.
    pub fn placements(&self) -> u32 {
        let mut words = [0; ANSWER_WORDS];
        self.ours(&mut words, &mut vec![0; self.given.places]);
        words[PLACEMENTS]
    }

    /// From the bytes of the record to the markers in the output array.
    #[inline(never)]
    fn ours(&self, answer: &mut [u32; ANSWER_WORDS], lent: &mut [u32]) -> u32 {
        charuco::words::match_board(&self.given.record, lent, answer)
    }

    /// The same with scores.
    #[inline(never)]
    fn second(
        &self,
        answer: &mut [u32; ANSWER_WORDS],
        lent: &mut [u32],
        scores: &mut [f32],
    ) -> u32 {
        charuco::words::match_board_with_scores(&self.given.record, scores, lent, answer)
    }

    /// A score array, all of whose memory is in use.
    fn score_array(&self) -> Vec<f32> {
        vec![f32::NAN; self.scores]
    }

    /// Of upstream, whose cells and samples are read before, the whole of `match_board`.
    #[inline(never)]
    fn theirs(&self, samples: &Samples) -> usize {
        self.matching.count_of_markers(samples)
    }
}

impl Case for WholeMatch {
    fn sides(&self) -> Vec<Side<'_>> {
        let ours = Side::ours(move |count| {
            let mut answer = [0; ANSWER_WORDS];
            let mut lent = vec![0; self.given.places];
            runs(count, move || self.ours(&mut answer, black_box(&mut lent)))
        });
        let second = Side::second(move |count| {
            let mut answer = [0; ANSWER_WORDS];
            let mut lent = vec![0; self.given.places];
            let mut scores = self.score_array();
            runs(count, move || {
                self.second(&mut answer, black_box(&mut lent), black_box(&mut scores))
            })
        });
        // A run uses its samples up.
        let theirs = Side::theirs(move |count| {
            let samples: Vec<Samples> = (0..count).map(|_| self.matching.samples()).collect();
            let mut next = 0;
            runs(count, move || {
                next += 1;
                self.theirs(&samples[next - 1])
            })
        });
        vec![ours, second, theirs]
    }

    /// The answers, the output arrays, the score array, and the count of markers.
    fn agrees(&self) -> bool {
        let theirs = self.given.theirs();
        let list = after(vec![0; self.given.places], &theirs.list);
        let is_theirs = |ask: &mut dyn FnMut(&mut [u32; ANSWER_WORDS], &mut [u32]) -> u32| {
            let mut words = [0; ANSWER_WORDS];
            let mut lent = vec![0; self.given.places];
            ask(&mut words, &mut lent) == 0 && words[..] == theirs.words && lent == list
        };
        let mut scores = self.score_array();
        theirs.number == 0
            && is_theirs(&mut |words, lent| self.ours(words, lent))
            && is_theirs(&mut |words, lent| self.second(words, lent, &mut scores))
            && scores == self.matching.scores()
            && self.theirs(&self.matching.samples()) == theirs.words[MARKERS] as usize
    }
}
