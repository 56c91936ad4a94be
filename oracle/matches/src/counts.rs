//! What an answer shows of the counts of contributing cells (document 02, 2.5): which wrong counts it excludes, and which
//! counts come up in it.

use crate::answer::{ANSWER_WORDS, Alignment};
use crate::model::Model;
use cases::answer::Answer;
use records::{Cell, Shot};

/// Places of words in an answer.
const BEST: usize = 0;
const HAS_RUNNER_UP: usize = 5;
const RUNNER_UP: usize = 6;
const COUNTS: [usize; 2] = [17, 18];

/// A placement of an answer.
struct Told<'a> {
    shot: &'a Shot,
    model: &'a Model<'a>,
    at: Alignment,
    count: usize,
    /// That of the runner-up for the best, and of the best for the runner-up.
    other_count: usize,
}

impl Told<'_> {
    /// The cells for which this holds.
    fn cells(&self, is_counted: impl Fn(usize, &Cell) -> bool) -> usize {
        let cells = self.shot.cells.iter().enumerate();
        cells
            .filter(|(place, cell)| is_counted(*place, cell))
            .count()
    }

    fn is_on_marker(&self, cell: &Cell) -> bool {
        self.model.is_on_marker(cell, self.at)
    }

    /// The same of those that land on a marker square.
    fn on_markers(&self, is_counted: impl Fn(usize, &Cell) -> bool) -> usize {
        self.cells(|place, cell| self.is_on_marker(cell) && is_counted(place, cell))
    }
}

/// A rule by which a count may be wrong.
pub struct Wrong {
    pub name: &'static str,
    count: fn(&Told) -> usize,
}

const fn wrong(name: &'static str, count: fn(&Told) -> usize) -> Wrong {
    Wrong { name, count }
}

pub const WRONG: [Wrong; 10] = [
    wrong("all cells", |told| told.cells(|_, _| true)),
    wrong("all cells on marker squares", |told| {
        told.on_markers(|_, _| true)
    }),
    wrong("sampled cells on marker squares", |told| {
        told.on_markers(|_, cell| cell.sample.is_some())
    }),
    // A weight may be 1 where the fraction is 0, and 0 where the fraction is above 0.
    wrong("cells with a fraction above 0 on marker squares", |told| {
        told.on_markers(|_, cell| fraction(cell).is_some_and(|fraction| fraction > 0.0))
    }),
    wrong("cells with weight 1 on marker squares", |told| {
        told.on_markers(|place, _| told.model.weight(place) >= 1.0)
    }),
    wrong("cells with weight above 0", |told| {
        told.cells(|place, _| told.model.weight(place) > 0.0)
    }),
    wrong("cells with weight above 0 on other squares", |told| {
        told.cells(|place, cell| told.model.weight(place) > 0.0 && !told.is_on_marker(cell))
    }),
    wrong("markers with evidence above 0", |told| {
        told.model.emitted(told.at).len()
    }),
    wrong("contributing cells of the other placement", |told| {
        told.other_count
    }),
    wrong("contributing cells, in 8 bits", |told| told.count % 256),
];

fn fraction(cell: &Cell) -> Option<f32> {
    let sample = cell.sample.as_ref()?;
    Some(f32::from_bits(sample.fraction))
}

/// A pair of counts, of the best and of the runner-up.
pub struct Pair {
    pub name: &'static str,
    is_so: fn([usize; 2]) -> bool,
}

const fn pair(name: &'static str, is_so: fn([usize; 2]) -> bool) -> Pair {
    Pair { name, is_so }
}

pub const PAIRS: [Pair; 9] = [
    pair("more cells for the best", |[best, next]| best > next),
    pair("as many for both", |[best, next]| best == next),
    pair("more for the runner-up", |[best, next]| best < next),
    pair("a runner-up without any", |[_, next]| next == 0),
    pair("one for the best", |[best, _]| best == 1),
    pair("one for the runner-up", |[_, next]| next == 1),
    pair("20 or more for both", |[best, next]| best.min(next) >= 20),
    pair("256 for the best", |[best, _]| best == 256),
    pair("256 for the runner-up", |[_, next]| next == 256),
];

/// What the answers to some shots show, each counted.
#[derive(Clone, Debug, Default)]
pub struct Shown {
    /// By the places of `WRONG`: how many counts of the best and of the runner-up are not those of the rule.
    pub wrong: [[usize; 2]; WRONG.len()],
    /// By the places of `PAIRS`.
    pub pairs: [usize; PAIRS.len()],
}

impl Shown {
    /// An answer that is no match shows nothing.
    pub fn add(&mut self, shot: &Shot, answer: &Answer) {
        if answer.number != 0 {
            return;
        }
        assert_eq!(answer.words.len(), ANSWER_WORDS);
        assert_eq!(answer.words[HAS_RUNNER_UP], 1, "another turn");
        let model = Model::new(shot);
        let counts = COUNTS.map(|word| answer.words[word] as usize);
        for (which, first) in [BEST, RUNNER_UP].into_iter().enumerate() {
            let [turn, tx, ty] = [0, 1, 2].map(|word| answer.words[first + word]);
            let told = Told {
                shot,
                model: &model,
                at: Alignment::of_words([turn, tx, ty]),
                count: counts[which],
                other_count: counts[1 - which],
            };
            for (shown, wrong) in self.wrong.iter_mut().zip(&WRONG) {
                shown[which] += usize::from((wrong.count)(&told) != told.count);
            }
        }
        for (shown, pair) in self.pairs.iter_mut().zip(&PAIRS) {
            *shown += usize::from((pair.is_so)(counts));
        }
    }
}
