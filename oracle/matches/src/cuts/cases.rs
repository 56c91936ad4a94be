//! What must come up among shots with a least weight that come to the search.

use super::Cut;
use crate::questions::slope_and_floor;
use crate::weights::Uncut;
use cases::answer::Answer;
use cases::floats::{BELOW_1, LEAST, NORMAL};
use records::settings;

/// Words of an answer.
const RUNNER_UP: usize = 6;
const HAS_NEXT_EVIDENCE: usize = 9;
const MARGIN: usize = 11;
const MARKERS: usize = 16;
const BEST_CELLS: usize = 17;
const NEXT_CELLS: usize = 18;

pub struct Case {
    pub name: &'static str,
    pub(super) is_so: fn(&Cut) -> bool,
}

const fn case(name: &'static str, is_so: fn(&Cut) -> bool) -> Case {
    Case { name, is_so }
}

pub const CASES: [Case; 34] = [
    case("least weight 0", |cut| cut.shot.least_weight == 0),
    case("least weight -0.0", |cut| {
        cut.shot.least_weight == 0x8000_0000
    }),
    case("least weight 2^-149", |cut| cut.shot.least_weight == 1),
    case("least weight next below 1", |cut| cut.least() == BELOW_1),
    case("least weight 1", |cut| cut.least() == 1.0),
    case("a weight at the least weight", |cut| {
        cut.has(|weight, least| weight == least && 0.0 < weight && weight < 1.0)
    }),
    case("a weight next below it", |cut| {
        cut.has(|weight, least| weight.next_up() == least && 0.0 < weight && least < 1.0)
    }),
    case("a weight next above it", |cut| {
        cut.has(|weight, least| weight == least.next_up() && 0.0 < least && weight < 1.0)
    }),
    case("a weight of 1 at a least weight of 1", |cut| {
        cut.has(|weight, least| weight == 1.0 && least == 1.0)
    }),
    case("a weight next below a least weight of 1", |cut| {
        cut.has(|weight, least| weight == BELOW_1 && least == 1.0)
    }),
    case("a weight of -0.0 that stays", |cut| {
        cut.has(|weight, least| weight.to_bits() == 0x8000_0000 && least == 0.0)
    }),
    case("a weight of -0.0 below it", |cut| {
        cut.has(|weight, least| weight.to_bits() == 0x8000_0000 && least > 0.0)
    }),
    case("a subnormal weight below it", |cut| {
        cut.has(|weight, least| 0.0 < weight && weight < NORMAL && weight < least)
    }),
    case("a border threshold of at most 0", |cut| {
        cut.border_threshold() <= 0.0 && cut.cells.iter().any(Uncut::is_fraction_below)
    }),
    case("a border threshold of at most 2^-126", |cut| {
        (LEAST..=NORMAL).contains(&cut.border_threshold()) && cut.least() > 0.0
    }),
    case("a border threshold of 1e30 or more", |cut| {
        cut.border_threshold() >= 1e30 && cut.has_lost()
    }),
    case("a table that upstream has", |cut| {
        cut.shot.map & settings::TABLE != 0 && slope_and_floor(&cut.shot.table).is_some()
    }),
    case("a table that upstream lacks", |cut| {
        slope_and_floor(&cut.shot.table).is_none()
    }),
    case("all weights cut", |cut| cut.all_cut()),
    case("all weights cut, refused 16", |cut| {
        cut.all_cut() && cut.answer.number == 16
    }),
    case("all weights cut, refused 17", |cut| {
        cut.all_cut() && cut.answer.number == 17
    }),
    case("some weights cut", |cut| !cut.all_cut() && cut.has_lost()),
    case("no weight cut", |cut| {
        cut.least() > 0.0 && !cut.cells.iter().any(Uncut::is_cut)
    }),
    case("a cut cell does not fit, refused 15", |cut| {
        cut.answer.number == 15 && cut.has_lost()
    }),
    case("another best", |cut| cut.is_placed(false)),
    case("the same best, another runner-up", |cut| {
        cut.is_placed(true) && !cut.is_same(RUNNER_UP, 3)
    }),
    case("the same placements, another margin", |cut| {
        cut.is_placed(true) && cut.is_same(RUNNER_UP, 3) && !cut.is_same(MARGIN, 1)
    }),
    case("the same best, another count", |cut| {
        cut.is_placed(true) && !cut.is_same(BEST_CELLS, 1)
    }),
    case("the same runner-up, another count", |cut| {
        cut.is_placed(true) && cut.is_same(RUNNER_UP, 3) && !cut.is_same(NEXT_CELLS, 1)
    }),
    case("the same best, fewer markers", |cut| {
        cut.is_placed(true) && cut.answer.words[MARKERS] < cut.uncut.words[MARKERS]
    }),
    case("the evidence of the runner-up is lost", |cut| {
        let words = |answer: &Answer| answer.words[HAS_NEXT_EVIDENCE];
        cut.is_placed(true) && [words(cut.answer), words(cut.uncut)] == [0, 1]
    }),
    case("placed by the cut, else refused 16", |cut| {
        cut.numbers() == [0, 16]
    }),
    case("refused 16 by the cut, else placed", |cut| {
        cut.numbers() == [16, 0]
    }),
    case("refused 17 by the cut, else placed", |cut| {
        cut.numbers() == [17, 0]
    }),
];

impl Cut<'_> {
    fn least(&self) -> f32 {
        f32::from_bits(self.shot.least_weight)
    }

    fn border_threshold(&self) -> f32 {
        f32::from_bits(self.shot.border_threshold)
    }

    /// Is there a weight of which this holds, for a least weight?
    fn has(&self, is_so: fn(f32, f32) -> bool) -> bool {
        let mut cells = self.cells.iter();
        cells.any(|uncut| is_so(uncut.weight, uncut.least))
    }

    fn has_lost(&self) -> bool {
        self.cells.iter().any(Uncut::is_lost)
    }

    /// Of the weights above 0, of which there is one.
    fn all_cut(&self) -> bool {
        let mut above_0 = self.cells.iter().filter(|uncut| uncut.weight > 0.0);
        self.has_lost() && above_0.all(Uncut::is_cut)
    }

    /// The numbers with the cut and without it.
    fn numbers(&self) -> [u32; 2] {
        [self.answer.number, self.uncut.number]
    }

    /// Are these words of two matches the same, with the cut and without it?
    fn is_same(&self, first: usize, count: usize) -> bool {
        let [with, without] = [self.answer, self.uncut];
        with.words[first..][..count] == without.words[first..][..count]
    }

    /// Is the shot placed with the cut and without it, on the same squares or others?
    fn is_placed(&self, on_same: bool) -> bool {
        self.numbers() == [0, 0] && self.is_same(0, 3) == on_same
    }
}
