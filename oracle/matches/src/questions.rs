//! The checks of the match in their order, and of the match with scores, which makes one more, 24 after 14. Those that
//! upstream has it makes itself: 1 to 5 and 7 when a board is made, 11 and 15 to 17 in the matcher. The rule for the added
//! ones is here and in `theirs`. Shots of boards with codes that are equal up to rotation are refused by 22, and shots with
//! two cells at the same position by 23, so that nothing else of them is compared with upstream, which places them.

use crate::answer::{MARKER_WORDS, Matched, told};
use crate::scores;
use crate::turned::{self, Compared, TurnedShot};
use crate::{model, paired, rust};
use calib_targets_charuco::CharucoBoard;
use cases::answer::Answer;
use cases::boards::BoardArguments;
use cases::corner_lists::FARTHEST;
use cases::tables::SLOPES_AND_FLOORS;
use records::{Cell, REFUSED, Shot, TABLE_LENGTH};
use std::collections::HashSet;
use std::sync::{LazyLock, Mutex};
use theirs::{accepted_board, board_up_to_8, is_table, likelihood_table};

const MOST_CELLS: usize = 256;

/// How long the caller's arrays are.
#[derive(Clone, Copy)]
struct Lengths {
    /// Words of the output array.
    places: usize,
    /// Elements of the score array. A match without one has room enough.
    scores: usize,
}

impl Lengths {
    const ENOUGH: Self = Self::without_scores(usize::MAX);

    const fn without_scores(places: usize) -> Self {
        Self {
            places,
            scores: usize::MAX,
        }
    }
}

/// What is expected of a match with scores (document 02, 2.6).
pub struct WithScores {
    pub answer: Answer,
    /// What the score array has from its start on, as bit patterns; nothing after a refusal before 15.
    pub scores: Vec<u32>,
    /// Where these are upstream's: the same by the oracle's rule.
    pub by_rule: Option<Vec<u32>>,
}

impl WithScores {
    fn refused(answer: Answer) -> Self {
        Self {
            answer,
            scores: Vec::new(),
            by_rule: None,
        }
    }
}

/// For a record, an output array of so many words and a score array of so many elements. The answer is that of a match
/// where 24 does not fail.
pub fn match_record_with_scores(record: &[u8], places: usize, scores: usize) -> WithScores {
    let Some(read) = records::read(record) else {
        return WithScores::refused(Answer::refused(REFUSED));
    };
    let shot = read.shot;
    if let Err(refused) = asked_first(&shot, Lengths { places, scores }) {
        return WithScores::refused(refused);
    }
    let by_rule = scores::by_rule(&shot);
    let by_rust = slope_and_floor(&shot.table).map(|of_table| scores::by_rust(&shot, of_table));
    let (scores, by_rule) = match by_rust {
        Some(by_rust) => (by_rust, Some(by_rule)),
        None => (by_rule, None),
    };
    WithScores {
        answer: told(&match_shot(&shot, places)),
        scores,
        by_rule,
    }
}

/// What is expected for a record and an output array of so many words.
pub fn match_record(record: &[u8], places: usize) -> Matched {
    let read = records::read(record).ok_or(Answer::refused(REFUSED))?;
    match_shot(&read.shot, places)
}

pub fn match_shot(shot: &Shot, places: usize) -> Matched {
    asked_first(shot, Lengths::without_scores(places))?;
    match slope_and_floor(&shot.table) {
        Some(slope_and_floor) if !is_unknown_to_rust(shot) => {
            rust::Matching::new(shot, slope_and_floor).matched()
        }
        _ => model::match_shot(shot),
    }
}

/// What upstream and the rules alone return, for a shot that comes so far, has a table by the formula and a board that
/// upstream knows.
pub fn by_rust_and_model(shot: &Shot) -> Option<[Matched; 2]> {
    asked_first(shot, Lengths::ENOUGH).ok()?;
    let slope_and_floor = slope_and_floor(&shot.table).filter(|_| !is_unknown_to_rust(shot))?;
    let by_rust = rust::Matching::new(shot, slope_and_floor).matched();
    Some([by_rust, model::match_shot(shot)])
}

/// What upstream returns for the board rotated by 90°, and the rules alone for the board as it is, for a shot that comes so
/// far, has a table by the formula and a board that upstream does not know.
pub fn by_turned_rust_and_model(shot: &Shot) -> Option<[Compared; 2]> {
    asked_first(shot, Lengths::ENOUGH).ok()?;
    let slope_and_floor = slope_and_floor(&shot.table).filter(|_| is_unknown_to_rust(shot))?;
    (!shot.cells.is_empty()).then(|| turned::by_rust_and_model(shot, slope_and_floor))
}

/// What upstream returns for the restated shot, carried to the shot as it is, and the rules alone for the shot, which comes so
/// far and has a legacy board with even rows and odd columns; and whether it is upstream, or the rules in its place.
pub fn by_paired_rust_and_model(shot: &Shot) -> Option<([Compared; 2], bool)> {
    asked_first(shot, Lengths::ENOUGH).ok()?;
    let formula = slope_and_floor(&shot.table);
    let both = paired::is_paired(shot) && !shot.cells.is_empty();
    both.then(|| (paired::by_rust_and_model(shot, formula), formula.is_some()))
}

/// The check from 9 to 13, or 23, by which a match refuses a shot whose board is accepted.
pub fn refused_by_match_alone(shot: &Shot) -> Option<u32> {
    let questions = after_board(shot, Lengths::ENOUGH);
    let (settings_and_table, of_cells) = questions.split_at(2);
    let has_cells = [(11, !shot.cells.is_empty())];
    let all = [settings_and_table, &has_cells, of_cells].concat();
    let refused = first_refused(&all).err();
    refused.map(|answer| answer.number)
}

/// What is returned for a shot without check 22: a refusal by a check from 1 to 8, else what upstream returns, where no
/// check from 9 to 14 that it lacks refuses the shot and the table is by the formula.
pub fn by_rust_without_22(shot: &Shot) -> Option<Matched> {
    if let Err(refused) = board(shot) {
        return Some(Err(refused));
    }
    first_refused(&after_board(shot, Lengths::ENOUGH)).ok()?;
    by_rust(shot)
}

/// The same without check 23: a refusal by a check before it, else what upstream returns, where 13 does not refuse the shot.
pub fn by_rust_without_23(shot: &Shot) -> Option<Matched> {
    let questions = after_board(shot, Lengths::ENOUGH);
    let place = questions.iter().position(|&(number, _)| number == 23);
    let (before, from_23) = questions.split_at(place.expect("it is one of them"));
    if let Err(refused) = accepted(shot).and_then(|_| first_refused(before)) {
        return Some(Err(refused));
    }
    first_refused(&from_23[1..]).ok()?;
    by_rust(shot)
}

/// What upstream returns, if the table is by the formula. A legacy board that it does not know is rotated by 90°.
fn by_rust(shot: &Shot) -> Option<Matched> {
    let slope_and_floor = slope_and_floor(&shot.table)?;
    let turned = is_unknown_to_rust(shot).then(|| TurnedShot::new(shot).shot);
    let shot = turned.as_ref().unwrap_or(shot);
    Some(rust::Matching::new(shot, slope_and_floor).matched())
}

/// Upstream has no legacy flag. With an odd row count it answers as if there were none.
const fn is_unknown_to_rust(shot: &Shot) -> bool {
    shot.is_legacy() && shot.rows % 2 == 0
}

/// The checks 1 to 8, 22, 9, 10, 12, 23, 13, 14 and 24. Where there is no cell, those from 12 on have nothing to refuse, so
/// that upstream may answer 11 after them.
fn asked_first(shot: &Shot, lengths: Lengths) -> Result<(), Answer> {
    accepted(shot)?;
    first_refused(&after_board(shot, lengths))
}

/// A check by its number, and whether the shot passes it.
type Asked = (u32, bool);

/// From 9 on, but for 11.
fn after_board(shot: &Shot, lengths: Lengths) -> [Asked; 7] {
    [
        (9, settings_in_range(shot)),
        (10, is_table(&shot.table.map(f32::from_bits))),
        (12, cells_in_range(shot)),
        (23, no_point_twice(shot)),
        (13, samples_in_range(shot)),
        (14, lengths.places >= shot.cells.len() * MARKER_WORDS),
        (24, lengths.scores >= scores::count(shot)),
    ]
}

fn first_refused(questions: &[Asked]) -> Result<(), Answer> {
    let refused = questions.iter().find(|(_, passed)| !passed);
    refused.map_or(Ok(()), |&(number, _)| Err(Answer::refused(number)))
}

/// The board of a shot, or the refusal of one of its checks.
pub(crate) fn accepted(shot: &Shot) -> Result<CharucoBoard, Answer> {
    accepted_board(&arguments(shot), kept_codes(&shot.codes))
}

/// The same, though two markers are equal up to rotation.
pub fn board(shot: &Shot) -> Result<CharucoBoard, Answer> {
    board_up_to_8(&arguments(shot), kept_codes(&shot.codes))
}

fn arguments(shot: &Shot) -> BoardArguments {
    BoardArguments {
        rows: shot.rows.into(),
        cols: shot.cols.into(),
        bits: shot.bits.into(),
        border_bits: shot.border.into(),
        legacy_pattern: shot.is_legacy(),
        cell_size: f32::from_bits(shot.cell_size),
        marker_size_rel: f32::from_bits(shot.marker_size_rel),
        code_count: shot.codes.len(),
        place: 0,
        value: 0,
    }
}

/// Check 9. That of the least weight is numeric, so that -0.0 passes (document 02, 2.8).
fn settings_in_range(shot: &Shot) -> bool {
    let settings = [
        shot.minimum_margin,
        shot.border_threshold,
        shot.px_per_square,
    ];
    let least_weight = f32::from_bits(shot.least_weight);
    settings.iter().all(|&x| f32::from_bits(x).is_finite()) && (0.0..=1.0).contains(&least_weight)
}

/// Check 12.
fn cells_in_range(shot: &Shot) -> bool {
    let in_range = |x: i16| (-FARTHEST..=FARTHEST).contains(&x.into());
    let mut cells = shot.cells.iter();
    shot.cells.len() <= MOST_CELLS && cells.all(|cell| in_range(cell.u) && in_range(cell.v))
}

/// Check 23: no cell, sampled or not, lies where one before it does.
fn no_point_twice(shot: &Shot) -> bool {
    let point = |cell: &Cell| [cell.u, cell.v];
    let mut cells = shot.cells.iter().enumerate();
    cells.all(|(place, cell)| {
        let mut before = shot.cells[..place].iter();
        before.all(|other| point(other) != point(cell))
    })
}

/// Check 13. In a record that is read every grid is whole.
fn samples_in_range(shot: &Shot) -> bool {
    let mut fractions = shot.samples().map(|sample| f32::from_bits(sample.fraction));
    fractions.all(|fraction| (0.0..=1.0).contains(&fraction))
}

/// By which the formula gives the table, if it is one of the known.
pub(crate) fn slope_and_floor(table: &[u32; TABLE_LENGTH]) -> Option<[f32; 2]> {
    let known = FORMULAS.iter().find(|(_, by_formula)| by_formula == table);
    known.map(|&(slope_and_floor, _)| slope_and_floor)
}

type Formula = ([f32; 2], [u32; TABLE_LENGTH]);

/// Every known slope and floor that are finite and give a table that passes check 10.
pub static FORMULAS: LazyLock<Vec<Formula>> = LazyLock::new(|| {
    let finite = |pair: &[f32; 2]| pair.iter().all(|x| x.is_finite());
    let pairs = SLOPES_AND_FLOORS.into_iter().filter(finite);
    let tables = pairs.map(|pair| (pair, likelihood_table(pair)));
    let good = tables.filter(|(_, table)| is_table(table));
    good.map(|(pair, table)| (pair, table.map(f32::to_bits)))
        .collect()
});

/// Codes that live as long as the program, which upstream's dictionary needs. Each list is kept once.
fn kept_codes(codes: &[u64]) -> &'static [u64] {
    static KEPT: LazyLock<Mutex<HashSet<&'static [u64]>>> = LazyLock::new(Mutex::default);
    let mut kept = KEPT.lock().expect("no other holder has panicked");
    if let Some(known) = kept.get(codes) {
        return known;
    }
    let leaked: &'static [u64] = codes.to_vec().leak();
    kept.insert(leaked);
    leaked
}
