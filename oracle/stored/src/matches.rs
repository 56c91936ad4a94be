//! The match of records of every kind and with every answer, most of them short; for each of them also the text of the
//! program place and the header, for some the other readers.

use crate::kinds::{ANSWER_TEXT, Kind, MATCH, TEXT};
use crate::records::{ask_header, ask_place};
use crate::script::{MOST_CELLS, Script, few, has_least_weight, is_marked};
use cases::answer::Answer;
use cases::cells::Cell as Grid;
use cases::codes::{all_ones, listed_codes};
use cases::corner_lists::rectangle;
use cases::layout::marker_squares;
use matches::counts::Shown;
use matches::given::{Given, KINDS, Kind as GivenKind, LEGACY_KINDS, OF_COUNTS, OF_REPEATS};
use matches::{MARKER_WORDS, MOST_PLACES, Placed, by_turned_rust_and_model, match_record, text};
use records::telling::Place;
use records::{Cell, REFUSED, Sample, Shot, built_in_table, read, write};

/// Most records are no longer than this. A table alone has 2,044 bytes, so few records have one.
pub const SHORT: usize = 200;
pub const WITH_TABLE: usize = 2_400;
/// 256 cells of one bit.
const LONG: usize = 6_000;

/// Of each kind so many, of those with long records fewer.
const OF_EACH_KIND: usize = 28;
const OF_LONG_KINDS: usize = 8;
const OF_VERY_LONG: usize = 2;

/// No more of a kind have the same number for an answer.
const OF_EACH_NUMBER: usize = 8;

/// No kind is looked through further than this.
const LOOKED_THROUGH: usize = 4_000;

/// So many have each number that the records with faults have.
const OF_EACH_REFUSAL: usize = 3;

/// No output array is longer than this.
const LONGEST_LIST: usize = 4_704;

/// So many records of each kind are looked at for answers with few markers.
const ANSWERS: usize = 4;
const MOST_MARKERS: usize = 6;

/// The other readers get one record in so many.
const ONE_IN: usize = 8;

/// So many show each wrong count, and have each pair of counts.
const OF_EACH_COUNT: usize = 3;

/// Of each kind of legacy boards so many.
const OF_EACH_LEGACY_KIND: usize = 10;

/// The kinds that have no rows of their own below.
fn others(kinds: &[GivenKind]) -> &[GivenKind] {
    &kinds[..OF_REPEATS.start]
}

pub fn ask(script: &mut Script) {
    ask_all(script, &chosen());
    ask_answers(script);
}

/// Of legacy boards.
pub fn ask_marked(script: &mut Script) {
    let mut chosen = small_legacy_boards().map(with_places).to_vec();
    chosen.extend(with_every_refusal(&LEGACY_KINDS));
    for kind in others(&LEGACY_KINDS) {
        let (longest, most) = lengths(kind);
        chosen.extend(of_kind(kind, longest, most.min(OF_EACH_LEGACY_KIND)));
    }
    ask_all(script, &chosen);
}

/// Cells at the same position, which only the match refuses, and points that are nearly equal. The readers read both.
pub fn ask_repeats(script: &mut Script, legacy: bool) {
    for mut shot in small_repeats().into_iter().chain(repeats_of_most_cells()) {
        if legacy {
            shot = shot.marked();
        }
        let given = with_places(shot);
        ask_all(script, std::slice::from_ref(&given));
        let read = read(&given.record);
        for place in [0, 1, 2, MOST_CELLS - 1] {
            ask_place(script, read.as_ref(), Place::Cell(place));
        }
    }
    let (kinds, most) = if legacy {
        (&LEGACY_KINDS, OF_EACH_LEGACY_KIND)
    } else {
        (&KINDS, OF_EACH_KIND)
    };
    let chosen: Vec<Given> = kinds[OF_REPEATS]
        .iter()
        .flat_map(|kind| of_kind(kind, SHORT, most))
        .collect();
    ask_all(script, &chosen);
}

/// Counts of contributing cells: few cells, some of them without weight, and 256 that all contribute.
pub fn ask_counts(script: &mut Script, legacy: bool) {
    let kinds = if legacy { &LEGACY_KINDS } else { &KINDS };
    let mut chosen = showing_counts(&kinds[OF_COUNTS]);
    chosen.push(with_places(most_contributing(legacy)));
    ask_all(script, &chosen);
}

pub fn ask_all(script: &mut Script, chosen: &[Given]) {
    for (number, given) in chosen.iter().enumerate() {
        script.give_bytes(&given.record);
        let answer = told(given);
        script.ask_with_list(MATCH, &[given.places as u64], answer, given.places);
        // The program has places enough for every record that is not refused before.
        let matched = match_record(&given.record, MOST_PLACES);
        ask_text(script, TEXT, text(&matched));
        let read = read(&given.record);
        // What the rules answer for a legacy board must be what upstream finds on the board rotated by 90°.
        let turned = read.as_ref();
        let turned = turned.and_then(|read| by_turned_rust_and_model(&read.shot));
        if let Some([rust, rules]) = turned {
            assert_eq!(rules, rust, "record {number}");
        }
        ask_header(script, read.as_ref());
        if number % ONE_IN == 0 {
            let entry = Place::Entry(255 + number % 256);
            for place in [entry, Place::Code(1), Place::Cell(0), Place::Cell(1)] {
                ask_place(script, read.as_ref(), place);
            }
        }
    }
}

fn ask_text(script: &mut Script, kind: Kind, text: String) {
    let length = Answer::of_words([text.len() as u32]);
    script.ask_with_bytes(kind, &[], length, text.as_bytes());
    script.asked.last_mut().expect("it was asked").text = text;
}

/// Answers that no record has: without a runner-up, which there always is; with a best placement that has no number, of
/// which no marker is emitted; with numbers as large as their words allow.
fn ask_answers(script: &mut Script) {
    let kinds = others(&KINDS).iter();
    let records = kinds.flat_map(|kind| kind.first(ANSWERS));
    let records = records.filter(|given| !is_marked(&given.record));
    let placed = records.filter_map(|given| match_record(&given.record, MOST_PLACES).ok());
    let short = placed.filter(|placed| placed.markers.len() <= MOST_MARKERS);
    for (number, placed) in short.enumerate() {
        let mut changed = placed.clone();
        match number % 4 {
            0 => changed.runner_up = None,
            1 => {
                changed.best.evidence = None;
                changed.best.contributing_cells = 0;
            }
            2 => changed.runner_up.iter_mut().for_each(|next| {
                next.alignment.tx = i32::MIN;
                next.alignment.ty = i32::MAX;
                next.evidence = None;
                next.contributing_cells = 0;
            }),
            _ => {
                changed.placements = u32::MAX as usize;
                changed.corners.tx = i32::MAX;
                changed.best.alignment.ty = i32::MIN;
                changed.best.contributing_cells = u32::MAX as usize;
                changed.runner_up.iter_mut().for_each(|next| {
                    next.contributing_cells = u32::MAX as usize - 1;
                });
            }
        }
        ask_answer(script, &placed);
        ask_answer(script, &changed);
    }
}

fn ask_answer(script: &mut Script, placed: &Placed) {
    let matched = Ok(placed.clone());
    let told = matches::told(&matched);
    let words = told.words.iter().chain(&told.list).copied();
    script.give_words(&words.map(u64::from).collect::<Vec<_>>());
    ask_text(script, ANSWER_TEXT, text(&matched));
}

fn told(given: &Given) -> Answer {
    matches::told(&match_record(&given.record, given.places))
}

/// By which records are chosen: the number of the answer. One that has the legacy flag or that of the least weight by damage
/// alone counts as refused, as before the bits 4 and 5 were these flags (document 02, 2.1 and 2.8), so that the choice stays.
fn chosen_by(kind: &GivenKind, given: &Given) -> u32 {
    if is_marked(&given.record) && !kind.legacy || has_least_weight(&given.record) {
        REFUSED
    } else {
        told(given).number
    }
}

fn chosen() -> Vec<Given> {
    let mut chosen = vec![with_places(Shot::of_document_01())];
    chosen.extend(with_every_refusal(&KINDS));
    for kind in others(&KINDS) {
        let (longest, most) = lengths(kind);
        chosen.extend(of_kind(kind, longest, most));
    }
    chosen.push(with_places(no_evidence_of_the_next()));
    chosen
}

/// How long records of a kind may be, and how many are chosen.
fn lengths(kind: &GivenKind) -> (usize, usize) {
    match kind.name {
        "tables by the formula" | "any tables" => (WITH_TABLE, OF_LONG_KINDS),
        "about 256 cells" => (LONG, OF_VERY_LONG),
        _ => (SHORT, OF_EACH_KIND),
    }
}

fn of_kind(kind: &GivenKind, longest: usize, most: usize) -> impl Iterator<Item = Given> {
    let mut is_new = few(OF_EACH_NUMBER);
    let looked_through = kind.first(LOOKED_THROUGH.min(kind.count));
    let fitting = looked_through.filter(move |given| {
        // Matches show most.
        fits(given, longest) && matches!(chosen_by(kind, given), n if n == 0 || is_new(n))
    });
    fitting.take(most)
}

pub fn fits(given: &Given, longest: usize) -> bool {
    given.record.len() <= longest && given.places <= LONGEST_LIST
}

/// Each of them shows a wrong count, or has a pair of counts, that few before it do.
fn showing_counts(kind: &GivenKind) -> Vec<Given> {
    let mut is_new = few(OF_EACH_COUNT);
    let looked_through = kind.first(LOOKED_THROUGH.min(kind.count));
    let showing = looked_through.filter(|given| {
        let mut shown = Shown::default();
        let read = read(&given.record).expect("it is not damaged");
        shown.add(&read.shot, &told(given));
        let all = [shown.wrong.as_flattened(), &shown.pairs].concat();
        let of_this = (0..).zip(all).filter(|&(_, count)| count > 0);
        // All of them are counted.
        fits(given, SHORT) && of_this.filter(|&(place, _)| is_new(place)).count() > 0
    });
    showing.collect()
}

/// Good shots with faults.
pub fn faults(kinds: &[GivenKind]) -> &GivenKind {
    let faults = kinds.iter().find(|kind| kind.name == "one fault or two");
    faults.expect("a kind of this name")
}

/// Some of them have a table, which check 10 refuses.
fn with_every_refusal(kinds: &[GivenKind]) -> Vec<Given> {
    let faults = faults(kinds);
    let mut is_new = few(OF_EACH_REFUSAL);
    let fitting = faults
        .all()
        .filter(|given| fits(given, WITH_TABLE) && is_new(chosen_by(faults, given)));
    fitting.collect()
}

/// A list with a place for each cell.
pub fn with_places(shot: Shot) -> Given {
    Given {
        record: write(&shot).bytes,
        places: MARKER_WORDS * shot.cells.len(),
    }
}

/// P9 of document 01, a runner-up whose evidence is none: on 2 rows and 3 columns the cells (0, 0) and (2, 1) fit once in
/// rotation 0, which has no marker below the one that is sampled, and once in rotation 2, which has marker 2.
fn no_evidence_of_the_next() -> Shot {
    let mut shot = Shot::of_document_01();
    shot.cols = 3;
    shot.codes = vec![15, 7, 8];
    let [u, v] = [2, 1];
    shot.cells.push(Cell { u, v, sample: None });
    shot
}

/// The board of document 01 by the built-in table.
pub fn with_cells(cells: Vec<Cell>) -> Shot {
    Shot {
        map: 0,
        table: built_in_table(),
        cells,
        ..Shot::of_document_01()
    }
}

/// The record of document 01 with a second cell at the point of its cell, which is (0, 0): each of them sampled or not. Then
/// with the second cell beside that point, where it is refused by no check before 15.
fn small_repeats() -> Vec<Shot> {
    let sample = Shot::of_document_01().cells[0].sample.clone();
    let shot = |samples: [bool; 2], [u, v]: [i16; 2]| {
        let [first, second] = samples.map(|is_sampled| sample.clone().filter(|_| is_sampled));
        let cells = vec![
            Cell {
                u: 0,
                v: 0,
                sample: first,
            },
            Cell {
                u,
                v,
                sample: second,
            },
        ];
        with_cells(cells)
    };
    let samples = [[true, true], [true, false], [false, true], [false, false]];
    let mut shots = samples.map(|samples| shot(samples, [0, 0])).to_vec();
    shots.extend([[0, 1], [1, 0], [-1, 0], [0, -1], [-1, -1]].map(|point| shot([true; 2], point)));
    shots
}

/// 256 cells that are not sampled: two of them at the same position, the first and the last, then two others; last none.
fn repeats_of_most_cells() -> [Shot; 3] {
    let points = rectangle([0, 0], [16, 16]).map(|point| point.map(|x| x as i16));
    let cells = points.map(|[u, v]| Cell { u, v, sample: None });
    let cells: Vec<Cell> = cells.collect();
    [Some([0, MOST_CELLS - 1]), Some([200, 77]), None].map(|places| {
        let mut cells = cells.clone();
        if let Some([from, to]) = places {
            cells[to] = cells[from].clone();
        }
        with_cells(cells)
    })
}

/// A cell on every marker of a board of 16 rows and 32 columns. All are black, as the last marker is, which alone is
/// emitted; no margin is too small. 256 markers of which no two are equal up to rotation have 4 by 4 bits or more.
fn most_contributing(legacy: bool) -> Shot {
    let [rows, cols, bits] = [16, 32, 4];
    let mut codes = listed_codes(bits, MOST_CELLS);
    codes[MOST_CELLS - 1] = all_ones(bits);
    let mut shot = Shot {
        rows,
        cols,
        bits,
        codes,
        ..Shot::default()
    };
    let sample = Sample::new(1.0, 128, vec![0; shot.greys()]);
    let squares = marker_squares(rows.into(), cols.into(), legacy);
    let points = squares.map(|square| square.map(|x| x as i16));
    shot.cells = points
        .map(|[u, v]| Cell {
            u,
            v,
            sample: Some(sample.clone()),
        })
        .collect();
    shot.set_minimum_margin(-1.0);
    if legacy { shot.marked() } else { shot }
}

/// The record of document 01 with the legacy flag, and its cell on legacy boards of 4 rows and 5 columns and of 3 by 3: they
/// are beside P1 to P12. Ten markers of which no two are equal up to rotation have 3 by 3 bits or more.
pub fn small_legacy_boards() -> [Shot; 3] {
    let of_size = |[rows, cols]: [u8; 2], bits: u8| {
        let mut shot = Shot::of_document_01().marked();
        [shot.rows, shot.cols, shot.bits] = [rows, cols, bits];
        shot.codes = listed_codes(bits, usize::from(rows) * usize::from(cols) / 2);
        // Marker 3 is what the cell shows.
        shot.codes.swap(1, 3);
        let grid = Grid::of_code([bits, shot.border], 128, shot.codes[3]);
        shot.cells[0].sample = Some(Sample::new(1.0, grid.threshold, grid.grid));
        shot
    };
    [
        Shot::of_document_01().marked(),
        of_size([4, 5], 3),
        of_size([3, 3], 2),
    ]
}
