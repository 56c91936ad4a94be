//! The scores of sampled cells, and what belongs to them: the built-in likelihood table, check 10, weights.

use crate::subject::{Subject, Subjects};
use cases::cells::{BORDERS, Cell, PATTERNS, THRESHOLDS};
use cases::codes::{SIDES, TURNS, patterns, random_code};
use cases::floats::{BORDER_THRESHOLDS, FRACTIONS, random_finite, random_fraction};
use cases::prng::Prng;
use cases::tables::{LENGTHS, ODD_ENTRIES, PLACES, SLOPES_AND_FLOORS};
use differential::ours::scores;
use matches::given::{INVALID, VALID};
use theirs::{
    BUILT_IN, Samples, ScoreBoard, TABLE_LENGTH, is_table, likelihood_table, score_by_table,
};

const RANDOM_WEIGHTS: usize = 100_000;
const RANDOM_CODES: usize = 8;
const RANDOM_CELLS: usize = 60;
const RANDOM_TABLES: usize = 3;

pub fn compare() -> Vec<Subject> {
    let mut prng = Prng::new(4);
    let mut subjects = vec![built_in_table(), tables()];
    subjects.extend(weights(&mut prng));
    subjects.extend(of_cells(&mut prng));
    subjects
}

/// Places past the table, some of which look like places in it when their upper part is dropped. Their value is NaN.
const PAST_THE_TABLE: [usize; 7] = [
    TABLE_LENGTH,
    512,
    1022,
    1 << 16,
    (1 << 16) + 255,
    (1 << 32) + 255,
    usize::MAX,
];

fn built_in_table() -> Subject {
    let mut subject = Subject::new("entry of the built-in table, bit pattern");
    let table = likelihood_table(BUILT_IN);
    for i in (0..TABLE_LENGTH).chain(PAST_THE_TABLE) {
        let theirs = table.get(i).copied().unwrap_or(f32::NAN);
        subject.check_float(scores::table_entry(i), theirs, format_args!("entry {i}"));
    }
    subject
}

/// Tables by slope and floor, lists of other lengths, and a good table with one odd entry.
fn tables() -> Subject {
    let mut subject = Subject::new("is a table (check 10)");
    let mut check = |entries: &[f32], asked: String| {
        let [ours, theirs] = [scores::is_table(entries), is_table(entries)];
        subject.check(ours, theirs, format_args!("{asked}"));
    };
    for slope_and_floor in SLOPES_AND_FLOORS {
        let table = likelihood_table(slope_and_floor);
        check(&table, format!("slope and floor {slope_and_floor:?}"));
    }
    let good = likelihood_table(BUILT_IN);
    for length in LENGTHS {
        let entries: Vec<f32> = good.into_iter().cycle().take(length).collect();
        check(&entries, format!("{length} entries"));
    }
    for place in PLACES {
        for odd in ODD_ENTRIES {
            let mut entries = good;
            entries[place] = odd;
            check(&entries, format!("{odd:e} at {place}"));
        }
    }
    subject
}

/// Without a least weight, which is then 0, upstream's; with another one the cut of upstream's.
fn weights(prng: &mut Prng) -> Vec<Subject> {
    let mut uncut = Subject::new("weight of a cell, bit pattern");
    let mut cut = Subject::new("weight of a cell with a least weight, bit pattern");
    let mut cases = [0; WEIGHTS.len()];
    let mut check = |threshold: f32, sampled, fraction: f32, further: &[f32]| {
        let weight = theirs::cell_weight(threshold, sampled, fraction);
        let asked =
            format_args!("threshold {threshold:e}, sampled {sampled}, fraction {fraction:e}");
        let ours = |least| scores::cell_weight(threshold, least, sampled, fraction);
        uncut.check_float(ours(0.0), weight, asked);
        let near = [weight, weight.next_up(), weight.next_down()];
        for &least in near.iter().chain(further) {
            let asked = format_args!("least weight {least:e}, {asked}");
            cut.check_float(ours(least), theirs::cut(weight, least), asked);
            for (count, (_, is_so)) in cases.iter_mut().zip(WEIGHTS) {
                *count += u64::from(is_so(weight, least));
            }
        }
    };
    let least_weights = [&VALID[..], &INVALID].concat();
    for threshold in BORDER_THRESHOLDS {
        for fraction in FRACTIONS {
            check(threshold, true, fraction, &least_weights);
            check(threshold, false, fraction, &least_weights);
        }
    }
    for _ in 0..RANDOM_WEIGHTS {
        check(random_fraction(prng), true, random_fraction(prng), &[]);
        check(random_finite(prng), true, random_fraction(prng), &[]);
    }
    let cases = WEIGHTS.iter().map(|(name, _)| name).zip(cases);
    let cases = Subject::of_cases("weights by the least weight", cases);
    vec![uncut, cut, cases]
}

type OfWeights = (&'static str, fn(f32, f32) -> bool);

/// What must come up, for a weight and a least weight.
const WEIGHTS: [OfWeights; 6] = [
    ("equal", |weight, least| weight == least && weight > 0.0),
    ("next below", |weight, least| {
        weight.next_up() == least && weight > 0.0
    }),
    ("next above", |weight, least| {
        weight == least.next_up() && least > 0.0
    }),
    ("below", |weight, least| 0.0 < weight && weight < least),
    ("-0.0 and a least weight of 0 or -0.0", |weight, least| {
        weight.to_bits() == 0x8000_0000 && least == 0.0
    }),
    ("a least weight of NaN", |_, least| least.is_nan()),
];

/// Scores, evidence and read codes of cells of every side and border.
fn of_cells(prng: &mut Prng) -> Vec<Subject> {
    let mut subjects = Subjects::default();
    let random_tables = prng.many(RANDOM_TABLES, random_table);
    for bits in SIDES {
        let [ours, theirs] = [scores::null_score(bits), theirs::null_score(bits)];
        let null_scores = subjects.of("null score, bit pattern");
        null_scores.check_float(ours, theirs, format_args!("side {bits}"));
        for border in BORDERS {
            let group = Group::new(prng, bits, border);
            compare_read_codes(&mut subjects, &group);
            for slope_and_floor in SLOPES_AND_FLOORS {
                compare_with_the_rust(&mut subjects, &group, slope_and_floor);
            }
            for table in &random_tables {
                compare_with_the_rule(&mut subjects, &group, table);
            }
        }
    }
    subjects.0
}

/// Any entries that a table may have: unlike those by a formula, hardly two are equal.
fn random_table(prng: &mut Prng) -> [f32; TABLE_LENGTH] {
    [(); TABLE_LENGTH].map(|()| prng.below(1 << 24) as f32 / (1 << 21) as f32 - 8.0)
}

/// Cells of one side and border, and codes.
struct Group {
    bits: u8,
    cells: Vec<Cell>,
    codes: Vec<u64>,
    /// Code by code, of each code the four rotations.
    turned: Vec<u64>,
}

impl Group {
    fn new(prng: &mut Prng, bits: u8, border: u8) -> Self {
        let mut codes = patterns(bits).to_vec();
        codes.extend(prng.many(RANDOM_CODES, |prng| random_code(prng, bits)));
        let turned = codes
            .iter()
            .flat_map(|&code| TURNS.map(move |turn| theirs::rotate_code(code, bits, turn)))
            .collect();
        Self {
            bits,
            cells: cells(prng, [bits, border], &codes),
            codes,
            turned,
        }
    }
}

/// Every pattern with every special threshold, random cells, and cells that show one of the codes.
fn cells(prng: &mut Prng, size: [u8; 2], codes: &[u64]) -> Vec<Cell> {
    let mut cells = Vec::new();
    for threshold in THRESHOLDS {
        cells.extend(PATTERNS.map(|pattern| Cell::of_pattern(prng, size, threshold, pattern)));
    }
    cells.extend(prng.many(RANDOM_CELLS, |prng| Cell::random(prng, size)));
    cells.extend(codes.iter().map(|&code| Cell::showing(prng, size, code)));
    cells
}

fn compare_read_codes(subjects: &mut Subjects, group: &Group) {
    let read_codes = subjects.of("code read from a cell");
    for cell in &group.cells {
        let [ours, theirs] = [scores::read_code(cell), theirs::read_code(cell)];
        read_codes.check(ours, theirs, format_args!("{cell:?}"));
    }
}

/// Only for a slope and a floor that are finite and give a table that is not refused.
fn compare_with_the_rust(subjects: &mut Subjects, group: &Group, slope_and_floor: [f32; 2]) {
    let table = likelihood_table(slope_and_floor);
    if !slope_and_floor.iter().all(|x| x.is_finite()) || !is_table(&table) {
        return;
    }
    let board = ScoreBoard::new(group.bits, &group.codes);
    let theirs = board.scores(&Samples::new(&group.cells), slope_and_floor);
    let mut at_once = vec![0.0; group.turned.len()];
    for (place, cell) in group.cells.iter().enumerate() {
        scores::cell_scores(&table, cell, &group.turned, &mut at_once);
        for (i, &code) in group.turned.iter().enumerate() {
            let asked =
                format_args!("slope and floor {slope_and_floor:?}, code {code:X}, {cell:?}");
            let score = theirs.of_cell(place)[i];
            let one = subjects.of("score of a cell and a rotated code, bit pattern");
            one.check_float(scores::score(&table, cell, code), score, asked);
            let all = subjects.of("the same, all codes of a cell in one call");
            all.check_float(at_once[i], score, asked);
            let evidence = theirs.evidence(place, i as u32 / 4, (i % 4) as u8);
            let of_cell = subjects.of("evidence of a cell, bit pattern");
            of_cell.check_float(scores::evidence(score, group.bits), evidence, asked);
        }
    }
}

/// Upstream takes no table that is not by its formula, so the rule of document 01 answers.
fn compare_with_the_rule(subjects: &mut Subjects, group: &Group, table: &[f32; TABLE_LENGTH]) {
    let by_rule = subjects.of("score by the oracle's rule, random table");
    let mut at_once = vec![0.0; group.turned.len()];
    for cell in &group.cells {
        scores::cell_scores(table, cell, &group.turned, &mut at_once);
        for (&ours, &code) in at_once.iter().zip(&group.turned) {
            let theirs = score_by_table(table, cell, code);
            by_rule.check_float(ours, theirs, format_args!("code {code:X}, {cell:?}"));
        }
    }
}
