//! What must come up among the records that are restated.

use super::NUMBERS;
use crate::subject::Subject;
use cases::layout::SIDES;
use matches::given::{LENGTHS, Length, markers_of};
use matches::refused_by_match_alone;
use matches::restated::{
    WRONG_CODES, WRONG_FIELD, WRONG_FLAG, WRONG_REVERSED, Wrong, is_even_legacy, is_reversed,
    restate,
};
use records::{LONGEST, REFUSED, Shot, settings};
use std::collections::BTreeMap;

/// The checks of a board.
const OF_BOARD: [u32; 9] = [1, 2, 3, 4, 5, 6, 7, 8, 22];

/// The checks that only a match makes.
const OF_MATCH: [u32; 6] = [9, 10, 11, 12, 23, 13];

const PARITIES: [&str; 4] = [
    "even rows, even columns",
    "even rows, odd columns",
    "odd rows, even columns",
    "odd rows, odd columns",
];

/// What a restated record may have beside.
type Case = (&'static str, fn(&Shot, usize) -> bool);

const CASES: [Case; 5] = [
    ("more codes than markers", |shot, _| {
        shot.codes.len() > markers_of(shot.rows, shot.cols)
    }),
    ("more than 512 codes", |shot, _| shot.codes.len() > 512),
    ("1,024 codes", |shot, _| shot.codes.len() == 1024),
    ("more than 256 cells", |shot, _| shot.cells.len() > 256),
    ("65,535 bytes", |_, length| length == LONGEST),
];

/// Counts by a name or a number.
#[derive(Default)]
struct Counts(BTreeMap<String, u64>);

impl Counts {
    fn add(&mut self, case: impl ToString) {
        *self.0.entry(case.to_string()).or_default() += 1;
    }

    /// Each of these cases, in their order.
    fn subject(&self, name: &str, cases: impl IntoIterator<Item = impl ToString>) -> Subject {
        let cases = cases.into_iter().map(|case| case.to_string());
        Subject::of_cases(
            name,
            cases.map(|case| {
                let count = self.0.get(&case).copied().unwrap_or(0);
                (case, count)
            }),
        )
    }
}

#[derive(Default)]
pub struct CameUp {
    legacy: bool,
    lengths: Counts,
    orders: Counts,
    parities: Counts,
    cases: Counts,
    maps: Counts,
    of_match: Counts,
    wrong: Counts,
    bits: Counts,
    sizes: BTreeMap<[u8; 2], u64>,
}

impl CameUp {
    pub fn new(legacy: bool) -> Self {
        Self {
            legacy,
            ..Self::default()
        }
    }

    pub fn add(&mut self, record: &[u8], length: Length, number: u32) {
        self.lengths.add(length_case(number, length));
        let shot = records::read(record).map(|read| read.shot);
        match (number, shot) {
            (REFUSED, _) => self.add_broken(record),
            (0, Some(shot)) => self.add_restated(&shot, record.len()),
            (_, Some(shot)) if OF_BOARD.contains(&number) && is_even_legacy(&shot) => {
                self.orders.add(order_case(number, 25));
            }
            _ => {}
        }
    }

    /// What would be returned without the damage: of the record without its last byte, with one more, without spare bits.
    fn add_broken(&mut self, record: &[u8]) {
        let Some((map, rest)) = record.split_first() else {
            return;
        };
        let repaired = [
            record[..record.len() - 1].to_vec(),
            [record, &[0]].concat(),
            [&[map & 0b11_1111], rest].concat(),
        ];
        for repaired in repaired {
            if let Err(refused) = restate(&repaired, record.len() + 1) {
                self.orders.add(order_case(REFUSED, refused.number));
            }
        }
    }

    fn add_restated(&mut self, shot: &Shot, length: usize) {
        let is_legacy = shot.is_legacy();
        let parity = usize::from(shot.rows % 2) * 2 + usize::from(shot.cols % 2);
        self.parities.add(PARITIES[parity]);
        for (name, is_so) in CASES {
            if is_so(shot, length) {
                self.cases.add(name);
            }
        }
        self.maps.add(shot.map & !settings::LEGACY);
        if let Some(number) = refused_by_match_alone(shot) {
            self.of_match.add(number);
        }
        if is_reversed(shot) == self.legacy {
            self.bits.add(shot.bits);
        }
        let mut shown = |wrong: &Wrong| {
            if wrong.is_shown_by(shot) {
                self.wrong.add(wrong.name);
            }
        };
        if is_legacy {
            shown(&WRONG_FLAG);
        }
        shown(&WRONG_FIELD);
        if is_reversed(shot) {
            WRONG_CODES.iter().for_each(shown);
        } else {
            shown(&WRONG_REVERSED);
        }
        *self.sizes.entry([shot.rows, shot.cols]).or_default() += 1;
    }

    pub fn subjects(self) -> Vec<Subject> {
        let legacy = self.legacy;
        let mut lengths = Vec::new();
        for number in NUMBERS.into_iter().filter(|&number| legacy || number != 25) {
            let possible = LENGTHS.into_iter().filter(|&length| match number {
                0 => length.is_enough(),
                14 => !length.is_enough(),
                _ => true,
            });
            lengths.extend(possible.map(|length| length_case(number, length)));
        }
        let mut orders = OF_BOARD.map(|number| order_case(REFUSED, number)).to_vec();
        let mut wrong = vec![WRONG_REVERSED.name, WRONG_FIELD.name];
        let (parities, bits) = if legacy {
            orders.push(order_case(REFUSED, 25));
            orders.extend(OF_BOARD.map(|number| order_case(number, 25)));
            wrong.push(WRONG_FLAG.name);
            wrong.extend(WRONG_CODES.map(|wrong| wrong.name));
            // A side of 1 has two different codes, and such a board has at least three markers.
            (&PARITIES[1..], 2..=8)
        } else {
            (&PARITIES[..], 1..=8)
        };
        vec![
            self.lengths
                .subject("lengths of the array by number", lengths),
            self.orders.subject("two checks fail", orders),
            self.parities.subject("restated by parities", parities),
            self.cases.subject("restated", CASES.map(|(name, _)| name)),
            self.maps
                .subject("restated by presence flags", settings::presence_flags()),
            self.of_match
                .subject("restated, refused by the match", OF_MATCH),
            self.bits.subject("restated by sides of codes", bits),
            self.wrong.subject("wrong converters that show", wrong),
            self.sizes(),
        ]
    }

    /// Of legacy boards with even rows those with odd columns.
    fn sizes(&self) -> Subject {
        let sizes = SIDES.map(|rows| {
            let possible = SIDES.filter(|cols| !self.legacy || (rows | cols) % 2 == 1);
            let of_cols = |cols| self.sizes.get(&[rows, cols]).copied().unwrap_or(0);
            let least = possible.map(of_cols).min().unwrap_or(0);
            (format!("{rows} rows"), least)
        });
        let name = "restated by rows, the least of all numbers of columns";
        Subject::of_cases(name, sizes)
    }
}

fn length_case(number: u32, length: Length) -> String {
    format!("{number} {length:?}")
}

fn order_case(first: u32, second: u32) -> String {
    format!("{first} and {second}")
}
