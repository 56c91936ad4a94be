//! Legacy records written for the current layout (document 02, 2.7). Upstream has no records, so the converter is the oracle's,
//! written from the document; the checks of the board and the rotation of a code are upstream's as elsewhere.

use crate::given::markers_of;
use crate::questions::accepted;
use cases::answer::Answer;
use records::{REFUSED, Shot, settings, write};
use theirs::rotate_code;

/// What is expected for a record and an output array of so many bytes: the new record, or the refusal.
pub fn restate(record: &[u8], places: usize) -> Result<Vec<u8>, Answer> {
    let read = records::read(record).ok_or(Answer::refused(REFUSED))?;
    accepted(&read.shot)?;
    if is_even_legacy(&read.shot) {
        return Err(Answer::refused(25));
    }
    if places < record.len() {
        return Err(Answer::refused(14));
    }
    Ok(write(&restated(&read.shot)).bytes)
}

/// Check 25: the legacy flag is set, and rows and columns are both even.
pub const fn is_even_legacy(shot: &Shot) -> bool {
    shot.is_legacy() && shot.rows % 2 == 0 && shot.cols % 2 == 0
}

/// Are the codes of the markers reversed? With an odd row count only the flag goes.
pub const fn is_reversed(shot: &Shot) -> bool {
    shot.is_legacy() && shot.rows % 2 == 0
}

/// The shot that the new record has, of one that passes check 25 and those before it.
pub fn restated(shot: &Shot) -> Shot {
    let mut new = without_flag(shot);
    if is_reversed(shot) {
        let markers = markers_of(shot.rows, shot.cols);
        new.codes = reversed(shot, markers, turned_twice);
    }
    new
}

fn without_flag(shot: &Shot) -> Shot {
    let mut new = shot.clone();
    new.map &= !settings::LEGACY;
    new
}

fn turned_twice(code: u64, side: u8) -> u64 {
    rotate_code(rotate_code(code, side, 1), side, 1)
}

/// The first so many codes in reverse order, each after a rotation, and the others in their places.
fn reversed(shot: &Shot, count: usize, rotate: fn(u64, u8) -> u64) -> Vec<u64> {
    let (first, later) = shot.codes.split_at(count);
    let first = first.iter().rev().map(|&code| rotate(code, shot.bits));
    first.chain(later.iter().copied()).collect()
}

/// A wrong converter, which some record must show to be wrong.
pub struct Wrong {
    pub name: &'static str,
    make: fn(&Shot) -> Shot,
}

impl Wrong {
    /// Does the shot, which is restated, show it?
    pub fn is_shown_by(&self, shot: &Shot) -> bool {
        (self.make)(shot) != restated(shot)
    }
}

const fn wrong(name: &'static str, make: fn(&Shot) -> Shot) -> Wrong {
    Wrong { name, make }
}

/// The restated shot with other codes, where the codes are reversed.
fn with_codes(shot: &Shot, codes: fn(&Shot, usize) -> Vec<u64>) -> Shot {
    let mut new = restated(shot);
    if is_reversed(shot) {
        new.codes = codes(shot, markers_of(shot.rows, shot.cols));
    }
    new
}

/// Those of legacy boards with even rows and odd columns.
pub const WRONG_CODES: [Wrong; 9] = [
    wrong("codes as they were", |shot| {
        with_codes(shot, |shot, _| shot.codes.clone())
    }),
    wrong("reversed and not rotated", |shot| {
        with_codes(shot, |shot, markers| {
            reversed(shot, markers, |code, _| code)
        })
    }),
    wrong("rotated and not reversed", |shot| {
        with_codes(shot, |shot, markers| {
            let mut codes = reversed(shot, markers, turned_twice);
            codes[..markers].reverse();
            codes
        })
    }),
    wrong("rotated once", |shot| {
        with_codes(shot, |shot, markers| {
            reversed(shot, markers, |code, side| rotate_code(code, side, 1))
        })
    }),
    wrong("later codes reversed too", |shot| {
        with_codes(shot, |shot, _| {
            reversed(shot, shot.codes.len(), turned_twice)
        })
    }),
    wrong("later codes rotated too", |shot| {
        with_codes(shot, |shot, markers| {
            let mut codes = reversed(shot, markers, turned_twice);
            for code in &mut codes[markers..] {
                *code = turned_twice(*code, shot.bits);
            }
            codes
        })
    }),
    wrong("one code more reversed", |shot| {
        with_codes(shot, |shot, markers| {
            reversed(shot, shot.codes.len().min(markers + 1), turned_twice)
        })
    }),
    wrong("one code less reversed", |shot| {
        with_codes(shot, |shot, markers| {
            reversed(shot, markers - 1, turned_twice)
        })
    }),
    wrong("the middle code left as it was", |shot| {
        with_codes(shot, |shot, markers| {
            let mut codes = reversed(shot, markers, turned_twice);
            if markers % 2 == 1 {
                codes[markers / 2] = shot.codes[markers / 2];
            }
            codes
        })
    }),
];

/// Those of every legacy board, and those of boards whose codes must stay.
pub const WRONG_FLAG: Wrong = wrong("the flag kept", |shot| Shot {
    map: shot.map,
    ..restated(shot)
});
pub const WRONG_REVERSED: Wrong = wrong("codes reversed that must stay", |shot| Shot {
    codes: reversed(shot, markers_of(shot.rows, shot.cols), turned_twice),
    ..without_flag(shot)
});

/// Of every board that has a least weight (document 02, 2.8).
pub const WRONG_FIELD: Wrong = wrong("the least weight left out", |shot| {
    let mut new = restated(shot);
    new.map &= !settings::LEAST_WEIGHT;
    new.least_weight = 0;
    new
});
