//! Arguments for the constructor of a board: good ones, and these with one, two or many of them changed, to good values and
//! to bad ones. Two bad ones at a time show in which order the checks are made.

mod look_alikes;

use crate::codes::listed_codes;
use crate::floats::{BAD_CELL_SIZES, BAD_MARKER_SIZES, GOOD_CELL_SIZES, GOOD_MARKER_SIZES};
use crate::prng::Prng;
use std::collections::HashMap;
use std::sync::{LazyLock, Mutex};

pub use look_alikes::{Pair, random_pair, with_look_alikes};

/// The codes are the first `code_count` that are listed for the side, of which no two are equal up to rotation as far as the
/// side has so many, but for `value` at `place` where there is such a place.
#[derive(Clone, Copy, Debug)]
pub struct BoardArguments {
    pub rows: u32,
    pub cols: u32,
    pub bits: u32,
    pub border_bits: u32,
    /// The legacy flag, of a board from before OpenCV 4.6.
    pub legacy_pattern: bool,
    pub cell_size: f32,
    pub marker_size_rel: f32,
    pub code_count: usize,
    pub place: usize,
    pub value: u64,
}

impl BoardArguments {
    pub const fn with_mark(self, legacy_pattern: bool) -> Self {
        Self {
            legacy_pattern,
            ..self
        }
    }

    /// A side above 8 counts as 8: check 6 refuses it, whatever its codes are.
    pub fn side(&self) -> u8 {
        self.bits.min(8) as u8
    }

    pub const fn marker_count(&self) -> usize {
        self.rows as usize * self.cols as usize / 2
    }

    /// They live as long as the program, which upstream's dictionary needs. Each list is made once.
    pub fn codes(&self) -> &'static [u64] {
        type Made = HashMap<(u8, usize, usize, u64), &'static [u64]>;
        static MADE: LazyLock<Mutex<Made>> = LazyLock::new(Mutex::default);
        let mut made = MADE.lock().expect("no other holder has panicked");
        let key = (self.side(), self.code_count, self.place, self.value);
        made.entry(key).or_insert_with(|| {
            let mut codes = listed_codes(self.side(), self.code_count);
            if let Some(code) = codes.get_mut(self.place) {
                *code = self.value;
            }
            codes.leak()
        })
    }
}

/// A board that is accepted, with as many codes as it has markers and without the legacy flag.
pub const fn board([rows, cols]: [u32; 2], cell_size: f32) -> BoardArguments {
    BoardArguments {
        rows,
        cols,
        bits: 4,
        border_bits: 1,
        legacy_pattern: false,
        cell_size,
        marker_size_rel: 0.75,
        code_count: (rows * cols / 2) as usize,
        place: 1,
        value: 0xFFFF,
    }
}

/// An accepted board of 2 to 32 rows and columns, small ones more often than others.
pub fn random_board(prng: &mut Prng) -> BoardArguments {
    let most = prng.pick(&[2, 4, 8, 31]);
    let size = prng.two(|prng| 2 + prng.below(most) as u32);
    board(size, prng.pick(&GOOD_CELL_SIZES))
}

/// Arguments in the making. How many codes there are and which of them is odd stays relative to the board's size and
/// side, so that a later change of those keeps its point.
#[derive(Clone, Copy)]
pub struct Draft {
    board: BoardArguments,
    /// From how many codes the board needs, how many there are.
    count: fn(usize) -> usize,
    /// The one code that need not be the listed one: its place, from how many there are, and its value, from the side.
    place: fn(usize) -> usize,
    value: fn(u32) -> u64,
}

/// No list is longer: the board takes at most 1,024 codes.
const MOST_CODES: usize = 1025;

impl Draft {
    fn finish(self) -> BoardArguments {
        let needed = self.board.marker_count().min(MOST_CODES);
        let code_count = (self.count)(needed).min(MOST_CODES);
        BoardArguments {
            code_count,
            place: (self.place)(code_count),
            value: (self.value)(self.board.bits),
            ..self.board
        }
    }

    fn with(mut self, change: &Change) -> Self {
        change(&mut self);
        self
    }
}

/// Boards that are accepted.
pub const BASES: [Draft; 4] = [
    base([5, 7], 4, 1, NEEDED),
    base([2, 2], 1, 4, |_| 1024),
    base([32, 32], 8, 2, NEEDED),
    base([9, 4], 7, 3, ONE_MORE),
];

const NEEDED: fn(usize) -> usize = |needed| needed;
const ONE_MORE: fn(usize) -> usize = |needed| needed + 1;
const ONE_LESS: fn(usize) -> usize = |count| count.saturating_sub(1);

const fn base(size: [u32; 2], bits: u32, border_bits: u32, count: fn(usize) -> usize) -> Draft {
    Draft {
        board: BoardArguments {
            bits,
            border_bits,
            ..board(size, 25.4)
        },
        count,
        place: ONE_LESS,
        value: largest,
    }
}

/// A side of 8 bits or more leaves no code above its largest.
fn largest(bits: u32) -> u64 {
    match bits {
        ..8 => (1 << (bits * bits)) - 1,
        _ => u64::MAX,
    }
}

/// Too small, accepted, too large, and large ones whose low byte or low half would be accepted.
const SIZES: [u32; 13] = [
    0, 1, 2, 3, 31, 32, 33, 0x102, 300, 0x1_0005, 0x80000000, 0x80000002, 0xFFFFFFFF,
];
const BITS: [u32; 9] = [0, 1, 4, 7, 8, 9, 0x104, 0x1_0004, 0xFFFFFFFF];
const BORDERS: [u32; 8] = [0, 1, 4, 5, 0x100, 0x101, 0x1_0001, 0xFFFFFFFF];
const COUNTS: [fn(usize) -> usize; 7] =
    [|_| 0, |_| 1, ONE_LESS, NEEDED, ONE_MORE, |_| 1024, |_| 1025];
/// The first, the middle one, the last, and past the last.
const PLACES: [fn(usize) -> usize; 4] = [|_| 0, |count| count / 2, ONE_LESS, |count| count];
const VALUES: [fn(u32) -> u64; 3] = [
    largest,
    |bits| largest(bits).saturating_add(1),
    |_| u64::MAX,
];

/// A new value for one argument.
type Change = Box<dyn Fn(&mut Draft)>;

fn each<T: Copy + 'static>(
    values: impl IntoIterator<Item = T>,
    set: fn(&mut Draft, T),
) -> Vec<Change> {
    let change = |value| Box::new(move |draft: &mut Draft| set(draft, value)) as Change;
    values.into_iter().map(change).collect()
}

/// The changes, in one list for each argument.
fn changes() -> [Vec<Change>; 8] {
    let cell_sizes = GOOD_CELL_SIZES.into_iter().chain(BAD_CELL_SIZES);
    let marker_sizes = GOOD_MARKER_SIZES.into_iter().chain(BAD_MARKER_SIZES);
    let odd_codes = PLACES.into_iter();
    let odd_codes = odd_codes.flat_map(|place| VALUES.map(|value| (place, value)));
    [
        each(SIZES, |draft, rows| draft.board.rows = rows),
        each(SIZES, |draft, cols| draft.board.cols = cols),
        each(cell_sizes, |draft, size| draft.board.cell_size = size),
        each(marker_sizes, |draft, size| {
            draft.board.marker_size_rel = size
        }),
        each(BORDERS, |draft, border| draft.board.border_bits = border),
        each(BITS, |draft, bits| draft.board.bits = bits),
        each(COUNTS, |draft, count| draft.count = count),
        each(odd_codes, |draft, odd| (draft.place, draft.value) = odd),
    ]
}

/// A board as it is, and with each change.
pub fn single_changes(base: Draft) -> Vec<BoardArguments> {
    let changes = changes();
    let changed = changes.iter().flatten().map(|change| base.with(change));
    let drafts = [base].into_iter().chain(changed);
    drafts.map(Draft::finish).collect()
}

/// A board with each pair of changes to different arguments.
pub fn double_changes(base: Draft) -> Vec<BoardArguments> {
    let changes = changes();
    let mut all = Vec::new();
    for (at, first_list) in changes.iter().enumerate() {
        for first in first_list {
            let once = base.with(first);
            let second = changes[at + 1..].iter().flatten();
            all.extend(second.map(|second| once.with(second).finish()));
        }
    }
    all
}

/// `count` boards that are made of good ones; each argument of each is changed or left by chance.
pub fn many_changes(prng: &mut Prng, count: usize) -> Vec<BoardArguments> {
    let changes = changes();
    prng.many(count, |prng| {
        let mut draft = prng.pick(&BASES);
        for list in &changes {
            if prng.one_in(3) {
                draft = draft.with(&list[prng.place(list.len())]);
            }
        }
        draft.finish()
    })
}

/// Boards that may be refused: good ones with one argument changed, and `count` with many changed.
pub fn changed_boards(prng: &mut Prng, count: usize) -> Vec<BoardArguments> {
    let mut boards = BASES.map(single_changes).concat();
    boards.extend(many_changes(prng, count));
    boards
}
