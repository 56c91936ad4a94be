//! The records of the comparison, by kinds. All are random, each kind from a seed of its own.

mod counts;
mod faults;
mod least_weights;
mod logs;
mod longest;
mod look_alikes;
mod many_codes;
mod numbers;
mod points;
mod reach;
mod repeats;
mod restate;
mod scene;
mod score_arrays;
mod ties;

use crate::answer::MARKER_WORDS;
use cases::layout::sizes;
use cases::prng::Prng;
use records::{Shot, damage, settings, write};
use std::ops::Range;

pub use least_weights::{INVALID, VALID, two_small_boards};
pub use logs::{GivenLog, LOG_KINDS, LogKind, Records};
pub use longest::codes_and_samples;
pub use restate::sheet;
pub use scene::{Look, Scene, markers_of};
pub use score_arrays::{LENGTHS, Length, ScoreArray};

/// A record, and how many words the output array has.
#[derive(Clone, Debug)]
pub struct Given {
    pub record: Vec<u8>,
    pub places: usize,
}

pub struct Kind {
    /// The seed is made of it.
    pub name: &'static str,
    /// As it is printed.
    pub title: &'static str,
    /// Of legacy boards, with scenes that are drawn on their layout.
    pub legacy: bool,
    pub count: usize,
    make: Make,
}

/// No two cells of a shot that passes check 12 have the same position, except in the kind of duplicate positions and by damage.
pub const KINDS: [Kind; 20] = [
    shots("true placements", 18_000, numbers::shown),
    shots("ties", 15_000, ties::shot),
    shots("tiny boards", 12_000, ties::tiny_board).titled("boards of 2 × 2 to 3 × 3 squares"),
    shots("weights", 10_000, numbers::weights),
    shots("one cell, rim, just fitting, far off", 12_000, reach::shot)
        .titled("one cell, cells at the rim, just fitting and far off"),
    shots("about 256 cells", 300, reach::many_cells),
    shots("tables by the formula", 8_000, numbers::table_by_formula),
    shots("any tables", 8_000, numbers::any_table),
    shots("settings", 10_000, numbers::any_settings),
    shots(
        "minimum at the margin",
        4_000,
        numbers::minimum_at_the_margin,
    ),
    shots("odd floats", 6_000, numbers::odd_floats).titled("-0.0 and subnormal fields"),
    kind("one fault or two", 12_000, Make::Given(faults::given)),
    kind(
        "markers that look alike",
        14_000,
        Make::Given(look_alikes::given),
    )
    .titled("codes equal up to rotation"),
    kind("lent lists", 4_000, Make::Given(with_any_places)).titled("output arrays of any length"),
    kind("damaged records", 8_000, Make::Given(damaged)),
    kind("cells at one point", 60_000, Make::Given(repeats::given)).titled("duplicate positions"),
    shots("points nearly alike", 12_000, repeats::nearly).titled("positions that are nearly equal"),
    shots("counts of contributing cells", 10_000, counts::shot),
    kind("many codes", 2_000, Make::Given(many_codes::given)),
    kind("least weights", 20_000, Make::Given(least_weights::given)),
];

/// The places of the kinds for duplicate positions, of the one for counts, of the one with many codes, and of the one with least
/// weights.
pub const OF_REPEATS: Range<usize> = 15..17;
pub const OF_COUNTS: usize = 17;
pub const OF_MANY_CODES: usize = 18;
pub const OF_LEAST_WEIGHTS: usize = 19;

/// The same kinds of legacy boards, half as many records of each.
pub const LEGACY_KINDS: [Kind; KINDS.len()] = of_legacy_boards(KINDS, 2);

/// Further records for score arrays (document 02, 2.6).
pub const SCORE_KINDS: [Kind; 3] = [
    kind(
        "checks next to 24",
        6_000,
        Make::Given(score_arrays::next_to_24),
    )
    .titled("one fault or two of the checks 14 to 17"),
    kind("every size", 961, Make::OfSize(score_arrays::of_size)).titled("boards of every size"),
    shots("most scores", 10, score_arrays::most_scores).titled("256 cells on 32 × 32 squares"),
];

pub const LEGACY_SCORE_KINDS: [Kind; SCORE_KINDS.len()] = of_legacy_boards(SCORE_KINDS, 1);

/// Records to restate (document 02, 2.7).
pub const RESTATE_KINDS: [Kind; 5] = [
    kind("restated sizes", 8 * 961, Make::OfSize(restate::of_size)).titled("boards of every size"),
    shots("restated small boards", 3_000, restate::small)
        .titled("boards of 2 × 2 to 4 × 4 squares"),
    kind(
        "restated with faults",
        20_000,
        Make::Given(restate::with_faults),
    )
    .titled("one fault or two of the checks before 25"),
    kind(
        "restated and not matched",
        10_000,
        Make::Given(restate::refused_by_match),
    )
    .titled("one fault or two of checks that only a match makes"),
    shots("restated longest", 40, restate::longest).titled("records of 65,535 bytes"),
];

pub const LEGACY_RESTATE_KINDS: [Kind; RESTATE_KINDS.len()] = of_legacy_boards(RESTATE_KINDS, 1);

/// Further shots of legacy boards with even rows and odd columns, which are placed on both boards.
pub const PAIRED_KINDS: [Kind; 1] = of_legacy_boards(
    [shots("ties below 0", 200, restate::tied_below_0)
        .titled("ties of the best with evidence below 0")],
    1,
);

/// Records that an entry of a log may have (document 02, 2.9).
pub const LONGEST_KINDS: [Kind; 1] =
    [shots("longest placed", 6, longest::shot).titled("placed records of 65,535 bytes")];

pub const LEGACY_LONGEST_KINDS: [Kind; LONGEST_KINDS.len()] = of_legacy_boards(LONGEST_KINDS, 1);

/// With as many records of each, divided by this.
const fn of_legacy_boards<const N: usize>(mut kinds: [Kind; N], divisor: usize) -> [Kind; N] {
    let mut place = 0;
    while place < N {
        kinds[place].legacy = true;
        kinds[place].count /= divisor;
        place += 1;
    }
    kinds
}

/// A shot gets an output array with room for each cell. The last argument is the legacy flag.
#[derive(Clone, Copy)]
enum Make {
    Shot(fn(&mut Prng, bool) -> Shot),
    /// The shots are of all sizes in turn.
    OfSize(fn(&mut Prng, [u8; 2], bool) -> Shot),
    Given(fn(&mut Prng, bool) -> Given),
}

const fn kind(name: &'static str, count: usize, make: Make) -> Kind {
    Kind {
        name,
        title: name,
        legacy: false,
        count,
        make,
    }
}

const fn shots(name: &'static str, count: usize, make: fn(&mut Prng, bool) -> Shot) -> Kind {
    kind(name, count, Make::Shot(make))
}

impl Kind {
    const fn titled(mut self, title: &'static str) -> Self {
        self.title = title;
        self
    }

    pub fn all(&self) -> impl Iterator<Item = Given> {
        self.first(self.count)
    }

    /// The first so many, or more than there are of the kind.
    pub fn first(&self, count: usize) -> impl Iterator<Item = Given> {
        let mut prng = prng_of(self.name, if self.legacy { 21 } else { 7 });
        let sizes = sizes().collect::<Vec<_>>().into_iter().cycle();
        sizes.take(count).map(move |size| match self.make {
            Make::Shot(make) => {
                let shot = make(&mut prng, self.legacy);
                with_places(&mut prng, shot)
            }
            Make::OfSize(make) => {
                let shot = make(&mut prng, size, self.legacy);
                with_places(&mut prng, shot)
            }
            Make::Given(make) => make(&mut prng, self.legacy),
        })
    }
}

/// Its seed is made of a name.
fn prng_of(name: &str, first: u64) -> Prng {
    let name = name.bytes().map(u64::from);
    Prng::new(name.fold(first, |seed, byte| seed.wrapping_mul(1_000_003) ^ byte))
}

/// An output array with room for each cell, and a few words more half of the time. Half of the shots without a minimum margin
/// of their own get one that no margin is below, since a match shows more than a refusal.
fn with_places(prng: &mut Prng, mut shot: Shot) -> Given {
    let more = prng.pick(&[0, 0, 0, 1, 17, MARKER_WORDS, 50]);
    if shot.map & settings::MINIMUM_MARGIN == 0 && prng.one_in(2) {
        shot.set_minimum_margin(prng.pick(&[0.0, -1.0]));
    }
    Given {
        record: write(&shot).bytes,
        places: shot.cells.len() * MARKER_WORDS + more,
    }
}

/// An output array of about the length that is needed, or of any other.
fn with_any_places(prng: &mut Prng, legacy: bool) -> Given {
    let shot = numbers::shown(prng, legacy);
    let needed = shot.cells.len() * MARKER_WORDS;
    let near = [needed - 1, needed, needed, needed + 1, needed + 100];
    let any = [0, 1, MARKER_WORDS, needed / 2];
    let places = prng.pick(&[&near[..], &near[..], &any[..]].concat());
    let record = write(&shot).bytes;
    Given { record, places }
}

fn damaged(prng: &mut Prng, legacy: bool) -> Given {
    let shot = numbers::shown(prng, legacy);
    let written = write(&shot);
    let one_of =
        |prng: &mut Prng, mut records: Vec<Vec<u8>>| records.swap_remove(prng.place(records.len()));
    let record = match prng.below(8) {
        0 => one_of(prng, damage::upper_bits(&written, shot.cells.len())),
        1 => one_of(prng, damage::counts(&written)),
        2 => one_of(prng, damage::one_byte_more(&written.bytes).to_vec()),
        3 | 4 => written.bytes[..prng.place(written.bytes.len())].to_vec(),
        5 if legacy => damage::marked(damage::random_bytes(prng)),
        5 => damage::random_bytes(prng),
        _ => damage::with_bytes_changed(prng, &written.bytes),
    };
    Given {
        record,
        places: prng.pick(&[0, 18, 2_000, 5_000]),
    }
}
