//! How long this library and upstream take for the corner entry point and the link entry point, and how much memory:
//! `bench_corners_links`, or `bench_corners_links ours|theirs|all ROUNDS [CASE]`. This library makes the board and its
//! checks and writes the output array; of upstream, whose board is made before, it is `map_charuco_corners` or
//! `validate_marker_corner_links`.

use cases::corner_entry::largest_board;
use cases::link_entry::{self, MOST_LINKS, Spread, many_links};
use cases::prng::Prng;
use differential::bench::{Bench, EntryCase, heap};
use std::process::ExitCode;
use theirs::{CheckedOnBoard, MappedOnBoard};

#[global_allocator]
static HEAP: heap::Counting = heap::Counting;

fn main() -> ExitCode {
    let spreads = [
        ("all markers", link_entry::ALL_MARKERS),
        ("one marker, to different corners", link_entry::ONE_MARKER),
        ("all markers, with equal keys", link_entry::EQUAL_KEYS),
        (
            "one marker, with equal keys",
            link_entry::EQUAL_KEYS_OF_ONE_MARKER,
        ),
    ];
    let links = spreads.map(|(name, spread)| (format!("4,096 links of {name}"), links(spread)));
    let mut cases = vec![("961 corners on 32 rows and columns".into(), corners())];
    cases.extend(links);
    Bench::with_memory("bench_corners_links", "call").run(cases)
}

fn corners() -> EntryCase {
    let input = largest_board();
    let mapped = MappedOnBoard::of_input(&input).expect("a board that is accepted");
    EntryCase::new(input, move || mapped.corners().len())
}

fn links(spread: Spread) -> EntryCase {
    let input = many_links(&mut Prng::new(9), false, spread, MOST_LINKS, true);
    let checked = CheckedOnBoard::of_input(&input).expect("a board that is accepted");
    EntryCase::new(input, move || checked.violations().len())
}
