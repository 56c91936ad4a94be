//! The entry points for cells, corners and links, and through that for corners the checks of a board.

use crate::kinds::{CELLS, CORNERS, LEGACY_CORNERS, LEGACY_LINKS, LINKS};
use crate::script::{MOST_PLACES, Script, few, float, signed};
use cases::answer::Answer;
use cases::boards::{self, BASES, BoardArguments, board, double_changes};
use cases::corner_entry::{self, CornerInput, alignments, full_board, largest_board, most_corners};
use cases::corner_lists::{
    self, CornerLists, WORDS_OF_A_CORNER, far, most_of_each, random_grid, random_list, shapes,
    traps,
};
use cases::link_entry::{self, LinkInput, many_links, most_of_one_link, whole_board};
use cases::prng::Prng;
use theirs::{map_charuco_corners, unordered};

pub fn ask_cells(script: &mut Script) {
    let mut prng = Prng::new(23);
    // Longer lists are left to those with the most of each.
    let short = |lists: &CornerLists| lists.count() <= 40 && lists.inliers.len() <= 80;
    let mut inputs: Vec<CornerLists> = shapes().into_iter().filter(short).collect();
    let changed = corner_lists::single_changes().into_iter().filter(short);
    inputs.extend(changed.filter(|_| prng.one_in(2)));
    inputs.extend(traps(&mut prng).into_iter().take(20));
    inputs.extend(far().into_iter().take(1));
    inputs.extend(prng.many(50, random_list));
    inputs.extend(prng.many(4, random_grid));
    inputs.extend(most_of_each());
    for lists in &inputs {
        ask_lists(script, lists);
    }
}

/// The file has no grid words past those of the corners.
fn ask_lists(script: &mut Script, lists: &CornerLists) {
    let counts = [lists.count(), lists.grid.len(), lists.places].map(|count| count as u64);
    if lists.grid.len() > lists.count() * WORDS_OF_A_CORNER || lists.places > MOST_PLACES {
        return;
    }
    let mut words = corner_words(lists);
    words.extend(lists.inliers.iter().map(|&index| index as u64));
    script.give_words(&words);
    script.ask_with_list(CELLS, &counts, theirs::marker_cells(lists), lists.places);
}

/// Four words for each corner. Where grid words are missing, others are in the file; they are not passed.
fn corner_words(lists: &CornerLists) -> Vec<u64> {
    let mut grid = lists.grid.clone();
    grid.resize(lists.count() * WORDS_OF_A_CORNER, 1);
    let (points, _) = grid.as_chunks::<WORDS_OF_A_CORNER>();
    let corners = points.iter().zip(&lists.scores);
    corners
        .flat_map(|(&[has, u, v], &score)| [signed(has), signed(u), signed(v), float(score)])
        .collect()
}

/// So many of a list have each number for an answer.
const OF_EACH_NUMBER: usize = 4;

/// Boards with two changes are drawn until each of the numbers 0 to 8 has come up so often.
const BOARDS_OF_EACH_NUMBER: usize = 36;

/// Boards with codes that are equal up to rotation are drawn until each number has come up so often, or so many were drawn.
const LOOK_ALIKES_OF_EACH_NUMBER: usize = 6;
const LOOK_ALIKES: usize = 400;

/// The arguments that are those of a board.
fn board_arguments(board: &BoardArguments) -> [u64; 9] {
    [
        board.rows.into(),
        board.cols.into(),
        board.bits.into(),
        board.border_bits.into(),
        float(board.cell_size),
        float(board.marker_size_rel),
        board.code_count as u64,
        board.place as u64,
        board.value,
    ]
}

/// By which inputs are chosen: the number of the answer. One that 22 alone refuses counts as accepted, as before that check
/// (document 02, 2.2), so that the choice stays.
const fn chosen_by(answer: &Answer) -> u32 {
    match answer.number {
        22 => 0,
        number => number,
    }
}

/// Good boards with one change, then with two.
pub fn ask_boards(script: &mut Script) {
    for board in boards::single_changes(BASES[0]) {
        ask_corner_input(script, &CornerInput::without_corners(board));
    }
    let mut prng = Prng::new(13);
    let boards = BASES.map(double_changes).concat();
    let mut is_new = few(BOARDS_OF_EACH_NUMBER);
    let mut left = 9 * BOARDS_OF_EACH_NUMBER;
    while left > 0 {
        let input = CornerInput::without_corners(prng.pick(&boards));
        if is_new(chosen_by(&map_charuco_corners(&input))) {
            ask_corner_input(script, &input);
            left -= 1;
        }
    }
}

/// Of boards with the legacy flag or without it, each from a seed of its own.
pub fn ask_corners(script: &mut Script, legacy: bool) {
    let mut prng = Prng::new(if legacy { 34 } else { 27 });
    // Longer lists are left to those with the most corners.
    let short = |CornerInput { lists, .. }: &CornerInput| {
        lists.count() <= 16 && lists.grid.len() <= lists.count() * WORDS_OF_A_CORNER
    };
    let mut inputs = alignments();
    inputs.retain(|input| input.turn < 6 || input.turn == 255);
    for (mut all, most) in [
        (corner_entry::single_changes(), 24),
        (corner_entry::pairs_of_refusals(), OF_EACH_NUMBER),
        (
            corner_entry::on_changed_boards(&mut prng, 100),
            OF_EACH_NUMBER,
        ),
    ] {
        prng.shuffle(&mut all);
        let mut is_new = few(most);
        all.retain(|input| short(input) && is_new(chosen_by(&map_charuco_corners(input))));
        inputs.append(&mut all);
    }
    let random = prng.many(900, corner_entry::random_input).into_iter();
    inputs.extend(random.filter(short).take(90));
    let full = prng.many(200, full_board).into_iter();
    inputs.extend(full.filter(short).take(10));
    if legacy {
        inputs.push(largest_board());
    } else {
        inputs.extend(most_corners());
    }
    for mut input in inputs {
        input.board.legacy_pattern = legacy;
        ask_corner_input(script, &input);
    }
}

fn ask_corner_input(script: &mut Script, input: &CornerInput) {
    script.give_words(&corner_words(&input.lists));
    let CornerInput { lists, turn, .. } = input;
    let [tx, ty] = input.translation.map(signed);
    let [words, places] = [lists.grid.len(), lists.places].map(|length| length as u64);
    let others = [(*turn).into(), tx, ty, words, places];
    let arguments = [&board_arguments(&input.board)[..], &others].concat();
    let answer = map_charuco_corners(input);
    let kind = if input.board.legacy_pattern {
        LEGACY_CORNERS
    } else {
        CORNERS
    };
    script.ask_with_list(kind, &arguments, answer, lists.places);
}

/// Of boards with the legacy flag or without it, each from a seed of its own.
pub fn ask_links(script: &mut Script, legacy: bool) {
    let mut prng = Prng::new(if legacy { 35 } else { 28 });
    let short = |input: &LinkInput| input.links().len() <= 30;
    let mut inputs = link_entry::single_changes();
    if legacy {
        inputs.splice(0..0, on_small_boards());
    }
    inputs.retain(short);
    let refused = [
        link_entry::pairs_of_refusals(),
        link_entry::on_changed_boards(&mut prng, 100),
    ];
    for mut all in refused {
        let mut is_new = few(OF_EACH_NUMBER);
        all.retain(|input| short(input) && is_new(chosen_by(&links_answer(input))));
        inputs.append(&mut all);
    }
    inputs.extend(prng.many(110, |prng| link_entry::random_input(prng, legacy)));
    let whole = prng.many(200, |prng| whole_board(prng, legacy)).into_iter();
    let whole = whole.filter(|input| short(input) && !input.words.is_empty());
    inputs.extend(whole.take(10));
    let spreads = [
        link_entry::ONE_MARKER,
        link_entry::EQUAL_KEYS,
        link_entry::EQUAL_KEYS_OF_ONE_MARKER,
        link_entry::ANY_CORNER,
    ];
    inputs.extend(spreads.map(|spread| many_links(&mut prng, legacy, spread, 200, true)));
    inputs.extend(most_of_one_link());
    for mut input in inputs {
        input.board.legacy_pattern = legacy;
        ask_link_input(script, &input);
    }
}

/// Corners and links on boards with codes that are equal up to rotation.
pub fn ask_look_alikes(script: &mut Script, legacy: bool) {
    let mut prng = Prng::new(if legacy { 47 } else { 46 });
    let mut is_new = few(LOOK_ALIKES_OF_EACH_NUMBER);
    for mut input in prng.many(LOOK_ALIKES, corner_entry::on_look_alikes) {
        input.board.legacy_pattern = legacy;
        if input.lists.count() <= 16 && is_new(map_charuco_corners(&input).number) {
            ask_corner_input(script, &input);
        }
    }
    let mut is_new = few(LOOK_ALIKES_OF_EACH_NUMBER);
    for mut input in prng.many(LOOK_ALIKES, link_entry::on_look_alikes) {
        input.board.legacy_pattern = legacy;
        if input.links().len() <= 30 && is_new(links_answer(&input).number) {
            ask_link_input(script, &input);
        }
    }
}

/// Every marker and one more with every corner and one more, on the boards of 2 by 2, of 4 rows and 5 columns, and of 3 by 3,
/// beside P1 to P3, P7 and P8 of document 01. Each input has two of the corners, so that it is short.
fn on_small_boards() -> Vec<LinkInput> {
    let mut inputs = Vec::new();
    for [rows, cols] in [[2, 2], [4, 5], [3, 3]] {
        let [markers, corners] = [rows * cols / 2, (rows - 1) * (cols - 1)];
        let marker_with = |corner: u32| (0..=markers).map(move |marker| [marker, corner]);
        for two in (0..=corners).collect::<Vec<_>>().chunks(2) {
            let links: Vec<_> = two.iter().copied().flat_map(marker_with).collect();
            inputs.push(LinkInput::new(board([rows, cols], 1.0), &links, true));
        }
    }
    inputs
}

/// By the rules, which must be those of upstream but for the order.
fn links_answer(input: &LinkInput) -> Answer {
    let answer = theirs::links_by_rules(input);
    assert_eq!(unordered(&answer), theirs::links_by_rust(input), "{input}");
    answer
}

fn ask_link_input(script: &mut Script, input: &LinkInput) {
    let words: Vec<u64> = input.words.iter().copied().map(u64::from).collect();
    script.give_words(&words);
    let last = [input.all_four.into(), input.places as u64];
    let arguments = [&board_arguments(&input.board)[..], &last].concat();
    let kind = if input.board.legacy_pattern {
        LEGACY_LINKS
    } else {
        LINKS
    };
    script.ask_with_list(kind, &arguments, links_answer(input), input.places);
}
