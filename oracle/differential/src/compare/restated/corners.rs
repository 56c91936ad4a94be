//! Corners of a legacy board with even rows and odd columns: this library's against upstream's, with the alignment of the
//! board without the flag. Those are the same corners from the last to the first.

use crate::subject::Subject;
use cases::answer::{Answer, after, before};
use cases::corner_entry::{
    CornerInput, FARTHEST_TRANSLATION, WORDS_OF_A_CORNER, alignments, full_board, random_input,
    words_needed,
};
use cases::prng::Prng;
use differential::entries::Input;
use theirs::Board;

pub fn compare() -> Vec<Subject> {
    let mut prng = Prng::new(73);
    let groups = [
        alignments(),
        prng.many(30_000, random_input),
        prng.many(4_000, full_board),
    ];
    let mut subject = Subject::new("restated, by upstream: mapped corners");
    let [mut mapped, mut several] = [0u64; 2];
    for mut input in groups.into_iter().flatten() {
        let board = &mut input.board;
        if board.rows % 2 == 1 {
            board.rows = if board.rows < 32 { board.rows + 1 } else { 2 };
        }
        board.cols |= 1;
        if board.cols > 32 {
            board.cols = 31;
        }
        board.code_count = board.marker_count();
        board.legacy_pattern = true;
        input.lists.places = words_needed(board);
        let Some(theirs) = carried(&input) else {
            continue;
        };
        let [mut values, mut list] = [2, input.places()].map(before);
        let number = input.ours()(&mut values, &mut list);
        let count = theirs.list.len() / WORDS_OF_A_CORNER;
        mapped += count as u64;
        several += u64::from(count > 1);
        let expected = Answer {
            number: theirs.number,
            words: after(before(2), &theirs.words),
            list: after(before(input.places()), &theirs.list),
        };
        let ours = Answer {
            number,
            words: values,
            list,
        };
        subject.check(ours, expected, format_args!("{input}"));
    }
    let counts = [("corners", mapped), ("lists of several", several)];
    vec![
        subject,
        Subject::of_cases(
            "restated, by upstream: corners and lists of several",
            counts,
        ),
    ]
}

/// Upstream's answer on the board without the flag, carried to the legacy board; none where one of the two translations is out
/// of range.
fn carried(input: &CornerInput) -> Option<Answer> {
    let is_in_range = |translation: [i32; 2]| {
        let range = -FARTHEST_TRANSLATION..=FARTHEST_TRANSLATION;
        translation.iter().all(|t| range.contains(t))
    };
    if input.turn > 3 || !is_in_range(input.translation) {
        return None;
    }
    let board = &input.board;
    let [rows, cols] = [board.rows, board.cols];
    let [tx, ty] = input.translation;
    let mut new = input.clone();
    new.board.legacy_pattern = false;
    new.turn = (input.turn + 2) % 4;
    new.translation = [cols as i32 - tx, rows as i32 - ty];
    if !is_in_range(new.translation) {
        return None;
    }
    let mut answer = theirs::map_charuco_corners(&new);
    let corners = (rows - 1) * (cols - 1);
    let layout = Board::new(rows as u8, cols as u8, true, board.cell_size);
    let (found, _) = answer.list.as_chunks::<WORDS_OF_A_CORNER>();
    let carried = found.iter().rev().map(|&[id, index, i, j, _, _]| {
        let id = corners - 1 - id;
        let target = layout.object_xy(id).expect("an id of the board");
        let [x, y] = target.map(f32::to_bits);
        [id, index, cols - i, rows - j, x, y]
    });
    let carried: Vec<_> = carried.collect();
    answer.list = carried.concat();
    Some(answer)
}
