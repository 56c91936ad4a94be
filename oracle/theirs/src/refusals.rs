//! By which check a board is refused. Of the checks 1 to 8 upstream makes six; 6 and 8 are added, and so is 22, the last one
//! of a board (document 02, 2.2). The rule for these is here.

use calib_targets_aruco::{Dictionary, rotate_code_u64};
use calib_targets_charuco::{CharucoBoard, CharucoBoardError, CharucoBoardSpec};
use cases::answer::Answer;
use cases::boards::BoardArguments;
use std::collections::HashSet;

/// Upstream allocates a word for each square, so no larger board is shown to it. This changes no answer: a size above it is
/// at least 2, as check 1 requires, and check 6 refuses it before the markers are counted.
const LARGEST_SHOWN: u32 = 300;

/// A board that passes all checks, or the answer to the first that it does not. The codes may be others than those of the
/// arguments.
pub fn accepted_board(
    asked: &BoardArguments,
    codes: &'static [u64],
) -> Result<CharucoBoard, Answer> {
    let board = board_up_to_8(asked, codes)?;
    if two_alike(&codes[..board.marker_count()], asked.bits as usize) {
        return Err(Answer::refused(22));
    }
    Ok(board)
}

/// A board that passes the checks 1 to 8. Upstream places boards with codes that are equal up to rotation, too.
pub fn board_up_to_8(
    asked: &BoardArguments,
    codes: &'static [u64],
) -> Result<CharucoBoard, Answer> {
    let spec = CharucoBoardSpec::new(
        asked.rows.min(LARGEST_SHOWN),
        asked.cols.min(LARGEST_SHOWN),
        asked.cell_size,
        asked.marker_size_rel,
        Dictionary::new(asked.bits as usize, codes),
    );
    let spec = spec.with_border_bits(asked.border_bits as usize);
    let board = CharucoBoard::new(spec).map_err(answer_for);
    match board {
        Err(refused) if refused.number <= 5 => Err(refused),
        _ if !within_added_limits(asked, codes.len()) => Err(Answer::refused(6)),
        Ok(_) if codes.iter().any(|&code| is_too_large(code, asked.bits)) => {
            Err(Answer::refused(8))
        }
        accepted_or_too_few_codes => accepted_or_too_few_codes,
    }
}

fn answer_for(error: CharucoBoardError) -> Answer {
    match error {
        CharucoBoardError::InvalidSize => Answer::refused(1),
        CharucoBoardError::InvalidCellSize => Answer::refused(2),
        CharucoBoardError::InvalidMarkerSizeRel => Answer::refused(3),
        CharucoBoardError::InvalidBorderBits => Answer::refused(4),
        CharucoBoardError::EmptyDictionary => Answer::refused(5),
        CharucoBoardError::NotEnoughDictionaryCodes { needed, available } => Answer {
            words: vec![needed as u32, available as u32],
            ..Answer::refused(7)
        },
        other => panic!("upstream has an error that has no number: {other}"),
    }
}

/// Check 6.
fn within_added_limits(asked: &BoardArguments, code_count: usize) -> bool {
    asked.rows <= 32
        && asked.cols <= 32
        && asked.border_bits <= 4
        && (1..=8).contains(&asked.bits)
        && code_count <= 1024
}

/// Check 8, of a side from 1 to 8: a code of 8 by 8 bits cannot be too large.
fn is_too_large(code: u64, bits: u32) -> bool {
    bits < 8 && code >> (bits * bits) != 0
}

/// Check 22: are two codes of different ids equal after some number of rotations by 90°? Two are if the least of their
/// rotations is the same. `two_alike_by_pairs` is the same, slower.
pub fn two_alike(codes: &[u64], bits: usize) -> bool {
    let mut seen = HashSet::new();
    let least = |code: u64| (0..4).map(|turn| rotate_code_u64(code, bits, turn)).min();
    !codes.iter().all(|&code| seen.insert(least(code)))
}

/// The same by the sentence of document 02.
pub fn two_alike_by_pairs(codes: &[u64], bits: usize) -> bool {
    let mut pairs = (0..codes.len()).flat_map(|b| (0..b).map(move |a| [codes[a], codes[b]]));
    pairs.any(|[a, b]| (0..4).any(|turn| rotate_code_u64(a, bits, turn) == b))
}
