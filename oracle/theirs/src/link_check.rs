//! `link_check.rs`: reported links of markers and corners checked against the board. Upstream gives the violations in the
//! order of a `HashMap`; the order of document 01, and its checks 19 and 14, which are added, are here.

mod rules;
mod turned;

use crate::refusals::accepted_board;
use calib_targets_charuco::{
    CharucoBoard, CharucoMarkerCornerLinks, LinkCheckMode, LinkViolation, LinkViolationKind,
    MarkerCornerLink, validate_marker_corner_links,
};
use cases::answer::Answer;
use cases::link_entry::{LinkInput, MOST_LINKS, WORDS_FOR_A_LINK, WORDS_OF_A_VIOLATION};

/// The words of a violation: marker, kind, reported corner or 0, the expected four or 0, how many are missing, those that
/// are missing and 0 past them.
pub type Violation = [u32; WORDS_OF_A_VIOLATION];

/// The kinds, by their numbers.
pub mod kind {
    pub const UNKNOWN_MARKER: u32 = 1;
    pub const NO_FOUR_CORNERS: u32 = 2;
    pub const NOT_IN_NEIGHBORHOOD: u32 = 3;
    pub const DUPLICATE: u32 = 4;
    pub const MISSING: u32 = 5;
}

/// The violations that upstream finds, without their order, or the refusal that is expected. Upstream has no legacy boards;
/// one with an even row count is shown to it rotated by 90°.
pub fn links_by_rust(input: &LinkInput) -> Result<Vec<Violation>, Answer> {
    passed(input)?;
    let violations = if input.board.legacy_pattern && input.board.rows % 2 == 0 {
        turned::violations(input)
    } else {
        found_by_rust(input)
    };
    let violations: Vec<_> = violations.iter().map(words).collect();
    Ok(sorted(&violations))
}

/// Whatever the board's legacy flag.
fn found_by_rust(input: &LinkInput) -> Vec<LinkViolation> {
    let checked = CheckedOnBoard::of_input(input).expect("it passed the checks");
    checked.violations()
}

/// The answer that is expected by document 01.
pub fn links_by_rules(input: &LinkInput) -> Answer {
    match passed(input) {
        Err(refused) => refused,
        Ok(()) => Answer::of_results(&rules::violations(input)),
    }
}

/// The checks of the entry point.
fn passed(input: &LinkInput) -> Result<(), Answer> {
    accepted_board(&input.board, input.board.codes())?;
    let count = input.links().len();
    if count > MOST_LINKS {
        return Err(Answer::refused(19));
    }
    if input.places < WORDS_FOR_A_LINK * count {
        return Err(Answer::refused(14));
    }
    Ok(())
}

/// The violations of an answer without their order, or the refusal.
pub fn unordered(answer: &Answer) -> Result<Vec<Violation>, Answer> {
    if answer.number != 0 {
        return Err(answer.clone());
    }
    Ok(sorted(answer.list.as_chunks().0))
}

/// Violations without their order, and the missing corners of each without theirs.
fn sorted(violations: &[Violation]) -> Vec<Violation> {
    let mut violations = violations.to_vec();
    for violation in &mut violations {
        let (told, missing) = violation.split_at_mut(8);
        missing[..told[7] as usize].sort_unstable();
    }
    violations.sort_unstable();
    violations
}

/// An input as upstream takes it.
pub struct CheckedOnBoard {
    board: CharucoBoard,
    links: CharucoMarkerCornerLinks,
}

impl CheckedOnBoard {
    /// None if a check of the board refuses it.
    pub fn of_input(input: &LinkInput) -> Option<Self> {
        let board = accepted_board(&input.board, input.board.codes()).ok()?;
        let links = input.links().iter();
        let links = links.map(|&[marker, corner]| MarkerCornerLink::new(marker, corner));
        let mode = if input.all_four {
            LinkCheckMode::MustMatchAll4
        } else {
            LinkCheckMode::SubsetOk
        };
        Some(Self {
            board,
            links: CharucoMarkerCornerLinks::new(links.collect()).with_mode(mode),
        })
    }

    pub fn violations(&self) -> Vec<LinkViolation> {
        let checked = validate_marker_corner_links(&self.board, &self.links);
        checked.err().unwrap_or_default()
    }
}

fn words(violation: &LinkViolation) -> Violation {
    let mut missing = &[][..];
    let kind = match &violation.kind {
        LinkViolationKind::UnknownMarker => kind::UNKNOWN_MARKER,
        LinkViolationKind::MarkerHasNoFourCorners => kind::NO_FOUR_CORNERS,
        LinkViolationKind::CornerNotInNeighborhood => kind::NOT_IN_NEIGHBORHOOD,
        LinkViolationKind::DuplicateCorner => kind::DUPLICATE,
        LinkViolationKind::MissingCorners { missing: corners } => {
            missing = corners;
            kind::MISSING
        }
        other => panic!("upstream has a kind that has no number: {other:?}"),
    };
    let mut words = [0; _];
    words[0] = violation.marker_id;
    words[1] = kind;
    words[2] = violation.reported_corner_id.unwrap_or(0);
    words[3..7].copy_from_slice(&violation.expected.unwrap_or([0; 4]));
    words[7] = missing.len() as u32;
    words[8..8 + missing.len()].copy_from_slice(missing);
    words
}
