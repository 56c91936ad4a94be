//! The rules of document 01 for links, sentence by sentence, with their order. No function of upstream takes part.

use super::{Violation, kind};
use cases::link_entry::{LinkInput, four_of_square, marker_squares};

pub fn violations(input: &LinkInput) -> Vec<Violation> {
    let links = input.links();
    let squares = marker_squares(&input.board);
    let four = |marker: u32| {
        let square = *squares.get(marker as usize)?;
        four_of_square(&input.board, square)
    };
    let mut all = Vec::new();
    // First, in link order, unknown marker, no four corners or corner not in neighbourhood.
    for &[marker, corner] in links {
        match four(marker) {
            _ if marker as usize >= squares.len() => {
                all.push(of_link(marker, kind::UNKNOWN_MARKER, corner, [0; 4]));
            }
            None => all.push(of_link(marker, kind::NO_FOUR_CORNERS, corner, [0; 4])),
            Some(four) if !four.contains(&corner) => {
                all.push(of_link(marker, kind::NOT_IN_NEIGHBORHOOD, corner, four));
            }
            Some(_) => (),
        }
    }
    // Then per expected marker in order of first appearance.
    for (place, &[marker, _]) in links.iter().enumerate() {
        let is_first = links[..place].iter().all(|link| link[0] != marker);
        if let (true, Some(four)) = (is_first, four(marker)) {
            all.extend(of_marker(links, marker, four, input.all_four));
        }
    }
    all
}

/// Each repeated corner after its first, in link order; then, if all four are required, one entry of missing corners, if any
/// is missing, in the order of the four.
fn of_marker(links: &[[u32; 2]], marker: u32, four: [u32; 4], all_four: bool) -> Vec<Violation> {
    let mut all = Vec::new();
    for (place, link) in links.iter().enumerate() {
        if link[0] == marker && links[..place].contains(link) {
            all.push(of_link(marker, kind::DUPLICATE, link[1], four));
        }
    }
    let is_reported = |corner: &u32| links.contains(&[marker, *corner]);
    let missing: Vec<u32> = four.into_iter().filter(|c| !is_reported(c)).collect();
    if all_four && !missing.is_empty() {
        let mut entry = of_link(marker, kind::MISSING, 0, four);
        entry[7] = missing.len() as u32;
        entry[8..8 + missing.len()].copy_from_slice(&missing);
        all.push(entry);
    }
    all
}

fn of_link(marker: u32, kind: u32, corner: u32, [a, b, c, d]: [u32; 4]) -> Violation {
    [marker, kind, corner, a, b, c, d, 0, 0, 0, 0, 0]
}
