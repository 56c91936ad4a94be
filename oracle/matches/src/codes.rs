//! Which codes of a shot the checks 8 and 22 cover, for records with many codes.

use cases::codes::{all_ones, least_turn};
use records::Shot;
use std::collections::HashMap;

/// The places of the codes that are too large, of a side from 1 to 8.
pub fn too_large(shot: &Shot) -> Vec<usize> {
    let places = (0..).zip(&shot.codes);
    let too_large = places.filter(|&(_, &code)| code > all_ones(shot.bits));
    too_large.map(|(place, _)| place).collect()
}

/// The place of each code, of a marker or past the last, that is equal to an earlier one up to rotation; before it that of
/// the first such.
pub fn alike(shot: &Shot) -> Vec<[usize; 2]> {
    let mut first: HashMap<u64, usize> = HashMap::new();
    let mut pairs = Vec::new();
    for (place, &code) in shot.codes.iter().enumerate() {
        let earlier = *first.entry(least_turn(code, shot.bits)).or_insert(place);
        if earlier < place {
            pairs.push([earlier, place]);
        }
    }
    pairs
}
