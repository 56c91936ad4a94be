//! The program `place`: a record on its standard input, and every byte that it prints.

use super::Shown;
use crate::run::{Piece, Program};
use crate::subject::{Subject, of_legacy_boards};
use matches::given::{KINDS, Kind, LEGACY_KINDS};
use matches::{MOST_PLACES, match_record, text};

/// Records of each kind, as far as there are so many.
const OF_EACH_KIND: usize = 160;

/// The program's output array is long enough for every record that passes the checks before 14.
pub fn compare() -> Vec<Subject> {
    let [unmarked, legacy] = [&KINDS, &LEGACY_KINDS].map(|kinds| vec![compare_kinds(kinds)]);
    [unmarked, of_legacy_boards(legacy)].concat()
}

fn compare_kinds(kinds: &[Kind]) -> Subject {
    let program = Program::named("PLACE_BIN", "../target/bin/place");
    let mut subject = Subject::new("output of `place`");
    for kind in kinds {
        for (place, given) in kind.first(OF_EACH_KIND).enumerate() {
            let matched = match_record(&given.record, MOST_PLACES);
            let ours = program.run(&[Piece {
                bytes: &given.record,
                printed: 0,
            }]);
            let ours = ours.map(|ran| (ran.success, ran.stdout));
            let shown = Shown(kind, place, &given);
            subject.check(ours, Ok((true, text(&matched))), format_args!("{shown}"));
        }
    }
    subject
}
