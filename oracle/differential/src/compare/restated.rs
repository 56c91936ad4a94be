//! Restated records (document 02, 2.7): the number, and every byte of the output array; and what must come up.

mod came_up;
mod corners;
mod pairing;

use crate::entry::Entry;
use crate::matches::{Shown as ShownRecord, each_length, each_record};
use crate::subject::{Subject, of_legacy_boards};
use came_up::CameUp;
use cases::answer::Answer;
use cases::prng::Prng;
use charuco::words;
use matches::given::{
    KINDS, Kind, LEGACY_KINDS, LEGACY_RESTATE_KINDS, LENGTHS, Length, RESTATE_KINDS, sheet,
};
use matches::restated::restate;
use records::REFUSED;

/// The numbers in the order of the checks; 0 is a new record. Damage sets the flag of some records that have none.
const NUMBERS: [u32; 13] = [0, REFUSED, 1, 2, 3, 4, 5, 6, 7, 8, 22, 25, 14];

pub fn compare() -> Vec<Subject> {
    let current = compare_kinds(&KINDS, &RESTATE_KINDS, false);
    let legacy = compare_kinds(&LEGACY_KINDS, &LEGACY_RESTATE_KINDS, true);
    let paired = pairing::compare();
    let corners = corners::compare();
    let of_legacy = [legacy, paired, corners].concat();
    [current, of_legacy_boards(of_legacy)].concat()
}

/// The kinds of the match, each record with an array of some length, and further ones, with every length.
fn compare_kinds(of_matches: &[Kind], further: &[Kind], legacy: bool) -> Vec<Subject> {
    let mut run = Run::new(legacy);
    let records = each_record(of_matches, |shown| {
        let length = run.prng.pick(&LENGTHS);
        run.compare(shown, length);
    });
    let name = "the kinds of the match";
    let mut subjects = vec![Subject::of_cases(name, [("records", records)])];
    subjects.extend(each_length(further, |shown, length| {
        run.compare(shown, length)
    }));
    subjects.extend(run.subjects());
    subjects
}

struct Run {
    prng: Prng,
    entry: Entry,
    again: Subject,
    came_up: CameUp,
}

impl Run {
    fn new(legacy: bool) -> Self {
        Self {
            prng: Prng::new(if legacy { 72 } else { 71 }),
            entry: Entry::new("restated record", &NUMBERS),
            again: Subject::new("the new record restated"),
            came_up: CameUp::new(legacy),
        }
    }

    /// The bytes of the output array are compared as words.
    fn compare(&mut self, shown: &ShownRecord, length: Length) {
        let ShownRecord(_, _, given) = shown;
        let record = &given.record;
        let before = sheet(&mut self.prng, record, length);
        let restated = restate(record, before.len());
        let theirs = match &restated {
            Ok(new) => Answer {
                list: as_words(&after(before.clone(), new)),
                ..Answer::of_words([new.len() as u32])
            },
            Err(refused) => Answer {
                list: as_words(&before),
                ..refused.clone()
            },
        };
        let number = theirs.number;
        let mut sheet = before.clone();
        let call = |values: &mut [u32], list: &mut [u32]| {
            let number = words::restate(record, &mut sheet, values);
            list.copy_from_slice(&as_words(&sheet));
            number
        };
        let asked = format_args!("{} bytes of room, {shown}", before.len());
        self.entry.compare_call(before.len(), call, theirs, asked);
        if let Ok(new) = &restated {
            let mut twice = vec![0; new.len()];
            let number = words::restate(&sheet[..new.len()], &mut twice, &mut []);
            self.again.check((number, &twice), (0, new), asked);
        }
        self.came_up.add(record, length, number);
    }

    fn subjects(self) -> Vec<Subject> {
        let mut subjects = self.entry.subjects();
        subjects.push(self.again);
        subjects.extend(self.came_up.subjects());
        subjects
    }
}

/// An array after a call that wrote these bytes to its start.
fn after(mut sheet: Vec<u8>, written: &[u8]) -> Vec<u8> {
    sheet[..written.len()].copy_from_slice(written);
    sheet
}

fn as_words(bytes: &[u8]) -> Vec<u32> {
    bytes.iter().copied().map(u32::from).collect()
}
