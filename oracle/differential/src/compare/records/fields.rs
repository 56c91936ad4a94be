//! Everything that the readers return for one record.

use crate::subject::{Bytes, Subject, Subjects};
use cases::answer::{Answer, after, before};
use charuco::words;
use records::{REFUSED, Read, TABLE_LENGTH, told};
use std::fmt::Arguments;

/// Words of the longest output array.
const LENT: usize = 16;

/// How many places of a list are read.
#[derive(Clone, Copy)]
pub enum Extent {
    /// Both ends, past the end, and a few between.
    Few,
    All,
}

pub fn compare(subjects: &mut Subjects, record: &[u8], extent: Extent) {
    let read = records::read(record);
    let read = read.as_ref();
    let (name, number) = match read {
        Some(_) => ("record that is read", 0),
        None => ("record that is refused", REFUSED),
    };
    let shown = Bytes(record);
    let ours = words::read_header(record, &mut []);
    let numbers = subjects.of(name);
    numbers.check(ours, number, format_args!("number of {shown}"));
    check(
        subjects.of("header"),
        format_args!("{shown}"),
        |values| words::read_header(record, values),
        &told::header(read),
    );
    let counts = read.map_or([0; 3], |Read { shot, .. }| {
        [shot.table.len(), shot.codes.len(), shot.cells.len()]
    });
    let [entries, codes, cells] = counts.map(|count| places(count, extent));
    let readers: [(_, _, Ours, Theirs); 4] = [
        (
            "table entry",
            &entries,
            words::table_entry,
            told::table_entry,
        ),
        ("code", &codes, words::code, told::code),
        ("cell", &cells, words::cell, told::cell),
        ("grid of a cell", &cells, words::grid, told::grid),
    ];
    for (name, places, ours, theirs) in readers {
        let subject = subjects.of(name);
        for &k in places {
            let asked = format_args!("place {k} of {shown}");
            check(
                subject,
                asked,
                |values| ours(record, k, values),
                &theirs(read, k),
            );
        }
    }
    let all_greys = subjects.of("grey levels of a cell");
    for &k in &cells {
        let ours = charuco::grid(record, k).unwrap_or_default();
        all_greys.check(
            ours,
            told::greys(read, k),
            format_args!("cell {k} of {shown}"),
        );
    }
}

type Ours = fn(&[u8], usize, &mut [u32]) -> u32;
type Theirs = fn(Option<&Read>, usize) -> Answer;

/// With output arrays of every length: as many words are written as there is room for.
fn check(
    subject: &mut Subject,
    asked: Arguments,
    ours: impl Fn(&mut [u32]) -> u32,
    theirs: &Answer,
) {
    let lists = || (0..=LENT).map(before);
    let ours = lists().map(|mut values| (ours(&mut values), values));
    let theirs = lists().map(|values| (theirs.number, after(values, &theirs.words)));
    subject.check(ours.collect::<Vec<_>>(), theirs.collect::<Vec<_>>(), asked);
}

/// Places to read in a list of so many. Past the end are also some that equal the first if they are truncated.
fn places(count: usize, extent: Extent) -> Vec<usize> {
    let mut places = match extent {
        Extent::All => (0..count).collect(),
        Extent::Few => vec![0, 1, 7, 8, 254, 255, 256, 257, TABLE_LENGTH - 1, count / 2],
    };
    places.extend(count.saturating_sub(2)..count);
    places.retain(|&k| k < count);
    places.extend([count, count + 1, 255, 256]);
    places.extend([1 << 16, 1 << 32, 1 << 61, 1 << 63, usize::MAX]);
    places.sort_unstable();
    places.dedup();
    places
}
