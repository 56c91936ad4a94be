//! Logs (document 02, 2.9): texts and bytes by hand, wrong programs, and what the generated logs must show.

use matches::given::{GivenLog, LOG_KINDS, Records};
use matches::logs::{
    CASES, Entry, HEADER, Known, LONGEST_LINES, Log, Shown, WRONG, printed_numbers,
};
use records::{LONGEST, Shot, write};

const MAX: u32 = u32::MAX;

fn entry(number: u32, record: &[u8]) -> Entry {
    let record = record.to_vec();
    Entry { number, record }
}

/// Of empty records, each of which is refused 21.
fn of_numbers(numbers: &[u32]) -> Log {
    let entries = numbers.iter().map(|&number| entry(number, &[]));
    Log {
        entries: entries.collect(),
        cut: Vec::new(),
    }
}

fn text(log: &Log) -> String {
    log.texts(&mut Known::default()).concat()
}

/// Which wrong programs the log shows.
fn shown(log: &Log) -> Vec<&'static str> {
    let mut shown = Shown::default();
    let mut known = Known::default();
    let texts = log.texts(&mut known);
    shown.add(log, &log.bytes(), &texts, &mut known);
    let wrong = WRONG.iter().zip(shown.wrong);
    let wrong = wrong.filter(|(_, count)| *count > 0);
    wrong.map(|(wrong, _)| wrong.name).collect()
}

/// Two records that are not read; of the third entry the header and one byte of two are there.
#[test]
fn a_log_by_hand() {
    #[rustfmt::skip]
    let bytes = [
        4, 3, 2, 1, 0, 0,
        6, 3, 2, 1, 1, 0, 255,
        6, 3, 2, 1, 2, 0, 255,
    ];
    let log = Log {
        entries: vec![entry(0x0102_0304, &[]), entry(0x0102_0306, &[255])],
        cut: vec![6, 3, 2, 1, 2, 0, 255],
    };
    assert_eq!(log.bytes(), bytes);
    assert_eq!(Log::read(&bytes), log);
    assert_eq!(Log::cut_after(with_last(&log), bytes.len()), log);
    assert_eq!(
        text(&log),
        "entry 16909060 refused 21\n\
         gap 16909061 16909061\n\
         entry 16909062 refused 21\n\
         refused 26 7\n"
    );
}

/// The cut entry made whole.
fn with_last(log: &Log) -> Vec<Entry> {
    let mut entries = log.entries.clone();
    entries.push(entry(0x0102_0306, &[255, 0]));
    entries
}

/// Document 01's record, with the count of 2.5; with a margin that is too small; with a code too few. The margin of a placed entry
/// is not printed, nor the two numbers of 7.
#[test]
fn lines_of_records() {
    let placed = Shot::of_document_01();
    let mut narrow = placed.clone();
    narrow.table.fill((-1.0f32).to_bits());
    let mut short = placed.clone();
    short.codes.pop();
    let records = [placed, narrow, short].map(|shot| write(&shot).bytes);
    let entries = (7..).zip(&records);
    let log = Log {
        entries: entries
            .map(|(number, record)| entry(number, record))
            .collect(),
        cut: Vec::new(),
    };
    assert_eq!(
        text(&log),
        "entry 7 best 0 1 0 40317218 1\n\
         entry 8 refused 16 00000000\n\
         entry 9 refused 7\n"
    );
    for wrong in [
        "the margin of a placed entry",
        "the runner-up of a placed entry",
        "the whole text of `place`",
        "16 without its margin",
        "7 with its two numbers",
    ] {
        assert!(shown(&log).contains(&wrong), "{wrong}");
    }
}

#[test]
fn numbers_by_hand() {
    let gap = |first: u32, last: u32| Some(format!("gap {first} {last}\n"));
    let backward = || Some("backward\n".to_owned());
    #[rustfmt::skip]
    let logs: [&[(u32, Option<String>)]; 12] = [
        &[(0, None), (1, None), (2, None)],
        &[(5, None), (7, gap(6, 6)), (10, gap(8, 9))],
        &[(0, None), (0, backward())],
        &[(0, None), (2, gap(1, 1))],
        &[(3, None), (3, backward()), (4, None)],
        &[(9, None), (2, backward()), (3, backward()), (10, None)],
        &[(9, None), (2, backward()), (12, gap(10, 11)), (13, None)],
        &[(9, None), (8, backward()), (9, backward()), (8, backward())],
        &[(0, None), (MAX, gap(1, MAX - 1)), (MAX, backward()), (0, backward()), (1, backward())],
        &[(MAX, None), (MAX - 1, backward()), (MAX, backward())],
        &[(MAX - 1, None), (MAX, None)],
        &[((1 << 31) - 1, None), (1 << 31, None), ((1 << 31) + 2, gap((1 << 31) + 1, (1 << 31) + 1))],
    ];
    for steps in logs {
        let numbers: Vec<u32> = steps.iter().map(|(number, _)| *number).collect();
        let lines = steps.iter().map(|(number, step)| {
            let step = step.as_deref().unwrap_or_default();
            format!("{step}entry {number} refused 21\n")
        });
        assert_eq!(text(&of_numbers(&numbers)), lines.collect::<String>());
    }
}

/// One line alone, whatever number the cut entry has, and the count of its bytes.
#[test]
fn cut_off_after_each_byte() {
    for number in [0, 7, 8, 9, 300, MAX] {
        let last = entry(number, &[1, 2, 3]);
        let entries = vec![entry(7, &[]), last.clone()];
        let before = "entry 7 refused 21\n";
        for length in 1..HEADER + 3 {
            let log = Log::cut_after(entries.clone(), HEADER + length);
            assert_eq!(log.cut, last.bytes()[..length]);
            assert_eq!(text(&log), format!("{before}refused 26 {length}\n"));
            assert_eq!(Log::read(&log.bytes()), log);
        }
        assert_eq!(text(&Log::cut_after(entries.clone(), HEADER)), before);
        assert!(
            Log::cut_after(entries.clone(), 2 * HEADER + 3)
                .cut
                .is_empty()
        );
    }
    assert_eq!(text(&Log::default()), "");
    assert_eq!(Log::read(&[]), Log::default());
    let longest = vec![entry(1, &[255; LONGEST])];
    let cut = Log::cut_after(longest.clone(), 65_540);
    assert_eq!(text(&cut), "refused 26 65540\n");
    let whole = Log::cut_after(longest, 65_541);
    assert_eq!(text(&whole), "entry 1 refused 21\n");
}

/// Small logs that show a wrong program each, by hand.
#[test]
fn wrong_programs_by_hand() {
    let numbers: [(&str, &[u32]); 12] = [
        ("compared with the last number", &[5, 3, 4]),
        ("a gap for a rise of one", &[0, 1]),
        ("the first entry compared with 0", &[0]),
        ("the first entry compared with 0", &[2]),
        ("a gap from 0 to the first entry", &[1]),
        ("0 taken for no number before", &[0, 0]),
        ("no gap after a backward entry", &[5, 5, 7]),
        ("no gap of one number", &[5, 7]),
        ("backward only if below", &[5, 5]),
        ("a gap up to the number", &[5, 7]),
        ("highest + 1 in 32 bits", &[MAX, 0]),
        ("length 0 taken for the end", &[5, 6]),
    ];
    for (wrong, numbers) in numbers {
        assert!(shown(&of_numbers(numbers)).contains(&wrong), "{wrong}");
    }
    let cuts = [
        ("5 bytes taken for an entry", 5),
        ("no line of a cut header", 5),
        ("no line of a cut entry", 1),
        ("a gap before a cut entry", 4),
        ("the count of missing bytes", 7),
        ("a record that lacks a byte taken for whole", 8),
        ("a count of 0 after a whole entry", 9),
        ("a whole entry at the end taken for cut off", 9),
    ];
    for (wrong, length) in cuts {
        let entries = vec![entry(7, &[]), entry(9, &[1, 2, 3])];
        let log = Log::cut_after(entries, HEADER + length);
        assert!(shown(&log).contains(&wrong), "{wrong}");
    }
    assert_eq!(shown(&Log::default()), ["a count of 0 after a whole entry"]);
}

/// What is written is read back; every case and number comes up; every wrong program shows; no lines are longer than the most. Damage
/// makes the reader find entries that were not written, after the first such one.
#[test]
fn generated_logs() {
    let records = Records::of_all_kinds();
    let mut known = Known::default();
    let mut shown = Shown::default();
    for kind in &LOG_KINDS {
        let mut with_others = 0;
        for given in kind.all(&records) {
            let (bytes, log) = given.bytes_and_log();
            assert_eq!(Log::read(&bytes), log);
            let texts = log.texts(&mut known);
            assert!(texts.iter().all(|text| text.len() <= LONGEST_LINES));
            shown.add(&log, &bytes, &texts, &mut known);
            if let GivenLog::Damaged(_, written) = given {
                let others = log.entries.iter().filter(|entry| !written.contains(entry));
                with_others += usize::from(others.count() > 1);
            }
        }
        let is_damaged = ["lengths changed", "damaged logs", "random bytes"].contains(&kind.name);
        assert_eq!(with_others > 10, is_damaged, "{}: {with_others}", kind.name);
    }
    let cases = CASES.iter().map(|case| case.name).zip(shown.cases);
    let wrong = WRONG.iter().map(|wrong| wrong.name).zip(shown.wrong);
    for (name, count) in cases.chain(wrong) {
        assert!(count > 0, "{name}");
    }
    for number in printed_numbers() {
        assert!(shown.numbers.contains_key(&number), "{number}");
    }
    assert!(!shown.numbers.contains_key(&14));
}
