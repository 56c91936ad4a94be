//! The caller's floating-point settings: results for records under other settings of MXCSR. Through the crate every result is that of the default
//! setting, bit for bit. Through the C function some result differs under each setting, so that the comparison can fail.

mod shots;

use charuco::words::{self, BoardSpec, CornerInput};
use std::arch::asm;

/// Round to nearest, subnormal numbers kept, exceptions masked.
const DEFAULT: u32 = 0x1F80;

const SETTINGS: [(&str, u32); 6] = [
    ("flush-to-zero", DEFAULT | 0x8000),
    ("denormals-are-zero", DEFAULT | 0x0040),
    ("both", DEFAULT | 0x8040),
    ("round down", DEFAULT | 0x2000),
    ("round up", DEFAULT | 0x4000),
    ("round toward zero", DEFAULT | 0x6000),
];

const UNMASKED: u32 = 0;

unsafe extern "C" {
    fn charuco_match_board(
        bytes: *const u8,
        n: usize,
        markers: *mut u32,
        n_markers: usize,
        values: *mut u32,
        n_values: usize,
    ) -> u32;
    fn charuco_match_board_with_scores(
        bytes: *const u8,
        n: usize,
        scores: *mut f32,
        n_scores: usize,
        markers: *mut u32,
        n_markers: usize,
        values: *mut u32,
        n_values: usize,
    ) -> u32;
}

/// Calls with a setting of MXCSR, and returns MXCSR after the call.
fn under(setting: u32, question: &mut Question, ask: extern "C" fn(&mut Question)) -> u32 {
    let mut words = [setting, 0, 0];
    // SAFETY: `ask` gets the argument that it takes; r12 is callee-saved, and MXCSR is restored in the same block.
    unsafe {
        asm!(
            "stmxcsr dword ptr [r12 + 8]",
            "ldmxcsr dword ptr [r12]",
            "call {ask}",
            "stmxcsr dword ptr [r12 + 4]",
            "ldmxcsr dword ptr [r12 + 8]",
            ask = in(reg) ask,
            in("rdi") &raw mut *question,
            in("r12") words.as_mut_ptr(),
            clobber_abi("C"),
        );
    }
    words[1]
}

/// A record and the results for it. This test computes with no float, so that a setting changes only the library's results.
struct Question {
    record: Vec<u8>,
    spec: BoardSpec,
    codes: [u64; 1024],
    /// Of a match, and of one with scores.
    matches: [Matched; 2],
    scores: Vec<f32>,
    corners: [u32; 961 * 6],
    number: u32,
    count: [u32; 1],
    restated: u32,
    sheet: Vec<u8>,
}

#[derive(Clone)]
struct Matched {
    number: u32,
    values: [u32; 19],
    markers: [u32; 256 * 18],
}

const NOTHING: Matched = Matched {
    number: 0,
    values: [0; 19],
    markers: [0; 256 * 18],
};

/// The words of a match, of one with its scores, and of the corners, with the restated record.
type Answers = [Vec<u32>; 3];

impl Question {
    fn new(record: Vec<u8>) -> Self {
        let header = charuco::read_header(&record).expect("a whole record");
        let mut codes = [0; 1024];
        for (k, code) in codes.iter_mut().enumerate().take(header.codes) {
            *code = charuco::code(&record, k)
                .expect("a whole record")
                .expect("a code");
        }
        let markers = header.spec.rows * header.spec.cols / 2;
        let sheet = vec![0; record.len()];
        Self {
            spec: header.spec,
            record,
            codes,
            matches: [NOTHING; 2],
            scores: vec![0.0; header.cells * markers as usize * 4],
            corners: [0; 961 * 6],
            number: 0,
            count: [0; 1],
            restated: 0,
            sheet,
        }
    }

    /// These are then cleared.
    fn take(&mut self) -> Answers {
        let [first, mut second] = self.matches.each_ref().map(|matched| {
            let number = [matched.number];
            [&number[..], &matched.values, &matched.markers].concat()
        });
        second.extend(self.scores.iter().map(|score| score.to_bits()));
        let mut mapped = vec![self.number, self.count[0]];
        mapped.extend(self.corners);
        mapped.push(self.restated);
        mapped.extend(self.sheet.iter().map(|byte| u32::from(*byte)));
        self.matches = [NOTHING; 2];
        self.scores.fill(0.0);
        self.corners.fill(0);
        self.number = 0;
        self.count.fill(0);
        self.restated = 0;
        self.sheet.fill(0);
        [first, second, mapped]
    }
}

extern "C" fn through_the_crate(q: &mut Question) {
    let [first, second] = &mut q.matches;
    first.number = words::match_board(&q.record, &mut first.markers, &mut first.values);
    second.number = words::match_board_with_scores(
        &q.record,
        &mut q.scores,
        &mut second.markers,
        &mut second.values,
    );
    let input = CornerInput {
        scores: &[1.0; 4],
        grid: &[1, 0, 0, 1, 1, 0, 1, 2, 1, 1, 0, 4],
        alignment: (0, 1, 1),
    };
    q.number = words::map_charuco_corners(&q.spec, &q.codes, input, &mut q.corners, &mut q.count);
    q.restated = words::restate(&q.record, &mut q.sheet, &mut []);
}

extern "C" fn through_c(q: &mut Question) {
    let [first, second] = &mut q.matches;
    first.number = unsafe {
        charuco_match_board(
            q.record.as_ptr(),
            q.record.len(),
            first.markers.as_mut_ptr(),
            first.markers.len(),
            first.values.as_mut_ptr(),
            first.values.len(),
        )
    };
    second.number = unsafe {
        charuco_match_board_with_scores(
            q.record.as_ptr(),
            q.record.len(),
            q.scores.as_mut_ptr(),
            q.scores.len(),
            second.markers.as_mut_ptr(),
            second.markers.len(),
            second.values.as_mut_ptr(),
            second.values.len(),
        )
    };
}

struct Random(u64);

impl Random {
    fn below(&mut self, n: u32) -> u32 {
        self.0 ^= self.0 << 13;
        self.0 ^= self.0 >> 7;
        self.0 ^= self.0 << 17;
        (self.0 >> 32) as u32 % n
    }

    /// The bit pattern of a float above 0 and at most 1, a third of them subnormal.
    fn fraction(&mut self) -> u32 {
        match self.below(3) {
            0 => 1 + self.below(0x7F_FFFF),
            1 => 0x80_0000 + self.below(0x3F00_0000),
            _ => 0x3980_0000 + self.below(0x0600_0001),
        }
    }
}

/// The record with other fractions, sizes and grey levels, and if it has a least weight with another one.
fn vary(sheet: &[u8], random: &mut Random) -> Vec<u8> {
    let mut record = sheet.to_vec();
    let header = charuco::read_header(sheet).expect("a whole record");
    let sizes = shots::rows_at(header.map) + 4;
    let all_subnormal = random.below(2) == 0;
    record[sizes..sizes + 4].copy_from_slice(&random.fraction().to_le_bytes());
    if header.map & 0x20 != 0 {
        record[sizes - 8..sizes - 4].copy_from_slice(&random.fraction().to_le_bytes());
    }
    for k in 0..header.cells {
        let mut words = [0; 2];
        assert_eq!(words::grid(sheet, k, &mut words), 0);
        let [start, length] = words.map(|word| word as usize);
        if length == 0 {
            continue;
        }
        let bits = if all_subnormal {
            1 + random.below(0x7F_FFFF)
        } else {
            random.fraction()
        };
        record[start - 5..start - 1].copy_from_slice(&bits.to_le_bytes());
        for grey in &mut record[start..start + length] {
            *grey ^= random.below(64) as u8;
        }
    }
    record
}

#[test]
fn answers_do_not_depend_on_the_callers_floats() {
    let mut random = Random(0x2545_F491_4F6C_DD1D);
    let sheets: Vec<_> = shots::sample_names()
        .iter()
        .map(|name| shots::sample(name))
        .collect();
    assert!(sheets.len() >= 5);
    let varied = 150;
    let mut differing = [[0; 2]; SETTINGS.len()];
    let mut placed = 0;
    for sheet in &sheets {
        for k in 0..=varied {
            let record = if k == 0 {
                sheet.clone()
            } else {
                vary(sheet, &mut random)
            };
            let mut question = Question::new(record);
            assert_eq!(
                under(DEFAULT, &mut question, through_the_crate) & !0x3F,
                DEFAULT
            );
            let expected = question.take();
            placed += usize::from(expected[0][0] == 0);
            for ((name, setting), differing) in SETTINGS.iter().zip(&mut differing) {
                let after = under(*setting, &mut question, through_the_crate);
                assert_eq!(after, *setting, "{name}: MXCSR is not restored");
                assert!(question.take() == expected, "{name}");
                under(*setting, &mut question, through_c);
                // Of the two matches; corners and restated records are not counted.
                let answers = differing.iter_mut().zip(question.take()).zip(&expected);
                for ((differing, answer), expected) in answers {
                    *differing += usize::from(answer != *expected);
                }
            }
            assert_eq!(under(UNMASKED, &mut question, through_the_crate), UNMASKED);
            assert!(question.take() == expected, "exceptions unmasked");
        }
    }
    println!("{} records, {placed} placed", sheets.len() * (varied + 1));
    for ((name, _), differing) in SETTINGS.iter().zip(differing) {
        println!("{name}: {differing:?} differ when the C functions are called directly");
        assert!(
            differing.iter().all(|&count| count > 0),
            "{name}: no result differs"
        );
    }
    assert!(placed > 0);
}
