//! Records of the tests.
#![allow(dead_code)] // each test uses some of these

pub fn sample(name: &str) -> Vec<u8> {
    std::fs::read(format!("../../samples/{name}.shot")).expect("a sample")
}

/// The names of the sample sheets, in order.
pub fn sample_names() -> Vec<String> {
    let files = std::fs::read_dir("../../samples").expect("the folder of the samples");
    let paths = files.map(|file| file.expect("a file").path());
    let sheets = paths.filter(|path| path.extension().is_some_and(|end| end == "shot"));
    let name = |path: std::path::PathBuf| path.file_stem()?.to_str().map(str::to_owned);
    let mut names: Vec<_> = sheets.map(|path| name(path).expect("a name")).collect();
    names.sort();
    names
}

/// Where rows are in a record with this map byte, after the fields that it has.
pub fn rows_at(map: u32) -> usize {
    (1 + 4 * (map & 0x27).count_ones() + 2044 * (map >> 3 & 1)) as usize
}

/// A cell of `whole_board`: unsampled, or its fraction and its code.
pub type Seen = Option<(f32, u64)>;

/// A record of a board of 2 rows and 3 columns, codes of side 2 and a border of 1, with a cell at every (u, v), in row-major order.
pub fn whole_board(cells: [Seen; 6]) -> Vec<u8> {
    let mut record = vec![0, 2, 3, 2, 1];
    for size in [1.0_f32, 0.5] {
        record.extend(size.to_le_bytes());
    }
    record.extend([3, 0]);
    for code in [1_u64, 15, 7] {
        record.extend(code.to_le_bytes());
    }
    let sampled = (0..6).filter(|&k| cells[k].is_some());
    record.extend([6, 0, sampled.map(|k| 1 << k).sum()]);
    for (k, seen) in (0_i16..).zip(cells) {
        record.extend((k % 3).to_le_bytes());
        record.extend((k / 3).to_le_bytes());
        if let Some((fraction, code)) = seen {
            record.extend(fraction.to_le_bytes());
            record.push(128);
            // The border and set bits are black.
            record.extend((0..16).map(|at| match (at % 4, at / 4) {
                (x @ 1..=2, y @ 1..=2) if code >> (2 * (y - 1) + x - 1) & 1 == 0 => 255,
                _ => 0_u8,
            }));
        }
    }
    record
}
