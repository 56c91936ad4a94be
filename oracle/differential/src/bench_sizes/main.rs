//! How the time of a whole match grows with the number of cells, of markers and of placements, for this library, without
//! scores and with them, and for upstream: `bench_sizes`. Prints a line for each size, its fields separated by tabs, with the
//! best rounds of all sides. Ends with 1 if an answer or a list differs.

use cases::corner_lists::rectangle;
use differential::bench::{Board, Case, WholeMatch, best_of_each, seen, warn_of_checks};
use std::process::ExitCode;

fn main() -> ExitCode {
    warn_of_checks();
    let sizes = [over_cells(), over_markers(), over_placements()].concat();
    let cases: Vec<WholeMatch> = sizes.iter().map(Size::case).collect();
    let times = best_of_each(&cases.iter().flat_map(Case::sides).collect::<Vec<_>>());
    println!("series\tnumber\tmarkers\tplacements\tours, ns\twith scores, ns\ttheirs, ns");
    let mut agree = true;
    for ((size, case), times) in sizes.iter().zip(&cases).zip(times.as_chunks().0) {
        size.print(case.placements(), *times);
        if !case.agrees() {
            agree = false;
            eprintln!("the answers differ: {}", size.series);
        }
    }
    ExitCode::from(u8::from(!agree))
}

#[derive(Clone)]
struct Size {
    series: String,
    /// Of what the series counts; the placements are printed in any case.
    number: Option<u32>,
    board: Board,
    squares: Vec<[i32; 2]>,
}

const LARGEST: [u8; 2] = [32, 32];

/// Sides of codes, for the series that are measured with two.
const BITS: [u8; 2] = [4, 6];

/// Blocks from the middle of the largest board, each twice as large as the one before.
fn over_cells() -> Vec<Size> {
    let sizes = BITS.map(|bits| {
        (0..=8).map(move |doublings: u32| {
            let [width, height] = [doublings.div_ceil(2), doublings / 2].map(|n| 1 << n);
            let squares = rectangle([16 - width / 2, 15 - height / 2], [width, height]);
            Size {
                series: format!("cells, {bits} × {bits} bits"),
                number: Some(1 << doublings),
                board: (LARGEST, bits),
                squares: squares.collect(),
            }
        })
    });
    sizes.into_iter().flatten().collect()
}

/// One cell, where what is done once weighs most, and four, on boards from the smallest to the largest.
fn over_markers() -> Vec<Size> {
    let blocks = [
        ("one cell", rectangle([1, 0], [1, 1])),
        ("four cells", rectangle([0, 0], [2, 2])),
    ];
    let sizes = blocks.map(|(cells, squares)| {
        [2u8, 3, 4, 6, 8, 12, 16, 24, 32].map(|side| Size {
            series: format!("markers, {cells}"),
            number: Some(u32::from(side).pow(2) / 2),
            board: ([side; 2], 6),
            squares: squares.clone().collect(),
        })
    });
    sizes.concat()
}

/// Sixteen cells on the largest board, farther and farther apart, so that fewer placements put all of them on it.
fn over_placements() -> Vec<Size> {
    let sizes = BITS.map(|bits| {
        [32, 31, 30, 28, 24, 20, 16, 12, 8, 4].map(|side| {
            let apart = |k: i32| k * (side - 1) / 3;
            // A step to the right, where there is room, so that some square holds a marker.
            let right = i32::from(side < 32);
            let squares = rectangle([0, 0], [4, 4]).map(|[i, j]| [apart(i) + right, apart(j)]);
            Size {
                series: format!("placements, {bits} × {bits} bits"),
                number: None,
                board: (LARGEST, bits),
                squares: squares.collect(),
            }
        })
    });
    sizes.concat()
}

impl Size {
    fn case(&self) -> WholeMatch {
        WholeMatch::new(seen(self.board, self.squares.clone()))
    }

    fn print(&self, placements: u32, [ours, second, theirs]: [f64; 3]) {
        let ([rows, cols], _) = self.board;
        let markers = u32::from(rows) * u32::from(cols) / 2;
        let (series, number) = (&self.series, self.number.unwrap_or(placements));
        print!("{series}\t{number}\t{markers}\t{placements}\t");
        println!("{ours:.0}\t{second:.0}\t{theirs:.0}");
    }
}
