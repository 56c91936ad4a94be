//! What limits the sums of a score: how long an addition takes that needs the one before it, and one that does not.

use differential::bench::nanoseconds;
use std::hint::black_box;

const ADDITIONS: usize = 1 << 20;
const ROUNDS: usize = 31;
const PARTS: usize = 128;

pub fn print() {
    let parts = black_box([-0.5; PARTS]);
    println!(
        "an addition of f32 with its load: {:.2} ns after the one before, {:.2} ns among eight sums",
        best(|| in_one_sum(&parts)),
        best(|| in_eight_sums(&parts)),
    );
}

/// Of an addition, in nanoseconds.
fn best(all: impl Fn()) -> f64 {
    let times = (0..ROUNDS).map(|_| nanoseconds(&all));
    times.fold(f64::INFINITY, f64::min) / ADDITIONS as f64
}

fn in_one_sum(parts: &[f32; PARTS]) {
    let mut sum = 0.0;
    for k in 0..ADDITIONS {
        sum += parts[k % PARTS];
    }
    black_box(sum);
}

/// Each sum starts at a place of its own, unknown to the compiler, as the places that codes pick are.
fn in_eight_sums(parts: &[f32; PARTS]) {
    let [a, b, c, d, e, f, g, h]: [usize; 8] = black_box([0, 3, 5, 7, 11, 13, 17, 19]);
    let mut sums = [0.0; 8];
    for k in 0..ADDITIONS / 8 {
        sums[0] += parts[(k + a) % PARTS];
        sums[1] += parts[(k + b) % PARTS];
        sums[2] += parts[(k + c) % PARTS];
        sums[3] += parts[(k + d) % PARTS];
        sums[4] += parts[(k + e) % PARTS];
        sums[5] += parts[(k + f) % PARTS];
        sums[6] += parts[(k + g) % PARTS];
        sums[7] += parts[(k + h) % PARTS];
    }
    black_box(sums);
}
