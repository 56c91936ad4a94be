//! Shots with special numbers: weights, tables and settings.

use super::scene::{Look, Scene};
use crate::questions::{FORMULAS, match_shot};
use cases::floats::{
    ABOVE_1, BELOW_1, BORDER_THRESHOLDS, FRACTIONS, GOOD_CELL_SIZES, GOOD_MARKER_SIZES, LEAST, MAX,
    MIN, NORMAL, PIXELS, SUBNORMAL, random_finite,
};
use cases::prng::Prng;
use cases::tables::ODD_ENTRIES;
use records::{Shot, TABLE_LENGTH, settings};
use std::f32::consts::LN_2;
use theirs::is_table;

const MARGINS: [f32; 17] = [
    0.05, 0.0, -0.0, -1.0, MIN, NORMAL, SUBNORMAL, -SUBNORMAL, 1e-7, 0.01, 0.25, 0.5, BELOW_1, 1.0,
    ABOVE_1, 2.5, MAX,
];

fn any_shot(prng: &mut Prng, legacy: bool) -> Shot {
    Scene::random(prng, legacy).any_shot(prng)
}

fn set_margin(prng: &mut Prng, shot: &mut Shot) {
    let margin = match prng.below(5) {
        0 => prng.below(2001) as f32 / 1000.0,
        _ => prng.pick(&MARGINS),
    };
    shot.set_minimum_margin(margin);
}

fn set_border_threshold(prng: &mut Prng, shot: &mut Shot) {
    shot.map |= settings::BORDER_THRESHOLD;
    shot.border_threshold = prng.pick(&BORDER_THRESHOLDS).to_bits();
}

/// Fractions that make weights 0, subnormal, 1 and between; and all weights 0 now and then.
pub fn weights(prng: &mut Prng, legacy: bool) -> Shot {
    let mut shot = any_shot(prng, legacy);
    let few = [0.0f32, -0.0, LEAST];
    let fractions = prng.pick(&[&FRACTIONS[..], &FRACTIONS[..], &few[..], &few[..2]]);
    for cell in &mut shot.cells {
        if let Some(sample) = &mut cell.sample {
            sample.fraction = prng.pick(fractions).to_bits();
        }
        if prng.one_in(6) {
            cell.sample = None;
        }
    }
    if prng.one_in(2) {
        set_border_threshold(prng, &mut shot);
    }
    if prng.one_in(2) {
        set_margin(prng, &mut shot);
    }
    shot
}

/// Each setting by itself or with the others.
pub fn any_settings(prng: &mut Prng, legacy: bool) -> Shot {
    let mut shot = any_shot(prng, legacy);
    if !prng.one_in(3) {
        set_margin(prng, &mut shot);
    }
    if !prng.one_in(3) {
        set_border_threshold(prng, &mut shot);
    }
    if !prng.one_in(3) {
        shot.map |= settings::PX_PER_SQUARE;
        let px = match prng.below(3) {
            0 => random_finite(prng),
            _ => prng.pick(&PIXELS),
        };
        shot.px_per_square = px.to_bits();
    }
    shot
}

/// A minimum that is just the margin of the shot, or the next number to it.
pub fn minimum_at_the_margin(prng: &mut Prng, legacy: bool) -> Shot {
    let mut shot = any_shot(prng, legacy);
    shot.set_minimum_margin(MAX);
    let refused = match_shot(&shot, usize::MAX).expect_err("no margin is so large");
    let margin = f32::from_bits(refused.words.first().copied().unwrap_or(0));
    let near = [margin, margin, margin.next_up(), margin.next_down()];
    shot.minimum_margin = prng.pick(&near).to_bits();
    shot
}

/// Sizes and fractions that are as small or as large as they may be, of any sign that passes.
pub fn odd_floats(prng: &mut Prng, legacy: bool) -> Shot {
    let mut shot = any_settings(prng, legacy);
    shot.cell_size = prng.pick(&GOOD_CELL_SIZES).to_bits();
    shot.marker_size_rel = prng.pick(&GOOD_MARKER_SIZES).to_bits();
    for sample in shot.samples_mut() {
        if prng.one_in(2) {
            sample.fraction = prng.pick(&FRACTIONS).to_bits();
        }
    }
    shot
}

/// Upstream answers for these.
pub fn table_by_formula(prng: &mut Prng, legacy: bool) -> Shot {
    let mut shot = any_settings(prng, legacy);
    shot.map |= settings::TABLE;
    (_, shot.table) = FORMULAS[prng.place(FORMULAS.len())];
    shot
}

/// Any table that passes check 10. The rules answer for most of these.
pub fn any_table(prng: &mut Prng, legacy: bool) -> Shot {
    let mut shot = any_settings(prng, legacy);
    shot.map |= settings::TABLE;
    shot.table = random_table(prng).map(f32::to_bits);
    shot
}

/// Entries of many sizes, of a few values, of one, or rising; both zeros and subnormal ones among them.
fn random_table(prng: &mut Prng) -> [f32; TABLE_LENGTH] {
    let [odd, _] = odd_entries();
    let step = |prng: &mut Prng| prng.below((1 << 24) + 1) as f32 / (1 << 21) as f32 - 8.0;
    let small = |prng: &mut Prng| -f32::from_bits(prng.draw() as u32 % 0x4100_0001);
    let few = prng.many(3, step);
    // What a bit of the null score adds, by which evidence may be just 0, and less.
    let at_most_null = [-LN_2, -LN_2, -1.0];
    let kind = prng.below(7);
    let mut table = [(); TABLE_LENGTH].map(|()| match kind {
        0 => step(prng),
        1 => small(prng),
        2 => prng.pick(&odd),
        3 => prng.pick(&few),
        4 => few[0],
        5 => prng.pick(&at_most_null),
        _ => step(prng),
    });
    if kind == 6 {
        table.sort_by(f32::total_cmp);
    }
    if prng.one_in(3) {
        for _ in 0..20 {
            table[prng.place(TABLE_LENGTH)] = prng.pick(&odd);
        }
    }
    assert!(is_table(&table), "every entry is from -8 to 0");
    table
}

/// Odd entries that pass check 10, and those that fail it.
pub fn odd_entries() -> [Vec<f32>; 2] {
    let is_entry = |entry: &f32| (-8.0..=0.0).contains(entry);
    let (good, bad) = ODD_ENTRIES.into_iter().partition(is_entry);
    [good, bad]
}

/// Cells as they should be, for a look.
pub fn shown(prng: &mut Prng, legacy: bool) -> Shot {
    let scene = Scene::random(prng, legacy);
    let look = prng.pick(&[Look::Clear, Look::Noisy, Look::Noisy]);
    scene.shot(prng, look)
}
