//! Clearing times for a drawn sheet.

use super::random::Random;
use crate::sheet::{Sheet, MAX_CLEARING};

/// How clearing times are drawn. Large ones alone would give nearly every copy
/// a board of its own.
#[derive(Clone, Copy, Debug, PartialEq, Eq)]
pub enum Clearing {
    /// All 0.
    Zero,
    /// Near the sheet's durations and waits, which decide how long a board
    /// stands idle between two copies.
    Near,
    /// 999999 and 1000000.
    Largest,
}

pub const CLEARINGS: [Clearing; 3] = [Clearing::Zero, Clearing::Near, Clearing::Largest];

/// Clearing times of any sort, half of them near the sheet's numbers.
pub(super) fn draw_any_clearing(random: &mut Random, sheet: &mut Sheet) {
    let clearing = match random.below(4) {
        0 => Clearing::Zero,
        1 => Clearing::Largest,
        _ => Clearing::Near,
    };
    draw_clearing(random, sheet, clearing);
}

/// Gives the sheet clearing times of this sort, instead of its own.
pub fn draw_clearing(random: &mut Random, sheet: &mut Sheet, clearing: Clearing) {
    sheet.clearing = (0..sheet.kinds)
        .map(|kind| match clearing {
            Clearing::Zero => 0,
            Clearing::Near => draw_near(random, sheet, kind),
            Clearing::Largest => MAX_CLEARING - random.below(2) as u32,
        })
        .collect();
}

/// Some duration on this kind or wait within it, or one more, one less or any
/// less: a gap between two copies is often as long as one of these, so that a
/// board is free again just in time or just too late.
fn draw_near(random: &mut Random, sheet: &Sheet, kind: usize) -> u32 {
    let number = if sheet.edges.is_empty() || random.one_in(4) {
        random.pick(&sheet.durations)[kind]
    } else {
        sheet.wait(random.pick(&sheet.edges), kind, kind)
    };
    let near = match random.below(5) {
        0 => number + 1,
        1 => number.saturating_sub(1),
        2 => random.below(number as usize + 1) as u32,
        _ => number,
    };
    near.min(MAX_CLEARING)
}
