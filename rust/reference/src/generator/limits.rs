//! Accepted sheets at the limits: many copies, latest times, most bytes.

use super::clearing::draw_any_clearing;
use super::random::Random;
use super::shapes::{draw_pairs, draw_sheet, stage_numbers, trim, Numbers, Shape, Wish};
use crate::sheet::{
    Edge, Sheet, MAX_CLEARING, MAX_DURATION, MAX_EDGES, MAX_KINDS, MAX_SHEET_BYTES, MAX_STAGES,
    MAX_WAIT,
};

/// An accepted sheet in which many stages have copies on several kinds, often
/// on all: along each edge one kind alone serves each kind of the target. All
/// kinds of a stage start together, at a multiple of a period.
pub fn duplicating_sheet(random: &mut Random, kinds: usize, stages: usize) -> Sheet {
    // a chain alone would never need a second copy
    let shape = *random.pick(&[Shape::Dense, Shape::Dense, Shape::Layered, Shape::ForkJoin]);
    let pairs = draw_pairs(random, shape, stages, 2 * stages + 2);
    let levels = levels_of(stages, &pairs);
    let numbers = stage_numbers(random, stages);
    let period = *random.pick(&[1, 2, 7, 50]);
    let durations: Vec<Vec<u32>> = (0..stages)
        .map(|_| {
            (0..kinds)
                .map(|_| random.between(1, period) as u32)
                .collect()
        })
        .collect();
    let mut edges = Vec::new();
    for (source, target) in pairs {
        let gap = ((levels[target] - levels[source]) * period) as u32;
        let (source, target) = (numbers[source], numbers[target]);
        let serving: Vec<usize> = (0..kinds).map(|_| random.below(kinds)).collect();
        edges.push(Edge {
            source,
            target,
            waits: tight_waits(&durations[source], gap, &serving),
        });
    }
    let mut sheet = Sheet {
        kinds,
        clearing: vec![0; kinds],
        durations,
        edges,
    };
    draw_any_clearing(random, &mut sheet);
    trim(&mut sheet, MAX_EDGES as usize, MAX_SHEET_BYTES);
    sheet
}

/// For each place the number of edges on the longest path to it. Pairs lead
/// from lower to higher places.
fn levels_of(stages: usize, pairs: &[(usize, usize)]) -> Vec<usize> {
    let mut levels = vec![0; stages];
    for place in 0..stages {
        let before = pairs.iter().filter(|pair| pair.1 == place);
        let level = before.map(|pair| levels[pair.0] + 1).max();
        levels[place] = level.unwrap_or(0);
    }
    levels
}

/// Waits along an edge whose target starts `gap` after its source on all
/// kinds: for a target on kind k, kind `serving[k]` is just in time and every
/// other kind is late.
fn tight_waits(durations: &[u32], gap: u32, serving: &[usize]) -> Vec<u32> {
    let mut waits = Vec::new();
    for (h, duration) in durations.iter().enumerate() {
        for &on_time in serving {
            let lateness = if on_time == h { 0 } else { 1 + h as u32 };
            waits.push(gap - duration + lateness);
        }
    }
    waits
}

/// The sheet with the most copies that the copy rules can give: 1016. The
/// last stage has one copy, so has the one before it, the next one back has
/// two, and each of the other 253 has four. Clearing times are 0, with which
/// boards are taken again at once.
pub fn most_copies_sheet() -> Sheet {
    let (kinds, last) = (MAX_KINDS as usize, MAX_STAGES as usize - 1);
    let mut edges = Vec::new();
    let mut add = |source: usize, target: usize, serving: [usize; 4]| {
        let gap = (target - source) as u32;
        edges.push(Edge {
            source,
            target,
            waits: tight_waits(&[1; 4], gap, &serving),
        });
    };
    // Stage `last` has its copy on kind 0, `last - 1` on kind 1 and
    // `last - 2` on kinds 2 and 3.
    add(last - 1, last, [1, 0, 0, 0]);
    add(last - 2, last, [2, 0, 0, 0]);
    add(last - 2, last - 1, [0, 3, 0, 0]);
    add(last - 3, last, [0, 0, 0, 0]);
    add(last - 3, last - 1, [0, 1, 0, 0]);
    add(last - 3, last - 2, [0, 0, 2, 3]);
    for source in 0..last - 3 {
        add(source, source + 1, [0, 1, 2, 3]);
    }
    Sheet {
        kinds,
        clearing: vec![0; kinds],
        durations: vec![vec![1; kinds]; last + 1],
        edges,
    }
}

/// A chain of 256 stages with all durations, waits and clearing times 1000000:
/// its finish is 511000000, the latest end that can occur, and its last board
/// is free again at 512000000.
pub fn latest_sheet(random: &mut Random, kinds: usize) -> Sheet {
    let wish = Wish {
        kinds,
        stages: MAX_STAGES as usize,
        edges: MAX_EDGES as usize,
        shape: Shape::Chain,
        numbers: Numbers::Largest,
    };
    let mut sheet = draw_sheet(random, &wish);
    sheet.clearing = vec![MAX_CLEARING; kinds];
    sheet
}

/// An accepted sheet of exactly `bytes` bytes, from about 50000 to 65000. Only
/// a dense one is sure to have edges enough.
pub fn long_sheet(random: &mut Random, bytes: usize) -> Sheet {
    let wish = Wish {
        kinds: MAX_KINDS as usize,
        stages: MAX_STAGES as usize,
        edges: MAX_EDGES as usize,
        shape: Shape::Dense,
        numbers: Numbers::Short,
    };
    let mut sheet = draw_sheet(random, &wish);
    trim(&mut sheet, MAX_EDGES as usize, bytes);
    let mut missing = bytes - sheet.to_text().len();
    for edge in &mut sheet.edges {
        for wait in &mut edge.waits {
            let longer = lengthen(*wait, MAX_WAIT, missing);
            missing -= digits(longer) - digits(*wait);
            *wait = longer;
        }
    }
    for duration in sheet.durations.iter_mut().flatten() {
        let longer = lengthen(*duration, MAX_DURATION, missing);
        missing -= digits(longer) - digits(*duration);
        *duration = longer;
    }
    assert_eq!(missing, 0, "so many bytes cannot be reached");
    sheet
}

/// The number with at most `more` zeros put behind it, not above `most`; for 0,
/// which no zeros make longer, one as long as 1 with them.
fn lengthen(number: u32, most: u32, more: usize) -> u32 {
    let mut longer = number;
    for _ in 0..more {
        if longer <= most / 10 {
            longer = 10 * longer.max(1);
        }
    }
    longer
}

fn digits(number: u32) -> usize {
    number.to_string().len()
}
