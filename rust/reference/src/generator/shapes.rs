//! Accepted sheets of a wished shape.

use std::collections::BTreeSet;

use super::clearing::draw_any_clearing;
use super::random::Random;
use crate::sheet::{
    edge_line, Edge, Sheet, MAX_DURATION, MAX_EDGES, MAX_KINDS, MAX_SHEET_BYTES, MAX_STAGES,
    MAX_WAIT,
};

/// How the edges lie.
#[derive(Clone, Copy, Debug, PartialEq, Eq)]
pub enum Shape {
    NoEdges,
    /// Each stage precedes the next.
    Chain,
    /// Layers of a few stages, edges mostly to the next layer.
    Layered,
    /// One stage, several beside each other, one stage, and so on.
    ForkJoin,
    /// As many edges as are allowed.
    Dense,
    /// About as many edges as stages, anywhere.
    Sparse,
}

pub const SHAPES: [Shape; 6] = [
    Shape::NoEdges,
    Shape::Chain,
    Shape::Layered,
    Shape::ForkJoin,
    Shape::Dense,
    Shape::Sparse,
];

/// How durations and waits are drawn.
#[derive(Clone, Copy, Debug, PartialEq, Eq)]
pub enum Numbers {
    /// Below 4: many ties.
    Tiny,
    /// Below 100.
    Short,
    /// Anything in range.
    Wide,
    /// Values at which digits or ranges change.
    Boundary,
    /// Always 1000000.
    Largest,
}

pub const NUMBERS: [Numbers; 5] = [
    Numbers::Tiny,
    Numbers::Short,
    Numbers::Wide,
    Numbers::Boundary,
    Numbers::Largest,
];

/// What a drawn sheet shall be like.
#[derive(Clone, Copy, Debug)]
pub struct Wish {
    pub kinds: usize,
    pub stages: usize,
    /// At most so many edges.
    pub edges: usize,
    pub shape: Shape,
    pub numbers: Numbers,
}

/// The wish of an accepted sheet of at most so many stages.
pub fn draw_wish(random: &mut Random, most_stages: usize) -> Wish {
    Wish {
        kinds: random.between(1, MAX_KINDS as usize),
        stages: random.between(1, most_stages.min(MAX_STAGES as usize)),
        edges: MAX_EDGES as usize,
        shape: *random.pick(&SHAPES),
        numbers: *random.pick(&NUMBERS),
    }
}

/// An accepted sheet as wished. Edges that would pass the limit of bytes are
/// left out.
pub fn draw_sheet(random: &mut Random, wish: &Wish) -> Sheet {
    let pairs = draw_pairs(random, wish.shape, wish.stages, wish.edges);
    let numbers = stage_numbers(random, wish.stages);
    let kinds = wish.kinds;
    let durations = (0..wish.stages)
        .map(|_| draw_numbers(random, wish.numbers, kinds, 1, MAX_DURATION))
        .collect();
    let edges = pairs
        .into_iter()
        .map(|(source, target)| Edge {
            source: numbers[source],
            target: numbers[target],
            waits: draw_numbers(random, wish.numbers, kinds * kinds, 0, MAX_WAIT),
        })
        .collect();
    let mut sheet = Sheet {
        kinds,
        clearing: vec![0; kinds],
        durations,
        edges,
    };
    draw_any_clearing(random, &mut sheet);
    trim(&mut sheet, MAX_EDGES as usize, MAX_SHEET_BYTES);
    sheet
}

/// Different pairs of places, each from a lower to a higher one, at most
/// `most` of them, in any order.
pub(super) fn draw_pairs(
    random: &mut Random,
    shape: Shape,
    stages: usize,
    most: usize,
) -> Vec<(usize, usize)> {
    let drawn = match shape {
        Shape::NoEdges => Vec::new(),
        Shape::Chain => (1..stages).map(|target| (target - 1, target)).collect(),
        Shape::Layered => layered_pairs(random, stages),
        Shape::ForkJoin => fork_join_pairs(random, stages),
        Shape::Dense => dense_pairs(stages),
        Shape::Sparse => sparse_pairs(random, stages),
    };
    let different: BTreeSet<(usize, usize)> = drawn.into_iter().collect();
    let mut pairs: Vec<(usize, usize)> = different.into_iter().collect();
    random.shuffle(&mut pairs);
    pairs.truncate(most.min(MAX_EDGES as usize));
    if random.one_in(4) {
        pairs.sort_unstable();
    }
    pairs
}

fn layered_pairs(random: &mut Random, stages: usize) -> Vec<(usize, usize)> {
    let width = random.between(1, 9);
    let mut pairs = Vec::new();
    for source in 0..stages {
        let next_layer = (source / width + 1) * width;
        if next_layer >= stages {
            break;
        }
        for _ in 0..random.between(1, 4) {
            let layers = if random.one_in(5) { 3 } else { 1 };
            let target = next_layer + random.below(width * layers);
            pairs.push((source, target.min(stages - 1)));
        }
    }
    pairs
}

fn fork_join_pairs(random: &mut Random, stages: usize) -> Vec<(usize, usize)> {
    let mut pairs = Vec::new();
    let mut head = 0;
    while head + 2 < stages {
        let tail = (head + 1 + random.between(1, 8)).min(stages - 1);
        for middle in head + 1..tail {
            pairs.push((head, middle));
            pairs.push((middle, tail));
        }
        head = tail;
    }
    pairs
}

fn dense_pairs(stages: usize) -> Vec<(usize, usize)> {
    let pairs_to = |target| (0..target).map(move |source| (source, target));
    (1..stages).flat_map(pairs_to).collect()
}

fn sparse_pairs(random: &mut Random, stages: usize) -> Vec<(usize, usize)> {
    if stages < 2 {
        return Vec::new();
    }
    let count = random.between(1, 2 * stages);
    (0..count)
        .map(|_| {
            let target = random.between(1, stages - 1);
            (random.below(target), target)
        })
        .collect()
}

/// A stage number for each place: often any, sometimes in order or reversed,
/// so that the order of lines is rarely a topological order.
pub(super) fn stage_numbers(random: &mut Random, stages: usize) -> Vec<usize> {
    let mut numbers: Vec<usize> = (0..stages).collect();
    match random.below(4) {
        0 => {}
        1 => numbers.reverse(),
        _ => random.shuffle(&mut numbers),
    }
    numbers
}

pub(super) fn draw_numbers(
    random: &mut Random,
    numbers: Numbers,
    count: usize,
    least: u32,
    most: u32,
) -> Vec<u32> {
    (0..count)
        .map(|_| draw_number(random, numbers, least, most))
        .collect()
}

pub(super) fn draw_number(random: &mut Random, numbers: Numbers, least: u32, most: u32) -> u32 {
    const BOUNDARIES: [u32; 10] = [0, 1, 9, 10, 99, 100, 65_535, 65_536, 999_999, 1_000_000];
    let number = match numbers {
        Numbers::Tiny => random.below(4) as u32,
        Numbers::Short => random.below(100) as u32,
        Numbers::Wide => random.below(most as usize + 1) as u32,
        Numbers::Boundary => *random.pick(&BOUNDARIES),
        Numbers::Largest => most,
    };
    number.clamp(least, most)
}

/// Leaves out last edges until at most so many edges and bytes remain.
pub(super) fn trim(sheet: &mut Sheet, most_edges: usize, most_bytes: usize) {
    sheet.edges.truncate(most_edges);
    let mut bytes = sheet.to_text().len();
    while bytes > most_bytes {
        let edge = sheet
            .edges
            .pop()
            .expect("the lines of 256 stages are within every limit");
        bytes -= edge_line(&edge).len();
    }
}
