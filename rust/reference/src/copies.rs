//! The three copy rules (SPEC 4).

use crate::schedule::{arrival, earliest_end};
use crate::sheet::{Edge, Sheet};

/// For each stage the kinds that have a copy of it, lowest first. `order` is
/// a topological order: taken from its end, each stage comes after all its
/// successors.
pub fn copy_kinds(sheet: &Sheet, order: &[usize], starts: &[Vec<u32>]) -> Vec<Vec<usize>> {
    let mut kinds_of = vec![Vec::new(); sheet.stages()];
    for &stage in order.iter().rev() {
        kinds_of[stage] = kinds_of_stage(sheet, starts, &kinds_of, stage);
    }
    kinds_of
}

/// The kinds of one stage, when those of all its successors are known.
fn kinds_of_stage(
    sheet: &Sheet,
    starts: &[Vec<u32>],
    kinds_of: &[Vec<usize>],
    stage: usize,
) -> Vec<usize> {
    let demands = demands_on(sheet, kinds_of, stage);
    if demands.is_empty() {
        return vec![kind_of_earliest_end(sheet, starts, stage)];
    }
    let serves_all = |&h: &usize| {
        let mut served = demands.iter();
        served.all(|&(edge, k)| serves(sheet, starts, edge, h, k))
    };
    if let Some(common) = (0..sheet.kinds).find(serves_all) {
        return vec![common];
    }
    let mut picked: Vec<usize> = demands
        .iter()
        .map(|&(edge, k)| lowest_serving_kind(sheet, starts, edge, k))
        .collect();
    picked.sort_unstable();
    picked.dedup();
    picked
}

/// What a stage has to serve: each edge that leaves it, with each kind that
/// has a copy of that edge's target.
fn demands_on<'a>(
    sheet: &'a Sheet,
    kinds_of: &[Vec<usize>],
    stage: usize,
) -> Vec<(&'a Edge, usize)> {
    let mut demands = Vec::new();
    for edge in sheet.edges_from(stage) {
        for &k in &kinds_of[edge.target] {
            demands.push((edge, k));
        }
    }
    demands
}

/// Kind `h` serves a copy of the edge's target on kind `k` when its data
/// arrive no later than that copy's table entry.
pub fn serves(sheet: &Sheet, starts: &[Vec<u32>], edge: &Edge, h: usize, k: usize) -> bool {
    arrival(sheet, starts, edge, h, k) <= starts[edge.target][k]
}

/// Some kind serves: the target's start is no smaller than the smallest
/// arrival along this edge.
fn lowest_serving_kind(sheet: &Sheet, starts: &[Vec<u32>], edge: &Edge, k: usize) -> usize {
    let mut kinds = 0..sheet.kinds;
    kinds
        .find(|&h| serves(sheet, starts, edge, h, k))
        .expect("a start is at least the earliest arrival of each edge")
}

/// The lowest kind that ends at the earliest end (SPEC 4.2).
fn kind_of_earliest_end(sheet: &Sheet, starts: &[Vec<u32>], stage: usize) -> usize {
    let earliest = earliest_end(sheet, starts, stage);
    let mut kinds = 0..sheet.kinds;
    kinds
        .find(|&kind| starts[stage][kind] + sheet.durations[stage][kind] == earliest)
        .expect("the smallest sum is one of the sums")
}
