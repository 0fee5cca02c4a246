//! Topological order, table of starts and finish (SPEC 3).

use crate::sheet::{Edge, Sheet};

/// An order in which every edge leads from an earlier to a later stage, or
/// none when the edges contain a closed path. Always the lowest stage whose
/// predecessors are all placed comes next.
pub fn topological_order(sheet: &Sheet) -> Option<Vec<usize>> {
    // for each stage the edges into it whose source is not yet placed
    let mut open_edges = vec![0; sheet.stages()];
    for edge in &sheet.edges {
        open_edges[edge.target] += 1;
    }
    let mut placed = vec![false; sheet.stages()];
    let mut order = Vec::new();
    while order.len() < sheet.stages() {
        let ready = |&stage: &usize| !placed[stage] && open_edges[stage] == 0;
        let next = (0..sheet.stages()).find(ready)?;
        placed[next] = true;
        order.push(next);
        for edge in sheet.edges_from(next) {
            open_edges[edge.target] -= 1;
        }
    }
    Some(order)
}

/// The table of starts, one list of K starts for each stage. `order` is a
/// topological order of the sheet.
pub fn starts(sheet: &Sheet, order: &[usize]) -> Vec<Vec<u32>> {
    let mut starts = vec![vec![0; sheet.kinds]; sheet.stages()];
    for &stage in order {
        starts[stage] = (0..sheet.kinds)
            .map(|kind| {
                let arrivals = sheet
                    .edges_into(stage)
                    .map(|edge| earliest_arrival(sheet, &starts, edge, kind));
                // no incoming edge: 0
                arrivals.max().unwrap_or(0)
            })
            .collect();
    }
    starts
}

/// When the edge's data are with its target on kind `k`, coming from a copy
/// of its source on kind `h` at its table entry.
pub fn arrival(sheet: &Sheet, starts: &[Vec<u32>], edge: &Edge, h: usize, k: usize) -> u32 {
    let source = edge.source;
    starts[source][h] + sheet.durations[source][h] + sheet.wait(edge, h, k)
}

/// The smallest arrival over the kinds of the source.
fn earliest_arrival(sheet: &Sheet, starts: &[Vec<u32>], edge: &Edge, k: usize) -> u32 {
    let arrivals = (0..sheet.kinds).map(|h| arrival(sheet, starts, edge, h, k));
    arrivals.min().expect("K is at least 1")
}

/// A stage's earliest end: the smallest, over the kinds, of start plus
/// duration.
pub fn earliest_end(sheet: &Sheet, starts: &[Vec<u32>], stage: usize) -> u32 {
    let ends = (0..sheet.kinds).map(|kind| starts[stage][kind] + sheet.durations[stage][kind]);
    ends.min().expect("K is at least 1")
}

/// The finish: the largest, over the stages, of the earliest end.
pub fn finish(sheet: &Sheet, starts: &[Vec<u32>]) -> u32 {
    let ends = (0..sheet.stages()).map(|stage| earliest_end(sheet, starts, stage));
    ends.max().expect("N is at least 1")
}
