//! A rival: HEFT, heterogeneous earliest finish time (Topcuoglu, Hariri and Wu,
//! Performance-effective and low-complexity task scheduling for heterogeneous
//! computing, IEEE Transactions on Parallel and Distributed Systems 13(3), 2002),
//! without duplication.
//!
//! A stage (task) has a rank: its mean duration over the kinds (machine types)
//! plus the largest, over its edges, of the mean wait (communication delay)
//! over pairs of kinds plus the rank of the edge's target. Stages are taken by
//! falling rank, and each gets one copy, on the kind where it ends first.
//!
//! Boards (machines) are not limited and waits depend on kinds alone, so a copy
//! can start as soon as its inputs are there, on a new board if no other is
//! free. HEFT's insertion, the search for a gap between copies on a board, is
//! pointless: it never gives an earlier start than that. For the same reason a
//! copy's place depends on those of its predecessors alone, and any order that
//! has each stage after its predecessors gives the same plan.
//!
//! HEFT has no clearing times (removal times). Here a board of the rival's
//! clears before its next copy as ours does, or its plans would not be valid.

use reference::schedule::topological_order;
use reference::{Edge, PlanCopy, Sheet};

/// The rival's plan (schedule) of an accepted sheet: one copy a stage, by
/// stage.
pub fn heft(sheet: &Sheet) -> Vec<PlanCopy> {
    let mut placed = vec![None; sheet.stages()];
    for stage in by_falling_rank(sheet) {
        placed[stage] = Some(place(sheet, &placed, stage));
    }
    let mut copies: Vec<PlanCopy> = placed.into_iter().flatten().collect();
    assign_boards(sheet, &mut copies);
    copies
}

/// The rank of each stage times K×K, which makes the means whole numbers.
pub fn ranks(sheet: &Sheet) -> Vec<u64> {
    let order = topological_order(sheet).expect("an accepted sheet is not circular");
    let mut ranks = vec![0; sheet.stages()];
    for &stage in order.iter().rev() {
        let beyond = |edge: &Edge| total(&edge.waits) + ranks[edge.target];
        let farthest = sheet.edges_from(stage).map(beyond).max().unwrap_or(0);
        ranks[stage] = sheet.kinds as u64 * total(&sheet.durations[stage]) + farthest;
    }
    ranks
}

fn total(numbers: &[u32]) -> u64 {
    numbers.iter().map(|&number| u64::from(number)).sum()
}

/// Durations are at least 1, so a stage's rank is above those of its
/// successors, and this is a topological order. Of equal ranks the lowest
/// stage comes first.
fn by_falling_rank(sheet: &Sheet) -> Vec<usize> {
    let ranks = ranks(sheet);
    let mut stages: Vec<usize> = (0..sheet.stages()).collect();
    stages.sort_by_key(|&stage| (u64::MAX - ranks[stage], stage));
    stages
}

/// A copy of the stage where it ends first, on the lowest such kind. Its
/// predecessors are placed. Boards come later.
fn place(sheet: &Sheet, placed: &[Option<PlanCopy>], stage: usize) -> PlanCopy {
    let copies = (0..sheet.kinds).map(|kind| PlanCopy {
        stage: stage as u64,
        kind: kind as u64,
        board: 0,
        start: inputs_there(sheet, placed, stage, kind),
    });
    copies
        .min_by_key(|copy| end(sheet, copy))
        .expect("K is at least 1")
}

/// When all inputs of a copy of the stage on this kind are there.
fn inputs_there(sheet: &Sheet, placed: &[Option<PlanCopy>], stage: usize, kind: usize) -> u64 {
    let arrivals = sheet.edges_into(stage).map(|edge| {
        let source = placed[edge.source].expect("a source has the higher rank");
        end(sheet, &source) + u64::from(sheet.wait(edge, source.kind as usize, kind))
    });
    arrivals.max().unwrap_or(0)
}

fn end(sheet: &Sheet, copy: &PlanCopy) -> u64 {
    copy.start + u64::from(sheet.durations[copy.stage as usize][copy.kind as usize])
}

/// Gives each copy, by start, then stage, the lowest board of its kind that is
/// free again, or else a new one: no assignment of boards to these copies uses
/// fewer.
fn assign_boards(sheet: &Sheet, copies: &mut [PlanCopy]) {
    let mut by_start: Vec<&mut PlanCopy> = copies.iter_mut().collect();
    by_start.sort_by_key(|copy| (copy.start, copy.stage));
    // for each board of each kind when it is free again (SPEC 5.3)
    let mut free_again = vec![Vec::new(); sheet.kinds];
    for copy in by_start {
        let kind = copy.kind as usize;
        let times: &mut Vec<u64> = &mut free_again[kind];
        let free = times.iter().position(|&time| time <= copy.start);
        let board = free.unwrap_or(times.len());
        times.resize(times.len().max(board + 1), 0);
        times[board] = end(sheet, copy) + u64::from(sheet.clearing[kind]);
        copy.board = board as u64;
    }
}
