//! What several test files use.
#![allow(dead_code)]

use reference::{judge, Fault, Plan, PlanCopy, Sheet};

/// The listing (case K of SPEC 11), and what `plan` prints for it.
pub const LISTING: &str =
    "J,2,3,2\nG,0,0\nT,0,1,1\nT,1,2,9\nT,2,9,2\nE,0,1,0,5,5,0\nE,0,2,0,5,5,0\n";
pub const LISTING_PLAN: &str = "P,3,1,1\nC,0,0,0,0,1\nC,0,1,0,0,1\nC,1,0,0,1,3\nC,2,1,0,1,3\n";

/// Number and line of the fault, or none for an accepted sheet.
pub fn verdict(text: impl AsRef<[u8]>) -> Option<(u32, u32)> {
    match judge(text.as_ref()) {
        Ok(_) => None,
        Err(Fault { number, line }) => Some((number, line)),
    }
}

/// The sheet of a text that is accepted.
pub fn sheet(text: impl AsRef<[u8]>) -> Sheet {
    judge(text.as_ref()).expect("the sheet is accepted")
}

/// The copies of our plan as those of any plan.
pub fn plan_copies(plan: &Plan) -> Vec<PlanCopy> {
    plan.copies.iter().map(|&copy| copy.into()).collect()
}

/// A copy: stage, kind, board, start.
pub fn copy(stage: u64, kind: u64, board: u64, start: u64) -> PlanCopy {
    PlanCopy {
        stage,
        kind,
        board,
        start,
    }
}

/// A sheet on one kind that clears in no time: durations and edges (source,
/// target, wait).
pub fn one_kind(durations: &[u32], edges: &[(usize, usize, u32)]) -> String {
    one_kind_clearing(0, durations, edges)
}

/// The same with a clearing time.
pub fn one_kind_clearing(
    clearing: u32,
    durations: &[u32],
    edges: &[(usize, usize, u32)],
) -> String {
    let mut text = format!("J,1,{},{}\nG,{clearing}\n", durations.len(), edges.len());
    for (stage, duration) in durations.iter().enumerate() {
        text += &format!("T,{stage},{duration}\n");
    }
    for (source, target, wait) in edges {
        text += &format!("E,{source},{target},{wait}\n");
    }
    text
}
