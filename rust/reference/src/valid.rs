//! Which plans are valid (SPEC 7), for plans of any origin: starts and board
//! numbers have no upper limit.

use std::collections::BTreeSet;

use crate::boards::CopyRecord;
use crate::sheet::{Edge, Sheet};

/// A copy in any plan.
#[derive(Clone, Copy, Debug, PartialEq, Eq, Hash, PartialOrd, Ord)]
pub struct PlanCopy {
    pub stage: u64,
    pub kind: u64,
    pub board: u64,
    pub start: u64,
}

impl From<CopyRecord> for PlanCopy {
    fn from(record: CopyRecord) -> PlanCopy {
        PlanCopy {
            stage: record.stage.into(),
            kind: record.kind.into(),
            board: record.board.into(),
            start: record.start.into(),
        }
    }
}

/// The first reason found why a plan is not valid. Copies are named by their
/// places in the plan, edges by their places in the sheet.
#[derive(Clone, Copy, Debug, PartialEq, Eq)]
pub enum Invalid {
    /// A stage not below N.
    Stage { copy: usize },
    /// A kind not below K.
    Kind { copy: usize },
    /// A stage without a copy.
    NoCopy { stage: usize },
    /// No copy of the edge's source is there in time for this copy.
    NotServed { copy: usize, edge: usize },
    /// Copies with the same kind and board, each of which starts before the
    /// other has ended and cleared.
    SameBoard { first: usize, second: usize },
}

/// Is this plan valid for the sheet?
pub fn valid(sheet: &Sheet, plan: &[PlanCopy]) -> bool {
    why_invalid(sheet, plan).is_none()
}

/// None for a valid plan.
pub fn why_invalid(sheet: &Sheet, plan: &[PlanCopy]) -> Option<Invalid> {
    out_of_range(sheet, plan)
        .or_else(|| stage_without_copy(sheet, plan))
        .or_else(|| copy_not_served(sheet, plan))
        .or_else(|| shared_board(sheet, plan))
}

fn out_of_range(sheet: &Sheet, plan: &[PlanCopy]) -> Option<Invalid> {
    for (place, copy) in plan.iter().enumerate() {
        if copy.stage >= sheet.stages() as u64 {
            return Some(Invalid::Stage { copy: place });
        }
        if copy.kind >= sheet.kinds as u64 {
            return Some(Invalid::Kind { copy: place });
        }
    }
    None
}

fn stage_without_copy(sheet: &Sheet, plan: &[PlanCopy]) -> Option<Invalid> {
    let mut stages = 0..sheet.stages();
    stages
        .find(|&stage| plan.iter().all(|copy| copy.stage != stage as u64))
        .map(|stage| Invalid::NoCopy { stage })
}

fn copy_not_served(sheet: &Sheet, plan: &[PlanCopy]) -> Option<Invalid> {
    for (copy_place, copy) in plan.iter().enumerate() {
        for (edge_place, edge) in sheet.edges.iter().enumerate() {
            let concerns = edge.target as u64 == copy.stage;
            if concerns && !plan.iter().any(|from| serves(sheet, edge, from, copy)) {
                return Some(Invalid::NotServed {
                    copy: copy_place,
                    edge: edge_place,
                });
            }
        }
    }
    None
}

/// `from` is a copy of the edge's source whose data are with `to` in time.
fn serves(sheet: &Sheet, edge: &Edge, from: &PlanCopy, to: &PlanCopy) -> bool {
    if from.stage != edge.source as u64 {
        return false;
    }
    let wait = sheet.wait(edge, from.kind as usize, to.kind as usize);
    end(sheet, from) + u128::from(wait) <= u128::from(to.start)
}

/// Two places in the list are two copies, even with the same record.
fn shared_board(sheet: &Sheet, plan: &[PlanCopy]) -> Option<Invalid> {
    for (second, b) in plan.iter().enumerate() {
        for (first, a) in plan[..second].iter().enumerate() {
            if (a.kind, a.board) != (b.kind, b.board) {
                continue;
            }
            let a_first = cleared(sheet, a) <= u128::from(b.start);
            let b_first = cleared(sheet, b) <= u128::from(a.start);
            if !a_first && !b_first {
                return Some(Invalid::SameBoard { first, second });
            }
        }
    }
    None
}

/// When a copy ends (SPEC 7.3). The stage is below N and the kind below K.
pub fn end(sheet: &Sheet, copy: &PlanCopy) -> u128 {
    let duration = sheet.durations[copy.stage as usize][copy.kind as usize];
    u128::from(copy.start) + u128::from(duration)
}

/// When a copy's board can run another one: its end plus the clearing time of
/// its kind (SPEC 7.2.3). The stage is below N and the kind below K.
pub fn cleared(sheet: &Sheet, copy: &PlanCopy) -> u128 {
    end(sheet, copy) + u128::from(sheet.clearing[copy.kind as usize])
}

/// The largest end; none for a plan without copies.
pub fn last_end(sheet: &Sheet, plan: &[PlanCopy]) -> Option<u128> {
    plan.iter().map(|copy| end(sheet, copy)).max()
}

/// How many boards of this kind the plan uses (SPEC 7.5).
pub fn boards_used(plan: &[PlanCopy], kind: u64) -> usize {
    let of_kind = plan.iter().filter(|copy| copy.kind == kind);
    of_kind
        .map(|copy| copy.board)
        .collect::<BTreeSet<_>>()
        .len()
}
