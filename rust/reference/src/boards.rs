//! Boards by first fit, and the plan in printed order (SPEC 5 and 6.1).

use std::collections::BTreeSet;

use crate::copies::copy_kinds;
use crate::schedule::{finish, starts, topological_order};
use crate::sheet::{Sheet, MAX_KINDS};

/// One record of the list of copies.
#[derive(Clone, Copy, Debug, Default, PartialEq, Eq, Hash)]
pub struct CopyRecord {
    pub stage: u32,
    pub kind: u32,
    pub board: u32,
    pub start: u32,
}

/// Our plan of an accepted sheet.
#[derive(Clone, Debug, PartialEq, Eq)]
pub struct Plan {
    /// The table of starts: N lists of K.
    pub starts: Vec<Vec<u32>>,
    pub finish: u32,
    /// 0 of kinds that the sheet does not have.
    pub board_counts: [u32; MAX_KINDS as usize],
    /// As they are printed, line by line.
    pub copies: Vec<CopyRecord>,
}

/// The plan of a sheet, or none when the edges contain a closed path.
pub fn make_plan(sheet: &Sheet) -> Option<Plan> {
    let order = topological_order(sheet)?;
    let starts = starts(sheet, &order);
    let kinds_of = copy_kinds(sheet, &order, &starts);
    let mut copies = Vec::new();
    for kind in 0..sheet.kinds {
        let stages = (0..sheet.stages()).filter(|&stage| kinds_of[stage].contains(&kind));
        copies.extend(first_fit(sheet, &starts, kind, stages.collect()));
    }
    copies.sort_by_key(|copy| (copy.start, copy.kind, copy.stage));
    Some(Plan {
        finish: finish(sheet, &starts),
        board_counts: board_counts(&copies),
        starts,
        copies,
    })
}

/// Assigns a board of this kind to each of the stages that have a copy on it.
fn first_fit(
    sheet: &Sheet,
    starts: &[Vec<u32>],
    kind: usize,
    mut stages: Vec<usize>,
) -> Vec<CopyRecord> {
    stages.sort_by_key(|&stage| (starts[stage][kind], stage));
    // for each board when it is free again (SPEC 5.3)
    let mut free_again: Vec<u32> = Vec::new();
    let mut copies = Vec::new();
    for stage in stages {
        let start = starts[stage][kind];
        let end = start + sheet.durations[stage][kind];
        let cleared = end + sheet.clearing[kind];
        // a copy may start at the very time at which its board is free again
        // (SPEC 5.1)
        let free = free_again.iter().position(|&time| time <= start);
        let board = free.unwrap_or(free_again.len());
        if board == free_again.len() {
            free_again.push(cleared);
        } else {
            free_again[board] = cleared;
        }
        copies.push(CopyRecord {
            stage: stage as u32,
            kind: kind as u32,
            board: board as u32,
            start,
        });
    }
    copies
}

/// How many boards of each kind the copies use (SPEC 7.5).
fn board_counts(copies: &[CopyRecord]) -> [u32; MAX_KINDS as usize] {
    let mut boards: [BTreeSet<u32>; MAX_KINDS as usize] = Default::default();
    for copy in copies {
        boards[copy.kind as usize].insert(copy.board);
    }
    boards.map(|numbers| numbers.len() as u32)
}
