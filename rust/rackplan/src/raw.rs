//! The exported functions as include/rackplan.h declares them. Nothing checks
//! these lines against the archive, so they are kept few.

use crate::StageCopy;

/// What `rackplan_read` returns: `fault` 0 with the sizes, or a fault's
/// number and line; the other fields are 0.
#[repr(C)]
pub struct ReadResult {
    pub fault: u32,
    pub line: u32,
    pub kinds: u32,
    pub stages: u32,
    pub edges: u32,
}

/// What `rackplan_plan` returns: `fault` 0 with the totals, or a fault's
/// number and line; the other fields are 0.
#[repr(C)]
pub struct PlanResult {
    pub fault: u32,
    pub line: u32,
    pub finish: u32,
    pub boards: [u32; 4],
    pub copies: u32,
    pub printed: usize,
}

extern "C" {
    pub fn rackplan_read(
        sheet: *const u8,
        sheet_len: usize,
        durations: *mut u32,
        durations_len: usize,
        ends: *mut u32,
        ends_len: usize,
        waits: *mut u32,
        waits_len: usize,
    ) -> ReadResult;

    pub fn rackplan_plan(
        sheet: *const u8,
        sheet_len: usize,
        durations: *mut u32,
        durations_len: usize,
        ends: *mut u32,
        ends_len: usize,
        waits: *mut u32,
        waits_len: usize,
        starts: *mut u32,
        starts_len: usize,
        copies: *mut StageCopy,
        copies_len: usize,
        out: *mut u8,
        out_len: usize,
    ) -> PlanResult;
}
