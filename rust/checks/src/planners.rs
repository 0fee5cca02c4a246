//! All implementations of the call `plan`, in one form.

use rackplan::{Fault, StageCopy, Totals};
use reference::{plan_call, Buffers, CopyRecord};

/// What the exported function returns: `fault` 0 with the totals, or a fault's
/// number and line; the other fields are 0.
#[repr(C)]
#[derive(Clone, Copy, Debug, Default, PartialEq, Eq)]
pub struct PlanAnswer {
    pub fault: u32,
    pub line: u32,
    pub finish: u32,
    pub boards: [u32; 4],
    pub copies: u32,
    pub printed: usize,
}

/// All that a caller lends to be written.
pub struct PlanBuffers<'a> {
    pub durations: &'a mut [u32],
    pub ends: &'a mut [u32],
    pub waits: &'a mut [u32],
    pub starts: &'a mut [u32],
    pub copies: &'a mut [StageCopy],
    pub out: &'a mut [u8],
}

impl PlanBuffers<'_> {
    /// The same buffers, lent on.
    pub fn lend(&mut self) -> PlanBuffers<'_> {
        PlanBuffers {
            durations: self.durations,
            ends: self.ends,
            waits: self.waits,
            starts: self.starts,
            copies: self.copies,
            out: self.out,
        }
    }
}

/// Takes the sheet and the buffers.
pub type Planner<'a> = &'a dyn Fn(&[u8], PlanBuffers) -> PlanAnswer;

/// Those that are compared with [`reference()`].
pub const COMPARED: [(&str, Planner); 2] =
    [("rackplan::plan", &wrapped), ("rackplan_plan", &exported)];

// Declared here a second time: the wrapper hides the fields that a refusal
// leaves 0.
extern "C" {
    fn rackplan_plan(
        sheet: *const u8,
        sheet_len: usize,
        durations: *mut u32,
        durations_len: usize,
        ends: *mut u32,
        ends_len: usize,
        waits: *mut u32,
        waits_len: usize,
        starts: *mut u32,
        starts_len: usize,
        copies: *mut StageCopy,
        copies_len: usize,
        out: *mut u8,
        out_len: usize,
    ) -> PlanAnswer;
}

/// The exported function itself.
pub fn exported(sheet: &[u8], buffers: PlanBuffers) -> PlanAnswer {
    // SAFETY: the call asks for pointers that are valid for their lengths and
    // for buffers that overlap nothing, as references to slices are.
    unsafe {
        rackplan_plan(
            sheet.as_ptr(),
            sheet.len(),
            buffers.durations.as_mut_ptr(),
            buffers.durations.len(),
            buffers.ends.as_mut_ptr(),
            buffers.ends.len(),
            buffers.waits.as_mut_ptr(),
            buffers.waits.len(),
            buffers.starts.as_mut_ptr(),
            buffers.starts.len(),
            buffers.copies.as_mut_ptr(),
            buffers.copies.len(),
            buffers.out.as_mut_ptr(),
            buffers.out.len(),
        )
    }
}

/// The wrapper that users call.
pub fn wrapped(sheet: &[u8], buffers: PlanBuffers) -> PlanAnswer {
    let returned = rackplan::plan(
        sheet,
        buffers.durations,
        buffers.ends,
        buffers.waits,
        buffers.starts,
        buffers.copies,
        buffers.out,
    );
    match returned {
        Ok(totals) => success(totals),
        Err(fault) => refusal(fault),
    }
}

/// The second implementation.
pub fn reference(sheet: &[u8], buffers: PlanBuffers) -> PlanAnswer {
    let mut lent = Buffers {
        durations: buffers.durations.to_vec(),
        ends: buffers.ends.to_vec(),
        waits: buffers.waits.to_vec(),
        starts: buffers.starts.to_vec(),
        copies: buffers.copies.iter().copied().map(record_of).collect(),
        output: buffers.out.to_vec(),
    };
    let returned = plan_call(sheet, &mut lent);
    buffers.durations.copy_from_slice(&lent.durations);
    buffers.ends.copy_from_slice(&lent.ends);
    buffers.waits.copy_from_slice(&lent.waits);
    buffers.starts.copy_from_slice(&lent.starts);
    for (copy, record) in buffers.copies.iter_mut().zip(lent.copies) {
        *copy = copy_of(record);
    }
    buffers.out.copy_from_slice(&lent.output);
    match returned {
        Ok(totals) => PlanAnswer {
            fault: 0,
            line: 0,
            finish: totals.finish,
            boards: totals.board_counts,
            copies: totals.copy_count,
            printed: totals.printed_length as usize,
        },
        Err(fault) => PlanAnswer {
            fault: fault.number,
            line: fault.line,
            ..PlanAnswer::default()
        },
    }
}

fn success(totals: Totals) -> PlanAnswer {
    PlanAnswer {
        fault: 0,
        line: 0,
        finish: totals.finish,
        boards: totals.boards.map(|count| count as u32),
        copies: totals.copies as u32,
        printed: totals.printed,
    }
}

fn refusal(fault: Fault) -> PlanAnswer {
    PlanAnswer {
        fault: fault.number(),
        line: fault.line().unwrap_or(0),
        ..PlanAnswer::default()
    }
}

fn record_of(copy: StageCopy) -> CopyRecord {
    CopyRecord {
        stage: copy.stage,
        kind: copy.kind,
        board: copy.board,
        start: copy.start,
    }
}

fn copy_of(record: CopyRecord) -> StageCopy {
    StageCopy {
        stage: record.stage,
        kind: record.kind,
        board: record.board,
        start: record.start,
    }
}

/// What the program prints for a sheet, by the library.
pub fn library_output(sheet: &[u8]) -> Vec<u8> {
    match rackplan::plan_sheet(sheet) {
        Ok(plan) => plan.text().into(),
        Err(fault) => format!("R,{},{}\n", fault.number(), fault.line().unwrap_or(0)).into(),
    }
}
