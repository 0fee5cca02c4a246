//! The two calls: what they return and what each buffer contains afterwards
//! (SPEC 2 and 8).

use crate::boards::{make_plan, CopyRecord, Plan};
use crate::judge::{check_repeats, read_lines, Fault};
use crate::sheet::{Sheet, MAX_COPIES, MAX_EDGES, MAX_KINDS, MAX_STAGES};
use crate::text::plan_text;

const KINDS: usize = MAX_KINDS as usize;

/// Entries that a call needs in the table of durations, and in that of starts.
pub const DURATIONS_LENGTH: usize = MAX_STAGES as usize * KINDS;
/// Entries that a call needs in the table of edge ends.
pub const ENDS_LENGTH: usize = MAX_EDGES as usize * 2;
/// Entries that a call needs in the table of waits.
pub const WAITS_LENGTH: usize = MAX_EDGES as usize * KINDS * KINDS;
/// Entries that `plan` needs in the table of starts.
pub const STARTS_LENGTH: usize = DURATIONS_LENGTH;
/// Records that `plan` needs in the list of copies.
pub const COPIES_LENGTH: usize = MAX_COPIES;

/// All that a caller hands over to be written. `read` takes the first three
/// tables and leaves the rest alone, whatever their lengths.
#[derive(Clone, Debug, PartialEq, Eq)]
pub struct Buffers {
    /// Stage i on kind h at 4×i+h.
    pub durations: Vec<u32>,
    /// The two stages of edge e at 2×e and 2×e+1.
    pub ends: Vec<u32>,
    /// Row h, column k of edge e at 16×e+4×h+k.
    pub waits: Vec<u32>,
    /// Laid out as the durations.
    pub starts: Vec<u32>,
    /// As they are printed, line by line.
    pub copies: Vec<CopyRecord>,
    pub output: Vec<u8>,
}

/// What a successful `read` returns.
#[derive(Clone, Copy, Debug, PartialEq, Eq)]
pub struct ReadTotals {
    pub kinds: u32,
    pub stages: u32,
    pub edges: u32,
}

/// What a successful `plan` returns.
#[derive(Clone, Copy, Debug, PartialEq, Eq)]
pub struct PlanTotals {
    pub finish: u32,
    /// 0 of kinds that the sheet does not have.
    pub board_counts: [u32; KINDS],
    pub copy_count: u32,
    pub printed_length: u32,
}

/// The call `read`: faults 1 to 6.
pub fn read_call(sheet: &[u8], buffers: &mut Buffers) -> Result<ReadTotals, Fault> {
    check_read_tables(buffers)?;
    let sheet = read_lines(sheet)?;
    store_sheet(&sheet, buffers);
    check_repeats(&sheet)?;
    Ok(ReadTotals {
        kinds: sheet.kinds as u32,
        stages: sheet.stages() as u32,
        edges: sheet.edges.len() as u32,
    })
}

/// The call `plan`: faults 1 to 8.
pub fn plan_call(sheet: &[u8], buffers: &mut Buffers) -> Result<PlanTotals, Fault> {
    check_read_tables(buffers)?;
    check_plan_tables(buffers)?;
    let sheet = read_lines(sheet)?;
    // from here on the first three tables contain the sheet
    store_sheet(&sheet, buffers);
    check_repeats(&sheet)?;
    let plan = make_plan(&sheet).ok_or(Fault::whole(Fault::CIRCULAR))?;
    store_plan(&plan, buffers);
    let text = plan_text(&sheet, &plan);
    if text.len() > buffers.output.len() {
        return Err(Fault::whole(Fault::OUTPUT_TOO_SHORT));
    }
    buffers.output[..text.len()].copy_from_slice(&text);
    Ok(PlanTotals {
        finish: plan.finish,
        board_counts: plan.board_counts,
        copy_count: plan.copies.len() as u32,
        printed_length: text.len() as u32,
    })
}

/// Fault 1, for the tables that both calls take.
fn check_read_tables(buffers: &Buffers) -> Result<(), Fault> {
    check_length(buffers.durations.len(), DURATIONS_LENGTH)?;
    check_length(buffers.ends.len(), ENDS_LENGTH)?;
    check_length(buffers.waits.len(), WAITS_LENGTH)
}

/// Fault 1, for what `plan` takes besides.
fn check_plan_tables(buffers: &Buffers) -> Result<(), Fault> {
    check_length(buffers.starts.len(), STARTS_LENGTH)?;
    check_length(buffers.copies.len(), COPIES_LENGTH)
}

/// More entries than needed will do (SPEC 2.3).
fn check_length(length: usize, least: usize) -> Result<(), Fault> {
    if length < least {
        Err(Fault::whole(Fault::TABLE_TOO_SHORT))
    } else {
        Ok(())
    }
}

/// Writes the entries that the sheet uses, and no others. No table has the
/// clearing times (SPEC 2.4).
fn store_sheet(sheet: &Sheet, buffers: &mut Buffers) {
    store_by_stage(&sheet.durations, &mut buffers.durations);
    for (e, edge) in sheet.edges.iter().enumerate() {
        buffers.ends[2 * e] = edge.source as u32;
        buffers.ends[2 * e + 1] = edge.target as u32;
        for h in 0..sheet.kinds {
            for k in 0..sheet.kinds {
                buffers.waits[16 * e + 4 * h + k] = sheet.wait(edge, h, k);
            }
        }
    }
}

/// Writes the starts of the sheet's stages and kinds, and as many records as
/// there are copies.
fn store_plan(plan: &Plan, buffers: &mut Buffers) {
    store_by_stage(&plan.starts, &mut buffers.starts);
    buffers.copies[..plan.copies.len()].copy_from_slice(&plan.copies);
}

fn store_by_stage(numbers: &[Vec<u32>], table: &mut [u32]) {
    for (i, of_stage) in numbers.iter().enumerate() {
        table[4 * i..4 * i + of_stage.len()].copy_from_slice(of_stage);
    }
}
