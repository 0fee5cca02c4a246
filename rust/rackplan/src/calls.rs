//! The two calls, over slices that the caller lends.

use crate::{raw, Fault, Sizes, KINDS_MAX};

/// A copy of a stage, laid out as `rackplan_copy` of the C header.
#[repr(C)]
#[derive(Clone, Copy, Debug, Default, PartialEq, Eq, Hash)]
pub struct StageCopy {
    /// The stage that runs.
    pub stage: u32,
    /// The kind of board that it runs on.
    pub kind: u32,
    /// Which board of that kind, from 0.
    pub board: u32,
    /// When it starts, in microseconds.
    pub start: u32,
}

/// What [`plan`] returns.
#[derive(Clone, Copy, Debug, PartialEq, Eq, Hash)]
pub struct Totals {
    /// When the last copy ends, in microseconds.
    pub finish: u32,
    /// The boards used of each kind, 0 of kinds that the sheet does not have.
    pub boards: [usize; KINDS_MAX],
    /// Records in the list of copies.
    pub copies: usize,
    /// Bytes in the output.
    pub printed: usize,
}

/// Reads a sheet into three tables of at least [`DURATIONS_LEN`],
/// [`ENDS_LEN`] and [`WAITS_LEN`] entries. Those that the sheet does not use
/// are as they were. Clearing times are judged, and are in no table.
///
/// # Errors
///
/// [`Fault::RepeatedEdge`] leaves the sheet in the tables, as success does.
/// Every other fault leaves the tables as they were.
///
/// [`DURATIONS_LEN`]: crate::DURATIONS_LEN
/// [`ENDS_LEN`]: crate::ENDS_LEN
/// [`WAITS_LEN`]: crate::WAITS_LEN
pub fn read(
    sheet: &[u8],
    durations: &mut [u32],
    ends: &mut [u32],
    waits: &mut [u32],
) -> Result<Sizes, Fault> {
    // SAFETY: the call asks that each pointer is valid for its length, aligned
    // and not null, also of an empty slice, and that the tables overlap
    // neither each other nor the sheet. References to slices are all of that.
    let answer = unsafe {
        raw::rackplan_read(
            sheet.as_ptr(),
            sheet.len(),
            durations.as_mut_ptr(),
            durations.len(),
            ends.as_mut_ptr(),
            ends.len(),
            waits.as_mut_ptr(),
            waits.len(),
        )
    };
    if answer.fault != 0 {
        return Err(Fault::from_parts(answer.fault, answer.line));
    }
    Ok(Sizes {
        kinds: answer.kinds as usize,
        stages: answer.stages as usize,
        edges: answer.edges as usize,
    })
}

/// Plans a sheet. The tables have at least [`DURATIONS_LEN`], [`ENDS_LEN`],
/// [`WAITS_LEN`] and [`STARTS_LEN`] entries and the list of copies
/// [`COPIES_LEN`] records; an output of [`PLAN_MAX`] bytes is always long
/// enough.
///
/// Success leaves the sheet in `durations`, `ends` and `waits`, the start of
/// each stage on each kind in `starts`, the copies, by start, then kind, then
/// stage, at the front of `copies`, and the printed plan at the front of `out`.
/// What sheet and plan do not use of these is as it was.
///
/// # Errors
///
/// [`Fault::RepeatedEdge`] and [`Fault::Circular`] leave the sheet in
/// `durations`, `ends` and `waits`. [`Fault::ShortOutput`] leaves all but the
/// output as success does. Nothing else is changed by a fault.
///
/// [`DURATIONS_LEN`]: crate::DURATIONS_LEN
/// [`ENDS_LEN`]: crate::ENDS_LEN
/// [`WAITS_LEN`]: crate::WAITS_LEN
/// [`STARTS_LEN`]: crate::STARTS_LEN
/// [`COPIES_LEN`]: crate::COPIES_LEN
/// [`PLAN_MAX`]: crate::PLAN_MAX
pub fn plan(
    sheet: &[u8],
    durations: &mut [u32],
    ends: &mut [u32],
    waits: &mut [u32],
    starts: &mut [u32],
    copies: &mut [StageCopy],
    out: &mut [u8],
) -> Result<Totals, Fault> {
    // SAFETY: the call asks that each pointer is valid for its length, aligned
    // and not null, also of an empty slice, and that what it writes to overlaps
    // neither each other nor the sheet. References to slices are all of that.
    // `StageCopy` is laid out as the header's `rackplan_copy`.
    let answer = unsafe {
        raw::rackplan_plan(
            sheet.as_ptr(),
            sheet.len(),
            durations.as_mut_ptr(),
            durations.len(),
            ends.as_mut_ptr(),
            ends.len(),
            waits.as_mut_ptr(),
            waits.len(),
            starts.as_mut_ptr(),
            starts.len(),
            copies.as_mut_ptr(),
            copies.len(),
            out.as_mut_ptr(),
            out.len(),
        )
    };
    if answer.fault != 0 {
        return Err(Fault::from_parts(answer.fault, answer.line));
    }
    Ok(Totals {
        finish: answer.finish,
        boards: answer.boards.map(|count| count as usize),
        copies: answer.copies as usize,
        printed: answer.printed,
    })
}
