//! All implementations of the call `read`, in one form.

use rackplan::{Fault, Sizes};
use reference::{read_call, Buffers};

use crate::plain::{self, Digits, ReadField, Words};

/// What the exported function returns: `fault` 0 with the sizes, or a fault's
/// number and line; the other fields are 0.
#[repr(C)]
#[derive(Clone, Copy, Debug, PartialEq, Eq)]
pub struct Answer {
    pub fault: u32,
    pub line: u32,
    pub kinds: u32,
    pub stages: u32,
    pub edges: u32,
}

/// Takes the sheet, durations, ends and waits.
pub type Reader = fn(&[u8], &mut [u32], &mut [u32], &mut [u32]) -> Answer;

/// Those that are compared with [`reference()`].
pub const COMPARED: [(&str, Reader); 4] = [
    ("rackplan::read", wrapped),
    ("rackplan_read", exported),
    ("plain::read by digits", plain::<Digits>),
    ("plain::read by words", plain::<Words>),
];

// Declared here a second time: the wrapper hides the fields that a refusal
// leaves 0.
extern "C" {
    fn rackplan_read(
        sheet: *const u8,
        sheet_len: usize,
        durations: *mut u32,
        durations_len: usize,
        ends: *mut u32,
        ends_len: usize,
        waits: *mut u32,
        waits_len: usize,
    ) -> Answer;
}

/// The exported function itself.
pub fn exported(
    sheet: &[u8],
    durations: &mut [u32],
    ends: &mut [u32],
    waits: &mut [u32],
) -> Answer {
    // SAFETY: the call asks for pointers that are valid for their lengths and
    // for tables that overlap nothing, as references to slices are.
    unsafe {
        rackplan_read(
            sheet.as_ptr(),
            sheet.len(),
            durations.as_mut_ptr(),
            durations.len(),
            ends.as_mut_ptr(),
            ends.len(),
            waits.as_mut_ptr(),
            waits.len(),
        )
    }
}

/// The wrapper that users call.
pub fn wrapped(sheet: &[u8], durations: &mut [u32], ends: &mut [u32], waits: &mut [u32]) -> Answer {
    answer_of(rackplan::read(sheet, durations, ends, waits))
}

/// The reader in plain Rust.
pub fn plain<F: ReadField>(
    sheet: &[u8],
    durations: &mut [u32],
    ends: &mut [u32],
    waits: &mut [u32],
) -> Answer {
    answer_of(plain::read::<F>(sheet, durations, ends, waits))
}

/// The second implementation.
pub fn reference(
    sheet: &[u8],
    durations: &mut [u32],
    ends: &mut [u32],
    waits: &mut [u32],
) -> Answer {
    let mut buffers = Buffers {
        durations: durations.to_vec(),
        ends: ends.to_vec(),
        waits: waits.to_vec(),
        starts: Vec::new(),
        copies: Vec::new(),
        output: Vec::new(),
    };
    let returned = read_call(sheet, &mut buffers);
    durations.copy_from_slice(&buffers.durations);
    ends.copy_from_slice(&buffers.ends);
    waits.copy_from_slice(&buffers.waits);
    match returned {
        Ok(totals) => success(totals.kinds, totals.stages, totals.edges),
        Err(fault) => refusal(fault.number, fault.line),
    }
}

fn answer_of(returned: Result<Sizes, Fault>) -> Answer {
    match returned {
        Ok(sizes) => success(sizes.kinds as u32, sizes.stages as u32, sizes.edges as u32),
        Err(fault) => refusal(fault.number(), fault.line().unwrap_or(0)),
    }
}

fn success(kinds: u32, stages: u32, edges: u32) -> Answer {
    Answer {
        fault: 0,
        line: 0,
        kinds,
        stages,
        edges,
    }
}

fn refusal(fault: u32, line: u32) -> Answer {
    Answer {
        fault,
        line,
        kinds: 0,
        stages: 0,
        edges: 0,
    }
}
