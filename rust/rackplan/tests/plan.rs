//! The call `plan` on small sheets. How it plans sheets of all sorts is
//! compared with the second implementation in rust/checks.

mod common;

use std::mem::{align_of, size_of};

use common::{changed, refused_sheets, LISTING, LISTING_PLAN};
use rackplan::{
    plan, Fault, StageCopy, Totals, COPIES_LEN, DURATIONS_LEN, ENDS_LEN, PLAN_MAX, STARTS_LEN,
    WAITS_LEN,
};

const LISTING_TOTALS: Totals = Totals {
    finish: 3,
    boards: [1, 1, 0, 0],
    copies: 4,
    printed: LISTING_PLAN.len(),
};

/// Content that no sheet has.
const OLD: u32 = u32::MAX;
const OLD_BYTE: u8 = 0xff;
const OLD_COPY: StageCopy = copy(OLD, OLD, OLD, OLD);

const fn copy(stage: u32, kind: u32, board: u32, start: u32) -> StageCopy {
    StageCopy {
        stage,
        kind,
        board,
        start,
    }
}

/// Durations, ends, waits, starts, list.
const EXACT: [usize; 5] = [DURATIONS_LEN, ENDS_LEN, WAITS_LEN, STARTS_LEN, COPIES_LEN];

#[derive(Clone, Debug, PartialEq, Eq)]
struct Buffers {
    /// Durations, ends, waits, starts.
    tables: [Vec<u32>; 4],
    copies: Vec<StageCopy>,
    out: Vec<u8>,
}

impl Buffers {
    /// All old content.
    fn new(lengths: [usize; 5], out: usize) -> Buffers {
        Buffers {
            tables: [0, 1, 2, 3].map(|table| vec![OLD; lengths[table]]),
            copies: vec![OLD_COPY; lengths[4]],
            out: vec![OLD_BYTE; out],
        }
    }

    fn plan(&mut self, sheet: &str) -> Result<Totals, Fault> {
        let [durations, ends, waits, starts] = &mut self.tables;
        plan(
            sheet.as_bytes(),
            durations,
            ends,
            waits,
            starts,
            &mut self.copies,
            &mut self.out,
        )
    }

    /// Puts the listing into durations, ends and waits.
    fn with_listing(mut self) -> Buffers {
        self.tables[0][..10].copy_from_slice(&[1, 1, OLD, OLD, 2, 9, OLD, OLD, 9, 2]);
        self.tables[1][..4].copy_from_slice(&[0, 1, 0, 2]);
        for edge in 0..2 {
            self.tables[2][16 * edge..16 * edge + 6].copy_from_slice(&[0, 5, OLD, OLD, 5, 0]);
        }
        self
    }

    /// Puts the listing's starts and copies in.
    fn with_plan(mut self) -> Buffers {
        self.tables[3][..10].copy_from_slice(&[0, 0, OLD, OLD, 1, 1, OLD, OLD, 1, 1]);
        let copies = [
            copy(0, 0, 0, 0),
            copy(0, 1, 0, 0),
            copy(1, 0, 0, 1),
            copy(2, 1, 0, 1),
        ];
        self.copies[..4].copy_from_slice(&copies);
        self
    }

    fn with_text(mut self, text: &str) -> Buffers {
        self.out[..text.len()].copy_from_slice(text.as_bytes());
        self
    }
}

#[test]
fn the_lengths_are_those_of_the_specification() {
    assert_eq!((STARTS_LEN, COPIES_LEN, PLAN_MAX), (1024, 1024, 32_796));
    // as rackplan_copy is laid out
    assert_eq!((size_of::<StageCopy>(), align_of::<StageCopy>()), (16, 4));
}

#[test]
fn the_listing_is_planned_and_nothing_else_is_written() {
    for lengths in [EXACT, EXACT.map(|length| length + 3)] {
        for out in [LISTING_PLAN.len(), LISTING_PLAN.len() + 1, PLAN_MAX] {
            let before = Buffers::new(lengths, out);
            let mut buffers = before.clone();
            assert_eq!(buffers.plan(LISTING), Ok(LISTING_TOTALS));
            let expected = before.with_listing().with_plan().with_text(LISTING_PLAN);
            assert_eq!(buffers, expected);
        }
    }
}

#[test]
fn a_short_output_is_left_alone_and_the_rest_is_as_after_success() {
    for out in [0, 1, LISTING_PLAN.len() - 1] {
        let before = Buffers::new(EXACT, out);
        let mut buffers = before.clone();
        assert_eq!(buffers.plan(LISTING), Err(Fault::ShortOutput));
        assert_eq!(buffers, before.with_listing().with_plan());
    }
}

#[test]
fn a_refused_sheet_changes_nothing() {
    for (sheet, fault) in refused_sheets() {
        for out in [0, PLAN_MAX] {
            let before = Buffers::new(EXACT, out);
            let mut buffers = before.clone();
            assert_eq!(buffers.plan(&sheet), Err(fault));
            assert_eq!(buffers, before);
        }
    }
}

#[test]
fn a_repeated_edge_and_a_closed_path_leave_the_sheet_in_three_tables() {
    for (from, to, second_edge, fault) in [
        ("E,0,2", "E,0,1", [0, 1], Fault::RepeatedEdge { line: 7 }),
        ("E,0,2", "E,1,0", [1, 0], Fault::Circular),
        ("E,0,2", "E,2,2", [2, 2], Fault::Circular),
    ] {
        // an output of 0 would be too short for a plan
        for out in [0, PLAN_MAX] {
            let before = Buffers::new(EXACT, out);
            let mut buffers = before.clone();
            assert_eq!(buffers.plan(&changed(from, to)), Err(fault));
            let mut expected = before.with_listing();
            expected.tables[1][2..4].copy_from_slice(&second_edge);
            assert_eq!(buffers, expected);
        }
    }
}

#[test]
fn a_short_table_or_list_is_refused_before_the_sheet_is_judged() {
    let sheets = refused_sheets().map(|(sheet, _)| sheet);
    for sheet in sheets.iter().map(String::as_str).chain([LISTING]) {
        for short in 0..5 {
            let mut lengths = EXACT;
            lengths[short] -= 1;
            let before = Buffers::new(lengths, PLAN_MAX);
            let mut buffers = before.clone();
            assert_eq!(buffers.plan(sheet), Err(Fault::ShortTable));
            assert_eq!(buffers, before);
        }
    }
    let none = plan(b"", &mut [], &mut [], &mut [], &mut [], &mut [], &mut []);
    assert_eq!(none, Err(Fault::ShortTable));
}
