//! The call `read` on small sheets. How it judges sheets of all sorts is
//! compared with the second implementation in rust/checks.

mod common;

use common::{refused_sheets, repeated, LISTING, LISTING_SIZES};
use rackplan::{read, Fault, DURATIONS_LEN, ENDS_LEN, WAITS_LEN};

/// Content that no sheet has.
const OLD: u32 = u32::MAX;

#[test]
fn the_lengths_are_those_of_the_specification() {
    assert_eq!((DURATIONS_LEN, ENDS_LEN, WAITS_LEN), (1024, 2048, 16384));
}

#[test]
fn the_listing_stands_in_the_tables_and_nothing_else_does() {
    let (mut durations, mut ends, mut waits) = ([OLD; 1030], [OLD; 2048], [OLD; 16384]);
    let answer = read(LISTING.as_bytes(), &mut durations, &mut ends, &mut waits);
    assert_eq!(answer, Ok(LISTING_SIZES));
    let expected = [1, 1, OLD, OLD, 2, 9, OLD, OLD, 9, 2];
    assert_eq!(durations[..10], expected);
    assert!(durations[10..].iter().all(|&entry| entry == OLD));
    assert_eq!(ends[..4], [0, 1, 0, 2]);
    assert!(ends[4..].iter().all(|&entry| entry == OLD));
    let row_by_row = [0, 5, OLD, OLD, 5, 0, OLD, OLD, OLD, OLD, OLD, OLD];
    assert_eq!(waits[..12], row_by_row);
    assert_eq!(waits[16..28], row_by_row);
    assert!(waits[22..].iter().all(|&entry| entry == OLD));
}

#[test]
fn a_refused_sheet_changes_nothing() {
    for (sheet, fault) in refused_sheets() {
        let mut tables = [DURATIONS_LEN, ENDS_LEN, WAITS_LEN].map(|length| vec![OLD; length]);
        let [durations, ends, waits] = &mut tables;
        assert_eq!(read(sheet.as_bytes(), durations, ends, waits), Err(fault));
        assert!(tables.concat().iter().all(|&entry| entry == OLD));
    }
}

#[test]
fn a_short_table_is_refused_before_the_sheet_is_judged() {
    for (sheet, _) in refused_sheets().into_iter().chain([repeated()]) {
        for short in 0..3 {
            let mut lengths = [DURATIONS_LEN, ENDS_LEN, WAITS_LEN];
            lengths[short] -= 1;
            let [mut durations, mut ends, mut waits] = lengths.map(|length| vec![OLD; length]);
            let answer = read(sheet.as_bytes(), &mut durations, &mut ends, &mut waits);
            assert_eq!(answer, Err(Fault::ShortTable));
            let entries = [durations, ends, waits].concat();
            assert!(entries.iter().all(|&entry| entry == OLD));
        }
    }
    let none = read(b"", &mut [], &mut [], &mut []);
    assert_eq!(none, Err(Fault::ShortTable));
}
