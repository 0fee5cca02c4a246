//! Owned tables: which sheet they hold, and nothing of another.

mod common;

use std::collections::HashSet;

use common::{refused_sheets, repeated, LARGER, LISTING, LISTING_SIZES};
use rackplan::{Fault, Sizes, Tables};

/// Each number is different, so that no two places can be confused.
const OTHER: &str = "J,3,2,1\nG,7,8,9\nT,0,1,2,3\nT,1,4,5,6\nE,1,0,10,11,12,20,21,22,30,31,32\n";

fn tables_of(sheet: &str) -> Tables {
    let mut tables = Tables::new();
    tables.read(sheet.as_bytes()).expect("accepted");
    tables
}

#[test]
fn tables_find_the_entries_of_their_sheet() {
    let tables = tables_of(OTHER);
    assert_eq!(tables.ends(0), Some((1, 0)));
    for h in 0..3 {
        assert_eq!(tables.duration(0, h), Some(1 + h as u32));
        assert_eq!(tables.duration(1, h), Some(4 + h as u32));
        for k in 0..3 {
            assert_eq!(tables.wait(0, h, k), Some((10 * (h + 1) + k) as u32));
        }
    }
}

/// Asserts that the tables have nothing outside a sheet of these sizes.
fn assert_nothing_outside(tables: &Tables, sizes: Sizes) {
    let Sizes {
        kinds,
        stages,
        edges,
    } = sizes;
    for far in [0, 1, 1000, 1 << 32, usize::MAX / 16] {
        assert_eq!(tables.duration(stages + far, 0), None);
        assert_eq!(tables.duration(0, kinds + far), None);
        assert_eq!(tables.ends(edges + far), None);
        assert_eq!(tables.wait(edges + far, 0, 0), None);
        assert_eq!(tables.wait(0, kinds + far, 0), None);
        assert_eq!(tables.wait(0, 0, kinds + far), None);
    }
    let far = usize::MAX;
    assert_eq!((tables.duration(far, far), tables.ends(far)), (None, None));
    assert_eq!(tables.wait(far, far, far), None);
}

#[test]
fn fresh_tables_hold_no_sheet() {
    for tables in [Tables::new(), Tables::default()] {
        assert_eq!(tables.sizes(), None);
        let none = Sizes {
            kinds: 0,
            stages: 0,
            edges: 0,
        };
        assert_nothing_outside(&tables, none);
        assert_eq!(format!("{tables:?}"), "Tables(None)");
    }
}

#[test]
fn tables_have_nothing_of_an_earlier_sheet() {
    let mut tables = tables_of(LARGER);
    assert_eq!(tables.duration(3, 3), Some(9));
    assert_eq!(tables.read(LISTING.as_bytes()), Ok(LISTING_SIZES));
    assert_eq!(tables.sizes(), Some(LISTING_SIZES));
    assert_eq!(tables.duration(2, 1), Some(2));
    assert_nothing_outside(&tables, LISTING_SIZES);
}

#[test]
fn a_refused_sheet_leaves_the_one_before_unless_it_repeats_an_edge() {
    for before in [Tables::new(), tables_of(LARGER)] {
        for (sheet, fault) in refused_sheets() {
            let mut tables = before.clone();
            assert_eq!(tables.read(sheet.as_bytes()), Err(fault));
            assert_eq!(tables, before);
        }
        let (sheet, fault) = repeated();
        let mut tables = before;
        assert_eq!(tables.read(sheet.as_bytes()), Err(fault));
        assert_eq!(tables.sizes(), Some(LISTING_SIZES));
        assert_eq!(
            (tables.ends(0), tables.ends(1)),
            (Some((0, 1)), Some((0, 1)))
        );
        assert_eq!(
            (tables.duration(1, 1), tables.wait(1, 1, 0)),
            (Some(9), Some(5))
        );
        assert_nothing_outside(&tables, LISTING_SIZES);
    }
}

#[test]
fn tables_are_equal_where_their_sheets_are() {
    let fresh = tables_of(LISTING);
    let mut used = tables_of(LARGER);
    assert_ne!(used, fresh);
    used.read(LISTING.as_bytes()).expect("accepted");
    assert_eq!(used, fresh);
    assert_eq!(format!("{used:?}"), format!("{fresh:?}"));
    let distinct = HashSet::from([fresh, used, tables_of(OTHER), Tables::new()]);
    assert_eq!(distinct.len(), 3);
}

/// No table has the clearing times (SPEC 2.4).
#[test]
fn tables_are_equal_where_their_sheets_differ_in_clearing_times_alone() {
    let tables = tables_of(OTHER);
    for clearing in ["G,0,0,0", "G,7,8,1000000", "G,1000000,1000000,1000000"] {
        assert_eq!(tables_of(&OTHER.replace("G,7,8,9", clearing)), tables);
    }
}

/// One number at a time is another.
#[test]
fn tables_differ_where_their_sheets_do() {
    let mut distinct = HashSet::from([tables_of(OTHER)]);
    let stages = OTHER.find('T').expect("stages");
    let numbers = (stages..OTHER.len()).filter(|&at| OTHER.as_bytes()[at].is_ascii_digit());
    let mut sheets = 0;
    for at in numbers {
        let mut sheet = OTHER.as_bytes().to_vec();
        sheet[at] = if sheet[at] == b'9' {
            b'8'
        } else {
            sheet[at] + 1
        };
        let mut tables = Tables::new();
        match tables.read(&sheet) {
            Ok(_) => sheets += usize::from(distinct.insert(tables)),
            Err(fault) => assert!(matches!(fault, Fault::BadStage { .. }), "{fault}"),
        }
    }
    // 6 durations, 18 digits of waits, and the edge to stage 1
    assert_eq!((sheets, distinct.len()), (25, 26));
}
