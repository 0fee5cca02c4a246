//! Which plans are valid, on plans written by hand.

mod common;

use common::{copy, one_kind, one_kind_clearing, sheet, LISTING};
use reference::{boards_used, last_end, valid, why_invalid, Invalid, PlanCopy, Sheet};

/// Our plan of the listing.
fn listing_copies() -> Vec<PlanCopy> {
    vec![
        copy(0, 0, 0, 0),
        copy(0, 1, 0, 0),
        copy(1, 0, 0, 1),
        copy(2, 1, 0, 1),
    ]
}

/// The first two copies of the plan do not go together on one board.
const FIRST_TWO: Option<Invalid> = Some(Invalid::SameBoard {
    first: 0,
    second: 1,
});

fn check(sheet: &Sheet, plan: &[PlanCopy], expected: Option<Invalid>) {
    assert_eq!(why_invalid(sheet, plan), expected, "{plan:?}");
    assert_eq!(valid(sheet, plan), expected.is_none());
}

#[test]
fn the_plan_of_the_listing_is_valid_in_any_order_of_copies() {
    let mut plan = listing_copies();
    for _ in 0..4 {
        plan.rotate_left(1);
        check(&sheet(LISTING), &plan, None);
        let reversed: Vec<PlanCopy> = plan.iter().rev().copied().collect();
        check(&sheet(LISTING), &reversed, None);
    }
}

#[test]
fn every_stage_must_have_a_copy() {
    let sheet = sheet(LISTING);
    check(&sheet, &[], Some(Invalid::NoCopy { stage: 0 }));
    let without_last = &listing_copies()[..3];
    check(&sheet, without_last, Some(Invalid::NoCopy { stage: 2 }));
}

#[test]
fn the_serving_copy_must_be_in_the_plan() {
    // stage 2 on kind 1 at 1 would be served by stage 0 on kind 1
    let mut plan = listing_copies();
    plan.remove(1);
    let not_served = Invalid::NotServed { copy: 2, edge: 1 };
    check(&sheet(LISTING), &plan, Some(not_served));
    // from kind 0 it can be served at 6
    plan[2].start = 6;
    check(&sheet(LISTING), &plan, None);
}

#[test]
fn every_copy_of_a_stage_must_be_served_along_every_edge() {
    let sheet = sheet(one_kind(&[2, 3, 1], &[(0, 2, 0), (1, 2, 4)]));
    let plan = |start| vec![copy(0, 0, 0, 0), copy(1, 0, 1, 0), copy(2, 0, 2, start)];
    check(&sheet, &plan(7), None);
    let late = Invalid::NotServed { copy: 2, edge: 1 };
    check(&sheet, &plan(6), Some(late));
    let both_late = Invalid::NotServed { copy: 2, edge: 0 };
    check(&sheet, &plan(1), Some(both_late));
    let mut second_copy = plan(7);
    second_copy.push(copy(2, 0, 3, 6));
    let late = Invalid::NotServed { copy: 3, edge: 1 };
    check(&sheet, &second_copy, Some(late));
}

#[test]
fn waits_are_read_from_the_row_of_the_source_to_the_column_of_the_target() {
    let sheet = sheet("J,2,2,1\nG,0,0\nT,0,1,1\nT,1,1,1\nE,0,1,0,3,7,0\n");
    // kinds of the two copies and the earliest start of the second
    for (h, k, start) in [(0, 0, 1), (0, 1, 4), (1, 0, 8), (1, 1, 1)] {
        check(&sheet, &[copy(0, h, 0, 0), copy(1, k, 0, start)], None);
        let late = Invalid::NotServed { copy: 1, edge: 0 };
        let plan = [copy(0, h, 0, 0), copy(1, k, 1, start - 1)];
        check(&sheet, &plan, Some(late));
    }
}

#[test]
fn without_clearing_copies_on_one_board_may_touch_but_not_overlap() {
    let sheet = sheet(one_kind(&[5, 3], &[]));
    for (a, b, expected) in [
        (0, 5, None),
        (0, 4, FIRST_TWO),
        (3, 0, None),
        (2, 0, FIRST_TWO),
        (0, 0, FIRST_TWO),
        (0, 1, FIRST_TWO),
        (9, 0, None),
    ] {
        check(&sheet, &[copy(0, 0, 7, a), copy(1, 0, 7, b)], expected);
        // on two boards anything goes
        check(&sheet, &[copy(0, 0, 7, a), copy(1, 0, 8, b)], None);
    }
}

/// Two copies, listed in either order.
fn check_both_orders(sheet: &Sheet, a: PlanCopy, b: PlanCopy, expected: Option<Invalid>) {
    check(sheet, &[a, b], expected);
    check(sheet, &[b, a], expected);
}

#[test]
fn a_board_clears_between_two_copies_and_equal_is_in_time() {
    let sheet = sheet(one_kind_clearing(2, &[5, 3], &[]));
    for (a, b, expected) in [
        (0, 7, None),
        (0, 8, None),
        (0, 6, FIRST_TWO),
        (0, 5, FIRST_TWO),
        (5, 0, None),
        (4, 0, FIRST_TWO),
        (3, 0, FIRST_TWO),
        (0, 0, FIRST_TWO),
        (1, 2, FIRST_TWO),
    ] {
        check_both_orders(&sheet, copy(0, 0, 7, a), copy(1, 0, 7, b), expected);
        check_both_orders(&sheet, copy(0, 0, 7, a), copy(1, 0, 8, b), None);
    }
}

#[test]
fn a_board_clears_for_the_time_of_its_own_kind() {
    // kind 1 clears for longer than any copy lasts, kind 2 not at all
    let sheet = sheet("J,3,2,0\nG,1,9,0\nT,0,5,5,5\nT,1,5,5,5\n");
    for (kind, free_again) in [(0, 6), (1, 14), (2, 5)] {
        let first = copy(0, kind, 0, 0);
        check_both_orders(&sheet, first, copy(1, kind, 0, free_again), None);
        let too_early = copy(1, kind, 0, free_again - 1);
        check_both_orders(&sheet, first, too_early, FIRST_TWO);
    }
    check_both_orders(&sheet, copy(0, 0, 0, 0), copy(1, 1, 0, 0), None);
}

#[test]
fn a_board_clears_between_copies_of_one_stage_too() {
    let sheet = sheet(one_kind_clearing(1, &[5], &[]));
    let on_one_board = |third| [copy(0, 0, 0, 0), copy(0, 0, 0, 6), copy(0, 0, 0, third)];
    check(&sheet, &on_one_board(12), None);
    let same_board = Invalid::SameBoard {
        first: 1,
        second: 2,
    };
    check(&sheet, &on_one_board(11), Some(same_board));
}

#[test]
fn results_do_not_wait_for_a_board_to_clear() {
    let sheet = sheet(one_kind_clearing(1_000_000, &[5, 5], &[(0, 1, 2)]));
    let on_two_boards = |start| [copy(0, 0, 0, 0), copy(1, 0, 1, start)];
    check(&sheet, &on_two_boards(7), None);
    let late = Invalid::NotServed { copy: 1, edge: 0 };
    check(&sheet, &on_two_boards(6), Some(late));
    // nor does the end of the plan
    assert_eq!(last_end(&sheet, &on_two_boards(7)), Some(12));
}

#[test]
fn a_board_that_clears_beyond_64_bits_is_not_free_early() {
    let sheet = sheet(one_kind_clearing(1_000_000, &[1, 1], &[]));
    let last = copy(0, 0, 0, u64::MAX - 1_000_000);
    check_both_orders(&sheet, last, copy(1, 0, 0, u64::MAX), FIRST_TWO);
    check_both_orders(&sheet, last, copy(1, 0, 0, 0), None);
    let in_time = copy(0, 0, 0, u64::MAX - 1_000_001);
    check_both_orders(&sheet, in_time, copy(1, 0, 0, u64::MAX), None);
}

#[test]
fn boards_of_different_kinds_are_different_boards() {
    let sheet = sheet("J,2,2,0\nG,0,0\nT,0,5,5\nT,1,5,5\n");
    check(&sheet, &[copy(0, 0, 0, 0), copy(1, 1, 0, 0)], None);
}

#[test]
fn two_copies_of_a_stage_on_one_kind_are_allowed() {
    let sheet = sheet(one_kind(&[5], &[]));
    let on_two_boards = [copy(0, 0, 0, 0), copy(0, 0, 1, 0)];
    check(&sheet, &on_two_boards, None);
    let one_after_the_other = [copy(0, 0, 0, 0), copy(0, 0, 0, 5), copy(0, 0, 0, 10)];
    check(&sheet, &one_after_the_other, None);
    let same_board = Invalid::SameBoard {
        first: 1,
        second: 2,
    };
    let overlapping = [copy(0, 0, 0, 0), copy(0, 0, 0, 5), copy(0, 0, 0, 9)];
    check(&sheet, &overlapping, Some(same_board));
}

#[test]
fn any_copy_in_time_serves_not_only_the_first() {
    let sheet = sheet(one_kind(&[5, 1], &[(0, 1, 0)]));
    let plan = [copy(0, 0, 0, 9), copy(0, 0, 1, 0), copy(1, 0, 2, 5)];
    check(&sheet, &plan, None);
}

#[test]
fn stage_and_kind_must_be_below_their_counts() {
    let sheet = sheet(LISTING);
    let with = |extra| {
        let mut plan = listing_copies();
        plan.push(extra);
        plan
    };
    check(&sheet, &with(copy(2, 1, 9, 1)), None);
    let stage = Some(Invalid::Stage { copy: 4 });
    check(&sheet, &with(copy(3, 1, 9, 1)), stage);
    check(&sheet, &with(copy(u64::MAX, 0, 9, 1)), stage);
    let kind = Some(Invalid::Kind { copy: 4 });
    check(&sheet, &with(copy(2, 2, 9, 1)), kind);
    check(&sheet, &with(copy(2, u64::MAX, 9, 1)), kind);
    // numbers that would be in range if cut to 32 bits
    check(&sheet, &with(copy(1 << 32, 0, 9, 1)), stage);
    check(&sheet, &with(copy(2, 1 << 32, 9, 1)), kind);
}

#[test]
fn boards_used_counts_different_numbers_of_each_kind() {
    let plan = [
        copy(0, 0, 5, 0),
        copy(1, 0, 5, 9),
        copy(1, 0, u64::MAX, 9),
        copy(0, 1, 5, 0),
        copy(0, 3, 0, 0),
    ];
    let counts: Vec<usize> = (0..5).map(|kind| boards_used(&plan, kind)).collect();
    assert_eq!(counts, [2, 1, 0, 1, 0]);
}

#[test]
fn the_last_end_is_the_largest_end_not_the_end_of_the_last_start() {
    let sheet = sheet("J,2,2,0\nG,0,0\nT,0,9,1\nT,1,2,3\n");
    assert_eq!(last_end(&sheet, &[]), None);
    let plan = [copy(0, 0, 0, 1), copy(1, 0, 1, 5), copy(1, 1, 0, 6)];
    assert_eq!(last_end(&sheet, &plan), Some(10));
    let late = [copy(0, 0, 0, u64::MAX)];
    assert_eq!(last_end(&sheet, &late), Some(u128::from(u64::MAX) + 9));
}

#[test]
fn a_circular_sheet_has_no_valid_plan_with_small_starts() {
    let circular = Sheet {
        kinds: 1,
        clearing: vec![0],
        durations: vec![vec![1], vec![1]],
        edges: sheet_edges(&[(0, 1), (1, 0)]),
    };
    let mut looked_at = 0;
    for a in 0..6 {
        for b in 0..6 {
            assert!(!valid(&circular, &[copy(0, 0, 0, a), copy(1, 0, 1, b)]));
            looked_at += 1;
        }
    }
    assert_eq!(looked_at, 36);
}

fn sheet_edges(pairs: &[(usize, usize)]) -> Vec<reference::Edge> {
    let edge = |&(source, target)| reference::Edge {
        source,
        target,
        waits: vec![0],
    };
    pairs.iter().map(edge).collect()
}
