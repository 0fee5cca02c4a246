//! What clearing times change, and what they do not (SPEC 5.1, 5.3, 5.4), over
//! drawn sheets. Each test counts what it looked at.

mod common;

use common::plan_copies;
use reference::generator::{
    accepted_sheet, draw_clearing, most_copies_sheet, small_sheet, Random, CLEARINGS,
};
use reference::sheet::MAX_CLEARING;
use reference::{make_plan, program_output, valid, CopyRecord, Plan, PlanCopy, Sheet};

fn planned(sheet: &Sheet) -> Plan {
    make_plan(sheet).expect("the sheet is not circular")
}

/// The same sheet with other clearing times.
fn with_clearing(sheet: &Sheet, clearing: &[u32]) -> Sheet {
    Sheet {
        clearing: clearing.to_vec(),
        ..sheet.clone()
    }
}

fn without_clearing(sheet: &Sheet) -> Sheet {
    with_clearing(sheet, &vec![0; sheet.kinds])
}

/// Accepted sheets of up to 4, 10 and 40 stages, and small ones.
fn drawn_sheets(seed: u64, of_each: usize) -> Vec<Sheet> {
    let mut random = Random::new(seed);
    let mut sheets: Vec<Sheet> = (0..of_each).map(|_| small_sheet(&mut random)).collect();
    for most_stages in [4, 10, 40] {
        sheets.extend((0..of_each).map(|_| accepted_sheet(&mut random, most_stages)));
    }
    sheets
}

/// The printed plan without the counts of boards and the copies' boards.
fn without_boards(sheet: &Sheet) -> Vec<String> {
    let text = String::from_utf8(program_output(&sheet.to_text())).expect("ASCII");
    let line = |line: &str| {
        let fields: Vec<&str> = line.split(',').collect();
        match fields[..] {
            ["P", finish, ..] => format!("P,{finish}"),
            ["C", stage, kind, _, start, end] => format!("C,{stage},{kind},{start},{end}"),
            _ => panic!("{line:?} is of no plan"),
        }
    };
    text.lines().map(line).collect()
}

#[test]
fn starts_finish_copies_ends_and_order_do_not_depend_on_clearing_times() {
    let mut random = Random::new(60);
    let (mut same, mut other_boards) = (0, 0);
    for sheet in drawn_sheets(61, 400) {
        let (plan, lines) = (planned(&sheet), without_boards(&sheet));
        for clearing in CLEARINGS {
            let mut changed = sheet.clone();
            draw_clearing(&mut random, &mut changed, clearing);
            let changed_plan = planned(&changed);
            assert_eq!(changed_plan.starts, plan.starts);
            assert_eq!(changed_plan.finish, plan.finish);
            assert_eq!(without_boards(&changed), lines);
            let boards_differ = changed_plan.copies != plan.copies;
            same += usize::from(!boards_differ);
            other_boards += usize::from(boards_differ);
        }
    }
    assert!(same > 1000 && other_boards > 1000, "{same} {other_boards}");
}

/// Are the boards others if all clearing times change like this?
fn boards_change(sheet: &Sheet, change: impl Fn(u32) -> u32) -> bool {
    let clearing: Vec<u32> = sheet.clearing.iter().map(|&time| change(time)).collect();
    planned(&with_clearing(sheet, &clearing)).copies != planned(sheet).copies
}

/// The copies of one kind, by start, then by stage.
fn in_turn(plan: &Plan, kind: usize) -> Vec<CopyRecord> {
    let on_kind = plan.copies.iter().filter(|copy| copy.kind as usize == kind);
    let mut copies: Vec<CopyRecord> = on_kind.copied().collect();
    copies.sort_by_key(|copy| (copy.start, copy.stage));
    copies
}

/// Boards for copies in turn where ends alone count: each gets the lowest
/// board on which all copies before it have ended.
fn boards_by_ends(sheet: &Sheet, copies: &[CopyRecord]) -> Vec<u32> {
    // board and end of the copies before
    let mut before: Vec<(u32, u32)> = Vec::new();
    for copy in copies {
        let running = |board: u32| {
            let on_board = |&&(other, _): &&(u32, u32)| other == board;
            before
                .iter()
                .filter(on_board)
                .any(|&(_, end)| end > copy.start)
        };
        let board = (0..).find(|&board| !running(board)).expect("a board");
        let duration = sheet.durations[copy.stage as usize][copy.kind as usize];
        before.push((board, copy.start + duration));
    }
    before.into_iter().map(|(board, _)| board).collect()
}

#[test]
fn with_clearing_times_of_0_a_board_is_free_when_its_copy_ends() {
    let (mut looked_at, mut boards_used, mut ends_met) = (0, 0, 0);
    for sheet in drawn_sheets(62, 500) {
        let sheet = without_clearing(&sheet);
        let plan = planned(&sheet);
        for kind in 0..sheet.kinds {
            let copies = in_turn(&plan, kind);
            let boards: Vec<u32> = copies.iter().map(|copy| copy.board).collect();
            assert_eq!(boards, boards_by_ends(&sheet, &copies));
            looked_at += copies.len();
            boards_used += plan.board_counts[kind] as usize;
        }
        // boards that are taken again at the very time at which a copy ends
        ends_met += usize::from(boards_change(&sheet, |time| time + 1));
    }
    let taken_again = looked_at - boards_used;
    assert!(
        taken_again > 3000 && boards_used > 3000 && ends_met > 200,
        "{taken_again} {boards_used} {ends_met}"
    );
}

#[test]
fn each_kind_has_boards_by_its_own_clearing_time() {
    let (mut kept, mut changed) = (0, 0);
    for sheet in drawn_sheets(63, 400) {
        let plan = planned(&sheet);
        for kind in 0..sheet.kinds {
            let mut clearing = sheet.clearing.clone();
            clearing[kind] = MAX_CLEARING - clearing[kind];
            let other_plan = planned(&with_clearing(&sheet, &clearing));
            for other in (0..sheet.kinds).filter(|&other| other != kind) {
                let (before, after) = (plan.board_counts[other], other_plan.board_counts[other]);
                assert_eq!(before, after);
                assert_eq!(in_turn(&plan, other), in_turn(&other_plan, other));
                kept += 1;
            }
            changed += usize::from(in_turn(&plan, kind) != in_turn(&other_plan, kind));
        }
    }
    assert!(kept > 3000 && changed > 500, "{kept} {changed}");
}

#[test]
fn a_longer_clearing_time_never_needs_fewer_boards() {
    let mut random = Random::new(64);
    let (mut equal, mut more) = (0, 0);
    for sheet in drawn_sheets(65, 400) {
        let longer: Vec<u32> = sheet
            .clearing
            .iter()
            .map(|&time| random.between(time as usize, MAX_CLEARING as usize) as u32)
            .collect();
        let counts = planned(&sheet).board_counts;
        let longer_counts = planned(&with_clearing(&sheet, &longer)).board_counts;
        for (count, longer_count) in counts.iter().zip(&longer_counts) {
            assert!(longer_count >= count);
        }
        equal += usize::from(longer_counts == counts);
        more += usize::from(longer_counts != counts);
    }
    assert!(equal > 200 && more > 200, "{equal} {more}");
}

/// Tries every assignment of so many boards to the copies at these places. Is
/// the plan valid with one of them?
fn some_assignment(sheet: &Sheet, plan: &[PlanCopy], places: &[usize], boards: u64) -> bool {
    let mut assigned = plan.to_vec();
    places.iter().for_each(|&place| assigned[place].board = 0);
    loop {
        if valid(sheet, &assigned) {
            return true;
        }
        // the next assignment, as a number is counted up
        let up = places.iter().find(|&&at| assigned[at].board + 1 < boards);
        let up = match up {
            Some(&up) => up,
            None => return false,
        };
        for &place in places.iter().take_while(|&&place| place != up) {
            assigned[place].board = 0;
        }
        assigned[up].board += 1;
    }
}

#[test]
fn no_assignment_uses_fewer_boards() {
    let mut random = Random::new(66);
    let (mut tried, mut by_clearing) = (0, 0);
    for _ in 0..2500 {
        let sheet = accepted_sheet(&mut random, 6);
        let plan = planned(&sheet);
        let copies = plan_copies(&plan);
        let by_ends = planned(&without_clearing(&sheet)).board_counts;
        let several = |&kind: &usize| plan.board_counts[kind] > 1;
        for kind in (0..sheet.kinds).filter(several) {
            let on_kind = |&place: &usize| copies[place].kind == kind as u64;
            let places: Vec<usize> = (0..copies.len()).filter(on_kind).collect();
            let fewer = plan.board_counts[kind] - 1;
            assert!(!some_assignment(&sheet, &copies, &places, fewer.into()));
            tried += 1;
            by_clearing += usize::from(by_ends[kind] <= fewer);
        }
    }
    assert!(tried > 1000 && by_clearing > 300, "{tried} {by_clearing}");
}

/// What clearing times do to drawn sheets.
#[derive(Default, Debug)]
struct Shares {
    drawn: usize,
    all_zero: usize,
    all_largest: usize,
    /// More than one copy of some kind.
    several_copies: usize,
    /// A board count is not that of the sheet with clearing times of 0.
    changed: usize,
    /// A count of some kind lies between that number and one board per copy.
    between: usize,
    /// Clearing times above 0 with one more of which the boards are others: a
    /// board is taken again just in time.
    just_in_time: usize,
    /// With one less the boards are others.
    just_late: usize,
}

fn shares(sheets: &[Sheet]) -> Shares {
    let mut shares = Shares::default();
    for sheet in sheets {
        let largest = |&time: &u32| time >= MAX_CLEARING - 1;
        shares.drawn += 1;
        shares.all_zero += usize::from(sheet.clearing.iter().all(|&time| time == 0));
        shares.all_largest += usize::from(sheet.clearing.iter().all(largest));
        let plan = planned(sheet);
        let by_ends = planned(&without_clearing(sheet)).board_counts;
        let copies = [0, 1, 2, 3].map(|kind| in_turn(&plan, kind).len() as u32);
        let between = (0..4).any(|kind| {
            let count = plan.board_counts[kind];
            by_ends[kind] < count && count < copies[kind]
        });
        shares.several_copies += usize::from(copies.iter().any(|&count| count > 1));
        shares.changed += usize::from(plan.board_counts != by_ends);
        shares.between += usize::from(between);
        let longer = |time: u32| time + u32::from(time > 0);
        shares.just_in_time += usize::from(boards_change(sheet, longer));
        shares.just_late += usize::from(boards_change(sheet, |time| time.saturating_sub(1)));
    }
    shares
}

#[test]
fn clearing_times_of_every_sort_are_drawn_and_change_boards() {
    let mut random = Random::new(67);
    let small: Vec<Sheet> = (0..4000).map(|_| small_sheet(&mut random)).collect();
    let mixed: Vec<Sheet> = (0..4000).map(|_| accepted_sheet(&mut random, 40)).collect();
    for (name, sheets) in [("small", small), ("mixed", mixed)] {
        let shares = shares(&sheets);
        println!("{name}: {shares:?}");
        // measured in 100 drawn sheets, small and mixed: 29 and 26, 24 and 30
        assert!(5 * shares.all_zero > shares.drawn, "{shares:?}");
        assert!(5 * shares.all_largest > shares.drawn, "{shares:?}");
        // measured in 100 with several copies of a kind: 34 and 47
        assert!(4 * shares.changed > shares.several_copies, "{shares:?}");
        // measured in 100 drawn sheets: 5.9 and 31, 5.9 and 21, 5.9 and 15
        let near = [shares.between, shares.just_in_time, shares.just_late];
        assert!(
            near.iter().all(|&count| 25 * count > shares.drawn),
            "{shares:?}"
        );
    }
}

#[test]
fn with_the_largest_clearing_times_each_of_1016_copies_has_its_own_board() {
    let sheet = most_copies_sheet();
    let cleared_late = with_clearing(&sheet, &[MAX_CLEARING; 4]);
    let (plan, late_plan) = (planned(&sheet), planned(&cleared_late));
    assert_eq!(plan.board_counts, [1; 4]);
    assert_eq!(late_plan.board_counts.iter().sum::<u32>(), 1016);
    for kind in 0..4 {
        let on_kind = late_plan.copies.iter().filter(|copy| copy.kind == kind);
        let boards: Vec<u32> = on_kind.map(|copy| copy.board).collect();
        let in_order: Vec<u32> = (0..late_plan.board_counts[kind as usize]).collect();
        assert_eq!(boards, in_order);
    }
}
