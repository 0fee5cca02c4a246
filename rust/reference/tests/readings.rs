//! Clauses of the specification that are easy to read wrong, one test each.

mod common;

use common::{copy, one_kind, one_kind_clearing, plan_copies, sheet, verdict};
use reference::generator::{latest_sheet, long_sheet, most_copies_sheet, Random};
use reference::{make_plan, plan_text, program_output, valid, why_invalid, Invalid};

fn printed(text: &str) -> String {
    String::from_utf8(program_output(text.as_bytes())).expect("the output is ASCII")
}

#[test]
fn the_whole_line_is_judged_for_3_then_4_then_5() {
    assert_eq!(verdict("J,1,1,0\nG,0\nT,7,0\n"), Some((4, 3)));
    assert_eq!(verdict("J,2,1,0\nG,0,0\nT,7,0,\n"), Some((3, 3)));
    assert_eq!(verdict("J,2,1,0\nG,0,0\nT,7,1,1\n"), Some((5, 3)));
}

#[test]
fn eight_digits_are_3_and_seven_digits_above_the_range_are_4() {
    assert_eq!(verdict("J,1,1,0\nG,0\nT,0,10000000\n"), Some((3, 3)));
    assert_eq!(verdict("J,1,1,0\nG,0\nT,0,9999999\n"), Some((4, 3)));
    assert_eq!(verdict("J,1,1,0\nG,0\nT,0,0000001\n"), Some((3, 3)));
}

#[test]
fn a_stage_number_is_never_4() {
    assert_eq!(verdict("J,1,1,0\nG,0\nT,9999999,1\n"), Some((5, 3)));
    assert_eq!(
        verdict("J,1,1,1\nG,0\nT,0,1\nE,9999999,0,0\n"),
        Some((5, 4))
    );
    assert_eq!(
        verdict("J,1,1,1\nG,0\nT,0,1\nE,0,9999999,0\n"),
        Some((5, 4))
    );
    assert_eq!(
        verdict("J,1,1,1\nG,0\nT,0,1\nE,0,10000000,0\n"),
        Some((3, 4))
    );
}

#[test]
fn a_line_out_of_turn_that_has_its_form_is_5() {
    assert_eq!(verdict("J,1,3,0\nG,0\nT,0,1\nT,2,1\nT,1,1\n"), Some((5, 4)));
    assert_eq!(verdict("J,1,2,0\nG,0\nT,0,1\nT,0,1\n"), Some((5, 4)));
}

#[test]
fn stage_i_stands_at_line_i_plus_3_and_edge_e_at_line_n_plus_e_plus_3() {
    let text = one_kind(&[1; 4], &[(0, 1, 0), (1, 2, 0), (2, 3, 0)]);
    for stage in 0..4_u32 {
        let damaged = text.replace(&format!("T,{stage},1"), &format!("T,{stage},0"));
        assert_eq!(verdict(damaged), Some((4, stage + 3)));
    }
    for edge in 0..3_u32 {
        let line = format!("E,{edge},{},0", edge + 1);
        let damaged = text.replace(&line, &format!("E,{edge},4,0"));
        assert_eq!(verdict(damaged), Some((5, 4 + edge + 3)));
    }
}

#[test]
fn a_text_that_ends_early_is_3_at_the_first_absent_line() {
    let text = one_kind(&[1; 3], &[(0, 1, 0), (1, 2, 0)]);
    let lines: Vec<&str> = text.split_inclusive('\n').collect();
    assert_eq!(lines.len(), 7);
    for kept in 0..7 {
        let shortened = lines[..kept].concat();
        assert_eq!(verdict(shortened), Some((3, kept as u32 + 1)));
    }
}

#[test]
fn anything_after_the_last_line_is_3_at_n_plus_m_plus_3() {
    let text = one_kind(&[1; 3], &[(0, 1, 0), (1, 2, 0)]);
    for extra in ["\n", "x", "E,0,2,0\n", "T,3,1\n", "T,3,0", " ", "\n\n\n"] {
        assert_eq!(verdict(format!("{text}{extra}")), Some((3, 8)), "{extra:?}");
    }
}

#[test]
fn a_fault_in_an_earlier_line_wins_over_a_missing_later_one() {
    assert_eq!(verdict("J,1,9,9\nG,0\nT,0,1\nT,2,1\n"), Some((5, 4)));
    assert_eq!(verdict("J,1,9,9\nG,0\nT,0,0\n"), Some((4, 3)));
}

#[test]
fn the_limit_of_bytes_is_itself_allowed() {
    let text = long_sheet(&mut Random::new(3), 65_000).to_text();
    assert_eq!((text.len(), verdict(&text)), (65_000, None));
    let longer = [&text[..], b"\n"].concat();
    assert_eq!((longer.len(), verdict(&longer)), (65_001, Some((2, 0))));
}

#[test]
fn a_repeated_edge_wins_over_a_closed_path_wherever_it_stands() {
    let path_first = [(0, 0, 0), (0, 1, 0), (1, 2, 0), (0, 1, 0)];
    assert_eq!(verdict(one_kind(&[1; 3], &path_first)), Some((6, 9)));
    let repeat_first = [(0, 1, 0), (0, 1, 0), (1, 0, 0)];
    assert_eq!(verdict(one_kind(&[1; 3], &repeat_first)), Some((6, 7)));
}

#[test]
fn a_repeated_edge_is_one_whatever_its_waits() {
    let edges = [(0, 1, 5), (0, 1, 1_000_000)];
    assert_eq!(verdict(one_kind(&[1; 2], &edges)), Some((6, 6)));
    // the way back is another edge
    let edges = [(0, 1, 5), (1, 0, 5)];
    assert_eq!(verdict(one_kind(&[1; 2], &edges)), Some((7, 0)));
}

#[test]
fn a_closed_path_need_not_be_reachable() {
    // stages 0 and 1 have nothing to do with 2 and 3
    let edges = [(0, 1, 0), (2, 3, 0), (3, 2, 0)];
    assert_eq!(verdict(one_kind(&[1; 4], &edges)), Some((7, 0)));
    // nor need it lead anywhere
    let edges = [(1, 1, 0), (1, 0, 0)];
    assert_eq!(verdict(one_kind(&[1; 2], &edges)), Some((7, 0)));
}

#[test]
fn slack_counts_when_a_kind_serves() {
    // Stage 2 starts at 9 because of stage 1. Stage 0 would be there at 1
    // from kind 1 and at 5 from kind 0: both serve, kind 0 is lower.
    let text = "J,2,3,2\nG,0,0\nT,0,5,1\nT,1,9,9\nT,2,1,1\nE,0,2,0,0,0,0\nE,1,2,0,0,0,0\n";
    let expected = "P,10,2,0\nC,0,0,0,0,5\nC,1,0,1,0,9\nC,2,0,0,9,10\n";
    assert_eq!(printed(text), expected);
}

#[test]
fn a_stage_with_successors_takes_its_lowest_serving_kind_even_a_slower_one() {
    // Kind 0 takes 4 and no wait, kind 1 takes 1 and a wait of 3: equal.
    let text = "J,2,2,1\nG,0,0\nT,0,4,1\nT,1,1,9\nE,0,1,0,9,3,9\n";
    assert_eq!(printed(text), "P,5,1,0\nC,0,0,0,0,4\nC,1,0,0,4,5\n");
    // without successors the smaller end decides, not the lower kind
    assert_eq!(
        printed("J,2,1,0\nG,0,0\nT,0,4,1\n"),
        "P,1,0,1\nC,0,1,0,0,1\n"
    );
}

#[test]
fn kinds_serve_by_the_table_of_starts() {
    // Stage 1 ends first on kind 0, at 3, but stage 2 takes it from kind 1,
    // whose entry in the table is 2: it ends at 4 there and has no wait. The
    // entry for kind 1 comes from stage 0 on kind 1, so that copy is made.
    let text = "J,2,3,2\nG,0,0\nT,0,1,2\nT,1,2,2\nT,2,1,1\nE,0,1,0,9,9,0\nE,1,2,9,9,0,9\n";
    let made = make_plan(&sheet(text)).expect("not circular");
    let starts = [[0, 0], [1, 2], [4, 12]].map(|row| row.to_vec());
    assert_eq!(made.starts, starts);
    let expected = "P,5,1,1\nC,0,1,0,0,2\nC,1,1,0,2,4\nC,2,0,0,4,5\n";
    assert_eq!(printed(text), expected);
}

#[test]
fn the_finish_takes_the_smallest_end_over_kinds_unlike_line_8_of_spaghetti() {
    // the largest over kinds would be 9
    assert_eq!(
        printed("J,2,1,0\nG,0,0\nT,0,9,2\n"),
        "P,2,0,1\nC,0,1,0,0,2\n"
    );
}

#[test]
fn a_serving_kind_is_picked_for_each_edge_and_copy_when_none_serves_all() {
    // Stages 1 and 2 each need stage 0 on their own kind, stage 3 on kind 1
    // takes it from either; it picks the lowest, kind 0.
    let text = concat!(
        "J,2,4,3\nG,0,0\nT,0,1,1\nT,1,1,9\nT,2,9,1\nT,3,9,1\n",
        "E,0,1,0,5,5,0\nE,0,2,0,5,5,0\nE,0,3,0,0,0,0\n"
    );
    let expected = concat!(
        "P,2,1,2\nC,0,0,0,0,1\nC,0,1,0,0,1\n",
        "C,1,0,0,1,2\nC,2,1,0,1,2\nC,3,1,1,1,2\n"
    );
    assert_eq!(printed(text), expected);
}

#[test]
fn boards_go_by_start_then_stage_and_lines_by_start_then_kind_then_stage() {
    // Stage 0 on kind 1, stages 1 and 2 on kind 0, all at 0; then stage 3 on
    // kind 0 at 1, when board 0 is still busy and board 1 is free.
    let text = concat!(
        "J,2,4,1\nG,0,0\nT,0,9,1\nT,1,2,9\nT,2,1,9\nT,3,1,9\n",
        "E,2,3,0,0,0,0\n"
    );
    let expected = concat!(
        "P,2,2,1\nC,1,0,0,0,2\nC,2,0,1,0,1\nC,0,1,0,0,1\n",
        "C,3,0,1,1,2\n"
    );
    assert_eq!(printed(text), expected);
}

#[test]
fn a_copy_gets_the_lowest_free_board_not_the_one_freed_last() {
    // boards 0, 1, 2 end at 3, 1, 2; stage 3 starts at 3 and finds all free
    let text = one_kind(&[3, 1, 2, 1], &[(0, 3, 0)]);
    let expected = "P,4,3\nC,0,0,0,0,3\nC,1,0,1,0,1\nC,2,0,2,0,2\nC,3,0,0,3,4\n";
    assert_eq!(printed(&text), expected);
    // stage 3 starts at 2: boards 1 and 2 are free
    let text = one_kind(&[3, 1, 2, 1], &[(2, 3, 0)]);
    let expected = "P,3,3\nC,0,0,0,0,3\nC,1,0,1,0,1\nC,2,0,2,0,2\nC,3,0,1,2,3\n";
    assert_eq!(printed(&text), expected);
}

#[test]
fn a_board_that_has_cleared_at_the_start_of_a_copy_is_free() {
    // boards 0, 1, 2 end at 3, 1, 2 and stage 3 starts at 2
    let text = |clearing| one_kind_clearing(clearing, &[3, 1, 2, 1], &[(2, 3, 0)]);
    let expected = |boards, board| {
        let first = format!("P,3,{boards}\nC,0,0,0,0,3\nC,1,0,1,0,1\nC,2,0,2,0,2\n");
        format!("{first}C,3,0,{board},2,3\n")
    };
    assert_eq!(printed(&text(0)), expected(3, 1));
    assert_eq!(printed(&text(1)), expected(3, 1));
    assert_eq!(printed(&text(2)), expected(4, 3));
    assert_eq!(printed(&text(1_000_000)), expected(4, 3));
}

#[test]
fn of_boards_that_have_cleared_the_lowest_is_taken() {
    // boards 0, 1, 2 are free again at 5, 3, 4; stage 3 starts at 5, then at 4
    let text = |wait| one_kind_clearing(2, &[3, 1, 2, 1], &[(2, 3, wait)]);
    let first = "C,0,0,0,0,3\nC,1,0,1,0,1\nC,2,0,2,0,2\n";
    assert_eq!(printed(&text(3)), format!("P,6,3\n{first}C,3,0,0,5,6\n"));
    assert_eq!(printed(&text(2)), format!("P,5,3\n{first}C,3,0,1,4,5\n"));
}

#[test]
fn a_board_clears_after_each_of_its_copies() {
    // a chain on one board, with waits as long as the board clears
    let edges = [(0, 1, 2), (1, 2, 2), (2, 3, 1)];
    let text = one_kind_clearing(2, &[1, 1, 1, 1], &edges);
    let expected = "P,9,2\nC,0,0,0,0,1\nC,1,0,0,3,4\nC,2,0,0,6,7\nC,3,0,1,8,9\n";
    assert_eq!(printed(&text), expected);
}

#[test]
fn clearing_is_no_part_of_a_copy_and_puts_off_neither_results_nor_the_finish() {
    let text = one_kind_clearing(1_000_000, &[5, 5], &[(0, 1, 0)]);
    assert_eq!(printed(&text), "P,10,2\nC,0,0,0,0,5\nC,1,0,1,5,10\n");
    let text = one_kind_clearing(1_000_000, &[5], &[]);
    assert_eq!(printed(&text), "P,5,1\nC,0,0,0,0,5\n");
}

#[test]
fn the_clearing_times_of_all_kinds_are_judged_though_a_kind_has_no_copy() {
    assert_eq!(verdict("J,2,1,0\nG,0,1000001\nT,0,1,9\n"), Some((4, 2)));
    assert_eq!(verdict("J,2,1,0\nG,0,x\nT,0,1,9\n"), Some((3, 2)));
}

#[test]
fn the_latest_board_is_free_again_at_512000000() {
    let sheet = latest_sheet(&mut Random::new(5), 3);
    assert_eq!(sheet.clearing, [1_000_000; 3]);
    let copies = plan_copies(&make_plan(&sheet).expect("not circular"));
    let last = copies.last().expect("a copy");
    assert_eq!(reference::valid::cleared(&sheet, last), 512_000_000);
    // each wait is as long as its board clears
    assert!(copies.iter().all(|copy| copy.board == 0));
}

#[test]
fn the_same_record_twice_is_two_copies_and_invalid() {
    let one_stage = sheet("J,1,1,0\nG,0\nT,0,5\n");
    let once = vec![copy(0, 0, 0, 0)];
    assert!(valid(&one_stage, &once));
    let twice = vec![copy(0, 0, 0, 0), copy(0, 0, 0, 0)];
    let same_board = Invalid::SameBoard {
        first: 0,
        second: 1,
    };
    assert_eq!(why_invalid(&one_stage, &twice), Some(same_board));
}

#[test]
fn starts_and_boards_of_a_rival_have_no_upper_limit() {
    let two_stages = sheet(one_kind(&[5, 5], &[(0, 1, 7)]));
    let late = u64::MAX - 20;
    let in_time = [copy(0, 0, u64::MAX, late), copy(1, 0, u64::MAX, late + 12)];
    assert!(valid(&two_stages, &in_time));
    let too_early = [copy(0, 0, u64::MAX, late), copy(1, 0, u64::MAX, late + 11)];
    assert!(!valid(&two_stages, &too_early));
    // the end lies beyond 64 bits and is compared all the same
    let last = [copy(0, 0, 0, 0), copy(1, 0, 0, u64::MAX), copy(1, 0, 0, 12)];
    assert!(valid(&two_stages, &last));
    let overlap = [copy(0, 0, 0, u64::MAX), copy(1, 0, 0, 3)];
    assert!(!valid(&two_stages, &overlap));
}

#[test]
fn at_most_1016_copies_occur() {
    let sheet = most_copies_sheet();
    assert_eq!(verdict(sheet.to_text()), None);
    let plan = make_plan(&sheet).expect("not circular");
    assert_eq!(plan.copies.len(), 1016);
    assert!(valid(&sheet, &plan_copies(&plan)));
}

#[test]
fn the_longest_lines_have_28_and_32_bytes() {
    // finish of 9 digits and board counts of 3 digits: 28 bytes
    assert_eq!("P,511000000,256,256,256,256\n".len(), 28);
    assert_eq!("C,255,3,255,510000000,511000000\n".len(), 32);
    assert_eq!(28 + 1024 * 32, reference::sheet::MAX_PLAN_BYTES);
    // the latest line that does occur
    let sheet = latest_sheet(&mut Random::new(5), 2);
    let plan = make_plan(&sheet).expect("not circular");
    let text = String::from_utf8(plan_text(&sheet, &plan)).expect("ASCII");
    assert!(text.starts_with("P,511000000,"));
    assert!(text.ends_with(",510000000,511000000\n"));
}
