//! What the two calls return and what each buffer contains afterwards, for
//! every fault, with buffers that were filled with a pattern before.

mod common;

use common::{LISTING, LISTING_PLAN};
use reference::generator::{any_case, Random, ANY_BYTES};
use reference::judge::read_lines;
use reference::{
    judge, make_plan, plan_call, program_output, read_call, refusal_text, Buffers, CopyRecord,
    Fault, PlanTotals, ReadTotals,
};

/// The lengths of SPEC 2: durations, ends, waits, starts, copies.
const EXACT: [usize; 5] = [1024, 2048, 16384, 1024, 1024];
/// An output that the listing's plan fits into exactly.
const LISTING_BYTES: usize = 56;

/// Buffers of these lengths, every entry different from its neighbours and
/// from all that a sheet can contain.
fn patterned(lengths: [usize; 5], output: usize) -> Buffers {
    let [durations, ends, waits, starts, copies] = lengths;
    let table = |mark: u32, length: usize| (0..length as u32).map(|i| mark + i).collect();
    let record = |i: u32| CopyRecord {
        stage: 0xc100_0000 + i,
        kind: 0xc200_0000 + i,
        board: 0xc300_0000 + i,
        start: 0xc400_0000 + i,
    };
    Buffers {
        durations: table(0xd000_0000, durations),
        ends: table(0xe000_0000, ends),
        waits: table(0xf000_0000, waits),
        starts: table(0xa000_0000, starts),
        copies: (0..copies as u32).map(record).collect(),
        output: (0..output).map(|i| 128 + (i % 128) as u8).collect(),
    }
}

/// Exact lengths, and lengths that are all longer.
fn good_lengths() -> [[usize; 5]; 2] {
    [EXACT, EXACT.map(|length| length + 3)]
}

fn set(table: &mut [u32], entries: &[(usize, u32)]) {
    for &(at, number) in entries {
        table[at] = number;
    }
}

/// Puts the listing into durations, ends and waits, entry by entry.
fn with_listing(buffers: &mut Buffers) {
    let durations = [(0, 1), (1, 1), (4, 2), (5, 9), (8, 9), (9, 2)];
    set(&mut buffers.durations, &durations);
    set(&mut buffers.ends, &[(0, 0), (1, 1), (2, 0), (3, 2)]);
    set(&mut buffers.waits, &[(0, 0), (1, 5), (4, 5), (5, 0)]);
    set(&mut buffers.waits, &[(16, 0), (17, 5), (20, 5), (21, 0)]);
}

/// Puts the listing's starts and copies in.
fn with_listing_plan(buffers: &mut Buffers) {
    let starts = [(0, 0), (1, 0), (4, 1), (5, 1), (8, 1), (9, 1)];
    set(&mut buffers.starts, &starts);
    let copies = [(0, 0, 0, 0), (0, 1, 0, 0), (1, 0, 0, 1), (2, 1, 0, 1)];
    for (place, (stage, kind, board, start)) in copies.into_iter().enumerate() {
        buffers.copies[place] = CopyRecord {
            stage,
            kind,
            board,
            start,
        };
    }
}

const LISTING_TOTALS: PlanTotals = PlanTotals {
    finish: 3,
    board_counts: [1, 1, 0, 0],
    copy_count: 4,
    printed_length: LISTING_BYTES as u32,
};

#[test]
fn read_puts_the_listing_into_three_tables() {
    for lengths in good_lengths() {
        let mut buffers = patterned(lengths, 5);
        let mut expected = buffers.clone();
        with_listing(&mut expected);
        let totals = ReadTotals {
            kinds: 2,
            stages: 3,
            edges: 2,
        };
        assert_eq!(read_call(LISTING.as_bytes(), &mut buffers), Ok(totals));
        assert_eq!(buffers, expected);
    }
}

#[test]
fn plan_fills_all_tables_the_list_and_the_output() {
    assert_eq!(LISTING_PLAN.len(), LISTING_BYTES);
    for lengths in good_lengths() {
        for output in [LISTING_BYTES, LISTING_BYTES + 1, 32_796] {
            let mut buffers = patterned(lengths, output);
            let mut expected = buffers.clone();
            with_listing(&mut expected);
            with_listing_plan(&mut expected);
            expected.output[..LISTING_BYTES].copy_from_slice(LISTING_PLAN.as_bytes());
            let returned = plan_call(LISTING.as_bytes(), &mut buffers);
            assert_eq!(returned, Ok(LISTING_TOTALS));
            assert_eq!(buffers, expected);
        }
    }
}

/// The listing where boards clear: nothing but the boards of the copies and the
/// printed plan is other than with clearing times of 0 (SPEC 2.4, 5.4).
#[test]
fn clearing_times_are_in_no_table_and_change_boards_alone() {
    let text = LISTING.replace("G,0,0", "G,1,1000000");
    let printed = "P,3,2,2\nC,0,0,0,0,1\nC,0,1,0,0,1\nC,1,0,1,1,3\nC,2,1,1,1,3\n";
    for lengths in good_lengths() {
        let before = patterned(lengths, 100);
        let mut expected = before.clone();
        with_listing(&mut expected);
        let mut buffers = before.clone();
        let totals = ReadTotals {
            kinds: 2,
            stages: 3,
            edges: 2,
        };
        assert_eq!(read_call(text.as_bytes(), &mut buffers), Ok(totals));
        assert_eq!(buffers, expected);
        with_listing_plan(&mut expected);
        expected.copies[2].board = 1;
        expected.copies[3].board = 1;
        expected.output[..printed.len()].copy_from_slice(printed.as_bytes());
        let totals = PlanTotals {
            board_counts: [2, 2, 0, 0],
            ..LISTING_TOTALS
        };
        let mut buffers = before;
        assert_eq!(plan_call(text.as_bytes(), &mut buffers), Ok(totals));
        assert_eq!(buffers, expected);
    }
}

#[test]
fn fault_8_leaves_the_output_and_fills_the_rest_as_success_does() {
    for lengths in good_lengths() {
        for output in [0, 1, 7, 8, LISTING_BYTES - 1] {
            let mut buffers = patterned(lengths, output);
            let mut expected = buffers.clone();
            with_listing(&mut expected);
            with_listing_plan(&mut expected);
            let returned = plan_call(LISTING.as_bytes(), &mut buffers);
            assert_eq!(returned, Err(Fault::at(8, 0)), "output of {output}");
            assert_eq!(buffers, expected, "output of {output}");
        }
    }
}

/// A fault of the call `plan` (and of `read`, if it gives it) that changes
/// nothing.
fn changes_nothing(text: &[u8], lengths: [usize; 5], output: usize, fault: Fault) {
    let before = patterned(lengths, output);
    let mut buffers = before.clone();
    assert_eq!(plan_call(text, &mut buffers), Err(fault));
    assert_eq!(buffers, before);
    assert_eq!(read_call(text, &mut buffers), Err(fault));
    assert_eq!(buffers, before);
}

#[test]
fn fault_1_changes_nothing_and_comes_before_all_others() {
    let circular = b"J,1,1,1\nG,0\nT,0,5\nE,0,0,0\n";
    let repeated = b"J,1,1,2\nG,0\nT,0,5\nE,0,0,0\nE,0,0,0\n";
    let too_long = vec![b'x'; 65_001];
    let texts = [LISTING.as_bytes(), circular, repeated, b"", &too_long];
    for text in texts {
        for table in 0..3 {
            for length in [0, 1, EXACT[table] - 1] {
                let mut lengths = EXACT;
                lengths[table] = length;
                changes_nothing(text, lengths, 0, Fault::at(1, 0));
            }
        }
        changes_nothing(text, [0; 5], 0, Fault::at(1, 0));
    }
}

#[test]
fn fault_1_for_starts_and_copies_concerns_plan_alone() {
    for table in 3..5 {
        for length in [0, 1, EXACT[table] - 1] {
            let mut lengths = EXACT;
            lengths[table] = length;
            let before = patterned(lengths, 100);
            let mut buffers = before.clone();
            let returned = plan_call(LISTING.as_bytes(), &mut buffers);
            assert_eq!(returned, Err(Fault::at(1, 0)));
            assert_eq!(buffers, before);
            assert!(read_call(LISTING.as_bytes(), &mut buffers).is_ok());
            let mut expected = before.clone();
            with_listing(&mut expected);
            assert_eq!(buffers, expected);
        }
    }
}

#[test]
fn a_longer_table_does_not_make_up_for_a_shorter_one() {
    for short in 0..5 {
        let mut lengths = EXACT.map(|length| 2 * length);
        lengths[short] = EXACT[short] - 1;
        let before = patterned(lengths, 100);
        let mut buffers = before.clone();
        let returned = plan_call(LISTING.as_bytes(), &mut buffers);
        assert_eq!(returned, Err(Fault::at(1, 0)));
        assert_eq!(buffers, before);
    }
}

#[test]
fn faults_2_to_5_change_nothing() {
    let rows: [(Vec<u8>, Fault); 12] = [
        (vec![b'J'; 65_001], Fault::at(2, 0)),
        (Vec::new(), Fault::at(3, 1)),
        (LISTING.as_bytes()[..65].to_vec(), Fault::at(3, 7)),
        (format!("{LISTING}\n").into_bytes(), Fault::at(3, 8)),
        (b"J,5,1,0\n".to_vec(), Fault::at(4, 1)),
        (LISTING.replace("G,0,0\n", "").into(), Fault::at(3, 2)),
        (LISTING.replace("G,0,0", "G,0").into(), Fault::at(3, 2)),
        (
            LISTING.replace("G,0,0", "G,0,1000001").into(),
            Fault::at(4, 2),
        ),
        (LISTING.replace("T,2,9", "T,2,0").into(), Fault::at(4, 5)),
        (
            LISTING.replace("2,0,5,5,0", "2,0,5,5,1000001").into(),
            Fault::at(4, 7),
        ),
        (LISTING.replace("T,2", "T,1").into(), Fault::at(5, 5)),
        (LISTING.replace("E,0,2", "E,0,3").into(), Fault::at(5, 7)),
    ];
    for (text, fault) in rows {
        for lengths in good_lengths() {
            // an output of 0 would give 8, which comes later
            for output in [0, 100] {
                changes_nothing(&text, lengths, output, fault);
            }
        }
    }
}

#[test]
fn fault_6_leaves_the_sheet_in_three_tables_for_both_calls() {
    // the listing with its first edge again, and other waits
    let text = LISTING.replace("J,2,3,2", "J,2,3,3") + "E,0,1,1,2,3,4\n";
    for lengths in good_lengths() {
        for output in [0, 100] {
            let before = patterned(lengths, output);
            let mut expected = before.clone();
            with_listing(&mut expected);
            set(&mut expected.ends, &[(4, 0), (5, 1)]);
            set(&mut expected.waits, &[(32, 1), (33, 2), (36, 3), (37, 4)]);
            let mut buffers = before.clone();
            let returned = plan_call(text.as_bytes(), &mut buffers);
            assert_eq!(returned, Err(Fault::at(6, 8)));
            assert_eq!(buffers, expected);
            let mut buffers = before;
            let returned = read_call(text.as_bytes(), &mut buffers);
            assert_eq!(returned, Err(Fault::at(6, 8)));
            assert_eq!(buffers, expected);
        }
    }
}

#[test]
fn fault_7_leaves_the_sheet_in_three_tables_and_read_does_not_give_it() {
    // the listing with an edge back
    let text = LISTING.replace("J,2,3,2", "J,2,3,3") + "E,2,0,1,2,3,4\n";
    for lengths in good_lengths() {
        for output in [0, 100] {
            let before = patterned(lengths, output);
            let mut expected = before.clone();
            with_listing(&mut expected);
            set(&mut expected.ends, &[(4, 2), (5, 0)]);
            set(&mut expected.waits, &[(32, 1), (33, 2), (36, 3), (37, 4)]);
            let mut buffers = before.clone();
            let returned = plan_call(text.as_bytes(), &mut buffers);
            assert_eq!(returned, Err(Fault::at(7, 0)));
            assert_eq!(buffers, expected);
            let totals = ReadTotals {
                kinds: 2,
                stages: 3,
                edges: 3,
            };
            let mut buffers = before;
            assert_eq!(read_call(text.as_bytes(), &mut buffers), Ok(totals));
            assert_eq!(buffers, expected);
        }
    }
}

#[test]
fn fault_6_wins_over_7_and_both_over_8() {
    let both = "J,1,1,2\nG,0\nT,0,5\nE,0,0,0\nE,0,0,0\n";
    let mut buffers = patterned(EXACT, 0);
    let returned = plan_call(both.as_bytes(), &mut buffers);
    assert_eq!(returned, Err(Fault::at(6, 5)));
    let circular = "J,1,1,1\nG,0\nT,0,5\nE,0,0,0\n";
    let returned = plan_call(circular.as_bytes(), &mut buffers);
    assert_eq!(returned, Err(Fault::at(7, 0)));
}

#[test]
fn with_four_kinds_and_all_stages_and_edges_every_entry_is_written() {
    let durations = ",1".repeat(4);
    let mut text = String::from("J,4,256,1024\nG,3,3,3,3\n");
    for stage in 0..256 {
        text += &format!("T,{stage}{durations}\n");
    }
    // stage 0 to 4 precede the others
    let pairs = (0..5).flat_map(|i| (5..256).map(move |j| (i, j)));
    for (source, target) in pairs.take(1024) {
        text += &format!("E,{source},{target}{}\n", ",2".repeat(16));
    }
    let mut buffers = patterned(EXACT.map(|length| length + 1), 32_796);
    let returned = plan_call(text.as_bytes(), &mut buffers);
    assert_eq!(returned.map(|totals| totals.finish), Ok(4));
    assert_eq!(buffers.durations[..1024], [1; 1024]);
    assert_eq!(buffers.waits[..16384], [2; 16384]);
    assert!(buffers.ends[..2048].iter().all(|&stage| stage < 256));
    assert!(buffers.starts[..1024]
        .iter()
        .all(|&start| start == 0 || start == 3));
    let last = patterned(EXACT.map(|length| length + 1), 0);
    assert_eq!(buffers.durations[1024], last.durations[1024]);
    assert_eq!(buffers.waits[16384], last.waits[16384]);
    assert_eq!(buffers.ends[2048], last.ends[2048]);
    assert_eq!(buffers.starts[1024], last.starts[1024]);
    assert_eq!(buffers.copies[256], last.copies[256]);
}

/// Lengths of which one may be short or all may be longer.
fn draw_lengths(random: &mut Random) -> [usize; 5] {
    let mut lengths = EXACT;
    match random.below(4) {
        0 => {
            let short = random.below(5);
            lengths[short] = random.below(lengths[short]);
        }
        1 => lengths = EXACT.map(|length| length + random.below(3)),
        _ => {}
    }
    lengths
}

/// How often each outcome of `plan` came up: 0 for success, or the fault.
type Counts = [usize; 9];

/// Calls `plan` on one case with buffers of drawn lengths and checks all that
/// the table of faults says.
fn check_drawn_case(random: &mut Random, text: &[u8], counts: &mut Counts) {
    let lengths = draw_lengths(random);
    let output = *random.pick(&[0, 20, 40, 100, 32_796]);
    let before = patterned(lengths, output);
    let mut after = before.clone();
    let returned = plan_call(text, &mut after);
    let number = returned.err().map_or(0, |fault| fault.number);
    counts[number as usize] += 1;
    let short = (0..5).any(|table| lengths[table] < EXACT[table]);
    assert_eq!(number == 1, short);
    match number {
        1..=5 => assert_eq!(after, before),
        6 | 7 => {
            check_sheet_tables(text, &before, &after);
            assert_eq!(after.starts, before.starts);
            assert_eq!(after.copies, before.copies);
        }
        _ => {
            check_sheet_tables(text, &before, &after);
            check_plan_tables(text, &before, &after);
        }
    }
    check_output(text, returned, &before, &after);
}

/// The output against the program's: the plan and old content behind it, or
/// old content alone.
fn check_output(
    text: &[u8],
    returned: Result<PlanTotals, Fault>,
    before: &Buffers,
    after: &Buffers,
) {
    let printed = program_output(text);
    match returned {
        Ok(totals) => {
            assert_eq!(totals.printed_length as usize, printed.len());
            assert_eq!(after.output[..printed.len()], printed);
            assert_eq!(
                after.output[printed.len()..],
                before.output[printed.len()..]
            );
        }
        Err(fault) => {
            assert_eq!(after.output, before.output);
            if (2..8).contains(&fault.number) {
                assert_eq!(printed, refusal_text(fault));
            } else {
                assert_eq!(fault.line, 0);
            }
            if fault.number == 8 {
                assert!(printed.len() > before.output.len());
            }
        }
    }
}

/// Each entry of a table laid out as durations is the sheet's number or the
/// old content.
fn check_by_stage(numbers: &[Vec<u32>], before: &[u32], after: &[u32]) {
    for (at, &entry) in after.iter().enumerate() {
        let of_stage = numbers.get(at / 4);
        let number = of_stage.and_then(|of_stage| of_stage.get(at % 4));
        assert_eq!(entry, *number.unwrap_or(&before[at]));
    }
}

fn check_sheet_tables(text: &[u8], before: &Buffers, after: &Buffers) {
    let sheet = read_lines(text).expect("all lines are good");
    check_by_stage(&sheet.durations, &before.durations, &after.durations);
    for (at, &entry) in after.ends.iter().enumerate() {
        let edge = sheet.edges.get(at / 2);
        let number = edge.map(|edge| [edge.source, edge.target][at % 2] as u32);
        assert_eq!(entry, number.unwrap_or(before.ends[at]));
    }
    for (at, &entry) in after.waits.iter().enumerate() {
        let (h, k) = (at % 16 / 4, at % 4);
        let number = match sheet.edges.get(at / 16) {
            Some(edge) if h < sheet.kinds && k < sheet.kinds => edge.waits[h * sheet.kinds + k],
            _ => before.waits[at],
        };
        assert_eq!(entry, number);
    }
}

fn check_plan_tables(text: &[u8], before: &Buffers, after: &Buffers) {
    let plan = make_plan(&judge(text).expect("accepted")).expect("not circular");
    check_by_stage(&plan.starts, &before.starts, &after.starts);
    let count = plan.copies.len();
    assert_eq!(after.copies[..count], plan.copies);
    assert_eq!(after.copies[count..], before.copies[count..]);
}

#[test]
fn drawn_cases_keep_to_the_table_of_faults() {
    let mut random = Random::new(20);
    let mut counts: Counts = [0; 9];
    for _ in 0..1500 {
        let case = any_case(&mut random, 12, ANY_BYTES);
        check_drawn_case(&mut random, &case.text, &mut counts);
    }
    for _ in 0..30 {
        let too_long = vec![b'\n'; 65_001 + random.below(9)];
        check_drawn_case(&mut random, &too_long, &mut counts);
    }
    assert!(counts.iter().all(|&count| count >= 10), "{counts:?}");
}
