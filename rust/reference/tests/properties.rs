//! What holds of every accepted sheet and its plan, over drawn sheets. Each
//! test counts what it looked at.

mod common;

use std::collections::{BTreeMap, BTreeSet};

use common::plan_copies;
use reference::generator::{
    accepted_sheet, draw_clearing, draw_sheet, duplicating_sheet, latest_sheet, long_sheet,
    most_copies_sheet, Clearing, Random, Wish, NUMBERS, SHAPES,
};
use reference::sheet::{MAX_FREE_AGAIN, MAX_PLAN_BYTES, MAX_TIME};
use reference::{
    boards_used, judge, last_end, make_plan, plan_text, program_output, valid, why_invalid,
    CopyRecord, Edge, Plan, PlanCopy, Sheet,
};

/// Accepted sheets of every size and shape: each shape with each way to draw
/// numbers and each number of kinds, then those at the limits, then others.
fn accepted_sheets() -> Vec<Sheet> {
    let mut random = Random::new(30);
    let mut sheets = vec![most_copies_sheet(), most_boards_sheet(&mut random)];
    for shape in SHAPES {
        for numbers in NUMBERS {
            for kinds in 1..=4 {
                for stages in [1, 2, 7, 40, 256] {
                    let wish = Wish {
                        kinds,
                        stages,
                        edges: 1024,
                        shape,
                        numbers,
                    };
                    sheets.push(draw_sheet(&mut random, &wish));
                }
            }
        }
    }
    for kinds in 1..=4 {
        sheets.push(latest_sheet(&mut random, kinds));
        for stages in [2, 5, 30, 256] {
            sheets.push(duplicating_sheet(&mut random, kinds, stages));
        }
    }
    for bytes in [60_000, 64_998, 64_999, 65_000] {
        sheets.push(long_sheet(&mut random, bytes));
    }
    for most_stages in [4, 10, 40] {
        sheets.extend((0..1000).map(|_| accepted_sheet(&mut random, most_stages)));
    }
    sheets
}

/// 1016 copies, of which no two can have the same board.
fn most_boards_sheet(random: &mut Random) -> Sheet {
    let mut sheet = most_copies_sheet();
    draw_clearing(random, &mut sheet, Clearing::Largest);
    sheet
}

fn planned(sheet: &Sheet) -> Plan {
    make_plan(sheet).expect("the sheet is not circular")
}

#[test]
fn a_long_sheet_is_as_long_as_asked_for() {
    for seed in 0..50 {
        for bytes in [50_000, 64_999, 65_000] {
            let sheet = long_sheet(&mut Random::new(seed), bytes);
            let text = sheet.to_text();
            assert_eq!(text.len(), bytes);
            assert_eq!(judge(&text), Ok(sheet));
        }
    }
}

#[test]
fn the_generator_keeps_its_word_on_accepted_sheets() {
    let sheets = accepted_sheets();
    assert!(sheets.len() > 3500);
    for sheet in &sheets {
        let text = sheet.to_text();
        assert_eq!(judge(&text).as_ref(), Ok(sheet));
    }
    let most = |number: fn(&Sheet) -> usize| sheets.iter().map(number).max();
    assert_eq!(most(|sheet| sheet.stages()), Some(256));
    assert_eq!(most(|sheet| sheet.edges.len()), Some(1024));
    assert_eq!(most(|sheet| sheet.to_text().len()), Some(65_000));
    for kinds in 1..=4 {
        let count = sheets.iter().filter(|sheet| sheet.kinds == kinds).count();
        assert!(count > 500, "{kinds} kinds: {count}");
    }
}

#[test]
fn our_plan_is_valid_and_ends_at_the_finish() {
    let (mut looked_at, mut most_kinds) = (0, [0; 5]);
    for sheet in accepted_sheets() {
        let plan = planned(&sheet);
        let copies = plan_copies(&plan);
        assert_eq!(why_invalid(&sheet, &copies), None);
        assert_eq!(last_end(&sheet, &copies), Some(plan.finish.into()));
        let mut of_stage = vec![0; sheet.stages()];
        copies
            .iter()
            .for_each(|copy| of_stage[copy.stage as usize] += 1);
        most_kinds[*of_stage.iter().max().expect("a stage")] += 1;
        looked_at += 1;
    }
    assert!(looked_at > 3500);
    // plans in which some stage has 1, 2, 3 and 4 copies
    assert_eq!(most_kinds[0], 0);
    assert!(
        most_kinds[1..].iter().all(|&plans| plans > 30),
        "{most_kinds:?}"
    );
}

/// When the board of a copy is free again: the sum of SPEC 5.3.
fn free_again(sheet: &Sheet, copy: &CopyRecord) -> u32 {
    let (stage, kind) = (copy.stage as usize, copy.kind as usize);
    copy.start + sheet.durations[stage][kind] + sheet.clearing[kind]
}

/// The most copies of a kind that run or clear at one instant: only the
/// instants at which a copy starts need to be looked at.
fn largest_overlap(sheet: &Sheet, plan: &Plan, kind: u32) -> usize {
    let of_kind: Vec<&CopyRecord> = plan
        .copies
        .iter()
        .filter(|copy| copy.kind == kind)
        .collect();
    let busy_at = |instant| {
        of_kind
            .iter()
            .filter(|copy| copy.start <= instant && instant < free_again(sheet, copy))
            .count()
    };
    of_kind
        .iter()
        .map(|copy| busy_at(copy.start))
        .max()
        .unwrap_or(0)
}

#[test]
fn boards_of_each_kind_equal_the_largest_overlap() {
    let (mut shared, mut several, mut unused) = (0, 0, 0);
    for sheet in accepted_sheets() {
        let plan = planned(&sheet);
        let copies = plan_copies(&plan);
        for kind in 0..4 {
            let boards = plan.board_counts[kind as usize] as usize;
            assert_eq!(boards, largest_overlap(&sheet, &plan, kind));
            assert_eq!(boards, boards_used(&copies, kind.into()));
            let on_kind = plan.copies.iter().filter(|copy| copy.kind == kind);
            // boards count from 0 without a gap
            assert!(on_kind.clone().all(|copy| (copy.board as usize) < boards));
            shared += usize::from(on_kind.count() > boards);
            several += usize::from(boards > 1);
            unused += usize::from(boards == 0 && (kind as usize) < sheet.kinds);
        }
    }
    assert!(shared > 1000 && several > 1000 && unused > 500);
}

#[test]
fn no_time_passes_the_limits_and_the_limits_are_reached() {
    let (mut looked_at, mut reached, mut cleared_last) = (0, 0, 0);
    for sheet in accepted_sheets() {
        let plan = planned(&sheet);
        let free_again = plan.copies.iter().map(|copy| free_again(&sheet, copy));
        let latest = free_again.max().expect("a copy");
        assert!(latest <= MAX_FREE_AGAIN);
        cleared_last += usize::from(latest == MAX_FREE_AGAIN);
        for (starts, durations) in plan.starts.iter().zip(&sheet.durations) {
            for (start, duration) in starts.iter().zip(durations) {
                assert!(start + duration <= MAX_TIME);
                looked_at += 1;
            }
        }
        reached += usize::from(plan.finish == MAX_TIME);
    }
    assert!(looked_at > 100_000, "{looked_at}");
    assert!(reached >= 4, "{reached}");
    assert_eq!(MAX_FREE_AGAIN, 512_000_000);
    assert!(cleared_last >= 4, "{cleared_last}");
}

#[test]
fn at_most_1016_copies_and_32796_bytes() {
    let mut most_copies = 0;
    let mut most_boards = 0;
    let mut most_bytes = 0;
    for sheet in accepted_sheets() {
        let plan = planned(&sheet);
        most_copies = most_copies.max(plan.copies.len());
        most_boards = most_boards.max(plan.board_counts.iter().sum());
        most_bytes = most_bytes.max(plan_text(&sheet, &plan).len());
    }
    assert_eq!((most_copies, most_boards), (1016, 1016));
    assert!(most_bytes <= MAX_PLAN_BYTES);
    assert!(most_bytes > 10_000, "{most_bytes}");
}

#[test]
fn copies_are_in_printed_order_and_start_at_their_table_entry() {
    let mut ties = 0;
    for sheet in accepted_sheets() {
        let plan = planned(&sheet);
        for copy in &plan.copies {
            assert_eq!(
                copy.start,
                plan.starts[copy.stage as usize][copy.kind as usize]
            );
        }
        let key = |copy: &CopyRecord| (copy.start, copy.kind, copy.stage);
        for pair in plan.copies.windows(2) {
            assert!(key(&pair[0]) < key(&pair[1]));
            ties += usize::from(pair[0].start == pair[1].start);
        }
    }
    assert!(ties > 1000, "{ties}");
}

/// start + d + wait along an edge, from the table of starts.
fn arrival(sheet: &Sheet, plan: &Plan, edge: &Edge, h: usize, k: usize) -> u32 {
    let source = edge.source;
    plan.starts[source][h] + sheet.durations[source][h] + edge.waits[h * sheet.kinds + k]
}

#[test]
fn every_start_is_0_or_the_latest_of_the_earliest_arrivals() {
    let (mut sources, mut others) = (0, 0);
    for sheet in accepted_sheets() {
        let plan = planned(&sheet);
        // for each stage and kind the edges that arrive exactly at its start
        let mut tight = vec![vec![0; sheet.kinds]; sheet.stages()];
        let mut incoming = vec![0; sheet.stages()];
        for edge in &sheet.edges {
            incoming[edge.target] += 1;
            for (k, tight) in tight[edge.target].iter_mut().enumerate() {
                let arrivals = (0..sheet.kinds).map(|h| arrival(&sheet, &plan, edge, h, k));
                let earliest = arrivals.min().expect("a kind");
                assert!(earliest <= plan.starts[edge.target][k]);
                *tight += usize::from(earliest == plan.starts[edge.target][k]);
            }
        }
        for (stage, &count) in incoming.iter().enumerate() {
            if count == 0 {
                assert!(plan.starts[stage].iter().all(|&start| start == 0));
                sources += 1;
            } else {
                assert!(tight[stage].iter().all(|&edges| edges > 0));
                others += 1;
            }
        }
    }
    assert!(sources > 3000 && others > 30_000, "{sources} {others}");
}

/// How often each of the three copy rules was looked at.
type RuleCounts = [usize; 3];

/// The kinds of one stage in our plan against the copy rules, read off the
/// list of copies.
fn check_copy_rules(sheet: &Sheet, plan: &Plan, stage: usize, counts: &mut RuleCounts) {
    let kinds_of = |stage: usize| -> BTreeSet<usize> {
        let of_stage = plan
            .copies
            .iter()
            .filter(|copy| copy.stage as usize == stage);
        of_stage.map(|copy| copy.kind as usize).collect()
    };
    let mut serving: Vec<BTreeSet<usize>> = Vec::new();
    for edge in sheet.edges.iter().filter(|edge| edge.source == stage) {
        for k in kinds_of(edge.target) {
            let limit = plan.starts[edge.target][k];
            let in_time = |&h: &usize| arrival(sheet, plan, edge, h, k) <= limit;
            serving.push((0..sheet.kinds).filter(in_time).collect());
        }
    }
    let common = (0..sheet.kinds).find(|h| serving.iter().all(|kinds| kinds.contains(h)));
    let (rule, expected) = if serving.is_empty() {
        let end = |&kind: &usize| {
            (
                plan.starts[stage][kind] + sheet.durations[stage][kind],
                kind,
            )
        };
        let first = (0..sheet.kinds).min_by_key(end);
        (0, first.into_iter().collect())
    } else if common.is_some() {
        (1, common.into_iter().collect())
    } else {
        let lowest = |kinds: &BTreeSet<usize>| *kinds.iter().next().expect("a serving kind");
        (2, serving.iter().map(lowest).collect())
    };
    let found: BTreeSet<usize> = kinds_of(stage);
    assert_eq!(found, expected);
    counts[rule] += 1;
}

#[test]
fn copies_obey_the_three_rules() {
    let mut counts = [0; 3];
    let mut random = Random::new(31);
    for _ in 0..1500 {
        let sheet = accepted_sheet(&mut random, 25);
        let plan = planned(&sheet);
        for stage in 0..sheet.stages() {
            check_copy_rules(&sheet, &plan, stage, &mut counts);
        }
    }
    assert!(counts.iter().all(|&count| count > 500), "{counts:?}");
}

#[test]
fn every_copy_has_the_lowest_board_that_is_free() {
    let (mut reused, mut new) = (0, 0);
    for sheet in accepted_sheets() {
        let plan = planned(&sheet);
        for copy in &plan.copies {
            let before = |other: &&CopyRecord| {
                let earlier = (other.start, other.stage) < (copy.start, copy.stage);
                other.kind == copy.kind && earlier
            };
            let earlier: Vec<&CopyRecord> = plan.copies.iter().filter(before).collect();
            let busy = |board| {
                let on_board = |other: &&CopyRecord| other.board == board;
                earlier
                    .iter()
                    .any(|other| on_board(other) && free_again(&sheet, other) > copy.start)
            };
            assert!((0..copy.board).all(busy));
            assert!(!busy(copy.board));
            let used = earlier.iter().any(|other| other.board == copy.board);
            reused += usize::from(used);
            new += usize::from(!used);
        }
    }
    assert!(reused > 5000 && new > 5000, "{reused} {new}");
}

/// Reads a printed text back: lines of a mark and numbers.
fn parsed(text: &[u8]) -> Vec<(char, Vec<u32>)> {
    let text = std::str::from_utf8(text).expect("ASCII");
    let text = text.strip_suffix('\n').expect("byte 10 at the end");
    let line = |line: &str| {
        let (mark, numbers) = line.split_once(',').expect("a comma");
        let number = |field: &str| {
            let number: u32 = field.parse().expect("a number");
            assert_eq!(number.to_string(), field, "no leading zero");
            number
        };
        let mark: char = mark.parse().expect("one letter");
        (mark, numbers.split(',').map(number).collect())
    };
    text.split('\n').map(line).collect()
}

#[test]
fn the_printed_text_parses_back_to_the_same_numbers() {
    let mut looked_at = 0;
    for sheet in accepted_sheets() {
        let plan = planned(&sheet);
        let lines = parsed(&program_output(&sheet.to_text()));
        let mut head = vec![plan.finish];
        head.extend(&plan.board_counts[..sheet.kinds]);
        assert_eq!(lines[0], ('P', head));
        assert_eq!(lines.len(), 1 + plan.copies.len());
        for (line, copy) in lines[1..].iter().zip(&plan.copies) {
            let end = copy.start + sheet.durations[copy.stage as usize][copy.kind as usize];
            let numbers = vec![copy.stage, copy.kind, copy.board, copy.start, end];
            assert_eq!(*line, ('C', numbers));
            looked_at += 1;
        }
    }
    assert!(looked_at > 30_000, "{looked_at}");
}

#[test]
fn different_plans_never_print_alike() {
    let mut plans: BTreeMap<Vec<u8>, (usize, Plan)> = BTreeMap::new();
    let mut again = 0;
    for sheet in accepted_sheets() {
        let plan = Plan {
            starts: Vec::new(),
            ..planned(&sheet)
        };
        let text = program_output(&sheet.to_text());
        let entry = (sheet.kinds, plan);
        if let Some(earlier) = plans.insert(text, entry.clone()) {
            assert_eq!(earlier, entry);
            again += 1;
        }
    }
    assert!(plans.len() > 2000 && again > 10, "{} {again}", plans.len());
}

/// Starts and finish as the longest path, for sheets in which kinds do not
/// matter: a second way to compute them.
#[test]
fn with_one_kind_the_starts_are_longest_paths() {
    let mut looked_at = 0;
    for sheet in accepted_sheets()
        .into_iter()
        .filter(|sheet| sheet.kinds == 1)
    {
        // raise starts along edges until nothing changes any more
        let mut starts = vec![0; sheet.stages()];
        loop {
            let before = starts.clone();
            for edge in &sheet.edges {
                let arrival = starts[edge.source] + sheet.durations[edge.source][0] + edge.waits[0];
                starts[edge.target] = starts[edge.target].max(arrival);
            }
            if starts == before {
                break;
            }
        }
        let table: Vec<u32> = planned(&sheet).starts.concat();
        assert_eq!(table, starts);
        looked_at += 1;
    }
    assert!(looked_at > 500, "{looked_at}");
}

/// Mutated plans and how often each mutation could be made.
#[derive(Default, Debug)]
struct Mutations {
    dropped_only_copy: usize,
    dropped_serving_copy: usize,
    tight_copy_earlier: usize,
    board_overlap: usize,
    board_not_cleared: usize,
    record_twice: usize,
    out_of_range: usize,
}

fn mutate(sheet: &Sheet, plan: &Plan, counts: &mut Mutations) {
    let copies = plan_copies(plan);
    for place in 0..copies.len() {
        let (stage, kind) = (copies[place].stage, copies[place].kind as usize);
        let mut changed = copies.clone();
        changed.remove(place);
        if copies.iter().filter(|copy| copy.stage == stage).count() == 1 {
            assert!(!valid(sheet, &changed));
            counts.dropped_only_copy += 1;
        } else if !valid(sheet, &changed) {
            counts.dropped_serving_copy += 1;
        }
        // a start above 0 is the arrival of some edge, so no copy can start
        // before it on this kind
        if plan.starts[stage as usize][kind] > 0 {
            let mut changed = copies.clone();
            changed[place].start -= 1;
            changed[place].board = 1_000_000;
            assert!(!valid(sheet, &changed));
            counts.tight_copy_earlier += 1;
        }
        let mut changed = copies.clone();
        changed.push(copies[place]);
        assert!(!valid(sheet, &changed));
        counts.record_twice += 1;
        for (stage, kind) in [(sheet.stages(), kind), (stage as usize, sheet.kinds)] {
            let mut changed = copies.clone();
            let extra = common::copy(stage as u64, kind as u64, 9999, 1_000_000_000);
            changed.push(extra);
            assert!(!valid(sheet, &changed));
            counts.out_of_range += 1;
        }
        change_boards(sheet, &copies, place, counts);
    }
}

/// Puts the copy at `place` on the board of each other copy of its kind that
/// runs at the same time, or whose board is not free again by then.
fn change_boards(sheet: &Sheet, copies: &[PlanCopy], place: usize, counts: &mut Mutations) {
    let this = copies[place];
    let other_board = |other: &&PlanCopy| other.kind == this.kind && other.board != this.board;
    for other in copies.iter().filter(other_board) {
        let (first, second) = match other.start < this.start {
            true => (other, &this),
            false => (&this, other),
        };
        let end = reference::valid::end(sheet, first);
        let free_again = end + u128::from(sheet.clearing[this.kind as usize]);
        if free_again <= u128::from(second.start) {
            continue;
        }
        let mut changed = copies.to_vec();
        changed[place].board = other.board;
        assert!(!valid(sheet, &changed));
        let overlap = end > u128::from(second.start);
        counts.board_overlap += usize::from(overlap);
        counts.board_not_cleared += usize::from(!overlap);
    }
}

#[test]
fn valid_refuses_mutated_plans() {
    let mut random = Random::new(44);
    let mut counts = Mutations::default();
    for _ in 0..800 {
        let sheet = accepted_sheet(&mut random, 14);
        mutate(&sheet, &planned(&sheet), &mut counts);
    }
    assert!(counts.dropped_only_copy > 3000, "{counts:?}");
    assert!(counts.dropped_serving_copy > 100, "{counts:?}");
    assert!(counts.tight_copy_earlier > 2000, "{counts:?}");
    assert!(counts.board_overlap > 1000, "{counts:?}");
    assert!(counts.board_not_cleared > 1000, "{counts:?}");
    assert!(counts.record_twice > 4000, "{counts:?}");
    assert!(counts.out_of_range > 8000, "{counts:?}");
}

/// In these sheets one kind alone serves each copy along each edge, so a
/// stage that has several copies needs all of them.
#[test]
fn in_duplicating_sheets_no_copy_is_to_spare() {
    let mut random = Random::new(45);
    let (mut needed, mut spare) = (0, 0);
    for _ in 0..400 {
        let kinds = random.between(2, 4);
        let stages = random.between(3, 20);
        let sheet = duplicating_sheet(&mut random, kinds, stages);
        let copies = plan_copies(&planned(&sheet));
        for (place, copy) in copies.iter().enumerate() {
            let same_stage = copies.iter().filter(|other| other.stage == copy.stage);
            if same_stage.count() == 1 {
                continue;
            }
            let mut without = copies.clone();
            without.remove(place);
            match valid(&sheet, &without) {
                true => spare += 1,
                false => needed += 1,
            }
        }
    }
    assert!(needed > 1000, "{needed}");
    assert_eq!(spare, 0);
}
