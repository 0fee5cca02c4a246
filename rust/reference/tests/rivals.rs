//! No valid plan starts a copy before our table or ends before our finish.
//! On small sheets all rivals of a sort are tried; on larger ones many are
//! made. Rivals' boards have to clear too.

mod common;

use std::collections::BTreeSet;

use common::{copy, plan_copies};
use reference::generator::{
    accepted_sheet, draw_sheet, duplicating_sheet, Numbers, Random, Shape, Wish,
};
use reference::{last_end, make_plan, valid, Plan, PlanCopy, Sheet};

#[derive(Default, Debug)]
struct Counts {
    sheets: usize,
    tried: usize,
    valid: usize,
    as_early: usize,
    second_copies: usize,
}

/// A valid rival neither starts a copy before our table nor ends before our
/// finish.
fn check_rival(sheet: &Sheet, plan: &Plan, rival: &[PlanCopy], counts: &mut Counts) {
    counts.tried += 1;
    if !valid(sheet, rival) {
        return;
    }
    counts.valid += 1;
    counts.second_copies += usize::from(rival.len() > sheet.stages());
    for copy in rival {
        let start = plan.starts[copy.stage as usize][copy.kind as usize];
        assert!(copy.start >= u64::from(start), "{sheet:?} {rival:?}");
    }
    let end = last_end(sheet, rival).expect("a copy");
    assert!(end >= u128::from(plan.finish), "{sheet:?} {rival:?}");
    counts.as_early += usize::from(end == u128::from(plan.finish));
}

/// All ways to give one stage one or two copies that start at `latest` or
/// before. Board numbers come later.
fn ways_of_stage(sheet: &Sheet, stage: u64, latest: u64) -> Vec<Vec<PlanCopy>> {
    let mut single = Vec::new();
    for kind in 0..sheet.kinds as u64 {
        single.extend((0..=latest).map(|start| copy(stage, kind, 0, start)));
    }
    let mut ways: Vec<Vec<PlanCopy>> = single.iter().map(|&one| vec![one]).collect();
    for (place, &one) in single.iter().enumerate() {
        ways.extend(single[place..].iter().map(|&other| vec![one, other]));
    }
    ways
}

/// Tries every plan made of one way for each stage, every copy on a board of
/// its own, so that boards never make it invalid.
fn try_all(sheet: &Sheet, plan: &Plan, ways: &[Vec<Vec<PlanCopy>>], counts: &mut Counts) {
    let mut choice = vec![0; ways.len()];
    let mut rival = Vec::new();
    loop {
        rival.clear();
        for (stage, &way) in choice.iter().enumerate() {
            for &copy in &ways[stage][way] {
                let board = rival.len() as u64;
                rival.push(PlanCopy { board, ..copy });
            }
        }
        check_rival(sheet, plan, &rival, counts);
        // the next choice, as a number is counted up
        match (0..choice.len()).find(|&at| choice[at] + 1 < ways[at].len()) {
            Some(up) => {
                choice[..up].fill(0);
                choice[up] += 1;
            }
            None => return,
        }
    }
}

/// A sheet of tiny numbers with at most 3 stages on at most 2 kinds. Some are
/// made so that a stage needs two copies.
fn tiny_sheet(random: &mut Random) -> Sheet {
    if random.one_in(4) {
        return duplicating_sheet(random, 2, 3);
    }
    let wish = Wish {
        kinds: random.between(1, 2),
        stages: random.between(1, 3),
        edges: 3,
        shape: *random.pick(&[Shape::Dense, Shape::Dense, Shape::Chain, Shape::NoEdges]),
        numbers: Numbers::Tiny,
    };
    draw_sheet(random, &wish)
}

#[test]
fn no_small_rival_is_earlier_anywhere() {
    let mut random = Random::new(50);
    let mut counts = Counts::default();
    let mut duplicating = 0;
    while counts.sheets < 1500 {
        let sheet = tiny_sheet(&mut random);
        let plan = make_plan(&sheet).expect("not circular");
        // up to the finish: later copies are neither earlier nor of use
        let latest = u64::from(plan.finish);
        let stages = 0..sheet.stages() as u64;
        let ways: Vec<_> = stages
            .map(|stage| ways_of_stage(&sheet, stage, latest))
            .collect();
        let rivals: usize = ways.iter().map(Vec::len).product();
        if rivals > 400_000 {
            continue;
        }
        try_all(&sheet, &plan, &ways, &mut counts);
        counts.sheets += 1;
        duplicating += usize::from(plan.copies.len() > sheet.stages());
    }
    assert!(counts.tried > 10_000_000, "{counts:?}");
    assert!(counts.valid > 1_000_000, "{counts:?}");
    assert!(counts.as_early > 1000, "{counts:?}");
    assert!(counts.second_copies > 10_000, "{counts:?}");
    assert!(duplicating > 20, "{duplicating}");
}

/// Is every board busy with at most one copy, which runs or clears, at each
/// instant up to the last start? Later instants do not matter.
fn one_copy_at_a_time(sheet: &Sheet, rival: &[PlanCopy]) -> bool {
    let last_start = rival.iter().map(|copy| copy.start).max().unwrap_or(0);
    let mut busy = BTreeSet::new();
    rival.iter().all(|copy| {
        let (stage, kind) = (copy.stage as usize, copy.kind as usize);
        let length = sheet.durations[stage][kind] + sheet.clearing[kind];
        let until = (copy.start + u64::from(length)).min(last_start + 1);
        (copy.start..until).all(|instant| busy.insert((copy.kind, copy.board, instant)))
    })
}

/// The rival with its copies on these boards of their kinds: valid exactly if
/// it is on boards of their own and no board has two copies at a time.
fn check_boards(sheet: &Sheet, plan: &Plan, rival: &[PlanCopy], boards: &[u64]) -> [bool; 2] {
    let mut counts = Counts::default();
    let with_boards = boards.iter().zip(rival);
    let shared: Vec<PlanCopy> = with_boards
        .map(|(&board, &copy)| PlanCopy { board, ..copy })
        .collect();
    let cleared = one_copy_at_a_time(sheet, &shared);
    let zero = Sheet {
        clearing: vec![0; sheet.kinds],
        ..sheet.clone()
    };
    assert_eq!(valid(sheet, &shared), valid(sheet, rival) && cleared);
    check_rival(sheet, plan, &shared, &mut counts);
    [counts.valid == 1, valid(&zero, &shared)]
}

#[test]
fn rivals_that_share_boards_clear_them_and_are_not_earlier() {
    let mut random = Random::new(53);
    let (mut valid_ones, mut refused, mut not_cleared) = (0, 0, 0);
    for _ in 0..400 {
        let sheet = tiny_sheet(&mut random);
        let plan = make_plan(&sheet).expect("not circular");
        for _ in 0..200 {
            let mut rival = Vec::new();
            for stage in 0..sheet.stages() as u64 {
                for _ in 0..random.between(1, 2) {
                    let kind = random.below(sheet.kinds) as u64;
                    let start = random.below(2 * plan.finish as usize + 4) as u64;
                    rival.push(copy(stage, kind, rival.len() as u64, start));
                }
            }
            let boards: Vec<u64> = rival.iter().map(|_| random.below(2) as u64).collect();
            let [accepted, without_clearing] = check_boards(&sheet, &plan, &rival, &boards);
            valid_ones += usize::from(accepted);
            refused += usize::from(!accepted);
            not_cleared += usize::from(without_clearing && !accepted);
        }
    }
    assert!(
        valid_ones > 2000 && refused > 2000 && not_cleared > 1000,
        "{valid_ones} {refused} {not_cleared}"
    );
}

/// The listing: with one copy of each stage nothing ends before 8; with two it
/// ends at 3 and not before.
#[test]
fn rivals_of_the_listing_end_at_8_with_single_copies_and_at_3_with_two() {
    let sheet = common::sheet(common::LISTING);
    let mut earliest = [u128::MAX; 2];
    let mut tried = 0;
    let ways: Vec<_> = (0..3)
        .map(|stage| ways_of_stage(&sheet, stage, 6))
        .collect();
    let single = |way: &&Vec<PlanCopy>| way.len() == 1;
    for first in &ways[0] {
        for second in ways[1].iter().filter(single) {
            for third in ways[2].iter().filter(single) {
                let mut rival = [&first[..], second, third].concat();
                (0..)
                    .zip(&mut rival)
                    .for_each(|(board, copy)| copy.board = board);
                tried += 1;
                if valid(&sheet, &rival) {
                    let end = last_end(&sheet, &rival).expect("a copy");
                    let copies = &mut earliest[first.len() - 1];
                    *copies = end.min(*copies);
                }
            }
        }
    }
    assert_eq!(tried, (14 + 105) * 14 * 14);
    assert_eq!(earliest, [8, 3]);
}

/// A valid plan with these kinds for each stage, every copy on a board of its
/// own and as early as the copies before it allow. `order` has each stage
/// after its predecessors.
fn earliest_rival(sheet: &Sheet, order: &[usize], kinds_of: &[Vec<usize>]) -> Vec<PlanCopy> {
    let mut rival: Vec<PlanCopy> = Vec::new();
    for &stage in order {
        for &kind in &kinds_of[stage] {
            let mut start = 0;
            for edge in sheet.edges_into(stage) {
                let sources = rival.iter().filter(|copy| copy.stage == edge.source as u64);
                let arrivals = sources.map(|source| {
                    let wait = sheet.wait(edge, source.kind as usize, kind);
                    reference::valid::end(sheet, source) as u64 + u64::from(wait)
                });
                start = start.max(arrivals.min().expect("a copy of each predecessor"));
            }
            let board = rival.len() as u64;
            rival.push(copy(stage as u64, kind as u64, board, start));
        }
    }
    rival
}

/// Some kinds, at least one.
fn draw_kinds(random: &mut Random, kinds: usize) -> Vec<usize> {
    let mut drawn: Vec<usize> = (0..kinds).collect();
    random.shuffle(&mut drawn);
    drawn.truncate(random.between(1, kinds));
    drawn
}

#[test]
fn no_rival_with_drawn_kinds_is_earlier_and_with_all_kinds_it_meets_the_table() {
    let mut random = Random::new(51);
    let mut counts = Counts::default();
    for _ in 0..600 {
        let sheet = accepted_sheet(&mut random, 25);
        let plan = make_plan(&sheet).expect("not circular");
        let order = reference::schedule::topological_order(&sheet).expect("not circular");
        for _ in 0..5 {
            let kinds_of: Vec<Vec<usize>> = (0..sheet.stages())
                .map(|_| draw_kinds(&mut random, sheet.kinds))
                .collect();
            let rival = earliest_rival(&sheet, &order, &kinds_of);
            check_rival(&sheet, &plan, &rival, &mut counts);
        }
        let all_kinds = vec![(0..sheet.kinds).collect(); sheet.stages()];
        let rival = earliest_rival(&sheet, &order, &all_kinds);
        check_rival(&sheet, &plan, &rival, &mut counts);
        for copy in rival {
            let start = plan.starts[copy.stage as usize][copy.kind as usize];
            assert_eq!(copy.start, u64::from(start));
        }
        counts.sheets += 1;
    }
    // every rival made here is valid
    assert_eq!(
        (counts.sheets, counts.tried, counts.valid),
        (600, 3600, 3600)
    );
    assert!(counts.as_early > 300, "{counts:?}");
    assert!(counts.second_copies > 1000, "{counts:?}");
}

#[test]
fn our_plan_with_copies_put_off_is_valid_only_if_those_they_serve_can_wait() {
    let mut random = Random::new(52);
    let mut counts = Counts::default();
    for _ in 0..500 {
        let sheet = accepted_sheet(&mut random, 12);
        let plan = make_plan(&sheet).expect("not circular");
        for place in 0..plan.copies.len() {
            let mut rival = plan_copies(&plan);
            rival[place].start += 1;
            rival[place].board = 1_000_000;
            check_rival(&sheet, &plan, &rival, &mut counts);
        }
        // everything later by the same time is valid
        let mut rival = plan_copies(&plan);
        rival.iter_mut().for_each(|copy| copy.start += 1 << 40);
        assert!(valid(&sheet, &rival));
        counts.sheets += 1;
    }
    assert_eq!(counts.sheets, 500);
    let refused = counts.tried - counts.valid;
    assert!(counts.valid > 500 && refused > 500, "{counts:?}");
}
