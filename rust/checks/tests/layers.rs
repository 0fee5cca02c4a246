//! Every layer agrees with the second implementation, table by table.

use checks::compare_layers::{compare_layers, compare_refusal};
use checks::draw::{full_sheet, long_sheet, most_boards_sheet};
use checks::mix::Mix;
use rackplan::SHEET_MAX;
use reference::generator::{
    accepted_sheet, circular_sheet, latest_sheet, most_copies_sheet, small_sheet, Numbers, Random,
    Shape, NUMBERS,
};
use reference::{CopyRecord, Edge, Plan, Sheet};

const SHEETS: usize = 6_000;

/// How often each of these has to occur.
const LEAST: [(&str, usize); 15] = [
    ("1 kind", 1_000),
    ("2 kinds", 1_000),
    ("3 kinds", 1_000),
    ("4 kinds", 1_000),
    ("no edge", 500),
    ("circular", 800),
    (
        "a stage with copies on all of its kinds, more than one",
        400,
    ),
    (
        "a stage with copies on some of its kinds, more than one",
        300,
    ),
    ("two copies that start together", 2_500),
    ("a copy that starts when another on its board ends", 400),
    ("a copy that starts when its board has just cleared", 500),
    (
        "a copy that passes a board that has ended and not cleared",
        1_500,
    ),
    ("clearing times of 0", 1_000),
    ("three boards of a kind", 1_500),
    ("a time of 1000000 or more", 1_000),
];

fn count_case(mix: &mut Mix, sheet: &Sheet, plan: Option<&Plan>) {
    let kinds = sheet.kinds;
    mix.count(format!("{kinds} kind{}", if kinds == 1 { "" } else { "s" }));
    mix.count_if(sheet.edges.is_empty(), "no edge");
    let Some(plan) = plan else {
        mix.count("circular");
        return;
    };
    count_copies(mix, sheet, plan);
    count_boards(mix, sheet, plan);
    mix.count_if(plan.finish >= 1_000_000, "a time of 1000000 or more");
}

fn count_copies(mix: &mut Mix, sheet: &Sheet, plan: &Plan) {
    let (kinds, copies) = (sheet.kinds, &plan.copies);
    let copies_of = |stage: usize| {
        let of_stage = copies
            .iter()
            .filter(move |copy| copy.stage as usize == stage);
        of_stage.count()
    };
    let mut counts = (0..sheet.stages()).map(copies_of);
    let (all, some) = (counts.clone(), &mut counts);
    mix.count_if(
        all.clone().any(|count| count > 1 && count == kinds),
        "a stage with copies on all of its kinds, more than one",
    );
    mix.count_if(
        some.any(|count| count > 1 && count < kinds),
        "a stage with copies on some of its kinds, more than one",
    );
    let together = copies.windows(2).any(|pair| pair[0].start == pair[1].start);
    mix.count_if(together, "two copies that start together");
}

/// Pairs of copies of one kind, in the order of the plan, among its first copies.
fn pairs_of_a_kind(plan: &Plan) -> Vec<[CopyRecord; 2]> {
    let first = &plan.copies[..plan.copies.len().min(60)];
    let pairs = first.iter().enumerate().flat_map(|(at, next)| {
        let before = first[..at].iter().filter(|copy| copy.kind == next.kind);
        before.map(|early| [*early, *next])
    });
    pairs.collect()
}

fn count_boards(mix: &mut Mix, sheet: &Sheet, plan: &Plan) {
    let pairs = pairs_of_a_kind(plan);
    let any = |holds: &dyn Fn(CopyRecord, CopyRecord, u32, u32) -> bool| {
        pairs.iter().any(|&[early, next]| {
            let kind = early.kind as usize;
            let end = early.start + sheet.durations[early.stage as usize][kind];
            holds(early, next, end, sheet.clearing[kind])
        })
    };
    let meets = any(&|early, next, end, clearing| {
        early.board == next.board && clearing == 0 && end == next.start
    });
    mix.count_if(meets, "a copy that starts when another on its board ends");
    let just_cleared = any(&|early, next, end, clearing| {
        early.board == next.board && clearing > 0 && end + clearing == next.start
    });
    mix.count_if(
        just_cleared,
        "a copy that starts when its board has just cleared",
    );
    let passed = any(&|early, next, end, clearing| {
        early.board < next.board && end <= next.start && next.start < end + clearing
    });
    mix.count_if(
        passed,
        "a copy that passes a board that has ended and not cleared",
    );
    let at_once = sheet.clearing.iter().all(|&time| time == 0);
    mix.count_if(at_once, "clearing times of 0");
    let many = plan.board_counts.iter().any(|&count| count >= 3);
    mix.count_if(many, "three boards of a kind");
}

fn draw(random: &mut Random) -> Sheet {
    let sheet = match random.below(10) {
        0..=4 => accepted_sheet(random, 12),
        5..=6 => accepted_sheet(random, 60),
        7 => accepted_sheet(random, 256),
        _ => small_sheet(random),
    };
    if random.one_in(6) {
        let length = random.between(1, sheet.stages());
        return circular_sheet(random, &sheet, length);
    }
    sheet
}

#[test]
fn every_layer_agrees_with_the_reference_on_drawn_sheets() {
    let mut random = Random::new(43);
    let mut mix = Mix::default();
    for _ in 0..SHEETS {
        let sheet = draw(&mut random);
        let plan = compare_layers(&mut random, &sheet);
        count_case(&mut mix, &sheet, plan.as_ref());
    }
    mix.assert_least(&LEAST);
}

#[test]
fn every_layer_agrees_on_sheets_at_the_limits() {
    let mut random = Random::new(44);
    for kinds in 1..=4 {
        let latest = latest_sheet(&mut random, kinds);
        let plan = compare_layers(&mut random, &latest).expect("a chain is not circular");
        assert_eq!(plan.finish, 511_000_000);
        for numbers in NUMBERS {
            for shape in [
                Shape::NoEdges,
                Shape::Layered,
                Shape::ForkJoin,
                Shape::Dense,
            ] {
                let sheet = full_sheet(&mut random, kinds, shape, numbers);
                compare_layers(&mut random, &sheet);
            }
        }
    }
    for kinds in [3, 4] {
        let sheet = long_sheet(&mut random, kinds, SHEET_MAX);
        compare_layers(&mut random, &sheet);
    }
    let plan = compare_layers(&mut random, &most_copies_sheet()).expect("it is not circular");
    assert_eq!(plan.copies.len(), 1016);
    let plan = compare_layers(&mut random, &most_boards_sheet()).expect("it is not circular");
    assert_eq!(plan.board_counts.iter().sum::<u32>(), 1016);
}

/// One stage before all others, and one behind them.
fn fan(random: &mut Random, kinds: usize, reversed: bool) -> Sheet {
    let mut sheet = full_sheet(random, kinds, Shape::NoEdges, Numbers::Short);
    let (first, last) = if reversed { (255, 0) } else { (0, 255) };
    let mut add = |source, target| {
        let waits = (0..kinds * kinds).map(|_| random.below(100) as u32);
        let waits = waits.collect();
        sheet.edges.push(Edge {
            source,
            target,
            waits,
        });
    };
    for middle in 1..255 {
        add(first, middle);
        add(middle, last);
    }
    sheet
}

#[test]
fn every_layer_agrees_on_one_stage_to_254_and_back_to_one() {
    let mut random = Random::new(45);
    for kinds in 1..=4 {
        for reversed in [false, true] {
            let sheet = fan(&mut random, kinds, reversed);
            compare_layers(&mut random, &sheet).expect("it is not circular");
        }
    }
}

#[test]
fn closed_paths_of_every_length_are_found() {
    let mut random = Random::new(46);
    for length in 1..=256 {
        let accepted = accepted_sheet(&mut random, 256);
        let sheet = circular_sheet(&mut random, &accepted, length);
        assert_eq!(compare_layers(&mut random, &sheet), None, "{length} edges");
    }
}

#[test]
fn refusals_print_as_the_reference_prints_them() {
    let lines = (0..=1283).chain([9_999, 10_000, 99_999, 999_999_999, 1_000_000_000, u32::MAX]);
    for line in lines {
        for number in 1..=8 {
            compare_refusal(number, line, (line % 3) as usize);
        }
    }
    compare_refusal(u32::MAX, u32::MAX, 0);
}
