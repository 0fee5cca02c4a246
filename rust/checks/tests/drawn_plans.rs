//! Drawn sheets of all sorts, with buffers of all lengths: every planner agrees
//! with the second implementation, and every sort really occurred.

use checks::compare::{compare_owned, compare_plan};
use checks::draw::{without_clearing, LargeTexts, Lengths, Output};
use checks::mix::Mix;
use checks::planners::PlanAnswer;
use rackplan::{plan_sheet, OwnedPlan, Planner};
use reference::generator::{
    accepted_sheet, circular_sheet, draw_clearing, repeated_sheet, Random, CLEARINGS,
};
use reference::judge::read_lines;
use reference::Sheet;

const SHEETS: usize = 30_000;

/// How often each of these has to occur.
const LEAST: [(&str, usize); 54] = [
    ("planned", 6_000),
    ("planned with 1 kind", 1_500),
    ("planned with 2 kinds", 1_500),
    ("planned with 3 kinds", 1_500),
    ("planned with 4 kinds", 1_500),
    ("planned with 1 stage", 300),
    ("planned with 256 stages", 400),
    ("planned without edges", 1_000),
    ("planned with 1024 edges", 200),
    ("planned with 64997 to 65000 bytes", 100),
    ("planned with as many copies as stages", 4_000),
    ("planned with more copies than stages", 1_500),
    ("planned with more than 95 copies", 800),
    ("planned with 1016 copies", 10),
    ("planned with 3 boards of a kind", 2_500),
    ("planned with 1016 boards", 10),
    ("planned with a kind that is not used", 1_500),
    ("planned with a finish above 1000000", 1_500),
    ("planned with a finish of 511000000", 30),
    ("planned with clearing times of 0", 1_500),
    ("planned with clearing times up to 100", 1_500),
    ("planned with clearing times from 999999 on", 1_500),
    ("planned with more boards than without clearing", 3_000),
    ("planned to an output Exact", 2_000),
    ("planned to an output Longer", 1_500),
    ("planned to an output Most", 1_500),
    ("fault 1", 4_000),
    ("fault 2", 500),
    ("fault 3", 2_000),
    ("fault 4", 1_000),
    ("fault 5", 500),
    ("fault 6", 1_000),
    ("fault 6 with more than 100 stages", 200),
    ("fault 7", 1_000),
    ("fault 7 with more than 100 stages", 200),
    ("fault 7 with an output Empty", 100),
    ("fault 8", 2_000),
    ("fault 8 with more than 100 stages", 400),
    ("fault 8 with an output Empty", 700),
    ("fault 8 with an output Short", 700),
    ("fault 8 with an output OneShort", 700),
    ("tables Exact", 10_000),
    ("tables Longer", 6_000),
    ("tables OneShort(0)", 300),
    ("tables OneShort(1)", 300),
    ("tables OneShort(2)", 300),
    ("tables OneShort(3)", 300),
    ("tables OneShort(4)", 300),
    ("tables Empty(0)", 300),
    ("tables Empty(1)", 300),
    ("tables Empty(2)", 300),
    ("tables Empty(3)", 300),
    ("tables Empty(4)", 300),
    ("fault 1 with an output Exact", 1_000),
];

/// K, N and M, where the text begins as a sheet does.
fn header(text: &[u8]) -> Option<[usize; 3]> {
    let line = text.split(|&byte| byte == b'\n').next()?;
    let line = std::str::from_utf8(line).ok()?;
    let numbers: Vec<usize> = line.split(',').flat_map(str::parse).collect();
    numbers.try_into().ok()
}

fn count_case(mix: &mut Mix, text: &[u8], lengths: Lengths, output: Output, answer: PlanAnswer) {
    mix.count(format!("tables {lengths:?}"));
    if answer.fault == 0 {
        mix.count(format!("planned to an output {output:?}"));
        count_planned(mix, text, answer);
        return;
    }
    let fault = format!("fault {}", answer.fault);
    let many = header(text).is_some_and(|[_, stages, _]| stages > 100);
    mix.count_if(many, format!("{fault} with more than 100 stages"));
    mix.count(format!("{fault} with an output {output:?}"));
    mix.count(fault);
}

fn count_planned(mix: &mut Mix, text: &[u8], answer: PlanAnswer) {
    let [kinds, stages, edges] = header(text).expect("a sheet that is planned has a header");
    let (copies, finish) = (answer.copies as usize, answer.finish);
    let boards = &answer.boards[..kinds];
    let plural = if kinds == 1 { "" } else { "s" };
    mix.count("planned");
    for (holds, what) in [
        (true, format!("{kinds} kind{plural}").as_str()),
        (stages == 1, "1 stage"),
        (stages == 256, "256 stages"),
        (edges == 1024, "1024 edges"),
        (text.len() >= 64_997, "64997 to 65000 bytes"),
        (copies == stages, "as many copies as stages"),
        (copies > stages, "more copies than stages"),
        (copies > 95, "more than 95 copies"),
        (copies == 1016, "1016 copies"),
        (boards.iter().any(|&count| count >= 3), "3 boards of a kind"),
        (boards.iter().sum::<u32>() == 1016, "1016 boards"),
        (boards.contains(&0), "a kind that is not used"),
        (finish > 1_000_000, "a finish above 1000000"),
        (finish == 511_000_000, "a finish of 511000000"),
    ] {
        mix.count_if(holds, format!("planned with {what}"));
    }
    mix.count_if(edges == 0, "planned without edges");
    count_clearing(mix, &read_lines(text).expect("it is planned"), answer);
}

fn count_clearing(mix: &mut Mix, sheet: &Sheet, answer: PlanAnswer) {
    let clearing = &sheet.clearing;
    let all = |holds: fn(&u32) -> bool| clearing.iter().all(holds);
    let without = plan_sheet(&without_clearing(sheet).to_text()).expect("it is planned");
    let boards = answer.boards.map(|count| count as usize);
    for (holds, what) in [
        (all(|&time| time == 0), "clearing times of 0"),
        (
            all(|&time| time <= 100) && !all(|&time| time == 0),
            "clearing times up to 100",
        ),
        (
            all(|&time| time >= 999_999),
            "clearing times from 999999 on",
        ),
        (
            boards != without.boards(),
            "more boards than without clearing",
        ),
    ] {
        mix.count_if(holds, format!("planned with {what}"));
    }
}

#[test]
fn every_planner_agrees_with_the_reference_on_drawn_sheets() {
    let mut random = Random::new(51);
    let large = LargeTexts::new(&mut random);
    let mut mix = Mix::default();
    for _ in 0..SHEETS {
        let text = large.draw_plan_text(&mut random);
        let lengths = Lengths::draw(&mut random, 5);
        let output = Output::draw(&mut random);
        let answer = compare_plan(&mut random, &text, lengths, output);
        count_case(&mut mix, &text, lengths, output, answer);
    }
    mix.assert_least(&LEAST);
}

/// Stage, kind, start and end of each copy, in their order.
fn runs(plan: &OwnedPlan) -> Vec<[u32; 4]> {
    let runs = plan.copies_with_ends();
    runs.map(|(copy, end)| [copy.stage, copy.kind, copy.start, end])
        .collect()
}

/// Asserts that the two plans differ in nothing but boards.
fn assert_same_but_boards(one: &OwnedPlan, other: &OwnedPlan) {
    assert_eq!((one.sizes(), one.finish()), (other.sizes(), other.finish()));
    for stage in 0..one.stages() {
        for kind in 0..one.kinds() {
            assert_eq!(one.start(stage, kind), other.start(stage, kind));
        }
    }
    assert_eq!(runs(one), runs(other));
}

/// SPEC 5.4. And boards that clear longer are never fewer.
#[test]
fn nothing_but_boards_depends_on_clearing_times() {
    let mut random = Random::new(58);
    let mut mix = Mix::default();
    for _ in 0..3_000 {
        let mut sheet = without_clearing(&accepted_sheet(&mut random, 30));
        let without = plan_sheet(&sheet.to_text()).expect("it is accepted");
        for clearing in CLEARINGS {
            draw_clearing(&mut random, &mut sheet, clearing);
            let plan = plan_sheet(&sheet.to_text()).expect("it is accepted");
            assert_same_but_boards(&plan, &without);
            let mut boards = plan.boards().into_iter().zip(without.boards());
            assert!(boards.all(|(with, without)| with >= without), "{sheet:?}");
            mix.count_if(
                plan.boards() != without.boards(),
                format!("more boards, {clearing:?}"),
            );
        }
    }
    mix.assert_least(&[
        ("more boards, Near", 1_300),
        ("more boards, Largest", 1_600),
    ]);
}

#[test]
fn a_planner_that_is_used_again_agrees_too() {
    let mut random = Random::new(52);
    let large = LargeTexts::new(&mut random);
    let mut planner = Planner::new();
    for _ in 0..4_000 {
        compare_owned(&mut planner, &large.draw_plan_text(&mut random));
    }
}

#[test]
fn closed_paths_of_every_length_are_refused() {
    let mut random = Random::new(53);
    for length in 1..=256 {
        let accepted = accepted_sheet(&mut random, 256);
        let sheet = circular_sheet(&mut random, &accepted, length);
        let output = Output::draw(&mut random);
        let answer = compare_plan(&mut random, &sheet.to_text(), Lengths::Exact, output);
        assert_eq!((answer.fault, answer.line), (7, 0), "{length} edges");
        // an edge that is there twice is found first
        let text = repeated_sheet(&mut random, &sheet).to_text();
        let answer = compare_plan(&mut random, &text, Lengths::Longer, output);
        assert_eq!(answer.fault, 6, "{length} edges");
    }
}
