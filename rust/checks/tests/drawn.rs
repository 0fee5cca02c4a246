//! Drawn sheets of all sorts, with tables of all lengths: every reader agrees
//! with the second implementation, and every sort really occurred.

use checks::compare::compare;
use checks::draw::{LargeTexts, Lengths};
use checks::mix::Mix;
use checks::readers::Answer;
use reference::generator::Random;

const SHEETS: usize = 40_000;

/// How often each of these has to occur.
const LEAST: [(&str, usize); 38] = [
    ("accepted", 10_000),
    ("accepted with 1 kind", 2_000),
    ("accepted with 2 kinds", 2_000),
    ("accepted with 3 kinds", 2_000),
    ("accepted with 4 kinds", 2_000),
    ("accepted with 1 stage", 500),
    ("accepted with 256 stages", 1_000),
    ("accepted without edges", 1_000),
    ("accepted with 1024 edges", 500),
    ("accepted with 64997 to 64999 bytes", 200),
    ("accepted with 65000 bytes", 200),
    ("fault 1", 5_000),
    ("fault 2", 1_000),
    ("fault 2 with 65001 bytes", 500),
    ("fault 3", 4_000),
    ("fault 3 in the header", 500),
    ("fault 3 in the second line", 500),
    ("fault 3 in a T line", 500),
    ("fault 3 in an E line", 500),
    ("fault 3 where a line is missing or of no kind", 500),
    ("fault 4", 2_000),
    ("fault 4 in the header", 500),
    ("fault 4 in the second line", 500),
    ("fault 4 in a T line", 500),
    ("fault 4 in an E line", 500),
    ("fault 5", 1_000),
    ("fault 5 in a T line", 500),
    ("fault 5 in an E line", 300),
    ("fault 6", 2_000),
    ("fault 6 at a line above 256", 200),
    ("tables Exact", 12_000),
    ("tables Longer", 7_000),
    ("tables OneShort(0)", 800),
    ("tables OneShort(1)", 800),
    ("tables OneShort(2)", 800),
    ("tables Empty(0)", 800),
    ("tables Empty(1)", 800),
    ("tables Empty(2)", 800),
];

fn count_case(mix: &mut Mix, text: &[u8], lengths: Lengths, answer: Answer) {
    mix.count(format!("tables {lengths:?}"));
    match answer.fault {
        0 => count_accepted(mix, text, answer),
        fault => count_fault(mix, text, fault, answer.line),
    }
}

fn count_accepted(mix: &mut Mix, text: &[u8], answer: Answer) {
    let (kinds, bytes) = (answer.kinds, text.len());
    let plural = if kinds == 1 { "" } else { "s" };
    mix.count("accepted");
    mix.count(format!("accepted with {kinds} kind{plural}"));
    mix.count_if(answer.stages == 1, "accepted with 1 stage");
    mix.count_if(answer.stages == 256, "accepted with 256 stages");
    mix.count_if(answer.edges == 0, "accepted without edges");
    mix.count_if(answer.edges == 1024, "accepted with 1024 edges");
    let nearly = (64_997..65_000).contains(&bytes);
    mix.count_if(nearly, "accepted with 64997 to 64999 bytes");
    mix.count_if(bytes == 65_000, "accepted with 65000 bytes");
}

fn count_fault(mix: &mut Mix, text: &[u8], fault: u32, line: u32) {
    mix.count(format!("fault {fault}"));
    let just_too_long = fault == 2 && text.len() == 65_001;
    mix.count_if(just_too_long, "fault 2 with 65001 bytes");
    mix.count_if(fault == 6 && line > 256, "fault 6 at a line above 256");
    if (3..6).contains(&fault) {
        mix.count(format!("fault {fault} {}", kind_of_line(text, line)));
    }
}

fn kind_of_line(text: &[u8], line: u32) -> &'static str {
    let mut lines = text.split(|&byte| byte == b'\n');
    let text = lines.nth(line as usize - 1).unwrap_or_default();
    match text.first() {
        _ if line == 1 => "in the header",
        _ if line == 2 => "in the second line",
        Some(b'T') => "in a T line",
        Some(b'E') => "in an E line",
        _ => "where a line is missing or of no kind",
    }
}

#[test]
fn every_reader_agrees_with_the_reference_on_drawn_sheets() {
    let mut random = Random::new(41);
    let large = LargeTexts::new(&mut random);
    let mut mix = Mix::default();
    for _ in 0..SHEETS {
        let text = large.draw_text(&mut random);
        let lengths = Lengths::draw(&mut random, 3);
        let answer = compare(&mut random, &text, lengths);
        count_case(&mut mix, &text, lengths, answer);
    }
    mix.assert_least(&LEAST);
}
