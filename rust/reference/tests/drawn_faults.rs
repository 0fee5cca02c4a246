//! Which fault is given for drawn sheets that are circular, repeat an edge or
//! are damaged. Each test counts what it looked at.

use std::collections::{BTreeMap, BTreeSet};

use reference::generator::{
    accepted_sheet, any_case, circular_sheet, damage, repeated_sheet, Random, Sort, ANY_BYTES,
    PRINTABLE_BYTES,
};
use reference::sheet::MAX_SHEET_BYTES;
use reference::{judge, make_plan, program_output, refusal_text, Edge, Fault, Sheet};

/// Is there a way along the edges from one stage to another, of one edge at
/// least?
fn leads_to(sheet: &Sheet, from: usize, to: usize) -> bool {
    let mut reached = vec![false; sheet.stages()];
    let mut open = vec![from];
    while let Some(stage) = open.pop() {
        for edge in sheet.edges_from(stage) {
            if !reached[edge.target] {
                reached[edge.target] = true;
                open.push(edge.target);
            }
        }
    }
    reached[to]
}

#[test]
fn seven_is_given_exactly_for_sheets_with_a_closed_path() {
    let mut random = Random::new(40);
    let (mut circular, mut open) = (0, 0);
    for _ in 0..600 {
        let sheet = accepted_sheet(&mut random, 20);
        let length = random.between(1, sheet.stages());
        let closed = circular_sheet(&mut random, &sheet, length);
        for sheet in [sheet, closed] {
            let has_path = (0..sheet.stages()).any(|stage| leads_to(&sheet, stage, stage));
            let refused = judge(&sheet.to_text()) == Err(Fault::at(7, 0));
            assert_eq!(refused, has_path);
            circular += usize::from(has_path);
            open += usize::from(!has_path);
        }
    }
    assert_eq!((circular, open), (600, 600));
}

#[test]
fn closed_paths_of_every_length_are_drawn_and_refused() {
    let mut random = Random::new(41);
    for length in 1..=256 {
        let sheet = accepted_sheet(&mut random, 256);
        let closed = circular_sheet(&mut random, &sheet, length);
        assert_eq!(judge(&closed.to_text()), Err(Fault::at(7, 0)), "{length}");
        assert_eq!(make_plan(&closed), None);
    }
}

#[test]
fn six_is_given_at_the_first_repeated_edge() {
    let mut random = Random::new(42);
    let mut lines_seen = BTreeMap::new();
    for round in 0..600 {
        let sheet = accepted_sheet(&mut random, if round % 10 == 0 { 256 } else { 20 });
        let sheet = match random.one_in(3) {
            true => circular_sheet(&mut random, &sheet, 1),
            false => sheet,
        };
        let repeated = repeated_sheet(&mut random, &sheet);
        let mut earlier = BTreeSet::new();
        let new = |edge: &Edge| earlier.insert((edge.source, edge.target));
        let distinct = repeated
            .edges
            .iter()
            .map(new)
            .take_while(|&new| new)
            .count();
        let line = (2 + repeated.stages() + distinct + 1) as u32;
        let text = repeated.to_text();
        assert!(text.len() <= MAX_SHEET_BYTES);
        assert_eq!(judge(&text), Err(Fault::at(6, line)));
        *lines_seen.entry(line).or_insert(0) += 1;
    }
    assert!(lines_seen.len() > 20, "{lines_seen:?}");
}

#[test]
fn damaged_texts_get_every_fault_and_a_line_that_exists() {
    let mut random = Random::new(43);
    let mut numbers = [0; 9];
    let mut sorts = BTreeMap::new();
    for _ in 0..6000 {
        let case = any_case(&mut random, 10, ANY_BYTES);
        *sorts.entry(format!("{:?}", case.sort)).or_insert(0) += 1;
        let printed = program_output(&case.text);
        let fault = match judge(&case.text) {
            Ok(sheet) => {
                numbers[0] += 1;
                assert!(matches!(case.sort, Sort::Accepted | Sort::Damaged));
                // what is accepted is what it would be written as
                assert_eq!(sheet.to_text(), case.text);
                continue;
            }
            Err(fault) => fault,
        };
        assert_eq!(printed, refusal_text(fault));
        numbers[fault.number as usize] += 1;
        let newlines = case.text.iter().filter(|&&byte| byte == b'\n').count() as u32;
        match fault.number {
            3 => assert!((1..=newlines + 1).contains(&fault.line)),
            4..=6 => assert!((1..=newlines).contains(&fault.line)),
            _ => assert_eq!((fault.number, fault.line), (7, 0)),
        }
    }
    assert!(
        sorts.len() == 4 && sorts.values().all(|&count| count > 500),
        "{sorts:?}"
    );
    let given = [0, 3, 4, 5, 6, 7].map(|number| numbers[number]);
    assert!(given.iter().all(|&count| count > 100), "{numbers:?}");
}

/// How often damage did what to the line of clearing times.
#[derive(Default, Debug)]
struct SecondLines {
    missing: usize,
    too_few: usize,
    too_many: usize,
    no_number: usize,
    above_range: usize,
}

/// Looks at the second line of a text that is refused at it.
fn count_second_line(sheet: &Sheet, text: &[u8], fault: Fault, counts: &mut SecondLines) {
    let line = text.split(|&byte| byte == b'\n').nth(1).unwrap_or(b"");
    let fields = match line.strip_prefix(b"G,") {
        Some(fields) => fields,
        None => {
            counts.missing += usize::from(line.starts_with(b"T,"));
            return;
        }
    };
    let count = fields.split(|&byte| byte == b',').count();
    match fault.number {
        4 => counts.above_range += 1,
        _ if count < sheet.kinds => counts.too_few += 1,
        _ if count > sheet.kinds => counts.too_many += 1,
        _ => counts.no_number += 1,
    }
}

#[test]
fn damage_hits_the_clearing_times_of_small_and_large_sheets() {
    for (most_stages, rounds) in [(4, 2000), (40, 2000), (256, 1000)] {
        let mut random = Random::new(46);
        let mut counts = SecondLines::default();
        for _ in 0..rounds {
            let sheet = accepted_sheet(&mut random, most_stages);
            let text = damage(&mut random, &sheet.to_text(), PRINTABLE_BYTES);
            match judge(&text) {
                Err(fault) if fault.line == 2 => {
                    count_second_line(&sheet, &text, fault, &mut counts)
                }
                _ => {}
            }
        }
        let of_form = [counts.missing, counts.too_few, counts.too_many];
        assert!(of_form.iter().all(|&count| count > 5), "{counts:?}");
        let of_number = [counts.no_number, counts.above_range];
        assert!(of_number.iter().all(|&count| count > 5), "{counts:?}");
    }
}

#[test]
fn the_same_seed_draws_the_same_and_another_seed_another() {
    let drawn = |seed| any_case(&mut Random::new(seed), 40, ANY_BYTES).text;
    let texts: Vec<Vec<u8>> = (0..200).map(drawn).collect();
    for (seed, text) in texts.iter().enumerate() {
        assert_eq!(*text, drawn(seed as u64));
    }
    let mut different = texts.clone();
    different.sort();
    different.dedup();
    assert!(different.len() > 190, "{}", different.len());
}
