//! The folder examples: each sheet has its plan, and its README tells what is
//! in them.

use std::collections::{BTreeMap, BTreeSet};
use std::fs;
use std::path::{Path, PathBuf};

use checks::planners::library_output;
use checks::rival::best_of_single_copies;
use reference::{judge, program_output, Sheet};

type Program = fn(&[u8]) -> Vec<u8>;

/// Whatever prints a plan or a refusal for a sheet.
const PROGRAMS: [(&str, Program); 2] = [
    ("second implementation", program_output),
    ("library", library_output),
];

/// The outcomes of cases K to U and of those with clearing times (SPEC 11), as
/// far as the first line shows them.
const CASES: [(&str, &str); 19] = [
    ("case-K-listing", "P,3,"),
    ("case-L-two-boards", "P,5,2"),
    ("case-M-one-board-in-turn", "P,10,1"),
    ("case-N-slower-kind-from-the-start", "P,4,0,1"),
    ("case-O-lowest-kind-on-a-tie", "P,4,1,0"),
    ("case-P-one-copy-serves-both", "P,3,"),
    ("case-Q-closed-path-of-two", "R,7,0"),
    ("case-R-edge-to-itself", "R,7,0"),
    ("case-R-edge-to-itself-twice", "R,6,5"),
    ("case-S-duration-0", "R,4,3"),
    ("case-S-duration-1000001", "R,4,3"),
    ("case-T-largest-numbers", "P,3000000,"),
    ("case-U-waits-row-by-row", "P,5,"),
    ("clearing-1-second-board", "P,10,2"),
    ("clearing-1-in-time", "P,11,1"),
    ("clearing-by-kind", "P,2,2,1"),
    ("refused-3-no-clearing-times", "R,3,2"),
    ("refused-3-clearing-time-too-few", "R,3,2"),
    ("refused-4-clearing-time-1000001", "R,4,2"),
];

fn folder() -> PathBuf {
    Path::new(env!("CARGO_MANIFEST_DIR")).join("../../examples")
}

/// The files with this ending, by name without it.
fn files(ending: &str) -> BTreeMap<String, Vec<u8>> {
    let entries = fs::read_dir(folder()).expect("the folder is there");
    let paths = entries.map(|entry| entry.expect("an entry").path());
    let of_ending = paths.filter(|path| path.extension().is_some_and(|last| last == ending));
    of_ending
        .map(|path| {
            let name = path.file_stem().expect("a name").to_string_lossy();
            (name.into_owned(), fs::read(&path).expect("a file"))
        })
        .collect()
}

fn readme() -> String {
    fs::read_to_string(folder().join("README.md")).expect("README.md is there")
}

fn first_line(plan: &[u8]) -> &str {
    let text = std::str::from_utf8(plan).expect("a plan is ASCII");
    text.lines().next().expect("a plan has a line")
}

#[test]
fn each_sheet_has_its_plan() {
    let (sheets, plans) = (files("sheet"), files("plan"));
    assert!(sheets.keys().eq(plans.keys()), "a sheet or a plan is alone");
    assert!(sheets.len() >= 12, "{}", sheets.len());
    for (name, sheet) in &sheets {
        for (program, output) in PROGRAMS {
            assert_eq!(output(sheet), plans[name], "{name} by the {program}");
        }
    }
}

#[test]
fn every_refusal_of_a_sheet_occurs() {
    let plans = files("plan");
    let refused = plans.values().filter(|plan| plan[0] == b'R');
    let numbers: BTreeSet<char> = refused.map(|plan| char::from(plan[2])).collect();
    assert_eq!(numbers, BTreeSet::from(['2', '3', '4', '5', '6', '7']));
    // where the name says the number, it is the number
    for (name, plan) in &plans {
        if let Some(said) = name.strip_prefix("refused-") {
            assert_eq!(said.as_bytes()[0], plan[2], "{name}");
        }
    }
}

#[test]
fn cases_have_the_outcome_of_the_specification() {
    let plans = files("plan");
    for (name, outcome) in CASES {
        assert!(first_line(&plans[name]).starts_with(outcome), "{name}");
    }
    let letters: BTreeSet<char> = CASES
        .iter()
        .filter_map(|case| case.0.strip_prefix("case-")?.chars().next())
        .collect();
    assert!(letters.into_iter().eq('K'..='U'));
}

/// One edge less, and the sheet that is too long is accepted.
#[test]
fn the_long_sheet_is_refused_for_its_length_alone() {
    let long = String::from_utf8(files("sheet")["refused-2-too-long"].clone()).expect("ASCII");
    assert_eq!(long.len(), 65_040);
    let edges = long.lines().filter(|line| line.starts_with("E,")).count();
    let last = long.lines().next_back().expect("a line").len() + 1;
    let header = format!("J,4,256,{edges}\n");
    let shorter =
        long[..long.len() - last].replacen(&header, &format!("J,4,256,{}\n", edges - 1), 1);
    assert!(shorter.len() <= 65_000);
    judge(shorter.as_bytes()).expect("it is accepted");
}

#[test]
fn the_readme_lists_each_sheet_with_its_first_line() {
    let readme = readme();
    let rows: Vec<&str> = readme
        .lines()
        .filter(|line| line.starts_with("| `"))
        .collect();
    let plans = files("plan");
    assert_eq!(rows.len(), plans.len());
    for (name, plan) in &plans {
        let begins = format!("| `{name}` |");
        let row = rows.iter().find(|row| row.starts_with(&begins));
        let row = row.unwrap_or_else(|| panic!("no row for {name}"));
        assert!(
            row.ends_with(&format!("| `{}` |", first_line(plan))),
            "{row}"
        );
    }
}

/// All runs of digits.
fn numbers(text: &str) -> BTreeSet<u64> {
    text.split(|letter: char| !letter.is_ascii_digit())
        .filter_map(|digits| digits.parse().ok())
        .collect()
}

/// The chapter of the README with this title.
fn chapter(title: &str) -> String {
    let readme = readme();
    let mut chapters = readme.split("\n## ");
    let chapter = chapters.find_map(|text| text.strip_prefix(&format!("{title}\n")));
    chapter.expect("a chapter").to_string()
}

/// Sheet and plan of an example.
fn example(name: &str) -> [String; 2] {
    ["sheet", "plan"].map(|ending| String::from_utf8(files(ending)[name].clone()).expect("ASCII"))
}

/// What is told of the tray is in its sheet or its plan, or is the finish with
/// one copy a stage.
#[test]
fn the_readme_tells_the_tray_as_it_is() {
    let told = chapter("The tray");
    let [sheet, plan] = example("tray");
    assert!(told.contains(&format!("```\n{plan}```\n")));
    let parsed = judge(sheet.as_bytes()).expect("it is accepted");
    let finish: u64 = plan
        .split(',')
        .nth(1)
        .expect("a finish")
        .parse()
        .expect("a number");
    let single = best_of_single_copies(&parsed);
    assert!(told.contains(&format!(
        "ends at {single}, which is {} later",
        single - finish
    )));
    let mut known = numbers(&sheet);
    known.extend(numbers(&plan));
    known.extend([single, single - finish]);
    for number in numbers(&told) {
        // small numbers count kinds, boards and milliseconds
        assert!(number < 100 || known.contains(&number), "{number}");
    }
    // and it duplicates a stage
    assert!(plan.lines().count() - 1 > parsed.stages());
}

fn but_second_line(text: &str) -> Vec<&str> {
    let lines = text.lines().enumerate().filter(|(at, _)| *at != 1);
    lines.map(|(_, line)| line).collect()
}

/// The finish, and stage, kind, start and end of each copy.
fn without_boards(plan: &str) -> Vec<Vec<&str>> {
    let places = |line: &str| -> &[usize] {
        if line.starts_with('P') {
            &[1]
        } else {
            &[1, 2, 4, 5]
        }
    };
    plan.lines()
        .map(|line| {
            let fields: Vec<&str> = line.split(',').collect();
            places(line).iter().map(|&at| fields[at]).collect()
        })
        .collect()
}

fn board_count(plan: &str) -> u32 {
    let fields = first_line(plan.as_bytes()).split(',').skip(2);
    fields.flat_map(str::parse::<u32>).sum()
}

/// When boards of the plan are free again: ends plus clearing times.
fn free_again(sheet: &Sheet, plan: &str) -> BTreeSet<u64> {
    let copies = plan.lines().filter_map(|line| line.strip_prefix("C,"));
    copies
        .map(|copy| {
            let fields: Vec<u64> = copy.split(',').flat_map(str::parse).collect();
            fields[4] + u64::from(sheet.clearing[fields[1] as usize])
        })
        .collect()
}

/// The tray that clears is the tray with clearing times. Its plan differs in
/// boards alone, and what is told of it is in its sheet, its plan, or is when a
/// board is free again.
#[test]
fn the_readme_tells_the_tray_that_clears_as_it_is() {
    let told = chapter("The tray that clears");
    let ([tray, tray_plan], [sheet, plan]) = (example("tray"), example("tray-that-clears"));
    assert_eq!(but_second_line(&sheet), but_second_line(&tray));
    assert_eq!(without_boards(&plan), without_boards(&tray_plan));
    assert_eq!((board_count(&tray_plan), board_count(&plan)), (4, 6));
    assert!(told.contains(&format!("```\n{plan}```\n")));
    let parsed = judge(sheet.as_bytes()).expect("it is accepted");
    let mut known = numbers(&sheet);
    known.extend(numbers(&plan));
    known.extend(free_again(&parsed, &plan));
    for number in numbers(&told) {
        assert!(number < 10 || known.contains(&number), "{number}");
    }
    for time in &parsed.clearing {
        assert!(told.contains(&time.to_string()), "{time}");
    }
}
