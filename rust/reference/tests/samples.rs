//! The program `samples`: its form, its mix, and that its outputs are those
//! of the library.

use std::collections::BTreeMap;
use std::process::{Command, Output};

use reference::{judge, make_plan, program_output};

fn run(arguments: &[&str]) -> Output {
    let mut command = Command::new(env!("CARGO_BIN_EXE_samples"));
    command.args(arguments).output().expect("samples runs")
}

/// The bytes of an escaped field. Small samples have printable ASCII and byte
/// 10 alone.
fn unescaped(field: &str) -> Vec<u8> {
    let mut bytes = Vec::new();
    let mut letters = field.bytes();
    while let Some(letter) = letters.next() {
        assert!((32..=126).contains(&letter), "{field:?}");
        let byte = match letter {
            b'\\' => match letters.next() {
                Some(b'n') => b'\n',
                Some(b'\\') => b'\\',
                other => panic!("backslash and {other:?} in {field:?}"),
            },
            _ => letter,
        };
        bytes.push(byte);
    }
    bytes
}

/// The cases of a run: sheet and output.
fn cases(arguments: &[&str]) -> Vec<(Vec<u8>, Vec<u8>)> {
    let output = run(arguments);
    assert!(output.status.success());
    let text = String::from_utf8(output.stdout).expect("ASCII");
    assert!(text.ends_with('\n'));
    let case = |line: &str| {
        let (sheet, printed) = line.split_once('\t').expect("a tab");
        (unescaped(sheet), unescaped(printed))
    };
    text.lines().map(case).collect()
}

#[test]
fn each_line_is_a_sheet_and_what_is_printed_for_it() {
    let cases = cases(&["7", "2000"]);
    assert_eq!(cases.len(), 2000);
    let mut outcomes = BTreeMap::new();
    for (sheet, printed) in cases {
        assert_eq!(program_output(&sheet), printed);
        let outcome = match printed[0] {
            b'P' => '0',
            _ => char::from(printed[2]),
        };
        *outcomes.entry(outcome).or_insert(0) += 1;
    }
    let outcomes: Vec<(char, i32)> = outcomes.into_iter().collect();
    let kinds: String = outcomes.iter().map(|&(outcome, _)| outcome).collect();
    assert_eq!(kinds, "034567");
    assert!(
        outcomes.iter().all(|&(_, count)| count > 30),
        "{outcomes:?}"
    );
}

#[test]
fn sheets_are_small_and_some_duplicate_or_have_seven_digits() {
    let (mut accepted, mut duplicates, mut seven_digits) = (0, 0, 0);
    for (sheet, printed) in cases(&["8", "2000"]) {
        let sheet = match judge(&sheet) {
            Ok(sheet) => sheet,
            Err(_) => continue,
        };
        let most_stages = if sheet.kinds == 3 { 3 } else { 4 };
        assert!(sheet.kinds <= 3 && sheet.stages() <= most_stages);
        let copies = printed.iter().filter(|&&byte| byte == b'C').count();
        accepted += 1;
        duplicates += usize::from(copies > sheet.stages());
        let durations = sheet.durations.concat();
        seven_digits += usize::from(durations.contains(&1_000_000));
    }
    assert!(accepted > 500, "{accepted}");
    assert!(
        duplicates > 100 && seven_digits > 20,
        "{duplicates} {seven_digits}"
    );
}

/// The three sorts of clearing times, and what is refused at their line.
#[test]
fn sheets_have_clearing_times_of_every_sort() {
    let (mut zero, mut largest, mut others, mut shared, mut refused) = (0, 0, 0, 0, [0; 2]);
    for (sheet, printed) in cases(&["9", "2000"]) {
        refused[0] += usize::from(printed == b"R,3,2\n");
        refused[1] += usize::from(printed == b"R,4,2\n");
        let sheet = match judge(&sheet) {
            Ok(sheet) => sheet,
            Err(_) => continue,
        };
        let all = |test: fn(u32) -> bool| sheet.clearing.iter().all(|&time| test(time));
        if all(|time| time == 0) {
            zero += 1;
        } else if all(|time| time >= 999_999) {
            largest += 1;
        } else {
            others += 1;
            let plan = make_plan(&sheet).expect("accepted");
            let boards = plan.board_counts.iter().sum::<u32>() as usize;
            shared += usize::from(boards < plan.copies.len());
        }
    }
    assert!(zero > 100 && largest > 100, "{zero} {largest}");
    assert!(others > 100 && shared > 30, "{others} {shared}");
    assert!(refused.iter().all(|&count| count > 10), "{refused:?}");
}

#[test]
fn the_seed_decides() {
    assert_eq!(run(&["3", "50"]).stdout, run(&["3", "50"]).stdout);
    assert_ne!(run(&["3", "50"]).stdout, run(&["4", "50"]).stdout);
    assert!(run(&["3", "0"]).stdout.is_empty());
}

#[test]
fn other_arguments_are_refused() {
    let refused: [&[&str]; 5] = [&[], &["1"], &["1", "2", "3"], &["1", "x"], &["-1", "2"]];
    for arguments in refused {
        let output = run(arguments);
        assert_eq!(output.status.code(), Some(2), "{arguments:?}");
        assert!(output.stdout.is_empty());
        assert!(!output.stderr.is_empty());
    }
}
