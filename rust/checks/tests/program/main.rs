//! The program `plan`, through pipes: what it prints for drawn sheets is what
//! the second implementation prints.
//!
//! Sheet by sheet the ways to start it take turns ([`start`]). [`calls`] looks
//! at its calls of the system, [`marks`] at where its proof speaks of them,
//! [`arguments`] at what it does with arguments.

mod arguments;
mod calls;
mod marks;
mod start;

use std::fs::{self, File};
use std::path::Path;
use std::process::{Command, Stdio};

use checks::draw::{long_sheet, without_clearing, LargeTexts};
use checks::mix::Mix;
use rackplan::SHEET_MAX;
use reference::generator::Random;
use reference::{judge, program_output};
use start::{run, starts, write, Manner, Start};

const SHEETS: usize = 3_000;

/// How often each of these has to occur.
const LEAST: [(&str, usize); 14] = [
    ("a plan", 800),
    ("a plan above 4096 bytes", 100),
    ("a plan with more boards than without clearing", 500),
    ("a sheet above 60000 bytes", 150),
    ("R,2", 70),
    ("R,3", 250),
    ("R,4", 100),
    ("R,5", 60),
    ("R,6", 100),
    ("R,7", 100),
    ("in pieces", 300),
    ("in pieces, above 60000 bytes", 30),
    ("in pieces, R,2", 10),
    ("at once", 1_500),
];

/// Runs the program and gives what it printed.
///
/// # Panics
///
/// If that is not what it shall print, or if it complains.
fn check(start: &Start, text: &[u8], manner: Manner) -> Vec<u8> {
    let output = run(start, text, manner, &[]);
    let (given, expected) = (output.stdout, program_output(text));
    let case = || {
        let shown = &text[..text.len().min(400)];
        let (bytes, text) = (text.len(), shown.escape_ascii());
        format!("{start:?}, {manner:?}, sheet of {bytes} bytes: {text}")
    };
    assert!(output.status.success(), "{}: {}", output.status, case());
    let said = output.stderr.escape_ascii();
    assert!(output.stderr.is_empty(), "{said}: {}", case());
    if given != expected {
        let (given, expected) = (given.escape_ascii(), expected.escape_ascii());
        panic!("{}\n  printed {given}\n  not     {expected}", case());
    }
    given
}

/// Pieces for small sheets are small.
fn draw_manner(random: &mut Random, text: &[u8]) -> Manner {
    if random.one_in(6) {
        let most = if text.len() < 300 { 30 } else { 4_000 };
        Manner::InPieces(random.between(1, most).max(text.len() / 60))
    } else {
        Manner::AtOnce
    }
}

fn count_case(mix: &mut Mix, text: &[u8], manner: Manner, printed: &[u8]) {
    let long = text.len() > 60_000;
    mix.count_if(long, "a sheet above 60000 bytes");
    let outcome = match printed {
        [b'R', b',', number, ..] => format!("R,{}", char::from(*number)),
        _ => "a plan".to_string(),
    };
    if manner == Manner::AtOnce {
        mix.count("at once");
    } else {
        mix.count("in pieces");
        mix.count_if(long, "in pieces, above 60000 bytes");
        mix.count(format!("in pieces, {outcome}"));
    }
    mix.count_if(printed.len() > 4096, "a plan above 4096 bytes");
    let more = clearing_takes_boards(text, printed);
    mix.count_if(more, "a plan with more boards than without clearing");
    mix.count(outcome);
}

/// Whether the first line, of finish and boards, would be another one if all
/// clearing times were 0.
fn clearing_takes_boards(text: &[u8], printed: &[u8]) -> bool {
    let first = |text: &[u8]| text.split(|&byte| byte == b'\n').next().map(<[u8]>::to_vec);
    judge(text).is_ok_and(|sheet| {
        let without = program_output(&without_clearing(&sheet).to_text());
        first(&without) != first(printed)
    })
}

#[test]
fn the_program_prints_what_the_reference_prints() {
    let starts = starts();
    let mut random = Random::new(54);
    let large = LargeTexts::new(&mut random);
    let mut mix = Mix::default();
    for sheet in 0..SHEETS {
        let text = large.draw_plan_text(&mut random);
        let manner = draw_manner(&mut random, &text);
        let printed = check(&starts[sheet % starts.len()], &text, manner);
        count_case(&mut mix, &text, manner, &printed);
    }
    mix.assert_least(&LEAST);
}

#[test]
fn sheets_about_the_limit_of_bytes() {
    let mut random = Random::new(55);
    let full = long_sheet(&mut random, 4, SHEET_MAX).to_text();
    for start in starts() {
        let mut text = full.clone();
        // accepted, and the bytes behind it make it too long, also where they
        // come late
        assert!(check(&start, &text, Manner::AtOnce).starts_with(b"P,"));
        assert!(check(&start, &text, Manner::InPieces(997)).starts_with(b"P,"));
        for more in [1, 1, 100, 4_000, 65_000, 1_000_000] {
            text.resize(text.len() + more, b'\n');
            for manner in [Manner::AtOnce, Manner::InPieces(SHEET_MAX)] {
                assert_eq!(check(&start, &text, manner), b"R,2,0\n");
            }
        }
    }
}

#[test]
fn sheets_byte_by_byte() {
    let listing = b"J,2,3,2\nG,0,0\nT,0,1,1\nT,1,2,9\nT,2,9,2\nE,0,1,0,5,5,0\nE,0,2,0,5,5,0\n";
    for start in starts() {
        for length in [0, 1, 7, 8, 9, 13, 14, 64, 65] {
            check(&start, &listing[..length], Manner::InPieces(1));
        }
        let plan = check(&start, listing, Manner::InPieces(1));
        assert_eq!(plan.len(), 56);
    }
}

#[test]
fn the_examples() {
    let folder = Path::new(env!("CARGO_MANIFEST_DIR")).join("../../examples");
    let entries = fs::read_dir(folder).expect("the folder is there");
    let paths = entries.map(|entry| entry.expect("an entry").path());
    let sheets = paths.filter(|path| path.extension().is_some_and(|last| last == "sheet"));
    let mut count = 0;
    for sheet in sheets {
        let text = fs::read(&sheet).expect("a sheet");
        let plan = fs::read(sheet.with_extension("plan")).expect("its plan");
        for start in starts() {
            assert_eq!(check(&start, &text, Manner::AtOnce), plan, "{sheet:?}");
        }
        count += 1;
    }
    assert!(count >= 12, "{count}");
}

/// A read that fails is no sheet: nothing is printed.
#[test]
fn a_read_error_is_told() {
    for start in starts() {
        let folder = File::open(env!("CARGO_MANIFEST_DIR")).expect("a folder opens");
        let output = Command::new(&start[0])
            .args(&start[1..])
            .stdin(folder)
            .output()
            .expect("the program ends");
        assert_eq!(output.stdout.escape_ascii().to_string(), "");
        let said = String::from_utf8(output.stderr).expect("text");
        assert_eq!(said, "plan: standard input: Is a directory\n");
    }
}

#[test]
fn a_failed_write_is_told() {
    for start in starts() {
        let full = File::options().write(true).open("/dev/full");
        let mut child = Command::new(&start[0])
            .args(&start[1..])
            .stdin(Stdio::piped())
            .stdout(full.expect("/dev/full is there"))
            .stderr(Stdio::piped())
            .spawn()
            .expect("the program starts");
        let pipe = child.stdin.take().expect("it is piped");
        write(pipe, b"J,1,1,0\nG,0\nT,0,1\n", Manner::AtOnce);
        let output = child.wait_with_output().expect("the program ends");
        let said = String::from_utf8(output.stderr).expect("text");
        assert_eq!(said, "plan: standard output: No space left on device\n");
    }
}
