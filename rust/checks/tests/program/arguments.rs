//! The program takes no arguments: given one, it says how it is used and reads
//! nothing.

use std::fs::File;
use std::io::Seek;
use std::path::Path;
use std::process::{Command, Output};

use crate::start::{starts, Start};

const USAGE: &str =
    "usage: plan < SHEET > PLAN (reads a sheet from standard input, and takes no arguments)\n";

/// What the program does with these arguments and a sheet, and how many of the
/// sheet's bytes it has read.
fn run_with(start: &Start, arguments: &[&str]) -> (Output, u64) {
    let sheet = Path::new(env!("CARGO_MANIFEST_DIR")).join("../../examples/tray.sheet");
    let mut sheet = File::open(sheet).expect("the sheet opens");
    // both have one place in the file
    let input = sheet.try_clone().expect("a second handle");
    let output = Command::new(&start[0])
        .args(&start[1..])
        .args(arguments)
        .stdin(input)
        .output()
        .expect("the program ends");
    let read = sheet.stream_position().expect("a file has a place");
    (output, read)
}

#[test]
fn an_argument_is_answered_by_the_usage() {
    let given: [&[&str]; 5] = [
        &["x"],
        &[""],
        &["--help"],
        &["tray.sheet"],
        &["-", "x", "y"],
    ];
    for start in starts() {
        let (output, read) = run_with(&start, &[]);
        assert!(output.stdout.starts_with(b"P,16050,") && output.stderr.is_empty());
        assert!(read > 0, "the sheet is read where there is no argument");
        for arguments in given {
            let (output, read) = run_with(&start, arguments);
            assert!(output.status.success(), "{arguments:?}: {}", output.status);
            assert_eq!(
                output.stdout.escape_ascii().to_string(),
                "",
                "{arguments:?}"
            );
            let said = String::from_utf8(output.stderr).expect("text");
            assert_eq!(said, USAGE, "{arguments:?}");
            assert_eq!(read, 0, "{arguments:?}");
        }
    }
}
