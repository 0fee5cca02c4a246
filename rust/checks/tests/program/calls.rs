//! The program's calls of `read` and `write`, seen and disturbed by a library
//! that is loaded before it (calls.c): reads that are interrupted, reads and
//! writes that move a part, and input that comes in pieces. It prints what it
//! prints otherwise.

use std::path::{Path, PathBuf};
use std::process::Command;
use std::sync::OnceLock;

use checks::draw::long_sheet;
use rackplan::SHEET_MAX;
use reference::generator::Random;
use reference::program_output;

use crate::start::{run, starts, Manner, Start};

/// Builds the library, once.
fn library() -> &'static Path {
    static BUILT: OnceLock<PathBuf> = OnceLock::new();
    BUILT.get_or_init(|| {
        let source = Path::new(env!("CARGO_MANIFEST_DIR")).join("tests/program/calls.c");
        let library = Path::new(env!("CARGO_TARGET_TMPDIR")).join("libcalls.so");
        let built = Command::new("gcc")
            .args(["-std=c11", "-O1", "-Wall", "-Wextra", "-Werror"])
            .args(["-D_DEFAULT_SOURCE", "-shared", "-fPIC", "-o"])
            .args([&library, &source])
            .status()
            .expect("gcc starts");
        assert!(built.success(), "gcc: {built}");
        library
    })
}

/// What is done to the calls; 0 is nothing.
#[derive(Clone, Copy, Debug, Default)]
struct Disturbed {
    read_most: usize,
    read_refused: usize,
    write_most: usize,
    signal_every: usize,
}

/// What the calls answered.
#[derive(Debug)]
struct Calls {
    reads_with_bytes: usize,
    reads_at_the_end: usize,
    reads_interrupted: usize,
    writes: usize,
}

/// Runs the program with the library, and gives its calls.
///
/// # Panics
///
/// If it does not print what it shall, or complains, or if the library was not
/// loaded.
fn calls(start: &Start, text: &[u8], manner: Manner, how: Disturbed) -> Calls {
    let variables = [
        ("LD_PRELOAD", library().display().to_string()),
        ("CALLS_READ_MOST", how.read_most.to_string()),
        ("CALLS_READ_REFUSED", how.read_refused.to_string()),
        ("CALLS_WRITE_MOST", how.write_most.to_string()),
        ("CALLS_SIGNAL_EVERY", how.signal_every.to_string()),
    ];
    let output = run(start, text, manner, &variables);
    let case = || format!("{start:?}, {manner:?}, {how:?}, {} bytes", text.len());
    assert!(output.status.success(), "{}: {}", output.status, case());
    let said = String::from_utf8(output.stderr).expect("text");
    let (given, expected) = (output.stdout, program_output(text));
    if given != expected {
        let (given, expected) = (given.escape_ascii(), expected.escape_ascii());
        panic!(
            "{}: {said}\n  printed {given}\n  not     {expected}",
            case()
        );
    }
    let numbers: Option<Vec<usize>> = said.split_whitespace().map(|n| n.parse().ok()).collect();
    match numbers.as_deref() {
        Some(&[reads_with_bytes, reads_at_the_end, reads_interrupted, writes]) => Calls {
            reads_with_bytes,
            reads_at_the_end,
            reads_interrupted,
            writes,
        },
        _ => panic!("said {said:?}: {}", case()),
    }
}

const LISTING: &[u8] = b"J,2,3,2\nG,0,0\nT,0,1,1\nT,1,2,9\nT,2,9,2\nE,0,1,0,5,5,0\nE,0,2,0,5,5,0\n";

/// A short sheet, the longest, one that is refused in its middle, nothing, and
/// a byte more than a sheet may have.
fn texts() -> Vec<Vec<u8>> {
    let longest = long_sheet(&mut Random::new(56), 4, SHEET_MAX).to_text();
    let mut refused = longest.clone();
    refused[SHEET_MAX / 2] = b'x';
    let mut too_long = longest.clone();
    too_long.push(b'\n');
    vec![LISTING.to_vec(), longest, refused, Vec::new(), too_long]
}

/// So many bytes that a text has about 60 pieces: less than a pipe takes at once.
fn piece(text: &[u8]) -> usize {
    (text.len() / 60).max(1)
}

/// A read that is interrupted is no end and no failure, however often it is.
#[test]
fn reads_that_are_interrupted() {
    for start in starts() {
        for text in texts() {
            for (read_most, read_refused) in [(0, 1), (4_000, 3), (60_000, 50)] {
                let how = Disturbed {
                    read_most,
                    read_refused,
                    ..Disturbed::default()
                };
                let calls = calls(&start, &text, Manner::AtOnce, how);
                let reached = calls.reads_with_bytes + calls.reads_at_the_end;
                assert_eq!(calls.reads_interrupted, read_refused * reached, "{how:?}");
                assert!(reached > 0);
            }
        }
    }
}

/// The same with signals, which come while the program waits for the next piece.
#[test]
fn reads_that_signals_interrupt() {
    let how = Disturbed {
        signal_every: 100,
        ..Disturbed::default()
    };
    let mut interrupted = 0;
    for start in starts() {
        for text in texts() {
            let calls = calls(&start, &text, Manner::ReadByRead(piece(&text)), how);
            interrupted += calls.reads_interrupted;
        }
    }
    println!("{interrupted} reads were interrupted");
    assert!(interrupted >= 100, "{interrupted}");
}

/// Input that comes in pieces, a read for each, is one sheet all the same.
#[test]
fn input_in_pieces() {
    for start in starts() {
        for text in texts() {
            let piece = piece(&text);
            let manner = Manner::ReadByRead(piece);
            let calls = calls(&start, &text, manner, Disturbed::default());
            assert_eq!(calls.reads_with_bytes, text.len().div_ceil(piece));
        }
    }
}

/// Reads of a part, down to a byte, go on until the end or 65001 bytes.
#[test]
fn reads_of_a_part() {
    for start in starts() {
        for text in texts() {
            for read_most in [1, 997, SHEET_MAX] {
                let how = Disturbed {
                    read_most,
                    ..Disturbed::default()
                };
                let calls = calls(&start, &text, Manner::AtOnce, how);
                let most = text.len().min(SHEET_MAX + 1);
                assert!(calls.reads_with_bytes >= most.div_ceil(read_most));
                let at_the_end = usize::from(text.len() <= SHEET_MAX);
                assert_eq!(calls.reads_at_the_end, at_the_end, "{how:?}");
            }
        }
    }
}

/// Writes of a part go on until the text is written.
#[test]
fn writes_of_a_part() {
    for start in starts() {
        for text in texts() {
            for write_most in [1, 997] {
                let how = Disturbed {
                    write_most,
                    ..Disturbed::default()
                };
                let calls = calls(&start, &text, Manner::AtOnce, how);
                let writes = program_output(&text).len().div_ceil(write_most);
                assert_eq!(calls.writes, writes, "{how:?}");
            }
            let calls = calls(&start, &text, Manner::AtOnce, Disturbed::default());
            assert_eq!(calls.writes, 1);
        }
    }
}
