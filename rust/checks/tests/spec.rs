//! The examples of docs/SPEC.md: what it says that a sheet prints is what the
//! library and the second implementation print.

use std::fs;
use std::path::Path;

use checks::planners::library_output;
use reference::program_output;

/// Sheets with what they print: a sheet in backquotes, with `/` for byte 10,
/// then the word "prints" or the bar of a table, then the text.
fn examples() -> Vec<(String, String)> {
    let path = Path::new(env!("CARGO_MANIFEST_DIR")).join("../../docs/SPEC.md");
    let spec = fs::read_to_string(path).expect("docs/SPEC.md is there");
    let pieces: Vec<&str> = spec.split('`').collect();
    let mut found = Vec::new();
    // outside and inside of backquotes take turns
    for at in (1..pieces.len()).step_by(2) {
        if pieces[at].starts_with("J,") && pieces[at].contains('/') {
            let between = pieces[at + 1].trim();
            assert!(between == "prints" || between == "|", "{}", pieces[at]);
            found.push((
                pieces[at].replace('/', "\n"),
                pieces[at + 2].replace('/', "\n"),
            ));
        }
    }
    found
}

#[test]
fn each_example_prints_what_is_said() {
    let examples = examples();
    assert!(examples.len() >= 35, "{}", examples.len());
    for (sheet, printed) in examples {
        for output in [library_output, program_output] {
            let given = String::from_utf8(output(sheet.as_bytes())).expect("ASCII");
            assert_eq!(given, printed, "{sheet}");
        }
    }
}
