//! Where the program calls the system, and where its proof speaks of that.
//!
//! The promises of crates/stdio and crates/plan are over marks of calls
//! (crates/stdio/specs/System.antt). A mark says no more than the call's assumed
//! contract; it stands for a call because the laws that make marks are cited at
//! the calls alone. That is looked at here, in every crate.

use std::fs;
use std::path::{Path, PathBuf};

/// The files below a folder whose names end so, but for what a check keeps.
fn files(folder: &Path, ending: &str) -> Vec<PathBuf> {
    let entries = fs::read_dir(folder).expect("the folder is there");
    let paths = entries.map(|entry| entry.expect("an entry").path());
    let files = paths.flat_map(|path| {
        if path.ends_with("out") {
            Vec::new()
        } else if path.is_dir() {
            files(&path, ending)
        } else {
            let fits = path.to_string_lossy().ends_with(ending);
            Vec::from_iter(fits.then_some(path))
        }
    });
    files.collect()
}

/// The lines below crates/ that are no comments, each with its file.
fn lines(ending: &str, comment: &str) -> Vec<(String, String)> {
    let crates = Path::new(env!("CARGO_MANIFEST_DIR")).join("../../crates");
    let mut lines = Vec::new();
    for path in files(&crates, ending) {
        let text = fs::read_to_string(&path).expect("text");
        let file = path.strip_prefix(&crates).expect("it is below");
        for line in text.lines().map(str::trim) {
            if !line.starts_with(comment) {
                lines.push((file.display().to_string(), line.to_string()));
            }
        }
    }
    assert!(!lines.is_empty());
    lines
}

/// The lines' files that have the word, not as a part of a longer one.
fn with_word<'a>(lines: &'a [(String, String)], word: &str) -> Vec<&'a str> {
    let part = |c: char| c.is_alphanumeric() || c == '_' || c == '-';
    let has = |line: &str| {
        line.match_indices(word).any(|(at, _)| {
            !line[..at].ends_with(part) && !line[at + word.len()..].starts_with(part)
        })
    };
    let found = lines.iter().filter(|(_, line)| has(line));
    found.map(|(file, _)| file.as_str()).collect()
}

/// What follows the words in the code, up to the end of a name, each with its
/// file. The words begin with no part of a longer name.
fn after<'a>(lines: &'a [(String, String)], words: &str) -> Vec<(&'a str, &'a str)> {
    let mut found = Vec::new();
    for (file, line) in lines {
        for (at, _) in line.match_indices(words) {
            let before = line[..at].chars().next_back();
            if words.starts_with('.') || !before.is_some_and(|c| c.is_alphanumeric() || c == '_') {
                let rest = &line[at + words.len()..];
                let end = rest.find(|c: char| !c.is_alphanumeric() && c != '_');
                found.push((file.as_str(), &rest[..end.unwrap_or(rest.len())]));
            }
        }
    }
    found.sort_unstable();
    found
}

/// The library's calls of the system are made in one line each of
/// crates/stdio/src/system.rt, and the functions of that file are called in one
/// line each, with the stream that is meant.
#[test]
fn one_call_of_each() {
    let code = lines(".rt", "//");
    let (system, reading, writing) = (
        "stdio/src/system.rt",
        "stdio/src/reading.rt",
        "stdio/src/writing.rt",
    );
    let program = "plan/src/main.rt";
    let calls: [(&str, Vec<(&str, &str)>); 12] = [
        (".read(", vec![(system, "part")]),
        (".write(", vec![(system, "part")]),
        (".raw_os_error(", vec![(system, "")]),
        ("system::read(", vec![(reading, "")]),
        ("system::read(&mut rt.stdin(), ", vec![(reading, "")]),
        ("system::write(", vec![(writing, "")]),
        ("system::write(&mut rt.stdout(), ", vec![(writing, "rest")]),
        (".stdin(", vec![(reading, "")]),
        (".stdout(", vec![(writing, "")]),
        // the number of words, and what is told on standard error
        ("rt.arg(", vec![(program, "i")]),
        ("eprintln!(rt; \"{", vec![(program, "error")]),
        ("eprintln!(", vec![(program, "rt")]),
    ];
    for (words, allowed) in calls {
        assert_eq!(after(&code, words), allowed, "{words}");
    }
    // what reads, writes or prints otherwise
    for words in [
        "libc::", "os::", "io::", "fs::", ".read_", ".write_", "print!", "println!", "eprint!",
        ".stderr(", ".reader(", ".lines(",
    ] {
        let found = after(&code, words);
        let rest: Vec<_> = found
            .into_iter()
            .filter(|found| !OTHERWISE.contains(&(words, found.0, found.1)))
            .collect();
        assert!(rest.is_empty(), "{words}: {rest:?}");
    }
}

/// Words of that kind that call nothing.
const OTHERWISE: [(&str, &str, &str); 2] = [
    ("io::", "stdio/src/system.rt", ""),
    ("os::", "stdio/src/system.rt", "fd"),
];

/// A law that makes a mark is cited in the proof of the function that makes the
/// call, and nowhere else.
#[test]
fn marks_are_made_at_the_calls() {
    let proofs = lines(".antt", "--");
    for (law, function) in [
        ("has_read", "read"),
        ("has_written", "write"),
        ("errno_was", "cause"),
    ] {
        let proof = format!("stdio/proofs/system/{function}/Answers.antt");
        let cited = with_word(&proofs, law);
        let (said, cited): (Vec<&str>, Vec<&str>) = cited
            .into_iter()
            .partition(|&file| file == "stdio/specs/System.antt");
        assert!(!said.is_empty() && !cited.is_empty(), "{law}");
        assert!(cited.iter().all(|&file| file == proof), "{law}: {cited:?}");
    }
}
