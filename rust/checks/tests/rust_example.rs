//! The program in examples/rust, built as its users build it: on every sheet of
//! examples it shows the numbers of the plan, or says why there is none.

use std::fs::{self, File};
use std::path::{Path, PathBuf};
use std::process::{Command, Output, Stdio};

fn examples() -> PathBuf {
    Path::new(env!("CARGO_MANIFEST_DIR")).join("../../examples")
}

/// Builds the program where it disturbs no other build.
fn build() -> PathBuf {
    let folder = Path::new(env!("CARGO_TARGET_TMPDIR")).join("rust_example");
    let mut cargo = Command::new(env!("CARGO"));
    cargo.args(["build", "--quiet", "--release", "--offline", "--locked"]);
    cargo
        .arg("--manifest-path")
        .arg(examples().join("rust/Cargo.toml"));
    cargo.arg("--target-dir").arg(&folder);
    assert!(cargo.status().expect("cargo runs").success());
    folder.join("release/rack-table")
}

/// What the program does with a sheet that it is told, or that it is given.
fn run(program: &Path, sheet: &Path, told: bool) -> Output {
    let mut command = Command::new(program);
    if told {
        command.arg(sheet).stdin(Stdio::null());
    } else {
        command.stdin(File::open(sheet).expect("a file"));
    }
    command.output().expect("the program runs")
}

fn numbers(text: &str) -> Vec<&str> {
    let parts = text.split(|letter: char| !letter.is_ascii_digit());
    parts.filter(|part| !part.is_empty()).collect()
}

/// The numbers of the tables: those of the plan, with each count of boards
/// behind its kind.
fn numbers_shown(plan: &str) -> Vec<String> {
    let (first, copies) = plan.split_once('\n').expect("a line");
    let mut expected = vec![numbers(first)[0].to_string()];
    for (kind, count) in numbers(first)[1..].iter().enumerate() {
        expected.extend([kind.to_string(), count.to_string()]);
    }
    expected.extend(numbers(copies).into_iter().map(String::from));
    expected
}

/// Asserts that the message tells the line of the refusal, if it has one, and
/// what is on it.
fn assert_tells(message: &str, refusal: &str, sheet: &str) {
    assert!(message.starts_with("Refused: "), "{message}");
    assert_eq!(message.lines().count(), 1, "{message}");
    let line: usize = numbers(refusal)[1].parse().expect("a line");
    if line > 0 {
        assert!(message.contains(&format!("line {line} ")), "{message}");
        let on_it = sheet.lines().nth(line - 1).unwrap_or_default();
        assert!(message.trim_end().ends_with(on_it), "{message}");
    }
}

#[test]
fn it_shows_every_plan_and_tells_every_refusal() {
    let program = build();
    let (mut planned, mut refused) = (0, 0);
    for entry in fs::read_dir(examples()).expect("the folder is there") {
        let path = entry.expect("an entry").path();
        if path.extension().is_none_or(|ending| ending != "sheet") {
            continue;
        }
        let sheet = fs::read_to_string(&path).expect("a sheet");
        let plan = fs::read_to_string(path.with_extension("plan")).expect("a plan");
        for told in [true, false] {
            let output = run(&program, &path, told);
            let [out, err] =
                [output.stdout, output.stderr].map(|text| String::from_utf8(text).expect("UTF-8"));
            if plan.starts_with('P') {
                assert_eq!((output.status.code(), err.as_str()), (Some(0), ""));
                assert_eq!(numbers(&out), numbers_shown(&plan), "{out}");
                planned += 1;
            } else {
                assert_eq!((output.status.code(), out.as_str()), (Some(1), ""));
                assert_tells(&err, &plan, &sheet);
                refused += 1;
            }
        }
    }
    assert!(planned >= 20 && refused >= 20, "{planned} {refused}");
    let missing = run(&program, &examples().join("no such sheet"), true);
    assert_eq!(missing.status.code(), Some(1));
    for told in [true, false] {
        let endless = run(&program, Path::new("/dev/zero"), told);
        assert_eq!(endless.status.code(), Some(1));
        let err = String::from_utf8(endless.stderr).expect("UTF-8");
        assert_tells(&err, "R,2,0\n", "");
    }
}
