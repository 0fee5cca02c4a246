//! `rack-table [SHEET]` plans a survey sheet, from a file or from standard
//! input, and prints the plan as tables. If the sheet is refused, it says what
//! is wrong with it and where, and the exit status is 1.

use std::io::{self, Read, Write};
use std::process::ExitCode;
use std::{env, fs::File};

use rackplan::{plan_sheet, Fault, Plan, SHEET_MAX};

fn main() -> ExitCode {
    let done = plan_tables(env::args().nth(1)).and_then(|tables| {
        let written = io::stdout().write_all(tables.as_bytes());
        written.map_err(|error| format!("standard output: {error}"))
    });
    match done {
        Ok(()) => ExitCode::SUCCESS,
        Err(message) => {
            eprintln!("{message}");
            ExitCode::FAILURE
        }
    }
}

fn plan_tables(file: Option<String>) -> Result<String, String> {
    let read = match &file {
        Some(name) => File::open(name).and_then(read_sheet),
        None => read_sheet(io::stdin()),
    };
    let name = file.as_deref().unwrap_or("standard input");
    let sheet = read.map_err(|error| format!("{name}: {error}"))?;
    match plan_sheet(&sheet) {
        Ok(plan) => Ok(tables(&plan)),
        Err(fault) => Err(refusal(&sheet, fault)),
    }
}

/// The bytes of a sheet; of one that is too long, enough to see that it is.
fn read_sheet(from: impl Read) -> io::Result<Vec<u8>> {
    let mut bytes = Vec::new();
    from.take(SHEET_MAX as u64 + 1).read_to_end(&mut bytes)?;
    Ok(bytes)
}

/// The boards to buy, and who runs where, from when to when.
fn tables(plan: &Plan) -> String {
    let mut text = format!("Done after {} microseconds.\n", plan.finish());
    text += "\n kind  boards to buy\n";
    for (kind, boards) in plan.boards()[..plan.kinds()].iter().enumerate() {
        text += &format!("{kind:>5} {boards:>14}\n");
    }
    text += "\nstage  kind  board       from         to\n";
    for (copy, end) in plan.copies_with_ends() {
        let (stage, kind, board) = (copy.stage, copy.kind, copy.board);
        text += &format!(
            "{stage:>5} {kind:>5} {board:>6} {:>10} {end:>10}\n",
            copy.start
        );
    }
    text
}

/// What is wrong, and the beginning of the line that it is in.
fn refusal(sheet: &[u8], fault: Fault) -> String {
    let mut lines = sheet.split(|&byte| byte == b'\n');
    let line = fault.line().and_then(|line| lines.nth(line as usize - 1));
    match line {
        Some(line) if !line.is_empty() => {
            let shown = line[..line.len().min(60)].escape_ascii();
            format!("Refused: {fault}: {shown}")
        }
        _ => format!("Refused: {fault}"),
    }
}
