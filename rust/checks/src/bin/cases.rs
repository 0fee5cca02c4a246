//! `cases SEED COUNT` writes calls of `plan` with what the second
//! implementation answers, for programs that are not Rust (tests/c).
//!
//! A case is a line of 17 numbers parted by spaces: the lengths of durations,
//! ends, waits, starts, copies and out; fault, line, finish, four board counts,
//! copies and printed bytes of the answer; the bytes of the sheet, and of what
//! the program shall print for it. These two texts follow the line.

use std::io::{self, BufWriter, Write};
use std::process::ExitCode;

use checks::draw::{LargeTexts, Lengths, Output};
use checks::lent::{Fill, LentPlan, LentSheet, PLAN_EXACT};
use checks::planners::reference;
use reference::generator::Random;
use reference::program_output;

fn main() -> ExitCode {
    let arguments: Vec<String> = std::env::args().skip(1).collect();
    let numbers: Vec<u64> = arguments.iter().flat_map(|text| text.parse()).collect();
    if arguments.len() != 2 || numbers.len() != 2 {
        eprintln!("usage: cases SEED COUNT");
        return ExitCode::from(2);
    }
    match write_cases(numbers[0], numbers[1]) {
        Ok(()) => ExitCode::SUCCESS,
        Err(error) => {
            eprintln!("cases: {error}");
            ExitCode::FAILURE
        }
    }
}

fn write_cases(seed: u64, count: u64) -> io::Result<()> {
    let mut random = Random::new(seed);
    let large = LargeTexts::new(&mut random);
    let mut out = BufWriter::new(io::stdout().lock());
    for _ in 0..count {
        let text = large.draw_plan_text(&mut random);
        write_case(&mut out, &mut random, &text)?;
    }
    out.flush()
}

fn write_case(out: &mut impl Write, random: &mut Random, text: &[u8]) -> io::Result<()> {
    let lengths = Lengths::draw(random, PLAN_EXACT.len()).entries(random, PLAN_EXACT);
    let out_length = Output::draw(random).bytes(random, text);
    let mut buffers = LentPlan::new(random, lengths, out_length, Fill::Marks);
    let answer = buffers.call(&reference, &LentSheet::new(text, b'\n'));
    let printed = program_output(text);
    for length in lengths.iter().chain([&out_length]) {
        write!(out, "{length} ")?;
    }
    write!(out, "{} {} {} ", answer.fault, answer.line, answer.finish)?;
    for count in answer.boards {
        write!(out, "{count} ")?;
    }
    write!(out, "{} {} ", answer.copies, answer.printed)?;
    writeln!(out, "{} {}", text.len(), printed.len())?;
    out.write_all(text)?;
    out.write_all(&printed)
}
