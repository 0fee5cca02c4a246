//! One call of `read` or of `plan` by every implementation.

use std::fmt::Debug;

use rackplan::{plan_sheet, Plan, Sizes, Tables};
use reference::generator::Random;
use reference::judge::read_lines;
use reference::{make_plan, program_output, Sheet};

use crate::draw::{Lengths, Output};
use crate::lent::{Compared, Fill, LentPlan, LentSheet, LentTables, EXACT, PLAN_EXACT};
use crate::planners::{self, PlanAnswer, Planner};
use crate::readers::{self, Answer};

/// Calls `read` of the second implementation and of every reader on the same
/// sheet and the same tables, and gives the answer.
///
/// # Panics
///
/// If an answer differs, or any entry of any table or margin.
pub fn compare(random: &mut Random, text: &[u8], lengths: Lengths) -> Answer {
    let fill = Fill::draw(random);
    let entries = lengths.entries(random, EXACT);
    let before = LentTables::new(random, entries, fill);
    let sheet = lent_sheet(random, text);
    let mut expected = before.clone();
    let answer = expected.call(readers::reference, &sheet);
    for (name, reader) in readers::COMPARED {
        let mut tables = before.clone();
        let given = tables.call(reader, &sheet);
        if let Some(difference) = difference((&given, &tables), (&answer, &expected)) {
            let text = excerpt(text);
            panic!("{name}, {lengths:?}, {fill:?}: {difference}: sheet {text}");
        }
    }
    answer
}

/// Calls `plan` of the second implementation and of every planner on the same
/// sheet and the same buffers, and gives the answer.
///
/// # Panics
///
/// If an answer differs, or any entry, record or byte of any buffer or margin.
pub fn compare_plan(
    random: &mut Random,
    text: &[u8],
    lengths: Lengths,
    output: Output,
) -> PlanAnswer {
    let compared = compare_planners(&planners::COMPARED, random, text, lengths, output);
    compared.unwrap_or_else(|difference| panic!("{difference}"))
}

/// The same for these planners; a difference is the error.
pub fn compare_planners(
    compared: &[(&str, Planner)],
    random: &mut Random,
    text: &[u8],
    lengths: Lengths,
    output: Output,
) -> Result<PlanAnswer, String> {
    let fill = Fill::draw(random);
    let entries = lengths.entries(random, PLAN_EXACT);
    let bytes = output.bytes(random, text);
    let before = LentPlan::new(random, entries, bytes, fill);
    let sheet = lent_sheet(random, text);
    let mut expected = before.clone();
    let answer = expected.call(&planners::reference, &sheet);
    for (name, planner) in compared {
        let mut buffers = before.clone();
        let given = buffers.call(planner, &sheet);
        if let Some(difference) = difference((&given, &buffers), (&answer, &expected)) {
            let (case, text) = (format!("{lengths:?}, output {output:?}"), excerpt(text));
            return Err(format!(
                "{name}, {case}, {fill:?}: {difference}: sheet {text}"
            ));
        }
    }
    Ok(answer)
}

/// Plans the sheet with a planner that has planned others before. Holds all that
/// it gives to what the program shall print, its sizes to those of `read`, and its
/// tables to the sheet, or where that is refused up to 5 to those before.
///
/// # Panics
///
/// If a byte differs, or a number.
pub fn compare_owned(planner: &mut rackplan::Planner, text: &[u8]) {
    let printed = program_output(text);
    let printed = std::str::from_utf8(&printed).expect("it is ASCII");
    let before = planner.tables().clone();
    match planner.plan(text) {
        Ok(plan) => {
            assert_eq!(plan.text(), printed, "sheet {}", excerpt(text));
            assert_eq!(plan_lines(&plan), printed);
            assert_eq!(Tables::new().read(text), Ok(plan.sizes()));
            assert_starts(&plan, text);
            assert_eq!(plan_sheet(text), Ok(plan));
        }
        Err(fault) => {
            let line = fault.line().unwrap_or(0);
            let given = format!("R,{},{line}\n", fault.number());
            assert_eq!(given, printed, "sheet {}", excerpt(text));
        }
    }
    match read_lines(text) {
        Ok(sheet) => assert_held(&sheet, planner.tables()),
        Err(_) => assert_eq!(planner.tables(), &before, "sheet {}", excerpt(text)),
    }
}

/// The plan's numbers printed again.
fn plan_lines(plan: &Plan) -> String {
    let mut lines = format!("P,{}", plan.finish());
    for count in &plan.boards()[..plan.kinds()] {
        lines += &format!(",{count}");
    }
    for (copy, end) in plan.copies_with_ends() {
        let (stage, kind, board, start) = (copy.stage, copy.kind, copy.board, copy.start);
        lines += &format!("\nC,{stage},{kind},{board},{start},{end}");
    }
    lines + "\n"
}

/// The plan has these starts, and nothing where the sheet ends.
fn assert_starts(plan: &Plan, text: &[u8]) {
    let planned = read_lines(text).ok().and_then(|sheet| make_plan(&sheet));
    let starts = planned.expect("the sheet is accepted").starts;
    assert_rows(&starts, |i, h| plan.start(i, h));
}

/// The tables have this sheet, and nothing where it ends.
fn assert_held(sheet: &Sheet, tables: &Tables) {
    let (kinds, stages, edges) = (sheet.kinds, sheet.stages(), sheet.edges.len());
    let sizes = Sizes {
        kinds,
        stages,
        edges,
    };
    assert_eq!(tables.sizes(), Some(sizes));
    assert_rows(&sheet.durations, |i, h| tables.duration(i, h));
    for (e, edge) in sheet.edges.iter().enumerate() {
        assert_eq!(tables.ends(e), Some((edge.source, edge.target)));
        let waits: Vec<Vec<u32>> = edge.waits.chunks(kinds).map(<[u32]>::to_vec).collect();
        assert_rows(&waits, |h, k| tables.wait(e, h, k));
    }
    assert_eq!((tables.ends(edges), tables.wait(edges, 0, 0)), (None, None));
}

/// `entry` gives the numbers of these rows, and none beyond them.
fn assert_rows(rows: &[Vec<u32>], entry: impl Fn(usize, usize) -> Option<u32>) {
    for row in 0..=rows.len() {
        for column in 0..=rows[0].len() {
            let expected = rows.get(row).and_then(|row| row.get(column)).copied();
            assert_eq!(entry(row, column), expected, "row {row}, column {column}");
        }
    }
}

fn lent_sheet(random: &mut Random, text: &[u8]) -> LentSheet {
    LentSheet::new(text, *random.pick(b"\n\n0,E"))
}

/// How an answer and buffers differ from those expected.
fn difference<A: PartialEq + Debug, B: Compared>(
    (answer, buffers): (&A, &B),
    (expected_answer, expected): (&A, &B),
) -> Option<String> {
    if answer != expected_answer {
        return Some(format!("{answer:?}, not {expected_answer:?}"));
    }
    if buffers != expected {
        return Some(buffers.first_difference(expected).expect("they differ"));
    }
    None
}

/// The text, or its beginning and its end.
fn excerpt(text: &[u8]) -> String {
    if text.len() <= 400 {
        return text.escape_ascii().to_string();
    }
    let (first, last) = (&text[..200], &text[text.len() - 100..]);
    let (first, last) = (first.escape_ascii(), last.escape_ascii());
    format!("of {} bytes {first} .. {last}", text.len())
}
