//! The whole call, from a sheet's bytes to the printed plan: the exported
//! `rackplan_plan` beside plain Rust, which reads numbers in one of two ways and
//! works in tables that it need not clear.

use std::hint::black_box;

use checks::draw::{full_sheet, long_sheet, most_boards_sheet};
use checks::layers::SheetTables;
use checks::plain::{read_to_plan, Digits, Head, ReadField, Words};
use checks::plain_layers::Plain;
use rackplan::{COPIES_LEN, DURATIONS_LEN, ENDS_LEN, PLAN_MAX, SHEET_MAX, STARTS_LEN, WAITS_LEN};
use reference::generator::{most_copies_sheet, Numbers, Random, Shape};
use reference::{program_output, Sheet};

use crate::layers::{Work, SUM};
use crate::measure::{measure, Effort};

/// Sheets of a shape.
const SHEETS: usize = 32;

pub fn print(effort: &Effort) {
    println!("The whole call, {SHEETS} sheets of a shape in turn. Bytes and edges: their mean. ratio: to the");
    println!("faster of the two.");
    println!();
    println!("{:41} {:>9} {:>15}", "", "rackplan", "plain Rust");
    println!(
        "{:34} {:>6} {:>9} {:>7} {:>7} {:>7}",
        "sheet", "bytes", "_plan", "digits", "words", "ratio"
    );
    for (name, sheets) in largest_sheets() {
        print_row(effort, name, &sheets);
    }
}

fn largest_sheets() -> Vec<(&'static str, Vec<Sheet>)> {
    let random = &mut Random::new(11);
    let mut sheets = vec![
        ("2 digits", draw(|| long_sheet(random, 4, SHEET_MAX))),
        ("6 digits", draw(|| long_sheet(random, 3, SHEET_MAX))),
        ("1016 copies", draw(most_copies_sheet)),
        ("1016 boards", draw(most_boards_sheet)),
    ];
    for (name, kinds, shape, numbers) in [
        ("layered", 4, Shape::Layered, Numbers::Short),
        ("forks and joins", 4, Shape::ForkJoin, Numbers::Short),
        ("1 to 7 digits", 4, Shape::Dense, Numbers::Boundary),
        ("dense", 2, Shape::Dense, Numbers::Wide),
        ("dense", 1, Shape::Dense, Numbers::Wide),
        ("no edges", 4, Shape::NoEdges, Numbers::Wide),
    ] {
        sheets.push((name, draw(|| full_sheet(random, kinds, shape, numbers))));
    }
    sheets
}

fn draw(mut sheet: impl FnMut() -> Sheet) -> Vec<Sheet> {
    (0..SHEETS).map(|_| sheet()).collect()
}

/// What a call is lent, and plain Rust's own tables.
struct Lent {
    durations: Vec<u32>,
    ends: Vec<u32>,
    waits: Vec<u32>,
    starts: Vec<u32>,
    copies: Vec<rackplan::StageCopy>,
    out: Vec<u8>,
    work: Work,
}

impl Lent {
    fn new() -> Lent {
        Lent {
            durations: vec![0; DURATIONS_LEN],
            ends: vec![0; ENDS_LEN],
            waits: vec![0; WAITS_LEN],
            starts: vec![0; STARTS_LEN],
            copies: vec![Default::default(); COPIES_LEN],
            out: vec![0; PLAN_MAX],
            work: Work::new(),
        }
    }

    /// Plans by the library, and gives the length of the plan.
    fn library(&mut self, text: &[u8]) -> usize {
        let totals = rackplan::plan(
            text,
            &mut self.durations,
            &mut self.ends,
            &mut self.waits,
            &mut self.starts,
            &mut self.copies,
            &mut self.out,
        );
        totals.expect("a sheet to be measured is accepted").printed
    }

    /// The same in plain Rust.
    fn plain<F: ReadField>(&mut self, text: &[u8]) -> usize {
        let (durations, ends, waits) = (&mut self.durations, &mut self.ends, &mut self.waits);
        let read = read_to_plan::<F>(text, durations, ends, waits);
        let Head { sizes, clearing } = read.expect("it is accepted");
        let tables = SheetTables {
            kinds: sizes.kinds,
            stages: sizes.stages,
            edges: sizes.edges,
            clearing,
            durations,
            ends,
            waits,
        };
        self.work.run::<Plain>(&tables, SUM);
        let rows = self.work.rows.chunks_exact(4);
        for (copy, row) in self.copies.iter_mut().zip(rows).take(self.work.copies) {
            (copy.stage, copy.kind, copy.board, copy.start) = (row[0], row[1], row[2], row[3]);
        }
        self.work.length
    }
}

fn print_row(effort: &Effort, name: &str, sheets: &[Sheet]) {
    let texts: Vec<Vec<u8>> = sheets.iter().map(Sheet::to_text).collect();
    let mut lent = Lent::new();
    for text in &texts {
        check(&mut lent, text);
    }
    let mut turns = [0; 3];
    let [library, digits, words] = measure::<3>(effort, |contestant| {
        let text = black_box(&texts[turns[contestant] % SHEETS]);
        turns[contestant] += 1;
        black_box(match contestant {
            0 => lent.library(text),
            1 => lent.plain::<Digits>(text),
            _ => lent.plain::<Words>(text),
        });
    });
    let bytes = texts.iter().map(Vec::len).sum::<usize>() / SHEETS;
    let edges = sheets.iter().map(|sheet| sheet.edges.len()).sum::<usize>() / SHEETS;
    let (kinds, stages) = (sheets[0].kinds, sheets[0].stages());
    println!(
        "{:34} {bytes:>6} {library:>9.1} {digits:>7.1} {words:>7.1} {:>7.2}",
        format!("J,{kinds},{stages},{edges}: {name}"),
        library / digits.min(words)
    );
}

/// What is measured has to be right.
fn check(lent: &mut Lent, text: &[u8]) {
    let printed = program_output(text);
    assert_eq!(printed[0], b'P', "a sheet to be measured is accepted");
    let length = lent.library(text);
    assert_eq!(lent.out[..length], printed[..]);
    let copies = lent.copies.clone();
    for plain in [Lent::plain::<Digits>, Lent::plain::<Words>] {
        lent.copies.fill(Default::default());
        let length = plain(lent, text);
        assert_eq!(lent.work.out[..length], printed[..]);
        assert_eq!(lent.copies[..lent.work.copies], copies[..lent.work.copies]);
    }
}
