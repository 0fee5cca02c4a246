//! Each layer behind `read` beside the same in plain Rust, and the sum of them.

use std::hint::black_box;

use checks::compare_layers::clearing_of;
use checks::draw::{full_sheet, long_sheet, most_boards_sheet};
use checks::layers::{Chains, Exported, Layers, PlanTables, SheetTables, Side};
use checks::plain_layers::Plain;
use rackplan::{DURATIONS_LEN, EDGES_MAX, ENDS_LEN, SHEET_MAX, STAGES_MAX, WAITS_LEN};
use reference::generator::{draw_sheet, most_copies_sheet, Numbers, Random, Shape, Wish};
use reference::{make_plan, plan_text, Sheet};

use crate::measure::{measure, Effort};

/// Length of the printed plan of any sheet, at most.
const OUT_LEN: usize = 32_796;

const ROWS: [&str; 9] = [
    "chains", "order", "starts", "finish", "copies", "boards", "length", "text", "sum",
];
/// The last of them: all layers in turn.
pub const SUM: usize = ROWS.len() - 1;

pub fn print(effort: &Effort) {
    println!("The layers: library / plain Rust / ratio.");
    println!();
    print!("{:41}", "sheet");
    for row in ROWS {
        print!(" {row:>16}");
    }
    println!();
    let mut random = Random::new(8);
    for (name, sheet) in largest_sheets(&mut random) {
        print_row(effort, name, &sheet);
    }
    println!();
    println!("Growth: parts of one large sheet.");
    println!();
    for eighths in [1, 2, 4, 8] {
        let sheet = part_of_largest(eighths);
        print_row(effort, &format!("{eighths}/8"), &sheet);
    }
}

fn largest_sheets(random: &mut Random) -> Vec<(&'static str, Sheet)> {
    let mut sheets = vec![
        ("65000 bytes", long_sheet(random, 4, SHEET_MAX)),
        ("65000 bytes", long_sheet(random, 3, SHEET_MAX)),
        ("1016 copies", most_copies_sheet()),
        ("1016 boards", most_boards_sheet()),
    ];
    for (name, kinds, shape, numbers) in [
        ("layered", 4, Shape::Layered, Numbers::Short),
        ("forks and joins", 4, Shape::ForkJoin, Numbers::Short),
        ("dense", 2, Shape::Dense, Numbers::Wide),
        ("dense", 1, Shape::Dense, Numbers::Wide),
        ("no edges", 4, Shape::NoEdges, Numbers::Wide),
    ] {
        sheets.push((name, full_sheet(random, kinds, shape, numbers)));
    }
    sheets
}

/// A sheet with so many eighths of 256 stages and of 1024 edges.
fn part_of_largest(eighths: usize) -> Sheet {
    let wish = Wish {
        kinds: 4,
        stages: 32 * eighths,
        edges: 128 * eighths,
        shape: Shape::Dense,
        numbers: Numbers::Short,
    };
    draw_sheet(&mut Random::new(9), &wish)
}

/// Everything that the layers write.
#[derive(Clone, PartialEq, Eq, Debug)]
pub struct Work {
    head: [Vec<u32>; 2],
    prev: [Vec<u32>; 2],
    order: Vec<u32>,
    starts: Vec<u32>,
    finish: u32,
    copied: Vec<u8>,
    pub rows: Vec<u32>,
    counts: Vec<u32>,
    pub copies: usize,
    pub length: usize,
    pub out: Vec<u8>,
}

impl Work {
    pub fn new() -> Work {
        Work {
            head: [vec![0; STAGES_MAX], vec![0; STAGES_MAX]],
            prev: [vec![0; EDGES_MAX], vec![0; EDGES_MAX]],
            order: vec![0; STAGES_MAX],
            starts: vec![0; DURATIONS_LEN],
            finish: 0,
            copied: vec![0; DURATIONS_LEN],
            rows: vec![0; 4 * DURATIONS_LEN],
            counts: vec![0; 4],
            copies: 0,
            length: 0,
            out: vec![0; OUT_LEN],
        }
    }

    /// The layer of a row of [`ROWS`].
    pub fn run<L: Layers>(&mut self, sheet: &SheetTables, row: usize) {
        let by_source = Chains {
            head: &self.head[0],
            prev: &self.prev[0],
        };
        let by_target = Chains {
            head: &self.head[1],
            prev: &self.prev[1],
        };
        let plan = PlanTables {
            finish: self.finish,
            counts: &self.counts,
            rows: &self.rows,
            copies: self.copies,
        };
        match row {
            0 => {
                for side in [Side::Source, Side::Target] {
                    let (head, prev) =
                        (&mut self.head[side as usize], &mut self.prev[side as usize]);
                    L::chain(sheet, side, head, prev);
                }
            }
            1 => {
                let circular = L::running_order(sheet, by_source, &mut self.order);
                assert!(!circular);
            }
            2 => L::start_times(sheet, by_target, &self.order, &mut self.starts),
            3 => self.finish = L::finish_time(sheet, &self.starts),
            4 => {
                let (order, starts) = (&self.order, &self.starts);
                L::choose_copies(sheet, by_source, order, starts, &mut self.copied);
            }
            5 => {
                let (starts, copied) = (&self.starts, &self.copied);
                self.copies =
                    L::assign_boards(sheet, starts, copied, &mut self.rows, &mut self.counts);
            }
            6 => self.length = L::plan_length(sheet, &plan),
            7 => {
                L::write_plan(sheet, &plan, &mut self.out);
            }
            _ => (0..SUM).for_each(|row| self.run::<L>(sheet, row)),
        }
    }
}

fn print_row(effort: &Effort, name: &str, sheet: &Sheet) {
    let mut durations = vec![0; DURATIONS_LEN];
    let mut ends = vec![0; ENDS_LEN];
    let mut waits = vec![0; WAITS_LEN];
    let sizes = rackplan::read(&sheet.to_text(), &mut durations, &mut ends, &mut waits)
        .expect("a sheet to be measured is accepted");
    let tables = SheetTables {
        kinds: sizes.kinds,
        stages: sizes.stages,
        edges: sizes.edges,
        clearing: clearing_of(sheet),
        durations: &durations,
        ends: &ends,
        waits: &waits,
    };
    let mut works = [Work::new(), Work::new()];
    works[0].run::<Exported>(&tables, SUM);
    works[1].run::<Plain>(&tables, SUM);
    check(sheet, &works);
    let (kinds, stages, edges) = (sizes.kinds, sizes.stages, sizes.edges);
    print!("{:41}", format!("J,{kinds},{stages},{edges}: {name}"));
    for row in 0..ROWS.len() {
        let [library, plain] = measure(effort, |contestant| {
            let work = black_box(&mut works[contestant]);
            let tables = black_box(&tables);
            match contestant {
                0 => work.run::<Exported>(tables, row),
                _ => work.run::<Plain>(tables, row),
            }
        });
        let cell = format!("{library:.1}/{plain:.1} {:.2}", library / plain);
        print!(" {cell:>16}");
    }
    println!();
}

/// What is measured has to be right.
fn check(sheet: &Sheet, [library, plain]: &[Work; 2]) {
    let plan = make_plan(sheet).expect("a sheet to be measured is accepted");
    let text = plan_text(sheet, &plan);
    assert_eq!(library, plain);
    assert_eq!(library.length, text.len());
    assert_eq!(library.out[..text.len()], text[..]);
}
