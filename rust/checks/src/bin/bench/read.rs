//! The exported `rackplan_read` beside the same call in plain Rust, which reads
//! numbers in one of two ways, and beside one pass that only adds up the sheet's
//! numbers.
//!
//! Many sheets of a shape take turns. A processor that meets one sheet again and
//! again learns the lengths of its numbers, which nobody's use of it does.

use std::hint::black_box;

use checks::draw::{full_sheet, long_sheet};
use checks::lent::EXACT;
use checks::plain::{Digits, Words};
use checks::readers::{exported, plain, reference, Answer, Reader};
use rackplan::SHEET_MAX;
use reference::generator::{Numbers, Random, Shape};
use reference::Sheet;

use crate::measure::{measure, Effort};

/// Contestants, of which adding up is one more.
const READERS: [Reader; 3] = [exported, plain::<Digits>, plain::<Words>];
const CONTESTANTS: usize = READERS.len() + 1;

pub fn print(effort: &Effort) {
    println!(
        "Reading, {SHEETS} sheets of a shape in turn. Bytes and edges: their mean. read/plain: to the"
    );
    println!("faster of the two.");
    println!();
    println!(
        "{:41} {:>9} {:>15} {:>7}",
        "", "rackplan", "plain Rust", "adding"
    );
    println!(
        "{:34} {:>6} {:>9} {:>7} {:>7} {:>7} {:>11} {:>12}",
        "sheet", "bytes", "_read", "digits", "words", "up", "read/plain", "read/adding"
    );
    for (name, sheets) in largest_sheets() {
        print_row(effort, name, &sheets);
    }
}

/// Sheets of a shape.
const SHEETS: usize = 32;

/// No sheet with one or two kinds has more than 49000 bytes.
fn largest_sheets() -> [(&'static str, Vec<Sheet>); 5] {
    let random = &mut Random::new(7);
    [
        ("mostly 2 digits", draw(|| long_sheet(random, 4, SHEET_MAX))),
        ("mostly 6 digits", draw(|| long_sheet(random, 3, SHEET_MAX))),
        (
            "mostly 6 digits",
            draw(|| full_sheet(random, 2, Shape::Dense, Numbers::Wide)),
        ),
        (
            "mostly 6 digits",
            draw(|| full_sheet(random, 4, Shape::NoEdges, Numbers::Wide)),
        ),
        (
            "1 to 7 digits",
            draw(|| full_sheet(random, 4, Shape::Dense, Numbers::Boundary)),
        ),
    ]
}

fn draw(mut sheet: impl FnMut() -> Sheet) -> Vec<Sheet> {
    (0..SHEETS).map(|_| sheet()).collect()
}

fn print_row(effort: &Effort, name: &str, sheets: &[Sheet]) {
    let texts: Vec<Vec<u8>> = sheets.iter().map(Sheet::to_text).collect();
    let mut tables = EXACT.map(|length| vec![0; length]);
    for (sheet, text) in sheets.iter().zip(&texts) {
        check_contestants(sheet, text, &mut tables);
    }
    let mut turns = [0; CONTESTANTS];
    let times = measure::<CONTESTANTS>(effort, |contestant| {
        let text = &texts[turns[contestant] % SHEETS];
        turns[contestant] += 1;
        match READERS.get(contestant) {
            Some(reader) => call(*reader, text, &mut tables),
            None => {
                black_box(sum_of_numbers(black_box(text)));
            }
        }
    });
    let [read, digits, words, adding] = times;
    let bytes = texts.iter().map(Vec::len).sum::<usize>() / SHEETS;
    let edges = sheets.iter().map(|sheet| sheet.edges.len()).sum::<usize>() / SHEETS;
    let (kinds, stages) = (sheets[0].kinds, sheets[0].stages());
    println!(
        "{:34} {bytes:>6} {read:>9.1} {digits:>7.1} {words:>7.1} {adding:>7.1} {:>11.2} {:>12.2}",
        format!("J,{kinds},{stages},{edges}: {name}"),
        read / digits.min(words),
        read / adding
    );
}

fn call(reader: Reader, text: &[u8], tables: &mut [Vec<u32>; 3]) {
    black_box(call_reader(reader, black_box(text), black_box(tables)));
}

fn call_reader(reader: Reader, text: &[u8], tables: &mut [Vec<u32>; 3]) -> Answer {
    let [durations, ends, waits] = tables;
    reader(text, durations, ends, waits)
}

/// What is measured has to be right.
fn check_contestants(sheet: &Sheet, text: &[u8], tables: &mut [Vec<u32>; 3]) {
    let mut expected = tables.clone();
    let answer = call_reader(reference, text, &mut expected);
    assert_eq!(answer.fault, 0, "a sheet to be measured is accepted");
    for reader in READERS {
        let mut actual = tables.clone();
        assert_eq!(call_reader(reader, text, &mut actual), answer);
        assert!(actual == expected, "the tables differ");
    }
    let sizes = sheet.kinds + sheet.stages() + sheet.edges.len();
    let stages: usize = (0..sheet.stages()).sum();
    let entries: u64 = expected
        .iter()
        .flatten()
        .chain(&sheet.clearing)
        .map(|&entry| u64::from(entry))
        .sum();
    assert_eq!(sum_of_numbers(text), (sizes + stages) as u64 + entries);
}

/// Whatever is no digit ends a number; nothing is checked.
fn sum_of_numbers(text: &[u8]) -> u64 {
    let (mut sum, mut number) = (0, 0);
    for byte in text {
        let digit = byte.wrapping_sub(b'0');
        if digit < 10 {
            number = 10 * number + u64::from(digit);
        } else {
            sum += number;
            number = 0;
        }
    }
    sum + number
}
