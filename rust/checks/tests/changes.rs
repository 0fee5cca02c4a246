//! All small changes of a few sheets, and all buffer lengths for each outcome:
//! every reader and every planner agrees with the second implementation.

use checks::compare::{compare, compare_plan};
use checks::draw::{LargeTexts, Lengths, Output, OUTPUTS};
use reference::generator::Random;

const LISTING: &[u8] = b"J,2,3,2\nG,0,0\nT,0,1,1\nT,1,2,9\nT,2,9,2\nE,0,1,0,5,5,0\nE,0,2,0,5,5,0\n";

/// A sheet whose numbers differ in length from line to line, which are read in
/// another way than those of [`LISTING`] while enough bytes are left.
const UNEVEN: &[u8] = b"J,2,4,5\nG,1000000,12\n\
    T,0,1,1000000\nT,1,1000000,1\nT,2,12,123456\nT,3,123,12345\n\
    E,0,1,0,1000000,12,123456\nE,0,2,1000000,0,123456,12\nE,1,2,1,999999,123,12345\n\
    E,1,3,1234,1,9999,0\nE,2,3,123456,12345,1,1000000\n";

/// Three stages in turn on each kind: stages 1 and 2 start 3 and 5 after the end
/// of the one before on kind 0, stages 4 and 5 start 2 and 0 after it on kind 1.
const IN_TURN: &[u8] = b"J,2,6,5\nG,3,2\n\
    T,0,1,99\nT,1,1,99\nT,2,1,99\nT,3,99,1\nT,4,99,1\nT,5,99,1\n\
    E,0,1,3,99,99,99\nE,1,2,5,99,99,99\nE,3,4,99,99,99,2\nE,4,5,99,99,99,0\nE,0,2,0,99,99,99\n";

const SHEETS: [&[u8]; 3] = [LISTING, UNEVEN, IN_TURN];

/// Compares both calls on tables of exact lengths and gives the number of
/// `plan`'s fault, 0 for success. The output is long enough.
fn outcome(random: &mut Random, text: &[u8]) -> u32 {
    let read = compare(random, text, Lengths::Exact);
    let output = *random.pick(&[Output::Exact, Output::Longer]);
    let plan = compare_plan(random, text, Lengths::Exact, output);
    // `read` alone does not look for closed paths
    if plan.fault == 7 {
        assert_eq!(read.fault, 0);
    } else {
        assert_eq!((plan.fault, plan.line), (read.fault, read.line));
    }
    plan.fault
}

/// How often each of the outcomes 0 to 7 came up.
type Counts = [usize; 8];

#[test]
fn each_byte_replaced_by_each_other() {
    let mut random = Random::new(42);
    for sheet in SHEETS {
        let mut counts: Counts = [0; 8];
        for at in 0..sheet.len() {
            for byte in 0..=255 {
                let mut text = sheet.to_vec();
                text[at] = byte;
                counts[outcome(&mut random, &text) as usize] += 1;
            }
        }
        println!("outcomes 0 to 7: {counts:?}");
        for (outcome, count) in counts.into_iter().enumerate() {
            assert_eq!(count > 0, ![1, 2].contains(&outcome), "{outcome}");
        }
    }
}

#[test]
fn each_byte_left_out_and_each_put_in() {
    let mut random = Random::new(43);
    for sheet in SHEETS {
        for at in 0..=sheet.len() {
            let (before, behind) = sheet.split_at(at);
            // the text cut off here, and without its beginning
            outcome(&mut random, before);
            outcome(&mut random, behind);
            outcome(
                &mut random,
                &[before, behind.get(1..).unwrap_or(b"")].concat(),
            );
            for byte in b"\0\t\n\r ,-./0123456789:EGJTe\x7f\x80\xff" {
                outcome(&mut random, &[before, &[*byte], behind].concat());
            }
        }
    }
}

/// A sheet as fields, each with the byte behind it.
fn fields_of(sheet: &[u8]) -> Vec<&[u8]> {
    let ends_field = |byte: &u8| matches!(byte, b',' | b'\n');
    sheet.split_inclusive(ends_field).collect()
}

/// The same field with another text in it.
fn replace_field(field: &[u8], text: &str) -> Vec<u8> {
    let stop = field[field.len() - 1];
    [text.as_bytes(), &[stop]].concat()
}

#[test]
fn each_number_in_each_field() {
    let mut random = Random::new(44);
    let numbers = "0 00 1 01 2 3 4 5 9 10 255 256 257 1023 1024 1025 999999 1000000 1000001 \
                   9999999 0999999 10000000 01000000 99999999 4294967297 \
                   18446744073709551617 -1 +1 1. a J G T E";
    for fields in SHEETS.map(fields_of) {
        for at in 0..fields.len() {
            for number in numbers.split(' ').chain(["", " ", " 1", "1 "]) {
                let changed = replace_field(fields[at], number);
                let mut text = fields.clone();
                text[at] = &changed;
                outcome(&mut random, &text.concat());
            }
        }
    }
}

#[test]
fn two_bad_fields_in_one_sheet() {
    // the fault given is that of the first bad line, and in it the lowest
    let mut random = Random::new(48);
    let mut counts: Counts = [0; 8];
    for fields in SHEETS.map(fields_of) {
        let pairs =
            (1..fields.len()).flat_map(|second| (0..second).map(move |first| [first, second]));
        for [first, second] in pairs {
            for texts in [["x", "1000001"], ["1000001", "x"], ["0", "1000001"]] {
                let changed_first = replace_field(fields[first], texts[0]);
                let changed_second = replace_field(fields[second], texts[1]);
                let mut text = fields.clone();
                text[first] = &changed_first;
                text[second] = &changed_second;
                counts[outcome(&mut random, &text.concat()) as usize] += 1;
            }
        }
    }
    println!("outcomes 0 to 7: {counts:?}");
    assert!(counts[3] > 500 && counts[4] > 300 && counts[5] > 100);
}

/// A board is taken again where the gap is at least the clearing time of its own
/// kind (SPEC 5.1, 5.3).
#[test]
fn each_clearing_time_about_each_gap() {
    let mut random = Random::new(57);
    let text = String::from_utf8(IN_TURN.to_vec()).expect("ASCII");
    let clearing = [0, 1, 2, 3, 4, 5, 6, 7, 8, 9, 10, 999_999, 1_000_000];
    for one in clearing {
        for other in clearing {
            let changed = text.replace("G,3,2", &format!("G,{one},{other}"));
            let answer = compare_plan(
                &mut random,
                changed.as_bytes(),
                Lengths::Exact,
                Output::Exact,
            );
            // stage 2 starts 9 after the end of stage 0
            let first = match one {
                0..=3 => 1,
                4..=9 => 2,
                _ => 3,
            };
            // stage 5 starts 3 after the end of stage 3
            let second = match other {
                0 => 1,
                1..=3 => 2,
                _ => 3,
            };
            assert_eq!(answer.boards, [first, second, 0, 0], "{changed}");
            assert_eq!(answer.finish, 11, "{changed}");
        }
    }
}

#[test]
fn each_line_left_out_repeated_or_moved() {
    let mut random = Random::new(45);
    for sheet in SHEETS {
        let lines: Vec<&[u8]> = sheet.split_inclusive(|&byte| byte == b'\n').collect();
        for one in 0..lines.len() {
            let mut without = lines.clone();
            without.remove(one);
            outcome(&mut random, &without.concat());
            for other in 0..lines.len() {
                let mut repeated = lines.clone();
                repeated.insert(other, lines[one]);
                outcome(&mut random, &repeated.concat());
                let mut swapped = lines.clone();
                swapped.swap(one, other);
                outcome(&mut random, &swapped.concat());
            }
        }
    }
}

#[test]
fn the_end_of_large_sheets() {
    let mut random = Random::new(46);
    let large = LargeTexts::new(&mut random);
    for text in large.all() {
        outcome(&mut random, text);
        for cut in [1, 2, 3, 7, 8, 9, 100] {
            outcome(&mut random, &text[..text.len() - cut]);
        }
        for more in ["\n", "0", "E", "E,0,1,0\n"] {
            outcome(&mut random, &[text, more.as_bytes()].concat());
        }
    }
}

/// A sheet for each outcome 0 and 2 to 7.
fn sheet_of_each_outcome() -> Vec<(u32, Vec<u8>)> {
    let text = String::from_utf8(LISTING.to_vec()).expect("ASCII");
    let changed = |from: &str, to: &str| text.replace(from, to).into_bytes();
    vec![
        (0, LISTING.to_vec()),
        (0, UNEVEN.to_vec()),
        (0, IN_TURN.to_vec()),
        (2, vec![b'0'; 65_001]),
        (3, Vec::new()),
        (3, changed("T,2,9,2", "T,2,9,2,")),
        (3, changed("G,0,0\n", "")),
        (3, changed("G,0,0", "G,0")),
        (4, changed("T,2,9", "T,2,0")),
        (4, changed("G,0,0", "G,0,1000001")),
        (5, changed("T,2", "T,1")),
        (6, changed("E,0,2", "E,0,1")),
        (7, changed("E,0,2", "E,1,0")),
    ]
}

/// Those with a table, of so many, that is too short.
fn short_lengths(tables: usize) -> impl Iterator<Item = Lengths> {
    (0..tables).flat_map(|table| [Lengths::OneShort(table), Lengths::Empty(table)])
}

#[test]
fn each_table_length_for_each_outcome() {
    let mut random = Random::new(47);
    for (fault, text) in sheet_of_each_outcome() {
        let fault = if fault == 7 { 0 } else { fault };
        assert_eq!(compare(&mut random, &text, Lengths::Exact).fault, fault);
        assert_eq!(compare(&mut random, &text, Lengths::Longer).fault, fault);
        for lengths in short_lengths(3) {
            assert_eq!(compare(&mut random, &text, lengths).fault, 1);
        }
    }
}

/// Compares `plan` with all lengths of tables, list and output.
fn check_buffers(random: &mut Random, text: &[u8], fault: u32) {
    for output in OUTPUTS {
        let short = [Output::OneShort, Output::Short, Output::Empty].contains(&output);
        let fault = if fault == 0 && short { 8 } else { fault };
        for lengths in [Lengths::Exact, Lengths::Longer] {
            let answer = compare_plan(random, text, lengths, output);
            assert_eq!(answer.fault, fault, "{lengths:?}, {output:?}");
        }
        for lengths in short_lengths(5) {
            assert_eq!(compare_plan(random, text, lengths, output).fault, 1);
        }
    }
}

#[test]
fn each_buffer_length_for_each_outcome_of_plan() {
    let mut random = Random::new(49);
    for (fault, text) in sheet_of_each_outcome() {
        check_buffers(&mut random, &text, fault);
    }
    for text in LargeTexts::new(&mut random).all() {
        let fault = outcome(&mut random, text);
        check_buffers(&mut random, text, fault);
    }
}

#[test]
fn each_output_length_up_to_the_plan() {
    let mut random = Random::new(50);
    for sheet in SHEETS {
        let mut printed = compare_plan(&mut random, sheet, Lengths::Exact, Output::Exact).printed;
        while printed > 0 {
            printed -= 1;
            let output = Output::Bytes(printed);
            assert_eq!(
                compare_plan(&mut random, sheet, Lengths::Exact, output).fault,
                8
            );
        }
    }
}
