//! The comparison of planners, tried on planners that are wrong in one thing:
//! it has to tell each of them from the library.

use checks::compare::compare_planners;
use checks::draw::{Lengths, Output, OUTPUTS};
use checks::planners::{exported, PlanAnswer, PlanBuffers, Planner};
use rackplan::StageCopy;
use reference::generator::{accepted_sheet, most_copies_sheet, Random};

const LISTING: &[u8] = b"J,2,3,2\nG,0,0\nT,0,1,1\nT,1,2,9\nT,2,9,2\nE,0,1,0,5,5,0\nE,0,2,0,5,5,0\n";
const LISTING_PLAN: &[u8] = b"P,3,1,1\nC,0,0,0,0,1\nC,0,1,0,0,1\nC,1,0,0,1,3\nC,2,1,0,1,3\n";
const CIRCULAR: &[u8] = b"J,1,1,1\nG,0\nT,0,5\nE,0,0,0\n";
const REPEATED: &[u8] = b"J,1,2,2\nG,0\nT,0,5\nT,1,5\nE,0,1,0\nE,0,1,3\n";
const BAD_FORM: &[u8] = b"J,1,1,0\nG,0\nT,0,5";

/// SPEC 11.12: a board is free again 1 after the start of the next copy.
const TWO_BOARDS: &[u8] = b"J,1,2,1\nG,1\nT,0,5\nT,1,5\nE,0,1,0\n";
/// SPEC 11.13: at that very time.
const IN_TIME: &[u8] = b"J,1,2,1\nG,1\nT,0,5\nT,1,5\nE,0,1,1\n";
/// SPEC 11.14: each kind has its own clearing time.
const BY_KIND: &[u8] =
    b"J,2,4,2\nG,1,0\nT,0,1,9\nT,1,1,9\nT,2,9,1\nT,3,9,1\nE,0,1,0,9,9,0\nE,2,3,0,9,9,0\n";

/// Whether the comparison sees a difference.
fn told_apart(planner: Planner, text: &[u8], lengths: Lengths, output: Output) -> bool {
    // three draws of the old content
    (60..63).all(|seed| {
        let planners = [("planted", planner)];
        compare_planners(&planners, &mut Random::new(seed), text, lengths, output).is_err()
    })
}

/// Runs the library, then changes what it left.
fn then(
    change: impl Fn(&mut PlanAnswer, &mut PlanBuffers),
) -> impl Fn(&[u8], PlanBuffers) -> PlanAnswer {
    move |sheet, mut buffers| {
        let mut answer = exported(sheet, buffers.lend());
        change(&mut answer, &mut buffers);
        answer
    }
}

#[test]
fn the_library_itself_passes() {
    let cleared = [TWO_BOARDS, IN_TIME, BY_KIND];
    for text in [LISTING, CIRCULAR, REPEATED, BAD_FORM, b""]
        .into_iter()
        .chain(cleared)
    {
        for output in OUTPUTS {
            for lengths in [Lengths::Exact, Lengths::Longer, Lengths::OneShort(3)] {
                assert!(!told_apart(&exported, text, lengths, output));
                let nothing = then(|_, _| ());
                assert!(!told_apart(&nothing, text, lengths, output));
            }
        }
    }
}

/// The numbers of a buffer, as they lie.
fn numbers<'a>(buffers: &'a mut PlanBuffers, buffer: usize) -> Vec<&'a mut u32> {
    let of_copy = |copy: &'a mut StageCopy| {
        [
            &mut copy.stage,
            &mut copy.kind,
            &mut copy.board,
            &mut copy.start,
        ]
    };
    match buffer {
        0 => buffers.durations.iter_mut().collect(),
        1 => buffers.ends.iter_mut().collect(),
        2 => buffers.waits.iter_mut().collect(),
        3 => buffers.starts.iter_mut().collect(),
        _ => buffers.copies.iter_mut().flat_map(of_copy).collect(),
    }
}

#[test]
fn every_entry_and_every_field_of_a_record_is_compared() {
    // what the call needs; one more is there
    let needed = [1024, 2048, 16384, 1024, 4 * 1024];
    for (text, output) in [
        (LISTING, Output::Exact),
        (LISTING, Output::OneShort),
        (CIRCULAR, Output::Most),
        (BAD_FORM, Output::Most),
    ] {
        for (buffer, length) in needed.into_iter().enumerate() {
            // all at the front and at the end, and some between
            let between = (64..length - 64).step_by(61);
            for at in (0..64).chain(between).chain(length - 64..=length) {
                let changed = then(|_, buffers| *numbers(buffers, buffer)[at] ^= 1);
                let told = told_apart(&changed, text, Lengths::Longer, output);
                assert!(told, "buffer {buffer}, number {at}");
            }
        }
    }
}

#[test]
fn every_byte_of_the_output_is_compared() {
    let printed = LISTING_PLAN.len();
    for (text, bytes) in [
        (LISTING, printed),
        (LISTING, printed + 9),
        (LISTING, printed - 1),
        (CIRCULAR, 9),
        (BAD_FORM, 9),
    ] {
        for at in 0..bytes {
            let changed = then(|_, buffers| buffers.out[at] ^= 1);
            let told = told_apart(&changed, text, Lengths::Exact, Output::Bytes(bytes));
            assert!(told, "byte {at} of {bytes}");
        }
    }
}

#[test]
fn every_field_of_the_answer_is_compared() {
    type Change = fn(&mut PlanAnswer);
    let changes: [Change; 9] = [
        |answer| answer.fault ^= 1,
        |answer| answer.line ^= 1,
        |answer| answer.finish ^= 1,
        |answer| answer.boards[0] ^= 1,
        |answer| answer.boards[1] ^= 1,
        |answer| answer.boards[2] ^= 1,
        |answer| answer.boards[3] ^= 1,
        |answer| answer.copies ^= 1,
        |answer| answer.printed ^= 1,
    ];
    for (place, change) in changes.into_iter().enumerate() {
        for (text, output) in [
            (LISTING, Output::Exact),
            (LISTING, Output::Empty),
            (CIRCULAR, Output::Most),
            (REPEATED, Output::Most),
            (BAD_FORM, Output::Most),
        ] {
            let changed = then(|answer, _| change(answer));
            let told = told_apart(&changed, text, Lengths::Exact, output);
            assert!(told, "field {place}");
        }
    }
}

/// A sheet and the length of an output with which a planner is told apart.
type Case = (&'static [u8], Output);

fn assert_told_apart(name: &str, planner: Planner, (text, output): Case) {
    let told = told_apart(planner, text, Lengths::Exact, output);
    assert!(told, "{name}");
}

fn fault(number: u32) -> PlanAnswer {
    PlanAnswer {
        fault: number,
        ..PlanAnswer::default()
    }
}

/// Planners that give one answer for every sheet, or leave out the copies.
#[test]
fn planners_that_do_not_plan_are_told_apart() {
    let all_circular = |sheet: &[u8], buffers: PlanBuffers| {
        let PlanBuffers {
            durations,
            ends,
            waits,
            ..
        } = buffers;
        rackplan::read(sheet, durations, ends, waits).expect("it is a sheet");
        fault(7)
    };
    assert_told_apart("all circular", &all_circular, (LISTING, Output::Exact));
    let always_short = |_: &[u8], _: PlanBuffers| fault(8);
    assert_told_apart("always short", &always_short, (LISTING, Output::Exact));
    assert_told_apart("short unmeasured", &always_short, (LISTING, Output::Empty));
    let one_plan = |_: &[u8], buffers: PlanBuffers| exported(LISTING, buffers);
    assert_told_apart("one plan", &one_plan, (CIRCULAR, Output::Most));
    assert_told_apart(
        "one plan",
        &one_plan,
        (b"J,1,1,0\nG,0\nT,0,5\n", Output::Most),
    );
    let no_copies = |sheet: &[u8], mut buffers: PlanBuffers| {
        let old = buffers.copies.to_vec();
        let answer = exported(sheet, buffers.lend());
        buffers.copies.copy_from_slice(&old);
        answer
    };
    assert_told_apart("no copies", &no_copies, (LISTING, Output::Exact));
}

/// Planners whose answer and plan are right.
#[test]
fn planners_that_leave_something_else_in_a_buffer_are_told_apart() {
    let swapped = then(|_, buffers| buffers.copies.swap(2, 3));
    assert_told_apart("order of copies", &swapped, (LISTING, Output::Exact));
    let cleared = then(|_, buffers| buffers.copies[4..].fill(StageCopy::default()));
    assert_told_apart("records past", &cleared, (LISTING, Output::Exact));
    let cleared = then(|_, buffers| buffers.durations[12..].fill(0));
    assert_told_apart("unused durations", &cleared, (LISTING, Output::Exact));
    let ended = then(|answer, buffers| buffers.out[answer.printed] = 0);
    assert_told_apart("a byte 0 behind", &ended, (LISTING, Output::Longer));
    let part_printed = then(|_, buffers| {
        let room = buffers.out.len();
        buffers.out.copy_from_slice(&LISTING_PLAN[..room]);
    });
    let short = (LISTING, Output::OneShort);
    assert_told_apart("printed in part", &part_printed, short);
    let early = then(|_, buffers| buffers.durations[0] = 5);
    assert_told_apart("stored too early", &early, (BAD_FORM, Output::Most));
    let planned = then(|_, buffers| buffers.starts[0] = 0);
    assert_told_apart("starts after 7", &planned, (CIRCULAR, Output::Most));
    assert_told_apart("starts after 6", &planned, (REPEATED, Output::Most));
    let forgotten = |sheet: &[u8], mut buffers: PlanBuffers| {
        let old = buffers.waits.to_vec();
        let answer = exported(sheet, buffers.lend());
        buffers.waits.copy_from_slice(&old);
        answer
    };
    assert_told_apart("waits after 7", &forgotten, (CIRCULAR, Output::Most));
    assert_told_apart("waits after 8", &forgotten, (LISTING, Output::Empty));
}

#[test]
fn a_planner_that_goes_by_old_content_is_told_apart() {
    // on a sheet of 1016 copies, by the last record alone
    let text = most_copies_sheet().to_text();
    let by_old = |sheet: &[u8], mut buffers: PlanBuffers| {
        let old = buffers.copies[1015];
        let answer = exported(sheet, buffers.lend());
        buffers.copies[1015].board = old.board;
        answer
    };
    let told = told_apart(&by_old, &text, Lengths::Exact, Output::Most);
    assert!(told);
}

/// What a planner takes for the clearing times.
type Taken = fn(&mut Vec<u32>);

/// Runs the library on the sheet with these clearing times. A second line of
/// another form is left as it is.
fn taking(taken: Taken) -> impl Fn(&[u8], PlanBuffers) -> PlanAnswer {
    move |sheet, buffers| {
        let mut lines: Vec<&[u8]> = sheet.split_inclusive(|&byte| byte == b'\n').collect();
        let Some(mut times) = lines.get(1).and_then(|line| clearing_times(line)) else {
            return exported(sheet, buffers);
        };
        taken(&mut times);
        let fields: String = times.iter().map(|time| format!(",{time}")).collect();
        let line = format!("G{fields}\n");
        lines[1] = line.as_bytes();
        exported(&lines.concat(), buffers)
    }
}

fn clearing_times(line: &[u8]) -> Option<Vec<u32>> {
    let line = std::str::from_utf8(line).ok()?;
    let fields = line.strip_prefix("G,")?.strip_suffix('\n')?;
    fields.split(',').map(|field| field.parse().ok()).collect()
}

/// Planners whose boards are wrong, each with a sheet that shows it, and on how
/// many of 1000 drawn sheets it has to be told apart.
const BOARD_RULES: [(&str, Taken, &[u8], usize); 3] = [
    (
        "a board is taken again when its copy ends",
        |times| times.fill(0),
        TWO_BOARDS,
        400,
    ),
    (
        "a board clears as long as one of another kind",
        |times| times.rotate_left(1),
        BY_KIND,
        180,
    ),
    // end + clearing + 1 <= start, that is end + clearing < start
    (
        "a board is not taken at the very time at which it has cleared",
        |times| {
            let later = |time: &mut u32| *time = (*time + 1).min(1_000_000);
            times.iter_mut().for_each(later);
        },
        IN_TIME,
        200,
    ),
];

#[test]
fn planners_that_clear_otherwise_are_told_apart() {
    for (name, taken, sheet, _) in BOARD_RULES {
        assert_told_apart(name, &taking(taken), (sheet, Output::Exact));
    }
}

#[test]
fn drawn_sheets_tell_planners_apart_that_clear_otherwise() {
    let mut random = Random::new(59);
    let mut told = [0; BOARD_RULES.len()];
    for _ in 0..1_000 {
        let text = accepted_sheet(&mut random, 40).to_text();
        for (told, (_, taken, ..)) in told.iter_mut().zip(BOARD_RULES) {
            let apart = told_apart(&taking(taken), &text, Lengths::Exact, Output::Most);
            *told += usize::from(apart);
        }
    }
    for (told, (name, _, _, least)) in told.into_iter().zip(BOARD_RULES) {
        println!("{told:6} {name}");
        assert!(told >= least, "{name}: {told} of {least}");
    }
}

/// Ends and finish are those of copies, whose boards clear afterwards.
#[test]
fn planners_that_print_clearing_times_are_told_apart() {
    let printing = |text: &'static [u8]| {
        then(move |answer, buffers| buffers.out[..answer.printed].copy_from_slice(text))
    };
    let right = printing(b"P,10,2\nC,0,0,0,0,5\nC,1,0,1,5,10\n");
    assert!(!told_apart(
        &right,
        TWO_BOARDS,
        Lengths::Exact,
        Output::Exact
    ));
    let ends = printing(b"P,10,2\nC,0,0,0,0,6\nC,1,0,1,5,11\n");
    assert_told_apart("cleared ends", &ends, (TWO_BOARDS, Output::Exact));
    let finish = printing(b"P,11,2\nC,0,0,0,0,5\nC,1,0,1,5,10\n");
    assert_told_apart("cleared finish", &finish, (TWO_BOARDS, Output::Exact));
    let returned = then(|answer, _| answer.finish += 1);
    assert_told_apart("finish returned", &returned, (TWO_BOARDS, Output::Exact));
}

#[test]
fn planners_that_take_other_clearing_times_are_told_apart() {
    let cases: [(&str, Taken, &[u8]); 3] = [
        (
            "a clearing time of 1000001",
            |times| {
                times
                    .iter_mut()
                    .for_each(|time| *time = (*time).min(1_000_000))
            },
            b"J,2,1,0\nG,0,1000001\nT,0,5,5\n",
        ),
        (
            "one too few",
            |times| times.push(0),
            b"J,2,1,0\nG,0\nT,0,5,5\n",
        ),
        (
            "one too many",
            |times| times.truncate(1),
            b"J,1,1,0\nG,0,0\nT,0,5\n",
        ),
    ];
    for (name, taken, sheet) in cases {
        assert_told_apart(name, &taking(taken), (sheet, Output::Most));
    }
    let none_needed = |sheet: &[u8], buffers: PlanBuffers| {
        let text = String::from_utf8(sheet.to_vec()).expect("ASCII");
        exported(text.replacen('\n', "\nG,0\n", 1).as_bytes(), buffers)
    };
    let sheet: &[u8] = b"J,1,1,0\nT,0,5\n";
    assert_told_apart("none at all", &none_needed, (sheet, Output::Most));
}

/// Planners that count lines as if stages came right behind the header.
#[test]
fn planners_that_count_lines_without_the_second_are_told_apart() {
    let not_moved = then(|answer, _| answer.line -= u32::from(answer.line > 2));
    let cases: [&[u8]; 5] = [
        b"J,1,1,0\nG,0\nT,0,0\n",
        b"J,1,1,0\nG,0\nT,1,5\n",
        b"J,1,1,1\nG,0\nT,0,5\nE,0,9,0\n",
        BAD_FORM,
        REPEATED,
    ];
    for sheet in cases {
        assert_told_apart("a line not moved", &not_moved, (sheet, Output::Most));
    }
}
