//! Every boundary of every number of a sheet.

mod common;

use common::{one_kind, verdict};
use reference::generator::{draw_sheet, Numbers, Random, Shape, Wish};

/// Fields that are no numbers, so that their line is of another form.
const NOT_NUMBERS: [&str; 22] = [
    "",
    "00",
    "01",
    "007",
    "0000001",
    "00000001",
    "10000000",
    "99999999",
    "18446744073709551617",
    "+1",
    "-1",
    "-0",
    " 1",
    "1 ",
    "\t1",
    "1\r",
    "1.0",
    "1e0",
    "0x1",
    "\"1\"",
    "x",
    "\u{661}",
];

/// A place for a field, marked `@`, in a sheet accepted with one field of
/// `good`. The fields of `bad` give this fault.
struct Place {
    name: &'static str,
    text: &'static str,
    line: u32,
    good: &'static [&'static str],
    bad_number: u32,
    bad: &'static [&'static str],
}

const PLACES: [Place; 10] = [
    Place {
        name: "K",
        text: "J,@,1,0\nG,0\nT,0,1\n",
        line: 1,
        good: &["1"],
        bad_number: 4,
        bad: &["0", "5", "10", "256", "999999", "9999999"],
    },
    Place {
        name: "N",
        text: "J,1,@,0\nG,0\nT,0,1\n",
        line: 1,
        good: &["1"],
        bad_number: 4,
        bad: &["0", "257", "1000", "9999999"],
    },
    Place {
        name: "M",
        text: "J,1,1,@\nG,0\nT,0,1\n",
        line: 1,
        good: &["0"],
        bad_number: 4,
        bad: &["1025", "1026", "9999", "9999999"],
    },
    Place {
        name: "stage of a T line",
        text: "J,1,2,0\nG,0\nT,0,1\nT,@,1\n",
        line: 4,
        good: &["1"],
        bad_number: 5,
        bad: &["0", "2", "255", "256", "1000000", "1000001", "9999999"],
    },
    Place {
        name: "first clearing time",
        text: "J,2,1,0\nG,@,0\nT,0,1,1\n",
        line: 2,
        good: &["0", "1", "999999", "1000000"],
        bad_number: 4,
        bad: &["1000001", "9999999"],
    },
    Place {
        name: "last clearing time",
        text: "J,4,1,0\nG,0,1,1000000,@\nT,0,1,1,1,1\n",
        line: 2,
        good: &["0", "1", "999999", "1000000"],
        bad_number: 4,
        bad: &["1000001", "9999999"],
    },
    Place {
        name: "duration",
        text: "J,2,1,0\nG,0,0\nT,0,1,@\n",
        line: 3,
        good: &["1", "2", "999999", "1000000"],
        bad_number: 4,
        bad: &["0", "1000001", "9999999"],
    },
    Place {
        name: "first stage of an E line",
        text: "J,1,3,1\nG,0\nT,0,1\nT,1,1\nT,2,1\nE,@,2,0\n",
        line: 6,
        good: &["0", "1"],
        bad_number: 5,
        bad: &["3", "4", "255", "256", "1000001", "9999999"],
    },
    Place {
        name: "second stage of an E line",
        text: "J,1,3,1\nG,0\nT,0,1\nT,1,1\nT,2,1\nE,0,@,0\n",
        line: 6,
        good: &["1", "2"],
        bad_number: 5,
        bad: &["3", "4", "255", "256", "1000001", "9999999"],
    },
    Place {
        name: "wait",
        text: "J,2,2,1\nG,0,0\nT,0,1,1\nT,1,1,1\nE,0,1,0,@,0,0\n",
        line: 5,
        good: &["0", "1", "999999", "1000000"],
        bad_number: 4,
        bad: &["1000001", "9999999"],
    },
];

#[test]
fn fields_within_their_range_are_accepted() {
    for place in PLACES {
        for field in place.good {
            let text = place.text.replace('@', field);
            assert_eq!(verdict(&text), None, "{} {field:?}", place.name);
        }
    }
}

#[test]
fn fields_outside_their_range_give_4_or_for_stages_5() {
    for place in PLACES {
        for field in place.bad {
            let text = place.text.replace('@', field);
            let expected = Some((place.bad_number, place.line));
            assert_eq!(verdict(&text), expected, "{} {field:?}", place.name);
        }
    }
}

#[test]
fn fields_that_are_no_numbers_give_3() {
    for place in PLACES {
        for field in NOT_NUMBERS {
            let text = place.text.replace('@', field);
            let expected = Some((3, place.line));
            assert_eq!(verdict(&text), expected, "{} {field:?}", place.name);
        }
    }
}

#[test]
fn every_byte_that_is_no_digit_gives_3_in_every_place() {
    for place in PLACES {
        // a byte 10 would end the line instead
        let no_digit = |byte: &u8| !byte.is_ascii_digit() && *byte != b'\n';
        for byte in (0..=255).filter(no_digit) {
            let (before, after) = place.text.split_once('@').expect("a marked place");
            let text = [before.as_bytes(), b"1", &[byte], after.as_bytes()].concat();
            let expected = Some((3, place.line));
            assert_eq!(verdict(&text), expected, "{} byte {byte}", place.name);
        }
    }
}

#[test]
fn one_to_four_kinds_are_accepted() {
    for kinds in 1..=4 {
        let clearing = ",0".repeat(kinds);
        let durations = ",1".repeat(kinds);
        let waits = ",0".repeat(kinds * kinds);
        let lines = format!("T,0{durations}\nT,1{durations}\nE,0,1{waits}\n");
        let text = format!("J,{kinds},2,1\nG{clearing}\n{lines}");
        assert_eq!(verdict(&text), None, "{kinds} kinds");
    }
}

#[test]
fn five_kinds_give_4_though_all_lines_have_five() {
    let text = "J,5,1,0\nG,0,0,0,0,0\nT,0,1,1,1,1,1\n";
    assert_eq!(verdict(text), Some((4, 1)));
}

#[test]
fn stages_1_and_256_are_accepted_and_257_give_4() {
    assert_eq!(verdict(one_kind(&[1], &[])), None);
    assert_eq!(verdict(one_kind(&[1; 256], &[])), None);
    assert_eq!(verdict(one_kind(&[1; 257], &[])), Some((4, 1)));
}

#[test]
fn the_last_stage_of_256_is_a_good_end_of_an_edge() {
    assert_eq!(verdict(one_kind(&[1; 256], &[(254, 255, 0)])), None);
    assert_eq!(verdict(one_kind(&[1; 256], &[(255, 0, 0)])), None);
    let past_the_last = Some((5, 259));
    assert_eq!(verdict(one_kind(&[1; 256], &[(256, 0, 0)])), past_the_last);
    assert_eq!(verdict(one_kind(&[1; 256], &[(0, 256, 0)])), past_the_last);
}

#[test]
fn edges_1024_are_accepted_and_1025_give_4() {
    let wish = Wish {
        kinds: 1,
        stages: 256,
        edges: 1024,
        shape: Shape::Dense,
        numbers: Numbers::Tiny,
    };
    let mut sheet = draw_sheet(&mut Random::new(1), &wish);
    assert_eq!(sheet.edges.len(), 1024);
    assert_eq!(verdict(sheet.to_text()), None);
    sheet.edges.push(sheet.edges[0].clone());
    assert_eq!(verdict(sheet.to_text()), Some((4, 1)));
}
