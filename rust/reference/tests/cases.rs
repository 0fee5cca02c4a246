//! The cases of SPEC 11, of which K is the listing, and the examples of other
//! sections, with all that is printed. The expected texts were worked out by
//! hand.

mod common;

use common::{LISTING, LISTING_PLAN};
use reference::program_output;

/// Letter, sheet, printed.
const CASES: [(&str, &str, &str); 20] = [
    ("K", LISTING, LISTING_PLAN),
    (
        "L",
        "J,1,2,0\nG,0\nT,0,5\nT,1,5\n",
        "P,5,2\nC,0,0,0,0,5\nC,1,0,1,0,5\n",
    ),
    (
        "M",
        "J,1,2,1\nG,0\nT,0,5\nT,1,5\nE,0,1,0\n",
        "P,10,1\nC,0,0,0,0,5\nC,1,0,0,5,10\n",
    ),
    (
        "N",
        "J,2,2,1\nG,0,0\nT,0,1,3\nT,1,9,1\nE,0,1,0,10,10,0\n",
        "P,4,0,1\nC,0,1,0,0,3\nC,1,1,0,3,4\n",
    ),
    ("O", "J,2,1,0\nG,0,0\nT,0,4,4\n", "P,4,1,0\nC,0,0,0,0,4\n"),
    (
        "P",
        "J,2,3,2\nG,0,0\nT,0,1,1\nT,1,2,9\nT,2,9,2\nE,0,1,0,0,0,0\nE,0,2,0,5,5,0\n",
        "P,3,1,1\nC,0,1,0,0,1\nC,1,0,0,1,3\nC,2,1,0,1,3\n",
    ),
    (
        "Q",
        "J,1,2,2\nG,0\nT,0,5\nT,1,5\nE,0,1,0\nE,1,0,0\n",
        "R,7,0\n",
    ),
    ("R, once", "J,1,1,1\nG,0\nT,0,5\nE,0,0,0\n", "R,7,0\n"),
    (
        "R, twice",
        "J,1,1,2\nG,0\nT,0,5\nE,0,0,0\nE,0,0,0\n",
        "R,6,5\n",
    ),
    ("S, 0", "J,1,1,0\nG,0\nT,0,0\n", "R,4,3\n"),
    ("S, 1000001", "J,1,1,0\nG,0\nT,0,1000001\n", "R,4,3\n"),
    (
        "T",
        "J,1,2,1\nG,0\nT,0,1000000\nT,1,1000000\nE,0,1,1000000\n",
        "P,3000000,1\nC,0,0,0,0,1000000\nC,1,0,0,2000000,3000000\n",
    ),
    (
        "U",
        "J,2,2,1\nG,0,0\nT,0,1,9\nT,1,9,1\nE,0,1,0,3,7,0\n",
        "P,5,1,1\nC,0,0,0,0,1\nC,1,1,0,4,5\n",
    ),
    (
        "M, clearing for 1",
        "J,1,2,1\nG,1\nT,0,5\nT,1,5\nE,0,1,0\n",
        "P,10,2\nC,0,0,0,0,5\nC,1,0,1,5,10\n",
    ),
    (
        "M, clearing for 1 in a wait of 1",
        "J,1,2,1\nG,1\nT,0,5\nT,1,5\nE,0,1,1\n",
        "P,11,1\nC,0,0,0,0,5\nC,1,0,0,6,11\n",
    ),
    (
        "a clearing time of each kind",
        concat!(
            "J,2,4,2\nG,1,0\nT,0,1,9\nT,1,1,9\nT,2,9,1\nT,3,9,1\n",
            "E,0,1,0,9,9,0\nE,2,3,0,9,9,0\n"
        ),
        "P,2,2,1\nC,0,0,0,0,1\nC,2,1,0,0,1\nC,1,0,1,1,2\nC,3,1,0,1,2\n",
    ),
    ("no clearing times", "J,1,1,0\nT,0,5\n", "R,3,2\n"),
    (
        "a clearing time too few",
        "J,2,1,0\nG,0\nT,0,5,5\n",
        "R,3,2\n",
    ),
    (
        "a clearing time above its range",
        "J,2,1,0\nG,0,1000001\nT,0,5,5\n",
        "R,4,2\n",
    ),
    // Not one of those cases: one edge on three kinds, where the row and the
    // column of a wait are told apart by every entry. Stage 1 can start
    // at 2 on kind 0 (from 1), at 3 on kind 1 (from 2) and at 1 on kind 2
    // (from 0), so it ends first on kind 2, at 3.
    (
        "three kinds",
        "J,3,2,1\nG,0,0,0\nT,0,1,1,1\nT,1,2,2,2\nE,0,1,7,8,0,1,9,6,5,2,4\n",
        "P,3,1,0,1\nC,0,0,0,0,1\nC,1,2,0,1,3\n",
    ),
];

/// The examples of SPEC 3, 4, 6 and 8: clause, sheet, printed. A slash stands
/// for byte 10.
const EXAMPLES: [(&str, &str, &str); 19] = [
    ("3.3", "J,2,1,0/G,0,0/T,0,1,9/", "P,1,1,0/C,0,0,0,0,1/"),
    (
        "4.3",
        "J,2,3,2/G,0,0/T,0,1,1/T,1,5,5/T,2,1,9/E,0,2,3,9,0,9/E,1,2,0,9,0,9/",
        "P,6,2,0/C,0,0,0,0,1/C,1,0,1,0,5/C,2,0,0,5,6/",
    ),
    (
        "4.4",
        "J,2,2,1/G,0,0/T,0,3,1/T,1,1,9/E,0,1,0,9,2,9/",
        "P,4,1,0/C,0,0,0,0,3/C,1,0,0,3,4/",
    ),
    (
        "6.1",
        "J,2,2,0/G,0,0/T,0,9,1/T,1,1,9/",
        "P,1,1,1/C,1,0,0,0,1/C,0,1,0,0,1/",
    ),
    ("8.4", "J,1,1,0/G,0/T,7,0/", "R,4,3/"),
    ("8.4", "J,1,1,0/G,0/T,300,5/", "R,5,3/"),
    ("8.4", "J,1,1,0/G,0/T,0,05/", "R,3,3/"),
    ("8.4", "J,1,1,1/G,0/T,0,5/T,0,0,0/", "R,3,4/"),
    ("8.4", "J,1,1,0/G,0/T,0,9999999/", "R,4,3/"),
    ("8.4", "J,1,2,0/G,0/T,0,5/T,0,5/", "R,5,4/"),
    ("8.4", "J,1,1,1/G,0/T,0,5/E,0,9,9999999/", "R,4,4/"),
    ("8.4", "J,1,1,2/G,0/T,0,5/E,0,0,0/E,0,0,1/", "R,6,5/"),
    ("8.4", "J,2,1,0/G,0,9999999/T,0,5/", "R,4,2/"),
    ("8.5", "J,1,1,0/T,0,5/", "R,3,2/"),
    ("8.5", "J,1,2,0/G,0/T,0,5/", "R,3,4/"),
    ("8.5", "J,1,1,0/G,0/T,0,5/T,1,5/", "R,3,4/"),
    ("8.5", "J,1,1,0/G,0/T,0,5", "R,3,3/"),
    ("8.5", "J,1,1,1/G,0/T,0,0/", "R,4,3/"),
    (
        "8.7",
        "J,1,3,2/G,0/T,0,1/T,1,1/T,2,1/E,1,2,0/E,2,1,0/",
        "R,7,0/",
    ),
];

fn check(name: &str, sheet: &str, printed: &str) {
    let output = program_output(sheet.as_bytes());
    let output = String::from_utf8(output).expect("the output is ASCII");
    assert_eq!(output, printed, "{name}");
}

#[test]
fn cases_print_what_was_worked_out() {
    for (name, sheet, printed) in CASES {
        check(name, sheet, printed);
    }
}

#[test]
fn examples_print_what_was_worked_out() {
    for (clause, sheet, printed) in EXAMPLES {
        let lines = |text: &str| text.replace('/', "\n");
        check(clause, &lines(sheet), &lines(printed));
    }
}
