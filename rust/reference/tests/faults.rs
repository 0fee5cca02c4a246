//! Which fault is given, and at which line, when a sheet has several or one
//! of an unusual form.

mod common;

use common::{one_kind, verdict, LISTING};
use reference::generator::{long_sheet, Random};

/// Name, sheet, number and line.
type Row = (&'static str, &'static str, (u32, u32));

/// An edge on one kind: its stages and its wait.
type OneWait = (usize, usize, u32);

fn check(rows: &[Row]) {
    assert!(!rows.is_empty());
    for (name, text, expected) in rows {
        assert_eq!(verdict(text), Some(*expected), "{name}: {text:?}");
    }
}

#[test]
fn missing_lines_have_the_number_they_would_have_had() {
    check(&[
        ("empty sheet", "", (3, 1)),
        ("header only", "J,1,1,0\n", (3, 2)),
        ("header of edges only", "J,1,1,1\n", (3, 2)),
        ("no stage line", "J,1,1,0\nG,0\n", (3, 3)),
        ("no stage line and no edge line", "J,1,1,1\nG,0\n", (3, 3)),
        ("second stage missing", "J,1,2,0\nG,0\nT,0,1\n", (3, 4)),
        ("edge missing", "J,1,1,1\nG,0\nT,0,1\n", (3, 4)),
        (
            "second edge missing",
            "J,1,2,2\nG,0\nT,0,1\nT,1,1\nE,0,1,0\n",
            (3, 6),
        ),
        ("header missing", "G,0\nT,0,1\n", (3, 1)),
        ("header and clearing times missing", "T,0,1\n", (3, 1)),
        ("clearing times missing", "J,1,1,0\nT,0,1\n", (3, 2)),
        (
            "clearing times missing before an edge",
            "J,1,1,1\nE,0,0,0\n",
            (3, 2),
        ),
        (
            "clearing times in the third line",
            "J,1,1,0\nT,0,1\nG,0\n",
            (3, 2),
        ),
        (
            "a stage line left out before an edge",
            "J,1,2,1\nG,0\nT,0,1\nE,0,1,0\n",
            (3, 4),
        ),
    ]);
}

#[test]
fn what_follows_the_last_line_is_one_too_many() {
    check(&[
        (
            "a stage line too many",
            "J,1,1,0\nG,0\nT,0,1\nT,1,1\n",
            (3, 4),
        ),
        (
            "an edge line too many",
            "J,1,2,0\nG,0\nT,0,1\nT,1,1\nE,0,1,0\n",
            (3, 5),
        ),
        ("a byte 10 at the end", "J,1,1,0\nG,0\nT,0,1\n\n", (3, 4)),
        ("one byte at the end", "J,1,1,0\nG,0\nT,0,1\nx", (3, 4)),
        ("one byte 0 at the end", "J,1,1,0\nG,0\nT,0,1\n\0", (3, 4)),
        (
            "a second sheet",
            "J,1,1,0\nG,0\nT,0,1\nJ,1,1,0\nG,0\nT,0,1\n",
            (3, 4),
        ),
        (
            "many extra lines count as one",
            "J,1,1,0\nG,0\nT,0,1\n\n\n\n\n",
            (3, 4),
        ),
    ]);
}

#[test]
fn a_last_line_without_byte_10_gives_3_at_that_line() {
    check(&[
        ("header", "J,1,1,0", (3, 1)),
        ("clearing times", "J,1,1,0\nG,0", (3, 2)),
        (
            "clearing times above the range",
            "J,1,1,0\nG,1000001",
            (3, 2),
        ),
        ("stage", "J,1,1,0\nG,0\nT,0,1", (3, 3)),
        ("edge", "J,1,2,1\nG,0\nT,0,1\nT,1,1\nE,0,1,0", (3, 5)),
        ("in the middle of the sheet", "J,1,2,0\nG,0\nT,0,1", (3, 3)),
        ("with a number out of range", "J,1,1,0\nG,0\nT,0,0", (3, 3)),
        ("with a stage out of turn", "J,1,1,0\nG,0\nT,7,1", (3, 3)),
        ("a bad header", "J,5,1,0", (3, 1)),
        ("one byte", "J", (3, 1)),
        ("two bytes", "J,", (3, 1)),
    ]);
}

#[test]
fn every_cut_of_the_listing_gives_3_at_the_line_it_cuts() {
    let mut looked_at = 0;
    for length in 0..LISTING.len() {
        let cut = &LISTING[..length];
        let line = 1 + cut.matches('\n').count() as u32;
        assert_eq!(verdict(cut), Some((3, line)), "{cut:?}");
        looked_at += 1;
    }
    assert_eq!(looked_at, 66);
}

#[test]
fn lines_with_another_beginning_give_3() {
    check(&[
        ("one byte 10", "\n", (3, 1)),
        ("blank first line", "\nJ,1,1,0\nG,0\nT,0,1\n", (3, 1)),
        ("blank second line", "J,1,1,0\n\nG,0\nT,0,1\n", (3, 2)),
        ("blank line inside", "J,1,1,0\nG,0\n\nT,0,1\n", (3, 3)),
        ("mark in lower case", "j,1,1,0\nG,0\nT,0,1\n", (3, 1)),
        ("mark without comma", "J1,1,0\nG,0\nT,0,1\n", (3, 1)),
        ("mark with semicolon", "J;1,1,0\nG,0\nT,0,1\n", (3, 1)),
        ("mark alone", "J\nG,0\nT,0,1\n", (3, 1)),
        ("mark and comma alone", "J,\nG,0\nT,0,1\n", (3, 1)),
        ("another mark", "X,1,1,0\nG,0\nT,0,1\n", (3, 1)),
        (
            "clearing mark in lower case",
            "J,1,1,0\ng,0\nT,0,1\n",
            (3, 2),
        ),
        (
            "clearing mark without comma",
            "J,1,1,0\nG0\nT,0,1\n",
            (3, 2),
        ),
        ("clearing mark alone", "J,1,1,0\nG\nT,0,1\n", (3, 2)),
        ("clearing mark and comma", "J,1,1,0\nG,\nT,0,1\n", (3, 2)),
        ("header mark on line 2", "J,1,1,0\nJ,0\nT,0,1\n", (3, 2)),
        ("stage mark on line 2", "J,1,1,0\nT,0\nT,0,1\n", (3, 2)),
        ("clearing mark on line 1", "G,1,1,0\nG,0\nT,0,1\n", (3, 1)),
        ("clearing mark on line 3", "J,1,1,0\nG,0\nG,0,1\n", (3, 3)),
        ("clearing times twice", "J,1,1,0\nG,0\nG,0\nT,0,1\n", (3, 3)),
        ("edge mark on a stage line", "J,1,1,0\nG,0\nE,0,1\n", (3, 3)),
        (
            "stage mark on an edge line",
            "J,1,1,1\nG,0\nT,0,1\nT,0,0,0\n",
            (3, 4),
        ),
    ]);
}

#[test]
fn lines_with_another_count_of_fields_give_3() {
    check(&[
        ("two numbers in the header", "J,1,1\nG,0\nT,0,1\n", (3, 1)),
        (
            "four numbers in the header",
            "J,1,1,0,0\nG,0\nT,0,1\n",
            (3, 1),
        ),
        (
            "comma at the end of the header",
            "J,1,1,0,\nG,0\nT,0,1\n",
            (3, 1),
        ),
        (
            "comma at the end of a stage line",
            "J,1,1,0\nG,0\nT,0,1,\n",
            (3, 3),
        ),
        ("a clearing time too few", "J,2,1,0\nG,0\nT,0,1,1\n", (3, 2)),
        (
            "a clearing time too many",
            "J,1,1,0\nG,0,0\nT,0,1\n",
            (3, 2),
        ),
        (
            "as many clearing times as stages",
            "J,1,2,0\nG,0,0\nT,0,1\nT,1,1\n",
            (3, 2),
        ),
        (
            "comma at the end of the clearing times",
            "J,1,1,0\nG,0,\nT,0,1\n",
            (3, 2),
        ),
        ("an empty clearing time", "J,2,1,0\nG,,0\nT,0,1,1\n", (3, 2)),
        (
            "five clearing times of four kinds",
            "J,4,1,0\nG,0,0,0,0,0\nT,0,1,1,1,1\n",
            (3, 2),
        ),
        ("stage line without duration", "J,1,1,0\nG,0\nT,0\n", (3, 3)),
        ("a duration too few", "J,2,1,0\nG,0,0\nT,0,1\n", (3, 3)),
        ("a duration too many", "J,1,1,0\nG,0\nT,0,1,1\n", (3, 3)),
        (
            "a wait too few",
            "J,2,1,1\nG,0,0\nT,0,1,1\nE,0,0,0,0,0\n",
            (3, 4),
        ),
        (
            "a wait too many",
            "J,1,1,1\nG,0\nT,0,1\nE,0,0,0,0\n",
            (3, 4),
        ),
        ("edge without waits", "J,1,1,1\nG,0\nT,0,1\nE,0,0\n", (3, 4)),
    ]);
}

#[test]
fn spaces_tabs_and_quotes_give_3() {
    check(&[
        ("space before the mark", " J,1,1,0\nG,0\nT,0,1\n", (3, 1)),
        (
            "space at the end of a line",
            "J,1,1,0 \nG,0\nT,0,1\n",
            (3, 1),
        ),
        ("tab between fields", "J,1,\t1,0\nG,0\nT,0,1\n", (3, 1)),
        ("byte order mark", "\u{feff}J,1,1,0\nG,0\nT,0,1\n", (3, 1)),
        (
            "space before a clearing time",
            "J,1,1,0\nG, 0\nT,0,1\n",
            (3, 2),
        ),
        ("space after the mark", "J,1,1,0\nG ,0\nT,0,1\n", (3, 2)),
        ("quoted number", "J,\"1\",1,0\nG,0\nT,0,1\n", (3, 1)),
    ]);
}

#[test]
fn carriage_returns_give_3() {
    check(&[
        ("after the header", "J,1,1,0\r\nG,0\r\nT,0,1\r\n", (3, 1)),
        (
            "after the clearing times",
            "J,1,1,0\nG,0\r\nT,0,1\n",
            (3, 2),
        ),
        ("after a stage", "J,1,1,0\nG,0\nT,0,1\r\n", (3, 3)),
        ("after an edge", "J,1,1,1\nG,0\nT,0,1\nE,0,0,0\r\n", (3, 4)),
        ("instead of byte 10", "J,1,1,0\rG,0\rT,0,1\r", (3, 1)),
        ("after the last byte 10", "J,1,1,0\nG,0\nT,0,1\n\r", (3, 4)),
    ]);
}

#[test]
fn in_one_line_3_wins_over_4_over_5() {
    check(&[
        ("G: 3 behind 4", "J,2,1,0\nG,1000001,x\nT,0,1,1\n", (3, 2)),
        (
            "G: 3 by count behind 4",
            "J,1,1,0\nG,1000001,0\nT,0,1\n",
            (3, 2),
        ),
        ("T: 3 behind 4", "J,2,1,0\nG,0,0\nT,0,0,x\n", (3, 3)),
        ("T: 3 behind 5", "J,1,1,0\nG,0\nT,7,x\n", (3, 3)),
        (
            "T: 3 by count behind 4 and 5",
            "J,1,1,0\nG,0\nT,7,0,1\n",
            (3, 3),
        ),
        ("T: 4 behind 5", "J,1,1,0\nG,0\nT,7,0\n", (4, 3)),
        (
            "T: 4 in the last duration behind 5",
            "J,2,1,0\nG,0,0\nT,7,1,1000001\n",
            (4, 3),
        ),
        (
            "E: 3 behind 4",
            "J,2,1,1\nG,0,0\nT,0,1,1\nE,0,0,1000001,0,0,x\n",
            (3, 4),
        ),
        ("E: 3 behind 5", "J,1,1,1\nG,0\nT,0,1\nE,7,7,x\n", (3, 4)),
        (
            "E: 3 by count behind 5",
            "J,1,1,1\nG,0\nT,0,1\nE,7,7\n",
            (3, 4),
        ),
        (
            "E: 4 behind 5",
            "J,1,1,1\nG,0\nT,0,1\nE,7,7,1000001\n",
            (4, 4),
        ),
        ("J: 3 behind 4", "J,0,1,x\nG,0\nT,0,1\n", (3, 1)),
        (
            "J: 3 behind three times 4",
            "J,0,0,1025,\nG,0\nT,0,1\n",
            (3, 1),
        ),
    ]);
}

#[test]
fn a_fault_in_an_earlier_line_wins() {
    check(&[
        ("4 before 3", "J,1,2,0\nG,0\nT,0,0\nx\n", (4, 3)),
        (
            "4 of a clearing time before 3",
            "J,1,1,0\nG,1000001\nx\n",
            (4, 2),
        ),
        (
            "4 of a clearing time before 5",
            "J,1,1,0\nG,1000001\nT,1,1\n",
            (4, 2),
        ),
        (
            "4 of a clearing time before missing lines",
            "J,1,9,9\nG,1000001\n",
            (4, 2),
        ),
        (
            "3 of the clearing times before 4",
            "J,1,1,0\nG,x\nT,0,0\n",
            (3, 2),
        ),
        (
            "3 of the clearing times before 5",
            "J,1,1,0\nG,0,0\nT,1,1\n",
            (3, 2),
        ),
        (
            "header's 4 before a clearing time's 3",
            "J,1,257,0\nG,x\n",
            (4, 1),
        ),
        (
            "header's 4 before a clearing time's 4",
            "J,1,1,1025\nG,1000001\nT,0,1\n",
            (4, 1),
        ),
        (
            "header's 4 before missing clearing times",
            "J,5,1,0\nT,0,1,1,1,1,1\n",
            (4, 1),
        ),
        ("5 before 3", "J,1,2,0\nG,0\nT,1,1\nx\n", (5, 3)),
        ("5 before 4", "J,1,2,0\nG,0\nT,1,1\nT,1,0\n", (5, 3)),
        (
            "header's 4 before a stage's 3",
            "J,5,1,0\nG,0,0,0,0,0\nx\n",
            (4, 1),
        ),
        ("5 before a missing line", "J,1,3,0\nG,0\nT,1,1\n", (5, 3)),
        ("4 before a missing line", "J,1,2,1\nG,0\nT,0,0\n", (4, 3)),
        ("4 before extra bytes", "J,1,1,0\nG,0\nT,0,0\nx", (4, 3)),
        ("header's 4 before everything missing", "J,1,0,0\n", (4, 1)),
        (
            "5 of an edge before a missing one",
            "J,1,1,2\nG,0\nT,0,1\nE,1,0,0\n",
            (5, 4),
        ),
        (
            "5 of an edge before extra bytes",
            "J,1,1,1\nG,0\nT,0,1\nE,0,1,0\nx",
            (5, 4),
        ),
        (
            "5 before a cut last line",
            "J,1,2,0\nG,0\nT,1,1\nT,1",
            (5, 3),
        ),
    ]);
}

#[test]
fn faults_of_lines_win_over_6() {
    check(&[
        (
            "3 in a later line, before 6",
            "J,1,1,3\nG,0\nT,0,1\nE,0,0,0\nE,0,0,0\nx\n",
            (3, 6),
        ),
        (
            "4 in a later line, before 6",
            "J,1,1,3\nG,0\nT,0,1\nE,0,0,0\nE,0,0,0\nE,0,0,1000001\n",
            (4, 6),
        ),
        (
            "5 in a later line, before 6",
            "J,1,1,3\nG,0\nT,0,1\nE,0,0,0\nE,0,0,0\nE,0,1,0\n",
            (5, 6),
        ),
        (
            "missing line, before 6",
            "J,1,1,3\nG,0\nT,0,1\nE,0,0,0\nE,0,0,0\n",
            (3, 6),
        ),
        (
            "4 of a clearing time, before 6",
            "J,1,1,2\nG,1000001\nT,0,1\nE,0,0,0\nE,0,0,0\n",
            (4, 2),
        ),
        (
            "clearing times missing, before 6",
            "J,1,1,2\nT,0,1\nE,0,0,0\nE,0,0,0\n",
            (3, 2),
        ),
        (
            "extra bytes, before 6",
            "J,1,1,2\nG,0\nT,0,1\nE,0,0,0\nE,0,0,0\nE",
            (3, 6),
        ),
    ]);
}

#[test]
fn faults_of_lines_win_over_7() {
    check(&[
        ("3 before 7", "J,1,1,2\nG,0\nT,0,1\nE,0,0,0\nx\n", (3, 5)),
        (
            "4 before 7",
            "J,1,2,2\nG,0\nT,0,1\nT,1,1\nE,0,0,0\nE,0,1,1000001\n",
            (4, 6),
        ),
        (
            "5 before 7",
            "J,1,1,2\nG,0\nT,0,1\nE,0,0,0\nE,0,1,0\n",
            (5, 5),
        ),
        (
            "4 of a clearing time, before 7",
            "J,1,1,1\nG,1000001\nT,0,1\nE,0,0,0\n",
            (4, 2),
        ),
        (
            "extra bytes, before 7",
            "J,1,1,1\nG,0\nT,0,1\nE,0,0,0\n\n",
            (3, 5),
        ),
    ]);
}

#[test]
fn a_repeated_edge_gives_6_at_the_first_line_that_repeats() {
    let rows: [(&[OneWait], u32); 7] = [
        (&[(0, 1, 0), (0, 1, 0)], 7),
        (&[(0, 1, 0), (0, 1, 9)], 7),
        (&[(0, 1, 0), (1, 2, 0), (0, 1, 0)], 8),
        (&[(0, 1, 0), (1, 2, 0), (1, 2, 0), (0, 1, 0)], 8),
        (&[(0, 1, 0), (0, 1, 0), (0, 1, 0)], 7),
        (&[(0, 1, 0), (1, 0, 0), (1, 0, 0)], 8),
        (&[(2, 2, 0), (0, 1, 0), (2, 2, 0)], 8),
    ];
    for (edges, line) in rows {
        assert_eq!(
            verdict(one_kind(&[1; 3], edges)),
            Some((6, line)),
            "{edges:?}"
        );
    }
}

#[test]
fn edges_that_differ_in_one_stage_are_not_repeated() {
    assert_eq!(
        verdict(one_kind(&[1; 3], &[(0, 1, 0), (0, 2, 0), (1, 2, 0)])),
        None
    );
}

#[test]
fn closed_paths_of_every_length_give_7() {
    for length in 1..=256 {
        let edges: Vec<OneWait> = (0..length).map(|i| (i, (i + 1) % length, 0)).collect();
        assert_eq!(
            verdict(one_kind(&vec![1; length], &edges)),
            Some((7, 0)),
            "{length}"
        );
        // the same edges without the one that closes the path
        let open = &edges[..length - 1];
        assert_eq!(verdict(one_kind(&vec![1; length], open)), None, "{length}");
    }
}

#[test]
fn two_ways_to_one_stage_are_no_closed_path() {
    let edges = [(0, 1, 0), (0, 2, 0), (1, 3, 0), (2, 3, 0), (0, 3, 0)];
    assert_eq!(verdict(one_kind(&[1; 4], &edges)), None);
}

#[test]
fn sheets_of_65000_bytes_are_judged_and_of_65001_give_2() {
    let mut text = long_sheet(&mut Random::new(7), 65_000).to_text();
    assert_eq!((text.len(), verdict(&text)), (65_000, None));
    text.push(b'\n');
    assert_eq!((text.len(), verdict(&text)), (65_001, Some((2, 0))));
    // 65000 bytes with one fault are judged for it
    text.truncate(65_000);
    text[0] = b'X';
    assert_eq!(verdict(&text), Some((3, 1)));
    // 65000 bytes, the last of them beyond the last line
    let mut text = long_sheet(&mut Random::new(7), 64_999).to_text();
    let lines = text.iter().filter(|&&byte| byte == b'\n').count() as u32;
    text.push(b'\n');
    assert_eq!((text.len(), verdict(&text)), (65_000, Some((3, lines + 1))));
}

#[test]
fn too_many_bytes_win_over_every_fault_of_a_line() {
    assert_eq!(verdict(vec![b'x'; 65_000]), Some((3, 1)));
    assert_eq!(verdict(vec![b'x'; 65_001]), Some((2, 0)));
    assert_eq!(verdict(vec![b'\n'; 65_001]), Some((2, 0)));
    let circular = b"J,1,1,1\nG,0\nT,0,1\nE,0,0,0\n";
    let padded = [&circular[..], &[b'x'; 65_001 - 26]].concat();
    assert_eq!((padded.len(), verdict(&padded)), (65_001, Some((2, 0))));
}
