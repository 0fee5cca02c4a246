//! Sheets whose lines are all good and which are refused with 6 or 7.

use super::random::Random;
use super::shapes::{draw_number, draw_numbers, trim, Numbers};
use crate::sheet::{edge_line, Edge, Sheet, MAX_EDGES, MAX_SHEET_BYTES, MAX_STAGES, MAX_WAIT};

/// A sheet with a closed path of `length` edges, refused with 7. It grows out
/// of an accepted sheet, which gets more stages where it has fewer than
/// `length`, and loses last edges where there is no room for the path.
pub fn circular_sheet(random: &mut Random, accepted: &Sheet, length: usize) -> Sheet {
    assert!((1..=MAX_STAGES as usize).contains(&length));
    let mut sheet = accepted.clone();
    while sheet.stages() < length {
        let durations = (0..sheet.kinds).map(|_| draw_number(random, Numbers::Short, 1, 99));
        sheet.durations.push(durations.collect());
    }
    let mut path: Vec<usize> = (0..sheet.stages()).collect();
    random.shuffle(&mut path);
    path.truncate(length);
    let closing: Vec<Edge> = (0..length)
        .map(|place| Edge {
            source: path[place],
            target: path[(place + 1) % length],
            waits: draw_numbers(random, Numbers::Short, sheet.kinds * sheet.kinds, 0, 99),
        })
        .collect();
    let lines: usize = closing.iter().map(|edge| edge_line(edge).len()).sum();
    // the header's M may get up to three digits more
    trim(
        &mut sheet,
        MAX_EDGES as usize - length,
        MAX_SHEET_BYTES - lines - 3,
    );
    for edge in closing {
        if !has_edge(&sheet, &edge) {
            let place = random.below(sheet.edges.len() + 1);
            sheet.edges.insert(place, edge);
        }
    }
    sheet
}

/// A sheet in which one or more edges occur again, with the same or other
/// waits, refused with 6. `sheet` may be circular; an edge is added to it if
/// it has none.
pub fn repeated_sheet(random: &mut Random, sheet: &Sheet) -> Sheet {
    let mut sheet = sheet.clone();
    let waits_count = sheet.kinds * sheet.kinds;
    let most_line = edge_line(&Edge {
        source: sheet.stages() - 1,
        target: sheet.stages() - 1,
        waits: vec![MAX_WAIT; waits_count],
    });
    let repeats = random.between(1, 3);
    let room = (repeats + 1) * most_line.len() + 3;
    trim(
        &mut sheet,
        MAX_EDGES as usize - repeats - 1,
        MAX_SHEET_BYTES - room,
    );
    if sheet.edges.is_empty() {
        let (source, target) = (random.below(sheet.stages()), random.below(sheet.stages()));
        let waits = draw_numbers(random, Numbers::Short, waits_count, 0, MAX_WAIT);
        sheet.edges.push(Edge {
            source,
            target,
            waits,
        });
    }
    for _ in 0..repeats {
        let mut edge = random.pick(&sheet.edges).clone();
        if random.one_in(2) {
            edge.waits = draw_numbers(random, Numbers::Wide, waits_count, 0, MAX_WAIT);
        }
        let place = random.below(sheet.edges.len() + 1);
        sheet.edges.insert(place, edge);
    }
    sheet
}

fn has_edge(sheet: &Sheet, edge: &Edge) -> bool {
    let same = |other: &Edge| (other.source, other.target) == (edge.source, edge.target);
    sheet.edges.iter().any(same)
}
