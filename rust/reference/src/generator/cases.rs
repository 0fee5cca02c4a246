//! Sheets of all sorts, mixed.

use super::damage::damage;
use super::limits::duplicating_sheet;
use super::random::Random;
use super::refused::{circular_sheet, repeated_sheet};
use super::shapes::{draw_sheet, draw_wish, Numbers, Wish, SHAPES};
use crate::sheet::{Sheet, MAX_STAGES};

/// How a case was made, which for a damaged text does not say how it is
/// judged.
#[derive(Clone, Copy, Debug, PartialEq, Eq, Hash)]
pub enum Sort {
    Accepted,
    Circular,
    Repeated,
    Damaged,
}

/// The text of a sheet, or of what was one before damage.
#[derive(Clone, Debug)]
pub struct Case {
    pub sort: Sort,
    pub text: Vec<u8>,
}

/// An accepted sheet of any shape with at most so many stages. One in six
/// comes from [`duplicating_sheet`].
pub fn accepted_sheet(random: &mut Random, most_stages: usize) -> Sheet {
    let wish = draw_wish(random, most_stages);
    if random.one_in(6) {
        duplicating_sheet(random, wish.kinds, wish.stages)
    } else {
        draw_sheet(random, &wish)
    }
}

/// A case of any sort, about one third damaged, from sheets of at most so
/// many stages. `bytes` are those that damage may put in.
pub fn any_case(random: &mut Random, most_stages: usize, bytes: &[u8]) -> Case {
    let sheet = accepted_sheet(random, most_stages);
    finish_case(random, sheet, most_stages, bytes)
}

/// A case of any sort from a small sheet, see [`small_sheet`].
pub fn small_case(random: &mut Random, bytes: &[u8]) -> Case {
    let sheet = small_sheet(random);
    finish_case(random, sheet, 3, bytes)
}

/// An accepted sheet with at most 4 stages on 1 or 2 kinds, or at most 3 on 3
/// kinds, mostly with short numbers.
pub fn small_sheet(random: &mut Random) -> Sheet {
    let most_stages = |kinds| if kinds == 3 { 3 } else { 4 };
    if random.one_in(3) {
        // with fewer kinds or stages nothing can have two copies
        let kinds = random.between(2, 3);
        return duplicating_sheet(random, kinds, most_stages(kinds));
    }
    let kinds = random.between(1, 3);
    let numbers = match random.below(8) {
        0 => Numbers::Boundary,
        1 => Numbers::Wide,
        2 | 3 => Numbers::Short,
        _ => Numbers::Tiny,
    };
    let wish = Wish {
        kinds,
        stages: random.between(1, most_stages(kinds)),
        edges: random.between(1, 5),
        shape: *random.pick(&SHAPES),
        numbers,
    };
    draw_sheet(random, &wish)
}

/// Turns an accepted sheet into a case of any sort.
fn finish_case(random: &mut Random, sheet: Sheet, longest_path: usize, bytes: &[u8]) -> Case {
    let longest_path = longest_path.min(MAX_STAGES as usize).min(sheet.stages());
    let (sort, sheet) = match random.below(6) {
        0 => {
            let length = random.between(1, longest_path);
            (Sort::Circular, circular_sheet(random, &sheet, length))
        }
        1 => (Sort::Repeated, repeated_sheet(random, &sheet)),
        _ => (Sort::Accepted, sheet),
    };
    let text = sheet.to_text();
    if random.one_in(3) {
        return Case {
            sort: Sort::Damaged,
            text: damage(random, &text, bytes),
        };
    }
    Case { sort, text }
}
