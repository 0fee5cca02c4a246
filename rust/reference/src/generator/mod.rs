//! Sheets for tests, drawn from a seed: the same seed gives the same sheets.
//!
//! - [`Random`] is the source of numbers (splitmix64).
//! - [`draw_sheet`] draws an accepted sheet of a wished [`Shape`], size and
//!   [`Numbers`]; [`accepted_sheet`] draws the wish too.
//! - Each drawn sheet has clearing times of some [`Clearing`];
//!   [`draw_clearing`] gives it those of another one.
//! - [`duplicating_sheet`], [`most_copies_sheet`], [`latest_sheet`] and
//!   [`long_sheet`] go to the limits of a sheet (SPEC 1).
//! - [`circular_sheet`] and [`repeated_sheet`] are refused with 7 and 6.
//! - [`damage`] and its parts change a text; most results are refused with 3,
//!   4 or 5, some are still accepted.
//! - [`any_case`] draws any of these, [`small_case`] only small ones.

mod cases;
mod clearing;
mod damage;
mod limits;
mod random;
mod refused;
mod shapes;

pub use cases::{accepted_sheet, any_case, small_case, small_sheet, Case, Sort};
pub use clearing::{draw_clearing, Clearing, CLEARINGS};
pub use damage::{
    cut_text, damage, damage_bytes, damage_count, damage_lines, damage_number, ANY_BYTES,
    BOUNDARY_NUMBERS, NOT_NUMBERS, PRINTABLE_BYTES,
};
pub use limits::{duplicating_sheet, latest_sheet, long_sheet, most_copies_sheet};
pub use random::Random;
pub use refused::{circular_sheet, repeated_sheet};
pub use shapes::{draw_sheet, draw_wish, Numbers, Shape, Wish, NUMBERS, SHAPES};
