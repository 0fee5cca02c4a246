//! A second implementation of the planner, written from the specification's
//! text (docs/SPEC.md), not from the definitions in crates/model. The tests of
//! the product are run against it, so it is plain rather than fast.
//!
//! The modules follow the way of the data:
//!
//! - [`sheet`]: the survey sheet as numbers, and its limits;
//! - [`mod@judge`]: from bytes to a sheet, or the fault 2 to 7 with its line;
//! - [`schedule`]: topological order, table of starts, finish;
//! - [`copies`]: the three copy rules;
//! - [`boards`]: first fit per kind, and the plan in printed order;
//! - [`mod@valid`]: what makes any plan valid, its boards and its last end;
//! - [`text`]: the printed plan, the refusal line, the program's output;
//! - [`calls`]: `read` and `plan` with the contents of every buffer.
//!
//! [`generator`] draws sheets for tests from a seed.

pub mod boards;
pub mod calls;
pub mod copies;
pub mod generator;
pub mod judge;
pub mod schedule;
pub mod sheet;
pub mod text;
pub mod valid;

pub use boards::{make_plan, CopyRecord, Plan};
pub use calls::{plan_call, read_call, Buffers, PlanTotals, ReadTotals};
pub use judge::{judge, Fault};
pub use sheet::{Edge, Sheet};
pub use text::{plan_text, program_output, refusal_text};
pub use valid::{boards_used, last_end, valid, why_invalid, Invalid, PlanCopy};
