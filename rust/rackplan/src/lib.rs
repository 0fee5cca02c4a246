//! From a survey sheet to a plan: when each stage starts, on which boards its
//! copies run, and how many boards of each kind that takes. The work is done by
//! librackplan.a, proved to do what docs/SPEC.md says for every input.
//!
//! A sheet in, a plan out:
//!
//! ```
//! let sheet = b"J,2,3,2\nG,0,0\nT,0,1,1\nT,1,2,9\nT,2,9,2\nE,0,1,0,5,5,0\nE,0,2,0,5,5,0\n";
//! let plan = rackplan::plan_sheet(sheet)?;
//! print!("{plan}");
//! # assert_eq!(
//! #     plan.to_string(),
//! #     "P,3,1,1\nC,0,0,0,0,1\nC,0,1,0,0,1\nC,1,0,0,1,3\nC,2,1,0,1,3\n"
//! # );
//! # Ok::<(), rackplan::Fault>(())
//! ```
//!
//! The plan is owned, and its numbers need not be read from the text; a sheet
//! that is refused is an `Err`:
//!
//! ```
//! use rackplan::{plan_sheet, Fault, OwnedPlan};
//!
//! let sheet = b"J,2,3,2\nG,0,0\nT,0,1,1\nT,1,2,9\nT,2,9,2\nE,0,1,0,5,5,0\nE,0,2,0,5,5,0\n";
//! let plan: OwnedPlan = plan_sheet(sheet)?;
//! assert_eq!((plan.finish(), plan.boards()), (3, [1, 1, 0, 0]));
//! for (copy, end) in plan.copies_with_ends() {
//!     println!("stage {} on kind {}: {} to {end}", copy.stage, copy.kind, copy.start);
//! }
//! assert_eq!(plan.start(2, 0), Some(1)); // where stage 2 has no copy
//! assert_eq!(plan.start(3, 0), None); // the sheet has stages 0 to 2
//!
//! let fault = plan_sheet(b"J,1,1,1\nG,0\nT,0,5\nE,0,0,0\n").unwrap_err();
//! assert_eq!(fault, Fault::Circular);
//! assert_eq!(fault.to_string(), "the edges contain a closed path");
//! # Ok::<(), Fault>(())
//! ```
//!
//! A [`Planner`] plans many sheets and allocates once. Its [`Plan`] is borrowed
//! from it until the next one, or parted from it by [`Plan::into_owned`].
//!
//! [`Tables`] only read a sheet:
//!
//! ```
//! use rackplan::Tables;
//!
//! let sheet = b"J,2,3,2\nG,0,0\nT,0,1,1\nT,1,2,9\nT,2,9,2\nE,0,1,0,5,5,0\nE,0,2,0,5,5,0\n";
//! let mut tables = Tables::new();
//! let sizes = tables.read(sheet)?;
//! assert_eq!((sizes.kinds, sizes.stages, sizes.edges), (2, 3, 2));
//! assert_eq!(tables.duration(1, 1), Some(9));
//! assert_eq!(tables.ends(1), Some((0, 2)));
//! assert_eq!(tables.wait(1, 0, 1), Some(5));
//! assert_eq!(tables.wait(2, 0, 1), None); // the sheet has edges 0 and 1
//!
//! let fault = tables.read(b"J,5,1,0\nG,0\nT,0,1\n").unwrap_err();
//! assert_eq!((fault.number(), fault.line()), (4, Some(1)));
//! # Ok::<(), rackplan::Fault>(())
//! ```
//!
//! [`plan()`] and [`read`] take tables and output of the caller's, as the C
//! functions do.
//!
//! # The sheet
//!
//! Lines of numbers with commas between them, each ended by a line feed, and no
//! spaces. Times are whole microseconds.
//!
//! | line | form | what it says |
//! |---|---|---|
//! | 1 | `J,K,N,M` | K kinds of boards, 1 to 4; N stages, 1 to 256; M edges, 0 to 1024 |
//! | 2 | `G,g..` | the clearing time of each kind, 0 to 1000000 |
//! | i+3 | `T,i,d..` | stage i, and its duration on each kind, 1 to 1000000; N lines, i from 0 on |
//! | N+e+3 | `E,i,j,w..` | edge e: stage i comes before stage j; K×K waits, 0 to 1000000, first those from kind 0 of i to each kind of j; M lines |
//!
//! When a copy has ended, its board clears for the clearing time of its kind
//! (removal time). From then on, at that very time too, it is free again for
//! another copy. Of a plan nothing but boards depends on clearing times:
//!
//! ```
//! use rackplan::plan_sheet;
//!
//! // stage 1 starts at 5, when stage 0 ends
//! let at_once = plan_sheet(b"J,1,2,1\nG,0\nT,0,5\nT,1,5\nE,0,1,0\n")?;
//! let cleared = plan_sheet(b"J,1,2,1\nG,1\nT,0,5\nT,1,5\nE,0,1,0\n")?;
//! assert_eq!((at_once.finish(), at_once.boards()), (10, [1, 0, 0, 0]));
//! assert_eq!((cleared.finish(), cleared.boards()), (10, [2, 0, 0, 0]));
//! # Ok::<(), rackplan::Fault>(())
//! ```
//!
//! The repository's docs/SPEC.md has all of it, clause by clause.
//!
//! # Stack
//!
//! Planning takes about 121 KB of the thread's stack, reading alone about 92
//! KB. Threads of Rust's have 2 MB unless told otherwise; one that has too
//! little overflows its stack, which ends the process.
//!
//! # The archive
//!
//! `make library` writes librackplan.a into the repository's
//! target/staticlib, where the build looks for it; the variable
//! `RACKPLAN_LIB_DIR` names another folder.

#![deny(missing_docs)]
#![deny(unsafe_op_in_unsafe_fn)]

mod calls;
mod fault;
mod plan;
mod planner;
mod raw;
mod sizes;
mod tables;

pub use calls::{plan, read, StageCopy, Totals};
pub use fault::Fault;
pub use plan::{OwnedPlan, Plan};
pub use planner::{plan_sheet, Planner};
pub use sizes::Sizes;
pub use tables::Tables;

/// The most bytes that a sheet may have.
pub const SHEET_MAX: usize = 65_000;
/// The most kinds that a sheet can have.
pub const KINDS_MAX: usize = 4;
/// The most stages that a sheet can have.
pub const STAGES_MAX: usize = 256;
/// The most edges that a sheet can have.
pub const EDGES_MAX: usize = 1024;

/// Entries that a call needs in the table of durations: stage i on kind h is
/// at 4×i+h.
pub const DURATIONS_LEN: usize = STAGES_MAX * KINDS_MAX;
/// Entries that a call needs in the table of edge ends: first and second
/// stage of edge e are at 2×e and 2×e+1.
pub const ENDS_LEN: usize = EDGES_MAX * 2;
/// Entries that a call needs in the table of waits: row h, column k of edge e
/// is at 16×e+4×h+k.
pub const WAITS_LEN: usize = EDGES_MAX * KINDS_MAX * KINDS_MAX;
/// Entries that [`plan()`] needs in the table of starts, which is laid out as
/// durations.
pub const STARTS_LEN: usize = DURATIONS_LEN;
/// Records that [`plan()`] needs in the list of copies.
pub const COPIES_LEN: usize = STAGES_MAX * KINDS_MAX;
/// No printed plan has more bytes: a `P` line has at most 28 and a `C` line at
/// most 32.
pub const PLAN_MAX: usize = 28 + 32 * COPIES_LEN;
