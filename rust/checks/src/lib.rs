//! The library, compared with the second implementation and measured.
//!
//! The calls `read` and `plan`:
//!
//! - [`readers`], [`planners`]: all implementations of each call, in one form;
//! - [`plain`]: `read` in plain Rust, written for speed, to measure against;
//! - [`lent`]: sheet and buffers as a caller lends them, with margins that show
//!   a write outside;
//! - [`draw`]: sheets and buffer lengths of all sorts, from a seed;
//! - [`compare`]: one call by every implementation.
//!
//! The layers behind them:
//!
//! - [`layers`]: each layer of the library, and in plain Rust
//!   ([`plain_layers`]), in one form;
//! - [`compare_layers`]: all layers on one sheet, by both.
//!
//! Rivals:
//!
//! - [`heft`]: a planner with one copy a stage;
//! - [`graphs`]: the task graphs of SPAGHETtI as sheets;
//! - [`rival`]: our plan beside a rival's.
//!
//! [`mix`] counts what the drawn cases were.

pub mod compare;
pub mod compare_layers;
pub mod draw;
pub mod graphs;
pub mod heft;
pub mod layers;
pub mod lent;
pub mod mix;
pub mod plain;
pub mod plain_layers;
pub mod planners;
pub mod readers;
pub mod rival;
