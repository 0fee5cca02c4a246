//! All that the call `plan` fills, owned.

use std::fmt;

use crate::{
    plan, Fault, OwnedPlan, Plan, StageCopy, Tables, COPIES_LEN, KINDS_MAX, PLAN_MAX, STARTS_LEN,
};

/// Plans a sheet. For many sheets a [`Planner`] saves the allocations.
///
/// # Errors
///
/// Any fault but [`Fault::ShortTable`] and [`Fault::ShortOutput`].
pub fn plan_sheet(sheet: &[u8]) -> Result<OwnedPlan, Fault> {
    Planner::new().plan(sheet).map(Plan::into_owned)
}

/// Tables, list and output of the lengths that every sheet fits in, to plan one
/// sheet after the other.
#[derive(Clone)]
pub struct Planner {
    tables: Tables,
    starts: Box<[u32]>,
    copies: Box<[StageCopy]>,
    out: Box<[u8]>,
}

impl Planner {
    /// A planner that has planned nothing yet.
    #[must_use]
    pub fn new() -> Planner {
        Planner {
            tables: Tables::new(),
            starts: vec![0; STARTS_LEN].into(),
            copies: vec![StageCopy::default(); COPIES_LEN].into(),
            out: vec![0; PLAN_MAX].into(),
        }
    }

    /// Plans a sheet. The plan borrows the planner; [`Plan::into_owned`] parts
    /// the two.
    ///
    /// # Errors
    ///
    /// Any fault but [`Fault::ShortTable`] and [`Fault::ShortOutput`].
    pub fn plan(&mut self, sheet: &[u8]) -> Result<Plan<'_>, Fault> {
        let answer = plan(
            sheet,
            &mut self.tables.durations,
            &mut self.tables.ends,
            &mut self.tables.waits,
            &mut self.starts,
            &mut self.copies,
            &mut self.out,
        );
        let (totals, sizes) = self.tables.keep(sheet, answer)?;
        let by_stage = KINDS_MAX * sizes.stages;
        let text = std::str::from_utf8(&self.out[..totals.printed]);
        Ok(Plan {
            sizes,
            finish: totals.finish,
            boards: totals.boards,
            copies: self.copies[..totals.copies].into(),
            starts: self.starts[..by_stage].into(),
            durations: self.tables.durations[..by_stage].into(),
            text: text.expect("a printed plan is ASCII").into(),
        })
    }

    /// The tables of the sheet that was planned last, or refused with
    /// [`Fault::RepeatedEdge`] or [`Fault::Circular`] since.
    #[must_use]
    pub fn tables(&self) -> &Tables {
        &self.tables
    }
}

impl Default for Planner {
    fn default() -> Planner {
        Planner::new()
    }
}

impl fmt::Debug for Planner {
    fn fmt(&self, f: &mut fmt::Formatter) -> fmt::Result {
        let mut planner = f.debug_struct("Planner");
        planner
            .field("tables", &self.tables)
            .finish_non_exhaustive()
    }
}
