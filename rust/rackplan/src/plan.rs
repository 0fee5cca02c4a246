//! The plan of a sheet, borrowed or owned.

use std::borrow::Cow;
use std::fmt;
use std::hash::{Hash, Hasher};

use crate::{Sizes, StageCopy, KINDS_MAX};

/// The plan of a sheet: borrowed from the [`Planner`](crate::Planner) that made
/// it, or an [`OwnedPlan`]. It is printed by [`Display`](fmt::Display).
///
/// Plans are equal if sizes, text and the starts of all stages on all kinds
/// are. Clearing times are seen in their boards alone.
#[derive(Clone)]
pub struct Plan<'a> {
    pub(crate) sizes: Sizes,
    pub(crate) finish: u32,
    pub(crate) boards: [usize; KINDS_MAX],
    pub(crate) copies: Cow<'a, [StageCopy]>,
    /// The sheet's stages, in rows for four kinds.
    pub(crate) starts: Cow<'a, [u32]>,
    /// As starts.
    pub(crate) durations: Cow<'a, [u32]>,
    pub(crate) text: Cow<'a, str>,
}

/// A plan that borrows nothing, from [`plan_sheet`](crate::plan_sheet) or
/// [`Plan::into_owned`].
pub type OwnedPlan = Plan<'static>;

impl Plan<'_> {
    /// The same plan, which borrows nothing.
    #[must_use]
    pub fn into_owned(self) -> OwnedPlan {
        Plan {
            sizes: self.sizes,
            finish: self.finish,
            boards: self.boards,
            copies: self.copies.into_owned().into(),
            starts: self.starts.into_owned().into(),
            durations: self.durations.into_owned().into(),
            text: self.text.into_owned().into(),
        }
    }

    /// The sizes of the sheet.
    #[must_use]
    pub fn sizes(&self) -> Sizes {
        self.sizes
    }

    /// K, the number of kinds.
    #[must_use]
    pub fn kinds(&self) -> usize {
        self.sizes.kinds
    }

    /// N, the number of stages.
    #[must_use]
    pub fn stages(&self) -> usize {
        self.sizes.stages
    }

    /// M, the number of edges.
    #[must_use]
    pub fn edges(&self) -> usize {
        self.sizes.edges
    }

    /// When the last copy ends, in microseconds.
    #[must_use]
    pub fn finish(&self) -> u32 {
        self.finish
    }

    /// The boards used of each kind, 0 of kinds that the sheet does not have.
    #[must_use]
    pub fn boards(&self) -> [usize; KINDS_MAX] {
        self.boards
    }

    /// The copies, by start, then kind, then stage.
    #[must_use]
    pub fn copies(&self) -> &[StageCopy] {
        &self.copies
    }

    /// The copies, in the same order, each with the time at which it ends.
    #[must_use]
    pub fn copies_with_ends(&self) -> impl ExactSizeIterator<Item = (StageCopy, u32)> + '_ {
        self.copies.iter().map(|&copy| (copy, self.end_of(copy)))
    }

    /// When the copy ends, or `None` where the plan has no such copy.
    #[must_use]
    pub fn end(&self, copy: StageCopy) -> Option<u32> {
        // by these the list is in order, and no two copies agree in all three
        let key = |copy: &StageCopy| (copy.start, copy.kind, copy.stage);
        let place = self.copies.binary_search_by_key(&key(&copy), key).ok()?;
        (self.copies[place] == copy).then(|| self.end_of(copy))
    }

    /// When a copy of this plan ends (SPEC 7.3): no later than at 511000000, so
    /// the sum is a `u32` (SPEC 3.4).
    fn end_of(&self, copy: StageCopy) -> u32 {
        copy.start + self.durations[KINDS_MAX * copy.stage as usize + copy.kind as usize]
    }

    /// The start of stage `i` on kind `h`, also where it has no copy on it, in
    /// microseconds, or `None` where the sheet has no such stage or kind.
    #[must_use]
    pub fn start(&self, i: usize, h: usize) -> Option<u32> {
        let place = self.sizes.stage_place(i, h)?;
        Some(self.starts[place])
    }

    /// The printed plan.
    #[must_use]
    pub fn text(&self) -> &str {
        &self.text
    }

    fn contents(&self) -> Contents<'_> {
        Contents {
            sizes: self.sizes,
            starts: self.sizes.kind_rows(&self.starts).collect(),
            text: &self.text,
        }
    }
}

/// What plans are compared by. The text has finish, boards, and the copies with
/// their ends (SPEC 6.3); starts are without those from kind K on, which an
/// earlier sheet has left in the planner.
#[derive(PartialEq, Eq, Hash)]
struct Contents<'a> {
    sizes: Sizes,
    starts: Vec<&'a [u32]>,
    text: &'a str,
}

impl PartialEq for Plan<'_> {
    fn eq(&self, other: &Plan) -> bool {
        self.contents() == other.contents()
    }
}

impl Eq for Plan<'_> {}

impl Hash for Plan<'_> {
    fn hash<H: Hasher>(&self, state: &mut H) {
        self.contents().hash(state);
    }
}

impl fmt::Debug for Plan<'_> {
    fn fmt(&self, f: &mut fmt::Formatter) -> fmt::Result {
        let Contents {
            sizes,
            starts,
            text,
        } = self.contents();
        let mut plan = f.debug_struct("Plan");
        plan.field("sizes", &sizes).field("starts", &starts);
        plan.field("text", &text).finish()
    }
}

/// The printed plan.
impl fmt::Display for Plan<'_> {
    fn fmt(&self, f: &mut fmt::Formatter) -> fmt::Result {
        f.write_str(&self.text)
    }
}
