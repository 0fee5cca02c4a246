//! Tables of the right lengths, owned.

use std::fmt;
use std::hash::{Hash, Hasher};

use crate::{read, Fault, Sizes, DURATIONS_LEN, ENDS_LEN, KINDS_MAX, WAITS_LEN};

/// Durations, ends and waits of a sheet; at first of none. Its clearing times are
/// not kept.
///
/// They hold the sheet that was read last, or refused with
/// [`Fault::RepeatedEdge`]; any other fault leaves them the sheet that they
/// held. Tables are equal if they hold the same sheet but for clearing times, or
/// both none.
#[derive(Clone)]
pub struct Tables {
    /// Of the sheet that is held.
    sizes: Option<Sizes>,
    pub(crate) durations: Box<[u32]>,
    pub(crate) ends: Box<[u32]>,
    pub(crate) waits: Box<[u32]>,
}

impl Tables {
    /// Tables that hold no sheet.
    #[must_use]
    pub fn new() -> Tables {
        Tables {
            sizes: None,
            durations: vec![0; DURATIONS_LEN].into(),
            ends: vec![0; ENDS_LEN].into(),
            waits: vec![0; WAITS_LEN].into(),
        }
    }

    /// Reads a sheet into these tables.
    ///
    /// # Errors
    ///
    /// From [`Fault::LongSheet`] to [`Fault::RepeatedEdge`]; closed paths are not
    /// looked for.
    pub fn read(&mut self, sheet: &[u8]) -> Result<Sizes, Fault> {
        let answer = read(sheet, &mut self.durations, &mut self.ends, &mut self.waits);
        let (sizes, _) = self.keep(sheet, answer)?;
        Ok(sizes)
    }

    /// Takes note of the sheet if the call that gave this answer has left it in
    /// the tables, and adds its sizes to the answer.
    pub(crate) fn keep<A>(
        &mut self,
        sheet: &[u8],
        answer: Result<A, Fault>,
    ) -> Result<(A, Sizes), Fault> {
        match answer {
            Err(fault) if !fault.leaves_sheet() => Err(fault),
            _ => {
                let sizes = Sizes::of_tabled(sheet);
                self.sizes = Some(sizes);
                answer.map(|answer| (answer, sizes))
            }
        }
    }

    /// The sizes of the sheet, or `None` where the tables hold none.
    #[must_use]
    pub fn sizes(&self) -> Option<Sizes> {
        self.sizes
    }

    /// The duration of stage `i` on kind `h`, in microseconds, or `None` where
    /// the sheet has no such stage or kind.
    #[must_use]
    pub fn duration(&self, i: usize, h: usize) -> Option<u32> {
        let place = self.sizes?.stage_place(i, h)?;
        Some(self.durations[place])
    }

    /// First and second stage of edge `e`, or `None` where the sheet has no
    /// such edge.
    #[must_use]
    pub fn ends(&self, e: usize) -> Option<(usize, usize)> {
        let place = self.sizes?.ends_place(e)?;
        Some((self.ends[place] as usize, self.ends[place + 1] as usize))
    }

    /// The wait of edge `e`, in microseconds, from kind `h`, where its first
    /// stage runs, to kind `k`, where its second does, or `None` where the sheet
    /// has no such edge or kind.
    #[must_use]
    pub fn wait(&self, e: usize, h: usize, k: usize) -> Option<u32> {
        let place = self.sizes?.wait_place(e, h, k)?;
        Some(self.waits[place])
    }

    fn sheet(&self) -> Option<Sheet<'_>> {
        let sizes = self.sizes?;
        let edges = self.waits.chunks(KINDS_MAX * KINDS_MAX).take(sizes.edges);
        let rows = |edge| sizes.kind_rows(edge).take(sizes.kinds);
        Some(Sheet {
            sizes,
            durations: sizes
                .kind_rows(&self.durations)
                .take(sizes.stages)
                .collect(),
            ends: &self.ends[..2 * sizes.edges],
            waits: edges.flat_map(rows).collect(),
        })
    }
}

/// What tables are compared by: the entries that the sheet uses, row by row. In
/// the others is what earlier sheets have left.
#[derive(Debug, PartialEq, Eq, Hash)]
struct Sheet<'a> {
    sizes: Sizes,
    durations: Vec<&'a [u32]>,
    ends: &'a [u32],
    waits: Vec<&'a [u32]>,
}

impl PartialEq for Tables {
    fn eq(&self, other: &Tables) -> bool {
        self.sheet() == other.sheet()
    }
}

impl Eq for Tables {}

impl Hash for Tables {
    fn hash<H: Hasher>(&self, state: &mut H) {
        self.sheet().hash(state);
    }
}

impl fmt::Debug for Tables {
    fn fmt(&self, f: &mut fmt::Formatter) -> fmt::Result {
        f.debug_tuple("Tables").field(&self.sheet()).finish()
    }
}

impl Default for Tables {
    fn default() -> Tables {
        Tables::new()
    }
}
