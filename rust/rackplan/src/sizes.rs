//! How much of each a sheet has, and where the tables have its entries.

use crate::KINDS_MAX;

/// How much of each a sheet has.
#[derive(Clone, Copy, Debug, PartialEq, Eq, Hash)]
pub struct Sizes {
    /// K, the kinds of boards: 1 to [`KINDS_MAX`].
    pub kinds: usize,
    /// N, the stages: 1 to [`STAGES_MAX`](crate::STAGES_MAX).
    pub stages: usize,
    /// M, the edges: 0 to [`EDGES_MAX`](crate::EDGES_MAX).
    pub edges: usize,
}

impl Sizes {
    /// The sizes of a sheet that a call has left in the tables. `plan` does not
    /// return them, nor does a fault, so they are taken from the first line.
    ///
    /// That is sound because a call fills the tables only after every line has
    /// passed (SPEC 8.3, 8.4): the sheet begins with `J,K,N,M` and byte 10, and
    /// the three are decimal numbers within their ranges (SPEC 1.2, 1.4).
    pub(crate) fn of_tabled(sheet: &[u8]) -> Sizes {
        let fields = sheet.split(|byte| matches!(byte, b',' | b'\n'));
        let mut numbers = fields.skip(1).map(decimal);
        let mut next = || numbers.next().flatten().expect("the first line is J,K,N,M");
        Sizes {
            kinds: next(),
            stages: next(),
            edges: next(),
        }
    }

    /// Where durations and starts have stage `i` on kind `h`.
    pub(crate) fn stage_place(&self, i: usize, h: usize) -> Option<usize> {
        (i < self.stages && h < self.kinds).then(|| KINDS_MAX * i + h)
    }

    /// Where ends has the first stage of edge `e`.
    pub(crate) fn ends_place(&self, e: usize) -> Option<usize> {
        (e < self.edges).then(|| 2 * e)
    }

    /// Where waits has the one of edge `e` from kind `h` to kind `k`.
    pub(crate) fn wait_place(&self, e: usize, h: usize, k: usize) -> Option<usize> {
        let within = e < self.edges && h < self.kinds && k < self.kinds;
        within.then(|| KINDS_MAX * (KINDS_MAX * e + h) + k)
    }

    /// The rows of a table that has an entry for each of four kinds in each row,
    /// without those from kind K on.
    pub(crate) fn kind_rows<'a>(&self, table: &'a [u32]) -> impl Iterator<Item = &'a [u32]> {
        let kinds = self.kinds;
        table.chunks(KINDS_MAX).map(move |row| &row[..kinds])
    }
}

fn decimal(field: &[u8]) -> Option<usize> {
    std::str::from_utf8(field).ok()?.parse().ok()
}

#[cfg(test)]
mod tests {
    use super::*;
    use crate::{EDGES_MAX, STAGES_MAX};

    #[test]
    fn every_first_line_gives_its_sizes() {
        let all_stages = (1..=STAGES_MAX).map(|stages| (stages, EDGES_MAX));
        let all_edges = (0..=EDGES_MAX).map(|edges| (STAGES_MAX, edges));
        for (stages, edges) in all_stages.chain(all_edges) {
            for kinds in 1..=KINDS_MAX {
                let sizes = Sizes {
                    kinds,
                    stages,
                    edges,
                };
                let sheet = format!("J,{kinds},{stages},{edges}\nG,7,8,9\nT,0,7,8,9\n");
                assert_eq!(Sizes::of_tabled(sheet.as_bytes()), sizes);
            }
        }
    }

    #[test]
    fn no_place_is_outside_the_sheet() {
        let sizes = Sizes {
            kinds: 2,
            stages: 2,
            edges: 2,
        };
        assert_eq!(sizes.stage_place(1, 1), Some(5));
        assert_eq!(sizes.ends_place(1), Some(2));
        assert_eq!(sizes.wait_place(1, 1, 1), Some(21));
        for outside in [2, KINDS_MAX, STAGES_MAX, EDGES_MAX, usize::MAX] {
            assert_eq!(sizes.stage_place(0, outside), None);
            assert_eq!(sizes.stage_place(outside, 0), None);
            assert_eq!(sizes.ends_place(outside), None);
            assert_eq!(sizes.wait_place(outside, 0, 0), None);
            assert_eq!(sizes.wait_place(0, outside, 0), None);
            assert_eq!(sizes.wait_place(0, 0, outside), None);
        }
    }
}
