//! Sheet, tables, list and output as a caller lends them, each inside a longer
//! stretch of memory, so that a read or a write outside is seen.

use std::fmt::LowerHex;
use std::slice;

use rackplan::{StageCopy, COPIES_LEN, DURATIONS_LEN, ENDS_LEN, PLAN_MAX, STARTS_LEN, WAITS_LEN};
use reference::generator::Random;

use crate::planners::{PlanAnswer, PlanBuffers, Planner};
use crate::readers::{Answer, Reader};

/// Entries that `read` needs in durations, ends and waits.
pub const EXACT: [usize; 3] = [DURATIONS_LEN, ENDS_LEN, WAITS_LEN];

/// What `plan` needs: these entries, those of starts, and records of the list.
pub const PLAN_EXACT: [usize; 5] = [DURATIONS_LEN, ENDS_LEN, WAITS_LEN, STARTS_LEN, COPIES_LEN];

const NAMES: [&str; 5] = ["durations", "ends", "waits", "starts", "copies"];

/// Numbers that a record is.
const RECORD: usize = 4;

/// Entries behind the longest place that a call could write to.
const MARGIN: usize = 32;

/// The old content of buffers and margins.
#[derive(Clone, Copy, Debug, PartialEq, Eq)]
pub enum Fill {
    /// Numbers and bytes that no sheet and no plan can contain, each different
    /// from its neighbours: every write is seen.
    Marks,
    /// Numbers below 4 and bytes of digits, as a sheet and a plan have: old
    /// content that is taken for the sheet's changes the answer.
    SmallNumbers,
}

impl Fill {
    /// Mostly marks.
    pub fn draw(random: &mut Random) -> Fill {
        if random.one_in(4) {
            Fill::SmallNumbers
        } else {
            Fill::Marks
        }
    }

    fn entry(self, seed: u32, at: usize) -> u32 {
        let mixed = mix(seed, at);
        match self {
            Fill::Marks => mixed | 0x8000_0000,
            Fill::SmallNumbers => mixed >> 30,
        }
    }

    fn byte(self, seed: u32, at: usize) -> u8 {
        let mixed = mix(seed, at);
        match self {
            Fill::Marks => (mixed >> 24) as u8 | 0x80,
            Fill::SmallNumbers => b'0' + (mixed >> 30) as u8,
        }
    }
}

/// Multiplication by an odd number keeps neighbours apart.
fn mix(seed: u32, at: usize) -> u32 {
    (seed ^ at as u32).wrapping_mul(0x9e37_79b1)
}

/// A part of a longer vector.
#[derive(Clone, Debug, PartialEq, Eq)]
struct Lent<N> {
    memory: Vec<N>,
    from: usize,
    length: usize,
}

impl<N: PartialEq + LowerHex> Lent<N> {
    /// So many entries of old content. They begin at a drawn place, so that
    /// numbers are aligned for 32 bits and for nothing wider. Behind fewer than
    /// `needed` there is memory where a longer part would be.
    fn new(
        random: &mut Random,
        length: usize,
        needed: usize,
        old: impl Fn(u32, usize) -> N,
    ) -> Lent<N> {
        let from = random.between(1, 8);
        let total = from + length.max(needed) + MARGIN;
        let seed = random.next_u64() as u32;
        Lent {
            memory: (0..total).map(|at| old(seed, at)).collect(),
            from,
            length,
        }
    }

    fn lend(&mut self) -> &mut [N] {
        &mut self.memory[self.from..self.from + self.length]
    }

    /// The first place at which the two differ, which is negative or beyond
    /// the length in a margin.
    fn first_difference(&self, other: &Lent<N>) -> Option<String> {
        let mut pairs = self.memory.iter().zip(&other.memory);
        let at = pairs.position(|(one, other)| one != other)?;
        let place = at as isize - self.from as isize;
        let (one, other) = (&self.memory[at], &other.memory[at]);
        Some(format!("[{place}] is {one:#x}, not {other:#x}"))
    }
}

impl Lent<u32> {
    /// The numbers four by four as records.
    fn lend_records(&mut self) -> &mut [StageCopy] {
        let numbers = self.lend();
        let length = numbers.len() / RECORD;
        // SAFETY: a record is laid out as four numbers, any four are one, and
        // there are so many.
        unsafe { slice::from_raw_parts_mut(numbers.as_mut_ptr().cast(), length) }
    }
}

/// What can be compared with another of its sort.
pub trait Compared: PartialEq {
    /// The first place at which the two differ: buffer and entry.
    fn first_difference(&self, other: &Self) -> Option<String>;
}

/// The first difference of several buffers, with their names.
fn first_of_tables<const T: usize>(one: &[Lent<u32>; T], other: &[Lent<u32>; T]) -> Option<String> {
    (0..T).find_map(|table| {
        let difference = one[table].first_difference(&other[table])?;
        Some(format!("{}{difference}", NAMES[table]))
    })
}

/// Durations, ends and waits of any lengths.
#[derive(Clone, Debug, PartialEq, Eq)]
pub struct LentTables {
    tables: [Lent<u32>; 3],
}

impl LentTables {
    pub fn new(random: &mut Random, lengths: [usize; 3], fill: Fill) -> LentTables {
        let old = |seed, at| fill.entry(seed, at);
        LentTables {
            tables: [0, 1, 2].map(|table| Lent::new(random, lengths[table], EXACT[table], old)),
        }
    }

    /// Calls a reader on the sheet and these tables.
    pub fn call(&mut self, reader: Reader, sheet: &LentSheet) -> Answer {
        let [durations, ends, waits] = &mut self.tables;
        reader(sheet.lend(), durations.lend(), ends.lend(), waits.lend())
    }
}

impl Compared for LentTables {
    fn first_difference(&self, other: &LentTables) -> Option<String> {
        first_of_tables(&self.tables, &other.tables)
    }
}

/// All that `plan` takes besides the sheet, of any lengths.
#[derive(Clone, Debug, PartialEq, Eq)]
pub struct LentPlan {
    /// Durations, ends, waits and starts, and the list as numbers, four a
    /// record: so the records are not aligned for more than a number either.
    tables: [Lent<u32>; 5],
    out: Lent<u8>,
}

impl LentPlan {
    pub fn new(random: &mut Random, lengths: [usize; 5], out: usize, fill: Fill) -> LentPlan {
        let old = |seed, at| fill.entry(seed, at);
        LentPlan {
            tables: [0, 1, 2, 3, 4].map(|table| {
                let numbers = if table == 4 { RECORD } else { 1 };
                let (length, needed) = (numbers * lengths[table], numbers * PLAN_EXACT[table]);
                Lent::new(random, length, needed, old)
            }),
            out: Lent::new(random, out, PLAN_MAX, |seed, at| fill.byte(seed, at)),
        }
    }

    /// Calls a planner on the sheet and these buffers.
    pub fn call(&mut self, planner: Planner, sheet: &LentSheet) -> PlanAnswer {
        let [durations, ends, waits, starts, copies] = &mut self.tables;
        let buffers = PlanBuffers {
            durations: durations.lend(),
            ends: ends.lend(),
            waits: waits.lend(),
            starts: starts.lend(),
            copies: copies.lend_records(),
            out: self.out.lend(),
        };
        planner(sheet.lend(), buffers)
    }
}

impl Compared for LentPlan {
    fn first_difference(&self, other: &LentPlan) -> Option<String> {
        first_of_tables(&self.tables, &other.tables).or_else(|| {
            let difference = self.out.first_difference(&other.out)?;
            Some(format!("out{difference}"))
        })
    }
}

/// A sheet with other bytes right behind it.
pub struct LentSheet {
    memory: Vec<u8>,
    length: usize,
}

impl LentSheet {
    /// `behind` is a byte that could go on with the sheet.
    pub fn new(text: &[u8], behind: u8) -> LentSheet {
        let mut memory = text.to_vec();
        memory.extend([behind; MARGIN]);
        LentSheet {
            memory,
            length: text.len(),
        }
    }

    fn lend(&self) -> &[u8] {
        &self.memory[..self.length]
    }
}

#[cfg(test)]
mod tests {
    use super::*;

    /// Changes one place of a copy and asks for the difference.
    fn difference_after(change: impl Fn(&mut LentPlan)) -> Option<String> {
        let mut random = Random::new(1);
        let before = LentPlan::new(&mut random, PLAN_EXACT, 10, Fill::Marks);
        let mut after = before.clone();
        change(&mut after);
        after.first_difference(&before)
    }

    #[test]
    fn margins_are_compared() {
        assert_eq!(difference_after(|_| ()), None);
        for table in 0..5 {
            let length = PLAN_EXACT[table] * if table == 4 { RECORD } else { 1 };
            let before = difference_after(|lent| {
                let from = lent.tables[table].from;
                lent.tables[table].memory[from - 1] = 0;
            });
            let behind = difference_after(|lent| {
                let end = lent.tables[table].from + length;
                lent.tables[table].memory[end] = 0;
            });
            let is_at = |difference: Option<String>, place: &str| {
                difference.is_some_and(|text| text.starts_with(place))
            };
            assert!(is_at(before, &format!("{}[-1] is 0x0", NAMES[table])));
            assert!(is_at(behind, &format!("{}[{length}] is 0x0", NAMES[table])));
        }
        let behind = difference_after(|lent| {
            let end = lent.out.from + 10;
            lent.out.memory[end] = b'C';
        });
        assert!(behind.is_some_and(|text| text.starts_with("out[10] is 0x43")));
    }

    #[test]
    fn the_list_is_lent_as_records() {
        let mut random = Random::new(2);
        let mut lent = LentPlan::new(&mut random, PLAN_EXACT, 0, Fill::Marks);
        let list = &mut lent.tables[4];
        let from = list.from;
        let records = list.lend_records();
        assert_eq!(records.len(), COPIES_LEN);
        records[1].start = 7;
        assert_eq!(list.memory[from + 7], 7);
    }
}
