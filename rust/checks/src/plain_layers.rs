//! The layers between reading and printing in plain Rust, safe and without
//! allocation, written to be fast: what the library's layers are measured
//! against. Same tables, same algorithms; sorting is Rust's own.

use rackplan::{KINDS_MAX, STAGES_MAX};

use crate::layers::{Chains, Layers, PlanTables, SheetTables, Side};

/// A number of kinds that the compiler knows has its loops unrolled.
macro_rules! by_kinds {
    ($kinds:expr, $layer:ident($($argument:expr),*)) => {
        match $kinds {
            1 => $layer::<1>($($argument),*),
            2 => $layer::<2>($($argument),*),
            3 => $layer::<3>($($argument),*),
            _ => $layer::<4>($($argument),*),
        }
    };
}
/// All of them.
pub struct Plain;

impl Layers for Plain {
    const NAME: &'static str = "plain Rust";

    fn chain(sheet: &SheetTables, side: Side, head: &mut [u32], prev: &mut [u32]) {
        match side {
            Side::Source => chain::<0>(sheet, head, prev),
            Side::Target => chain::<1>(sheet, head, prev),
        }
    }

    fn running_order(sheet: &SheetTables, chains: Chains, order: &mut [u32]) -> bool {
        running_order(sheet, chains, order)
    }

    fn start_times(sheet: &SheetTables, chains: Chains, order: &[u32], starts: &mut [u32]) {
        by_kinds!(sheet.kinds, start_times(sheet, chains, order, starts))
    }

    fn finish_time(sheet: &SheetTables, starts: &[u32]) -> u32 {
        by_kinds!(sheet.kinds, finish_time(sheet, starts))
    }

    fn choose_copies(
        sheet: &SheetTables,
        chains: Chains,
        order: &[u32],
        starts: &[u32],
        copied: &mut [u8],
    ) {
        by_kinds!(
            sheet.kinds,
            choose_copies(sheet, chains, order, starts, copied)
        )
    }

    fn assign_boards(
        sheet: &SheetTables,
        starts: &[u32],
        copied: &[u8],
        rows: &mut [u32],
        counts: &mut [u32],
    ) -> usize {
        let mut keys = [0; STAGES_MAX * KINDS_MAX];
        let copies = match collect_in_order(sheet, starts, copied, &mut keys) {
            Some(copies) => copies,
            None => {
                let copies = collect_by_kind(sheet, starts, copied, &mut keys);
                keys[..copies].sort_unstable();
                copies
            }
        };
        first_fit(sheet, &keys[..copies], rows, counts);
        copies
    }

    fn plan_length(sheet: &SheetTables, plan: &PlanTables) -> usize {
        let head = plan.counts[..sheet.kinds].iter().map(|&n| width(n) + 1);
        let head = head.sum::<usize>() + width(plan.finish) + 3;
        let rows = plan.rows.chunks_exact(4).take(plan.copies);
        let lines = rows.map(|row| {
            let fields = row.iter().map(|&number| width(number) + 1).sum::<usize>();
            fields + width(end_of(sheet, row)) + 3
        });
        lines.sum::<usize>() + head
    }

    fn write_plan(sheet: &SheetTables, plan: &PlanTables, out: &mut [u8]) -> usize {
        let mut at = put(out, 0, b'P');
        at = put_field(out, at, plan.finish);
        for &count in &plan.counts[..sheet.kinds] {
            at = put_field(out, at, count);
        }
        at = put(out, at, b'\n');
        for row in plan.rows.chunks_exact(4).take(plan.copies) {
            at = put(out, at, b'C');
            for &number in row {
                at = put_field(out, at, number);
            }
            at = put_field(out, at, end_of(sheet, row));
            at = put(out, at, b'\n');
        }
        at
    }

    fn refusal_length(number: u32, line: u32) -> usize {
        width(number) + width(line) + 4
    }

    fn write_refusal(number: u32, line: u32, out: &mut [u8]) -> usize {
        let at = put(out, 0, b'R');
        let at = put_field(out, at, number);
        let at = put_field(out, at, line);
        put(out, at, b'\n')
    }
}

fn chain<const SIDE: usize>(sheet: &SheetTables, head: &mut [u32], prev: &mut [u32]) {
    let head = &mut head[..sheet.stages];
    head.fill(0);
    let (pairs, _) = sheet.ends[..2 * sheet.edges].as_chunks::<2>();
    let mut edge = 0;
    for (pair, prev) in pairs.iter().zip(prev) {
        edge += 1;
        *prev = std::mem::replace(&mut head[pair[SIDE] as usize], edge);
    }
}

/// The edges of a chain, last to first.
fn walk(chains: Chains<'_>, stage: usize) -> impl Iterator<Item = usize> + '_ {
    let mut at = chains.head[stage] as usize;
    std::iter::from_fn(move || {
        let edge = at.checked_sub(1)?;
        at = chains.prev[edge] as usize;
        Some(edge)
    })
}

/// Always the lowest stage without open predecessors; true if none is left
/// before all are done.
fn running_order(sheet: &SheetTables, chains: Chains, order: &mut [u32]) -> bool {
    let (ends, _) = sheet.ends[..2 * sheet.edges].as_chunks::<2>();
    let mut search = Search::new(ends);
    // no stage below can run
    let mut from = 0;
    for place in &mut order[..sheet.stages] {
        let Some(stage) = search.next(from, sheet.stages) else {
            return true;
        };
        *place = stage as u32;
        from = if search.mark_done(stage) {
            search.release::<true>(ends, chains, stage)
        } else {
            search.release::<false>(ends, chains, stage)
        };
    }
    false
}

/// The search for the next stage goes upwards only. A stage that becomes ready
/// behind it joins a set.
struct Search {
    /// How many edges into each stage are open.
    open: [u32; STAGES_MAX],
    /// Where the search is.
    reached: usize,
    /// A bit for each ready stage below.
    behind: [u64; STAGES_MAX / 64],
}

impl Search {
    const DONE: u32 = u32::MAX;

    fn new(ends: &[[u32; 2]]) -> Search {
        let mut open = [0; STAGES_MAX];
        for pair in ends {
            open[index(pair[1])] += 1;
        }
        Search {
            open,
            reached: 0,
            behind: [0; STAGES_MAX / 64],
        }
    }

    /// The first guess is right where a sheet lists its stages as they run.
    #[inline]
    fn next(&self, from: usize, stages: usize) -> Option<usize> {
        if from < stages && self.open[from] == 0 {
            return Some(from);
        }
        if let Some(word) = (from / 64..self.behind.len()).find(|&word| self.behind[word] != 0) {
            return Some(64 * word + self.behind[word].trailing_zeros() as usize);
        }
        let mut ahead = self.open[self.reached..stages].iter();
        Some(self.reached + ahead.position(|&count| count == 0)?)
    }

    /// True if the search went upwards to the stage.
    #[inline]
    fn mark_done(&mut self, stage: usize) -> bool {
        self.open[stage] = Search::DONE;
        let upwards = self.reached <= stage;
        if upwards {
            self.reached = stage + 1;
        } else {
            self.behind[stage / 64] -= 1 << (stage % 64);
        }
        upwards
    }

    /// Gives where to go on. Whether a stage joins the set is a branch only
    /// while the search goes upwards, where few do.
    #[inline]
    fn release<const UPWARDS: bool>(
        &mut self,
        ends: &[[u32; 2]],
        chains: Chains,
        stage: usize,
    ) -> usize {
        let (mut from, reached) = (stage + 1, self.reached);
        for edge in walk(chains, stage) {
            let target = index(ends[edge][1]);
            let left = self.open[target] - 1;
            self.open[target] = left;
            if UPWARDS {
                // one branch, not two
                let ahead = u32::from(reached <= target);
                if left | ahead == 0 {
                    self.behind[target / 64] += 1 << (target % 64);
                    from = from.min(target);
                }
            } else {
                let joins = (left == 0) & (target < reached);
                self.behind[target / 64] += u64::from(joins) << (target % 64);
                let lower = from.min(target);
                from = if left == 0 { lower } else { from };
            }
        }
        from
    }
}

/// A stage that the compiler knows to be below 256.
fn index(stage: u32) -> usize {
    usize::from(stage as u8)
}

/// Start + duration on each kind.
fn ends_of<const K: usize>(sheet: &SheetTables, starts: &[u32], stage: usize) -> [u32; K] {
    let starts: &[u32; K] = starts[4 * stage..]
        .first_chunk()
        .expect("a row has K starts");
    let durations: &[u32; K] = sheet.durations[4 * stage..]
        .first_chunk()
        .expect("a row has K durations");
    std::array::from_fn(|kind| starts[kind] + durations[kind])
}

fn waits_of<'a>(sheet: &SheetTables<'a>, edge: usize) -> &'a [u32; KINDS_MAX * KINDS_MAX] {
    sheet.waits[16 * edge..]
        .first_chunk()
        .expect("an edge has 16 places")
}

fn start_times<const K: usize>(
    sheet: &SheetTables,
    chains: Chains,
    order: &[u32],
    starts: &mut [u32],
) {
    for &stage in &order[..sheet.stages] {
        let stage = stage as usize;
        let mut inputs = [0; K];
        for edge in walk(chains, stage) {
            let ends = ends_of::<K>(sheet, starts, sheet.ends[2 * edge] as usize);
            let waits = waits_of(sheet, edge);
            for (k, input) in inputs.iter_mut().enumerate() {
                let arrivals = (0..K).map(|h| ends[h] + waits[4 * h + k]);
                *input = arrivals.min().expect("K is at least 1").max(*input);
            }
        }
        starts[4 * stage..4 * stage + K].copy_from_slice(&inputs);
    }
}

fn earliest_end<const K: usize>(sheet: &SheetTables, starts: &[u32], stage: usize) -> u32 {
    let ends = ends_of::<K>(sheet, starts, stage);
    ends.into_iter().min().expect("K is at least 1")
}

fn finish_time<const K: usize>(sheet: &SheetTables, starts: &[u32]) -> u32 {
    let ends = (0..sheet.stages).map(|stage| earliest_end::<K>(sheet, starts, stage));
    ends.max().expect("N is at least 1")
}

fn choose_copies<const K: usize>(
    sheet: &SheetTables,
    chains: Chains,
    order: &[u32],
    starts: &[u32],
    copied: &mut [u8],
) {
    for &stage in order[..sheet.stages].iter().rev() {
        let stage = stage as usize;
        let kinds = if chains.head[stage] == 0 {
            let ends = ends_of::<K>(sheet, starts, stage);
            let earliest = earliest_end::<K>(sheet, starts, stage);
            1 << ends
                .iter()
                .position(|&end| end == earliest)
                .expect("it is one")
        } else {
            kinds_serving::<K>(sheet, chains, starts, copied, stage)
        };
        for kind in 0..K {
            copied[4 * stage + kind] = (kinds >> kind & 1) as u8;
        }
    }
}

/// A stage with successors: bit h says that kind h has a copy.
fn kinds_serving<const K: usize>(
    sheet: &SheetTables,
    chains: Chains,
    starts: &[u32],
    copied: &[u8],
    stage: usize,
) -> u32 {
    let ends = ends_of::<K>(sheet, starts, stage);
    let (mut common, mut picked) = ((1u32 << K) - 1, 0);
    for edge in walk(chains, stage) {
        let target = 4 * sheet.ends[2 * edge + 1] as usize;
        let waits = waits_of(sheet, edge);
        for k in 0..K {
            if copied[target + k] == 0 {
                continue;
            }
            let start = starts[target + k];
            let serving = (0..K).fold(0, |serving, h| {
                serving | u32::from(ends[h] + waits[4 * h + k] <= start) << h
            });
            common &= serving;
            picked |= lowest_bit(serving);
        }
    }
    if common == 0 {
        picked
    } else {
        lowest_bit(common)
    }
}

fn lowest_bit(bits: u32) -> u32 {
    bits & bits.wrapping_neg()
}

/// Start, kind and stage of a copy, from the highest bits to the lowest.
fn key(starts: &[u32], stage: usize, kind: usize) -> u64 {
    u64::from(starts[4 * stage + kind]) << 10 | (kind as u64) << 8 | stage as u64
}

/// The keys stage by stage, as long as they are in order.
fn collect_in_order(
    sheet: &SheetTables,
    starts: &[u32],
    copied: &[u8],
    keys: &mut [u64],
) -> Option<usize> {
    let (mut copies, mut last) = (0, 0);
    for stage in 0..sheet.stages {
        for kind in 0..sheet.kinds {
            if copied[4 * stage + kind] == 1 {
                let key = key(starts, stage, kind);
                if key < last {
                    return None;
                }
                keys[copies] = key;
                copies += 1;
                last = key;
            }
        }
    }
    Some(copies)
}

/// The keys kind by kind. Each is stored, and counted only for a copy.
fn collect_by_kind(sheet: &SheetTables, starts: &[u32], copied: &[u8], keys: &mut [u64]) -> usize {
    let mut copies = 0;
    for kind in 0..sheet.kinds {
        for stage in 0..sheet.stages {
            keys[copies] = key(starts, stage, kind);
            copies += usize::from(copied[4 * stage + kind]);
        }
    }
    copies
}

/// Rows of stage, kind, board and start, and the boards used of each kind.
fn first_fit(sheet: &SheetTables, keys: &[u64], rows: &mut [u32], counts: &mut [u32]) {
    // when each board is free again (SPEC 5.3)
    let mut free_at = [[0; STAGES_MAX]; KINDS_MAX];
    let mut used = [0; KINDS_MAX];
    for (row, key) in rows.chunks_exact_mut(4).zip(keys) {
        let (start, kind, stage) = ((key >> 10) as u32, (key >> 8 & 3) as usize, key & 255);
        let in_use = &free_at[kind][..used[kind]];
        let free = in_use.iter().position(|&time| time <= start);
        let board = free.unwrap_or(used[kind]);
        used[kind] = used[kind].max(board + 1);
        let end = start + sheet.durations[4 * stage as usize + kind];
        free_at[kind][board] = end + sheet.clearing[kind];
        row.copy_from_slice(&[stage as u32, kind as u32, board as u32, start]);
    }
    for (count, used) in counts.iter_mut().zip(used) {
        *count = used as u32;
    }
}

/// How many digits a number has. Comparisons cost less than `ilog10` where
/// most numbers are short.
#[inline]
fn width(number: u32) -> usize {
    match number {
        0..=9 => 1,
        10..=99 => 2,
        100..=999 => 3,
        1_000..=9_999 => 4,
        10_000..=99_999 => 5,
        100_000..=999_999 => 6,
        1_000_000..=9_999_999 => 7,
        10_000_000..=99_999_999 => 8,
        100_000_000..=999_999_999 => 9,
        _ => 10,
    }
}

fn end_of(sheet: &SheetTables, row: &[u32]) -> u32 {
    row[3] + sheet.durations[(4 * row[0] + row[1]) as usize]
}

fn put(out: &mut [u8], at: usize, byte: u8) -> usize {
    out[at] = byte;
    at + 1
}

/// A comma and a number.
#[inline]
fn put_field(out: &mut [u8], at: usize, number: u32) -> usize {
    let end = at + 1 + width(number);
    let field = &mut out[at..end];
    field[0] = b',';
    let mut rest = number;
    for digit in field[1..].iter_mut().rev() {
        *digit = b'0' + (rest % 10) as u8;
        rest /= 10;
    }
    end
}
