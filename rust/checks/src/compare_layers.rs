//! Every layer by every implementation, compared with the second
//! implementation table by table.

use rackplan::{Sizes, DURATIONS_LEN, EDGES_MAX, ENDS_LEN, KINDS_MAX, STAGES_MAX, WAITS_LEN};
use reference::copies::copy_kinds;
use reference::generator::Random;
use reference::schedule::topological_order;
use reference::{make_plan, plan_text, refusal_text, Fault, Plan, Sheet};

use std::fmt::Debug;
use std::marker::PhantomData;

use crate::layers::{Chains, Exported, Layers, PlanTables, SheetTables, Side};
use crate::plain_layers::Plain;

/// Runs all layers on a sheet without repeated edges, by each implementation,
/// in tables that are exact or longer and hold other numbers before. Gives the
/// plan, or none where the sheet is circular.
///
/// # Panics
///
/// If an answer differs, or an entry of a table.
pub fn compare_layers(random: &mut Random, sheet: &Sheet) -> Option<Plan> {
    let more = if random.one_in(2) {
        0
    } else {
        random.between(1, 20)
    };
    let mark = random.next_u64() as u32;
    let mut durations = filled(mark, DURATIONS_LEN + more);
    let mut ends = filled(mark, ENDS_LEN + more);
    let mut waits = filled(mark, WAITS_LEN + more);
    let sizes = rackplan::read(&sheet.to_text(), &mut durations, &mut ends, &mut waits);
    let Sizes {
        kinds,
        stages,
        edges,
    } = sizes.expect("it is a sheet without repeated edges");
    let tables = SheetTables {
        kinds,
        stages,
        edges,
        clearing: clearing_of(sheet),
        durations: &durations,
        ends: &ends,
        waits: &waits,
    };
    let plan = make_plan(sheet);
    Case::<Exported>::new(sheet, tables, mark, more).compare(plan.as_ref());
    Case::<Plain>::new(sheet, tables, mark, more).compare(plan.as_ref());
    plan
}

/// The clearing time of each kind; 0 of kinds that the sheet does not have.
pub fn clearing_of(sheet: &Sheet) -> [u32; KINDS_MAX] {
    std::array::from_fn(|kind| sheet.clearing.get(kind).copied().unwrap_or(0))
}

/// The line of a refusal by each implementation, to outputs that are exact or
/// longer.
///
/// # Panics
///
/// If a length or a byte differs.
pub fn compare_refusal(number: u32, line: u32, more: usize) {
    compare_refusal_of::<Exported>(number, line, more);
    compare_refusal_of::<Plain>(number, line, more);
}

fn compare_refusal_of<L: Layers>(number: u32, line: u32, more: usize) {
    let text = refusal_text(Fault { number, line });
    assert_eq!(L::refusal_length(number, line), text.len(), "{}", L::NAME);
    let mut out = filled(line, text.len() + more);
    let mut expected = out.clone();
    expected[..text.len()].copy_from_slice(&text);
    let written = L::write_refusal(number, line, &mut out);
    assert_eq!((written, out), (text.len(), expected), "{}", L::NAME);
}

/// An entry of a table.
trait Entry: Copy + PartialEq + Debug + From<u8> + TryFrom<u32> {}

impl<N: Copy + PartialEq + Debug + From<u8> + TryFrom<u32>> Entry for N {}

/// Old content of a table.
fn filled<N: Entry>(mark: u32, length: usize) -> Vec<N> {
    (0..length as u32)
        .map(|at| {
            let mixed = (mark ^ at).wrapping_mul(0x9e37_79b1);
            N::try_from(mixed).unwrap_or_else(|_| N::from((mixed >> 24) as u8))
        })
        .collect()
}

struct Case<'a, L> {
    layers: PhantomData<L>,
    sheet: &'a Sheet,
    tables: SheetTables<'a>,
    mark: u32,
    more: usize,
}

impl<'a, L: Layers> Case<'a, L> {
    fn new(sheet: &'a Sheet, tables: SheetTables<'a>, mark: u32, more: usize) -> Case<'a, L> {
        Case {
            layers: PhantomData,
            sheet,
            tables,
            mark,
            more,
        }
    }

    fn compare(&self, plan: Option<&Plan>) {
        let [head, prev] = self.chains(Side::Source);
        let by_source = Chains {
            head: &head,
            prev: &prev,
        };
        let order = self.order(by_source, plan.is_none());
        if let Some(plan) = plan {
            let starts = self.starts(&order, plan);
            let copied = self.copied(by_source, &order, &starts, plan);
            let (rows, counts) = self.rows(&starts, &copied, plan);
            self.text(&rows, &counts, plan);
        }
    }

    fn table<N: Entry>(&self, length: usize) -> Vec<N> {
        filled(self.mark, length + self.more)
    }

    fn assert_table<N: Entry>(&self, what: &str, given: &[N], expected: &[N]) {
        let place = given
            .iter()
            .zip(expected)
            .position(|(one, other)| one != other);
        if let Some(at) = place {
            let (name, given, expected) = (L::NAME, given[at], expected[at]);
            panic!(
                "{name}: {what}[{at}] is {given:?}, not {expected:?}: {}",
                self.text_of_sheet()
            );
        }
        assert_eq!(given.len(), expected.len());
    }

    fn text_of_sheet(&self) -> String {
        self.sheet.to_text().escape_ascii().to_string()
    }

    /// Head and prev; only the entries of the sheet's stages and edges are
    /// promised.
    fn chains(&self, side: Side) -> [Vec<u32>; 2] {
        let (stages, edges) = (self.tables.stages, self.tables.edges);
        let mut head = self.table(STAGES_MAX);
        let mut prev = self.table(EDGES_MAX);
        L::chain(&self.tables, side, &mut head, &mut prev);
        let end_of = |e: usize| match side {
            Side::Source => self.sheet.edges[e].source,
            Side::Target => self.sheet.edges[e].target,
        };
        let last_below = |e: usize, stage: usize| {
            let last = (0..e).rev().find(|&d| end_of(d) == stage);
            last.map_or(0, |d| d as u32 + 1)
        };
        let heads: Vec<u32> = (0..stages).map(|stage| last_below(edges, stage)).collect();
        let prevs: Vec<u32> = (0..edges).map(|e| last_below(e, end_of(e))).collect();
        self.assert_table("head", &head[..stages], &heads);
        self.assert_table("prev", &prev[..edges], &prevs);
        [head, prev]
    }

    fn order(&self, by_source: Chains, circular: bool) -> Vec<u32> {
        let mut order = self.table(STAGES_MAX);
        let mut expected = order.clone();
        let given = L::running_order(&self.tables, by_source, &mut order);
        assert_eq!(given, circular, "circular: {}", self.text_of_sheet());
        for (place, stage) in expected.iter_mut().zip(running_order(self.sheet)) {
            *place = stage as u32;
        }
        self.assert_table("order", &order, &expected);
        order
    }

    fn starts(&self, order: &[u32], plan: &Plan) -> Vec<u32> {
        let [head, prev] = self.chains(Side::Target);
        let by_target = Chains {
            head: &head,
            prev: &prev,
        };
        let mut starts = self.table(DURATIONS_LEN);
        let mut expected = starts.clone();
        L::start_times(&self.tables, by_target, order, &mut starts);
        store_rows(&mut expected, &plan.starts);
        self.assert_table("starts", &starts, &expected);
        let finish = L::finish_time(&self.tables, &starts);
        assert_eq!(finish, plan.finish, "finish: {}", self.text_of_sheet());
        starts
    }

    fn copied(&self, by_source: Chains, order: &[u32], starts: &[u32], plan: &Plan) -> Vec<u8> {
        let mut copied = self.table(DURATIONS_LEN);
        let mut expected = copied.clone();
        L::choose_copies(&self.tables, by_source, order, starts, &mut copied);
        let order = topological_order(self.sheet).expect("it is not circular");
        let flags: Vec<Vec<u8>> = copy_kinds(self.sheet, &order, &plan.starts)
            .iter()
            .map(|kinds| {
                let flag = |kind| u8::from(kinds.contains(&kind));
                (0..self.sheet.kinds).map(flag).collect()
            })
            .collect();
        store_rows(&mut expected, &flags);
        self.assert_table("copied", &copied, &expected);
        copied
    }

    fn rows(&self, starts: &[u32], copied: &[u8], plan: &Plan) -> (Vec<u32>, Vec<u32>) {
        let mut rows = self.table(4 * DURATIONS_LEN);
        let mut expected = rows.clone();
        let mut counts = filled(self.mark, 4);
        let copies = L::assign_boards(&self.tables, starts, copied, &mut rows, &mut counts);
        assert_eq!(copies, plan.copies.len(), "{}", self.text_of_sheet());
        for (row, copy) in expected.chunks_exact_mut(4).zip(&plan.copies) {
            row.copy_from_slice(&[copy.stage, copy.kind, copy.board, copy.start]);
        }
        self.assert_table("rows", &rows, &expected);
        self.assert_table("counts", &counts, &plan.board_counts);
        (rows, counts)
    }

    fn text(&self, rows: &[u32], counts: &[u32], plan: &Plan) {
        let text = plan_text(self.sheet, plan);
        let plan = PlanTables {
            finish: plan.finish,
            counts,
            rows,
            copies: plan.copies.len(),
        };
        let length = L::plan_length(&self.tables, &plan);
        assert_eq!(length, text.len(), "length: {}", self.text_of_sheet());
        let mut out = self.table(text.len());
        let mut expected = out.clone();
        let written = L::write_plan(&self.tables, &plan, &mut out);
        assert_eq!(written, text.len(), "written: {}", self.text_of_sheet());
        expected[..text.len()].copy_from_slice(&text);
        self.assert_table("out", &out, &expected);
    }
}

/// Of the stages that wait for no other any more, the one with the lowest number
/// comes next; as far as it goes.
fn running_order(sheet: &Sheet) -> Vec<usize> {
    let mut order: Vec<usize> = Vec::new();
    let mut done = vec![false; sheet.stages()];
    let ready = |stage: &usize, done: &[bool]| {
        !done[*stage] && sheet.edges_into(*stage).all(|edge| done[edge.source])
    };
    while let Some(next) = (0..sheet.stages()).find(|stage| ready(stage, &done)) {
        done[next] = true;
        order.push(next);
    }
    order
}

fn store_rows<N: Copy>(table: &mut [N], rows: &[Vec<N>]) {
    for (place, row) in table.chunks_exact_mut(4).zip(rows) {
        place[..row.len()].copy_from_slice(row);
    }
}
