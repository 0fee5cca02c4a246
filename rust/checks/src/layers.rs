//! The layers between reading and printing, in one form: those of the library
//! and those in plain Rust.

use rackplan::KINDS_MAX;

/// A sheet in tables, as `rackplan::read` leaves it, and its clearing times.
#[derive(Clone, Copy, Debug)]
pub struct SheetTables<'a> {
    pub kinds: usize,
    pub stages: usize,
    pub edges: usize,
    /// Of each kind; 0 of kinds that the sheet does not have.
    pub clearing: [u32; KINDS_MAX],
    pub durations: &'a [u32],
    pub ends: &'a [u32],
    pub waits: &'a [u32],
}

/// A plan in tables, to be printed.
#[derive(Clone, Copy, Debug)]
pub struct PlanTables<'a> {
    pub finish: u32,
    pub counts: &'a [u32],
    /// Stage, kind, board and start of each copy.
    pub rows: &'a [u32],
    pub copies: usize,
}

/// Chains of edges: 1 + the last edge of each stage, and for each edge 1 + the
/// one before it with the same stage; 0 where there is none.
#[derive(Clone, Copy, Debug)]
pub struct Chains<'a> {
    pub head: &'a [u32],
    pub prev: &'a [u32],
}

/// Which stage of an edge a chain goes by.
#[derive(Clone, Copy, Debug, PartialEq, Eq)]
pub enum Side {
    Source,
    Target,
}

/// One implementation of each layer, on tables that are long enough.
pub trait Layers {
    const NAME: &'static str;

    /// Fills the tables of [`Chains`].
    fn chain(sheet: &SheetTables, side: Side, head: &mut [u32], prev: &mut [u32]);

    /// Chains by source. True if the edges contain a closed path.
    fn running_order(sheet: &SheetTables, chains: Chains, order: &mut [u32]) -> bool;

    /// Chains by target.
    fn start_times(sheet: &SheetTables, chains: Chains, order: &[u32], starts: &mut [u32]);

    fn finish_time(sheet: &SheetTables, starts: &[u32]) -> u32;

    /// Chains by source; 1 for each stage and kind that has a copy.
    fn choose_copies(
        sheet: &SheetTables,
        chains: Chains,
        order: &[u32],
        starts: &[u32],
        copied: &mut [u8],
    );

    /// Rows and the four counts; gives the number of copies.
    fn assign_boards(
        sheet: &SheetTables,
        starts: &[u32],
        copied: &[u8],
        rows: &mut [u32],
        counts: &mut [u32],
    ) -> usize;

    fn plan_length(sheet: &SheetTables, plan: &PlanTables) -> usize;

    /// Gives the length too.
    fn write_plan(sheet: &SheetTables, plan: &PlanTables, out: &mut [u8]) -> usize;

    fn refusal_length(number: u32, line: u32) -> usize;

    /// Gives the length too.
    fn write_refusal(number: u32, line: u32, out: &mut [u8]) -> usize;
}

/// Calls a function of liblayer_exports.a. A slice that is read or written stands for a
/// pointer and a length.
macro_rules! call {
    ($function:ident[$($done:expr),*]) => {
        // SAFETY: pointers are valid for their lengths, and what is written
        // overlaps nothing, as references to slices are. What a layer asks of
        // the content of tables is what the layers before it leave there.
        unsafe { raw::$function($($done),*) }
    };
    ($function:ident[$($done:expr),*] read $slice:expr $(, $($rest:tt)*)?) => {
        call!($function[$($done,)* $slice.as_ptr(), $slice.len()] $($($rest)*)?)
    };
    ($function:ident[$($done:expr),*] write $slice:expr $(, $($rest:tt)*)?) => {
        call!($function[$($done,)* $slice.as_mut_ptr(), $slice.len()] $($($rest)*)?)
    };
    ($function:ident[$($done:expr),*] number $number:expr $(, $($rest:tt)*)?) => {
        call!($function[$($done,)* $number] $($($rest)*)?)
    };
}

/// Those of the library.
pub struct Exported;

#[rustfmt::skip] // an argument's length goes with it
impl Layers for Exported {
    const NAME: &'static str = "layers";

    fn chain(sheet: &SheetTables, side: Side, head: &mut [u32], prev: &mut [u32]) {
        call!(layers_chain[] read sheet.ends, number side as usize, number sheet.edges, number sheet.stages,
            write head, write prev)
    }

    fn running_order(sheet: &SheetTables, chains: Chains, order: &mut [u32]) -> bool {
        let circular = call!(layers_running_order[] read sheet.ends, number sheet.edges, number sheet.stages,
            read chains.head, read chains.prev, write order);
        circular == 1
    }

    fn start_times(sheet: &SheetTables, chains: Chains, order: &[u32], starts: &mut [u32]) {
        call!(layers_start_times[] number sheet.kinds, number sheet.stages, read sheet.durations, read sheet.ends,
            read sheet.waits, read chains.head, read chains.prev, read order, write starts)
    }

    fn finish_time(sheet: &SheetTables, starts: &[u32]) -> u32 {
        call!(layers_finish_time[] number sheet.kinds, number sheet.stages, read sheet.durations, read starts)
    }

    fn choose_copies(sheet: &SheetTables, chains: Chains, order: &[u32], starts: &[u32], copied: &mut [u8]) {
        call!(layers_choose_copies[] number sheet.kinds, read sheet.durations, read sheet.ends, read sheet.waits,
            read chains.head, read chains.prev, read order[..sheet.stages], read starts, write copied)
    }

    fn assign_boards(sheet: &SheetTables, starts: &[u32], copied: &[u8], rows: &mut [u32], counts: &mut [u32]) -> usize {
        let [clear_0, clear_1, clear_2, clear_3] = sheet.clearing;
        call!(layers_assign_boards[] number sheet.kinds, number sheet.stages, read sheet.durations, number clear_0,
            number clear_1, number clear_2, number clear_3, read starts, read copied, write rows, write counts)
    }

    fn plan_length(sheet: &SheetTables, plan: &PlanTables) -> usize {
        call!(layers_plan_length[] number sheet.kinds, read sheet.durations, number plan.finish, read plan.counts, read plan.rows,
            number plan.copies)
    }

    fn write_plan(sheet: &SheetTables, plan: &PlanTables, out: &mut [u8]) -> usize {
        call!(layers_write_plan[] number sheet.kinds, read sheet.durations, number plan.finish, read plan.counts, read plan.rows,
            number plan.copies, write out)
    }

    fn refusal_length(number: u32, line: u32) -> usize {
        call!(layers_refusal_length[] number number, number line)
    }

    fn write_refusal(number: u32, line: u32, out: &mut [u8]) -> usize {
        call!(layers_write_refusal[] number number, number line, write out)
    }
}

/// The functions of liblayer_exports.a.
mod raw {
    extern "C" {
        pub fn layers_chain(
            ends: *const u32,
            ends_len: usize,
            side: usize,
            edges: usize,
            stages: usize,
            head: *mut u32,
            head_len: usize,
            prev: *mut u32,
            prev_len: usize,
        );
        pub fn layers_running_order(
            ends: *const u32,
            ends_len: usize,
            edges: usize,
            stages: usize,
            head: *const u32,
            head_len: usize,
            prev: *const u32,
            prev_len: usize,
            order: *mut u32,
            order_len: usize,
        ) -> u32;
        pub fn layers_start_times(
            kinds: usize,
            stages: usize,
            durations: *const u32,
            durations_len: usize,
            ends: *const u32,
            ends_len: usize,
            waits: *const u32,
            waits_len: usize,
            head: *const u32,
            head_len: usize,
            prev: *const u32,
            prev_len: usize,
            order: *const u32,
            order_len: usize,
            starts: *mut u32,
            starts_len: usize,
        );
        pub fn layers_finish_time(
            kinds: usize,
            stages: usize,
            durations: *const u32,
            durations_len: usize,
            starts: *const u32,
            starts_len: usize,
        ) -> u32;
        pub fn layers_choose_copies(
            kinds: usize,
            durations: *const u32,
            durations_len: usize,
            ends: *const u32,
            ends_len: usize,
            waits: *const u32,
            waits_len: usize,
            head: *const u32,
            head_len: usize,
            prev: *const u32,
            prev_len: usize,
            order: *const u32,
            order_len: usize,
            starts: *const u32,
            starts_len: usize,
            copied: *mut u8,
            copied_len: usize,
        );
        pub fn layers_assign_boards(
            kinds: usize,
            stages: usize,
            durations: *const u32,
            durations_len: usize,
            clear_0: u32,
            clear_1: u32,
            clear_2: u32,
            clear_3: u32,
            starts: *const u32,
            starts_len: usize,
            copied: *const u8,
            copied_len: usize,
            rows: *mut u32,
            rows_len: usize,
            counts: *mut u32,
            counts_len: usize,
        ) -> usize;
        pub fn layers_plan_length(
            kinds: usize,
            durations: *const u32,
            durations_len: usize,
            finish: u32,
            counts: *const u32,
            counts_len: usize,
            rows: *const u32,
            rows_len: usize,
            copies: usize,
        ) -> usize;
        pub fn layers_write_plan(
            kinds: usize,
            durations: *const u32,
            durations_len: usize,
            finish: u32,
            counts: *const u32,
            counts_len: usize,
            rows: *const u32,
            rows_len: usize,
            copies: usize,
            out: *mut u8,
            out_len: usize,
        ) -> usize;
        pub fn layers_refusal_length(number: u32, line: u32) -> usize;
        pub fn layers_write_refusal(number: u32, line: u32, out: *mut u8, out_len: usize) -> usize;
    }
}
