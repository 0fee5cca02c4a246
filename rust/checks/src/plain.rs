//! The call `read` in plain Rust, safe and without allocation, written to be
//! fast: what the library's time is measured against. [`read_to_plan`] gives the
//! clearing times besides.
//!
//! Each byte is read once. Lines go into local tables, which are copied when
//! the last line is judged, since faults 3 to 5 leave the lent tables as they
//! were. Judging all lines first and storing in a second pass would be slower:
//! on the largest sheets, clearing and copying the local tables takes about 4
//! microseconds, and reading the numbers once more about 70.
//!
//! Numbers are read in one of two ways, since neither is always the faster:
//! by [`Digits`] where most numbers have the same length, which the processor
//! then predicts; by [`Words`] where lengths vary.

use rackplan::{
    Fault, Sizes, DURATIONS_LEN, EDGES_MAX, ENDS_LEN, KINDS_MAX, SHEET_MAX, STAGES_MAX, WAITS_LEN,
};

const NUMBER_MAX: u32 = 1_000_000;

/// A way to read numbers.
pub trait ReadField {
    /// The next number, 1 to 7 digits without a leading zero, with the byte
    /// that has to end it.
    fn field(rest: &mut &[u8], stop: u8) -> Option<u32>;
}

/// What planning needs of a sheet besides the tables.
#[derive(Clone, Copy, Debug, PartialEq, Eq)]
pub struct Head {
    pub sizes: Sizes,
    /// The clearing time of each kind; 0 of kinds that the sheet does not have.
    pub clearing: [u32; KINDS_MAX],
}

/// Reads a sheet as `rackplan::read` does.
pub fn read<F: ReadField>(
    sheet: &[u8],
    durations: &mut [u32],
    ends: &mut [u32],
    waits: &mut [u32],
) -> Result<Sizes, Fault> {
    read_to_plan::<F>(sheet, durations, ends, waits).map(|head| head.sizes)
}

/// The same, and gives the clearing times too, which no table has (SPEC 2.4).
pub fn read_to_plan<F: ReadField>(
    sheet: &[u8],
    durations: &mut [u32],
    ends: &mut [u32],
    waits: &mut [u32],
) -> Result<Head, Fault> {
    if durations.len() < DURATIONS_LEN || ends.len() < ENDS_LEN || waits.len() < WAITS_LEN {
        return Err(Fault::ShortTable);
    }
    if sheet.len() > SHEET_MAX {
        return Err(Fault::LongSheet);
    }
    let mut rest = sheet;
    let sizes = header::<F>(&mut rest)?;
    // a number of kinds that the compiler knows has its loops unrolled
    let clearing = match sizes.kinds {
        1 => read_lines::<F, 1>(rest, sizes, durations, ends, waits)?,
        2 => read_lines::<F, 2>(rest, sizes, durations, ends, waits)?,
        3 => read_lines::<F, 3>(rest, sizes, durations, ends, waits)?,
        _ => read_lines::<F, 4>(rest, sizes, durations, ends, waits)?,
    };
    Ok(Head { sizes, clearing })
}

/// The line `J,K,N,M`.
fn header<F: ReadField>(rest: &mut &[u8]) -> Result<Sizes, Fault> {
    let line = 1;
    let [kinds, stages, edges] = header_fields::<F>(rest).ok_or(Fault::BadForm { line })?;
    let sizes = Sizes {
        kinds: kinds as usize,
        stages: stages as usize,
        edges: edges as usize,
    };
    let in_range = (1..=KINDS_MAX).contains(&sizes.kinds)
        && (1..=STAGES_MAX).contains(&sizes.stages)
        && sizes.edges <= EDGES_MAX;
    if in_range {
        Ok(sizes)
    } else {
        Err(Fault::OutOfRange { line })
    }
}

fn header_fields<F: ReadField>(rest: &mut &[u8]) -> Option<[u32; 3]> {
    tag(rest, b'J')?;
    Some([
        F::field(rest, b',')?,
        F::field(rest, b',')?,
        F::field(rest, b'\n')?,
    ])
}

/// All lines behind the header, on K kinds. Gives the clearing times.
fn read_lines<F: ReadField, const K: usize>(
    mut rest: &[u8],
    sizes: Sizes,
    durations: &mut [u32],
    ends: &mut [u32],
    waits: &mut [u32],
) -> Result<[u32; KINDS_MAX], Fault> {
    let clearing = clearing_line::<F, K>(&mut rest)?;
    let mut local_durations = [[0; K]; STAGES_MAX];
    for (stage, row) in local_durations[..sizes.stages].iter_mut().enumerate() {
        stage_line::<F, K>(&mut rest, stage, row)?;
    }
    if sizes.edges > 0 {
        read_edges::<F, K>(rest, sizes, ends, waits, || {
            store_durations(&local_durations[..sizes.stages], durations)
        })?;
    } else {
        judge_end(rest, sizes)?;
        store_durations(&local_durations[..sizes.stages], durations);
    }
    Ok(clearing)
}

/// The lines of the edges. A function of its own, so that a sheet without
/// edges does not pay for clearing its tables.
#[inline(never)]
fn read_edges<F: ReadField, const K: usize>(
    mut rest: &[u8],
    sizes: Sizes,
    ends: &mut [u32],
    waits: &mut [u32],
    store_stages: impl FnOnce(),
) -> Result<(), Fault> {
    let mut local_ends = [[0; 2]; EDGES_MAX];
    let mut local_waits = [[[0; K]; K]; EDGES_MAX];
    // at 256×i+j: there was an edge from i to j
    let mut marks = [false; STAGES_MAX * STAGES_MAX];
    let mut repeated = None;
    let rows = local_ends.iter_mut().zip(&mut local_waits);
    for (edge, (pair, matrix)) in rows.take(sizes.edges).enumerate() {
        let line = (sizes.stages + edge + 3) as u32;
        edge_line::<F, K>(&mut rest, line, sizes.stages, pair, matrix)?;
        let mark = &mut marks[STAGES_MAX * pair[0] as usize + pair[1] as usize];
        if *mark {
            repeated.get_or_insert(line);
        }
        *mark = true;
    }
    judge_end(rest, sizes)?;
    store_stages();
    store_edges(&local_ends[..sizes.edges], &local_waits, ends, waits);
    match repeated {
        Some(line) => Err(Fault::RepeatedEdge { line }),
        None => Ok(()),
    }
}

/// Nothing may follow the last line.
fn judge_end(rest: &[u8], sizes: Sizes) -> Result<(), Fault> {
    if rest.is_empty() {
        return Ok(());
    }
    let line = (sizes.stages + sizes.edges + 3) as u32;
    Err(Fault::BadForm { line })
}

/// The line `G,g..`.
fn clearing_line<F: ReadField, const K: usize>(
    rest: &mut &[u8],
) -> Result<[u32; KINDS_MAX], Fault> {
    let line = 2;
    let times = clearing_fields::<F, K>(rest).ok_or(Fault::BadForm { line })?;
    if times.iter().any(|&time| time > NUMBER_MAX) {
        return Err(Fault::OutOfRange { line });
    }
    let mut clearing = [0; KINDS_MAX];
    clearing[..K].copy_from_slice(&times);
    Ok(clearing)
}

fn clearing_fields<F: ReadField, const K: usize>(rest: &mut &[u8]) -> Option<[u32; K]> {
    tag(rest, b'G')?;
    let mut times = [0; K];
    last_fields::<F, K>(rest, &mut times)?;
    Some(times)
}

/// The last numbers of a line.
#[inline]
fn last_fields<F: ReadField, const K: usize>(
    rest: &mut &[u8],
    numbers: &mut [u32; K],
) -> Option<()> {
    for (h, number) in numbers.iter_mut().enumerate() {
        *number = F::field(rest, if h + 1 < K { b',' } else { b'\n' })?;
    }
    Some(())
}

/// The line `T,i,d..`.
fn stage_line<F: ReadField, const K: usize>(
    rest: &mut &[u8],
    stage: usize,
    durations: &mut [u32; K],
) -> Result<(), Fault> {
    let line = stage as u32 + 3;
    let number = stage_fields::<F, K>(rest, durations).ok_or(Fault::BadForm { line })?;
    if durations.iter().any(|d| !(1..=NUMBER_MAX).contains(d)) {
        return Err(Fault::OutOfRange { line });
    }
    if number as usize != stage {
        return Err(Fault::BadStage { line });
    }
    Ok(())
}

fn stage_fields<F: ReadField, const K: usize>(
    rest: &mut &[u8],
    durations: &mut [u32; K],
) -> Option<u32> {
    tag(rest, b'T')?;
    let stage = F::field(rest, b',')?;
    last_fields::<F, K>(rest, durations)?;
    Some(stage)
}

/// The line `E,i,j,w..`.
#[inline]
fn edge_line<F: ReadField, const K: usize>(
    rest: &mut &[u8],
    line: u32,
    stages: usize,
    ends: &mut [u32; 2],
    waits: &mut [[u32; K]; K],
) -> Result<(), Fault> {
    *ends = edge_fields::<F, K>(rest, waits).ok_or(Fault::BadForm { line })?;
    if waits.iter().flatten().any(|&wait| wait > NUMBER_MAX) {
        return Err(Fault::OutOfRange { line });
    }
    if ends.iter().any(|&stage| stage as usize >= stages) {
        return Err(Fault::BadStage { line });
    }
    Ok(())
}

#[inline]
fn edge_fields<F: ReadField, const K: usize>(
    rest: &mut &[u8],
    waits: &mut [[u32; K]; K],
) -> Option<[u32; 2]> {
    tag(rest, b'E')?;
    let ends = [F::field(rest, b',')?, F::field(rest, b',')?];
    for (h, row) in waits.iter_mut().enumerate() {
        for (k, wait) in row.iter_mut().enumerate() {
            let last = h + 1 == K && k + 1 == K;
            *wait = F::field(rest, if last { b'\n' } else { b',' })?;
        }
    }
    Some(ends)
}

/// The first two bytes of a line: a letter and a comma.
#[inline(always)]
fn tag(rest: &mut &[u8], letter: u8) -> Option<()> {
    let [first, b',', behind @ ..] = *rest else {
        return None;
    };
    *rest = behind;
    (*first == letter).then_some(())
}

/// A branch for each digit.
pub struct Digits;

impl ReadField for Digits {
    #[inline(always)]
    fn field(rest: &mut &[u8], stop: u8) -> Option<u32> {
        let bytes = first_eight(rest);
        let first = bytes[0].wrapping_sub(b'0');
        if first > 9 {
            return None;
        }
        let mut number = u32::from(first);
        for (at, &byte) in bytes.iter().enumerate().skip(1) {
            let digit = byte.wrapping_sub(b'0');
            if digit > 9 {
                let leading_zero = first == 0 && at > 1;
                *rest = rest.get(at + 1..)?;
                return (byte == stop && !leading_zero).then_some(number);
            }
            number = 10 * number + u32::from(digit);
        }
        None
    }
}

/// Eight bytes at once, with no branch that depends on the number's length.
pub struct Words;

impl ReadField for Words {
    #[inline(always)]
    fn field(rest: &mut &[u8], stop: u8) -> Option<u32> {
        let word = u64::from_le_bytes(first_eight(rest));
        // digits have bit 4, the bytes that end a field do not
        let bits = (!word & 0x1010_1010_1010_1010).trailing_zeros() & !7;
        if bits == 0 || bits > 56 || (word >> bits) as u8 != stop {
            return None;
        }
        // the number's bytes alone, zeros before it; a digit is now its value
        let digits = (word ^ 0x3030_3030_3030_3030) << (64 - bits);
        let above_nine = digits.wrapping_add(0x7676_7676_7676_7676) | digits;
        if above_nine & 0x8080_8080_8080_8080 != 0 || (word as u8 == b'0' && bits > 8) {
            return None;
        }
        *rest = rest.get(bits as usize / 8 + 1..)?;
        Some(decimal(digits))
    }
}

/// The number of eight decimal digits, the first in the lowest byte.
#[inline]
fn decimal(digits: u64) -> u32 {
    let pairs = (digits * 10 + (digits >> 8)) & 0x00ff_00ff_00ff_00ff;
    let fours = (pairs * 100 + (pairs >> 16)) & 0x0000_ffff_0000_ffff;
    (fours * 10_000 + (fours >> 32)) as u32
}

/// The next eight bytes; zeros, which end no field, where the sheet ends.
#[inline(always)]
fn first_eight(rest: &[u8]) -> [u8; 8] {
    match rest.first_chunk() {
        Some(bytes) => *bytes,
        None => last_bytes(rest),
    }
}

#[cold]
fn last_bytes(rest: &[u8]) -> [u8; 8] {
    let mut bytes = [0; 8];
    bytes[..rest.len()].copy_from_slice(rest);
    bytes
}

fn store_durations<const K: usize>(rows: &[[u32; K]], durations: &mut [u32]) {
    for (place, row) in durations.chunks_exact_mut(KINDS_MAX).zip(rows) {
        place[..K].copy_from_slice(row);
    }
}

fn store_edges<const K: usize>(
    pairs: &[[u32; 2]],
    matrices: &[[[u32; K]; K]],
    ends: &mut [u32],
    waits: &mut [u32],
) {
    for (place, pair) in ends.chunks_exact_mut(2).zip(pairs) {
        place.copy_from_slice(pair);
    }
    let places = waits.chunks_exact_mut(KINDS_MAX * KINDS_MAX);
    for (place, matrix) in places.zip(&matrices[..pairs.len()]) {
        for (row_place, row) in place.chunks_exact_mut(KINDS_MAX).zip(matrix) {
            row_place[..K].copy_from_slice(row);
        }
    }
}
