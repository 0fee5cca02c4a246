//! From bytes to a sheet, or the first fault (SPEC 8.3 to 8.7).

use crate::schedule::topological_order;
use crate::sheet::{
    Edge, Sheet, MAX_CLEARING, MAX_DIGITS, MAX_DURATION, MAX_EDGES, MAX_KINDS, MAX_SHEET_BYTES,
    MAX_STAGES, MAX_WAIT,
};

/// A refusal: its number and its line, 0 where it has none.
#[derive(Clone, Copy, Debug, PartialEq, Eq, Hash, PartialOrd, Ord)]
pub struct Fault {
    pub number: u32,
    pub line: u32,
}

impl Fault {
    pub const TABLE_TOO_SHORT: u32 = 1;
    pub const SHEET_TOO_LONG: u32 = 2;
    pub const FORM: u32 = 3;
    pub const RANGE: u32 = 4;
    pub const STAGE: u32 = 5;
    pub const REPEATED_EDGE: u32 = 6;
    pub const CIRCULAR: u32 = 7;
    pub const OUTPUT_TOO_SHORT: u32 = 8;

    /// A fault at a line.
    pub fn at(number: u32, line: u32) -> Fault {
        Fault { number, line }
    }

    /// A fault that has no line.
    pub fn whole(number: u32) -> Fault {
        Fault { number, line: 0 }
    }
}

/// All that the bytes alone can be refused for: faults 2 to 7, in this order.
pub fn judge(bytes: &[u8]) -> Result<Sheet, Fault> {
    let sheet = read_lines(bytes)?;
    check_repeats(&sheet)?;
    check_circular(&sheet)?;
    Ok(sheet)
}

/// Faults 2 to 5: the length, then the lines first to last.
pub fn read_lines(bytes: &[u8]) -> Result<Sheet, Fault> {
    if bytes.len() > MAX_SHEET_BYTES {
        return Err(Fault::whole(Fault::SHEET_TOO_LONG));
    }
    let mut lines = Lines::new(bytes);
    let [kinds, stages, edge_count] = lines.judge_next(judge_header)?;
    let kinds = kinds as usize;
    let clearing = lines.judge_next(|line| judge_clearing(line, kinds))?;
    let mut durations = Vec::new();
    for turn in 0..stages {
        durations.push(lines.judge_next(|line| judge_stage(line, kinds, turn))?);
    }
    let mut edges = Vec::new();
    for _ in 0..edge_count {
        edges.push(lines.judge_next(|line| judge_edge(line, kinds, stages))?);
    }
    lines.judge_end()?;
    Ok(Sheet {
        kinds,
        clearing,
        durations,
        edges,
    })
}

/// Fault 6, at the first line whose edge has both stages of an earlier edge.
/// Waits do not matter.
pub fn check_repeats(sheet: &Sheet) -> Result<(), Fault> {
    for (place, edge) in sheet.edges.iter().enumerate() {
        let repeats =
            |earlier: &Edge| (earlier.source, earlier.target) == (edge.source, edge.target);
        if sheet.edges[..place].iter().any(repeats) {
            // SPEC 1.8
            let line = sheet.stages() + place + 3;
            return Err(Fault::at(Fault::REPEATED_EDGE, line as u32));
        }
    }
    Ok(())
}

/// Fault 7: the stages have a topological order exactly when the edges
/// contain no closed path.
pub fn check_circular(sheet: &Sheet) -> Result<(), Fault> {
    match topological_order(sheet) {
        Some(_) => Ok(()),
        None => Err(Fault::whole(Fault::CIRCULAR)),
    }
}

/// The bytes not yet judged, and the number of the line that they begin with.
struct Lines<'a> {
    rest: &'a [u8],
    line: u32,
}

impl<'a> Lines<'a> {
    fn new(bytes: &'a [u8]) -> Lines<'a> {
        Lines {
            rest: bytes,
            line: 1,
        }
    }

    /// Judges the next line. It is of another form when no byte 10 ends it,
    /// which is also so when nothing is left of the sheet.
    fn judge_next<T>(&mut self, judge_line: impl Fn(&[u8]) -> Result<T, u32>) -> Result<T, Fault> {
        let fault = |number| Fault::at(number, self.line);
        let length = self.rest.iter().position(|&byte| byte == b'\n');
        let length = length.ok_or(fault(Fault::FORM))?;
        let judged = judge_line(&self.rest[..length]).map_err(fault)?;
        self.rest = &self.rest[length + 1..];
        self.line += 1;
        Ok(judged)
    }

    /// Nothing may follow the last line (SPEC 1.7); what does is judged as one
    /// more line (8.5).
    fn judge_end(&self) -> Result<(), Fault> {
        if self.rest.is_empty() {
            Ok(())
        } else {
            Err(Fault::at(Fault::FORM, self.line))
        }
    }
}

/// The line `J,K,N,M`, without its byte 10.
fn judge_header(line: &[u8]) -> Result<[u32; 3], u32> {
    let numbers = numbers_of(line, b"J,", 3)?;
    let (kinds, stages, edges) = (numbers[0], numbers[1], numbers[2]);
    check_range(kinds, 1, MAX_KINDS)?;
    check_range(stages, 1, MAX_STAGES)?;
    check_range(edges, 0, MAX_EDGES)?;
    Ok([kinds, stages, edges])
}

/// The line `G,g..`: form first, then the clearing times.
fn judge_clearing(line: &[u8], kinds: usize) -> Result<Vec<u32>, u32> {
    let clearing = numbers_of(line, b"G,", kinds)?;
    for &time in &clearing {
        check_range(time, 0, MAX_CLEARING)?;
    }
    Ok(clearing)
}

/// The line `T,i,d..`: form first, then the durations, then the stage.
fn judge_stage(line: &[u8], kinds: usize, turn: u32) -> Result<Vec<u32>, u32> {
    let numbers = numbers_of(line, b"T,", 1 + kinds)?;
    let (stage, durations) = (numbers[0], &numbers[1..]);
    for &duration in durations {
        check_range(duration, 1, MAX_DURATION)?;
    }
    if stage != turn {
        return Err(Fault::STAGE);
    }
    Ok(durations.to_vec())
}

/// The line `E,i,j,w..`: form first, then the waits, then the two stages.
fn judge_edge(line: &[u8], kinds: usize, stages: u32) -> Result<Edge, u32> {
    let numbers = numbers_of(line, b"E,", 2 + kinds * kinds)?;
    let (source, target, waits) = (numbers[0], numbers[1], &numbers[2..]);
    for &wait in waits {
        check_range(wait, 0, MAX_WAIT)?;
    }
    if source >= stages || target >= stages {
        return Err(Fault::STAGE);
    }
    Ok(Edge {
        source: source as usize,
        target: target as usize,
        waits: waits.to_vec(),
    })
}

fn check_range(number: u32, least: u32, most: u32) -> Result<(), u32> {
    if (least..=most).contains(&number) {
        Ok(())
    } else {
        Err(Fault::RANGE)
    }
}

/// The numbers of a line that begins with `mark` and has `count` fields
/// behind it; any other form is fault 3.
fn numbers_of(line: &[u8], mark: &[u8], count: usize) -> Result<Vec<u32>, u32> {
    let fields = line.strip_prefix(mark).ok_or(Fault::FORM)?;
    let numbers: Option<Vec<u32>> = fields.split(|&byte| byte == b',').map(number_of).collect();
    match numbers {
        Some(numbers) if numbers.len() == count => Ok(numbers),
        _ => Err(Fault::FORM),
    }
}

/// The number that a field is, if it is one (SPEC 1.2).
pub fn number_of(field: &[u8]) -> Option<u32> {
    if field.is_empty() || field.len() > MAX_DIGITS {
        return None;
    }
    if field.len() > 1 && field[0] == b'0' {
        return None;
    }
    let mut number = 0;
    for byte in field {
        if !byte.is_ascii_digit() {
            return None;
        }
        number = 10 * number + u32::from(byte - b'0');
    }
    Some(number)
}
