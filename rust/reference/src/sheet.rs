//! The survey sheet as numbers (SPEC 1).

/// More bytes than this are fault 2.
pub const MAX_SHEET_BYTES: usize = 65_000;
pub const MAX_KINDS: u32 = 4;
pub const MAX_STAGES: u32 = 256;
pub const MAX_EDGES: u32 = 1024;
/// A duration is 1 to this.
pub const MAX_DURATION: u32 = 1_000_000;
/// A wait is 0 to this.
pub const MAX_WAIT: u32 = 1_000_000;
/// A clearing time is 0 to this.
pub const MAX_CLEARING: u32 = 1_000_000;
/// A number has at most this many digits.
pub const MAX_DIGITS: usize = 7;
/// No start or end of an accepted sheet exceeds this: 256 durations and 255
/// waits.
pub const MAX_TIME: u32 = 511_000_000;
/// No board is free again later than this: the latest end and a clearing time.
pub const MAX_FREE_AGAIN: u32 = MAX_TIME + MAX_CLEARING;
/// The length of the list of copies.
pub const MAX_COPIES: usize = 1024;
/// A `P` line has at most 28 bytes and each of 1024 `C` lines at most 32.
pub const MAX_PLAN_BYTES: usize = 32_796;

/// Stage `source` precedes stage `target`.
#[derive(Clone, Debug, PartialEq, Eq)]
pub struct Edge {
    pub source: usize,
    pub target: usize,
    /// K×K waits, row by row: the row is the kind of the source's copy, the
    /// column the kind of the target's copy.
    pub waits: Vec<u32>,
}

/// A sheet whose lines all have their form and range. It may still repeat an
/// edge (fault 6) or be circular (fault 7).
#[derive(Clone, Debug, PartialEq, Eq)]
pub struct Sheet {
    /// K.
    pub kinds: usize,
    /// K clearing times: how long a board of each kind needs after a copy,
    /// before it can run another one.
    pub clearing: Vec<u32>,
    /// N lists of K durations.
    pub durations: Vec<Vec<u32>>,
    /// M edges in line order.
    pub edges: Vec<Edge>,
}

impl Sheet {
    /// N.
    pub fn stages(&self) -> usize {
        self.durations.len()
    }

    /// How long a result is on its way from kind `h`, where the edge's source
    /// runs, to kind `k`, where its target does.
    pub fn wait(&self, edge: &Edge, h: usize, k: usize) -> u32 {
        edge.waits[h * self.kinds + k]
    }

    /// The edges that lead to this stage.
    pub fn edges_into(&self, stage: usize) -> impl Iterator<Item = &Edge> {
        self.edges.iter().filter(move |edge| edge.target == stage)
    }

    /// The edges that leave this stage.
    pub fn edges_from(&self, stage: usize) -> impl Iterator<Item = &Edge> {
        self.edges.iter().filter(move |edge| edge.source == stage)
    }

    /// The sheet as lines.
    pub fn to_text(&self) -> Vec<u8> {
        let (kinds, stages, edges) = (self.kinds, self.stages(), self.edges.len());
        let mut text = format!("J,{kinds},{stages},{edges}\n");
        text.push_str(&clearing_line(&self.clearing));
        for (stage, durations) in self.durations.iter().enumerate() {
            text.push_str(&stage_line(stage, durations));
        }
        for edge in &self.edges {
            text.push_str(&edge_line(edge));
        }
        text.into_bytes()
    }
}

/// The line `G,g..` with its byte 10.
pub fn clearing_line(clearing: &[u32]) -> String {
    format!("G{}\n", with_commas(clearing))
}

/// The line `T,i,d..` with its byte 10.
pub fn stage_line(stage: usize, durations: &[u32]) -> String {
    format!("T,{stage}{}\n", with_commas(durations))
}

/// The line `E,i,j,w..` with its byte 10.
pub fn edge_line(edge: &Edge) -> String {
    let (source, target) = (edge.source, edge.target);
    format!("E,{source},{target}{}\n", with_commas(&edge.waits))
}

/// Each number behind a comma.
fn with_commas(numbers: &[u32]) -> String {
    numbers.iter().map(|number| format!(",{number}")).collect()
}
