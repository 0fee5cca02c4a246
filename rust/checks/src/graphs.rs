//! The task graphs of section 6 of SPAGHETtI as sheets (Barthou and Jeannot,
//! SPAGHETtI: Scheduling/Placement Approach for Task-Graphs on HETerogeneous
//! archItecture, Euro-Par 2014): the tiled Cholesky factorisation and the
//! triangle, as large as a sheet can be (SPEC 1.4).
//!
//! Taken from SPAGHETtI: the graphs; that data stay within a kind (architecture)
//! without a wait; which kinds are fast for which stages (tasks); where waits
//! between kinds outweigh durations. It gives no durations and no waits
//! (communication costs), so all numbers are chosen, in microseconds. It has no
//! clearing times (removal times): here they are 0 (SPEC 5.4).

use std::collections::BTreeMap;

use reference::generator::Random;
use reference::{Edge, Sheet};

/// A kernel of the Cholesky factorisation.
#[derive(Clone, Copy, Debug, PartialEq, Eq, PartialOrd, Ord)]
pub enum Kernel {
    Potrf,
    Trsm,
    Syrk,
    Gemm,
}

/// Row and column of a tile.
pub type Tile = (usize, usize);

/// A kernel, the tiles that it only reads, and the one that it updates.
#[derive(Clone, Debug, PartialEq, Eq)]
pub struct Task {
    pub kernel: Kernel,
    pub reads: Vec<Tile>,
    pub updates: Tile,
}

impl Task {
    fn new(kernel: Kernel, reads: &[Tile], updates: Tile) -> Task {
        let reads = reads.to_vec();
        Task {
            kernel,
            reads,
            updates,
        }
    }
}

/// With 11 tiles there would be 286 stages.
pub const MOST_TILES: usize = 10;

/// The tasks of the factorisation of `tiles`×`tiles` tiles, as a program
/// without parallelism runs them.
pub fn cholesky_tasks(tiles: usize) -> Vec<Task> {
    let mut tasks = Vec::new();
    for step in 0..tiles {
        let pivot = (step, step);
        tasks.push(Task::new(Kernel::Potrf, &[], pivot));
        for row in step + 1..tiles {
            tasks.push(Task::new(Kernel::Trsm, &[pivot], (row, step)));
        }
        for row in step + 1..tiles {
            for column in step + 1..row {
                let reads = [(row, step), (column, step)];
                tasks.push(Task::new(Kernel::Gemm, &reads, (row, column)));
            }
            tasks.push(Task::new(Kernel::Syrk, &[(row, step)], (row, row)));
        }
    }
    tasks
}

/// Edges from the task that updated a tile last to each that reads or updates
/// it.
pub fn tile_edges(tasks: &[Task]) -> Vec<(usize, usize)> {
    let mut updated_by: BTreeMap<Tile, usize> = BTreeMap::new();
    let mut edges = Vec::new();
    for (target, task) in tasks.iter().enumerate() {
        let tiles = task.reads.iter().chain([&task.updates]);
        let sources = tiles.filter_map(|tile| updated_by.get(tile));
        edges.extend(sources.map(|&source| (source, target)));
        updated_by.insert(task.updates, target);
    }
    edges
}

/// How long the stages of a Cholesky sheet take, and their data between kinds.
#[derive(Clone, Copy, Debug, PartialEq, Eq)]
pub enum Setting {
    /// Figure 3(a) of SPAGHETtI: kind 0 is faster for the first task and kind
    /// 1 for the rest; data pay dearly for the way between the two. Chosen:
    /// faster by 1.9, the gain that SPAGHETtI reports; durations as 1, 3, 3 and
    /// 6, the kernels' operations; a wait many times the longest of them.
    FirstTask,
    /// A core of a CPU and a GPU, the machines of SPAGHETtI's section 6, on a
    /// link. Chosen, not measured: durations as for tiles of 512×512 numbers of
    /// 8 bytes, the size in its introduction; POTRF faster on the core, of which
    /// it says only that the two differ much. With the tiles of section 6,
    /// 4096×4096, a GEMM would take a core more than a second, the longest
    /// duration of a sheet.
    CpuGpu(Link),
    /// As before, and a MIC, which SPAGHETtI's introduction also names. Data
    /// between the two accelerators go through the CPU and wait twice as long.
    CpuGpuMic(Link),
}

/// How fast a tile of 2 MB gets from kind to kind.
#[derive(Clone, Copy, Debug, PartialEq, Eq)]
pub enum Link {
    /// 6 GB a second, as on a bus for accelerators.
    Fast,
    /// A tenth of it.
    Slow,
    /// A hundredth of it.
    VerySlow,
}

impl Link {
    /// The wait for one tile.
    fn wait(self) -> u32 {
        match self {
            Link::Fast => 350,
            Link::Slow => 3_500,
            Link::VerySlow => 35_000,
        }
    }
}

impl Setting {
    fn kinds(self) -> usize {
        match self {
            Setting::FirstTask | Setting::CpuGpu(_) => 2,
            Setting::CpuGpuMic(_) => 3,
        }
    }

    fn durations(self, stage: usize, kernel: Kernel) -> Vec<u32> {
        let durations: &[u32] = match self {
            Setting::FirstTask if stage == 0 => &[1_000, 1_900],
            Setting::FirstTask => match kernel {
                Kernel::Potrf => &[1_900, 1_000],
                Kernel::Trsm | Kernel::Syrk => &[5_700, 3_000],
                Kernel::Gemm => &[11_400, 6_000],
            },
            Setting::CpuGpu(_) | Setting::CpuGpuMic(_) => match kernel {
                Kernel::Potrf => &[5_600, 9_000, 8_000],
                Kernel::Trsm => &[15_000, 1_300, 1_000],
                Kernel::Syrk => &[15_000, 700, 800],
                Kernel::Gemm => &[28_000, 1_000, 1_000],
            },
        };
        durations[..self.kinds()].to_vec()
    }

    /// Every edge brings one tile, so all have the same waits.
    fn waits(self) -> Vec<u32> {
        match self {
            Setting::FirstTask => vec![0, 100_000, 100_000, 0],
            Setting::CpuGpu(link) => vec![0, link.wait(), link.wait(), 0],
            Setting::CpuGpuMic(link) => {
                let (one, two) = (link.wait(), 2 * link.wait());
                vec![0, one, one, one, 0, two, one, two, 0]
            }
        }
    }
}

/// The factorisation of `tiles`×`tiles` tiles as a sheet.
pub fn cholesky(tiles: usize, setting: Setting) -> Sheet {
    let tasks = cholesky_tasks(tiles);
    let edge = |(source, target)| Edge {
        source,
        target,
        waits: setting.waits(),
    };
    Sheet {
        kinds: setting.kinds(),
        clearing: vec![0; setting.kinds()],
        durations: (0..)
            .zip(&tasks)
            .map(|(stage, task)| setting.durations(stage, task.kernel))
            .collect(),
        edges: tile_edges(&tasks).into_iter().map(edge).collect(),
    }
}

/// With 23 rows there would be 276 stages.
pub const MOST_ROWS: usize = 22;

/// The triangle of figure 3(b) of SPAGHETtI, which does not say how its edges
/// lie; chosen: row r has r + 1 stages, and each precedes the two below it.
///
/// In some rows two stages have the same predecessors and each is fast on a
/// kind of its own (SPAGHETtI's problematic nodes). Chosen: from row 3 on, with
/// drawn gaps, two neighbours with a neighbour on either side; each also gets
/// the one predecessor that only the other had.
pub struct Triangle {
    pub rows: usize,
    pub pairs: Vec<Pair>,
}

/// Two neighbours that favour different kinds.
#[derive(Clone, Copy, Debug, PartialEq, Eq)]
pub struct Pair {
    pub row: usize,
    /// The place of the first in its row.
    pub place: usize,
    /// The kinds that the two favour.
    pub favoured: [usize; 2],
}

/// The stage at this place of this row.
pub fn triangle_stage(row: usize, place: usize) -> usize {
    row * (row + 1) / 2 + place
}

impl Triangle {
    /// Draws the pairs.
    pub fn draw(random: &mut Random, kinds: usize, rows: usize) -> Triangle {
        let mut pairs = Vec::new();
        let mut row = random.between(3, 5);
        while row < rows {
            let first = random.below(kinds);
            let second = (first + random.between(1, kinds - 1)) % kinds;
            pairs.push(Pair {
                row,
                place: random.between(1, row - 2),
                favoured: [first, second],
            });
            row += random.between(3, 5);
        }
        Triangle { rows, pairs }
    }

    /// The pairs above this row, and the triangle that they are in.
    pub fn top(&self, rows: usize) -> Triangle {
        let above = |pair: &&Pair| pair.row < rows;
        Triangle {
            rows,
            pairs: self.pairs.iter().filter(above).copied().collect(),
        }
    }

    pub fn stages(&self) -> usize {
        triangle_stage(self.rows, 0)
    }

    /// The kind that the stage favours, if any.
    pub fn favoured(&self, stage: usize) -> Option<usize> {
        self.pairs.iter().find_map(|pair| {
            let first = triangle_stage(pair.row, pair.place);
            let which = stage.checked_sub(first)?;
            pair.favoured.get(which).copied()
        })
    }

    pub fn edges(&self) -> Vec<(usize, usize)> {
        let mut edges = Vec::new();
        for row in 1..self.rows {
            for place in 0..row {
                let source = triangle_stage(row - 1, place);
                edges.push((source, triangle_stage(row, place)));
                edges.push((source, triangle_stage(row, place + 1)));
            }
        }
        for &Pair { row, place, .. } in &self.pairs {
            let [left, right] = [place - 1, place + 1].map(|at| triangle_stage(row - 1, at));
            edges.push((left, triangle_stage(row, place + 1)));
            edges.push((right, triangle_stage(row, place)));
        }
        edges
    }

    /// As in SPAGHETtI, all other stages are as fast on one kind as on any, and
    /// where a stage favours a kind, crossing kinds takes long. Chosen: the
    /// durations and waits; and that the crossing meant is the one on the way
    /// into such a stage, in either direction, as SPAGHETtI avoids it by copies
    /// of its predecessors, which would not help on the way out.
    pub fn sheet(&self, kinds: usize) -> Sheet {
        let durations = |stage| match self.favoured(stage) {
            None => vec![1_000; kinds],
            Some(favoured) => {
                let mut durations = vec![10_000; kinds];
                durations[favoured] = 1_000;
                durations
            }
        };
        let edge = |(source, target)| {
            let crossing = if self.favoured(target).is_some() {
                10_000
            } else {
                100
            };
            let mut waits = vec![crossing; kinds * kinds];
            // data stay within a kind without a wait
            (0..kinds).for_each(|kind| waits[kind * kinds + kind] = 0);
            Edge {
                source,
                target,
                waits,
            }
        };
        Sheet {
            kinds,
            clearing: vec![0; kinds],
            durations: (0..self.stages()).map(durations).collect(),
            edges: self.edges().into_iter().map(edge).collect(),
        }
    }
}

/// Sheets of one graph, from small to large.
pub struct Series {
    pub title: &'static str,
    /// What the size counts.
    pub unit: &'static str,
    pub sheets: Vec<(usize, Sheet)>,
}

/// All graphs in all settings.
pub fn all_series() -> Vec<Series> {
    vec![
        cholesky_series(
            "Cholesky as in figure 3(a) of SPAGHETtI, first task faster on kind 0, the others on kind 1",
            Setting::FirstTask,
        ),
        cholesky_series(
            "Cholesky on CPU and GPU, fast link",
            Setting::CpuGpu(Link::Fast),
        ),
        cholesky_series(
            "Cholesky on CPU and GPU, slow link",
            Setting::CpuGpu(Link::Slow),
        ),
        cholesky_series(
            "Cholesky on CPU and GPU, very slow link",
            Setting::CpuGpu(Link::VerySlow),
        ),
        cholesky_series(
            "Cholesky on CPU, GPU and MIC, slow link",
            Setting::CpuGpuMic(Link::Slow),
        ),
        triangle_series("Triangle as in figure 3(b) of SPAGHETtI, two kinds", 2),
        triangle_series("Triangle, four kinds", 4),
    ]
}

fn cholesky_series(title: &'static str, setting: Setting) -> Series {
    let sheet = |tiles| (tiles, cholesky(tiles, setting));
    Series {
        title,
        unit: "tiles",
        sheets: (2..=MOST_TILES).map(sheet).collect(),
    }
}

/// The tops of one triangle, so that each has the pairs of the one before.
fn triangle_series(title: &'static str, kinds: usize) -> Series {
    let largest = Triangle::draw(&mut Random::new(61), kinds, MOST_ROWS);
    let sheet = |rows| (rows, largest.top(rows).sheet(kinds));
    Series {
        title,
        unit: "rows",
        sheets: (2..=MOST_ROWS).map(sheet).collect(),
    }
}
