//! The graphs of section 6 of SPAGHETtI are what they claim to be.

use std::collections::BTreeSet;

use checks::graphs::{
    cholesky_tasks, tile_edges, triangle_stage, Kernel, Pair, Task, Triangle, MOST_ROWS, MOST_TILES,
};
use reference::generator::Random;

/// The number of ways to choose `few` of `many`.
fn choose(many: usize, few: usize) -> usize {
    (0..few).fold(1, |ways, taken| ways * (many - taken) / (taken + 1))
}

#[test]
fn cholesky_has_its_tasks_and_edges() {
    for tiles in 1..=20 {
        let tasks = cholesky_tasks(tiles);
        let count = |kernel| tasks.iter().filter(|task| task.kernel == kernel).count();
        assert_eq!(count(Kernel::Potrf), tiles);
        assert_eq!(count(Kernel::Trsm), choose(tiles, 2));
        assert_eq!(count(Kernel::Syrk), choose(tiles, 2));
        assert_eq!(count(Kernel::Gemm), choose(tiles, 3));
        assert_eq!(tasks.len(), tiles * (tiles + 1) * (tiles + 2) / 6);
        let edges = tile_edges(&tasks);
        assert_eq!(edges.len(), (tiles + 1) * tiles * (tiles - 1) / 2);
        let different: BTreeSet<_> = edges.iter().collect();
        assert_eq!(different.len(), edges.len());
        assert_eq!(longest_path(tasks.len(), &edges), 3 * tiles - 2);
    }
    // the graph of SPAGHETtI's figure 3(a)
    assert_eq!(cholesky_tasks(20).len(), 1540);
    assert!(cholesky_tasks(MOST_TILES).len() <= 256);
    assert!(cholesky_tasks(MOST_TILES + 1).len() > 256);
}

/// The stages on the longest path; each edge leads to a higher stage, so there
/// is no closed path.
fn longest_path(stages: usize, edges: &[(usize, usize)]) -> usize {
    let mut longest = vec![1; stages];
    for target in 0..stages {
        for &(source, _) in edges.iter().filter(|edge| edge.1 == target) {
            assert!(source < target);
            longest[target] = longest[target].max(longest[source] + 1);
        }
    }
    longest.into_iter().max().expect("a stage")
}

/// The step of the factorisation that a task belongs to: the column that it
/// reads, or updates if it is a POTRF.
fn step(task: &Task) -> usize {
    task.reads.first().map_or(task.updates.1, |read| read.1)
}

/// The kernels whose results a task takes, sorted.
fn kernels_before(task: &Task) -> Vec<Kernel> {
    match (task.kernel, step(task)) {
        (Kernel::Potrf, 0) => vec![],
        (Kernel::Potrf, _) => vec![Kernel::Syrk],
        (Kernel::Trsm, 0) => vec![Kernel::Potrf],
        (Kernel::Trsm, _) => vec![Kernel::Potrf, Kernel::Gemm],
        (Kernel::Syrk, 0) => vec![Kernel::Trsm],
        (Kernel::Syrk, _) => vec![Kernel::Trsm, Kernel::Syrk],
        (Kernel::Gemm, 0) => vec![Kernel::Trsm; 2],
        (Kernel::Gemm, _) => vec![Kernel::Trsm, Kernel::Trsm, Kernel::Gemm],
    }
}

/// The kernels that take a task's result, sorted.
fn kernels_behind(task: &Task, tiles: usize) -> Vec<Kernel> {
    let below = tiles - 1 - step(task);
    let last = step(task) + 1 == task.updates.1;
    match task.kernel {
        Kernel::Potrf => vec![Kernel::Trsm; below],
        // one SYRK, and a GEMM with each other tile of its column
        Kernel::Trsm => [vec![Kernel::Syrk], vec![Kernel::Gemm; below - 1]].concat(),
        Kernel::Syrk if last => vec![Kernel::Potrf],
        Kernel::Syrk => vec![Kernel::Syrk],
        Kernel::Gemm if last => vec![Kernel::Trsm],
        Kernel::Gemm => vec![Kernel::Gemm],
    }
}

#[test]
fn cholesky_edges_are_those_of_the_factorisation() {
    for tiles in 1..=MOST_TILES {
        let tasks = cholesky_tasks(tiles);
        let edges = tile_edges(&tasks);
        for (stage, task) in tasks.iter().enumerate() {
            let into = edges.iter().filter(|edge| edge.1 == stage);
            let mut before: Vec<Kernel> = into.map(|edge| tasks[edge.0].kernel).collect();
            before.sort();
            assert_eq!(before, kernels_before(task), "{task:?}");
            let from = edges.iter().filter(|edge| edge.0 == stage);
            let mut behind: Vec<Kernel> = from.map(|edge| tasks[edge.1].kernel).collect();
            behind.sort();
            assert_eq!(behind, kernels_behind(task, tiles), "{task:?}");
        }
    }
}

#[test]
fn triangles_have_their_stages_edges_and_pairs() {
    let mut random = Random::new(66);
    for rows in 1..=MOST_ROWS {
        for kinds in 2..=4 {
            let triangle = Triangle::draw(&mut random, kinds, rows);
            let (stages, edges) = (triangle.stages(), triangle.edges());
            assert_eq!(stages, rows * (rows + 1) / 2);
            assert_eq!(edges.len(), rows * (rows - 1) + 2 * triangle.pairs.len());
            let different: BTreeSet<_> = edges.iter().collect();
            assert_eq!(different.len(), edges.len());
            assert_eq!(longest_path(stages, &edges), rows);
            // the first pair is in row 3, 4 or 5, counted from 0
            assert!(triangle.pairs.is_empty() || rows > 3);
            assert!(!triangle.pairs.is_empty() || rows < 6);
            for pair in &triangle.pairs {
                check_pair(&triangle, &edges, pair);
            }
            let problematic = (0..stages).filter(|&stage| triangle.favoured(stage).is_some());
            assert_eq!(problematic.count(), 2 * triangle.pairs.len());
        }
    }
    assert!(triangle_stage(MOST_ROWS, 0) <= 256 && triangle_stage(MOST_ROWS + 1, 0) > 256);
}

/// The two have the same predecessors and favour different kinds.
fn check_pair(triangle: &Triangle, edges: &[(usize, usize)], pair: &Pair) {
    let first = triangle_stage(pair.row, pair.place);
    let [before, also_before] = [first, first + 1].map(|stage| {
        let into = edges.iter().filter(|edge| edge.1 == stage);
        into.map(|edge| edge.0).collect::<BTreeSet<_>>()
    });
    assert_eq!(before, also_before);
    assert_eq!(before.len(), 3);
    let favoured = [first, first + 1].map(|stage| triangle.favoured(stage));
    assert_eq!(favoured, pair.favoured.map(Some));
    assert_ne!(pair.favoured[0], pair.favoured[1]);
}
