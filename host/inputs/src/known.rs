//! The boards that the paper names.

use second::board::{Board, Task};
use second::list::{List, Release};

/// A task from c, d, t, r, y, z, q.
pub fn task([c, d, t, r, y, z, q]: [u32; 7]) -> Task {
    Task { c, d, t, r, y, z, q }
}

pub fn board(speeds: &[u32], tasks: &[[u32; 7]]) -> Board {
    Board { speeds: speeds.to_vec(), tasks: tasks.iter().copied().map(task).collect() }
}

/// A list from (at, task, units).
pub fn list(ticks: u32, releases: &[(u32, u32, u32)]) -> List {
    let releases = releases.iter().map(|&(at, task, units)| Release { at, task, units }).collect();
    List { ticks, releases }
}

pub fn a() -> Board {
    board(&[4, 2], &[[8, 10, 10, 2, 0, 1, 4], [6, 12, 12, 3, 1, 2, 8], [5, 20, 20, 5, 2, 3, 12]])
}

pub fn b() -> Board {
    board(
        &[7, 2, 1],
        &[
            [49, 1000, 1000, 7, 0, 1, 7],
            [14, 1000, 1000, 8, 5, 7, 49],
            [7, 1000, 1000, 9, 5, 7, 49],
            [21, 1000, 1000, 12, 5, 7, 49],
        ],
    )
}

/// The releases of P7: each of the three upper tasks comes as the one before it ends.
pub fn p7() -> List {
    list(12, &[(0, 1, 0), (0, 4, 0), (7, 2, 0), (9, 3, 0)])
}

/// The releases of P8: all four together.
pub fn p8() -> List {
    list(12, &[(0, 1, 0), (0, 2, 0), (0, 3, 0), (0, 4, 0)])
}
