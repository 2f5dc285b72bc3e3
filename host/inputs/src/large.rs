//! The largest inputs: 8 processors, 96 tasks, and a list of 1,000 releases that is run to its end.

use crate::tight;
use second::board::Board;
use second::list::{List, Release};

/// An accepted board with `processors` speeds and `count` tasks, bounds as small as can be.
pub fn board(processors: usize, count: u32) -> Board {
    let speeds = [97, 83, 61, 47, 31, 23, 11, 5][..processors].to_vec();
    let mut board = Board { speeds, tasks: Vec::new() };
    for number in 0..count {
        let t = 9_000 + 37 * number;
        assert!(tight::add(&mut board, 1_000 + 13 * number, t, t, 100_000), "task {number} has no bound");
    }
    board
}

/// Every task's releases, one period apart and each task a little after the one above, until there are `most`.
pub fn list(board: &Board, most: usize) -> List {
    let mut releases: Vec<Release> = Vec::new();
    for (index, task) in board.tasks.iter().enumerate() {
        let jobs = most.div_ceil(board.tasks.len()) as u32;
        let at = |job: u32| 3 * index as u32 + job * task.t;
        releases.extend((0..jobs).map(|job| Release { at: at(job), task: index as u32 + 1, units: 0 }));
    }
    releases.retain(|release| release.at <= 1_000_000);
    releases.sort_unstable_by_key(|release| (release.at, release.task));
    releases.truncate(most);
    let last = releases.last().map_or(0, |release| release.at);
    List { ticks: (last + 10_000).min(1_000_000), releases }
}
