//! Near misses: a board with one number moved by one.

use crate::random::Random;
use second::board::Board;

/// How many numbers a board has that can be moved.
pub fn numbers(board: &Board) -> usize {
    board.speeds.len() + 7 * board.tasks.len()
}

/// The board with its number at `place` one higher or one lower. A 0 stays 0.
pub fn moved(board: &Board, place: usize, up: bool) -> Board {
    let mut moved = board.clone();
    let processors = board.speeds.len();
    let number = if place < processors {
        &mut moved.speeds[place]
    } else {
        let task = &mut moved.tasks[(place - processors) / 7];
        [&mut task.c, &mut task.d, &mut task.t, &mut task.r, &mut task.y, &mut task.z, &mut task.q]
            .into_iter()
            .nth((place - processors) % 7)
            .expect("there are seven")
    };
    *number = if up { *number + 1 } else { number.saturating_sub(1) };
    moved
}

/// All near misses of a small board, and `most` random ones of a larger one.
pub fn misses(random: &mut Random, board: &Board, most: usize) -> Vec<Board> {
    let all = 2 * numbers(board);
    let places: Vec<usize> =
        if all <= most { (0..all).collect() } else { (0..most).map(|_| random.index(all)).collect() };
    places.into_iter().map(|place| moved(board, place / 2, place % 2 == 0)).collect()
}
