//! The check of proposed bounds.

use crate::board::{Board, Task};
use crate::text::Lines;
use crate::{Answer, DONE};

/// The answer to a board's text, and after 0 the slack of each task.
pub fn check(text: &[u8]) -> (Answer, Vec<u64>) {
    match checked(text) {
        Ok(slacks) => (DONE, slacks),
        Err(refusal) => (refusal, Vec::new()),
    }
}

fn checked(text: &[u8]) -> Result<Vec<u64>, Answer> {
    let mut lines = Lines::of(text)?;
    let board = Board::read(&mut lines)?;
    lines.end()?;
    board.speeds_fall()?;
    (1..=board.tasks.len()).map(|number| slack(&board, number)).collect()
}

/// The slack of a task, counted from 1, or the first rule it breaks.
fn slack(board: &Board, number: usize) -> Result<u64, Answer> {
    let task = &board.tasks[number - 1];
    let above = &board.tasks[..number - 1];
    board.deadline_within_period(number)?;
    if task.r > task.d {
        return Err((5, number as u32, 0));
    }
    let last_column = board.speeds.len().min(above.len());
    for column in 0..=last_column {
        if !covered(&board.speeds, task, column) {
            return Err((6, number as u32, column as u32));
        }
    }
    let demand = u128::from(task.y) * work_above(board, above, task.r) + u128::from(task.z) * u128::from(task.c - 1);
    let supply = u128::from(task.q) * u128::from(task.r);
    if demand >= supply {
        return Err((7, number as u32, 0));
    }
    Ok((supply - demand) as u64)
}

/// Column `column`: that many fastest processors hold tasks above, and the task has the next one, if there is one.
fn covered(speeds: &[u32], task: &Task, column: usize) -> bool {
    let busy: u128 = speeds.iter().take(column).map(|&speed| u128::from(speed)).sum();
    let own = speeds.get(column).copied().unwrap_or(0);
    busy * u128::from(task.y) + u128::from(own) * u128::from(task.z) >= u128::from(task.q)
}

/// W: what the tasks above can ask for in `ticks` ticks.
fn work_above(board: &Board, above: &[Task], ticks: u32) -> u128 {
    let fastest = u128::from(board.speeds[0]);
    above.iter().map(|k| jobs(ticks, k.r, k.t) as u128 * (u128::from(k.c) + fastest - 1)).sum()
}

/// The job count of a task with bound `r` and period `t` in `ticks` ticks: how many of `ticks + r - 1` ticks in a row
/// begin a period, if the first does.
pub fn jobs(ticks: u32, r: u32, t: u32) -> usize {
    (0..(ticks + r - 1) as usize).step_by(t as usize).len()
}
