//! The scheduler, one job at a time.
//!
//! A job's rank in a tick is one more than the number of tasks above it with an unfinished job, and nothing below it
//! can change that. So all jobs of task 1 are finished first, then all of task 2, and so on; of the tasks above only
//! one number for each tick is kept, how many of them hold a processor or wait for one.

use crate::board::Board;
use crate::list::List;
use crate::text::Lines;
use crate::{Answer, DONE};

/// Runs a board and a list, one text, and leaves in the lent places what the paper says.
pub fn run(text: &[u8], places: &mut [u32]) -> Answer {
    match ran(text, places.len()) {
        Ok(responses) => {
            places[..responses.len()].copy_from_slice(&responses);
            DONE
        }
        Err((refusal, zeros)) => {
            places[..zeros].fill(0);
            refusal
        }
    }
}

/// The responses, or a refusal with the number of places that it sets to 0.
fn ran(text: &[u8], places: usize) -> Result<Vec<u32>, (Answer, usize)> {
    let (board, list) = accepted(text, places).map_err(|refusal| (refusal, 0))?;
    responses(&board, &list).map_err(|overrun| (overrun, list.releases.len()))
}

/// All that is refused before the first tick.
fn accepted(text: &[u8], places: usize) -> Result<(Board, List), Answer> {
    let mut lines = Lines::of(text)?;
    let board = Board::read(&mut lines)?;
    let list = List::read(&mut lines)?;
    lines.end()?;
    board.speeds_fall()?;
    (1..=board.tasks.len()).try_for_each(|number| board.deadline_within_period(number))?;
    if places < list.releases.len() {
        return Err((10, list.releases.len() as u32, 0));
    }
    list.legal(&board)?;
    Ok((board, list))
}

/// Who sits on which processor in a tick of a text's run, which is made up to that tick.
pub fn table(text: &[u8], tick: u32, seats: &mut [u32; 8]) -> Answer {
    match seated(text, tick) {
        Ok(table) => {
            *seats = table;
            DONE
        }
        Err(refusal) => refusal,
    }
}

/// From the run's end on nobody sits.
fn seated(text: &[u8], tick: u32) -> Result<[u32; 8], Answer> {
    let (board, mut list) = accepted(text, usize::MAX)?;
    list.ticks = list.ticks.min(tick.saturating_add(1));
    let mut table = [0; 8];
    schedule(&board, &list, |now, processor, task| {
        if now == tick {
            table[processor] = task;
        }
    })?;
    Ok(table)
}

/// The response of each release, or the first release that comes while its task's last job is unfinished.
pub fn responses(board: &Board, list: &List) -> Result<Vec<u32>, Answer> {
    schedule(board, list, |_, _, _| {})
}

/// The same; every tick in which a task sits on a processor, counted from 0, is told on the way.
fn schedule(board: &Board, list: &List, mut sits: impl FnMut(u32, usize, u32)) -> Result<Vec<u32>, Answer> {
    let mut above = vec![0u8; list.ticks as usize];
    let mut responses = vec![0; list.releases.len()];
    let mut overruns = Vec::new();
    for number in 1..=board.tasks.len() {
        let full = board.tasks[number - 1].c;
        // The tick from which the task has no unfinished job.
        let mut free = 0;
        for (index, release) in list.releases.iter().enumerate() {
            if release.task as usize != number || release.at >= list.ticks {
                continue;
            }
            if release.at < free {
                // What a task does after an overrun cannot bring about an earlier one.
                overruns.push((release.at, index));
                break;
            }
            let need = if release.units == 0 { full } else { release.units };
            free = list.ticks;
            if let Some(last) = completion(&board.speeds, &above, release.at, need) {
                responses[index] = last - release.at + 1;
                free = last + 1;
            }
            for tick in release.at..free {
                let tasks = &mut above[tick as usize];
                if usize::from(*tasks) < board.speeds.len() {
                    sits(tick, usize::from(*tasks), number as u32);
                }
                *tasks += 1;
            }
            // An unfinished job meets the next release inside the run, if there is one, as an overrun.
        }
    }
    match overruns.iter().min() {
        Some(&(tick, index)) => Err((9, index as u32 + 1, tick)),
        None => Ok(responses),
    }
}

/// The tick in which a job released at `at` with `need` units completes, if the run has it.
fn completion(speeds: &[u32], above: &[u8], at: u32, need: u32) -> Option<u32> {
    let mut done = 0;
    (at..above.len() as u32).find(|&tick| {
        done += speeds.get(usize::from(above[tick as usize])).copied().unwrap_or(0);
        done >= need
    })
}
