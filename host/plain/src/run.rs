//! The scheduler, tick by tick.

use crate::board::Board;
use crate::list::List;
use crate::text::Text;
use crate::Answer;

/// Runs a board and a list, one text, and writes the responses.
pub fn run(text: &[u8], places: &mut [u32]) -> Answer {
    match ran(text, places) {
        Ok(()) => (0, 0, 0),
        Err(refusal) => refusal,
    }
}

fn ran(text: &[u8], places: &mut [u32]) -> Result<(), Answer> {
    let mut text = Text::new(text)?;
    let board = Board::read(&mut text)?;
    let list = List::read(&mut text)?;
    text.end()?;
    board.speeds_fall()?;
    if let Some(place) = board.tasks.iter().position(|task| task.d > task.t) {
        return Err((4, place as u32 + 1, 0));
    }
    let count = list.releases.len();
    if places.len() < count {
        return Err((10, count as u32, 0));
    }
    list.legal(&board)?;
    let places = &mut places[..count];
    places.fill(0);
    scheduled(&board, &list, places).inspect_err(|_| places.fill(0))
}

/// The unfinished job of a task.
#[derive(Clone, Copy)]
struct Job {
    left: u32,
    release: usize,
}

fn scheduled(board: &Board, list: &List, places: &mut [u32]) -> Result<(), Answer> {
    let mut jobs: Vec<Option<Job>> = vec![None; board.tasks.len()];
    let mut next = 0;
    for tick in 0..list.ticks {
        while let Some(release) = list.releases.get(next).filter(|release| release.at == tick) {
            let index = release.task as usize - 1;
            if jobs[index].is_some() {
                return Err((9, next as u32 + 1, tick));
            }
            let left = if release.units == 0 { board.tasks[index].c } else { release.units };
            jobs[index] = Some(Job { left, release: next });
            next += 1;
        }
        let mut speeds = board.speeds.iter();
        for slot in &mut jobs {
            let Some(job) = slot else { continue };
            let Some(&speed) = speeds.next() else { break };
            if job.left > speed {
                job.left -= speed;
            } else {
                places[job.release] = tick - list.releases[job.release].at + 1;
                *slot = None;
            }
        }
    }
    Ok(())
}
