//! A board as its text gives it.

use crate::text::Lines;
use crate::Answer;

#[derive(Clone, Debug, PartialEq, Eq)]
pub struct Task {
    pub c: u32,
    pub d: u32,
    pub t: u32,
    pub r: u32,
    pub y: u32,
    pub z: u32,
    pub q: u32,
}

#[derive(Clone, Debug, PartialEq, Eq)]
pub struct Board {
    pub speeds: Vec<u32>,
    pub tasks: Vec<Task>,
}

const MILLION: u32 = 1_000_000;
const HUNDRED_THOUSAND: u32 = 100_000;

impl Board {
    /// Reads the lines of a board and leaves what follows them.
    pub fn read(lines: &mut Lines) -> Result<Board, Answer> {
        let processors = lines.number("procs", 1..=8)?;
        let speeds = (0..processors).map(|_| lines.number("s", 1..=100)).collect::<Result<_, _>>()?;
        let count = lines.number("tasks", 1..=96)?;
        let tasks = (0..count).map(|_| Task::read(lines)).collect::<Result<_, _>>()?;
        Ok(Board { speeds, tasks })
    }

    /// Code 3: no speed is above the one before it.
    pub fn speeds_fall(&self) -> Result<(), Answer> {
        match self.speeds.windows(2).position(|pair| pair[1] > pair[0]) {
            Some(before) => Err((3, before as u32 + 2, 0)),
            None => Ok(()),
        }
    }

    /// Code 4 for one task, counted from 1.
    pub fn deadline_within_period(&self, number: usize) -> Result<(), Answer> {
        let task = &self.tasks[number - 1];
        if task.d > task.t {
            return Err((4, number as u32, 0));
        }
        Ok(())
    }
}

impl Task {
    fn read(lines: &mut Lines) -> Result<Task, Answer> {
        Ok(Task {
            c: lines.number("c", 1..=MILLION)?,
            d: lines.number("d", 1..=MILLION)?,
            t: lines.number("t", 1..=MILLION)?,
            r: lines.number("r", 1..=MILLION)?,
            y: lines.number("y", 0..=HUNDRED_THOUSAND)?,
            z: lines.number("z", 0..=HUNDRED_THOUSAND)?,
            q: lines.number("q", 1..=HUNDRED_THOUSAND)?,
        })
    }
}
