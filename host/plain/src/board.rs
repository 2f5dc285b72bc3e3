//! A board, and the rules for its tasks.

use crate::text::Text;
use crate::Answer;

pub struct Task {
    pub c: u32,
    pub d: u32,
    pub t: u32,
    r: u32,
    y: u64,
    z: u64,
    q: u64,
}

pub struct Board {
    pub speeds: Vec<u32>,
    pub tasks: Vec<Task>,
}

impl Board {
    pub fn read(text: &mut Text) -> Result<Board, Answer> {
        let processors = text.number(b"procs=", 1, 8)?;
        let mut speeds = Vec::with_capacity(processors as usize);
        for _ in 0..processors {
            speeds.push(text.number(b"s=", 1, 100)?);
        }
        let count = text.number(b"tasks=", 1, 96)?;
        let mut tasks = Vec::with_capacity(count as usize);
        for _ in 0..count {
            tasks.push(Task {
                c: text.number(b"c=", 1, 1_000_000)?,
                d: text.number(b"d=", 1, 1_000_000)?,
                t: text.number(b"t=", 1, 1_000_000)?,
                r: text.number(b"r=", 1, 1_000_000)?,
                y: u64::from(text.number(b"y=", 0, 100_000)?),
                z: u64::from(text.number(b"z=", 0, 100_000)?),
                q: u64::from(text.number(b"q=", 1, 100_000)?),
            });
        }
        Ok(Board { speeds, tasks })
    }

    pub fn speeds_fall(&self) -> Result<(), Answer> {
        for place in 1..self.speeds.len() {
            if self.speeds[place] > self.speeds[place - 1] {
                return Err((3, place as u32 + 1, 0));
            }
        }
        Ok(())
    }

    /// Rules 4 to 7 for the task at `place`, from 0.
    pub fn passes(&self, place: usize) -> Result<(), Answer> {
        let task = &self.tasks[place];
        let number = place as u32 + 1;
        if task.d > task.t {
            return Err((4, number, 0));
        }
        if task.r > task.d {
            return Err((5, number, 0));
        }
        let mut busy = 0;
        for column in 0..=self.speeds.len().min(place) {
            let own = self.speeds.get(column).map_or(0, |&speed| u64::from(speed));
            if busy * task.y + own * task.z < task.q {
                return Err((6, number, column as u32));
            }
            busy += own;
        }
        let extra = u64::from(self.speeds[0]) - 1;
        let work: u64 = self.tasks[..place]
            .iter()
            .map(|k| u64::from((task.r + k.r - 1).div_ceil(k.t)) * (u64::from(k.c) + extra))
            .sum();
        if task.y * work + task.z * u64::from(task.c - 1) >= task.q * u64::from(task.r) {
            return Err((7, number, 0));
        }
        Ok(())
    }
}
