//! A release list, and when it is legal.

use crate::board::Board;
use crate::text::Text;
use crate::Answer;

pub struct Release {
    pub at: u32,
    pub task: u32,
    pub units: u32,
}

pub struct List {
    pub ticks: u32,
    pub releases: Vec<Release>,
}

impl List {
    pub fn read(text: &mut Text) -> Result<List, Answer> {
        let ticks = text.number(b"ticks=", 0, 1_000_000)?;
        let count = text.number(b"releases=", 0, 1_000)?;
        let mut releases = Vec::with_capacity(count as usize);
        for _ in 0..count {
            releases.push(Release {
                at: text.number(b"at=", 0, 1_000_000)?,
                task: text.number(b"task=", 0, 1_000_000)?,
                units: text.number(b"units=", 0, 1_000_000)?,
            });
        }
        Ok(List { ticks, releases })
    }

    pub fn legal(&self, board: &Board) -> Result<(), Answer> {
        let mut last = [None; 96];
        for (place, release) in self.releases.iter().enumerate() {
            let refusal = |fault| Err((8, place as u32 + 1, fault));
            if release.task == 0 || release.task as usize > board.tasks.len() {
                return refusal(1);
            }
            if place > 0 {
                let before = &self.releases[place - 1];
                if (before.at, before.task) >= (release.at, release.task) {
                    return refusal(2);
                }
            }
            let index = release.task as usize - 1;
            if release.units > board.tasks[index].c {
                return refusal(3);
            }
            if last[index].is_some_and(|at| release.at - at < board.tasks[index].t) {
                return refusal(4);
            }
            last[index] = Some(release.at);
        }
        Ok(())
    }
}
