//! A release list as its text gives it, and when it is legal.

use crate::board::Board;
use crate::text::Lines;
use crate::Answer;

#[derive(Clone, Debug, PartialEq, Eq)]
pub struct Release {
    pub at: u32,
    pub task: u32,
    pub units: u32,
}

#[derive(Clone, Debug, PartialEq, Eq)]
pub struct List {
    pub ticks: u32,
    pub releases: Vec<Release>,
}

const MILLION: u32 = 1_000_000;

impl List {
    pub fn read(lines: &mut Lines) -> Result<List, Answer> {
        let ticks = lines.number("ticks", 0..=MILLION)?;
        let count = lines.number("releases", 0..=1_000)?;
        let releases = (0..count).map(|_| Release::read(lines)).collect::<Result<_, _>>()?;
        Ok(List { ticks, releases })
    }

    /// Code 8: the first release at fault, and its first fault.
    pub fn legal(&self, board: &Board) -> Result<(), Answer> {
        for number in 1..=self.releases.len() {
            if let Some(fault) = self.fault(board, number - 1) {
                return Err((8, number as u32, fault));
            }
        }
        Ok(())
    }

    fn fault(&self, board: &Board, index: usize) -> Option<u32> {
        let (before, rest) = self.releases.split_at(index);
        let release = &rest[0];
        let Some(task) = release.task.checked_sub(1).and_then(|place| board.tasks.get(place as usize)) else {
            return Some(1);
        };
        let rank = |x: &Release| (x.at, x.task);
        if before.iter().any(|earlier| rank(earlier) >= rank(release)) {
            return Some(2);
        }
        if release.units > task.c {
            return Some(3);
        }
        let mut same = before.iter().filter(|earlier| earlier.task == release.task);
        if same.any(|earlier| release.at.abs_diff(earlier.at) < task.t) {
            return Some(4);
        }
        None
    }
}

impl Release {
    fn read(lines: &mut Lines) -> Result<Release, Answer> {
        Ok(Release {
            at: lines.number("at", 0..=MILLION)?,
            task: lines.number("task", 0..=MILLION)?,
            units: lines.number("units", 0..=MILLION)?,
        })
    }
}
