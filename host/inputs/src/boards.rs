//! Random boards: sound ones at their smallest bounds, and ones of any numbers at all.

use crate::random::Random;
use crate::tight;
use second::board::{Board, Task};

/// How the speeds of a board are related; reports go by these names.
#[derive(Clone, Copy, Debug, PartialEq, Eq)]
pub enum Family {
    OneProcessor,
    Equal,
    TwoSpeeds,
    CommonFactor,
    Small,
    Any,
}

pub const FAMILIES: [Family; 6] =
    [Family::OneProcessor, Family::Equal, Family::TwoSpeeds, Family::CommonFactor, Family::Small, Family::Any];

/// Speeds of a family, falling.
pub fn speeds(random: &mut Random, family: Family) -> Vec<u32> {
    let count = if family == Family::OneProcessor { 1 } else { random.within(2, 8) };
    let factor = random.within(2, 10);
    let (fast, slow) = (random.within(2, 100), random.within(1, 100));
    let mut speeds: Vec<u32> = (0..count)
        .map(|_| match family {
            Family::OneProcessor | Family::Any => random.within(1, 100),
            Family::Equal => fast,
            Family::TwoSpeeds => *random.pick(&[fast, slow]),
            Family::CommonFactor => factor * random.within(1, 10),
            Family::Small => random.within(1, 7),
        })
        .collect();
    speeds.sort_unstable_by(|a, b| b.cmp(a));
    speeds
}

/// A number of tasks: mostly few, at times all 96.
pub fn task_count(random: &mut Random) -> u32 {
    match random.within(0, 19) {
        0 => 96,
        1..=2 => random.within(31, 96),
        3..=7 => random.within(7, 30),
        _ => random.within(1, 6),
    }
}

/// A board that the check accepts, each bound the smallest there is for the tasks above it. It has up to `count` tasks:
/// one that no bound fits is tried with half the work, and left out when a single unit is too much.
pub fn sound(random: &mut Random, family: Family, count: u32, longest: u32) -> Board {
    let mut board = Board { speeds: speeds(random, family), tasks: Vec::new() };
    let supply: u64 = board.speeds.iter().map(|&speed| u64::from(speed)).sum();
    let load = u64::from(random.within(1, 100));
    for _ in 0..count {
        let t = random.within(1 + longest / 50, longest);
        let d = if random.once_in(2) { t } else { random.within(1 + t / 2, t) };
        let share = supply * u64::from(t) * load / (u64::from(count) * 60);
        let mut c = random.within(1, share.clamp(1, 1_000_000) as u32);
        let times = *random.pick(&[1, 1, 2, 7, 100_000]);
        while !tight::add(&mut board, c, d, t, times) && c > 1 {
            c /= 2;
        }
    }
    if board.tasks.is_empty() {
        tight::add(&mut board, 1, 1, 1, 1);
    }
    // A deadline at the bound puts rule 5 one step away, as one at the period does with rule 4.
    for task in &mut board.tasks {
        if random.once_in(3) {
            task.d = task.r;
        }
    }
    board
}

/// The longest period of a sound board: of a few ticks, of a usual size, or as long as can be.
pub fn longest_period(random: &mut Random) -> u32 {
    *random.pick(&[10, 40, 200, 1_000, 30_000, 1_000_000])
}

/// A board with numbers from all over their ranges, and now and then from just outside.
pub fn any(random: &mut Random) -> Board {
    let count = random.within(1, 8);
    let mut speeds: Vec<u32> = (0..count).map(|_| number(random, 1, 100)).collect();
    if !random.once_in(8) {
        speeds.sort_unstable_by(|a, b| b.cmp(a));
    }
    let tasks = (0..task_count(random))
        .map(|_| {
            let t = number(random, 1, 1_000_000);
            let d = if random.once_in(8) { number(random, 1, 1_000_000) } else { t };
            let r = if random.once_in(8) { number(random, 1, 1_000_000) } else { d };
            Task {
                c: number(random, 1, 1_000_000),
                d,
                t,
                r,
                y: number(random, 0, 100_000),
                z: number(random, 0, 100_000),
                q: number(random, 1, 100_000),
            }
        })
        .collect();
    Board { speeds, tasks }
}

/// A number of a range: its ends, one step inside, rarely one step outside, or anything.
pub fn number(random: &mut Random, low: u32, high: u32) -> u32 {
    if random.once_in(150) {
        return *random.pick(&[low.saturating_sub(1), high + 1, 9_999_999, 10_000_000]);
    }
    match random.within(0, 7) {
        0 => low,
        1 => low + 1,
        2 => high - 1,
        3 => high,
        4 => random.within(low, high),
        _ => random.spread(low, high),
    }
}

/// The ends of every range on boards that are accepted: c, d, t and r of a million, y, z and q of a hundred thousand,
/// speeds of 1 and 100, 1 and 8 processors, 1 and 96 tasks.
pub fn extremes() -> Vec<Board> {
    let mut found = Vec::new();
    for (speed, processors) in [(1, 1), (1, 8), (100, 1), (100, 8)] {
        for count in [1, 96] {
            for (c, t) in [(1, 1), (1, 1_000_000), (1_000_000, 1_000_000), (10_000, 1_000_000), (100, 96)] {
                for times in [1, 100_000] {
                    let mut board = Board { speeds: vec![speed; processors], tasks: Vec::new() };
                    for _ in 0..count {
                        tight::add(&mut board, c, t, t, times);
                    }
                    if !board.tasks.is_empty() {
                        found.push(board);
                    }
                }
            }
        }
    }
    found
}
