//! Random release lists: legal ones, and ones with each of the four faults.

use crate::random::Random;
use second::board::Board;
use second::list::{List, Release};

/// A legal list with up to `most` releases over about `span` ticks. The run's end falls before, on or after releases.
pub fn legal(random: &mut Random, board: &Board, most: usize, span: u32) -> List {
    let mut releases = Vec::new();
    let eager = random.within(0, 2);
    for (index, task) in board.tasks.iter().enumerate() {
        let mut at = if eager == 0 { 0 } else { random.spread(0, span) };
        let jobs = random.within(0, 2 + most as u32 / board.tasks.len() as u32);
        for _ in 0..jobs {
            if at > span.min(1_000_000) {
                break;
            }
            releases.push(Release { at, task: index as u32 + 1, units: units(random, task.c) });
            at += task.t + if eager < 2 { 0 } else { random.spread(0, task.t) };
        }
    }
    releases.sort_unstable_by_key(|release| (release.at, release.task));
    releases.truncate(most);
    List { ticks: ticks(random, &releases, span), releases }
}

/// 0, the full need, one unit, or a part of it.
fn units(random: &mut Random, c: u32) -> u32 {
    match random.within(0, 7) {
        0 => c,
        1 => 1,
        2 => random.within(1, c),
        3 => c - 1,
        _ => 0,
    }
}

/// A length of the run: mostly all of the span, at times none, or just before, at or after a release.
fn ticks(random: &mut Random, releases: &[Release], span: u32) -> u32 {
    let near = |random: &mut Random| releases.get(random.index(releases.len().max(1))).map_or(0, |release| release.at);
    let ticks = match random.within(0, 9) {
        0 => 0,
        1 => near(random),
        2 => near(random) + 1,
        3 => near(random).saturating_sub(1),
        4 => random.within(0, span),
        _ => span + random.within(0, 9),
    };
    ticks.min(1_000_000)
}

/// Puts a fault into a list, of the kind 1 unknown task, 2 order, 3 units or 4 gap, where the list has room for it.
/// What the first fault then is, is left to the readers.
pub fn spoil(random: &mut Random, board: &Board, list: &mut List, kind: u32) {
    if list.releases.is_empty() {
        return;
    }
    let count = list.releases.len();
    let place = random.index(count);
    let tasks = board.tasks.len() as u32;
    match kind {
        1 => list.releases[place].task = *random.pick(&[0, tasks + 1, 97, 1_000_000]),
        2 => {
            let other = random.index(count);
            if random.once_in(3) {
                list.releases[place] = list.releases[other].clone();
            } else {
                list.releases.swap(place, other);
            }
        }
        3 => {
            let task = list.releases[place].task as usize;
            let c = task.checked_sub(1).and_then(|index| board.tasks.get(index)).map_or(0, |task| task.c);
            list.releases[place].units =
                (c + if random.once_in(2) { 1 } else { random.spread(1, 1_000) }).min(1_000_000);
        }
        _ => closer(random, board, list, place),
    }
}

/// Brings a release to within its task's period of the one before it: by one tick too few, or by more.
fn closer(random: &mut Random, board: &Board, list: &mut List, place: usize) {
    let (at, task) = (list.releases[place].at, list.releases[place].task);
    let Some(t) = (task as usize).checked_sub(1).and_then(|index| board.tasks.get(index)).map(|task| task.t) else {
        return;
    };
    let back = if random.once_in(2) { 1 } else { random.within(1, t) };
    let again = Release { at: (at + t - back).min(1_000_000), task, units: 0 };
    list.releases.retain(|other| other.task != task || other.at <= at || other.at > again.at);
    list.releases.push(again);
    list.releases.sort_unstable_by_key(|release| (release.at, release.task));
    list.releases.truncate(1_000);
}
