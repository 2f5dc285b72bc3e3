//! Demand 3 by search: on accepted boards at their smallest bounds, patterns of releases that try to exceed a bound.
//!
//! All runs are the verified scheduler's. The patterns: all together; one after the other on the fastest processor, as in
//! the source's Example 2; each task above at every phase; random phases, gaps and units; and steps from the worst found
//! so far. No response may be above its bound, and no release may find its task's last job unfinished.

use crate::report::Report;
use inputs::boards::{sound, Family, FAMILIES};
use inputs::known;
use inputs::random::Random;
use inputs::tight;
use inputs::write::run_text;
use second::board::Board;
use second::list::{List, Release};

const SEED: u64 = 701;
/// Boards of a family.
const BOARDS: u64 = 120;
/// A bound of fewer ticks is met by anything, and says nothing of how near the search came.
const TELLING: u32 = 4;
/// Random patterns, and as many steps from the worst one, for each task.
const TRIES: u32 = 60;

pub fn test(report: &mut Report, times: u64) {
    report.take("search for a late job, source's Example 2, every phase", example());
    let families: Vec<_> = std::thread::scope(|scope| {
        let halves: Vec<_> = FAMILIES
            .chunks(FAMILIES.len() / 2)
            .map(|half| {
                scope.spawn(move || half.iter().map(|&family| (family, search(family, times))).collect::<Vec<_>>())
            })
            .collect();
        halves.into_iter().flat_map(|half| half.join().expect("the search ends")).collect()
    });
    for (family, result) in families {
        let name = format!("search for a late job, {family:?} speeds");
        report.take(&name, result.map(|found| format!("seed {}, {}", SEED + family as u64, found.told())));
    }
}

/// How near to their bounds the responses came, for tasks that have others above them and a telling bound.
#[derive(Default)]
struct Found {
    boards: u64,
    runs: u64,
    /// The worst response and the bound of each task that was searched.
    worst: Vec<(u32, u32)>,
}

impl Found {
    fn told(&self) -> String {
        let ratio = |&(response, bound): &(u32, u32)| f64::from(response) / f64::from(bound);
        let ratios: Vec<f64> = self.worst.iter().map(ratio).collect();
        let largest = ratios.iter().copied().fold(0.0, f64::max);
        let mean = ratios.iter().sum::<f64>() / ratios.len().max(1) as f64;
        let met = self.worst.iter().filter(|(response, bound)| response == bound).count();
        format!(
            "{} boards, {} runs, {} bounds of {TELLING} ticks and more: largest response / bound {largest:.3}, \
             mean {mean:.3}, {met} met exactly",
            self.boards,
            self.runs,
            ratios.len()
        )
    }
}

/// When each task is released: from `first` on every `gap` ticks.
#[derive(Clone)]
struct Pattern {
    first: Vec<u32>,
    gap: Vec<u32>,
    units: Vec<u32>,
}

/// A search on one board for a late job of one task.
struct Search<'a> {
    board: &'a Board,
    /// The task's place, from 0.
    task: usize,
    /// The tick of its release: late enough for each task above to have a job before it.
    at: u32,
    worst: u32,
    worst_pattern: Pattern,
}

impl<'a> Search<'a> {
    fn new(board: &'a Board, task: usize) -> Search<'a> {
        let at = board.tasks[..task].iter().map(|above| above.t).max().unwrap_or(0);
        let worst_pattern = Pattern {
            first: vec![at; task],
            gap: board.tasks[..task].iter().map(|above| above.t).collect(),
            units: vec![0; task],
        };
        Search { board, task, at, worst: 0, worst_pattern }
    }

    fn list(&self, pattern: &Pattern) -> List {
        let end = self.at + 2 * self.board.tasks[self.task].r + 2;
        let mut releases = vec![Release { at: self.at, task: self.task as u32 + 1, units: 0 }];
        for above in 0..self.task {
            let mut at = pattern.first[above];
            while at < end && releases.len() < 900 {
                releases.push(Release { at, task: above as u32 + 1, units: pattern.units[above] });
                at += pattern.gap[above];
            }
        }
        releases.sort_unstable_by_key(|release| (release.at, release.task));
        List { ticks: end, releases }
    }

    /// Runs a pattern; an error is a broken promise.
    fn try_pattern(&mut self, pattern: &Pattern, found: &mut Found) -> Result<(), String> {
        let list = self.list(pattern);
        let mut places = vec![u32::MAX; list.releases.len()];
        let answer = boundary::run(run_text(self.board, &list).as_bytes(), &mut places);
        found.runs += 1;
        if answer != (0, 0, 0) {
            return Err(format!("answer {answer:?} on {:?} with {list:?}", self.board));
        }
        for (release, &response) in list.releases.iter().zip(&places) {
            let bound = self.board.tasks[release.task as usize - 1].r;
            // A job may be cut off by the end of the run, but not before its bound.
            let late = response > bound || (response == 0 && list.ticks - release.at >= bound);
            if late {
                return Err(format!(
                    "response {response}, bound {bound}: {release:?} on {:?} with {list:?}",
                    self.board
                ));
            }
            if release.task as usize == self.task + 1 && response >= self.worst {
                self.worst = response;
                self.worst_pattern = pattern.clone();
            }
        }
        Ok(())
    }

    fn all(&mut self, random: &mut Random, found: &mut Found) -> Result<(), String> {
        let together = self.worst_pattern.clone();
        self.try_pattern(&together, found)?;
        let chain = self.chain(&together);
        self.try_pattern(&chain, found)?;
        for above in 0..self.task {
            let t = self.board.tasks[above].t;
            for phase in (0..t).step_by(1 + t as usize / 30) {
                for base in [&together, &chain] {
                    let mut pattern = base.clone();
                    pattern.first[above] = self.at - phase.min(self.at);
                    self.try_pattern(&pattern, found)?;
                }
            }
        }
        for _ in 0..TRIES {
            let pattern = self.random_pattern(random);
            self.try_pattern(&pattern, found)?;
            let pattern = self.step(random);
            self.try_pattern(&pattern, found)?;
        }
        let bound = self.board.tasks[self.task].r;
        if self.task > 0 && bound >= TELLING {
            found.worst.push((self.worst, bound));
        }
        Ok(())
    }

    /// Each task above comes as the one before it ends, all on the fastest processor.
    fn chain(&self, together: &Pattern) -> Pattern {
        let mut pattern = together.clone();
        let mut at = self.at;
        for above in 0..self.task {
            pattern.first[above] = at;
            at += self.board.tasks[above].c.div_ceil(self.board.speeds[0]);
        }
        pattern
    }

    fn random_pattern(&self, random: &mut Random) -> Pattern {
        let mut pattern = self.worst_pattern.clone();
        for above in 0..self.task {
            let task = &self.board.tasks[above];
            let back = random.within(0, task.t - 1).min(self.at);
            pattern.first[above] = self.at - back + if random.once_in(3) { random.within(0, task.t) } else { 0 };
            pattern.gap[above] = task.t + if random.once_in(4) { random.within(0, task.t) } else { 0 };
            pattern.units[above] = if random.once_in(6) { random.within(1, task.c) } else { 0 };
        }
        pattern
    }

    /// The worst pattern with one release moved a little.
    fn step(&self, random: &mut Random) -> Pattern {
        let mut pattern = self.worst_pattern.clone();
        if self.task > 0 {
            let above = random.index(self.task);
            let first = &mut pattern.first[above];
            *first = if random.once_in(2) { *first + 1 } else { first.saturating_sub(1) };
            if random.once_in(3) {
                pattern.gap[above] = self.board.tasks[above].t;
                pattern.units[above] = 0;
            }
        }
        pattern
    }
}

/// The search on the boards of a family.
fn search(family: Family, times: u64) -> Result<Found, String> {
    let mut random = Random::new(SEED + family as u64);
    let mut found = Found::default();
    while found.boards < BOARDS * times {
        let (count, longest) = (random.within(2, 7), *random.pick(&[8, 20, 60]));
        let board = sound(&mut random, family, count, longest);
        if board.tasks.len() < 2 {
            continue;
        }
        found.boards += 1;
        for task in 0..board.tasks.len() {
            Search::new(&board, task).all(&mut random, &mut found)?;
        }
    }
    Ok(found)
}

/// Board B at its smallest bounds, 7, 7, 7 and 12, with the three tasks above at every phase of 14 ticks around the
/// fourth's release.
fn example() -> Result<String, String> {
    let mut board = Board { tasks: Vec::new(), ..known::b() };
    for task in known::b().tasks {
        tight::add(&mut board, task.c, task.d, task.t, 1);
    }
    let bounds: Vec<u32> = board.tasks.iter().map(|task| task.r).collect();
    if bounds != [7, 7, 7, 12] {
        return Err(format!("the smallest bounds of board B are {bounds:?}"));
    }
    let mut found = Found::default();
    let mut search = Search::new(&board, 3);
    let together = search.worst_pattern.clone();
    for phases in 0..15 * 15 * 15 {
        let mut pattern = together.clone();
        for (above, phase) in [phases % 15, phases / 15 % 15, phases / 225].into_iter().enumerate() {
            pattern.first[above] = search.at + phase - 4;
        }
        search.try_pattern(&pattern, &mut found)?;
    }
    // Relative to the fourth's release; the paper's P7 takes 11.
    let after: Vec<i64> =
        search.worst_pattern.first.iter().map(|&first| i64::from(first) - i64::from(search.at)).collect();
    Ok(format!(
        "{} runs, task 4 takes up to {} of 12 ticks, as with tasks 1 to 3 released {after:?} ticks after it",
        found.runs, search.worst
    ))
}
