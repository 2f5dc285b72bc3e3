//! Random runs: legal and illegal lists on sound boards and on overloaded ones.

use crate::compare::Comparer;
use crate::report::Report;
use crate::workers::share;
use inputs::boards::{sound, task_count, FAMILIES};
use inputs::lists::{legal, spoil};
use inputs::write::run_text;
use second::board::Board;

const SEED: u64 = 201;
/// Runs for each of the two threads.
const RUNS: u64 = 15_000;

pub fn test(report: &mut Report, times: u64) {
    let codes = share(SEED, |comparer| (0..RUNS * times).try_for_each(|_| one(comparer)));
    let told = codes.and_then(|codes| {
        let told = codes.told(&[0, 2, 3, 4, 8, 9, 10])?;
        let latest = codes.latest_overrun;
        Ok(format!(
            "{} runs compared, seeds {SEED} and {}, {told}, overruns up to tick {latest}",
            codes.total(),
            SEED + 1
        ))
    });
    report.take("random runs", told);
}

fn one(comparer: &mut Comparer) -> Result<(), String> {
    let random = &mut comparer.random;
    let family = *random.pick(&FAMILIES);
    let (count, longest) = (task_count(random), *random.pick(&[5, 10, 40, 200, 1_000]));
    let mut board = sound(random, family, count, longest);
    let overloaded = random.once_in(2);
    if overloaded {
        overload(comparer, &mut board);
    }
    let random = &mut comparer.random;
    let most = *random.pick(&[0, 1, 5, 20, 100, 1_000]);
    let span = longest * *random.pick(&[1, 2, 3, 10]);
    let mut list = legal(random, &board, most, span.min(4_000));
    let spoiled = random.once_in(4);
    if spoiled {
        for _ in 0..*random.pick(&[1, 1, 2]) {
            let kind = random.within(1, 4);
            spoil(random, &board, &mut list, kind);
        }
    }
    let places = comparer.places(list.releases.len());
    let answer = comparer.run(run_text(&board, &list).as_bytes(), places)?;
    // An accepted board keeps its bounds, so no release can find its task's last job unfinished.
    if !overloaded && answer.0 == 9 {
        return Err(format!("an accepted board overran: {answer:?}, {board:?}, {list:?}"));
    }
    Ok(())
}

/// Gives some tasks more work than they have time for, so that releases come too early, sooner or later; rarely breaks
/// one of the board's own rules.
pub fn overload(comparer: &mut Comparer, board: &mut Board) {
    let random = &mut comparer.random;
    let fastest = board.speeds[0];
    for task in &mut board.tasks {
        match random.within(0, 9) {
            0..=2 => task.c = (fastest * task.t + random.within(0, 3)).clamp(1, 1_000_000),
            3..=4 => task.c = random.within(1, (fastest * task.t * 2).min(1_000_000)),
            5 => task.c = (task.c + 1).min(1_000_000),
            _ => {}
        }
    }
    let place = random.index(board.tasks.len());
    match random.within(0, 39) {
        0 => board.tasks[place].d = board.tasks[place].t + 1,
        1 => board.speeds.reverse(),
        2 => board.tasks[place].q = 0,
        3 => board.tasks[place].r = board.tasks[place].d + 1,
        _ => {}
    }
}
