//! Who sits where, tick by tick: the verified tables beside those of the second scheduler.

use crate::compare::Comparer;
use crate::report::Report;
use crate::runs::overload;
use crate::workers::share;
use inputs::boards::{sound, task_count, FAMILIES};
use inputs::lists::{legal, spoil};
use inputs::write::run_text;
use std::fs;

const SEED: u64 = 401;
/// Runs for each of the two threads.
const RUNS: u64 = 1_000;

pub fn test(report: &mut Report, times: u64) {
    for file in ["boards/b.run", "boards/b-together.run"] {
        report.take(&format!("tables of {file}"), known(file));
    }
    let codes = share(SEED, |comparer| (0..RUNS * times).try_for_each(|_| one(comparer)));
    let told = codes.and_then(|codes| {
        let told = codes.told(&[0, 2, 3, 4, 8, 9])?;
        let (runs, tables) = (2 * RUNS * times, codes.total());
        Ok(format!("{tables} tables of {runs} runs compared, seeds {SEED} and {}, {told}", SEED + 1))
    });
    report.take("random tables", told);
}

/// Every tick of a sample, and the first past its end.
fn known(file: &str) -> Result<String, String> {
    let text = fs::read(file).map_err(|error| error.to_string())?;
    let mut comparer = Comparer::new(SEED);
    (0..=12).try_for_each(|tick| comparer.table(&text, tick).map(|_| ()))?;
    comparer.codes.told(&[0]).map(|_| "13 tables compared".into())
}

/// Every tick of a short run, some of a longer one, and ticks past the end.
fn one(comparer: &mut Comparer) -> Result<(), String> {
    let random = &mut comparer.random;
    let family = *random.pick(&FAMILIES);
    let (count, longest) = (task_count(random), *random.pick(&[2, 5, 10, 20]));
    let mut board = sound(random, family, count, longest);
    if random.once_in(2) {
        overload(comparer, &mut board);
    }
    let random = &mut comparer.random;
    let most = *random.pick(&[1, 5, 20, 100, 400]);
    let span = longest * *random.pick(&[1, 2, 3]);
    let mut list = legal(random, &board, most, span);
    if random.once_in(8) {
        let kind = random.within(1, 4);
        spoil(random, &board, &mut list, kind);
    }
    let last = list.ticks;
    let text = run_text(&board, &list);
    (0..=last)
        .chain([last + 1, u32::MAX - 1, u32::MAX])
        .try_for_each(|tick| comparer.table(text.as_bytes(), tick).map(|_| ()))
}
