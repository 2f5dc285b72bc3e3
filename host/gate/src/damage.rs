//! Damaged texts, by the hundred thousand.

use crate::compare::Comparer;
use crate::report::Report;
use crate::workers::share;
use inputs::boards::{longest_period, sound, FAMILIES};
use inputs::damage::damage;
use inputs::lists::legal;
use inputs::write::{board_text, run_text};

const SEED: u64 = 301;
/// Damaged texts for each of the two threads, in rounds of 50 on one whole text.
const TEXTS: u64 = 500_000;
const ROUND: u64 = 50;

pub fn test(report: &mut Report, times: u64) {
    let codes = share(SEED, |comparer| (0..TEXTS * times / ROUND).try_for_each(|_| round(comparer)));
    let told = codes.and_then(|codes| {
        let told = codes.told(&[0, 1, 2, 3, 4, 5, 6, 7, 8, 9, 10])?;
        Ok(format!("{} texts compared, seeds {SEED} and {}, {told}", codes.total(), SEED + 1))
    });
    report.take("damaged texts", told);
}

fn round(comparer: &mut Comparer) -> Result<(), String> {
    let random = &mut comparer.random;
    let family = *random.pick(&FAMILIES);
    let count = *random.pick(&[1, 2, 3, 4, 8, 1, 2, 3, 4, 8, 1, 2, 3, 4, 8, 96]);
    let longest = longest_period(random);
    let board = sound(random, family, count, longest);
    let most = *random.pick(&[0, 1, 4, 12]);
    let span = longest.min(300);
    let list = legal(random, &board, most, span);
    let (check, run) = (board_text(&board), run_text(&board, &list));
    for turn in 0..ROUND {
        if turn % 2 == 0 {
            let text = damage(&mut comparer.random, check.as_bytes());
            comparer.check(&text)?;
        } else {
            let text = damage(&mut comparer.random, run.as_bytes());
            let places = comparer.places(list.releases.len());
            comparer.run(&text, places)?;
        }
    }
    Ok(())
}
