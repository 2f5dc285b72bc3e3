//! Random boards: sound ones at their smallest bounds, all that lies one step beside them, and boards of any numbers.

use crate::compare::Comparer;
use crate::report::{same, Report};
use crate::workers::share;
use inputs::boards::{any, extremes, longest_period, sound, task_count, FAMILIES};
use inputs::near::misses;
use inputs::write::board_text;
use second::board::Board;

const SEED: u64 = 101;
/// Boards for each of the two threads; a sound one comes with up to 40 near misses.
const SOUND: u64 = 2_000;
const ANY: u64 = 15_000;

pub fn test(report: &mut Report, times: u64) {
    let codes = share(SEED, |comparer| {
        for _ in 0..SOUND * times {
            sound_and_near(comparer)?;
        }
        for _ in 0..ANY * times {
            let board = any(&mut comparer.random);
            comparer.check(board_text(&board).as_bytes())?;
        }
        Ok(())
    });
    let told = codes.and_then(|codes| {
        let told = codes.told(&[0, 1, 2, 3, 4, 5, 6, 7])?;
        Ok(format!("{} boards compared, seeds {SEED} and {}, {told}", codes.total(), SEED + 1))
    });
    report.take("random boards", told);
    report.take("boards at the ends of the ranges", at_the_ends());
}

/// A sound board must be accepted, and with a bound one lower it must not be; the rest is compared.
fn sound_and_near(comparer: &mut Comparer) -> Result<(), String> {
    let random = &mut comparer.random;
    let family = *random.pick(&FAMILIES);
    let (count, longest) = (task_count(random), longest_period(random));
    let board = sound(random, family, count, longest);
    let text = board_text(&board);
    let near = misses(random, &board, 40);
    let answer = comparer.check(text.as_bytes())?;
    if answer.0 != 0 {
        return Err(format!("a board made to be sound is refused by {answer:?}: {text}"));
    }
    one_lower(comparer, &board)?;
    for board in near {
        comparer.check(board_text(&board).as_bytes())?;
    }
    Ok(())
}

/// The bound of some task one lower: no longer shown to hold, since it was the smallest.
fn one_lower(comparer: &mut Comparer, board: &Board) -> Result<(), String> {
    let place = comparer.random.index(board.tasks.len());
    let mut lower = board.clone();
    lower.tasks[place].r -= 1;
    // A bound of 0 is outside its range, on the fourth line of its task.
    let line = 2 + board.speeds.len() + 7 * place + 4;
    let wanted = if lower.tasks[place].r == 0 { (2, line as u32, 0) } else { (7, place as u32 + 1, 0) };
    let answer = comparer.check(board_text(&lower).as_bytes())?;
    same("a bound one below the smallest", answer, wanted).map_err(|wrong| format!("{wrong}: {lower:?}"))
}

fn at_the_ends() -> Result<String, String> {
    let mut comparer = Comparer::new(SEED);
    for board in extremes() {
        let answer = comparer.check(board_text(&board).as_bytes())?;
        if answer.0 != 0 {
            return Err(format!("an extreme board is refused by {answer:?}: {board:?}"));
        }
        for near in misses(&mut comparer.random, &board, 60) {
            comparer.check(board_text(&near).as_bytes())?;
        }
    }
    Ok(format!("{} boards compared, seed {SEED}, {}", comparer.codes.total(), comparer.codes.told(&[0, 2, 4, 5, 6, 7])?))
}
