//! Two threads that call at once, each on texts of its own, get the answers that each gets alone.

use crate::report::{same, Report};
use inputs::boards::{any, sound, FAMILIES};
use inputs::lists::legal;
use inputs::random::Random;
use inputs::write::{board_text, run_text};

const SEED: u64 = 401;
const TEXTS: usize = 60;
const ROUNDS: usize = 100;

pub fn test(report: &mut Report) {
    report.take("two threads at once", together());
}

/// What one call leaves behind.
type Outcome = ((u32, u32, u32), Vec<u64>, (u32, u32, u32), Vec<u32>);

fn outcome((board, run): &(String, String)) -> Outcome {
    let (mut slacks, mut places) = (vec![7; 96], vec![7; 100]);
    let checked = boundary::slacks(board.as_bytes(), &mut slacks);
    let ran = boundary::run(run.as_bytes(), &mut places);
    (checked, slacks, ran, places)
}

fn texts(seed: u64) -> Vec<(String, String)> {
    let mut random = Random::new(seed);
    let mut made = Vec::new();
    for turn in 0..TEXTS {
        let family = *random.pick(&FAMILIES);
        let board = sound(&mut random, family, 20, 50);
        let list = legal(&mut random, &board, 100, 200);
        let checked = if turn % 3 == 0 { any(&mut random) } else { board.clone() };
        made.push((board_text(&checked), run_text(&board, &list)));
    }
    made
}

fn together() -> Result<String, String> {
    let mine: Vec<_> = [SEED, SEED + 1].into_iter().map(texts).collect();
    // The answers of a thread that is alone, which the other tests compare with the second implementation.
    let alone: Vec<Vec<Outcome>> = mine.iter().map(|texts| texts.iter().map(outcome).collect()).collect();
    let barrier = std::sync::Barrier::new(2);
    let work = |who: usize| {
        barrier.wait();
        for _ in 0..ROUNDS {
            for (text, wanted) in mine[who].iter().zip(&alone[who]) {
                same("together", &outcome(text), wanted)?;
            }
        }
        Ok::<(), String>(())
    };
    std::thread::scope(|scope| {
        let other = scope.spawn(|| work(1));
        let first = work(0);
        first.and(other.join().expect("the thread ends"))
    })?;
    Ok(format!("{} checks and as many runs in each of two threads, seeds {SEED} and {}", TEXTS * ROUNDS, SEED + 1))
}
