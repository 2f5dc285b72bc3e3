//! A tick of the run, and a million of them.

use crate::clock::both;
use inputs::known::{board, list};
use inputs::large;
use inputs::write::run_text;
use second::board::Board;
use second::list::{List, Release};
use std::hint::black_box;

/// Ticks over which one tick is averaged.
const TICKS: u32 = 50_000;

pub fn print() {
    println!("one tick of a run                    verified ns      plain ns   ratio");
    for processors in [1, 8] {
        for tasks in [3, 24, 96] {
            let board = slow(processors, tasks);
            let jobs: Vec<(u32, u32, u32)> = (1..=tasks as u32).map(|task| (0, task, 0)).collect();
            tick(&format!("{processors} procs, {tasks} tasks, all busy"), &board, &list(TICKS, &jobs));
            tick(&format!("{processors} procs, {tasks} tasks, idle"), &board, &list(TICKS, &[]));
        }
    }
    println!();
    million();
}

/// A board whose jobs all last longer than the ticks measured.
fn slow(processors: usize, tasks: usize) -> Board {
    board(&vec![1; processors], &vec![[1_000_000, 1_000_000, 1_000_000, 1, 0, 1, 1]; tasks])
}

/// The time of a run less that of the same text with no ticks, for one tick.
fn tick(name: &str, board: &Board, list: &List) {
    let whole = measured(board, list, 1);
    let reading = measured(board, &List { ticks: 0, ..list.clone() }, 20);
    let (verified, plain) =
        ((whole.0 - reading.0) / f64::from(list.ticks), (whole.1 - reading.1) / f64::from(list.ticks));
    println!("{name:<35} {verified:>12.1} {plain:>13.1} {:>7.2}", verified / plain);
}

fn measured(board: &Board, list: &List, calls: u32) -> (f64, f64) {
    let text = run_text(board, list).into_bytes();
    let (mut first, mut second) = (vec![9; 1_000], vec![9; 1_000]);
    assert_eq!(boundary::run(&text, &mut first), (0, 0, 0));
    assert_eq!(plain::run(&text, &mut second), (0, 0, 0));
    assert_eq!(first, second);
    both(
        calls,
        || _ = black_box(boundary::run(black_box(&text), black_box(&mut first))),
        || _ = black_box(plain::run(black_box(&text), black_box(&mut second))),
    )
}

/// The whole of a run with 8 processors, 96 tasks, 1,000 releases and 1,000,000 ticks.
fn million() {
    let board = large::board(8, 96);
    let mut releases: Vec<Release> = (0..11)
        .flat_map(|job| (0..96).map(move |task| Release { at: 90_000 * job + 40 * task, task: task + 1, units: 0 }))
        .collect();
    releases.truncate(1_000);
    let (verified, plain) = measured(&board, &List { ticks: 1_000_000, releases }, 1);
    println!(
        "1,000,000 ticks, 8 procs, 96 tasks, 1,000 releases: verified {:.1} ms, plain {:.1} ms, ratio {:.2}",
        verified / 1e6,
        plain / 1e6,
        verified / plain
    );
}
