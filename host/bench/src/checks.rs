//! The check of whole texts: board A, the largest board, and how the cost grows with the tasks.

use crate::clock::both;
use inputs::known;
use inputs::large;
use inputs::write::board_text;
use second::board::Board;
use std::hint::black_box;

pub fn print() {
    println!("check of a text             bytes   verified ns      plain ns   ratio   verified ns/task");
    row("board A, 2 procs, 3 tasks", &known::a(), 2_000);
    for count in [12, 24, 48, 96] {
        row(&format!("8 procs, {count} tasks"), &large::board(8, count), 100);
    }
    row("1 proc, 24 tasks", &large::board(1, 24), 400);
    println!();
}

fn row(name: &str, board: &Board, calls: u32) {
    let text = board_text(board).into_bytes();
    assert_eq!(boundary::check(&text), (0, 0, 0), "{name}");
    assert_eq!(plain::check(&text), (0, 0, 0), "{name}");
    let (verified, plain) = both(
        calls,
        || _ = black_box(boundary::check(black_box(&text))),
        || _ = black_box(plain::check(black_box(&text))),
    );
    let each = verified / board.tasks.len() as f64;
    println!("{name:<27} {:>5} {verified:>13.0} {plain:>13.0} {:>7.2} {each:>18.0}", text.len(), verified / plain);
}
