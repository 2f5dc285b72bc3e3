//! Boards and lists as texts. Any number is written as it stands, also one that the reader must refuse.

use second::board::Board;
use second::list::List;
use std::fmt::Write;

pub fn board_text(board: &Board) -> String {
    let mut text = String::new();
    line(&mut text, "procs", board.speeds.len() as u32);
    for &speed in &board.speeds {
        line(&mut text, "s", speed);
    }
    line(&mut text, "tasks", board.tasks.len() as u32);
    for task in &board.tasks {
        line(&mut text, "c", task.c);
        line(&mut text, "d", task.d);
        line(&mut text, "t", task.t);
        line(&mut text, "r", task.r);
        line(&mut text, "y", task.y);
        line(&mut text, "z", task.z);
        line(&mut text, "q", task.q);
    }
    text
}

pub fn list_text(list: &List) -> String {
    let mut text = String::new();
    line(&mut text, "ticks", list.ticks);
    line(&mut text, "releases", list.releases.len() as u32);
    for release in &list.releases {
        line(&mut text, "at", release.at);
        line(&mut text, "task", release.task);
        line(&mut text, "units", release.units);
    }
    text
}

/// What the run program reads.
pub fn run_text(board: &Board, list: &List) -> String {
    board_text(board) + &list_text(list)
}

fn line(text: &mut String, key: &str, number: u32) {
    writeln!(text, "{key}={number}").expect("a string takes what is written to it");
}
