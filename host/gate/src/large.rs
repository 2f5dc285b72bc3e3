//! The largest inputs, in files for the C side.

use inputs::large::{board, list};
use inputs::write::{board_text, run_text};

/// Writes the largest board and the largest run to two files.
pub fn write(board_file: &str, run_file: &str) {
    let board = board(8, 96);
    let list = list(&board, 1_000);
    std::fs::write(board_file, board_text(&board)).expect("the board can be written");
    std::fs::write(run_file, run_text(&board, &list)).expect("the run can be written");
}
