//! The check and the run as one would write them in Rust without proofs: what the verified code is measured against.

mod board;
mod list;
mod run;
mod text;

pub use run::run;

use board::Board;
use text::Text;

/// Code, place and detail.
pub type Answer = (u32, u32, u32);

/// Checks a board's text.
pub fn check(text: &[u8]) -> Answer {
    match checked(text) {
        Ok(()) => (0, 0, 0),
        Err(refusal) => refusal,
    }
}

fn checked(text: &[u8]) -> Result<(), Answer> {
    let mut text = Text::new(text)?;
    let board = Board::read(&mut text)?;
    text.end()?;
    board.speeds_fall()?;
    (0..board.tasks.len()).try_for_each(|place| board.passes(place))
}
