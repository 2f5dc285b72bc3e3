//! Runs texts through the verified scheduler and writes the table of each tick, for the drawing program to read.
//!
//!     tables [NAME=]FILE.run...
//!
//! For each file: `run` and its name, `speeds` and the speeds, a line `release` with tick, task and response for each release,
//! and a line `tick` for each tick with the eight numbers of its table.

use second::board::Board;
use second::list::List;
use second::text::Lines;

fn main() {
    for word in std::env::args().skip(1) {
        let (name, file) = word.split_once('=').unwrap_or((&word, &word));
        if let Err(wrong) = print(name, file) {
            eprintln!("{file}: {wrong}");
            std::process::exit(1);
        }
    }
}

/// More ticks than that make no picture, and each is a run of its own.
const MOST: u32 = 1_000;

fn print(name: &str, file: &str) -> Result<(), String> {
    let text = std::fs::read(file).map_err(|error| error.to_string())?;
    let mut responses = [0; 1_000];
    let answer = boundary::run(&text, &mut responses);
    if answer.0 != 0 {
        return Err(format!("the run is refused: {answer:?}"));
    }
    let (board, list) = parts(&text).map_err(|answer| format!("{answer:?}"))?;
    if list.ticks > MOST {
        return Err(format!("{} ticks are too many to draw: {MOST} at most", list.ticks));
    }
    println!("run {name}");
    println!("speeds {}", words(&board.speeds));
    for (release, response) in list.releases.iter().zip(responses) {
        println!("release {} {} {response}", release.at, release.task);
    }
    for tick in 0..list.ticks {
        let mut seats = [0; 8];
        match boundary::table(&text, tick, &mut seats) {
            (0, 0, 0) => println!("tick {}", words(&seats)),
            answer => return Err(format!("the table of tick {tick} is refused: {answer:?}")),
        }
    }
    Ok(())
}

/// The board and the list of a text that the run has accepted.
fn parts(text: &[u8]) -> Result<(Board, List), second::Answer> {
    let mut lines = Lines::of(text)?;
    Ok((Board::read(&mut lines)?, List::read(&mut lines)?))
}

fn words(numbers: &[u32]) -> String {
    numbers.iter().map(u32::to_string).collect::<Vec<_>>().join(" ")
}
