//! Draws runs as one SVG picture: `tables FILE.run... | timeline > picture.svg`.
//!
//! Above, a row for each processor, with the task that sits on it in each tick. Below, a row for each task: a triangle
//! where a job is released, a dot where it completes, a bar between them and the response beside it.

mod draw;
mod run;

use std::io::Read;

fn main() {
    let mut text = String::new();
    let read = std::io::stdin().read_to_string(&mut text).map_err(|error| error.to_string());
    match read.and_then(|_| run::all(&text)) {
        Ok(runs) => print!("{}", draw::picture(&runs)),
        Err(wrong) => {
            eprintln!("timeline: {wrong}");
            std::process::exit(1);
        }
    }
}
