//! What the two programs print.

use crate::{check::check, run::run, Answer};
use std::fmt::Display;

/// What the check program prints for a text.
pub fn check_prints(text: &[u8]) -> String {
    let (answer, slacks) = check(text);
    page(answer, "slack", &slacks)
}

/// What the run program prints for a text. It lends a place to each release that a list can have.
pub fn run_prints(text: &[u8]) -> String {
    // No response is as large as this, and a place that was not written keeps it.
    let mut places = [u32::MAX; 1_000];
    let answer = run(text, &mut places);
    let written: Vec<u32> = places.into_iter().filter(|&place| answer.0 == 0 && place != u32::MAX).collect();
    page(answer, "response", &written)
}

fn page<N: Display>((code, place, detail): Answer, key: &str, numbers: &[N]) -> String {
    let head = format!("answer={code}\nplace={place}\ndetail={detail}\n");
    numbers.iter().fold(head, |page, number| page + &format!("{key}={number}\n"))
}
