//! Texts with what the C entry must make of them, in a file for the C caller.
//!
//! Each record: the kind (0 check, 1 run), the lengths of the text and of the lent places, code, place and detail, all as
//! 32-bit numbers of this machine; the text; the lent places as they must be afterwards, 64 bits each for a check and 32
//! for a run. Before the call place number k holds `BEFORE + k`.

use inputs::boards::{longest_period, sound, FAMILIES};
use inputs::damage::damage;
use inputs::lists::legal;
use inputs::random::Random;
use inputs::write::{board_text, run_text};

const SEED: u64 = 601;
const RECORDS: u32 = 4_000;
const BEFORE: u32 = 0xC0FF_EE00;

pub fn write(file: &str) {
    let mut random = Random::new(SEED);
    let mut out = Vec::new();
    for turn in 0..RECORDS {
        let family = *random.pick(&FAMILIES);
        let count = *random.pick(&[1, 2, 3, 5, 9, 96]);
        let longest = longest_period(&mut random).min(1_000);
        let board = sound(&mut random, family, count, longest);
        let list = legal(&mut random, &board, 30, 100);
        let run = turn % 2 == 1;
        let mut text = if run { run_text(&board, &list) } else { board_text(&board) }.into_bytes();
        if turn % 4 < 3 {
            text = damage(&mut random, &text);
        }
        // Under valgrind a tick is slow, so long runs are left to the other tests.
        if run && too_long(&text) {
            continue;
        }
        let releases = list.releases.len();
        let places = *random.pick(&[releases, releases + 3, releases.saturating_sub(1), 0, 96]);
        out.extend(if run { run_record(&text, places) } else { check_record(&text, places) });
    }
    std::fs::write(file, out).expect("the corpus can be written");
    println!("corpus: up to {RECORDS} texts, seed {SEED}");
}

fn too_long(text: &[u8]) -> bool {
    let text = String::from_utf8_lossy(text);
    let ticks = text.lines().find_map(|line| line.strip_prefix("ticks=")?.parse::<u64>().ok());
    ticks.is_some_and(|ticks| ticks > 2_000)
}

fn head(run: bool, text: &[u8], places: usize, (code, place, detail): second::Answer) -> Vec<u8> {
    let words = [u32::from(run), text.len() as u32, places as u32, code, place, detail];
    let mut record: Vec<u8> = words.iter().flat_map(|word| word.to_ne_bytes()).collect();
    record.extend(text);
    record
}

fn check_record(text: &[u8], places: usize) -> Vec<u8> {
    let (answer, slacks) = second::check::check(text);
    let mut lent: Vec<u64> = (0..places as u64).map(|place| u64::from(BEFORE) + place).collect();
    if places >= slacks.len() {
        lent[..slacks.len()].copy_from_slice(&slacks);
    }
    let mut record = head(false, text, places, answer);
    record.extend(lent.iter().flat_map(|word| word.to_ne_bytes()));
    record
}

fn run_record(text: &[u8], places: usize) -> Vec<u8> {
    let mut lent: Vec<u32> = (0..places as u32).map(|place| BEFORE + place).collect();
    let answer = second::run::run(text, &mut lent);
    let mut record = head(true, text, places, answer);
    record.extend(lent.iter().flat_map(|word| word.to_ne_bytes()));
    record
}
