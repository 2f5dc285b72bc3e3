//! The smallest bound of a task, and a certificate for it.
//!
//! For given speeds the certificates that can be the best ones are few: with y and z given the largest q that covers
//! is the smallest column, and y and z matter by their ratio alone, so the best pair makes two columns equal. All such
//! pairs are tried, and a grid of small ones beside them.

use second::board::{Board, Task};
use second::check::jobs;

/// y, z and q.
pub type Certificate = (u32, u32, u32);

const LARGEST: u32 = 100_000;

/// The certificates that are tried for a task with `above` tasks above it.
pub fn certificates(speeds: &[u32], above: usize) -> Vec<Certificate> {
    let columns: Vec<(u32, u32)> = (0..=speeds.len().min(above))
        .map(|column| (speeds[..column].iter().sum(), speeds.get(column).copied().unwrap_or(0)))
        .collect();
    let mut pairs = vec![(0, 1)];
    for (place, &(busy, own)) in columns.iter().enumerate() {
        for &(more, less) in &columns[place + 1..] {
            pairs.push((own - less, more - busy));
        }
    }
    let small = if above == 0 { 0..=0 } else { 0..=6 };
    pairs.extend(small.flat_map(|y| (1..=6).map(move |z| (y, z))));
    let mut found: Vec<Certificate> = pairs.into_iter().filter_map(|(y, z)| covering(&columns, y, z)).collect();
    found.sort_unstable();
    found.dedup();
    found
}

/// The certificate of a pair with the largest q, if there is one in range.
fn covering(columns: &[(u32, u32)], y: u32, z: u32) -> Option<Certificate> {
    let q = columns.iter().map(|&(busy, own)| busy * y + own * z).min()?;
    let common = divisor(y, divisor(z, q));
    (q >= 1 && q / common <= LARGEST).then(|| (y / common, z / common, q / common))
}

fn divisor(a: u32, b: u32) -> u32 {
    if b == 0 {
        a.max(1)
    } else {
        divisor(b, a % b)
    }
}

/// W, for the task that stands behind all tasks of the board.
pub fn work_above(board: &Board, ticks: u32) -> u64 {
    let extra = u64::from(board.speeds[0]) - 1;
    board.tasks.iter().map(|k| jobs(ticks, k.r, k.t) as u64 * (u64::from(k.c) + extra)).sum()
}

/// The smallest bound up to `d` that one of the certificates passes for a new last task that needs `c` units.
///
/// Every bound from 1 up is tried, but for those that cannot pass since the work at a smaller bound already asks for
/// more ticks.
pub fn smallest(board: &Board, certificates: &[Certificate], c: u32, d: u32) -> Option<(u32, Certificate)> {
    let mut r = 1;
    while r <= d {
        let work = work_above(board, r);
        let least =
            |&(y, z, q): &Certificate| (u64::from(y) * work + u64::from(z) * u64::from(c - 1)) / u64::from(q) + 1;
        let best = certificates.iter().min_by_key(|certificate| least(certificate))?;
        let needed = least(best);
        if needed <= u64::from(r) {
            return Some((r, *best));
        }
        r = u32::try_from(needed).ok()?;
    }
    None
}

/// The same certificate `times` times, or as it is where that would leave the range.
pub fn multiplied((y, z, q): Certificate, times: u32) -> Certificate {
    let times = times.min(LARGEST / y.max(z).max(q)).max(1);
    (y * times, z * times, q * times)
}

/// Adds a task with its smallest bound below the tasks of a board, if it has one.
pub fn add(board: &mut Board, c: u32, d: u32, t: u32, times: u32) -> bool {
    let tried = certificates(&board.speeds, board.tasks.len());
    let Some((r, certificate)) = smallest(board, &tried, c, d) else {
        return false;
    };
    let (y, z, q) = multiplied(certificate, times);
    board.tasks.push(Task { c, d, t, r, y, z, q });
    true
}
