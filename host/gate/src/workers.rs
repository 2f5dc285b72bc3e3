//! A test shared out to two threads, each with a seed of its own.

use crate::compare::{Codes, Comparer};

/// Runs `work` on two threads and adds up what they met. The first error ends it.
pub fn share<W>(seed: u64, work: W) -> Result<Codes, String>
where
    W: Fn(&mut Comparer) -> Result<(), String> + Sync,
{
    let one = |seed: u64| {
        let mut comparer = Comparer::new(seed);
        work(&mut comparer).map(|()| comparer.codes)
    };
    let (first, second) = std::thread::scope(|scope| {
        let first = scope.spawn(|| one(seed));
        let second = scope.spawn(|| one(seed + 1));
        (first.join().expect("the first thread ends"), second.join().expect("the second thread ends"))
    });
    let mut codes = first?;
    codes.add(&second?);
    Ok(codes)
}
