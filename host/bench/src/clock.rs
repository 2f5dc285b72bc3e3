//! Times two ways of doing the same, turn by turn, so that what disturbs one disturbs the other.

use std::time::Instant;

/// Nanoseconds for one call.
fn once(calls: u32, work: &mut dyn FnMut()) -> f64 {
    let begun = Instant::now();
    for _ in 0..calls {
        work();
    }
    begun.elapsed().as_nanos() as f64 / f64::from(calls)
}

/// The least of several measurements of each, in nanoseconds for a call: what else the machine does only adds.
pub fn both(calls: u32, mut verified: impl FnMut(), mut plain: impl FnMut()) -> (f64, f64) {
    const TURNS: usize = 25;
    let (mut first, mut second) = (f64::MAX, f64::MAX);
    for _ in 0..TURNS {
        first = first.min(once(calls, &mut verified));
        second = second.min(once(calls, &mut plain));
    }
    (first, second)
}
