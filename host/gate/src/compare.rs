//! One text through the verified library and through the second implementation.
//!
//! The plain check and run of the benchmark are compared on the way: a measurement beside them says something only if they
//! do the same.

use crate::fence::Fence;
use crate::guarded;
use crate::report::{same, shown};
use inputs::random::Random;
use second::Answer;

/// How often each code was answered, and the latest tick of an overrun.
#[derive(Clone, Default)]
pub struct Codes {
    counts: [u64; 11],
    pub latest_overrun: u32,
}

impl Codes {
    pub fn count(&mut self, answer: Answer) {
        self.counts[answer.0 as usize] += 1;
        if answer.0 == 9 {
            self.latest_overrun = self.latest_overrun.max(answer.2);
        }
    }

    pub fn add(&mut self, other: &Codes) {
        self.counts.iter_mut().zip(other.counts).for_each(|(mine, theirs)| *mine += theirs);
        self.latest_overrun = self.latest_overrun.max(other.latest_overrun);
    }

    pub fn total(&self) -> u64 {
        self.counts.iter().sum()
    }

    /// The counts in words; an error if a code that was to be met was not, since then the test shows less than it says.
    pub fn told(&self, wanted: &[usize]) -> Result<String, String> {
        let told: Vec<String> = (0..11)
            .filter(|&code| self.counts[code] > 0)
            .map(|code| format!("{code}: {}", self.counts[code]))
            .collect();
        match wanted.iter().find(|&&code| self.counts[code] == 0) {
            Some(code) => Err(format!("no input was answered by {code} (answers by code {})", told.join(", "))),
            None => Ok(format!("answers by code {}", told.join(", "))),
        }
    }
}

/// What a comparison needs besides the text.
pub struct Comparer {
    pub random: Random,
    fence: Fence,
    pub codes: Codes,
}

impl Comparer {
    pub fn new(seed: u64) -> Comparer {
        Comparer { random: Random::new(seed), fence: Fence::new(), codes: Codes::default() }
    }

    /// Check and slacks of a board's text: all answers, all lent places, all guard words.
    pub fn check(&mut self, text: &[u8]) -> Result<Answer, String> {
        let (wanted, wanted_slacks) = second::check::check(text);
        self.codes.count(wanted);
        let room = self.slack_room(wanted_slacks.len());
        let before: Vec<u64> = (0..room).map(|_| self.random.bits()).collect();
        let mut after = before.clone();
        if room >= wanted_slacks.len() {
            after[..wanted_slacks.len()].copy_from_slice(&wanted_slacks);
        }
        let at_end = self.random.once_in(2);
        let held = self.fence.hold(text, at_end);
        let compared = (|| {
            same("plain check", plain::check(held), wanted)?;
            same("check", guarded::check(held)?, wanted)?;
            same("slacks", guarded::slacks(held, &before)?, (wanted, after))
        })();
        compared.map(|()| wanted).map_err(|wrong| format!("{wrong} on {}", shown(text)))
    }

    /// Mostly a place for each task that a board can have; often as many as tasks, one more or one fewer, or none.
    fn slack_room(&mut self, slacks: usize) -> usize {
        let room = [96, slacks, slacks + 1, slacks.saturating_sub(1), 0, 96, 100];
        *self.random.pick(&room)
    }

    /// A run of a text with `places` lent places.
    pub fn run(&mut self, text: &[u8], places: usize) -> Result<Answer, String> {
        let before: Vec<u32> = (0..places).map(|_| self.random.bits() as u32).collect();
        let mut after = before.clone();
        let wanted = second::run::run(text, &mut after);
        self.codes.count(wanted);
        let at_end = self.random.once_in(2);
        let held = self.fence.hold(text, at_end);
        let compared = (|| {
            let mut plainly = before.clone();
            same("plain run", (plain::run(held, &mut plainly), &plainly), (wanted, &after))?;
            same("run", guarded::run(held, &before)?, (wanted, after))
        })();
        compared.map(|()| wanted).map_err(|wrong| format!("{wrong} with {places} places on {}", shown(text)))
    }

    /// The table of a tick of a text's run.
    pub fn table(&mut self, text: &[u8], tick: u32) -> Result<Answer, String> {
        let before = std::array::from_fn(|_| self.random.bits() as u32);
        let mut after = before;
        let wanted = second::run::table(text, tick, &mut after);
        self.codes.count(wanted);
        let at_end = self.random.once_in(2);
        let held = self.fence.hold(text, at_end);
        let compared =
            guarded::table(held, tick, &before).and_then(|found| same("table", found, (wanted, after.to_vec())));
        compared.map(|()| wanted).map_err(|wrong| format!("{wrong} at tick {tick} of {}", shown(text)))
    }

    /// A number of places for a list of `releases`: enough, exactly enough, or too few.
    pub fn places(&mut self, releases: usize) -> usize {
        let counts = [releases, releases + 1, releases + 17, 1_000, releases.saturating_sub(1), 0, releases, releases];
        *self.random.pick(&counts)
    }
}
