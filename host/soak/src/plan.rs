//! How long a soak goes on, the steps that it takes, and what it says on the way.

use std::fmt;
use std::panic::{catch_unwind, AssertUnwindSafe};
use std::time::{Duration, Instant};

use model::drive::Seen;

use crate::crash::Met;
use crate::lines::grouped;

/// Calls for each kill, where only minutes are asked for.
const CALLS_FOR_A_KILL: u64 = 100_000;
/// The kills of one group. Then it comes to rest and is checked, and the next begins with new journals.
const KILLS_OF_A_GROUP: u64 = 40;

/// What is asked for. The soak ends where both numbers are reached, or the time is over.
#[derive(Clone, Debug, PartialEq, Eq)]
pub struct Plan {
    /// The calls to compare, at least.
    pub calls: u64,
    /// The kills of the program over files.
    pub kills: u64,
    /// The seed of the first random run; each takes the seed after the last.
    pub seed: u64,
    /// The most minutes.
    pub minutes: Option<u64>,
}

/// A step of a soak.
#[derive(Clone, Copy, Debug, PartialEq, Eq)]
pub enum Step {
    /// The random run of a seed, compared call by call.
    Run(u64),
    /// A kill of the program over files; by a seed where a new group begins.
    Kill(Option<u64>),
    /// The killed group comes to rest and is checked.
    Rest,
}

/// Who takes the steps. A step that finds a difference, or something lost, panics.
pub trait Steps {
    /// [`Step::Run`].
    fn run(&mut self, seed: u64) -> Seen;
    /// [`Step::Kill`].
    fn kill(&mut self, new: Option<u64>);
    /// [`Step::Rest`].
    fn rest(&mut self) -> Met;
}

/// What was done.
#[derive(Clone, Debug, Default)]
pub struct Done {
    /// By the random runs.
    pub seen: Seen,
    /// By the killed programs whose groups were checked.
    pub met: Met,
    /// The kills, those of the group that is not yet checked among them.
    pub kills: u64,
    /// The step that found a difference, or something lost.
    pub difference: Option<Step>,
    /// How long it took.
    pub time: Duration,
    runs: u64,
    /// The kills of the group that is not yet checked.
    unchecked: u64,
}

impl Plan {
    /// By the words of a command line.
    pub fn of(words: impl IntoIterator<Item = String>) -> Result<Plan, String> {
        let (mut calls, mut kills, mut seed, mut minutes) = (None, None, 0, None);
        let mut words = words.into_iter();
        while let Some(word) = words.next() {
            let mut number = || {
                let given = words.next().ok_or(format!("{word} needs a number"))?;
                let number = given.replace(',', "").parse();
                number.map_err(|_| format!("{word} {given}: not a whole number"))
            };
            match &word[..] {
                "--calls" => calls = Some(number()?),
                "--kills" => kills = Some(number()?),
                "--seed" => seed = number()?,
                "--minutes" => minutes = Some(number()?),
                _ => return Err(format!("{word}: not an option; --help names them")),
            }
        }
        let (calls, kills) = match (calls, kills, minutes) {
            (None, None, None) => (1_000_000, KILLS_OF_A_GROUP),
            (None, None, Some(_)) => (u64::MAX, u64::MAX / CALLS_FOR_A_KILL),
            _ => (calls.unwrap_or(0), kills.unwrap_or(0)),
        };
        Ok(Plan {
            calls,
            kills,
            seed,
            minutes,
        })
    }

    /// Takes the steps, and tells after each what is done.
    pub fn go(&self, steps: &mut impl Steps, mut tell: impl FnMut(&Done)) -> Done {
        let began = Instant::now();
        let mut done = Done::default();
        while let Some(step) = self.next(&done) {
            let mut after = done.clone();
            let taken = catch_unwind(AssertUnwindSafe(|| after.take(step, steps)));
            match taken {
                Ok(()) => done = after,
                Err(_) => done.difference = Some(step),
            }
            done.time = began.elapsed();
            tell(&done);
        }
        done
    }

    fn next(&self, done: &Done) -> Option<Step> {
        let over = |minutes: u64| done.time >= Duration::from_secs(minutes.saturating_mul(60));
        let calls = done.seen.calls < self.calls;
        let kills = done.kills < self.kills;
        if done.difference.is_some() {
            None
        } else if self.minutes.is_some_and(over) || !calls && !kills {
            (done.unchecked > 0).then_some(Step::Rest)
        } else if done.unchecked == KILLS_OF_A_GROUP {
            Some(Step::Rest)
        } else if calls && (!kills || self.calls_are_behind(done)) {
            Some(Step::Run(self.seed.wrapping_add(done.runs)))
        } else {
            let new = self.seed.wrapping_add(done.kills);
            Some(Step::Kill((done.unchecked == 0).then_some(new)))
        }
    }

    /// Both come to their end at the same time.
    fn calls_are_behind(&self, done: &Done) -> bool {
        let part = |done: u64, other: u64| u128::from(done) * u128::from(other);
        part(done.seen.calls, self.kills) <= part(done.kills, self.calls)
    }
}

impl Done {
    fn take(&mut self, step: Step, steps: &mut impl Steps) {
        match step {
            Step::Run(seed) => {
                self.seen.add(&steps.run(seed));
                self.runs += 1;
            }
            Step::Kill(new) => {
                steps.kill(new);
                self.kills += 1;
                self.unchecked += 1;
            }
            Step::Rest => {
                self.met.add(&steps.rest());
                self.unchecked = 0;
            }
        }
    }
}

impl fmt::Display for Done {
    fn fmt(&self, f: &mut fmt::Formatter) -> fmt::Result {
        let [calls, commits, kills] = [self.seen.calls, self.seen.commits, self.kills].map(grouped);
        let differences = match self.difference {
            None => "0 differences",
            Some(_) => "1 difference",
        };
        let seconds = self.time.as_secs();
        write!(
            f,
            "{calls} calls, {commits} commits, {kills} kills, {differences}; {seconds} s"
        )
    }
}

#[cfg(test)]
mod tests;
