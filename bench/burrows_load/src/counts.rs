//! What is counted, of a second and of the whole run.

use crate::client::Step;
use std::time::Duration;

/// The kinds of messages that are told apart.
pub const KINDS: [&str; 10] = ["starts", "beats", "opens", "makes", "closes", "reads", "stats", "sets", "locks", "leaves"];

/// Which of them a call is.
pub fn kind(step: Step) -> usize {
    match step {
        Step::Open(_) | Step::OpenToWrite(_) => 2,
        Step::Make(_) | Step::Delete(_) => 3,
        Step::Close(_) => 4,
        Step::Read(_) => 5,
        Step::Stat(_) => 6,
        Step::Set(_) => 7,
        Step::Acquire(_) | Step::Release(_) => 8,
        Step::Leave => 9,
    }
}

/// How many were sent of each kind, and how long calls took.
#[derive(Clone, Debug, Default)]
pub struct Counts {
    pub sent: [u64; KINDS.len()],
    pub told: u64,
    /// Microseconds from a call to its reply, of each kind.
    took: [Vec<u32>; KINDS.len()],
}

impl Counts {
    pub fn took(&mut self, step: Step, time: Duration) {
        self.took[kind(step)].push(u32::try_from(time.as_micros()).unwrap_or(u32::MAX));
    }

    /// Adds those of a second.
    pub fn add(&mut self, other: &Counts) {
        self.told += other.told;
        for at in 0..KINDS.len() {
            self.sent[at] += other.sent[at];
            self.took[at].extend(&other.took[at]);
        }
    }

    /// The times of these kinds.
    pub fn times(&self, kinds: &[&str]) -> Times {
        let is_of = |at: &usize| kinds.contains(&KINDS[*at]);
        Times::of((0..KINDS.len()).filter(is_of).flat_map(|at| self.took[at].iter().copied()).collect())
    }
}

/// Times in order.
#[derive(Clone, Debug, Default)]
pub struct Times(Vec<u32>);

impl Times {
    pub fn of(mut micros: Vec<u32>) -> Times {
        micros.sort_unstable();
        Times(micros)
    }

    pub fn count(&self) -> usize {
        self.0.len()
    }

    /// In milliseconds the time that this part of them doesn't exceed; 0 where there is none.
    pub fn at(&self, part: f64) -> f64 {
        let rank = (self.0.len() as f64 * part).ceil() as usize;
        self.0.get(rank.saturating_sub(1)).map_or(0.0, |micros| f64::from(*micros) / 1000.0)
    }

    /// p50, p99, p99.9 and the most.
    pub fn text(&self) -> String {
        let [half, most, nearly, all] = [0.5, 0.99, 0.999, 1.0].map(|part| self.at(part));
        format!("{} calls, p50 {half:.1} ms, p99 {most:.1}, p99.9 {nearly:.1}, most {all:.1}", self.count())
    }
}

#[cfg(test)]
mod tests {
    use super::*;

    #[test]
    fn a_part_of_the_times_is_no_longer() {
        let times = Times::of((1..=1000).rev().map(|ms| ms * 1000).collect());
        for (part, wanted) in [(0.5, 500.0), (0.99, 990.0), (0.999, 999.0), (1.0, 1000.0)] {
            assert_eq!(times.at(part), wanted);
        }
        assert_eq!(Times::default().at(0.5), 0.0);
    }
}
