//! How much is taken a second.

use std::time::{Duration, Instant};

/// How many a second, and as many at once where none came for a second.
#[derive(Clone, Copy, Debug)]
pub struct Rate {
    left: f64,
    at: Instant,
}

impl Rate {
    /// Nothing was taken yet.
    #[must_use]
    pub fn new(a_second: u32, now: Instant) -> Rate {
        Rate { left: f64::from(a_second), at: now }
    }

    /// Takes so many; how long to wait before they are let in.
    pub fn take(&mut self, count: u32, a_second: u32, now: Instant) -> Duration {
        let a_second = f64::from(a_second.max(1));
        let gained = now.saturating_duration_since(self.at).as_secs_f64() * a_second;
        self.left = (self.left + gained).min(a_second) - f64::from(count);
        self.at = now;
        Duration::from_secs_f64((-self.left).max(0.0) / a_second)
    }
}

#[cfg(test)]
mod tests {
    use super::*;

    #[test]
    fn what_comes_too_fast_waits() {
        let begin = Instant::now();
        let mut rate = Rate::new(4, begin);
        let rows = [(0, 0), (0, 0), (0, 0), (0, 0), (0, 250), (0, 500), (500, 250), (9000, 0), (9000, 0)];
        for (at, wanted) in rows {
            assert_eq!(rate.take(1, 4, begin + Duration::from_millis(at)), Duration::from_millis(wanted), "{at}");
        }
    }
}
