//! When the master is to be given a tick.

use std::time::Duration;

/// Between two ticks there are so many milliseconds at least.
const LEAST: u64 = 5;

/// How many milliseconds after a frame in which the store refused the next tick is due: each time in a row twice as many, from the
/// first on until the last. A disk that is full has room a little later; meanwhile it is ticks that answer Beats, which are due three
/// seconds before a lease ends: what a tick waits for is taken off these.
const REFUSED: (u64, u64) = (100, 500);

/// What is known of the last frame and of its answer. Each frame makes its master do what there is to do, so a tick is due only
/// where none waits for its answer.
#[derive(Clone, Copy, Debug)]
pub struct Pulse {
    last: u64,
    next: Option<u64>,
    pause: u64,
}

impl Pulse {
    /// After the first frame's answer, whose moment this was, and whose mark told this deadline, if any.
    pub fn new(moment: u64, next: Option<u64>) -> Pulse {
        Pulse { last: moment, next, pause: REFUSED.0 }
    }

    /// A frame of this moment is sent.
    pub fn send(&mut self, moment: u64) {
        self.last = moment;
    }

    /// A frame was answered; whether the store refused in it. Then there is something to do at once, and it is tried a little later.
    pub fn answer(&mut self, next: Option<u64>, is_refused: bool) {
        (self.next, self.pause) =
            if is_refused { (Some(self.last.saturating_add(self.pause)), (2 * self.pause).min(REFUSED.1)) } else { (next, REFUSED.0) };
    }

    /// How long from this moment on there is no tick, where no frame waits for its answer; None before something else happens.
    pub fn rest(&self, now: u64) -> Option<Duration> {
        let due = self.next?.max(self.last.saturating_add(LEAST));
        Some(Duration::from_millis(due.saturating_sub(now)))
    }
}

#[cfg(test)]
mod tests {
    use super::*;

    #[test]
    fn a_tick_is_due_at_the_next_deadline() {
        let rows = [
            (None, 1000, None),
            (Some(1500), 1000, Some(500)),
            (Some(1500), 1500, Some(0)),
            (Some(1500), 9999, Some(0)),
            (Some(900), 1000, Some(5)),
        ];
        for (next, now, wanted) in rows {
            let pulse = Pulse::new(1000, next);
            assert_eq!(pulse.rest(now), wanted.map(Duration::from_millis), "{next:?} {now}");
        }
    }

    #[test]
    fn the_last_answer_says_the_next_deadline() {
        let mut pulse = Pulse::new(0, Some(10));
        pulse.send(24);
        pulse.answer(Some(30), false);
        assert_eq!(pulse.rest(25), Some(Duration::from_millis(5)));
        pulse.answer(None, false);
        assert_eq!(pulse.rest(25), None);
    }

    #[test]
    fn what_the_store_refused_is_tried_at_growing_times() {
        let mut pulse = Pulse::new(1000, Some(1000));
        for wanted in [100, 200, 400, 500, 500] {
            pulse.answer(Some(1000), true);
            assert_eq!(pulse.rest(1000), Some(Duration::from_millis(wanted)));
        }
        pulse.answer(None, false);
        pulse.answer(Some(1000), true);
        assert_eq!(pulse.rest(1000), Some(Duration::from_millis(100)));
    }
}
