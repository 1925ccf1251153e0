//! How often a client may begin a session that has begun.

use std::collections::HashMap;

/// How often a master tells a client that its session has begun; a client whose answers get lost asks again.
const MOST: u8 = 8;

/// How often a master told each client that its session has begun. A master answers a Start of a session that lives by prolonging it,
/// whatever the client has acknowledged: one that only sent Starts would live for good, and hold up whoever waits for it.
#[derive(Debug, Default)]
pub struct Starts(HashMap<u64, u8>);

impl Starts {
    /// The master told this client that its session has begun.
    pub fn tell(&mut self, client: u64) {
        let times = self.0.entry(client).or_default();
        *times = times.saturating_add(1);
    }

    /// Its session has ended.
    pub fn forget(&mut self, client: u64) {
        self.0.remove(&client);
    }

    /// Whether it was told so too often for one that was told once more.
    pub fn is_worn_out(&self, client: u64) -> bool {
        self.0.get(&client).is_some_and(|times| *times >= MOST)
    }
}

#[cfg(test)]
mod tests {
    use super::*;

    #[test]
    fn a_session_begins_eight_times_at_most() {
        let mut starts = Starts::default();
        for told in 1..=u8::MAX {
            starts.tell(7);
            assert_eq!(starts.is_worn_out(7), told >= 8, "{told}");
        }
        starts.tell(7);
        assert!(starts.is_worn_out(7) && !starts.is_worn_out(8));
        starts.forget(7);
        assert!(!starts.is_worn_out(7));
    }
}
