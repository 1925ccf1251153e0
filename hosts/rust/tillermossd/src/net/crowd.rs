//! The connections that are bound: how many there are of each principal, how much these send, and the room that they have.

use crate::net::rates::Rate;
use crate::settings::Limits;
use host_wire::TurnedAway;
use std::collections::HashMap;
use std::sync::{Arc, Mutex, MutexGuard, PoisonError};
use std::time::{Duration, Instant};
use tokio::sync::{OwnedSemaphorePermit, Semaphore};

/// A block of more bytes has room of its own before it is read.
pub const SMALL: usize = 16 << 10;

/// How many bytes large blocks have in all, from before they are read until the master takes them; and those of one principal.
const ROOM: usize = 32 << 20;
const ROOM_OF_A_PRINCIPAL: usize = 8 << 20;

/// Room is counted in so many bytes.
pub const UNIT: usize = 1 << 10;

/// Those that are there.
#[derive(Debug)]
pub struct Crowd {
    state: Mutex<CrowdState>,
    room: Arc<Semaphore>,
}

#[derive(Debug, Default)]
struct CrowdState {
    count: usize,
    principals: HashMap<Arc<str>, PrincipalShare>,
}

/// Those of one principal, and how much they send.
#[derive(Debug)]
struct PrincipalShare {
    count: usize,
    rates: Rates,
    room: Arc<Semaphore>,
}

/// How many messages are taken, and how many bytes.
#[derive(Clone, Copy, Debug)]
pub struct Rates {
    messages: Rate,
    bytes: Rate,
}

/// How many a second these are.
#[derive(Clone, Copy, Debug)]
pub struct Pace {
    /// Messages.
    pub messages: u32,
    /// Bytes.
    pub bytes: u32,
}

/// The seat of one connection, which is left when this is dropped.
#[derive(Debug)]
pub struct CrowdSeat {
    crowd: Arc<Crowd>,
    /// For whom its client acts.
    pub principal: Arc<str>,
    room: Arc<Semaphore>,
}

impl Rates {
    /// Nothing was taken yet.
    #[must_use]
    pub fn new(pace: Pace, now: Instant) -> Rates {
        Rates { messages: Rate::new(pace.messages, now), bytes: Rate::new(pace.bytes, now) }
    }

    /// Takes a message of so many bytes; how long to wait before it is let in.
    pub fn take(&mut self, bytes: usize, pace: Pace, now: Instant) -> Duration {
        let bytes = u32::try_from(bytes).unwrap_or(u32::MAX);
        self.messages.take(1, pace.messages, now).max(self.bytes.take(bytes, pace.bytes, now))
    }
}

impl Limits {
    /// What a client may send.
    #[must_use]
    pub fn pace_of_a_client(&self) -> Pace {
        Pace { messages: self.rate_of_a_client, bytes: self.byte_rate_of_a_client }
    }

    /// What all clients of a principal may send.
    #[must_use]
    pub fn pace_of_a_principal(&self) -> Pace {
        Pace { messages: self.rate_of_a_principal, bytes: self.byte_rate_of_a_principal }
    }
}

impl Default for Crowd {
    fn default() -> Crowd {
        Crowd { state: Mutex::default(), room: Arc::new(Semaphore::new(ROOM / UNIT)) }
    }
}

impl Crowd {
    fn state(&self) -> MutexGuard<'_, CrowdState> {
        self.state.lock().unwrap_or_else(PoisonError::into_inner)
    }

    /// How many there are.
    pub fn count(&self) -> usize {
        self.state().count
    }

    /// One more comes, where the limits let it in.
    pub fn enter(self: &Arc<Crowd>, principal: &str, limits: &Limits) -> Result<CrowdSeat, TurnedAway> {
        let mut state = self.state();
        if state.count >= limits.connections {
            return Err(TurnedAway::Full);
        }
        let key = state.principals.get_key_value(principal).map_or_else(|| principal.into(), |(key, _)| key.clone());
        let new = || PrincipalShare {
            count: 0,
            rates: Rates::new(limits.pace_of_a_principal(), Instant::now()),
            room: Arc::new(Semaphore::new(ROOM_OF_A_PRINCIPAL / UNIT)),
        };
        let share = state.principals.entry(key.clone()).or_insert_with(new);
        if share.count >= limits.connections_of_a_principal {
            return Err(TurnedAway::FullForPrincipal);
        }
        share.count += 1;
        let room = share.room.clone();
        state.count += 1;
        Ok(CrowdSeat { crowd: self.clone(), principal: key, room })
    }
}

impl CrowdSeat {
    /// Takes a message of so many bytes from what the principal's clients may send; how long to wait before it is let in.
    pub fn take(&self, bytes: usize, limits: &Limits) -> Duration {
        let mut state = self.crowd.state();
        let share = state.principals.get_mut(&self.principal);
        share.map_or(Duration::ZERO, |share| share.rates.take(bytes, limits.pace_of_a_principal(), Instant::now()))
    }

    /// Waits for the room of a large block: first among those of its principal, so that these wait for each other.
    pub async fn room(&self, bytes: usize) -> Vec<OwnedSemaphorePermit> {
        if bytes <= SMALL {
            return Vec::new();
        }
        let units = (bytes / UNIT + 1) as u32;
        let mut room = Vec::new();
        for part in [&self.room, &self.crowd.room] {
            // (no room is ever closed)
            room.extend(part.clone().acquire_many_owned(units).await);
        }
        room
    }
}

impl Drop for CrowdSeat {
    fn drop(&mut self) {
        let mut state = self.crowd.state();
        state.count -= 1;
        if let Some(share) = state.principals.get_mut(&self.principal) {
            share.count -= 1;
            if share.count == 0 {
                state.principals.remove(&self.principal);
            }
        }
    }
}

#[cfg(test)]
mod tests {
    use super::*;
    use tokio::time::timeout;

    // Of how many parts the room is that a block of so many bytes gets at once.
    async fn parts(seat: &CrowdSeat, bytes: usize) -> Option<usize> {
        timeout(Duration::from_millis(20), seat.room(bytes)).await.ok().map(|room| room.len())
    }

    #[tokio::test]
    async fn a_principal_has_its_own_room_and_no_more() {
        let crowd = Arc::new(Crowd::default());
        let enter = |principal| crowd.enter(principal, &Limits::default()).unwrap();
        let (ann, other_ann, bob) = (enter("ann"), enter("ann"), enter("bob"));
        let large = 1 << 20;
        let mut held = Vec::new();
        // (each takes a unit more than its bytes)
        for _ in 0..7 {
            held.push(ann.room(large).await);
        }
        assert_eq!(parts(&other_ann, large).await, None);
        assert_eq!(parts(&bob, large).await, Some(2));
        assert!(other_ann.room(SMALL).await.is_empty());
        held.pop();
        assert_eq!(parts(&other_ann, large).await, Some(2));
        drop((ann, other_ann));
        assert_eq!((crowd.count(), crowd.state().principals.len()), (1, 1));
    }

    #[test]
    fn limits_turn_away() {
        let crowd = Arc::new(Crowd::default());
        let limits = Limits { connections: 3, connections_of_a_principal: 2, ..Limits::default() };
        let ann = [(); 2].map(|()| crowd.enter("ann", &limits).unwrap());
        assert_eq!(crowd.enter("ann", &limits).unwrap_err(), TurnedAway::FullForPrincipal);
        let bob = crowd.enter("bob", &limits).unwrap();
        assert_eq!(crowd.enter("carol", &limits).unwrap_err(), TurnedAway::Full);
        drop((ann, bob));
        assert_eq!(crowd.count(), 0);
    }

    #[test]
    fn bytes_that_come_too_fast_wait() {
        let (begin, pace) = (Instant::now(), Pace { messages: 100, bytes: 1000 });
        let mut rates = Rates::new(pace, begin);
        for (bytes, wanted) in [(600, 0), (400, 0), (500, 500), (1, 501)] {
            assert_eq!(rates.take(bytes, pace, begin), Duration::from_millis(wanted), "{bytes}");
        }
    }
}
