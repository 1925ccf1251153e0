//! The connections that haven't greeted yet. They have a limit of their own: with one more, the oldest is cut off, so that who comes
//! and says nothing keeps nobody out.

use std::collections::BTreeMap;
use std::sync::{Arc, Mutex, PoisonError};
use tokio::sync::Notify;

/// Those that are there, in the order in which they came.
#[derive(Debug, Default)]
pub struct Lobby(Mutex<LobbyState>);

#[derive(Debug, Default)]
struct LobbyState {
    last: u64,
    waiting: BTreeMap<u64, Arc<Notify>>,
}

/// The place of one connection, which is left when this is dropped.
#[derive(Debug)]
pub struct Place<'a> {
    lobby: &'a Lobby,
    number: u64,
    cut: Arc<Notify>,
}

impl Lobby {
    /// One more comes; where there are more than so many the oldest is cut off.
    pub fn enter(&self, most: usize) -> Place<'_> {
        let mut state = self.0.lock().unwrap_or_else(PoisonError::into_inner);
        state.last += 1;
        let (number, cut) = (state.last, Arc::new(Notify::new()));
        state.waiting.insert(number, cut.clone());
        if state.waiting.len() > most.max(1)
            && let Some((_, oldest)) = state.waiting.pop_first()
        {
            oldest.notify_one();
        }
        Place { lobby: self, number, cut }
    }

    /// How many are there.
    pub fn count(&self) -> usize {
        self.0.lock().unwrap_or_else(PoisonError::into_inner).waiting.len()
    }
}

impl Place<'_> {
    /// Waits until it is cut off.
    pub async fn is_cut(&self) {
        self.cut.notified().await;
    }
}

impl Drop for Place<'_> {
    fn drop(&mut self) {
        self.lobby.0.lock().unwrap_or_else(PoisonError::into_inner).waiting.remove(&self.number);
    }
}

#[cfg(test)]
mod tests {
    use super::*;

    #[tokio::test]
    async fn the_oldest_gives_way() {
        let lobby = Lobby::default();
        let first = lobby.enter(2);
        let second = lobby.enter(2);
        assert_eq!(lobby.count(), 2);
        let third = lobby.enter(2);
        first.is_cut().await;
        assert_eq!(lobby.count(), 2);
        drop((first, second));
        assert_eq!(lobby.count(), 1);
        drop(third);
        assert_eq!(lobby.count(), 0);
    }
}
