//! The changes that the master has and hasn't answered. It takes 4,096 of them at once, and refuses what comes then: so each principal has
//! a share of that, and some room is left for who begins a session, ends one or lets go of something. A change beyond the share is kept
//! here until another one is answered. Its client's other messages go on: by these it lets go of what it caches.

use crate::master::lines::Message;
use crate::net::crowd::SMALL;
use std::collections::{HashMap, VecDeque};
use std::sync::{Arc, Mutex, MutexGuard, PoisonError};

/// How many changes of one principal the master has at once, and so many of all.
const SHARE: usize = 1024;
const ALL: usize = 3584;

/// Those that the master has, and those that are kept.
#[derive(Debug, Default)]
pub struct Changes(Mutex<ChangesState>);

#[derive(Debug, Default)]
struct ChangesState {
    count: usize,
    clients: HashMap<u64, Out>,
    principals: HashMap<Arc<str>, Share>,
    /// The principals of whose changes some are kept, in turn.
    turns: VecDeque<Arc<str>>,
}

/// A client one of whose changes the master has: one at most, because it refuses another call meanwhile. The number is that of the last one
/// that went out.
#[derive(Debug)]
struct Out {
    principal: Arc<str>,
    number: u64,
}

/// How many changes of a principal the master has, and those that are kept: of a client its last one.
#[derive(Debug, Default)]
struct Share {
    count: usize,
    kept: VecDeque<KeptChange>,
}

/// A change that is kept: its number, and over which binding of its client it came.
#[derive(Debug)]
struct KeptChange {
    message: Message,
    number: u64,
    binding: u64,
}

impl ChangesState {
    fn has_room(&self, principal: &Arc<str>) -> bool {
        self.count < ALL && self.principals.get(principal).is_none_or(|share| share.count < SHARE)
    }

    fn go(&mut self, message: Message, number: u64) -> Message {
        self.count += 1;
        self.principals.entry(message.principal.clone()).or_default().count += 1;
        self.clients.insert(message.client, Out { principal: message.principal.clone(), number });
        message
    }

    fn keep(&mut self, mut kept: KeptChange) {
        let message = &mut kept.message;
        if message.bytes.len() <= SMALL {
            // (the room that small messages of all principals share isn't held meanwhile, but the place among those of its connection)
            message.place.drain(..message.place.len().saturating_sub(1));
        }
        let share = self.principals.entry(message.principal.clone()).or_default();
        if share.kept.is_empty() {
            self.turns.push_back(message.principal.clone());
        }
        share.kept.retain(|other| other.message.client != message.client);
        share.kept.push_back(kept);
    }

    // The master has a client's change no more.
    fn come_back(&mut self, client: u64) {
        let Some(Out { principal, .. }) = self.clients.remove(&client) else {
            return;
        };
        self.count -= 1;
        if let Some(share) = self.principals.get_mut(&principal) {
            share.count -= 1;
        }
        self.tidy(&principal);
    }

    fn tidy(&mut self, principal: &Arc<str>) {
        if self.principals.get(principal).is_some_and(|share| share.count == 0 && share.kept.is_empty()) {
            self.principals.remove(principal);
        }
    }

    // Those that are kept and may go on: of each principal one in turn, as long as there is room.
    fn next(&mut self) -> Vec<Message> {
        let mut next = Vec::new();
        let mut without = 0;
        while without < self.turns.len() {
            let Some(principal) = self.turns.pop_front() else { break };
            let taken =
                if self.has_room(&principal) { self.principals.get_mut(&principal).and_then(|share| share.kept.pop_front()) } else { None };
            without = if taken.is_some() { 0 } else { without + 1 };
            next.extend(taken.map(|kept| self.go(kept.message, kept.number)));
            if self.principals.get(&principal).is_some_and(|share| !share.kept.is_empty()) {
                self.turns.push_back(principal);
            }
        }
        next
    }
}

impl Changes {
    fn state(&self) -> MutexGuard<'_, ChangesState> {
        self.0.lock().unwrap_or_else(PoisonError::into_inner)
    }

    /// A call of this number that changes something; it is given back where it may go to the master now, and kept else. Of a client the
    /// last one is kept: it makes one call after the other.
    pub fn take(&self, message: Message, number: u64, binding: u64) -> Option<Message> {
        let mut state = self.state();
        if let Some(out) = state.clients.get_mut(&message.client) {
            out.number = out.number.max(number);
            return Some(message);
        }
        if state.has_room(&message.principal) {
            return Some(state.go(message, number));
        }
        state.keep(KeptChange { message, number, binding });
        None
    }

    /// The master has answered a call, and so those of its client before that; those that may go to it now.
    pub fn answer(&self, client: u64, number: u64) -> Vec<Message> {
        let mut state = self.state();
        if state.clients.get(&client).is_none_or(|out| out.number > number) {
            return Vec::new();
        }
        state.come_back(client);
        state.next()
    }

    /// A client's session has ended: the master answers nothing of it any more. Those that may go to it now.
    pub fn end(&self, client: u64) -> Vec<Message> {
        let mut state = self.state();
        state.come_back(client);
        state.next()
    }

    /// A client's connection of this binding is gone, and what was kept of it is lost with it: the client sends that again.
    pub fn forget(&self, client: u64, principal: &Arc<str>, binding: u64) {
        let mut state = self.state();
        let Some(share) = state.principals.get_mut(principal).filter(|share| !share.kept.is_empty()) else {
            return;
        };
        share.kept.retain(|kept| (kept.message.client, kept.binding) != (client, binding));
        if share.kept.is_empty() {
            state.turns.retain(|other| other != principal);
            state.tidy(principal);
        }
    }

    /// Another master is up, and has none of them; those that may go to it now.
    pub fn begin_anew(&self) -> Vec<Message> {
        let mut state = self.state();
        let clients: Vec<u64> = state.clients.keys().copied().collect();
        clients.into_iter().for_each(|client| state.come_back(client));
        state.next()
    }
}

#[cfg(test)]
mod tests {
    use super::*;

    fn message(client: u64, principal: &str) -> Message {
        Message { client, principal: principal.into(), is_call: true, is_start: false, bytes: Vec::new(), place: Vec::new() }
    }

    // How many of so many changes of a principal, each of a client of its own from a number on, go on.
    fn going(changes: &Changes, principal: &str, clients: std::ops::Range<u64>) -> usize {
        clients.filter(|client| changes.take(message(*client, principal), 1, 1).is_some()).count()
    }

    fn clients(messages: &[Message]) -> Vec<u64> {
        messages.iter().map(|message| message.client).collect()
    }

    #[test]
    fn each_principal_has_its_share() {
        let changes = Changes::default();
        let rows = [("ann", 0, 1024), ("bob", 2000, 1024), ("carol", 4000, 1024), ("dave", 6000, 512), ("eve", 8000, 0)];
        for (principal, first, wanted) in rows {
            assert_eq!(going(&changes, principal, first..first + 1100), wanted, "{principal}");
        }
        // (each in turn, and none of who has a whole share)
        assert_eq!(clients(&changes.answer(6000, 1)), [6512]);
        assert_eq!(clients(&changes.answer(6001, 1)), [8000]);
        assert_eq!(clients(&changes.answer(0, 1)), [1024]);
    }

    #[test]
    fn a_change_that_is_kept_goes_on_once() {
        let changes = Changes::default();
        assert_eq!(going(&changes, "ann", 0..1024), 1024);
        // (one that comes again, and one that comes too early: the master answers the one and refuses the other)
        assert!(changes.take(message(7, "ann"), 1, 1).is_some() && changes.take(message(8, "ann"), 2, 1).is_some());
        assert!(changes.take(message(2000, "ann"), 1, 1).is_none());
        assert!(changes.take(message(2001, "ann"), 1, 1).is_none());
        assert!(changes.take(message(2000, "ann"), 2, 1).is_none());
        changes.forget(2001, &"ann".into(), 1);
        // (it was kept over a later connection)
        changes.forget(2000, &"ann".into(), 0);
        assert!(changes.answer(8, 1).is_empty() && changes.answer(5000, 1).is_empty());
        assert_eq!(clients(&changes.answer(7, 1)), [2000]);
        assert!(changes.answer(7, 1).is_empty() && changes.answer(2000, 1).is_empty());
        assert!(changes.take(message(2002, "ann"), 1, 1).is_none());
        assert_eq!(clients(&changes.answer(2000, 2)), [2002]);
    }

    #[test]
    fn what_a_master_has_ends_with_it_and_with_a_session() {
        let changes = Changes::default();
        assert_eq!(going(&changes, "ann", 0..1026), 1024);
        assert_eq!(clients(&changes.end(3)), [1024]);
        assert!(changes.end(3).is_empty());
        assert_eq!(clients(&changes.begin_anew()), [1025]);
        assert_eq!(going(&changes, "ann", 2000..4000), 1023);
        changes.forget(3999, &"ann".into(), 1);
        changes.begin_anew();
        let left = changes.state().principals.len();
        assert_eq!(left, 1, "those that were kept are there");
        (2000..4000).for_each(|client| drop(changes.end(client)));
        changes.end(1025);
        let state = changes.state();
        assert_eq!((state.count, state.principals.len(), state.clients.len()), (0, 0, 0));
    }
}
