//! Who is next: the messages that wait for the master. Those that keep sessions and those that ask for something wait in two lines, which
//! have their turns; in each line each principal has its turn, and of one principal each client.

use std::collections::{HashMap, VecDeque};
use std::sync::{Arc, Mutex, PoisonError};
use tokio::sync::{Notify, OwnedSemaphorePermit};

/// A message for the master.
#[derive(Debug)]
pub struct Message {
    /// Whose it is.
    pub client: u64,
    /// For whom that acts.
    pub principal: Arc<str>,
    /// Whether it asks for something: a call. Else it keeps a session: a Start or a Beat.
    pub is_call: bool,
    /// Whether it is a Start.
    pub is_start: bool,
    /// Its bytes, as they came.
    pub bytes: Vec<u8>,
    /// Its place among those of its connection, and its room among those of all, which are free again when it is taken.
    pub place: Vec<OwnedSemaphorePermit>,
}

/// Those that wait in turn, each by a key, and what each waits with.
#[derive(Debug)]
struct Turns<K, V> {
    turns: VecDeque<K>,
    waiting: HashMap<K, V>,
}

impl<K, V> Default for Turns<K, V> {
    fn default() -> Turns<K, V> {
        Turns { turns: VecDeque::new(), waiting: HashMap::new() }
    }
}

impl<K: Clone + Eq + std::hash::Hash, V: Default> Turns<K, V> {
    // What this one waits with; it is the last in turn where it didn't wait.
    fn of(&mut self, key: K) -> &mut V {
        if !self.waiting.contains_key(&key) {
            self.turns.push_back(key.clone());
        }
        self.waiting.entry(key).or_default()
    }

    // Takes from who is next, who then is the last in turn, or waits no more where nothing is left.
    fn take<T>(&mut self, take: impl FnOnce(&mut V) -> (Option<T>, bool)) -> Option<T> {
        let key = self.turns.pop_front()?;
        let (taken, is_left) = self.waiting.get_mut(&key).map_or((None, false), take);
        if is_left {
            self.turns.push_back(key);
        } else {
            self.waiting.remove(&key);
        }
        taken
    }
}

type Clients = Turns<u64, VecDeque<Message>>;
type WaitingLine = Turns<Arc<str>, Clients>;

/// The messages that wait.
#[derive(Debug, Default)]
pub struct Lines {
    state: Mutex<LinesState>,
    filled: Notify,
}

#[derive(Debug, Default)]
struct LinesState {
    keeping: WaitingLine,
    asking: WaitingLine,
    // (whether the line of calls is next)
    is_call_next: bool,
}

impl LinesState {
    fn is_empty(&self) -> bool {
        self.keeping.turns.is_empty() && self.asking.turns.is_empty()
    }
}

// Puts a message after those of its client. A Beat takes the place of one that waits: that tells of less, and its answer would give no
// lease, because a later one is out. A call that waits isn't done twice.
fn put(waiting: &mut VecDeque<Message>, message: Message) {
    let same = waiting.iter_mut().find(|other| !message.is_call || other.bytes == message.bytes);
    match same {
        Some(other) => *other = message,
        None => waiting.push_back(message),
    }
}

fn next(line: &mut WaitingLine) -> Option<Message> {
    line.take(|clients| {
        let taken = clients.take(|messages| (messages.pop_front(), !messages.is_empty()));
        (taken, !clients.turns.is_empty())
    })
}

impl Lines {
    /// One more waits.
    pub fn push(&self, message: Message) {
        let mut state = self.state.lock().unwrap_or_else(PoisonError::into_inner);
        let line = if message.is_call { &mut state.asking } else { &mut state.keeping };
        put(line.of(message.principal.clone()).of(message.client), message);
        self.filled.notify_one();
    }

    /// The next one.
    pub fn take(&self) -> Option<Message> {
        let mut state = self.state.lock().unwrap_or_else(PoisonError::into_inner);
        let LinesState { keeping, asking, is_call_next } = &mut *state;
        let (first, second) = if *is_call_next { (asking, keeping) } else { (keeping, asking) };
        let taken = next(first).or_else(|| next(second))?;
        *is_call_next = !taken.is_call;
        Some(taken)
    }

    /// Whether one waits.
    pub fn has_some(&self) -> bool {
        !self.state.lock().unwrap_or_else(PoisonError::into_inner).is_empty()
    }

    /// Waits until one more waits.
    pub async fn filled(&self) {
        self.filled.notified().await;
    }
}

#[cfg(test)]
mod tests {
    use super::*;

    // Words of a principal, a client and what is said, which begins with b where it keeps a session.
    fn pushed(sent: &[&str]) -> Lines {
        let lines = Lines::default();
        for word in sent {
            let (client, is_call) = (u64::from(word.as_bytes()[1] - b'0'), !word[2..].starts_with('b'));
            lines.push(Message { client, principal: word[..1].into(), is_call, is_start: false, bytes: (*word).into(), place: Vec::new() });
        }
        lines
    }

    #[test]
    fn each_has_its_turn() {
        let rows: &[(&[&str], &[&str])] = &[
            (&["a1x", "a1y", "a1z", "a2x", "b3x", "b3y", "c4x"], &["a1x", "b3x", "c4x", "a2x", "b3y", "a1y", "a1z"]),
            // (however many calls wait, a session is kept, and the other way round)
            (&["a1x", "a2x", "a3x", "a4b", "b5b"], &["a4b", "a1x", "b5b", "a2x", "a3x"]),
            (&["a1b", "a2b", "a3b", "a4x", "a5x"], &["a1b", "a4x", "a2b", "a5x", "a3b"]),
            // (a later Beat has the turn of the one before, and a call is asked for once)
            (&["a1b1", "a2b1", "a1b2", "a1x", "a1x", "a1y"], &["a1b2", "a1x", "a2b1", "a1y"]),
        ];
        for (sent, wanted) in rows {
            let lines = pushed(sent);
            let mut taken = Vec::new();
            while let Some(message) = lines.take() {
                taken.push(String::from_utf8(message.bytes).unwrap());
            }
            assert_eq!(taken, *wanted);
            assert!(!lines.has_some() && lines.state.lock().unwrap().is_empty());
        }
    }
}
