//! What is shown to operators, as it stands.

use crate::admin::metrics::Levels;
use crate::admin::processes::Used;
use crate::master::picture::{Picture, PictureSession, WaitingCall};
use crate::master::store::beside;
use crate::net::connections::Hall;
use host_wire::{Act, LockShown, NodeShown, RecoveryShown, SessionShown, Shown, Status, WaitShown};
use nix::sys::resource::{Resource, getrlimit};
use std::cmp::Reverse;
use std::collections::{BTreeMap, BTreeSet};
use std::fs;
use std::path::{Path, PathBuf};
use std::sync::Arc;
use std::time::{Duration, Instant};

/// How many nodes are shown at most, and so many of all else: who looks for another one asks for it.
const NODES: usize = 1000;
const MOST: usize = 200;

/// A call may wait for many: so many of them are shown, and of so many of these the sessions.
const FOR: usize = 100;
const NAMED: usize = 10;

/// How long a call has to have waited before it is shown: most are answered at once.
const AWHILE: u128 = 20;

/// How many clients that a recovery waits for are shown at most.
const AWAITED: usize = 100;

/// How long a recovery lasts at most.
const RECOVERY: Duration = Duration::from_millis(60_002);

/// What is known of the server from its start on.
#[derive(Debug)]
pub struct Showing {
    /// What all connections share.
    pub hall: Arc<Hall>,
    /// Where it listens.
    pub listening: Vec<String>,
    /// What an operator is to know.
    pub warnings: Vec<String>,
    /// Since when it serves.
    pub begun: Instant,
    /// The store, where it is a file.
    pub store: Option<PathBuf>,
}

impl Showing {
    /// How the server stands.
    #[must_use]
    pub fn status(&self) -> Status {
        let picture = self.hall.picture();
        Status {
            version: env!("CARGO_PKG_VERSION").to_owned(),
            seconds: self.begun.elapsed().as_secs(),
            listening: self.listening.clone(),
            warnings: self.warnings.clone(),
            is_ready: picture.is_ready(),
            epoch: picture.epoch,
            nodes: picture.nodes.len(),
            bytes: picture.bytes(),
            sessions: picture.sessions.len(),
            locks: picture.locks.len(),
            rights: picture.rights(),
            changes_waiting: picture.changes().0,
            connections: self.hall.crowd.count(),
            recovery: recovery(&picture),
        }
    }

    /// The levels of what is counted.
    #[must_use]
    pub fn levels(&self) -> Levels {
        let picture = self.hall.picture();
        let (changes, oldest) = picture.changes();
        Levels {
            greeting: self.hall.lobby.count(),
            bound: self.hall.crowd.count(),
            most: self.hall.limits().connections,
            descriptors: getrlimit(Resource::RLIMIT_NOFILE).map_or(0, |(_, most)| most),
            nodes: picture.nodes.len(),
            bytes: picture.bytes(),
            sessions: picture.sessions.len(),
            rights: picture.rights(),
            locks: picture.locks.len(),
            changes,
            oldest: oldest.map(|since| since.elapsed()).unwrap_or_default(),
            epoch: picture.epoch,
            is_ready: picture.is_ready(),
            is_recovering: picture.is_up && picture.is_recovering,
            store_bytes: self.store.as_deref().map(bytes_of),
            own: Used::of("self"),
            master: Used::of_master(),
        }
    }

    /// The sessions that are live, of a client or principal in which this text stands; before them those of the clients that are named.
    #[must_use]
    pub fn sessions(&self, most: usize, find: &str, named: &BTreeSet<u64>) -> Vec<SessionShown> {
        let picture = self.hall.picture();
        let first = named.iter().filter_map(|client| picture.sessions.get_key_value(client));
        let is_found = |client: u64, session: &PictureSession| has(&session.principal, find) || has_number(client, find);
        let others = picture.sessions.iter().filter(|(client, session)| !named.contains(client) && is_found(**client, session));
        let shown = first.chain(others).take(most).map(|(client, session)| SessionShown {
            client: *client,
            principal: session.principal.to_string(),
            is_connected: self.hall.routes.principal(*client).is_some(),
            lease_left: session.lease.map(|end| end.saturating_duration_since(Instant::now()).as_millis() as u64),
        });
        shown.collect()
    }

    /// The locks that aren't free.
    #[must_use]
    pub fn locks(&self) -> Vec<LockShown> {
        let picture = self.hall.picture();
        let waiters = waiters(&picture);
        let shown = picture.locks.iter().map(|(instance, lock)| LockShown {
            name: picture.name(*instance).unwrap_or_default().to_owned(),
            is_shared: lock.is_shared,
            holders: lock.holders.clone(),
            waiters: waiters.get(instance).cloned().unwrap_or_default(),
            generation: lock.generation,
        });
        shown.collect()
    }

    fn nodes(&self, find: &str) -> Vec<NodeShown> {
        let picture = self.hall.picture();
        let shown = picture.nodes.iter().filter(|(name, _)| has(name, find)).take(NODES).map(|(name, node)| NodeShown {
            name: name.clone(),
            is_file: node.is_file,
            is_ephemeral: node.is_ephemeral,
            length: node.length,
            generation: node.generation,
        });
        shown.collect()
    }

    // What has waited longest stands first.
    fn waits(&self, find: &str) -> Vec<WaitShown> {
        let picture = self.hall.picture();
        let is_shown = |client: u64, waiting: &WaitingCall| {
            let is_found = has(&waiting.name, find) || has(waiting.principal(), find) || has_number(client, find);
            is_found && waiting.since.elapsed().as_millis() >= AWHILE
        };
        let mut slow: Vec<(&u64, &WaitingCall)> = picture.waiting.iter().filter(|(client, waiting)| is_shown(**client, waiting)).collect();
        slow.sort_by_key(|(_, waiting)| waiting.since);
        slow.into_iter().take(MOST).map(|(client, waiting)| wait(&picture, *client, waiting)).collect()
    }

    /// All of it in which this text stands, in so much as a page holds. Locks that are waited for stand first.
    #[must_use]
    pub fn all(&self, find: &str) -> Shown {
        let (status, mut locks) = (self.status(), self.locks());
        let names_one = |clients: &[u64]| clients.iter().any(|client| has_number(*client, find));
        locks.retain(|lock| has(&lock.name, find) || names_one(&lock.holders) || names_one(&lock.waiters));
        locks.sort_by_key(|lock| Reverse(lock.waiters.len()));
        locks.truncate(MOST);
        let waits = self.waits(find);
        let named = waits.iter().flat_map(|wait| wait.waits_for.iter().take(NAMED)).copied().collect();
        Shown { mark: 0, status, nodes: self.nodes(find), sessions: self.sessions(MOST, find, &named), locks, waits }
    }
}

// (each text has none)
fn has(text: &str, find: &str) -> bool {
    text.contains(find)
}

fn has_number(client: u64, find: &str) -> bool {
    find.is_empty() || client.to_string().contains(find)
}

fn wait(picture: &Picture, client: u64, waiting: &WaitingCall) -> WaitShown {
    let mut waits_for = picture.waits_for(client, waiting);
    let count = waits_for.len();
    waits_for.truncate(FOR);
    WaitShown {
        client,
        principal: waiting.principal().to_owned(),
        act: waiting.act.name().to_owned(),
        name: waiting.name.clone(),
        waited: waiting.since.elapsed().as_millis() as u64,
        waits_for,
        count,
    }
}

// Whom the master waits for that came up, and for how long at most.
fn recovery(picture: &Picture) -> Option<RecoveryShown> {
    let since = picture.up_since.filter(|_| picture.is_up && picture.is_recovering)?;
    let awaited = || picture.sessions.iter().filter(|(client, _)| !picture.heard.contains(client));
    let shown = awaited().take(AWAITED).map(|(client, session)| SessionShown {
        client: *client,
        principal: session.principal.to_string(),
        is_connected: false,
        lease_left: None,
    });
    let left = RECOVERY.saturating_sub(since.elapsed()).as_millis() as u64;
    Some(RecoveryShown { waits_for: shown.collect(), count: awaited().count(), left })
}

// (a file that isn't there has none)
fn bytes_of(store: &Path) -> u64 {
    let length = |path: &Path| fs::metadata(path).map_or(0, |file| file.len());
    length(store) + length(&beside(store, "wal"))
}

// Who waits for the lock of which instance.
fn waiters(picture: &Picture) -> BTreeMap<u64, Vec<u64>> {
    let mut found: BTreeMap<u64, Vec<u64>> = BTreeMap::new();
    for (client, waiting) in &picture.waiting {
        if let Act::Acquire(instance) = waiting.act {
            found.entry(instance).or_default().push(*client);
        }
    }
    found
}
