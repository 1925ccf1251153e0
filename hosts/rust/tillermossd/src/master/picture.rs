//! What the cell looks like from outside: its nodes, sessions, locks and rights, and who waits for what. It is made of the store's
//! rows before a master is started, and then follows what the master tells and what goes past the server.

use crate::etcd::found::Found;
use crate::etcd::rows::{KINDS, LIVES, STATES};
use crate::settings::Limits;
use anyhow::Result;
use host_wire::{Act, Deed, Locked, Printed, Put};
use rusqlite::Connection;
use std::collections::{BTreeMap, BTreeSet, HashMap};
use std::sync::Arc;
use std::time::{Duration, Instant};

/// A node, without its content.
#[derive(Clone, Debug, PartialEq, Eq)]
pub struct PictureNode {
    pub instance: u64,
    pub is_file: bool,
    pub is_ephemeral: bool,
    pub generation: u64,
    pub length: u64,
    /// Who wrote the content last, where that was since the server began.
    pub writer: Option<Arc<str>>,
}

/// A session that is live.
#[derive(Clone, Debug)]
pub struct PictureSession {
    pub principal: Arc<str>,
    /// Up to here the client was last given a lease; None where this server hasn't seen one.
    pub lease: Option<Instant>,
    /// The greatest number of the calls that went on to this master: what is greater it hasn't done.
    last_call: u64,
}

/// A lock that isn't free.
#[derive(Clone, Debug, Default, PartialEq, Eq)]
pub struct PictureLock {
    pub is_shared: bool,
    /// Each client as often as it holds it; none where the lock-delay of one that is gone runs.
    pub holders: Vec<u64>,
    pub generation: u64,
}

/// A call that came, and has no reply yet.
#[derive(Clone, Debug)]
pub struct WaitingCall {
    pub number: u64,
    pub act: Act,
    pub name: String,
    pub since: Instant,
    principal: Arc<str>,
    bytes: u64,
}

/// How many bytes there are, and of whom, where that is known.
#[derive(Clone, Debug, Default)]
struct Sums {
    all: u64,
    of_principals: HashMap<Arc<str>, u64>,
}

/// The cell as it was last told.
#[derive(Debug, Default)]
pub struct Picture {
    pub epoch: u64,
    pub is_up: bool,
    pub is_recovering: bool,
    pub is_refused: bool,
    /// When the master came up, and of which clients it was heard since.
    pub up_since: Option<Instant>,
    pub heard: BTreeSet<u64>,
    pub nodes: BTreeMap<String, PictureNode>,
    pub sessions: BTreeMap<u64, PictureSession>,
    pub locks: BTreeMap<u64, PictureLock>,
    pub waiting: BTreeMap<u64, WaitingCall>,
    names: HashMap<u64, String>,
    // (of each right its client and its name, which is kept once; and of each name its rights)
    rights: HashMap<u64, (u64, Arc<str>)>,
    caching: HashMap<Arc<str>, BTreeSet<u64>>,
    written: Sums,
    asked_for: Sums,
}

impl PictureSession {
    fn of(principal: &str) -> PictureSession {
        PictureSession { principal: principal.into(), lease: None, last_call: 0 }
    }
}

impl WaitingCall {
    /// For whom its client acts.
    #[must_use]
    pub fn principal(&self) -> &str {
        &self.principal
    }
}

impl Sums {
    fn add(&mut self, principal: Option<&Arc<str>>, bytes: u64) {
        self.all += bytes;
        if let Some(principal) = principal.filter(|_| bytes > 0) {
            *self.of_principals.entry(principal.clone()).or_default() += bytes;
        }
    }

    fn remove(&mut self, principal: Option<&Arc<str>>, bytes: u64) {
        self.all -= bytes.min(self.all);
        let Some(sum) = principal.and_then(|principal| self.of_principals.get_mut(principal)) else {
            return;
        };
        *sum -= bytes.min(*sum);
        if let Some(principal) = principal.filter(|_| *sum == 0) {
            self.of_principals.remove(principal);
        }
    }

    fn of(&self, principal: &str) -> u64 {
        self.of_principals.get(principal).copied().unwrap_or(0)
    }
}

impl Picture {
    /// That of the rows of a store.
    pub fn of(connection: &Connection) -> Result<Picture> {
        let mut picture = Picture::default();
        picture.read(connection)?;
        Ok(picture)
    }

    /// Takes over the rows of a store.
    pub fn read(&mut self, connection: &Connection) -> Result<()> {
        let mut nodes = connection.prepare("SELECT name, instance, kind, life, content_gen, length(content) FROM nodes")?;
        let mut rows = nodes.query([])?;
        while let Some(row) = rows.next()? {
            let (is_file, is_ephemeral) = (row.get::<_, u64>(2)? == 0, row.get::<_, u64>(3)? == 1);
            let node =
                PictureNode { instance: row.get(1)?, is_file, is_ephemeral, generation: row.get(4)?, length: row.get(5)?, writer: None };
            self.put(row.get(0)?, node);
        }
        let mut sessions = connection.prepare("SELECT client, principal FROM sessions WHERE live = 1")?;
        let mut rows = sessions.query([])?;
        while let Some(row) = rows.next()? {
            let principal: String = row.get(1)?;
            self.sessions.insert(row.get(0)?, PictureSession::of(&principal));
        }
        self.read_locks(connection)
    }

    /// That of rows in etcd.
    pub fn of_found(found: &Found) -> Picture {
        let mut picture = Picture::default();
        for (name, node) in &found.nodes {
            let (is_file, is_ephemeral) = (node.kind == KINDS[0], node.life == LIVES[1]);
            let (instance, generation, length) = (node.instance, node.content_generation, node.content.length());
            picture.put(name.clone(), PictureNode { instance, is_file, is_ephemeral, generation, length, writer: None });
        }
        for (client, session) in found.sessions.iter().filter(|(_, session)| session.live) {
            picture.sessions.insert(*client, PictureSession::of(&session.principal));
        }
        for ((instance, client, _), row) in &found.locks {
            let Some(name) = picture.names.get(instance) else { continue };
            let lock = picture.locks.entry(*instance).or_default();
            lock.is_shared = row.state == STATES[2];
            lock.generation = found.generations.get(name).copied().unwrap_or(0);
            if row.state != STATES[0] {
                lock.holders.push(*client);
            }
        }
        picture
    }

    fn read_locks(&mut self, connection: &Connection) -> Result<()> {
        let mut locks = connection.prepare("SELECT l.instance, client, mode, lock_gen FROM locks l JOIN nodes n USING (instance)")?;
        let mut rows = locks.query([])?;
        while let Some(row) = rows.next()? {
            let lock = self.locks.entry(row.get(0)?).or_default();
            let mode: u64 = row.get(2)?;
            lock.is_shared = mode == 2;
            lock.generation = row.get(3)?;
            if mode > 0 {
                lock.holders.push(row.get(1)?);
            }
        }
        Ok(())
    }

    /// Whether a master is up, has heard of all clients, and its store takes writes.
    #[must_use]
    pub fn is_ready(&self) -> bool {
        self.is_up && !self.is_recovering && !self.is_refused
    }

    /// Whether a client may act for this principal: it has no session, as far as is known, or one of that.
    #[must_use]
    pub fn is_of(&self, client: u64, principal: &str) -> bool {
        self.sessions.get(&client).is_none_or(|session| session.principal.is_empty() || *session.principal == *principal)
    }

    /// The clients of a principal that have sessions.
    #[must_use]
    pub fn sessions_of(&self, principal: &str) -> Vec<u64> {
        self.sessions.iter().filter(|(_, session)| *session.principal == *principal).map(|(client, _)| *client).collect()
    }

    /// The name of the node of an instance.
    #[must_use]
    pub fn name(&self, instance: u64) -> Option<&str> {
        self.names.get(&instance).map(String::as_str)
    }

    /// How many rights to cache a name are held.
    #[must_use]
    pub fn rights(&self) -> usize {
        self.rights.len()
    }

    /// How many bytes the contents have.
    #[must_use]
    pub fn bytes(&self) -> u64 {
        self.written.all
    }

    fn put(&mut self, name: String, node: PictureNode) {
        self.take(&name);
        self.written.add(node.writer.as_ref(), node.length);
        self.names.insert(node.instance, name.clone());
        self.nodes.insert(name, node);
    }

    fn take(&mut self, name: &str) {
        if let Some(old) = self.nodes.remove(name) {
            self.written.remove(old.writer.as_ref(), old.length);
            self.names.remove(&old.instance);
        }
    }

    /// Follows what the master printed; `principal` is that of the client whose message it answers.
    pub fn follow(&mut self, printed: Printed<'_>, principal: Option<&Arc<str>>) {
        match printed {
            Printed::Up(epoch) => self.begin(epoch),
            Printed::Recovered => self.is_recovering = false,
            Printed::Started(client) => {
                let principal = principal.cloned().unwrap_or_else(|| "".into());
                self.sessions.insert(client, PictureSession { principal, ..PictureSession::of("") });
            }
            Printed::Ended(client) => self.end(client),
            Printed::Put(client, node) => self.apply(client, node, principal),
            Printed::Gone(name) => self.forget(name),
            Printed::Granted(right, client, name) => self.grant(right, client, name),
            Printed::Acked(right) | Printed::Expired(right) => self.end_right(right),
            Printed::Locked(locked) => self.lock(locked),
            Printed::Freed(client, instance) => self.free(client, instance, false),
            Printed::Lapsed(client, instance) => self.free(client, instance, true),
            Printed::Reopened(instance) => _ = self.locks.remove(&instance),
            Printed::Refused(_) | Printed::Other => {}
        }
    }

    // Another master knows of no rights, and of no calls that wait; it waits for the sessions that it found.
    fn begin(&mut self, epoch: u64) {
        self.epoch = epoch;
        self.is_up = true;
        self.up_since = Some(Instant::now());
        self.heard.clear();
        self.is_recovering = !self.sessions.is_empty();
        self.rights.clear();
        self.caching.clear();
        self.waiting.clear();
        self.asked_for = Sums::default();
        self.sessions.values_mut().for_each(|session| session.last_call = 0);
    }

    fn end(&mut self, client: u64) {
        self.sessions.remove(&client);
        self.answer(client, None);
    }

    fn forget(&mut self, name: &str) {
        if let Some(node) = self.nodes.get(name) {
            self.locks.remove(&node.instance);
        }
        self.take(name);
    }

    fn apply(&mut self, client: u64, put: Put<'_>, principal: Option<&Arc<str>>) {
        let Put { name, instance, is_file, is_ephemeral, generation, length } = put;
        let old = self.nodes.get(name).filter(|old| (old.instance, old.generation) == (instance, generation));
        let caller = || self.sessions.get(&client).map(|session| session.principal.clone()).or(principal.cloned());
        let writer = old.map_or_else(caller, |old| old.writer.clone());
        self.put(name.to_owned(), PictureNode { instance, is_file, is_ephemeral, generation, length, writer });
    }

    fn grant(&mut self, right: u64, client: u64, name: &str) {
        let name = self.caching.get_key_value(name).map_or_else(|| name.into(), |(name, _)| name.clone());
        self.rights.insert(right, (client, name.clone()));
        self.caching.entry(name).or_default().insert(right);
    }

    fn end_right(&mut self, right: u64) {
        let Some((_, name)) = self.rights.remove(&right) else {
            return;
        };
        if let Some(caching) = self.caching.get_mut(&name) {
            caching.remove(&right);
            if caching.is_empty() {
                self.caching.remove(&name);
            }
        }
    }

    fn lock(&mut self, locked: Locked) {
        let lock = self.locks.entry(locked.instance).or_default();
        lock.is_shared = locked.is_shared;
        lock.generation = locked.generation;
        lock.holders.push(locked.client);
    }

    fn free(&mut self, client: u64, instance: u64, has_lapsed: bool) {
        let Some(lock) = self.locks.get_mut(&instance) else {
            return;
        };
        if let Some(at) = lock.holders.iter().position(|holder| *holder == client) {
            lock.holders.remove(at);
        }
        if lock.holders.is_empty() && !has_lapsed {
            self.locks.remove(&instance);
        }
    }

    /// A client was given a lease for so long, from now on.
    pub fn lease(&mut self, client: u64, span: Duration) {
        if let Some(session) = self.sessions.get_mut(&client) {
            session.lease = Instant::now().checked_add(span);
            if self.is_recovering {
                self.heard.insert(client);
            }
        }
    }

    /// Whether a call is for the master that is up, and of a client that has a session; else that master refuses it.
    #[must_use]
    pub fn is_present(&self, deed: &Deed) -> bool {
        self.epoch == deed.epoch && self.sessions.contains_key(&deed.client)
    }

    /// A call that may change or wait comes by: notes it, or says that its principal's limit stands against it. What it would add is
    /// counted until it ends. A call that the master may have done is let in whatever it adds: only the master knows what came of it.
    /// (All calls to a master come by here, so that one of a greater number than those that went on before is new to it.)
    pub fn admit(&mut self, deed: &Deed, principal: &Arc<str>, limits: &Limits) -> Result<(), String> {
        let again = self.waiting.get(&deed.client).filter(|waiting| waiting.number == deed.number);
        let since = again.map_or_else(Instant::now, |waiting| waiting.since);
        self.answer(deed.client, None);
        let (bytes, most) = (self.growth(deed), limits.bytes_of_a_principal);
        let is_new = self.is_present(deed) && self.sessions.get(&deed.client).is_some_and(|session| session.last_call < deed.number);
        if is_new && bytes > 0 && self.written.of(principal) + self.asked_for.of(principal) + bytes > most {
            return Err(format!("the limit bytes_of_a_principal = {most} leaves no room for {bytes} more"));
        }
        if let Some(session) = self.sessions.get_mut(&deed.client).filter(|_| is_new) {
            session.last_call = deed.number;
        }
        self.asked_for.add(Some(principal), bytes);
        let (name, principal) = (deed.name.to_owned(), principal.clone());
        let waiting = WaitingCall { number: deed.number, act: deed.act, name, since, principal, bytes };
        self.waiting.insert(deed.client, waiting);
        Ok(())
    }

    // The bytes that a call adds, where it is done.
    fn growth(&self, deed: &Deed) -> u64 {
        let old = self.nodes.get(deed.name);
        match deed.act {
            Act::Create(length) if old.is_none() => length,
            Act::Set(length) => length.saturating_sub(old.map_or(0, |old| old.length)),
            _ => 0,
        }
    }

    /// The call of this number has ended, or whichever the client has.
    pub fn answer(&mut self, client: u64, number: Option<u64>) {
        let is_it = |waiting: &WaitingCall| number.is_none_or(|number| number == waiting.number);
        if self.waiting.get(&client).is_some_and(is_it)
            && let Some(ended) = self.waiting.remove(&client)
        {
            self.asked_for.remove(Some(&ended.principal), ended.bytes);
        }
    }

    /// For which clients a call waits: those that hold the lock, or may have the node or its parent in their cache.
    #[must_use]
    pub fn waits_for(&self, client: u64, waiting: &WaitingCall) -> Vec<u64> {
        let holder = |right: &u64| self.rights.get(right).map(|(client, _)| *client);
        let of_caches = |name: &str| self.caching.get(name).into_iter().flatten().filter_map(holder).collect::<Vec<u64>>();
        let mut found = match waiting.act {
            Act::Acquire(instance) => self.locks.get(&instance).map_or_else(Vec::new, |lock| lock.holders.clone()),
            Act::Create(_) | Act::Delete => [of_caches(&waiting.name), of_caches(parent(&waiting.name))].concat(),
            Act::Set(_) | Act::SetAcl => of_caches(&waiting.name),
        };
        found.sort_unstable();
        found.dedup();
        found.retain(|holder| *holder != client || matches!(waiting.act, Act::Acquire(_)));
        found
    }

    /// The changes that wait, and since when the oldest does.
    #[must_use]
    pub fn changes(&self) -> (usize, Option<Instant>) {
        let changes = || self.waiting.values().filter(|waiting| !matches!(waiting.act, Act::Acquire(_)));
        (changes().count(), changes().map(|waiting| waiting.since).min())
    }
}

fn parent(name: &str) -> &str {
    name.rsplit_once('/').map_or("", |(parent, _)| parent)
}

#[cfg(test)]
mod tests {
    use super::*;

    fn deed(client: u64, name: &str, act: Act) -> Deed<'_> {
        Deed { client, epoch: 1, number: 5, name, act }
    }

    fn cell(lines: &[Printed]) -> Picture {
        let mut picture = Picture::default();
        for line in lines {
            picture.follow(*line, Some(&"ann".into()));
        }
        picture
    }

    const FILE: Put = Put { name: "/ls/c/f", instance: 4, is_file: true, is_ephemeral: false, generation: 1, length: 3 };

    const LINES: &[Printed] = &[
        Printed::Up(1),
        Printed::Started(1),
        Printed::Started(2),
        Printed::Put(1, FILE),
        Printed::Granted(1, 2, "/ls/c/f"),
        Printed::Locked(Locked { client: 1, instance: 4, is_shared: false, generation: 1 }),
    ];

    // (it is the same by their tables)
    #[test]
    fn rows_in_etcd_are_shown_as_those_of_a_store() {
        let found = crate::etcd::found::tests::found();
        let (picture, by_tables) = (Picture::of_found(&found), Picture::of(&found.tables().unwrap()).unwrap());
        assert_eq!((picture.nodes.len(), picture.bytes()), (2, 2));
        assert_eq!(picture.locks[&4], PictureLock { is_shared: false, holders: vec![1], generation: 7 });
        assert_eq!((&picture.nodes, &picture.locks), (&by_tables.nodes, &by_tables.locks));
        assert_eq!(picture.sessions_of("ann"), by_tables.sessions_of("ann"));
    }

    #[test]
    fn lines_are_followed() {
        let picture = cell(LINES);
        assert_eq!((picture.epoch, picture.sessions.len(), picture.rights(), picture.bytes()), (1, 2, 1, 3));
        assert_eq!(picture.nodes["/ls/c/f"].length, 3);
        assert_eq!(picture.locks[&4], PictureLock { is_shared: false, holders: vec![1], generation: 1 });
        let rows: &[(Printed, usize, usize, usize, usize)] = &[
            (Printed::Gone("/ls/c/f"), 0, 2, 1, 0),
            (Printed::Freed(1, 4), 1, 2, 1, 0),
            (Printed::Lapsed(1, 4), 1, 2, 1, 1),
            (Printed::Reopened(4), 1, 2, 1, 0),
            (Printed::Acked(1), 1, 2, 0, 1),
            (Printed::Expired(1), 1, 2, 0, 1),
            (Printed::Ended(2), 1, 1, 1, 1),
            (Printed::Up(2), 1, 2, 0, 1),
        ];
        for (line, nodes, sessions, rights, locks) in rows {
            let mut picture = cell(LINES);
            picture.follow(*line, None);
            let found = (picture.nodes.len(), picture.sessions.len(), picture.rights(), picture.locks.len());
            assert_eq!(found, (*nodes, *sessions, *rights, *locks), "{line:?}");
        }
    }

    #[test]
    fn a_call_waits_for_who_holds_what_it_wants() {
        let mut picture = cell(LINES);
        let rows = [(1, Act::Set(1), vec![2]), (2, Act::Set(1), vec![]), (1, Act::Delete, vec![2]), (2, Act::Acquire(4), vec![1])];
        for (client, act, wanted) in rows {
            picture.admit(&deed(client, "/ls/c/f", act), &"ann".into(), &Limits::default()).unwrap();
            assert_eq!(picture.waits_for(client, &picture.waiting[&client]), wanted, "{act:?}");
        }
        picture.answer(1, Some(4));
        assert!(picture.waiting.contains_key(&1));
        picture.answer(1, Some(5));
        assert!(!picture.waiting.contains_key(&1));
    }

    // Which limit refuses a call; the numbers of calls rise.
    fn refused(picture: &mut Picture, client: u64, number: u64, name: &str, act: Act, most: u64) -> Option<String> {
        let limits = Limits { bytes_of_a_principal: most, ..Limits::default() };
        let deed = Deed { number, ..deed(client, name, act) };
        let told = picture.admit(&deed, &"ann".into(), &limits).err();
        told.map(|text| text.split(' ').nth(2).unwrap().to_owned())
    }

    const REFUSED: Option<&str> = Some("bytes_of_a_principal");

    #[test]
    fn what_a_principal_writes_has_a_limit() {
        let rows = [
            ("/ls/c/f", Act::Set(8), None),
            ("/ls/c/f", Act::Set(9), REFUSED),
            ("/ls/c/g", Act::Create(5), None),
            ("/ls/c/g", Act::Create(6), REFUSED),
            ("/ls/c/f", Act::Create(99), None),
            ("/ls/c/f", Act::Delete, None),
        ];
        for (name, act, wanted) in rows {
            assert_eq!(refused(&mut cell(LINES), 1, 5, name, act, 8).as_deref(), wanted, "{act:?}");
        }
        // (the limits of the cell are its master's)
        let limits = Limits { nodes: 0, bytes: 0, locks: Some(0), ..Limits::default() };
        for act in [Act::Create(1), Act::Acquire(4)] {
            assert_eq!(cell(LINES).admit(&deed(1, "/ls/c/g", act), &"ann".into(), &limits), Ok(()), "{act:?}");
        }
    }

    #[test]
    fn what_is_asked_for_counts_until_it_ends() {
        let mut picture = cell(LINES);
        let mut ask = |client, number| refused(&mut picture, client, number, "/ls/c/g", Act::Create(5), 8);
        assert_eq!((ask(1, 1), ask(2, 1).as_deref()), (None, REFUSED));
        picture.answer(1, Some(1));
        assert_eq!(refused(&mut picture, 2, 1, "/ls/c/g", Act::Create(5), 8), None);
    }

    // A Set of five bytes is let in, and done; then another shrinks the file, and the room is filled.
    #[test]
    fn a_call_that_may_be_done_is_never_refused() {
        let written = |name, instance, generation, length| {
            Printed::Put(1, Put { name, instance, is_file: true, is_ephemeral: false, generation, length })
        };
        let filled = || {
            let mut picture = cell(LINES);
            assert_eq!(refused(&mut picture, 1, 7, "/ls/c/f", Act::Set(5), 8), None);
            for line in [written("/ls/c/f", 4, 2, 5), written("/ls/c/f", 4, 3, 0), written("/ls/c/g", 5, 1, 8)] {
                picture.follow(line, None);
            }
            picture
        };
        let rows = [
            (filled(), 1, 7, None, "the same again"),
            (filled(), 1, 6, None, "one before it, which came late"),
            (filled(), 1, 8, REFUSED, "the next one"),
            (filled(), 2, 1, REFUSED, "the first one of another client"),
            (filled(), 3, 1, None, "one without a session"),
        ];
        for (mut picture, client, number, wanted, what) in rows {
            assert_eq!(refused(&mut picture, client, number, "/ls/c/f", Act::Set(5), 8).as_deref(), wanted, "{what}");
        }
        // (what is refused goes to no master, however often it comes)
        let mut picture = filled();
        let twice = [(); 2].map(|()| refused(&mut picture, 1, 8, "/ls/c/f", Act::Set(5), 8));
        assert!(twice.iter().all(|told| told.as_deref() == REFUSED), "{twice:?}");
        // (another master has done none of its calls, and refuses one to the last)
        picture.follow(Printed::Up(2), None);
        assert_eq!(refused(&mut picture, 1, 7, "/ls/c/f", Act::Set(5), 8), None);
        let limits = Limits { bytes_of_a_principal: 8, ..Limits::default() };
        let of_it = Deed { epoch: 2, number: 7, ..deed(1, "/ls/c/f", Act::Set(5)) };
        assert!(picture.admit(&of_it, &"ann".into(), &limits).is_err());
    }
}
