//! All rows of a cell: as they stand in etcd, as they are told, and as they stand in a SQLite file.

use crate::etcd::gateway::{Lost, Members, Pair};
use crate::etcd::rows::{Content, KINDS, LIVES, LockRow, LockRowKey, Meta, NodeRow, STATES, SessionRow, chosen, place};
use crate::settings::MadeWith;
use anyhow::{Context, Result};
use rusqlite::{Connection, params};
use std::collections::{BTreeMap, HashMap};
use std::thread;
use std::time::Duration;

/// How many pairs are read at first, and so many at most, in a page of about so many bytes.
const FIRST_PAGE: usize = 64;
const LONGEST_PAGE: usize = 1024;
const BYTES: usize = 4 << 20;

/// How long before a page is asked for again.
const PAUSE: Duration = Duration::from_millis(100);

/// How much higher clients' numbers go on where nobody knows the last one.
const CLIENTS: u64 = 1 << 20;

/// The number in a new store's own row. One by which sessions have ended adds below which client number.
const VERSION: u64 = 3;

/// The tables of a store, as far as they are read here.
#[cfg(test)]
const TABLES: &str = "
    CREATE TABLE nodes (name, instance, kind, life, content_gen, acl_gen, lock_gen, acl_read, acl_write, acl_change, content);
    CREATE TABLE sessions (client, principal, live);
    CREATE TABLE locks (instance, client, handle, mode, delay);
    CREATE TABLE meta (id, version, cell, secret, epoch, next_instance);
    INSERT INTO meta VALUES (1, 3, '', '', 0, 0);";

/// What was found.
#[derive(Debug, Default, PartialEq, Eq)]
pub struct Found {
    /// At which revision it stood there; 0 of what stands elsewhere.
    pub revision: i64,
    /// The cell's own row, and the revision that changed it last.
    pub meta: Option<(Meta, i64)>,
    /// By name.
    pub nodes: BTreeMap<String, NodeRow>,
    /// Those of nodes' locks, where they aren't 0.
    pub generations: BTreeMap<String, u64>,
    /// By client number.
    pub sessions: BTreeMap<u64, SessionRow>,
    /// By key.
    pub locks: BTreeMap<LockRowKey, LockRow>,
    /// What a server keeps of clients' numbers.
    pub numbers: Option<String>,
}

/// What stands at a lock's row, after the prefix.
#[must_use]
pub fn lock_key(key: LockRowKey) -> String {
    format!("locks/{}/{}/{}", key.0, key.1, key.2)
}

fn key_of(text: &str) -> Option<LockRowKey> {
    let words: Option<Vec<u64>> = text.split('/').map(|word| word.parse().ok()).collect();
    match words?[..] {
        [instance, client, handle] => Some((instance, client, handle)),
        _ => None,
    }
}

// How many pairs the next page has, by the longest of the last one; at most twice as many, because longer ones may come.
fn next_page(pairs: &[Pair]) -> usize {
    let longest = pairs.iter().map(|pair| pair.key.len() + pair.value.len()).max().unwrap_or(0);
    (BYTES / longest.max(1)).clamp(FIRST_PAGE / 4, LONGEST_PAGE).min(2 * pairs.len())
}

impl Found {
    /// All that stands there now, page by page at one revision. If no member answers it is tried again for as long as the check
    /// holds.
    pub fn read(gateway: &Members, prefix: &str, check: impl Fn() -> Result<()>) -> Result<Found> {
        let mut found = Found::default();
        let (mut from, mut at, mut count) = (prefix.to_owned(), 0, FIRST_PAGE);
        loop {
            let (pairs, revision) = match gateway.page(prefix, &from, at, count) {
                Ok(page) => page,
                Err(Lost::Unknown(_)) => {
                    check()?;
                    thread::sleep(PAUSE);
                    continue;
                }
                // (what stood at that revision is forgotten meanwhile)
                Err(Lost::Refused(fault)) if fault.to_string().contains("compacted") => {
                    check()?;
                    (found, from, at) = (Found::default(), prefix.to_owned(), 0);
                    continue;
                }
                Err(refused) => return Err(refused.into()),
            };
            (at, found.revision) = (revision, revision);
            for pair in &pairs {
                found.take(pair, prefix).with_context(|| format!("{} isn't understood", pair.key))?;
            }
            match pairs.last() {
                Some(last) if pairs.len() == count => from = format!("{}\0", last.key),
                _ => return Ok(found),
            }
            count = next_page(&pairs);
        }
    }

    fn take(&mut self, pair: &Pair, prefix: &str) -> Result<()> {
        let key = pair.key.strip_prefix(prefix).context("it begins otherwise")?;
        let (kind, rest) = key.split_once('/').unwrap_or((key, ""));
        match kind {
            "meta" => self.meta = Some((serde_json::from_slice(&pair.value)?, pair.changed)),
            "nodes" => drop(self.nodes.insert(format!("/{rest}"), serde_json::from_slice(&pair.value)?)),
            "generations" => drop(self.generations.insert(format!("/{rest}"), std::str::from_utf8(&pair.value)?.parse()?)),
            "sessions" => drop(self.sessions.insert(rest.parse()?, serde_json::from_slice(&pair.value)?)),
            "locks" => drop(self.locks.insert(key_of(rest).context("not a lock's key")?, serde_json::from_slice(&pair.value)?)),
            "numbers" => self.numbers = Some(String::from_utf8(pair.value.clone())?),
            _ => {}
        }
        Ok(())
    }

    /// Follows what changed by a revision: each pair as it stands then, or that a key is gone. Whether all of it is understood.
    pub fn follow(&mut self, prefix: &str, revision: i64, changes: &[Result<Pair, String>]) -> bool {
        self.revision = revision;
        changes.iter().all(|change| match change {
            Ok(pair) => self.take(pair, prefix).is_ok(),
            Err(gone) => gone.strip_prefix(prefix).is_some_and(|key| self.forget(key)),
        })
    }

    fn forget(&mut self, key: &str) -> bool {
        let (kind, rest) = key.split_once('/').unwrap_or((key, ""));
        match kind {
            "meta" => self.meta = None,
            "nodes" => drop(self.nodes.remove(&format!("/{rest}"))),
            "generations" => drop(self.generations.remove(&format!("/{rest}"))),
            "sessions" => return rest.parse().is_ok_and(|client| self.sessions.remove(&client).is_some()),
            "locks" => return key_of(rest).is_some_and(|key| self.locks.remove(&key).is_some()),
            "numbers" => self.numbers = None,
            _ => {}
        }
        true
    }

    /// The revision that changed the cell's own row last.
    #[must_use]
    pub fn changed(&self) -> Option<i64> {
        self.meta.as_ref().map(|(_, changed)| *changed)
    }

    /// The epoch of the last master; 0 where no cell stands there.
    #[must_use]
    pub fn epoch(&self) -> u64 {
        self.meta.as_ref().map_or(0, |(meta, _)| meta.epoch)
    }

    /// A number that no client has, where nobody has noted the next one.
    #[must_use]
    pub fn first_client(&self) -> u64 {
        let ended_below = self.meta.as_ref().map_or(0, |(meta, _)| meta.ended_below);
        match self.sessions.keys().last().copied().unwrap_or(0).max(ended_below.saturating_sub(1)) {
            0 => 1,
            last => last + CLIENTS,
        }
    }

    /// What the settings of a cell may say of it. None where no cell stands there.
    pub fn own(&self) -> Result<Option<MadeWith>> {
        let Some((meta, _)) = self.meta.as_ref().filter(|(meta, _)| meta.epoch > 0) else {
            return Ok(None);
        };
        let base = self.nodes.get(&format!("/ls/{}/acl/base", meta.cell));
        let base = base.map(|base| Ok::<_, anyhow::Error>((base.content_generation, base.content.bytes()?))).transpose()?;
        Ok(Some(MadeWith { secret: meta.secret.clone(), base }))
    }

    /// Whether everybody knows the cell's secret.
    #[must_use]
    pub fn has_known_secret(&self) -> bool {
        self.meta.as_ref().is_some_and(|(meta, _)| meta.secret.bytes().all(|digit| digit == b'0'))
    }

    /// The pairs, each after the prefix, without the cell's own row.
    pub fn pairs(&self) -> Result<Vec<(String, Vec<u8>)>> {
        let mut pairs = Vec::new();
        for (name, node) in &self.nodes {
            pairs.push((format!("nodes{name}"), serde_json::to_vec(node)?));
        }
        for (name, generation) in &self.generations {
            pairs.push((format!("generations{name}"), generation.to_string().into_bytes()));
        }
        for (client, session) in &self.sessions {
            pairs.push((format!("sessions/{client}"), serde_json::to_vec(session)?));
        }
        for (key, lock) in &self.locks {
            pairs.push((lock_key(*key), serde_json::to_vec(lock)?));
        }
        Ok(pairs)
    }

    /// As they are told to a master: how many there are, and their bytes.
    pub fn rows(&self) -> Result<(usize, Vec<u8>)> {
        let mut rows = Vec::new();
        for (name, node) in &self.nodes {
            rows.extend(node.row(name, self.generations.get(name).copied().unwrap_or(0))?);
        }
        for (client, session) in &self.sessions {
            rows.extend(session.row(*client)?);
        }
        for (key, lock) in &self.locks {
            rows.extend(lock.row(*key)?);
        }
        Ok((self.nodes.len() + self.sessions.len() + self.locks.len(), rows))
    }

    /// The instance of each node.
    #[must_use]
    pub fn instances(&self) -> HashMap<String, u64> {
        self.nodes.iter().map(|(name, node)| (name.clone(), node.instance)).collect()
    }

    /// As tables in memory.
    #[cfg(test)]
    pub fn tables(&self) -> Result<Connection> {
        let connection = Connection::open_in_memory()?;
        connection.execute_batch(TABLES)?;
        self.fill(&connection)?;
        Ok(connection)
    }

    /// Puts them into the tables of a store, in the place of what stands there.
    pub fn fill(&self, connection: &Connection) -> Result<()> {
        connection.execute_batch("DELETE FROM locks; DELETE FROM sessions; DELETE FROM nodes;")?;
        if let Some((meta, _)) = &self.meta {
            let secret = hex::decode(&meta.secret)?;
            let set = "UPDATE meta SET version = ?, cell = ?, secret = ?, epoch = ?, next_instance = ? WHERE id = 1";
            connection.execute(set, params![VERSION + meta.ended_below, meta.cell, secret, meta.epoch, meta.next_instance])?;
        }
        let mut put = connection.prepare(
            "INSERT INTO nodes (name, instance, kind, life, content_gen, acl_gen, lock_gen, acl_read, acl_write, acl_change, content)
             VALUES (?, ?, ?, ?, ?, ?, ?, ?, ?, ?, ?)",
        )?;
        for (name, node) in &self.nodes {
            let (kind, life) = (place(&KINDS, &node.kind)?, place(&LIVES, &node.life)?);
            let generation = self.generations.get(name).copied().unwrap_or(0);
            let content = node.content.bytes()?;
            put.execute(params![
                name,
                node.instance,
                kind,
                life,
                node.content_generation,
                node.acl_generation,
                generation,
                node.read,
                node.write,
                node.change,
                content
            ])?;
        }
        for (client, session) in &self.sessions {
            connection.execute(
                "INSERT INTO sessions (client, principal, live) VALUES (?, ?, ?)",
                params![client, session.principal, session.live],
            )?;
        }
        for (key, lock) in &self.locks {
            let state = place(&STATES, &lock.state)?;
            let put = "INSERT INTO locks (instance, client, handle, mode, delay) VALUES (?, ?, ?, ?, ?)";
            connection.execute(put, params![key.0, key.1, key.2, state, lock.delay])?;
        }
        Ok(())
    }

    /// Those of the tables of a store.
    pub fn of_tables(connection: &Connection) -> Result<Found> {
        let mut found = Found::default();
        let read = |row: &rusqlite::Row| {
            let secret: Vec<u8> = row.get(1)?;
            let (cell, secret) = (row.get(0)?, hex::encode(secret));
            let ended_below = row.get::<_, u64>(4)?.saturating_sub(VERSION);
            Ok(Meta { cell, secret, epoch: row.get(2)?, next_instance: row.get(3)?, ended_below, number: 0, by: 0, keeper: 0, turn: 0 })
        };
        found.meta =
            Some((connection.query_row("SELECT cell, secret, epoch, next_instance, version FROM meta WHERE id = 1", [], read)?, 0));
        let mut nodes = connection.prepare(
            "SELECT name, kind, instance, content_gen, acl_gen, acl_read, acl_write, acl_change, life, content, lock_gen FROM nodes",
        )?;
        let mut rows = nodes.query([])?;
        while let Some(row) = rows.next()? {
            let name: String = row.get(0)?;
            let node = NodeRow {
                kind: chosen(&KINDS, row.get(1)?).context("not a kind")?,
                instance: row.get(2)?,
                content_generation: row.get(3)?,
                acl_generation: row.get(4)?,
                read: row.get(5)?,
                write: row.get(6)?,
                change: row.get(7)?,
                life: chosen(&LIVES, row.get(8)?).context("not a life")?,
                content: Content::of(&row.get::<_, Vec<u8>>(9)?),
            };
            let generation: u64 = row.get(10)?;
            if generation > 0 {
                found.generations.insert(name.clone(), generation);
            }
            found.nodes.insert(name, node);
        }
        found.read_others(connection)?;
        Ok(found)
    }

    fn read_others(&mut self, connection: &Connection) -> Result<()> {
        let mut sessions = connection.prepare("SELECT client, principal, live FROM sessions")?;
        let mut rows = sessions.query([])?;
        while let Some(row) = rows.next()? {
            self.sessions.insert(row.get(0)?, SessionRow { principal: row.get(1)?, live: row.get(2)? });
        }
        let mut locks = connection.prepare("SELECT instance, client, handle, mode, delay FROM locks")?;
        let mut rows = locks.query([])?;
        while let Some(row) = rows.next()? {
            let lock = LockRow { state: chosen(&STATES, row.get(3)?).context("not a lock")?, delay: row.get(4)? };
            self.locks.insert((row.get(0)?, row.get(1)?, row.get(2)?), lock);
        }
        Ok(())
    }
}

#[cfg(test)]
pub mod tests {
    use super::*;
    use crate::etcd::gateway::Operation;
    use crate::etcd::pretended::{PIECES, Pretended, SLOW, Way};
    use anyhow::bail;
    use std::cell::Cell;
    use std::time::Instant;

    #[test]
    fn pages_have_about_as_many_bytes() {
        let pairs = |count, length| vec![Pair { key: String::new(), value: vec![0; length], created: 1, changed: 1, lease: 0 }; count];
        let rows = [(64, 100, 128), (1024, 100, 1024), (64, 1 << 16, 64), (64, 1 << 18, 16), (16, 1 << 18, 16), (16, 100, 32)];
        for (count, length, wanted) in rows {
            assert_eq!(next_page(&pairs(count, length)), wanted, "{count} {length}");
        }
    }

    // Two nodes, of which one is locked, and a session.
    pub fn found() -> Found {
        let meta = Meta {
            cell: "c".to_owned(),
            secret: "00".repeat(32),
            epoch: 3,
            next_instance: 5,
            ended_below: 1,
            number: 0,
            by: 0,
            keeper: 0,
            turn: 0,
        };
        let node = |kind: &str, instance, content: &[u8]| NodeRow {
            kind: kind.to_owned(),
            instance,
            content_generation: 1,
            acl_generation: 2,
            read: "base".to_owned(),
            write: "base".to_owned(),
            change: "base".to_owned(),
            life: "permanent".to_owned(),
            content: Content::of(content),
        };
        let mut found = Found { meta: Some((meta, 0)), ..Found::default() };
        found.nodes.insert("/ls/c".to_owned(), node("dir", 1, b""));
        found.nodes.insert("/ls/c/f".to_owned(), node("file", 4, b"\0\xff"));
        found.generations.insert("/ls/c/f".to_owned(), 7);
        found.sessions.insert(1, SessionRow { principal: "ann".to_owned(), live: true });
        found.locks.insert((4, 1, 2), LockRow { state: "exclusive".to_owned(), delay: 10 });
        found
    }

    // An etcd that has the rows of `found`.
    fn etcd() -> Pretended {
        let etcd = Pretended::start();
        let found = found();
        let meta = ("meta".to_owned(), serde_json::to_vec(&found.meta.as_ref().unwrap().0).unwrap());
        let pairs = found.pairs().unwrap().into_iter().chain([meta]);
        let deeds: Vec<Operation> = pairs.map(|(key, value)| Operation::Put(format!("c/{key}"), value)).collect();
        etcd.gateway().change(&[], &deeds).unwrap();
        etcd
    }

    // Of a page only silence counts; another question has its time in all.
    #[test]
    fn a_page_is_waited_for_while_something_of_it_comes() {
        let etcd = etcd();
        let begun = Instant::now();
        etcd.go_ranges(&[Way::Slow]);
        let read = Found::read(&etcd.gateway(), "c/", || bail!("it was asked again")).unwrap();
        assert_eq!((read.nodes.len(), read.sessions.len(), read.locks.len()), (2, 1, 1));
        assert!(begun.elapsed() > SLOW * (PIECES as u32 - 1), "{:?}", begun.elapsed());
        let begun = Instant::now();
        etcd.go_ranges(&[Way::Slow]);
        assert!(matches!(etcd.gateway().get("c/meta"), Err(Lost::Unknown(_))));
        assert!(begun.elapsed() < SLOW * (PIECES as u32 - 1), "{:?}", begun.elapsed());
    }

    #[test]
    fn a_page_that_gets_lost_is_asked_for_again_while_one_is_master() {
        let etcd = etcd();
        for (lost, checks, is_read) in [(0, 0, true), (3, 3, true), (5, 3, false)] {
            etcd.go_ranges(&vec![Way::Lost; lost]);
            let asked = Cell::new(0);
            let read = Found::read(&etcd.gateway(), "c/", || {
                asked.set(asked.get() + 1);
                if asked.get() == 3 && lost == 5 { bail!("the mastership has ended") } else { Ok(()) }
            });
            assert_eq!((asked.get(), read.is_ok_and(|read| read.nodes.len() == 2)), (checks, is_read), "{lost}");
        }
    }

    #[test]
    fn tables_have_the_same_rows() {
        let wanted = found();
        assert_eq!(Found::of_tables(&wanted.tables().unwrap()).unwrap(), wanted);
    }

    #[test]
    fn pairs_have_the_same_rows() {
        let wanted = found();
        let mut read = Found { meta: wanted.meta.clone(), ..Found::default() };
        for (key, value) in wanted.pairs().unwrap() {
            read.take(&Pair { key: format!("c/{key}"), value, created: 1, changed: 1, lease: 0 }, "c/").unwrap();
        }
        assert_eq!(read, wanted);
    }
}
