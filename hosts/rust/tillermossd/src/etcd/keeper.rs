//! Who keeps the rows of a master in etcd: all of a commit or nothing, and nothing once another server is master.

use crate::etcd::decisions::{Outcome, Turn, outcome};
use crate::etcd::found::{Found, lock_key};
use crate::etcd::gateway::{Compare, Lost, Members, Operation};
use crate::etcd::mastership::Mastership;
use crate::etcd::rows::{LockRow, Meta, NodeRow, RowsAnswer, SessionRow};
use anyhow::{Context, Result, bail};
use host_wire::rows::{Edit, Question};
use rand::Rng;
use std::collections::{BTreeMap, BTreeSet, HashMap};
use std::sync::Arc;
use std::sync::atomic::{AtomicBool, Ordering};
use std::thread;
use std::time::Duration;
use tracing::error;

/// How long before etcd is asked again.
const PAUSE: Duration = Duration::from_millis(100);

/// What stands in etcd, as far as commits have to know it.
#[derive(Debug)]
struct KnownRows {
    meta: Meta,
    /// The revision that changed it last.
    changed: i64,
    /// The instance of each node, by its name.
    instances: HashMap<String, u64>,
}

/// Keeps the rows for one master.
#[derive(Debug)]
pub struct RowsKeeper {
    gateway: Members,
    prefix: String,
    /// The key of the cell's own row, which each of its transactions compares and swaps.
    key: String,
    mastership: Arc<Mastership>,
    /// Its own number, and the turn of its last transaction.
    own: Turn,
    known: KnownRows,
    /// What the rows are, where they were found before it wrote.
    found: Option<Arc<Found>>,
    is_loaded: bool,
    is_ended: Arc<AtomicBool>,
}

/// What a commit puts and takes away.
#[derive(Debug)]
struct Change {
    meta: Meta,
    pairs: BTreeMap<String, Option<Vec<u8>>>,
    gone: BTreeSet<u64>,
    nodes: Vec<(String, Option<u64>)>,
}

impl Change {
    fn of(known: &KnownRows, number: u64, by: i64, Turn { keeper, turn }: Turn, edits: &[Edit]) -> Result<Change> {
        let meta = Meta { number, by, keeper, turn, ..known.meta.clone() };
        let mut change = Change { meta, pairs: BTreeMap::new(), gone: BTreeSet::new(), nodes: Vec::new() };
        for edit in edits {
            change.add(known, edit)?;
        }
        Ok(change)
    }

    // The instance of the node that stands at a name after the edits so far.
    fn instance(&self, known: &KnownRows, name: &str) -> Option<u64> {
        let own = self.nodes.iter().rev().find(|(other, _)| other == name).map(|(_, instance)| *instance);
        own.unwrap_or_else(|| known.instances.get(name).copied())
    }

    fn put(&mut self, key: String, value: Option<Vec<u8>>) {
        self.pairs.insert(key, value);
    }

    fn add(&mut self, known: &KnownRows, edit: &Edit) -> Result<()> {
        match edit {
            Edit::Epoch(epoch) => self.meta.epoch = *epoch,
            Edit::NextInstance(next) => self.meta.next_instance = *next,
            Edit::PutNode(name, node) => {
                self.nodes.push((name.clone(), Some(node.instance)));
                let node = NodeRow::of(node).context("a node that isn't understood")?;
                self.put(format!("nodes{name}"), Some(serde_json::to_vec(&node)?));
            }
            Edit::LockGeneration(name, generation) => {
                if self.instance(known, name).is_some() {
                    self.put(format!("generations{name}"), Some(generation.to_string().into_bytes()));
                }
            }
            Edit::RemoveNode(name) => self.remove(known, name),
            Edit::PutSession(client, session) => {
                self.put(format!("sessions/{client}"), Some(serde_json::to_vec(&SessionRow::of(session))?))
            }
            Edit::PutLock(key, lock) => {
                let lock = LockRow::of(*lock).context("a lock that isn't understood")?;
                self.put(lock_key(*key), Some(serde_json::to_vec(&lock)?));
            }
            Edit::RemoveLock(key) => self.put(lock_key(*key), None),
            Edit::RemoveSession(client) => self.put(format!("sessions/{client}"), None),
            Edit::EndedBelow(next) => self.meta.ended_below = *next,
        }
        Ok(())
    }

    // (of a transaction no two deeds are of one key)
    fn remove(&mut self, known: &KnownRows, name: &str) {
        if let Some(instance) = self.instance(known, name) {
            let locks = format!("locks/{instance}/");
            self.pairs.retain(|key, _| !key.starts_with(&locks));
            self.gone.insert(instance);
        }
        self.nodes.push((name.to_owned(), None));
        self.put(format!("nodes{name}"), None);
        self.put(format!("generations{name}"), None);
    }

    fn deeds(&self, prefix: &str) -> Result<Vec<Operation>> {
        let mut deeds = vec![Operation::Put(format!("{prefix}meta"), serde_json::to_vec(&self.meta)?)];
        for (key, value) in &self.pairs {
            let is_gone = self.gone.iter().any(|instance| key.starts_with(&format!("locks/{instance}/")));
            match value {
                _ if is_gone => {}
                Some(value) => deeds.push(Operation::Put(format!("{prefix}{key}"), value.clone())),
                None => deeds.push(Operation::Delete(format!("{prefix}{key}"))),
            }
        }
        deeds.extend(self.gone.iter().map(|instance| Operation::DeleteAll(format!("{prefix}locks/{instance}/"))));
        Ok(deeds)
    }
}

impl RowsKeeper {
    /// One of a cell, for a mastership. It has written the cell's own row anew, under a number of its own: so nothing that an earlier
    /// keeper sent is done any more, however late it comes. It waits for etcd while the mastership lasts.
    /// What was found there before needn't be read again, where it is of the same revision of that row.
    pub fn open(gateway: &Members, prefix: &str, mastership: Arc<Mastership>, found: Option<Arc<Found>>) -> Result<RowsKeeper> {
        let own = Turn { keeper: rand::thread_rng().gen_range(1..u64::MAX), turn: 1 };
        let (key, is_ended) = (format!("{prefix}meta"), Arc::default());
        let gateway = gateway.until(&is_ended);
        let (meta, changed) = (Meta::default(), 0);
        let known = KnownRows { meta, changed, instances: HashMap::new() };
        let mut keeper = RowsKeeper { gateway, prefix: prefix.to_owned(), key, mastership, own, known, found, is_loaded: false, is_ended };
        while !keeper.write_anew()? {}
        Ok(keeper)
    }

    /// Whether etcd takes no write, for want of room.
    #[must_use]
    pub fn wants_room(&self) -> bool {
        !self.gateway.health().has_room()
    }

    /// By which another thread ends it: then it asks etcd nothing more.
    #[must_use]
    pub fn is_ended(&self) -> Arc<AtomicBool> {
        self.is_ended.clone()
    }

    /// What is answered to the bytes of a question; or why nothing is answered any more.
    pub fn answer(&mut self, block: &[u8]) -> Result<RowsAnswer> {
        match Question::read(block).context("the master asks what isn't understood")? {
            Question::Load => self.load(),
            Question::Commit(number, edits) => Ok(RowsAnswer::Verdict(self.commit(number, &edits)?)),
        }
    }

    fn check(&self) -> Result<()> {
        if self.is_ended.load(Ordering::SeqCst) {
            bail!("its master is gone");
        }
        self.mastership.check()
    }

    // A turn that none of its transactions had. (The one after it ends what this one does, where its answer gets lost.)
    fn next_turn(&mut self) -> Turn {
        self.own.turn += 2;
        self.own
    }

    // The cell's own row as it stands; it waits for etcd.
    fn read(&self) -> Result<(Meta, i64)> {
        loop {
            self.check()?;
            match self.gateway.get(&self.key) {
                Ok(Some(pair)) => return Ok((serde_json::from_slice(&pair.value)?, pair.changed)),
                Ok(None) => bail!("{} isn't there: no cell stands there", self.key),
                // (where none answers the gateway says so)
                Err(_) => thread::sleep(PAUSE),
            }
        }
    }

    // Writes the cell's own row of this turn alone, over what is known. (A fault: etcd refuses it.)
    fn write_own(&self, turn: Turn, meta: &Meta) -> Result<Result<Option<i64>, Lost>> {
        let meta = Meta { by: self.mastership.revision, keeper: turn.keeper, turn: turn.turn, ..meta.clone() };
        let deeds = [Operation::Put(self.key.clone(), serde_json::to_vec(&meta)?)];
        match self.gateway.change(&[Compare::Changed(&self.key, self.known.changed), self.mastership.fence()], &deeds) {
            Err(Lost::Refused(fault)) => Err(fault.context("etcd refuses the cell's own row")),
            written => Ok(written),
        }
    }

    // Writes the cell's own row as it stands, in its own name; whether that stands. Where another was faster it is tried again.
    fn write_anew(&mut self) -> Result<bool> {
        let turn = self.next_turn();
        (self.known.meta, self.known.changed) = self.read()?;
        // (each commit changes this row)
        self.found.take_if(|found| found.changed() != Some(self.known.changed));
        loop {
            match self.write_own(turn, &self.known.meta)? {
                Ok(Some(revision)) => {
                    self.known.changed = revision;
                    return Ok(true);
                }
                Ok(None) => self.mastership.check_key()?,
                Err(_) => {}
            }
            let (meta, revision) = self.read()?;
            match outcome(turn, self.known.changed, meta.written_by(), revision) {
                Outcome::Stands => {
                    self.known.changed = revision;
                    return Ok(true);
                }
                Outcome::IsOpen => thread::sleep(PAUSE),
                Outcome::IsOff | Outcome::IsOver => return Ok(false),
            }
        }
    }

    // All rows at one revision.
    fn load(&mut self) -> Result<RowsAnswer> {
        let (found, meta) = match self.found.take() {
            Some(found) => (found, self.known.meta.clone()),
            None => {
                let found = Found::read(&self.gateway, &self.prefix, || self.check())?;
                let (meta, changed) = found.meta.clone().with_context(|| format!("{} isn't there: no cell stands there", self.key))?;
                if changed != self.known.changed {
                    bail!("another keeper has written the rows");
                }
                (Arc::new(found), meta)
            }
        };
        let (count, rows) = found.rows()?;
        let told = RowsAnswer::rows(&meta, count, rows)?;
        (self.known.meta, self.known.instances) = (meta, found.instances());
        self.is_loaded = true;
        self.check()?;
        Ok(told)
    }

    // Whether the edits stand. A fault where that can't be said any more.
    fn commit(&mut self, number: u64, edits: &[Edit]) -> Result<bool> {
        if !self.is_loaded {
            bail!("nothing was loaded");
        }
        loop {
            self.check()?;
            let turn = self.next_turn();
            let change = Change::of(&self.known, number, self.mastership.revision, turn, edits)?;
            let deeds = change.deeds(&self.prefix)?;
            let tried = self.gateway.change(&[Compare::Changed(&self.key, self.known.changed), self.mastership.fence()], &deeds);
            let stands_by = match tried {
                Ok(Some(revision)) => Some(revision),
                // (the gateway says that etcd has no room)
                Err(Lost::Refused(_)) if !self.gateway.health().has_room() => return Ok(false),
                Err(Lost::Refused(fault)) => {
                    error!(reason = %fault, deeds = deeds.len(), "etcd refuses a commit");
                    return Ok(false);
                }
                Ok(None) | Err(Lost::Unknown(_)) => self.find_out(turn)?,
            };
            if let Some(revision) = stands_by {
                self.note(change, revision);
                return Ok(true);
            }
        }
    }

    // A commit stands.
    fn note(&mut self, change: Change, revision: i64) {
        (self.known.meta, self.known.changed) = (change.meta, revision);
        for (name, instance) in change.nodes {
            match instance {
                Some(instance) => self.known.instances.insert(name, instance),
                None => self.known.instances.remove(&name),
            };
        }
    }

    // What became of the commit of this turn, whose answer got lost: by which revision it stands; None where it doesn't, and never will.
    // (If it isn't done the cell's own row is written as it was, in the next turn: so it can't be done later.)
    fn find_out(&mut self, commit: Turn) -> Result<Option<i64>> {
        let end = Turn { turn: commit.turn + 1, ..commit };
        loop {
            let (meta, revision) = self.read()?;
            match outcome(commit, self.known.changed, meta.written_by(), revision) {
                Outcome::Stands => return Ok(Some(revision)),
                Outcome::IsOff => {
                    self.known.changed = revision;
                    return Ok(None);
                }
                Outcome::IsOver => bail!("another keeper has written the rows"),
                Outcome::IsOpen => match self.write_own(end, &self.known.meta)? {
                    Ok(Some(revision)) => {
                        self.known.changed = revision;
                        return Ok(None);
                    }
                    // (where its key is there the lost one was done meanwhile)
                    Ok(None) => self.mastership.check_key()?,
                    Err(_) => {}
                },
            }
            thread::sleep(PAUSE);
        }
    }
}

#[cfg(test)]
mod tests {
    use super::*;
    use crate::etcd::mastership::{Bell, Seat};
    use crate::etcd::pretended::{Pretended, Way};

    const META: &str = r#"{"cell":"c","secret":"0000000000000000000000000000000000000000000000000000000000000000","epoch":1,"next_instance":4,"number":0,"by":0}"#;

    // A keeper that has loaded the rows of a new cell.
    fn keeper(etcd: &Pretended) -> RowsKeeper {
        let gateway = etcd.gateway();
        gateway.change(&[], &[Operation::Put("c/meta".to_owned(), META.as_bytes().to_vec())]).unwrap();
        let seat = Seat { address: String::new(), server: "first".to_owned() };
        let mastership = Mastership::wait(&gateway, "c/", &seat, 60, None, &Bell::default(), |_| {});
        loaded(&gateway, mastership)
    }

    fn loaded(gateway: &Members, mastership: Arc<Mastership>) -> RowsKeeper {
        let mut keeper = RowsKeeper::open(gateway, "c/", mastership, None).unwrap();
        keeper.load().unwrap();
        keeper
    }

    fn edits() -> Vec<Edit> {
        vec![Edit::Epoch(2), Edit::PutSession(7, host_wire::rows::Session { principal: "ann".to_owned(), is_live: true })]
    }

    // The number of the last commit that stands, and whether its session does.
    fn stands(etcd: &Pretended) -> (u64, bool) {
        let shown = etcd.shown();
        let meta = &shown.iter().find(|(key, _)| key == "c/meta").unwrap().1;
        (serde_json::from_str::<Meta>(meta).unwrap().number, shown.iter().any(|(key, _)| key == "c/sessions/7"))
    }

    #[test]
    fn a_commit_is_done_once_or_not_at_all() {
        let rows: &[(&[Way], Option<bool>, (u64, bool))] = &[
            (&[Way::Done], Some(true), (1, true)),
            (&[Way::Unanswered], Some(true), (1, true)),
            (&[Way::Lost], Some(true), (1, true)),
            (&[Way::Lost, Way::Lost], Some(true), (1, true)),
            (&[Way::Lost, Way::Unanswered], Some(true), (1, true)),
            (&[Way::Refused], Some(false), (0, false)),
        ];
        for (ways, answered, wanted) in rows {
            let etcd = Pretended::start();
            let mut keeper = keeper(&etcd);
            etcd.go(ways);
            assert_eq!(keeper.commit(1, &edits()).ok(), *answered, "{ways:?}");
            assert_eq!(stands(&etcd), *wanted, "{ways:?}");
        }
    }

    #[test]
    fn a_commit_of_many_edits_is_one_transaction() {
        let etcd = Pretended::start();
        let mut keeper = keeper(&etcd);
        let session = host_wire::rows::Session { principal: "ann".to_owned(), is_live: true };
        let before = etcd.gateway().revision("c/meta").unwrap();
        let edits: Vec<Edit> = (1..=3000).map(|client| Edit::PutSession(client, session.clone())).collect();
        assert!(keeper.commit(1, &edits).unwrap());
        assert_eq!(etcd.gateway().revision("c/meta").unwrap(), before + 1);
        assert_eq!(etcd.shown().iter().filter(|(key, _)| key.starts_with("c/sessions/")).count(), edits.len());
    }

    #[test]
    fn a_session_that_goes_is_deleted_and_its_number_noted() {
        let etcd = Pretended::start();
        let mut keeper = keeper(&etcd);
        assert!(keeper.commit(1, &edits()).unwrap());
        assert!(keeper.commit(2, &[Edit::RemoveSession(7), Edit::EndedBelow(8)]).unwrap());
        assert_eq!(stands(&etcd), (2, false));
        let read = Found::read(&etcd.gateway(), "c/", || Ok(())).unwrap();
        assert_eq!((read.meta.as_ref().unwrap().0.ended_below, read.sessions.len(), read.first_client()), (8, 0, 7 + (1 << 20)));
    }

    #[test]
    fn the_next_commit_stands_on_the_last_one() {
        let etcd = Pretended::start();
        let mut keeper = keeper(&etcd);
        for number in 1..4 {
            assert!(keeper.commit(number, &edits()).unwrap());
        }
        assert_eq!(stands(&etcd), (3, true));
    }

    #[test]
    fn a_replaced_master_commits_nothing() {
        let etcd = Pretended::start();
        let mut first = keeper(&etcd);
        etcd.remove("c/master");
        assert!(first.commit(1, &edits()).is_err());
        assert_eq!(stands(&etcd), (0, false));
        let mut second = keeper(&etcd);
        assert!(second.commit(1, &[Edit::Epoch(3)]).unwrap() && first.commit(1, &edits()).is_err());
        assert_eq!(stands(&etcd), (1, false));
    }

    // The server has shot a child while its commit was on its way, and starts the next one, under the same mastership.
    #[test]
    fn a_commit_of_an_earlier_keeper_is_not_told_as_standing() {
        let etcd = Pretended::start();
        let mut first = keeper(&etcd);
        let mastership = first.mastership.clone();
        etcd.go(&[Way::Held]);
        let late = thread::spawn(move || first.commit(1, &edits()));
        etcd.wait_for_held(1);
        let mut second = loaded(&etcd.gateway(), mastership);
        etcd.let_through();
        let session = host_wire::rows::Session { principal: "bob".to_owned(), is_live: true };
        let told = second.commit(1, &[Edit::PutSession(8, session)]).ok();
        let shown = etcd.shown();
        let has = |client: u64| shown.iter().any(|(key, _)| *key == format!("c/sessions/{client}"));
        assert_eq!((told, has(7), has(8)), (Some(true), false, true));
        assert!(late.join().unwrap().is_err());
    }

    #[test]
    fn rows_that_another_wrote_are_left() {
        let etcd = Pretended::start();
        let mut keeper = keeper(&etcd);
        let other = META.replace(r#""epoch":1"#, r#""epoch":9"#).into_bytes();
        etcd.gateway().change(&[], &[Operation::Put("c/meta".to_owned(), other)]).unwrap();
        assert!(keeper.commit(1, &edits()).is_err());
        assert_eq!(stands(&etcd), (0, false));
    }
}
