//! A store is made of a copy.

use crate::master::locks::take_lock;
use crate::master::numbers::{Epochs, Numbers};
use crate::master::store::{self, Head, beside};
use anyhow::{Context, Result, bail};
use std::fs::{self, File};
use std::path::Path;

/// How much higher numbers go on that the copy doesn't know: more than a cell gives between a copy and its restoring.
const GAP: u64 = 1 << 32;

/// How much higher clients' numbers go on where nobody knows the last one.
const CLIENTS: u64 = 1 << 20;

/// What is true of the lost time is true no more: its sessions are ended, its locks free, and no epoch, instance or generation that
/// was given in it is given again.
const FORGET: &str = "
    UPDATE sessions SET live = 0;
    DELETE FROM locks;
    UPDATE nodes SET acl_gen = acl_gen + ?GAP, lock_gen = lock_gen + ?GAP;
    UPDATE nodes SET content_gen = content_gen + ?GAP WHERE kind = 0;
    UPDATE meta SET next_instance = next_instance + ?GAP, epoch = MAX(epoch, ?EPOCH);";

/// The last client number that the copy knows: it has a session, or is just below those that have ended.
const LAST: &str = "SELECT MAX((SELECT COALESCE(MAX(client), 0) FROM sessions), (SELECT version FROM meta WHERE id = 1) - 4)";

/// Makes the store, which isn't there, of a copy.
pub fn restore(copy: &Path, path: &Path) -> Result<()> {
    let _lock = take_lock(&beside(path, "lock"))?;
    if path.exists() || beside(path, "wal").exists() {
        bail!("{} or its log is there: move both away first", path.display());
    }
    let at = || format!("{}: give the file that tillermoss backup wrote", copy.display());
    let folder = store::copy_into(copy, path).with_context(at)?;
    let copied = store::copied(&folder);
    let connection = store::open(&copied).with_context(at)?;
    let head = Head::read(&connection).with_context(at)?;
    let last: u64 = connection.query_row(LAST, [], |row| row.get(0))?;
    let (mut numbers, coming) = numbers(path, last, head.coming)?;
    let script = FORGET.replace("?GAP", &GAP.to_string()).replace("?EPOCH", &coming.to_string());
    connection.execute_batch(&format!("BEGIN;{script}COMMIT;"))?;
    store::make_whole(connection)?;
    File::open(&copied)?.sync_all()?;
    numbers.note(Epochs { last: coming, coming })?;
    fs::rename(&copied, path)?;
    File::open(path.parent().filter(|folder| !folder.as_os_str().is_empty()).unwrap_or(Path::new(".")))?.sync_all()?;
    Ok(())
}

// The numbers that go on, and an epoch that no master of the cell had.
fn numbers(path: &Path, last: u64, coming: u64) -> Result<(Numbers, u64)> {
    let beside = beside(path, "numbers");
    if !beside.exists() {
        return Ok((Numbers::from(&beside, last + CLIENTS), coming + GAP));
    }
    let numbers = Numbers::open(&beside, true, None)?;
    let noted = numbers.epochs().map_or(0, |epochs| epochs.coming + 1);
    Ok((numbers, noted.max(coming)))
}
