//! Moving a cell: from a store in a file into etcd, and back. The servers of both have to be down.

use crate::etcd::found::Found;
use crate::etcd::gateway::{Compare, Members, Operation};
use crate::etcd::mastership::{Mastership, SPAN, Seat};
use crate::etcd::{Place, Rows, Trust};
use crate::master::locks::take_lock;
use crate::master::numbers::{Epochs, Numbers};
use crate::master::store::{self, beside};
use crate::options::CopyEnd;
use anyhow::{Context, Result, bail};
use std::fs;
use std::path::Path;
use std::process::{Command, Stdio};
use std::sync::Arc;

/// How many pairs, and about so many bytes, are put at once.
const DEEDS: usize = 64;
const BYTES: usize = 1 << 19;

/// Copies all rows from one to the other, where no cell stands yet. After it no server takes the one that was copied any more: what is
/// noted beside it is of a later epoch.
pub fn copy(from: &CopyEnd, to: &CopyEnd, trust: &Trust, program: &Path) -> Result<()> {
    match (from, to) {
        (CopyEnd::File(path), CopyEnd::Etcd(place)) => {
            let _lock = take_lock(&beside(path, "lock"))?;
            let found = of_file(path)?;
            put(&HeldMastership::take(place, trust)?, &found)?;
            let mut numbers = Numbers::open(&beside(path, "numbers"), true, Some(found.first_client()))?;
            numbers.note(Epochs::after(found.epoch()))
        }
        (CopyEnd::Etcd(place), CopyEnd::File(path)) => {
            let held = HeldMastership::take(place, trust)?;
            let found = Found::read(&held.0.gateway, &held.0.prefix, || held.0.mastership.check())?;
            make(path, &found, program)?;
            Numbers::beside(&held.0, found.first_client())?.note(Epochs::after(found.epoch()))
        }
        _ => bail!("--from and --to are a file and an etcd, in either order; an etcd is etcd://HOST:PORT,HOST:PORT/CELL"),
    }
}

fn of_file(path: &Path) -> Result<Found> {
    let at = || format!("{}: give the file of a store", path.display());
    let folder = store::copy(path).with_context(at)?;
    let mut found = Found::of_tables(&store::open(&store::copied(&folder))?).with_context(at)?;
    found.numbers = fs::read_to_string(beside(path, "numbers")).ok();
    Ok(found)
}

/// A mastership, so that no server is master meanwhile.
struct HeldMastership(Rows);

impl HeldMastership {
    fn take(place: &Place, trust: &Trust) -> Result<HeldMastership> {
        let gateway = place.gateway(trust)?;
        let seat = Seat { address: String::new(), server: format!("copy {}", std::process::id()) };
        let taken = Mastership::take_at_once(&gateway, &place.prefix(), &seat, SPAN);
        let mastership = match taken.with_context(|| format!("{place}: is etcd running there?"))? {
            Ok(mastership) => mastership,
            Err(other) => bail!("a server is master there, at {}: its servers have to be down", other.address),
        };
        Ok(HeldMastership(Rows { gateway, prefix: place.prefix(), mastership, found: Arc::default() }))
    }
}

impl Drop for HeldMastership {
    fn drop(&mut self) {
        // (where etcd isn't reached the mastership ends by itself)
        let _ = self.0.mastership.end();
    }
}

fn put(held: &HeldMastership, found: &Found) -> Result<()> {
    put_all(&held.0.gateway, &held.0.mastership, &held.0.prefix, found)
}

// The cell's own row is put last: before it no cell stands there.
fn put_all(gateway: &Members, mastership: &Mastership, prefix: &str, found: &Found) -> Result<()> {
    let own = format!("{prefix}meta");
    let absent = [Compare::Created(&own, 0), mastership.fence()];
    let mut deeds = Vec::new();
    let mut bytes = 0;
    for (key, value) in found.pairs()? {
        bytes += key.len() + value.len();
        deeds.push(Operation::Put(format!("{prefix}{key}"), value));
        if deeds.len() == DEEDS || bytes >= BYTES {
            change(gateway, &absent, &deeds)?;
            (deeds, bytes) = (Vec::new(), 0);
        }
    }
    let (meta, _) = found.meta.as_ref().context("the store has no row of a cell")?;
    deeds.push(Operation::Put(own.clone(), serde_json::to_vec(meta)?));
    if let Some(numbers) = &found.numbers {
        deeds.push(Operation::Put(format!("{prefix}numbers"), numbers.clone().into_bytes()));
    }
    change(gateway, &absent, &deeds)
}

fn change(gateway: &Members, conditions: &[Compare], deeds: &[Operation]) -> Result<()> {
    match gateway.change(conditions, deeds)? {
        Some(_) => Ok(()),
        None => bail!("a cell stands there already"),
    }
}

// The master makes the tables.
fn make(path: &Path, found: &Found, program: &Path) -> Result<()> {
    let _lock = take_lock(&beside(path, "lock"))?;
    if path.exists() || beside(path, "wal").exists() {
        bail!("{} or its log is there: move both away first", path.display());
    }
    let (meta, _) = found.meta.as_ref().context("no cell stands there")?;
    let mut settings = tempfile::NamedTempFile::new()?;
    std::io::Write::write_all(&mut settings, format!("cell = \"{}\"\nsecret = \"{}\"\n", meta.cell, meta.secret).as_bytes())?;
    let made =
        Command::new(program).arg("run").arg("--store").arg(path).arg("--settings").arg(settings.path()).stdin(Stdio::null()).status()?;
    if !made.success() {
        bail!("{} made no store: {made}", program.display());
    }
    let connection = store::open(path)?;
    connection.execute_batch("BEGIN")?;
    found.fill(&connection)?;
    connection.execute_batch("COMMIT")?;
    store::make_whole(connection)?;
    if let Some(numbers) = &found.numbers {
        fs::write(beside(path, "numbers"), numbers)?;
    }
    Ok(())
}
