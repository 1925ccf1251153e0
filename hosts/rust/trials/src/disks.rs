//! What clients notice of a disk that is full.

use crate::fail_overs::{CachingClient, come};
use crate::servers::{Start, folder};
use std::path::Path;
use std::sync::atomic::{AtomicBool, Ordering};
use std::thread;
use std::time::{Duration, Instant};
use tillermoss::{Client, Error, Options, Refusal};

/// How many bytes are written at once, first and at most, and so many more each time: so the store grows as long as there is room.
const CONTENT: (usize, usize) = (8192, 262_144);
const MORE: usize = 64;

/// How long writers write before the disk is full, and after that.
const BEFORE: Duration = Duration::from_secs(2);

/// How long a writer waits for its turn at most.
const PATIENCE: Duration = Duration::from_secs(300);

/// What clients noticed of a disk that was full for a while.
#[derive(Clone, Debug, Default)]
pub struct Filled {
    /// How often a lease ended before it was given again, of clients that only beat.
    pub jeopardies: usize,
    /// How many sessions were lost, of these and of those that wrote.
    pub lost: usize,
    /// How many writes were done.
    pub written: usize,
    /// Of so many nobody knows whether they were.
    pub unknown: usize,
    /// How long after there was room again a write was done of a client that had only beaten.
    pub waited: Duration,
    /// Whether the store refused a write meanwhile.
    pub is_refused: bool,
    /// How many masters there were.
    pub masters: usize,
}

// Writes until it is over: how often, how often the outcome got lost, and whether the session was.
fn write_on(address: &str, number: usize, is_over: &AtomicBool) -> Result<(usize, usize, bool), Error> {
    let client = Client::connect(&Options { patience: PATIENCE, ..Options::new(address, "bob") })?;
    let file = client.create(&format!("/ls/c/w{number}"), b"")?;
    let (mut written, mut unknown) = (0, 0);
    while !is_over.load(Ordering::Relaxed) {
        let content = vec![b'a'; (CONTENT.0 + MORE * written).min(CONTENT.1)];
        match client.set(file, &content, None) {
            Ok(()) => written += 1,
            Err(Error::Refused(Refusal::Unknown)) => unknown += 1,
            Err(_) if client.is_lost() => return Ok((written, unknown, true)),
            Err(error) => return Err(error),
        }
    }
    Ok((written, unknown, false))
}

// How long the first write after room lasts.
fn write_again(guests: &[CachingClient], begun: Instant) -> Result<Duration, Error> {
    let guest = guests.first().ok_or(Error::Closed)?;
    match guest.client.set(guest.watch.handle, b"written", None) {
        Ok(()) | Err(Error::Refused(Refusal::Unknown)) => Ok(begun.elapsed()),
        Err(_) if guest.client.is_lost() => Ok(begun.elapsed()),
        Err(error) => Err(error),
    }
}

/// How many clients hold locks, cache files and only beat, and so many others write again and again, on a disk of so many megabytes, which
/// another program fills for so long.
///
/// # Errors
///
/// If the server can't be started, the disk can't be filled, or a client is refused.
pub fn fill(megabytes: u32, lasting: Duration, clients: usize, writers: usize) -> Result<Filled, Error> {
    let folder = folder("filled");
    let disk = folder.join("disk");
    std::fs::create_dir(&disk)?;
    let filled = fill_at(&disk, megabytes, lasting, clients, writers);
    std::fs::remove_dir_all(folder)?;
    filled
}

fn fill_at(disk: &Path, megabytes: u32, lasting: Duration, clients: usize, writers: usize) -> Result<Filled, Error> {
    let server = Start::new(&disk.join("store.db")).on_disk(megabytes).start()?;
    let guests = come(&server.address, clients)?;
    let is_over = AtomicBool::new(false);
    let mut filled = thread::scope(|scope| {
        let (address, is_over) = (server.address.as_str(), &is_over);
        let writing: Vec<_> = (0..writers).map(|number| scope.spawn(move || write_on(address, number, is_over))).collect();
        let waited = server.fill_disk_for(BEFORE, lasting).map_err(Error::from).and_then(|begun| write_again(&guests, begun));
        thread::sleep(BEFORE);
        is_over.store(true, Ordering::Relaxed);
        let mut filled = Filled { waited: waited?, ..Filled::default() };
        for writer in writing {
            let (written, unknown, is_lost) = writer.join().unwrap_or(Err(Error::Closed))?;
            filled.written += written;
            filled.unknown += unknown;
            filled.lost += usize::from(is_lost);
        }
        Ok::<Filled, Error>(filled)
    })?;
    for guest in &guests {
        let (jeopardies, is_lost) = guest.noticed();
        filled.jeopardies += jeopardies;
        filled.lost += usize::from(is_lost);
    }
    let logged = server.logged();
    filled.is_refused = logged.contains("the store refuses");
    filled.masters = logged.matches("a master is up").count();
    Ok(filled)
}
