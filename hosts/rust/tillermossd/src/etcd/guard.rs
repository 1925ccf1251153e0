//! A process of its own that outlives its server, if only for a moment: it gives the mastership of a server back that is gone, so that
//! nobody waits until that has run out.

use crate::etcd::gateway::{Compare, Lost, Members, Operation};
use crate::etcd::mastership::Mastership;
use crate::etcd::{Place, Trust};
use anyhow::{Context, Result};
use nix::sys::signal::SigSet;
use std::env;
use std::io;
use std::os::unix::process::CommandExt;
use std::process::{ChildStdin, Command, Stdio};
use std::thread;
use std::time::{Duration, Instant};
use tracing::{debug, info};

/// The word by which this program is started as a guard.
pub const GUARD: &str = "guard";

/// How long it asks etcd again, where no member answers: after that the mastership has run out by itself.
const PATIENCE: Duration = Duration::from_secs(60);

/// How long before etcd is asked again.
const PAUSE: Duration = Duration::from_millis(100);

/// Starts the guard of a mastership; gives the server's end of the pipe to it, which the system closes when the server is gone, however it
/// went. In a process group of its own, so that what is typed at a terminal doesn't end it before its server.
pub fn begin(place: &Place, trust: &Trust, mastership: &Mastership) -> Result<ChildStdin> {
    // (this program as it runs, also where another version was put in its place)
    let mut command = Command::new("/proc/self/exe");
    command
        .arg0(env::args_os().next().unwrap_or_default())
        .args([GUARD, "--rows", &place.to_string(), "--revision", &mastership.revision.to_string()])
        .args(trust.words());
    // (its output is no part of what the server prints)
    command.stdin(Stdio::piped()).stdout(Stdio::null()).process_group(0);
    let mut guard = command.spawn().context("starting the guard of the mastership")?;
    let pipe = guard.stdin.take().context("the guard has no input")?;
    thread::spawn(move || {
        let ended = guard.wait();
        debug!(?ended, "the guard of the mastership is gone");
    });
    Ok(pipe)
}

/// Waits until the server is gone, and gives its mastership back, which began by this revision. If it has ended nothing is done.
pub fn guard(place: &Place, trust: &Trust, revision: i64) -> Result<()> {
    // (whoever ends the server by a signal may send it to all its processes)
    SigSet::all().thread_block()?;
    let gateway = place.gateway(trust)?;
    io::copy(&mut io::stdin(), &mut io::sink())?;
    if give_back(&gateway, &place.prefix(), revision)? {
        info!(revision, "the server is gone; its guard has given the mastership back");
    }
    Ok(())
}

// Whether it was there still.
fn give_back(gateway: &Members, prefix: &str, revision: i64) -> Result<bool> {
    let key = format!("{prefix}master");
    let begun = Instant::now();
    loop {
        match gateway.change(&[Compare::Created(&key, revision)], &[Operation::Delete(key.clone())]) {
            Err(Lost::Unknown(_)) if begun.elapsed() < PATIENCE => thread::sleep(PAUSE),
            done => return Ok(done?.is_some()),
        }
    }
}

#[cfg(test)]
mod tests {
    use super::*;
    use crate::etcd::mastership::Seat;
    use crate::etcd::pretended::{Pretended, Way};

    // The servers that are master, one after the other: what the guard of the first one does while it is, and later.
    #[test]
    fn a_guard_gives_its_own_mastership_back() {
        let etcd = Pretended::start();
        let take = || Mastership::take_at_once(&etcd.gateway(), "c/", &Seat { address: String::new(), server: String::new() }, 60);
        let first = take().unwrap().unwrap();
        let gone = |revision| give_back(&etcd.gateway(), "c/", revision).unwrap();
        assert!(!gone(first.revision + 1) && first.check_key().is_ok());
        // (the answer to its first question gets lost)
        etcd.go(&[Way::Unanswered]);
        assert!(!gone(first.revision) && etcd.shown().is_empty());
        let second = take().unwrap().unwrap();
        assert!(!gone(first.revision) && second.check_key().is_ok());
        assert!(gone(second.revision) && etcd.shown().is_empty());
        assert!(first.check_key().is_err());
    }
}
