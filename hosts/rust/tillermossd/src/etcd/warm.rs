//! The rows as they stand in etcd, kept by a server that stands by: it reads them once, and follows what changes. One that becomes master
//! then has them already.

use crate::etcd::found::Found;
use crate::etcd::gateway::{Followed, Members};
use crate::etcd::mastership::Bell;
use anyhow::{Result, bail};
use std::sync::atomic::{AtomicBool, Ordering};
use std::sync::{Arc, Mutex, PoisonError};
use std::thread;
use std::time::{Duration, Instant};
use tracing::{debug, warn};

/// How long before what can't be followed is read again.
const PAUSE: Duration = Duration::from_secs(1);

/// How long it is waited for the last change, which etcd has told already.
const LAST: Duration = Duration::from_secs(1);

/// How often it is looked whether it has come.
const LOOKING: Duration = Duration::from_millis(5);

/// The rows; the thread that follows them goes on until this is taken or dropped.
#[derive(Debug)]
pub struct Warm(Arc<Shared>);

#[derive(Debug, Default)]
struct Shared {
    found: Mutex<Option<Found>>,
    is_over: Arc<AtomicBool>,
    bell: Arc<Bell>,
}

impl Warm {
    /// Begins to read and to follow them.
    #[must_use]
    pub fn begin(gateway: &Members, prefix: &str) -> Warm {
        let shared = Arc::new(Shared::default());
        let (gateway, prefix, following) = (gateway.until(&shared.is_over), prefix.to_owned(), shared.clone());
        thread::spawn(move || {
            while !following.is_over.load(Ordering::SeqCst) {
                // (where no member answers the gateway says so)
                if let Err(fault) = following.follow(&gateway, &prefix) {
                    debug!(reason = %format_args!("{fault:#}"), "the rows aren't followed");
                    thread::sleep(PAUSE);
                }
            }
        });
        Warm(shared)
    }

    /// What is rung when nobody is master any more.
    #[must_use]
    pub fn bell(&self) -> Arc<Bell> {
        self.0.bell.clone()
    }

    /// The rows, where they are those of the cell's own row that this revision changed last: each commit changes that row, and what is
    /// done at one revision is told together. None where they aren't there yet.
    #[must_use]
    pub fn take(&self, changed: i64) -> Option<Found> {
        let begun = Instant::now();
        loop {
            let mut found = self.0.found();
            match found.as_ref().and_then(Found::changed) {
                Some(known) if known == changed => {
                    self.0.is_over.store(true, Ordering::SeqCst);
                    return found.take();
                }
                Some(known) if known < changed && begun.elapsed() < LAST => {}
                _ => return None,
            }
            drop(found);
            thread::sleep(LOOKING);
        }
    }
}

impl Drop for Warm {
    fn drop(&mut self) {
        self.0.is_over.store(true, Ordering::SeqCst);
    }
}

impl Shared {
    fn found(&self) -> std::sync::MutexGuard<'_, Option<Found>> {
        self.found.lock().unwrap_or_else(PoisonError::into_inner)
    }

    // Reads them where they aren't there, and follows them until nothing came for a while.
    fn follow(&self, gateway: &Members, prefix: &str) -> Result<()> {
        let known = self.found().as_ref().map(|found| found.revision);
        let at = match known {
            Some(at) => at,
            None => {
                let found = Found::read(gateway, prefix, || self.check())?;
                let at = found.revision;
                *self.found() = Some(found);
                at
            }
        };
        let master = format!("{prefix}master");
        gateway.follow(prefix, at + 1, |told| {
            if self.is_over.load(Ordering::SeqCst) {
                return false;
            }
            let mut found = self.found();
            let is_followed = match told {
                Followed::Changes(revision, changes) => {
                    if changes.iter().any(|change| change.as_ref().is_err_and(|gone| *gone == master)) {
                        self.bell.ring();
                    }
                    found.as_mut().is_some_and(|rows| rows.follow(prefix, revision, &changes))
                }
                Followed::Forgotten => false,
            };
            if !is_followed {
                warn!("what changed in etcd can't be followed; all rows are read again");
                *found = None;
            }
            is_followed
        })
    }

    fn check(&self) -> Result<()> {
        if self.is_over.load(Ordering::SeqCst) {
            bail!("nobody wants them any more");
        }
        Ok(())
    }
}
