//! One server of several is master: it holds a key of etcd under a lease, and renews that. Its mastership ends by its own clock
//! before etcd lets the key go: the arithmetic of that is the proved one of crates/mastership.

use crate::etcd::decisions::end_of;
use crate::etcd::gateway::{Compare, Lost, Members, Operation, Pair, Unanswered};
use anyhow::{Result, bail};
use nix::time::{ClockId, clock_gettime};
use serde::{Deserialize, Serialize};
use std::mem;
use std::sync::atomic::{AtomicU64, Ordering};
use std::sync::{Arc, Condvar, Mutex, PoisonError};
use std::thread;
use std::time::{Duration, Instant};
use tracing::{info, warn};

/// How many seconds a mastership lasts that isn't renewed, unless an operator says otherwise; etcd may make it longer.
pub const SPAN: u64 = 5;

/// How long at most between two looks at who is master.
const PAUSE: Duration = Duration::from_millis(250);

/// How long it is tried to give a mastership back that is let go, whatever members are silent. (Its guard gives it back where that fails.)
const GIVING_BACK: Duration = Duration::from_secs(4);

/// How many renewals in a span.
const RENEWALS: u64 = 4;

/// The present moment by the clock that goes on while the machine sleeps, in milliseconds. If there is none it is the end of all
/// moments, at which nobody is master.
#[must_use]
pub fn now() -> u64 {
    let Ok(time) = clock_gettime(ClockId::CLOCK_BOOTTIME) else {
        return u64::MAX;
    };
    time.tv_sec().cast_unsigned().saturating_mul(1000).saturating_add(time.tv_nsec().cast_unsigned() / 1_000_000)
}

/// By which one who waits for the mastership is told that its key is gone, so that it looks at once.
#[derive(Debug, Default)]
pub struct Bell {
    is_rung: Mutex<bool>,
    rung: Condvar,
}

impl Bell {
    /// The key is gone.
    pub fn ring(&self) {
        *self.is_rung.lock().unwrap_or_else(PoisonError::into_inner) = true;
        self.rung.notify_all();
    }

    // Waits until it was rung, for so long at most.
    fn wait(&self, limit: Duration) {
        let is_rung = self.is_rung.lock().unwrap_or_else(PoisonError::into_inner);
        let waited = self.rung.wait_timeout_while(is_rung, limit, |is_rung| !*is_rung);
        *waited.unwrap_or_else(PoisonError::into_inner).0 = false;
    }
}

/// What stands at the key of the master.
#[derive(Clone, Debug, PartialEq, Eq, Serialize, Deserialize)]
pub struct Seat {
    /// Where clients find it.
    pub address: String,
    /// Which process of all that ever stood by it is.
    pub server: String,
}

/// A mastership.
#[derive(Debug)]
pub struct Mastership {
    gateway: Arc<Members>,
    key: String,
    value: Vec<u8>,
    /// The revision by which it began, which no other mastership has.
    pub revision: i64,
    grant: Mutex<KeyLease>,
    end: AtomicU64,
}

/// By which lease the key stands there.
#[derive(Clone, Copy, Debug)]
struct KeyLease {
    lease: i64,
    /// The revision that put it there under this lease.
    changed: i64,
}

// Takes the key of a mastership away as it stands there; whether that was done.
fn remove(gateway: &Members, pair: &Pair) -> bool {
    let same = [Compare::Created(&pair.key, pair.created), Compare::Changed(&pair.key, pair.changed)];
    gateway.change(&same, &[Operation::Delete(pair.key.clone())]).is_ok_and(|done| done.is_some())
}

impl Mastership {
    /// Waits until no other server is master, and takes over, for so many seconds at a time. Tells each other one of it that it sees
    /// meanwhile. One whose time ended before this same process began anew is taken back at once: nobody has been master since.
    pub fn wait(
        gateway: &Arc<Members>,
        prefix: &str,
        seat: &Seat,
        span: u64,
        last: Option<&str>,
        bell: &Bell,
        mut tell: impl FnMut(Option<Seat>),
    ) -> Arc<Mastership> {
        let key = format!("{prefix}master");
        let mut is_refused = false;
        loop {
            match gateway.get(&key) {
                Ok(Some(other)) => {
                    let known: Option<Seat> = serde_json::from_slice(&other.value).ok();
                    if known.as_ref().is_some_and(|seat| Some(seat.server.as_str()) == last) && remove(gateway, &other) {
                        continue;
                    }
                    tell(known);
                }
                Ok(None) => match Mastership::take(gateway, &key, seat, span) {
                    Ok(Some(taken)) => return taken,
                    Ok(None) => continue,
                    Err(error) => {
                        // (only the first of many faults is logged)
                        if !mem::replace(&mut is_refused, true) {
                            warn!(reason = %format_args!("{error:#}"), "the mastership can't be taken");
                        }
                        let _ = gateway.look_for_room();
                    }
                },
                Err(_) => tell(None),
            }
            bell.wait(PAUSE);
        }
    }

    /// Takes it where no other server is master; else tells which one is.
    pub fn take_at_once(gateway: &Arc<Members>, prefix: &str, seat: &Seat, span: u64) -> Result<Result<Arc<Mastership>, Seat>> {
        let key = format!("{prefix}master");
        loop {
            if let Some(other) = gateway.get(&key)? {
                return Ok(Err(serde_json::from_slice(&other.value)?));
            }
            if let Some(taken) = Mastership::take(gateway, &key, seat, span)? {
                return Ok(Ok(taken));
            }
        }
    }

    // Takes it, where nobody else has.
    fn take(gateway: &Arc<Members>, key: &str, seat: &Seat, span: u64) -> Result<Option<Arc<Mastership>>> {
        let sent = now();
        let (lease, seconds) = gateway.lend(span)?;
        let value = serde_json::to_vec(seat)?;
        let taken = gateway.change(&[Compare::Created(key, 0)], &[Operation::Lend(key.to_owned(), value.clone(), lease)]);
        let revision = match taken {
            Ok(revision) => revision,
            // (an outcome that got lost: whose lease it stands under says it. One that is done later goes with its lease)
            Err(Lost::Unknown(_)) => gateway.get(key)?.filter(|pair| pair.lease == lease).map(|pair: Pair| pair.created),
            Err(lost) => return Err(lost.into()),
        };
        let Some(revision) = revision else {
            let _ = gateway.give_back(lease);
            return Ok(None);
        };
        let (end, grant) = (AtomicU64::new(end_of(sent, seconds)), Mutex::new(KeyLease { lease, changed: revision }));
        let taken = Arc::new(Mastership { gateway: gateway.clone(), key: key.to_owned(), value, revision, grant, end });
        info!(revision, "this server is master");
        let renewing = taken.clone();
        thread::spawn(move || renewing.renew(span));
        Ok(Some(taken))
    }

    // Renews it until it has ended.
    fn renew(&self, span: u64) {
        let mut is_renewed = true;
        while self.holds() {
            thread::sleep(Duration::from_millis(span * 1000 / RENEWALS));
            match self.renew_once(span) {
                Ok(end) => {
                    is_renewed = true;
                    self.lengthen(end);
                }
                Err(error) => {
                    // (only the first of many faults is logged)
                    if mem::replace(&mut is_renewed, false) {
                        warn!(reason = %format_args!("{error:#}"), "the mastership wasn't renewed");
                    }
                }
            }
        }
        warn!("the mastership has ended");
    }

    // (one that was let go, or whose key was gone, stays so)
    fn lengthen(&self, end: u64) {
        let longer = |present: u64| (present > 0).then(|| present.max(end));
        let _ = self.end.fetch_update(Ordering::SeqCst, Ordering::SeqCst, longer);
    }

    // Puts the key once more, under a new lease: that is agreed on by etcd's members and lasts from then on, whoever leads them, which
    // isn't so of a lease that is kept alive. Gives the moment of its end.
    fn renew_once(&self, span: u64) -> Result<u64> {
        let mut grant = self.grant.lock().unwrap_or_else(PoisonError::into_inner);
        self.check()?;
        let sent = now();
        let lent = if self.gateway.health().has_room() { self.gateway.lend(span) } else { return self.renew_in_place(grant.lease) };
        let (lease, seconds) = match lent {
            Err(_) if !self.gateway.health().has_room() => return self.renew_in_place(grant.lease),
            lent => lent?,
        };
        // (of puts that got lost none can be done after this one)
        let same = [self.fence(), Compare::Changed(&self.key, grant.changed)];
        let next = match self.gateway.change(&same, &[Operation::Lend(self.key.clone(), self.value.clone(), lease)]) {
            Ok(Some(changed)) => KeyLease { lease, changed },
            Ok(None) | Err(Lost::Unknown(_)) => self.read_grant()?,
            Err(lost) => return Err(lost.into()),
        };
        let before = std::mem::replace(&mut *grant, next);
        if next.lease != lease {
            bail!("its key wasn't put");
        }
        // (a lease that isn't given back ends by itself)
        let _ = self.gateway.give_back(before.lease);
        Ok(end_of(sent, seconds))
    }

    // If etcd has no room it makes no lease: the one that there is is kept alive. That is done by whichever member thinks that it
    // leads; so it counts only where most members then still follow the same one.
    fn renew_in_place(&self, lease: i64) -> Result<u64> {
        let sent = now();
        let (seconds, term) = self.gateway.keep_alive(lease)?;
        let (pair, later) = self.gateway.get_of_term(&self.key)?;
        if pair.is_none_or(|pair| pair.created != self.revision || pair.lease != lease) {
            self.end.store(0, Ordering::SeqCst);
            bail!("its key is gone");
        }
        if term != later {
            bail!("etcd has another leader meanwhile");
        }
        Ok(end_of(sent, seconds))
    }

    // How the key stands there.
    fn read_grant(&self) -> Result<KeyLease> {
        match self.gateway.get(&self.key)? {
            Some(pair) if pair.created == self.revision => Ok(KeyLease { lease: pair.lease, changed: pair.changed }),
            _ => {
                self.end.store(0, Ordering::SeqCst);
                bail!("its key is gone")
            }
        }
    }

    /// How long it lasts still.
    #[must_use]
    pub fn rest(&self) -> Duration {
        Duration::from_millis(self.end.load(Ordering::SeqCst).saturating_sub(now()))
    }

    /// Whether it lasts still: then all that was done up to now was done before another server could be master.
    #[must_use]
    pub fn holds(&self) -> bool {
        now() < self.end.load(Ordering::SeqCst)
    }

    /// The condition that it is still this one.
    #[must_use]
    pub fn fence(&self) -> Compare<'_> {
        Compare::Created(&self.key, self.revision)
    }

    /// Whether its key is there, where etcd tells that: without it the mastership has ended.
    pub fn check_key(&self) -> Result<()> {
        match self.read_grant() {
            Err(fault) if !self.holds() => Err(fault),
            _ => Ok(()),
        }
    }

    /// Lets it go: from here on nothing is passed on.
    pub fn end(&self) -> Result<()> {
        self.end.store(0, Ordering::SeqCst);
        let lease = self.grant.lock().unwrap_or_else(PoisonError::into_inner).lease;
        self.gateway.by(Instant::now() + GIVING_BACK).give_back(lease)
    }

    /// What is asked of etcd; where no member answers it is asked again while the mastership lasts.
    pub fn insist<T>(&self, mut ask: impl FnMut() -> Result<T>) -> Result<T> {
        loop {
            match ask() {
                Err(fault) if fault.is::<Unanswered>() && self.holds() => thread::sleep(PAUSE),
                asked => return asked,
            }
        }
    }

    /// One that was let go, or has ended.
    pub fn check(&self) -> Result<()> {
        if !self.holds() {
            bail!("the mastership has ended");
        }
        Ok(())
    }
}

#[cfg(test)]
mod tests {
    use super::*;
    use crate::etcd::pretended::{Pretended, Way};

    fn take(etcd: &Pretended, server: &str) -> Option<Arc<Mastership>> {
        let seat = Seat { address: "tcp:h:7".to_owned(), server: server.to_owned() };
        Mastership::take(&etcd.gateway(), "c/master", &seat, 60).unwrap()
    }

    #[test]
    fn one_is_master_at_a_time() {
        let etcd = Pretended::start();
        let first = take(&etcd, "first").unwrap();
        assert!(first.holds() && take(&etcd, "second").is_none());
        first.end().unwrap();
        assert!(!first.holds() && first.check().is_err());
        let second = take(&etcd, "second").unwrap();
        assert!(second.revision > first.revision && etcd.shown()[0].1.contains("second"));
    }

    #[test]
    fn an_outcome_that_got_lost_is_settled() {
        for (way, is_taken) in [(Way::Done, true), (Way::Unanswered, true), (Way::Lost, false)] {
            let etcd = Pretended::start();
            etcd.go(&[way]);
            assert_eq!(take(&etcd, "first").is_some(), is_taken, "{way:?}");
        }
    }

    #[test]
    fn what_nobody_answers_is_asked_again_while_it_lasts() {
        let etcd = Pretended::start();
        let taken = take(&etcd, "first").unwrap();
        let unanswered = || anyhow::Error::from(Lost::Unknown(anyhow::anyhow!("no answer"))).context("reading");
        let mut answers = vec![Ok(7), Err(unanswered()), Err(unanswered())];
        assert_eq!(taken.insist(|| answers.pop().unwrap()).unwrap(), 7);
        let mut refused = vec![Ok(7), Err(Lost::Refused(anyhow::anyhow!("refused")).into())];
        assert!(taken.insist(|| refused.pop().unwrap()).is_err());
        taken.end().unwrap();
        let mut ended = vec![Ok(7), Err(unanswered())];
        assert!(taken.insist(|| ended.pop().unwrap()).is_err());
    }

    #[test]
    fn a_mastership_is_renewed_while_its_key_is_there() {
        for (way, is_renewed) in [(Way::Done, true), (Way::Unanswered, true), (Way::Lost, false), (Way::Refused, false)] {
            let etcd = Pretended::start();
            let taken = take(&etcd, "first").unwrap();
            thread::sleep(Duration::from_millis(5));
            etcd.go(&[way]);
            let renewed = taken.renew_once(60);
            assert_eq!(renewed.is_ok_and(|end| end > taken.end.load(Ordering::SeqCst)), is_renewed, "{way:?}");
            assert!(taken.renew_once(60).is_ok(), "{way:?}");
            etcd.remove("c/master");
            assert!(taken.renew_once(60).is_err(), "{way:?}");
            assert!(take(&etcd, "second").is_some(), "{way:?}");
            assert!(taken.renew_once(60).is_err(), "{way:?}");
        }
    }
}
