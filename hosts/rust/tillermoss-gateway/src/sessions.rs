//! Sessions that HTTP clients keep: a client of the cell each, with the locks that it holds and the ephemeral files that it made.

use crate::desks::Desk;
use crate::faults::HttpFault;
use std::collections::HashMap;
use std::sync::{Arc, Mutex, MutexGuard, PoisonError, RwLock};
use std::time::{Duration, Instant};
use tillermoss::{Client, Create, Error, Handle, Life, LockMode, Mode, Opening, Refusal};
use tokio::sync::{Mutex as Turns, MutexGuard as TurnsGuard};
use tokio::task::spawn_blocking;
use tokio::time::sleep;

/// The time between two tries to take a lock that is waited for.
const ASKING: Duration = Duration::from_millis(100);

/// The time between two looks for sessions whose time is over.
const LOOK: Duration = Duration::from_millis(250);

/// A session.
#[derive(Debug)]
pub struct HttpSession {
    principal: Arc<str>,
    // (None: it has left)
    client: RwLock<Option<Client>>,
    /// How long it lives after the last request that names it.
    pub span: Duration,
    until: Mutex<Instant>,
    locks: Turns<Candidates>,
    files: Mutex<HashMap<String, Handle>>,
}

/// A file that is open for its lock, which is held or was asked for.
#[derive(Clone, Copy, Debug)]
struct Candidate {
    handle: Handle,
    mode: LockMode,
}

type Candidates = HashMap<String, Candidate>;

/// A lock that is asked for.
#[derive(Clone, Debug)]
pub struct Wanted {
    /// The file.
    pub name: String,
    /// How it is held.
    pub mode: LockMode,
    /// How long it is waited for.
    pub wait: Duration,
    /// How many milliseconds it stays closed where the session is lost.
    pub delay: u64,
}

fn lock<T>(mutex: &Mutex<T>) -> MutexGuard<'_, T> {
    mutex.lock().unwrap_or_else(PoisonError::into_inner)
}

impl HttpSession {
    /// One of this client.
    pub fn new(principal: Arc<str>, client: Client, span: Duration) -> HttpSession {
        HttpSession {
            principal,
            client: RwLock::new(Some(client)),
            span,
            until: Mutex::new(Instant::now() + span),
            locks: Turns::default(),
            files: Mutex::default(),
        }
    }

    /// A request names it.
    pub fn renew(&self) {
        *lock(&self.until) = Instant::now() + self.span;
    }

    fn is_over(&self) -> bool {
        Instant::now() >= *lock(&self.until)
    }

    // Asks by its client, which nobody ends meanwhile.
    fn with<T>(&self, ask: impl FnOnce(&Client) -> Result<T, Error>) -> Result<T, HttpFault> {
        let client = self.client.read().unwrap_or_else(PoisonError::into_inner);
        let client = client.as_ref().ok_or(HttpFault::NoSuchSession)?;
        match ask(client) {
            Err(_) if client.is_lost() => Err(HttpFault::SessionLost),
            asked => Ok(asked?),
        }
    }

    /// How long the cell lets it hold what it holds, unless it hears of it again.
    pub fn lease_left(&self) -> Result<Duration, HttpFault> {
        self.with(|client| if client.is_lost() { Err(Refusal::SessionExpired.into()) } else { Ok(client.lease_left()) })
    }

    // Asks on a thread that may wait for the master.
    async fn ask<T: Send + 'static>(
        self: &Arc<Self>,
        desk: &Desk,
        ask: impl FnOnce(&Client) -> Result<T, Error> + Send + 'static,
    ) -> Result<T, HttpFault> {
        let session = self.clone();
        desk.work(move || session.with(ask)).await
    }

    fn turn(&self) -> Result<TurnsGuard<'_, Candidates>, HttpFault> {
        self.locks.try_lock().map_err(|_| HttpFault::TooMany("another request of this session is about a lock"))
    }

    /// Takes a lock, and waits for it where that is asked for; the bytes of its sequencer. One that it holds so already it goes on
    /// holding. (If nobody waits for the answer any more, what is open then is found by the next request for the lock.)
    pub async fn acquire(self: &Arc<Self>, desk: &Desk, wanted: &Wanted) -> Result<Vec<u8>, HttpFault> {
        let mut locks = self.turn()?;
        if let Some(found) = locks.get(&wanted.name).copied() {
            match self.ask(desk, move |client| client.sequencer(found.handle)).await {
                Ok(bytes) if found.mode == wanted.mode => return Ok(bytes),
                Ok(_) => return Err(Refusal::Held(found.mode).into()),
                // (it isn't held, or the file was deleted)
                Err(HttpFault::Cell(Error::Refused(Refusal::StaleInstance | Refusal::NotHolder | Refusal::BadHandle))) => {}
                Err(fault) => return Err(fault),
            }
            self.close(desk, &mut locks, &wanted.name).await;
        }
        let create = Create { content: Some(Vec::new()), ..Create::default() };
        let opening = Opening { create: Some(create), lock_delay: wanted.delay, ..Opening::new(&wanted.name, Mode::WRITE) };
        let handle = self.ask(desk, move |client| client.open_with(&opening)).await?;
        locks.insert(wanted.name.clone(), Candidate { handle, mode: wanted.mode });
        let taken = self.take(desk, handle, wanted).await;
        if taken.is_err() {
            self.close(desk, &mut locks, &wanted.name).await;
        }
        taken
    }

    // (one that can't be closed is closed with the session)
    async fn close(self: &Arc<Self>, desk: &Desk, locks: &mut Candidates, name: &str) {
        if let Some(candidate) = locks.remove(name) {
            let _ = self.ask(desk, move |client| client.close(candidate.handle)).await;
        }
    }

    async fn take(self: &Arc<Self>, desk: &Desk, handle: Handle, wanted: &Wanted) -> Result<Vec<u8>, HttpFault> {
        let (begun, mode) = (Instant::now(), wanted.mode);
        loop {
            match self.ask(desk, move |client| client.try_acquire(handle, mode)).await {
                Ok(()) => return self.ask(desk, move |client| client.sequencer(handle)).await,
                // (it may be held already: then it is let go, and asked for again)
                Err(HttpFault::Cell(Error::Refused(Refusal::Unknown))) => _ = self.ask(desk, move |client| client.release(handle)).await,
                Err(HttpFault::Cell(Error::Refused(Refusal::Held(_) | Refusal::Delayed(_))) | HttpFault::TooMany(_))
                    if begun.elapsed() < wanted.wait => {}
                Err(fault) => return Err(fault),
            }
            self.renew();
            sleep(ASKING).await;
        }
    }

    /// Lets a lock go.
    pub async fn release(self: &Arc<Self>, desk: &Desk, name: &str) -> Result<(), HttpFault> {
        let mut locks = self.turn()?;
        let Candidate { handle, .. } = *locks.get(name).ok_or(Refusal::NotHolder)?;
        // (a close lets it go too)
        let released = self.ask(desk, move |client| client.close(handle)).await;
        if !matches!(released, Err(HttpFault::Cell(Error::Refused(Refusal::Unknown | Refusal::InJeopardy)))) {
            locks.remove(name);
        }
        released
    }

    /// Makes an ephemeral file, or writes the one that it made; whether it was made, and its instance and generation.
    pub fn write(&self, name: &str, content: &[u8]) -> Result<(bool, u64, u64), HttpFault> {
        let mut files = lock(&self.files);
        if let Some(handle) = files.get(name).copied() {
            let written = self.with(|client| {
                let stat = client.stat(handle)?;
                client.set(handle, content, Some(stat.content_generation))?;
                Ok((false, stat.instance, stat.content_generation + 1))
            });
            match written {
                Err(HttpFault::Cell(Error::Refused(Refusal::StaleInstance | Refusal::BadHandle))) => _ = files.remove(name),
                written => return written,
            }
        }
        let create = Create { must: true, content: Some(content.to_vec()), life: Life::Ephemeral, acl: None };
        let opening = Opening { create: Some(create), ..Opening::new(name, Mode::WRITE) };
        let (handle, instance) = self.with(|client| {
            let handle = client.open_with(&opening)?;
            Ok((handle, client.stat(handle)?.instance))
        })?;
        files.insert(name.to_owned(), handle);
        Ok((true, instance, 1))
    }

    // Ends it in order, once no request is under way: first its locks are free, then its files go. (A server that was just started would
    // keep these for a minute.) What can't be ended so ends when the lease has run out.
    fn leave(&self) {
        let client = self.client.write().unwrap_or_else(PoisonError::into_inner).take();
        let Some(client) = client else {
            return;
        };
        if !client.lease_left().is_zero() {
            self.locks.blocking_lock().drain().for_each(|(_, candidate)| drop(client.close(candidate.handle)));
            lock(&self.files).drain().for_each(|(_, handle)| drop(client.delete(handle)));
        }
        let _ = client.leave();
    }
}

/// All sessions, by their numbers, which nobody guesses.
#[derive(Debug)]
pub struct Sessions {
    all: Mutex<HashMap<String, Arc<HttpSession>>>,
    most: usize,
}

impl Sessions {
    /// None yet; of each principal so many at most.
    pub fn new(most: usize) -> Sessions {
        Sessions { all: Mutex::default(), most }
    }

    /// Whether one more of this principal may come.
    pub fn check(&self, principal: &str) -> Result<(), HttpFault> {
        let count = lock(&self.all).values().filter(|session| *session.principal == *principal).count();
        if count < self.most { Ok(()) } else { Err(HttpFault::TooMany("too many sessions of this principal")) }
    }

    /// One more; its number.
    pub fn add(&self, session: HttpSession) -> Result<String, HttpFault> {
        self.check(&session.principal)?;
        let number = hex::encode(rand::random::<[u8; 16]>());
        lock(&self.all).insert(number.clone(), Arc::new(session));
        Ok(number)
    }

    /// The one of this number and principal, which is renewed.
    pub fn find(&self, number: &str, principal: &str) -> Result<Arc<HttpSession>, HttpFault> {
        let all = lock(&self.all);
        let session =
            all.get(number).filter(|session| *session.principal == *principal && !session.is_over()).ok_or(HttpFault::NoSuchSession)?;
        session.renew();
        Ok(session.clone())
    }

    /// Ends the one of this number and principal.
    pub async fn end(&self, number: &str, principal: &str) -> Result<(), HttpFault> {
        let session = self.find(number, principal)?;
        lock(&self.all).remove(number);
        // (a thread that fails has told why)
        let _ = spawn_blocking(move || session.leave()).await;
        Ok(())
    }

    /// Ends those whose time is over, until the gateway goes.
    pub async fn keep(&self) {
        loop {
            sleep(LOOK).await;
            let mut over = Vec::new();
            lock(&self.all).retain(|_, session| {
                let is_over = session.is_over();
                if is_over {
                    over.push(session.clone());
                }
                !is_over
            });
            over.into_iter().for_each(|session| drop(spawn_blocking(move || session.leave())));
        }
    }

    /// Ends all, each by a thread of its own.
    pub fn leave(&self) -> Vec<std::thread::JoinHandle<()>> {
        let all = std::mem::take(&mut *lock(&self.all));
        all.into_values().map(|session| std::thread::spawn(move || session.leave())).collect()
    }
}
