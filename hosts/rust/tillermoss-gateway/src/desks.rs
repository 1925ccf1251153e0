//! The clients by which a principal is acted for: one that reads, and some that write.

use crate::faults::HttpFault;
use crate::options::GatewayOptions;
use crate::watches::Watches;
use std::sync::atomic::{AtomicU64, Ordering};
use std::sync::{Arc, Mutex, PoisonError, RwLock};
use std::time::{Duration, Instant};
use tillermoss::{Client, Error, Handle, Reader, Refusal, Sight};
use tokio::sync::{Mutex as Turns, OwnedSemaphorePermit, Semaphore, oneshot};
use tokio::task::spawn_blocking;
use tokio::time::timeout;

/// How many clients of a principal write at once.
const WRITERS: usize = 4;

/// The time between two looks whether the lease still runs, while an answer is waited for.
const LOOK: Duration = Duration::from_millis(250);

/// How long at most an answer of the cell is waited for: longer than a write waits for a client that is silent.
const LATEST: Duration = Duration::from_secs(100);

/// What is done for one principal.
#[derive(Debug)]
pub struct Desk {
    options: tillermoss::Options,
    reader: RwLock<Option<Arc<Reader>>>,
    // Who connects the reader has the turn; how often that failed.
    connecting: Turns<()>,
    failures: AtomicU64,
    writers: Mutex<Vec<Client>>,
    places: Arc<Semaphore>,
    waiting: Arc<Semaphore>,
    /// What is watched.
    pub watches: Watches,
}

impl Desk {
    /// That of this principal; nothing is connected yet.
    pub fn new(principal: &str, options: &GatewayOptions) -> Desk {
        Desk {
            options: client_options(principal, options),
            reader: RwLock::default(),
            connecting: Turns::default(),
            failures: AtomicU64::new(0),
            writers: Mutex::default(),
            places: Arc::new(Semaphore::new(WRITERS)),
            waiting: Arc::new(Semaphore::new(options.waiting)),
            watches: Watches::new(options.watches),
        }
    }

    fn present(&self) -> Option<Arc<Reader>> {
        self.reader.read().unwrap_or_else(PoisonError::into_inner).clone()
    }

    // What the cache answers at this moment.
    fn hit(&self, name: &str) -> Option<Sight> {
        self.reader.read().unwrap_or_else(PoisonError::into_inner).as_ref()?.hit(name)
    }

    /// The client that reads; connected anew where it has lost its session.
    pub async fn reader(&self) -> Result<Arc<Reader>, HttpFault> {
        let live = || self.present().filter(|reader| !reader.is_lost());
        if let Some(reader) = live() {
            return Ok(reader);
        }
        let failures = self.failures.load(Ordering::SeqCst);
        let _turn = self.connecting.lock().await;
        if let Some(reader) = live() {
            return Ok(reader);
        }
        if self.failures.load(Ordering::SeqCst) != failures {
            return Err(Error::Unavailable.into());
        }
        let options = self.options.clone();
        let lost = self.reader.write().unwrap_or_else(PoisonError::into_inner).take();
        let connected = spawn_blocking(move || {
            drop(lost);
            Client::connect(&options).map(|client| Arc::new(Reader::new(client)))
        });
        let connected = connected.await.unwrap_or(Err(Error::Closed));
        if connected.is_err() {
            self.failures.fetch_add(1, Ordering::SeqCst);
        }
        let reader = connected?;
        *self.reader.write().unwrap_or_else(PoisonError::into_inner) = Some(reader.clone());
        Ok(reader)
    }

    /// What a name shows at this moment, out of the cache or of the master.
    pub async fn sight(&self, name: &str) -> Result<Sight, HttpFault> {
        match self.hit(name) {
            Some(sight) => Ok(sight),
            None => {
                let name = name.to_owned();
                self.read(move |reader| reader.read(&name)).await
            }
        }
    }

    fn wait(&self) -> Result<OwnedSemaphorePermit, HttpFault> {
        self.waiting.clone().try_acquire_owned().map_err(|_| HttpFault::TooMany("too many requests of this principal wait for the master"))
    }

    /// Asks by the client that reads. Where its lease has ended the answer is that, whatever it waits for.
    pub async fn read<T: Send + 'static>(&self, ask: impl FnOnce(&Reader) -> Result<T, Error> + Send + 'static) -> Result<T, HttpFault> {
        let waiting = self.wait()?;
        let reader = self.reader().await?;
        if reader.lease_left().is_zero() {
            return Err(Refusal::InJeopardy.into());
        }
        let asked = reader.clone();
        let mut asked = spawn_blocking(move || {
            let _waiting = waiting;
            ask(&asked)
        });
        let begun = Instant::now();
        while begun.elapsed() < LATEST {
            match timeout(LOOK, &mut asked).await {
                Ok(answered) => {
                    let answered = answered.unwrap_or(Err(Error::Closed)).map_err(HttpFault::from);
                    return answered.map_err(HttpFault::of_what_may_be_asked_again);
                }
                Err(_) if reader.lease_left().is_zero() => return Err(Refusal::InJeopardy.into()),
                Err(_) => {}
            }
        }
        Err(HttpFault::Late)
    }

    /// Asks by one of the clients that write; what was opened for that is closed after the answer.
    pub async fn write<T: Send + 'static>(
        self: &Arc<Self>,
        ask: impl FnOnce(&Client, &mut Vec<Handle>) -> Result<T, Error> + Send + 'static,
    ) -> Result<T, HttpFault> {
        let waiting = self.wait()?;
        let place = timeout(LATEST, self.places.clone().acquire_owned()).await;
        let Ok(Ok(place)) = place else {
            return Err(HttpFault::Late);
        };
        let (answer, answered) = oneshot::channel();
        let desk = self.clone();
        spawn_blocking(move || {
            let _places = (waiting, place);
            desk.write_by_one(ask, answer);
        });
        match timeout(LATEST, answered).await {
            Ok(Ok(answered)) => answered,
            Ok(Err(_)) | Err(_) => Err(HttpFault::Unknown),
        }
    }

    // (one that was lost while nobody used it isn't asked)
    fn writer(&self) -> Result<Client, Error> {
        let mut writers = self.writers.lock().unwrap_or_else(PoisonError::into_inner);
        while let Some(client) = writers.pop() {
            if !client.is_lost() {
                return Ok(client);
            }
        }
        drop(writers);
        Client::connect(&self.options)
    }

    fn write_by_one<T>(
        &self,
        ask: impl FnOnce(&Client, &mut Vec<Handle>) -> Result<T, Error>,
        answer: oneshot::Sender<Result<T, HttpFault>>,
    ) {
        // (where nobody waits for the answer any more it is told to nobody)
        let client = match self.writer() {
            Ok(client) => client,
            Err(error) => return drop(answer.send(Err(error.into()))),
        };
        let mut opened = Vec::new();
        let done = if client.lease_left().is_zero() { Err(Refusal::InJeopardy.into()) } else { ask(&client, &mut opened) };
        let _ = answer.send(done.map_err(outcome));
        // (one that can't be closed is closed with the session)
        opened.into_iter().for_each(|handle| drop(client.close(handle)));
        if !client.is_lost() {
            self.writers.lock().unwrap_or_else(PoisonError::into_inner).push(client);
        }
    }

    /// A client of its own for a session.
    pub async fn connect(&self) -> Result<Client, HttpFault> {
        let options = self.options.clone();
        self.work(move || Ok(Client::connect(&options)?)).await
    }

    /// Work on a thread that may wait for the master.
    pub async fn work<T: Send + 'static>(&self, work: impl FnOnce() -> Result<T, HttpFault> + Send + 'static) -> Result<T, HttpFault> {
        let waiting = self.wait()?;
        let working = spawn_blocking(move || {
            let _waiting = waiting;
            work()
        });
        working.await.unwrap_or(Err(HttpFault::Unknown))
    }

    /// Ends what is connected, each client by a thread of its own.
    pub fn leave(&self) -> Vec<std::thread::JoinHandle<()>> {
        let reader = self.reader.write().unwrap_or_else(PoisonError::into_inner).take();
        let writers = std::mem::take(&mut *self.writers.lock().unwrap_or_else(PoisonError::into_inner));
        let reader = reader.map(|reader| std::thread::spawn(move || drop(reader)));
        reader.into_iter().chain(writers.into_iter().map(|writer| std::thread::spawn(move || drop(writer)))).collect()
    }
}

// What is refused wasn't done. Of what isn't answered nobody knows.
fn outcome(error: Error) -> HttpFault {
    match error {
        Error::Refused(Refusal::SessionExpired | Refusal::Unknown) => HttpFault::Unknown,
        Error::Refused(_) | Error::Limited(_) => error.into(),
        _ => HttpFault::Unknown,
    }
}

fn client_options(principal: &str, options: &GatewayOptions) -> tillermoss::Options {
    let file = |end: &str| options.credentials.as_ref().map(|folder| folder.join(format!("{principal}.{end}")));
    tillermoss::Options {
        patience: Duration::from_secs(options.patience),
        certificate: file("pem"),
        key: file("key"),
        authority: options.authority.clone(),
        ..tillermoss::Options::new(&options.server, principal)
    }
}
