//! A client that keeps its session by itself.

use crate::calls::{Call, Create, Opening};
use crate::clock;
use crate::core::{Core, End, Mark, Reply, Standing, State, Teller, Tried};
use crate::errors::Error;
use crate::events::{Event, Events};
use crate::handle_reader::HandleReader;
use crate::keeper::{SessionKeeper, greet_any};
use crate::library::Library;
use crate::lines::{Answer, ShownView};
use crate::nodes::{LockMode, Mode, Stat, View};
use crate::reaching::Reach;
use crate::refusals::Refusal;
use crate::sequencers::Sequencer;
use host_wire::{Hello, Welcome};
use std::path::PathBuf;
use std::sync::Arc;
use std::sync::mpsc::{Receiver, RecvTimeoutError, channel};
use std::thread;
use std::time::{Duration, Instant};
use tokio::runtime::Builder;
use tokio::sync::mpsc::{UnboundedReceiver, unbounded_channel};

/// The time between two tries of a call that was refused for now.
const PAUSE: Duration = Duration::from_millis(50);

/// How long at most a client that is dropped waits until its session has ended.
const PARTING: Duration = Duration::from_secs(2);

/// How a client is connected.
///
/// ```
/// use std::time::Duration;
/// use tillermoss::Options;
///
/// let options = Options { patience: Duration::from_secs(5), ..Options::new("unix:/run/tillermoss/cell", "ann") };
/// assert_eq!(options.principal, "ann");
/// ```
#[derive(Clone, Debug, PartialEq, Eq)]
pub struct Options {
    /// Where the server is: `unix:PATH`, `tls:HOST:PORT`, `tcp:HOST:PORT` or `HOST:PORT`; several of one cell between commas, of
    /// which the one that is master is found.
    pub server: String,
    /// Whom the client acts for: 1 to 64 of `a-z 0-9 . _ -`.
    pub principal: String,
    /// How long a call that is refused for now is tried again: while the session isn't safe, a recovery lasts, or too many changes
    /// wait. A call that was sent is waited for as long as the session lasts.
    pub patience: Duration,
    /// At `tls:`, the file of the client's certificate, in PEM, whose common name is the principal; with those of the authorities
    /// between.
    pub certificate: Option<PathBuf>,
    /// The file of its key, in PEM.
    pub key: Option<PathBuf>,
    /// The file of the authorities that sign the server's certificate, in PEM.
    pub authority: Option<PathBuf>,
}

impl Options {
    /// To this server for this principal, with a patience of 90 s: longer than any recovery.
    ///
    /// ```
    /// use tillermoss::Options;
    ///
    /// let options = Options::new("127.0.0.1:7171", "ann");
    /// assert_eq!((options.patience.as_secs(), options.certificate), (90, None));
    /// ```
    #[must_use]
    pub fn new(server: &str, principal: &str) -> Options {
        let (server, principal, patience) = (server.to_owned(), principal.to_owned(), Duration::from_secs(90));
        Options { server, principal, patience, certificate: None, key: None, authority: None }
    }
}

/// An open node, by its client's own number for it. Where its client is closed, or has lost its session, it is open no more.
///
/// ```
/// # programs::with_server(|address| -> Result<(), tillermoss::Error> {
/// # use tillermoss::*;
/// # let client = &Client::connect(&Options::new(address, "ann"))?;
/// let file = client.create("/ls/c/f", b"")?;
/// client.close(file)?;
/// assert_eq!(client.read(file).unwrap_err().refusal(), Some(Refusal::BadHandle));
/// # Ok(()) });
/// ```
#[derive(Clone, Copy, Debug, PartialEq, Eq)]
pub struct Handle {
    client: u64,
    number: u64,
}

/// A node that is watched: its handle, and its events. They end when the handle is closed or the session is lost.
///
/// ```
/// # programs::with_server(|address| -> Result<(), tillermoss::Error> {
/// # use tillermoss::*;
/// # let client = &Client::connect(&Options::new(address, "ann"))?;
/// let watch = client.watch("/ls/c", Events::CHILDREN)?;
/// client.create("/ls/c/f", b"")?;
/// assert_eq!(watch.events.recv(), Ok(Event::ChildAdded("/ls/c/f".to_owned())));
/// # Ok(()) });
/// ```
#[derive(Debug)]
pub struct Watch {
    /// By which it is open.
    pub handle: Handle,
    /// What happens to it.
    pub events: Receiver<Event>,
}

/// A client of a cell (Burrows 2006, section 2): a session that a thread keeps, and a cache that answers what the master would.
///
/// One call at a time waits for the master, others after it; what the cache answers doesn't wait. A client that is dropped ends its
/// session as [`leave`](Client::leave) does, and waits for that for 2 s at most. If no master answers within them, the session ends
/// when its lease has run out, as that of a program that is killed.
///
/// ```
/// # programs::with_server(|address| -> Result<(), tillermoss::Error> {
/// # use tillermoss::*;
/// # let client = &Client::connect(&Options::new(address, "ann"))?;
/// // Threads share a client: what its cache answers waits for nobody.
/// let file = client.create("/ls/c/f", b"hello")?;
/// client.read(file)?;
/// std::thread::scope(|scope| {
///     for _ in 0..4 {
///         scope.spawn(|| assert_eq!(client.read(file).unwrap().content, b"hello"));
///     }
/// });
/// # Ok(()) });
/// ```
#[derive(Debug)]
pub struct Client {
    core: Arc<Core>,
    number: u64,
    patience: Duration,
}

impl Client {
    /// Connects, is given a number, and waits until its session has begun.
    ///
    /// ```
    /// # use tillermoss::*;
    /// # let server = programs::server_of_its_own();
    /// # let address = server.address.as_str();
    /// let client = Client::connect(&Options::new(address, "ann"))?;
    /// client.create("/ls/c/f", b"hello")?;
    /// # Ok::<(), Error>(())
    /// ```
    ///
    /// # Errors
    ///
    /// If the server can't be reached, turns the client away or gives it no session, or if none began in time.
    pub fn connect(options: &Options) -> Result<Client, Error> {
        let principal = options.principal.clone();
        let reach = Reach::new(&options.server, options.certificate.as_ref(), options.key.as_ref(), options.authority.as_ref())?;
        let runtime = Builder::new_current_thread().enable_all().build()?;
        let connection = runtime.block_on(greet_any(&reach, &Hello::New { principal: principal.clone() }, options.patience))?;
        let Welcome { client, token } = connection.welcome;
        let library =
            Library::open(client, &principal).map_err(|status| Error::Malformed(format!("the client's number, as {status:?}")))?;
        let core = Arc::new(Core::new(library));
        let hello = Hello::Again { principal, client, token };
        let keeper = SessionKeeper { core: core.clone(), reach, hello };
        let opened = Client { core, number: client, patience: options.patience };
        thread::Builder::new().name("tillermoss".to_owned()).spawn(move || runtime.block_on(keeper.run(connection)))?;
        opened.wait_for_session()?;
        Ok(opened)
    }

    fn wait_for_session(&self) -> Result<(), Error> {
        let begun = Instant::now();
        let mut state = self.core.lock();
        while state.standing() == Standing::Unstarted {
            if let Some(fault) = state.fault() {
                return Err(fault);
            }
            if begun.elapsed() >= self.patience {
                return Err(Error::Unavailable);
            }
            state = self.core.wait(state);
        }
        match state.standing() {
            Standing::Lost => Err(Refusal::NoSession.into()),
            _ => Ok(()),
        }
    }

    /// The client's number, which no other client of the cell has or had.
    ///
    /// ```
    /// # programs::with_server(|address| -> Result<(), tillermoss::Error> {
    /// # let client = &tillermoss::Client::connect(&tillermoss::Options::new(address, "ann"))?;
    /// assert_eq!(client.number(), 1);
    /// # Ok(()) });
    /// ```
    #[must_use]
    pub fn number(&self) -> u64 {
        self.number
    }

    /// Whether the session is lost, or the server turns the client away. Then each call is refused, for good: connect anew.
    ///
    /// ```
    /// # programs::with_server(|address| -> Result<(), tillermoss::Error> {
    /// # let client = &tillermoss::Client::connect(&tillermoss::Options::new(address, "ann"))?;
    /// assert!(!client.is_lost());
    /// # Ok(()) });
    /// ```
    #[must_use]
    pub fn is_lost(&self) -> bool {
        !self.core.lock().goes_on()
    }

    /// How long this client trusts its lease still, by its own clock, which goes on while the machine sleeps: zero where it has ended, and
    /// where the session is lost. What was held before that may be another's then, once a lock-delay is over.
    ///
    /// ```
    /// # programs::with_server(|address| -> Result<(), tillermoss::Error> {
    /// # let client = &tillermoss::Client::connect(&tillermoss::Options::new(address, "ann"))?;
    /// assert!(!client.lease_left().is_zero());
    /// # Ok(()) });
    /// ```
    #[must_use]
    pub fn lease_left(&self) -> Duration {
        let leased_until = self.core.lock().leased_until();
        Duration::from_millis(leased_until.saturating_sub(clock::now()))
    }

    /// Ends the session in order. First the cache is emptied; then the master ends what the client held, at once and without a
    /// lock-delay: its locks are free for who waits, its ephemeral nodes go, and no write and no new master waits for it.
    ///
    /// ```
    /// # let server = programs::server_of_its_own();
    /// # let address = server.address.as_str();
    /// # use tillermoss::*;
    /// let client = Client::connect(&Options::new(address, "ann"))?;
    /// client.acquire(client.create("/ls/c/f", b"")?, LockMode::Exclusive)?;
    /// client.leave()?;
    /// let other = Client::connect(&Options::new(address, "bob"))?;
    /// other.try_acquire(other.open("/ls/c/f", Mode::WRITE)?, LockMode::Exclusive)?;
    /// # Ok::<(), Error>(())
    /// ```
    ///
    /// # Errors
    ///
    /// `SessionExpired` where the session was lost before. `Unavailable` where no master has ended it for as long as the client has
    /// patience: then the client is closed all the same, and its session ends when its lease has run out.
    pub fn leave(self) -> Result<(), Error> {
        self.part(self.patience)
    }

    /// Ends the session as [`leave`](Client::leave) does, while other threads use the client: a call that waits, as one for a lock, is
    /// given up, and refused as `NoSession`, and so is each call from then on. Waits for the end for 2 s at most.
    ///
    /// ```
    /// # let server = programs::server_of_its_own();
    /// # let address = server.address.as_str();
    /// # use tillermoss::*;
    /// let holder = Client::connect(&Options::new(address, "ann"))?;
    /// let file = holder.create("/ls/c/f", b"")?;
    /// holder.acquire(file, LockMode::Exclusive)?;
    /// let waiter = &Client::connect(&Options::new(address, "bob"))?;
    /// let awaited = waiter.open("/ls/c/f", Mode::WRITE)?;
    /// std::thread::scope(|scope| {
    ///     let waits = scope.spawn(move || waiter.acquire(awaited, LockMode::Exclusive));
    ///     std::thread::sleep(std::time::Duration::from_millis(200));
    ///     waiter.give_up()?;
    ///     assert_eq!(waits.join().unwrap().unwrap_err().refusal(), Some(Refusal::NoSession));
    ///     Ok::<(), Error>(())
    /// })?;
    /// // The lock isn't kept for it.
    /// holder.release(file)?;
    /// holder.try_acquire(file, LockMode::Exclusive)?;
    /// # Ok::<(), Error>(())
    /// ```
    ///
    /// # Errors
    ///
    /// As [`leave`](Client::leave).
    pub fn give_up(&self) -> Result<(), Error> {
        self.part(PARTING)
    }

    // Whatever comes of that, the connection ends.
    fn part(&self, most: Duration) -> Result<(), Error> {
        let parted = self.end_session(Instant::now() + most);
        self.core.end(End::Closed);
        parted
    }

    // (of a client that hasn't heard of its session nobody knows whether there is one)
    fn end_session(&self, until: Instant) -> Result<(), Error> {
        loop {
            let mut state = self.core.lock();
            if state.standing() == Standing::Unstarted {
                return Err(Error::Unavailable);
            }
            let refusal = match state.call(&Call::Leave, None)? {
                Tried::Sent(reply) => {
                    drop(state);
                    match self.parted(&reply, until)? {
                        None => return Ok(()),
                        Some(refusal) => refusal,
                    }
                }
                Tried::NotNow(refusal) => {
                    drop(self.core.wait(state));
                    refusal
                }
                other => return Err(Error::Malformed(format!("an answer to another call: {other:?}"))),
            };
            if Instant::now() >= until {
                return Err(refusal.into());
            }
        }
    }

    // None where the session is over; or the refusal after which that may be asked for again. If the reply got lost the next answer
    // is that there is no session. A master that has still to do the call before it drops the message: so it goes out again and again.
    fn parted(&self, reply: &Receiver<Result<Reply, Error>>, until: Instant) -> Result<Option<Refusal>, Error> {
        loop {
            let left = until.saturating_duration_since(Instant::now());
            match reply.recv_timeout(left.min(PAUSE)) {
                Ok(Ok(_) | Err(Error::Refused(Refusal::SessionExpired))) => return Ok(None),
                Ok(Err(Error::Refused(refusal))) if is_for_now(refusal, true) => {
                    thread::sleep(PAUSE);
                    return Ok(Some(refusal));
                }
                Ok(Err(error)) => return Err(error),
                Err(RecvTimeoutError::Timeout) if left > PAUSE => self.core.lock().send_again(),
                Err(RecvTimeoutError::Timeout) => return Err(Error::Unavailable),
                Err(RecvTimeoutError::Disconnected) => return Err(self.core.lock().fault().unwrap_or(Error::Closed)),
            }
        }
    }

    // Makes a call, again while it is refused for now, and one that only reads also where its outcome got lost. None where the
    // cache put a content into its room.
    fn ask(&self, only_reads: bool, mut ask: impl FnMut(&mut State) -> Result<Tried, Error>) -> Result<Option<Reply>, Error> {
        let mut begun = None;
        loop {
            let mut state = self.core.lock();
            let refusal = match ask(&mut state)? {
                Tried::Served => return Ok(None),
                Tried::Answered(Reply { answer: Answer::Refused(refusal), .. }) => return Err(refusal.into()),
                Tried::Answered(reply) => return Ok(Some(reply)),
                Tried::NotNow(refusal) => {
                    drop(self.core.wait(state));
                    refusal
                }
                Tried::Sent(reply) => {
                    drop(state);
                    match self.wait_for(&reply, only_reads)? {
                        Ok(reply) => return Ok(Some(reply)),
                        Err(refusal) => refusal,
                    }
                }
            };
            let waited = begun.get_or_insert_with(Instant::now).elapsed();
            if waited >= self.patience && refusal != Refusal::CallOutstanding {
                return Err(refusal.into());
            }
        }
    }

    // The reply to a call that was sent; or the refusal after which it may be made again.
    fn wait_for(&self, reply: &Receiver<Result<Reply, Error>>, only_reads: bool) -> Result<Result<Reply, Refusal>, Error> {
        let result = reply.recv().unwrap_or_else(|_| Err(self.core.lock().fault().unwrap_or(Error::Closed)));
        self.core.tell();
        match result {
            Ok(reply) => Ok(Ok(reply)),
            Err(Error::Refused(refusal)) if is_for_now(refusal, only_reads) => {
                thread::sleep(PAUSE);
                Ok(Err(refusal))
            }
            Err(error) => Err(error),
        }
    }

    fn call(&self, call: &Call, watcher: Option<&Teller>) -> Result<Reply, Error> {
        let reply = self.ask(call.only_reads(), |state| state.call(call, watcher))?;
        reply.ok_or_else(|| Error::Malformed("an answer to another call".to_owned()))
    }

    // An Open that may make a node waits until all who cache the node, or its directory, have let it go, also where the node is there.
    // So it is opened plainly first, and asked for so only where that finds none.
    fn open_for(&self, opening: &Opening, watcher: Option<&Teller>) -> Result<Handle, Error> {
        if opening.may_find() {
            match self.open_as(&opening.plain(), watcher) {
                Err(Error::Refused(Refusal::NotFound)) => {}
                opened => return opened,
            }
        }
        self.open_as(opening, watcher)
    }

    fn open_as(&self, opening: &Opening, watcher: Option<&Teller>) -> Result<Handle, Error> {
        match self.call(&Call::Open(opening), watcher)?.answer {
            Answer::Opened(number) => Ok(Handle { client: self.number, number }),
            other => Err(unfit(&other)),
        }
    }

    // The number of a handle of this client.
    pub(crate) fn own(&self, handle: Handle) -> Result<u64, Error> {
        if handle.client == self.number { Ok(handle.number) } else { Err(Refusal::BadHandle.into()) }
    }

    // A call that is answered by a bare word.
    fn done(&self, call: &Call) -> Result<(), Error> {
        match self.call(call, None)?.answer {
            Answer::Done | Answer::Closed | Answer::Poisoned => Ok(()),
            other => Err(unfit(&other)),
        }
    }

    /// Opens a node, as it is asked for. If it may be made it is opened plainly first, so that one which is there waits for nobody's
    /// cache.
    ///
    /// ```
    /// # programs::with_server(|address| -> Result<(), tillermoss::Error> {
    /// # use tillermoss::*;
    /// # let client = &Client::connect(&Options::new(address, "ann"))?;
    /// // A directory, made where there is none.
    /// let directory = Opening { create: Some(Create::default()), ..Opening::new("/ls/c/d", Mode::READ) };
    /// client.open_with(&directory)?;
    /// assert_eq!(client.list(client.open_with(&directory)?)?, [""; 0]);
    /// # Ok(()) });
    /// ```
    ///
    /// # Errors
    ///
    /// As the master refuses it: `NotFound`, `Exists`, `Denied` and others.
    pub fn open_with(&self, opening: &Opening) -> Result<Handle, Error> {
        self.open_for(opening, None)
    }

    /// Opens a node that is there. A name that isn't there may be kept in the cache: then the next Open asks nobody.
    ///
    /// ```
    /// # programs::with_server(|address| -> Result<(), tillermoss::Error> {
    /// # use tillermoss::*;
    /// # let client = &Client::connect(&Options::new(address, "ann"))?;
    /// assert_eq!(client.open("/ls/c/f", Mode::READ).unwrap_err().refusal(), Some(Refusal::NotFound));
    /// client.open("/ls/c/acl/base", Mode::READ)?;
    /// # Ok(()) });
    /// ```
    ///
    /// # Errors
    ///
    /// As the master refuses it: `NotFound`, `Denied` and others.
    pub fn open(&self, name: &str, mode: Mode) -> Result<Handle, Error> {
        self.open_with(&Opening::new(name, mode))
    }

    /// Makes a permanent file, which isn't there yet, and opens it to read and to write.
    ///
    /// ```
    /// # programs::with_server(|address| -> Result<(), tillermoss::Error> {
    /// # use tillermoss::*;
    /// # let client = &Client::connect(&Options::new(address, "ann"))?;
    /// client.create("/ls/c/f", b"hello")?;
    /// assert_eq!(client.create("/ls/c/f", b"").unwrap_err().refusal(), Some(Refusal::Exists));
    /// # Ok(()) });
    /// ```
    ///
    /// # Errors
    ///
    /// As the master refuses it: `Exists`, `NotFound` without a parent, `Denied` and others.
    pub fn create(&self, name: &str, content: &[u8]) -> Result<Handle, Error> {
        let create = Create { must: true, content: Some(content.to_vec()), ..Create::default() };
        self.open_with(&Opening { create: Some(create), ..Opening::new(name, Mode::READ.and(Mode::WRITE)) })
    }

    /// Opens a node to read it, and tells of its events, and of those of the session.
    ///
    /// ```
    /// # programs::with_server(|address| -> Result<(), tillermoss::Error> {
    /// # use tillermoss::*;
    /// # let client = &Client::connect(&Options::new(address, "ann"))?;
    /// let file = client.create("/ls/c/f", b"a")?;
    /// let watch = client.watch("/ls/c/f", Events::CONTENTS)?;
    /// client.set(file, b"b", None)?;
    /// assert!(matches!(watch.events.recv(), Ok(Event::Contents { generation: 2, .. })));
    /// # Ok(()) });
    /// ```
    ///
    /// # Errors
    ///
    /// As the master refuses it: `NotFound`, `Denied` and others.
    pub fn watch(&self, name: &str, events: Events) -> Result<Watch, Error> {
        self.watch_with(&Opening { events, ..Opening::new(name, Mode::READ) })
    }

    /// Opens a node as it is asked for, and tells of its events, and of those of the session.
    ///
    /// ```
    /// # programs::with_server(|address| -> Result<(), tillermoss::Error> {
    /// # use tillermoss::*;
    /// # let client = &Client::connect(&Options::new(address, "ann"))?;
    /// let file = Create { content: Some(vec![]), ..Create::default() };
    /// let opening = Opening { create: Some(file), events: Events::LOCK, ..Opening::new("/ls/c/f", Mode::WRITE) };
    /// let watch = client.watch_with(&opening)?;
    /// client.acquire(watch.handle, LockMode::Exclusive)?;
    /// assert_eq!(watch.events.recv(), Ok(Event::Locked));
    /// # Ok(()) });
    /// ```
    ///
    /// # Errors
    ///
    /// As the master refuses it.
    pub fn watch_with(&self, opening: &Opening) -> Result<Watch, Error> {
        let (watcher, told) = channel();
        let handle = self.open_for(opening, Some(&Teller::Thread(watcher)))?;
        Ok(Watch { handle, events: told })
    }

    // As `watch_with`, for a task that waits for the events.
    pub(crate) fn watch_from_task(&self, opening: &Opening) -> Result<(Handle, UnboundedReceiver<Event>), Error> {
        let (watcher, told) = unbounded_channel();
        let handle = self.open_for(opening, Some(&Teller::Task(watcher)))?;
        Ok((handle, told))
    }

    /// Closes a handle. A lock that it holds is free from then on.
    ///
    /// ```
    /// # programs::with_server(|address| -> Result<(), tillermoss::Error> {
    /// # use tillermoss::*;
    /// # let client = &Client::connect(&Options::new(address, "ann"))?;
    /// let file = client.create("/ls/c/f", b"")?;
    /// client.acquire(file, LockMode::Exclusive)?;
    /// client.close(file)?;
    /// client.try_acquire(client.open("/ls/c/f", Mode::WRITE)?, LockMode::Exclusive)?;
    /// # Ok(()) });
    /// ```
    ///
    /// # Errors
    ///
    /// `BadHandle` where it isn't open.
    pub fn close(&self, handle: Handle) -> Result<(), Error> {
        let number = self.own(handle)?;
        self.done(&Call::Close(number))?;
        self.core.lock().forget(number);
        Ok(())
    }

    /// Each later call on the handle is refused as `Poisoned`, but its close; so is one that waits for its reply.
    ///
    /// ```
    /// # programs::with_server(|address| -> Result<(), tillermoss::Error> {
    /// # use tillermoss::*;
    /// # let client = &Client::connect(&Options::new(address, "ann"))?;
    /// let file = client.create("/ls/c/f", b"")?;
    /// client.poison(file)?;
    /// assert_eq!(client.read(file).unwrap_err().refusal(), Some(Refusal::Poisoned));
    /// client.close(file)?;
    /// # Ok(()) });
    /// ```
    ///
    /// # Errors
    ///
    /// `BadHandle` where it isn't open.
    pub fn poison(&self, handle: Handle) -> Result<(), Error> {
        self.core.lock().poison(self.own(handle)?)
    }

    /// Reads a node: out of the cache, without a message, where it holds it under a lease that runs.
    ///
    /// ```
    /// # programs::with_server(|address| -> Result<(), tillermoss::Error> {
    /// # let client = &tillermoss::Client::connect(&tillermoss::Options::new(address, "ann"))?;
    /// let file = client.create("/ls/c/f", b"hello")?;
    /// assert!(!client.read(file)?.is_served);
    /// let again = client.read(file)?;
    /// assert!(again.is_served);
    /// assert_eq!(again.content, b"hello");
    /// # Ok(()) });
    /// ```
    ///
    /// # Errors
    ///
    /// As the master refuses it: `Denied` where the handle isn't to read, `StaleInstance` where the node is gone, and others.
    pub fn read(&self, handle: Handle) -> Result<View, Error> {
        let reply = self.call(&Call::Read(self.own(handle)?), None)?;
        match reply.answer {
            Answer::Viewed(ShownView { stat, content, children }) => Ok(View { stat, content, children, is_served: reply.is_own }),
            other => Err(unfit(&other)),
        }
    }

    /// Reads a node's content alone, into the place of what the room held: whether the cache served it. That takes no memory where
    /// the room is large enough.
    ///
    /// ```
    /// # programs::with_server(|address| -> Result<(), tillermoss::Error> {
    /// # let client = &tillermoss::Client::connect(&tillermoss::Options::new(address, "ann"))?;
    /// let file = client.create("/ls/c/f", b"hello")?;
    /// let mut room = Vec::with_capacity(64);
    /// assert!(!client.read_into(file, &mut room)?);
    /// assert!(client.read_into(file, &mut room)?);
    /// assert_eq!(room, b"hello");
    /// # Ok(()) });
    /// ```
    ///
    /// # Errors
    ///
    /// As `read`.
    pub fn read_into(&self, handle: Handle, room: &mut Vec<u8>) -> Result<bool, Error> {
        let number = self.own(handle)?;
        match self.ask(true, |state| state.read_into(number, room))? {
            None => Ok(true),
            Some(reply) => {
                *room = reply.content();
                Ok(false)
            }
        }
    }

    /// A reader for one thread, which takes no lock where the cache answers.
    ///
    /// ```
    /// # programs::with_server(|address| -> Result<(), tillermoss::Error> {
    /// # let client = &tillermoss::Client::connect(&tillermoss::Options::new(address, "ann"))?;
    /// let file = client.create("/ls/c/f", b"hello")?;
    /// assert_eq!(client.handle_reader().read(file)?, b"hello");
    /// # Ok(()) });
    /// ```
    #[must_use]
    pub fn handle_reader(&self) -> HandleReader<&Client> {
        HandleReader::of(self)
    }

    // As `read_into`, with word of how long that is what the cache answers.
    pub(crate) fn read_marked(&self, handle: Handle, room: &mut Vec<u8>) -> Result<Mark, Error> {
        let number = self.own(handle)?;
        let mut mark = Mark::NEVER;
        let reply = self.ask(true, |state| {
            let tried = state.read_into(number, room)?;
            if matches!(tried, Tried::Served) {
                mark = state.mark();
            }
            Ok(tried)
        })?;
        if let Some(reply) = reply {
            *room = reply.content();
        }
        Ok(mark)
    }

    // The mark of what the cache would answer to a read now, and the moment at which it would; None where it wouldn't.
    pub(crate) fn holds(&self, handle: Handle) -> Option<(Mark, u64)> {
        let number = self.own(handle).ok()?;
        self.core.lock().holds(number)
    }

    // Whether it has begun no step since, and its lease still ran at this moment before.
    pub(crate) fn stands_as(&self, mark: Mark, now: u64) -> bool {
        self.core.stands_as(mark, now)
    }

    /// The numbers of a node.
    ///
    /// ```
    /// # programs::with_server(|address| -> Result<(), tillermoss::Error> {
    /// # let client = &tillermoss::Client::connect(&tillermoss::Options::new(address, "ann"))?;
    /// let stat = client.stat(client.create("/ls/c/f", b"hello")?)?;
    /// assert_eq!((stat.length, stat.content_generation), (5, 1));
    /// # Ok(()) });
    /// ```
    ///
    /// # Errors
    ///
    /// As the master refuses it: `StaleInstance` where the node is gone, and others.
    pub fn stat(&self, handle: Handle) -> Result<Stat, Error> {
        match self.call(&Call::Stat(self.own(handle)?), None)?.answer {
            Answer::Stated(stat) => Ok(stat),
            other => Err(unfit(&other)),
        }
    }

    /// The last components of the names of a directory's children, in order of bytes: out of the cache as `read`.
    ///
    /// ```
    /// # programs::with_server(|address| -> Result<(), tillermoss::Error> {
    /// # use tillermoss::*;
    /// # let client = &Client::connect(&Options::new(address, "ann"))?;
    /// client.create("/ls/c/f", b"")?;
    /// assert_eq!(client.list(client.open("/ls/c", Mode::READ)?)?, ["acl", "f"]);
    /// # Ok(()) });
    /// ```
    ///
    /// # Errors
    ///
    /// As the master refuses it: `WrongKind` for a file, and others.
    pub fn list(&self, handle: Handle) -> Result<Vec<String>, Error> {
        match self.call(&Call::List(self.own(handle)?), None)?.answer {
            Answer::Names(names) | Answer::Viewed(ShownView { children: names, .. }) => Ok(names),
            other => Err(unfit(&other)),
        }
    }

    /// Writes the whole content of a file, at most 262,144 bytes; with a generation only where that is the present one. It waits
    /// until no client has the old content in its cache.
    ///
    /// ```
    /// # programs::with_server(|address| -> Result<(), tillermoss::Error> {
    /// # use tillermoss::*;
    /// # let client = &Client::connect(&Options::new(address, "ann"))?;
    /// let file = client.create("/ls/c/f", b"a")?;
    /// client.set(file, b"b", None)?;
    /// client.set(file, b"c", Some(2))?;
    /// assert_eq!(client.set(file, b"d", Some(2)).unwrap_err().refusal(), Some(Refusal::WrongGeneration(3)));
    /// # Ok(()) });
    /// ```
    ///
    /// # Errors
    ///
    /// As the master refuses it: `WrongGeneration`, `TooLarge` and others. `Unknown` where another master came up meanwhile: then it
    /// was done, or not.
    pub fn set(&self, handle: Handle, content: &[u8], generation: Option<u64>) -> Result<(), Error> {
        self.done(&Call::Set(self.own(handle)?, content, generation))
    }

    /// Names the ACLs to read, to write, and to change ACLs; with a generation only where that is the present one.
    ///
    /// ```
    /// # programs::with_server(|address| -> Result<(), tillermoss::Error> {
    /// # use tillermoss::*;
    /// # let client = &Client::connect(&Options::new(address, "ann"))?;
    /// client.create("/ls/c/acl/readers", b"ann\nbob\n")?;
    /// client.create("/ls/c/f", b"")?;
    /// let file = client.open("/ls/c/f", Mode::READ.and(Mode::CHANGE))?;
    /// client.set_acl(file, &["readers", "base", "base"].map(str::to_owned), None)?;
    /// assert_eq!(client.stat(file)?.acl[0], "readers");
    /// # Ok(()) });
    /// ```
    ///
    /// # Errors
    ///
    /// As `set`.
    pub fn set_acl(&self, handle: Handle, acl: &[String; 3], generation: Option<u64>) -> Result<(), Error> {
        self.done(&Call::SetAcl(self.own(handle)?, acl, generation))
    }

    /// Deletes a node that has no children.
    ///
    /// ```
    /// # programs::with_server(|address| -> Result<(), tillermoss::Error> {
    /// # use tillermoss::*;
    /// # let client = &Client::connect(&Options::new(address, "ann"))?;
    /// let file = client.create("/ls/c/f", b"")?;
    /// client.delete(file)?;
    /// assert_eq!(client.read(file).unwrap_err().refusal(), Some(Refusal::StaleInstance));
    /// # Ok(()) });
    /// ```
    ///
    /// # Errors
    ///
    /// As the master refuses it: `NotEmpty` and others; `Unknown` as at `set`.
    pub fn delete(&self, handle: Handle) -> Result<(), Error> {
        self.done(&Call::Delete(self.own(handle)?))
    }

    /// Takes the node's lock, and waits for it. Meanwhile other calls of this client that the cache doesn't answer wait too.
    ///
    /// ```
    /// # programs::with_server(|address| -> Result<(), tillermoss::Error> {
    /// # use tillermoss::*;
    /// # let client = &Client::connect(&Options::new(address, "ann"))?;
    /// let file = client.create("/ls/c/f", b"")?;
    /// client.acquire(file, LockMode::Exclusive)?;
    /// assert_eq!(client.stat(file)?.lock_generation, Some(1));
    /// # Ok(()) });
    /// ```
    ///
    /// # Errors
    ///
    /// As the master refuses it: `Held` where this handle holds it, and others. `Unknown` where another master came up meanwhile:
    /// then the lock is held, or not, and `release` makes it sure.
    pub fn acquire(&self, handle: Handle, mode: LockMode) -> Result<(), Error> {
        self.done(&Call::Acquire(self.own(handle)?, mode))
    }

    /// Takes the node's lock, if that can be had at once.
    ///
    /// ```
    /// # programs::with_server(|address| -> Result<(), tillermoss::Error> {
    /// # use tillermoss::*;
    /// # let client = &Client::connect(&Options::new(address, "ann"))?;
    /// client.acquire(client.create("/ls/c/f", b"")?, LockMode::Shared)?;
    /// let other = client.open("/ls/c/f", Mode::WRITE)?;
    /// let refusal = client.try_acquire(other, LockMode::Exclusive).unwrap_err().refusal();
    /// assert_eq!(refusal, Some(Refusal::Held(LockMode::Shared)));
    /// client.try_acquire(other, LockMode::Shared)?;
    /// # Ok(()) });
    /// ```
    ///
    /// # Errors
    ///
    /// `Held` and `Delayed` where it can't; else as `acquire`.
    pub fn try_acquire(&self, handle: Handle, mode: LockMode) -> Result<(), Error> {
        self.done(&Call::TryAcquire(self.own(handle)?, mode))
    }

    /// Lets the lock go.
    ///
    /// ```
    /// # programs::with_server(|address| -> Result<(), tillermoss::Error> {
    /// # use tillermoss::*;
    /// # let client = &Client::connect(&Options::new(address, "ann"))?;
    /// let file = client.create("/ls/c/f", b"")?;
    /// client.acquire(file, LockMode::Exclusive)?;
    /// client.release(file)?;
    /// assert_eq!(client.release(file).unwrap_err().refusal(), Some(Refusal::NotHolder));
    /// # Ok(()) });
    /// ```
    ///
    /// # Errors
    ///
    /// `NotHolder` where the handle doesn't hold it, and others.
    pub fn release(&self, handle: Handle) -> Result<(), Error> {
        self.done(&Call::Release(self.own(handle)?))
    }

    /// The bytes of the sequencer of the lock that the handle holds: they show others that it is held (Burrows 2006, section 2.4).
    ///
    /// ```
    /// # programs::with_server(|address| -> Result<(), tillermoss::Error> {
    /// # use tillermoss::*;
    /// # let client = &Client::connect(&Options::new(address, "ann"))?;
    /// let file = client.create("/ls/c/f", b"")?;
    /// client.acquire(file, LockMode::Exclusive)?;
    /// let sequencer = client.sequencer(file)?;
    /// client.check_sequencer(&sequencer)?;
    /// # Ok(()) });
    /// ```
    ///
    /// # Errors
    ///
    /// `NotHolder` where it holds none, and others.
    pub fn sequencer(&self, handle: Handle) -> Result<Vec<u8>, Error> {
        match self.call(&Call::GetSequencer(self.own(handle)?), None)?.answer {
            Answer::Sequencer(bytes) => Ok(bytes),
            other => Err(unfit(&other)),
        }
    }

    /// A number that rises from one holder of this name to the next, also where the node was deleted and made again: that of the
    /// sequencer of the lock that the handle holds ([`Sequencer::fencing_number`]).
    ///
    /// ```
    /// # programs::with_server(|address| -> Result<(), tillermoss::Error> {
    /// # use tillermoss::*;
    /// # let client = &Client::connect(&Options::new(address, "ann"))?;
    /// let file = client.create("/ls/c/f", b"")?;
    /// client.acquire(file, LockMode::Exclusive)?;
    /// let first = client.fencing_number(file)?;
    /// client.delete(file)?;
    /// let again = client.create("/ls/c/f", b"")?;
    /// client.acquire(again, LockMode::Exclusive)?;
    /// assert!(client.fencing_number(again)? > first);
    /// # Ok(()) });
    /// ```
    ///
    /// # Errors
    ///
    /// As `sequencer`.
    pub fn fencing_number(&self, handle: Handle) -> Result<u128, Error> {
        let bytes = self.sequencer(handle)?;
        let sequencer = Sequencer::read(&bytes).ok_or_else(|| Error::Malformed("the sequencer".to_owned()))?;
        Ok(sequencer.fencing_number())
    }

    /// The handle's later calls stand under the sequencer of these bytes: they are refused once its lock is held no more.
    ///
    /// ```
    /// # programs::with_server(|address| -> Result<(), tillermoss::Error> {
    /// # use tillermoss::*;
    /// # let client = &Client::connect(&Options::new(address, "ann"))?;
    /// let lock = client.create("/ls/c/lock", b"")?;
    /// client.acquire(lock, LockMode::Exclusive)?;
    /// let file = client.create("/ls/c/f", b"")?;
    /// client.set_sequencer(file, &client.sequencer(lock)?)?;
    /// client.set(file, b"under the lock", None)?;
    /// client.release(lock)?;
    /// assert_eq!(client.set(file, b"too late", None).unwrap_err().refusal(), Some(Refusal::SequencerStale));
    /// # Ok(()) });
    /// ```
    ///
    /// # Errors
    ///
    /// `BadSequencer`, `SequencerStale` and others.
    pub fn set_sequencer(&self, handle: Handle, sequencer: &[u8]) -> Result<(), Error> {
        self.done(&Call::SetSequencer(self.own(handle)?, sequencer))
    }

    /// Whether the lock of the sequencer of these bytes is held: Ok, or why not.
    ///
    /// ```
    /// # programs::with_server(|address| -> Result<(), tillermoss::Error> {
    /// # use tillermoss::*;
    /// # let client = &Client::connect(&Options::new(address, "ann"))?;
    /// let file = client.create("/ls/c/f", b"")?;
    /// client.acquire(file, LockMode::Exclusive)?;
    /// let sequencer = client.sequencer(file)?;
    /// client.release(file)?;
    /// assert_eq!(client.check_sequencer(&sequencer).unwrap_err().refusal(), Some(Refusal::SequencerStale));
    /// # Ok(()) });
    /// ```
    ///
    /// # Errors
    ///
    /// `BadSequencer`, `SequencerStale` and others.
    pub fn check_sequencer(&self, sequencer: &[u8]) -> Result<(), Error> {
        self.done(&Call::CheckSequencer(sequencer))
    }
}

impl Drop for Client {
    fn drop(&mut self) {
        // (where it can't leave its session ends when its lease has run out)
        let _ = self.part(PARTING);
    }
}

// Whether a call that was refused so may be made again.
fn is_for_now(refusal: Refusal, only_reads: bool) -> bool {
    match refusal {
        Refusal::Recovering | Refusal::Busy => true,
        Refusal::Unknown => only_reads,
        _ => false,
    }
}

fn unfit(answer: &Answer) -> Error {
    Error::Malformed(format!("an answer to another call: {answer:?}"))
}
