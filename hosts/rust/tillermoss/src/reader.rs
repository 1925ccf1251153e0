//! Reads by name, for many threads: one keeps what the cache answers, and all view it.

use crate::calls::Opening;
use crate::client::{Client, Handle};
use crate::clock;
use crate::core::Mark;
use crate::errors::Error;
use crate::events::{Event, Events};
use crate::nodes::{Mode, Stat, View};
use crate::refusals::Refusal;
use bytes::Bytes;
use std::collections::HashMap;
use std::sync::atomic::{AtomicU64, Ordering};
use std::sync::{Arc, Mutex, MutexGuard, PoisonError, RwLock};
use std::time::Duration;
use tokio::sync::mpsc::UnboundedReceiver;

/// How many names are kept at once: with one more the one that was asked for longest ago is let go. (The cache holds as many.)
const MOST: usize = 4096;

/// How many milliseconds a name stays open at most. Then it is opened anew, so that the master says anew who may read it.
const OPEN: u64 = 10_000;

/// How many pages were published, by all readers.
static PAGES: AtomicU64 = AtomicU64::new(0);

/// How often a node that is deleted and made again meanwhile is tried to be read.
const TRIES: u32 = 10;

/// What a node shows: all who read it have the same.
///
/// ```
/// # use tillermoss::*;
/// # let server = programs::server_of_its_own();
/// # let address = server.address.as_str();
/// let reader = Reader::new(Client::connect(&Options::new(address, "ann"))?);
/// let page: std::sync::Arc<Page> = reader.read("/ls/c")?.page;
/// assert_eq!((page.stat.kind, &page.children[..]), (Kind::Directory, &["acl".to_owned()][..]));
/// # Ok::<(), Error>(())
/// ```
#[derive(Clone, Debug, PartialEq, Eq)]
pub struct Page {
    /// Its numbers.
    pub stat: Stat,
    /// Its whole content; empty for a directory.
    pub content: Bytes,
    /// The last components of the names of its children, in order of bytes; none of a file.
    pub children: Vec<String>,
    /// Of two pages of a name the later has the greater.
    pub order: u64,
}

/// What a name showed at one moment, which lay within the call that answered it.
///
/// ```
/// # use tillermoss::*;
/// # let server = programs::server_of_its_own();
/// # let address = server.address.as_str();
/// Client::connect(&Options::new(address, "ann"))?.create("/ls/c/f", b"hello")?;
/// let reader = Reader::new(Client::connect(&Options::new(address, "ann"))?);
/// let sight: Sight = reader.read("/ls/c/f")?;
/// assert_eq!(&sight.page.content[..], b"hello");
/// assert!(!sight.lease_left.is_zero());
/// # Ok::<(), Error>(())
/// ```
#[derive(Clone, Debug)]
pub struct Sight {
    /// What it showed.
    pub page: Arc<Page>,
    /// How long at most from that moment on nobody changes it unless the client hears of that first; zero where the cache doesn't hold it.
    pub lease_left: Duration,
}

/// A node that a task watches: its handle, and its events. They end when the handle is closed or the session is lost.
///
/// ```
/// # use tillermoss::*;
/// # let server = programs::server_of_its_own();
/// # let address = server.address.as_str();
/// let reader = Reader::new(Client::connect(&Options::new(address, "ann"))?);
/// let mut watch: TaskWatch = reader.watch("/ls/c", Events::CHILDREN)?;
/// Client::connect(&Options::new(address, "ann"))?.create("/ls/c/f", b"hello")?;
/// assert_eq!(watch.events.blocking_recv(), Some(Event::ChildAdded("/ls/c/f".to_owned())));
/// # Ok::<(), Error>(())
/// ```
#[derive(Debug)]
pub struct TaskWatch {
    /// By which it is open.
    pub handle: Handle,
    /// What happens to it.
    pub events: UnboundedReceiver<Event>,
}

/// A name that is open.
#[derive(Clone, Copy, Debug)]
struct Open {
    handle: Handle,
    until: u64,
}

/// What was published of a name last.
#[derive(Debug, Default)]
struct Last {
    page: Option<Arc<Page>>,
    mark: Mark,
    // (of its handle)
    until: u64,
}

/// A name that is kept.
#[derive(Debug, Default)]
struct KeptName {
    last: RwLock<Last>,
    // Who reads the name of the master has this meanwhile. So nothing comes into the cache under the name but what is published after it,
    // and where the cache holds the name, it holds what was published last.
    open: Mutex<Option<Open>>,
    used: AtomicU64,
}

/// Reads nodes by their names for any number of threads. Each answer is what the client's cache would answer at a moment within the
/// call, and so what the master's rows hold then; or what the master answered within it.
///
/// What the cache answered is published, and holds until the client makes its next step or its lease ends, by the law `hit_lasts` of
/// the library: so long [`hit`](Reader::hit) takes no lock of the client's. A step is counted before its message goes out: so no change
/// is made while a hit still answers what was there before.
///
/// A name stays open for 10 s at most: who may no longer read it is refused within that time. An ephemeral node isn't kept open, because
/// that would keep it there: each read of it asks the master.
///
/// ```
/// # use tillermoss::*;
/// # let server = programs::server_of_its_own();
/// # let address = server.address.as_str();
/// let writer = Client::connect(&Options::new(address, "ann"))?;
/// let file = writer.create("/ls/c/f", b"hello")?;
/// let reader = Reader::new(Client::connect(&Options::new(address, "ann"))?);
/// assert!(reader.hit("/ls/c/f").is_none());
/// reader.read("/ls/c/f")?;
/// std::thread::scope(|scope| {
///     for _ in 0..4 {
///         scope.spawn(|| assert_eq!(&reader.read("/ls/c/f").unwrap().page.content[..], b"hello"));
///     }
/// });
/// writer.set(file, b"hi", None)?;
/// assert!(reader.hit("/ls/c/f").is_none());
/// assert_eq!(&reader.read("/ls/c/f")?.page.content[..], b"hi");
/// # Ok::<(), Error>(())
/// ```
#[derive(Debug)]
pub struct Reader {
    client: Client,
    // (strangers choose the names: not by a hash that they can foresee)
    kept: RwLock<HashMap<String, Arc<KeptName>>>,
}

impl Reader {
    /// One of this client, which nobody else has.
    ///
    /// ```
    /// # use tillermoss::*;
    /// # let server = programs::server_of_its_own();
    /// # let address = server.address.as_str();
    /// let reader = Reader::new(Client::connect(&Options::new(address, "ann"))?);
    /// assert_eq!(reader.read("/ls/c/none").unwrap_err().refusal(), Some(Refusal::NotFound));
    /// # Ok::<(), Error>(())
    /// ```
    #[must_use]
    pub fn new(client: Client) -> Reader {
        Reader { client, kept: RwLock::default() }
    }

    /// Whether the session is lost. Then nothing is answered any more.
    ///
    /// ```
    /// # use tillermoss::*;
    /// # let server = programs::server_of_its_own();
    /// # let address = server.address.as_str();
    /// assert!(!Reader::new(Client::connect(&Options::new(address, "ann"))?).is_lost());
    /// # Ok::<(), Error>(())
    /// ```
    #[must_use]
    pub fn is_lost(&self) -> bool {
        self.client.is_lost()
    }

    /// How long the client trusts its lease still, as [`Client::lease_left`] says.
    ///
    /// ```
    /// # use tillermoss::*;
    /// # let server = programs::server_of_its_own();
    /// # let address = server.address.as_str();
    /// assert!(!Reader::new(Client::connect(&Options::new(address, "ann"))?).lease_left().is_zero());
    /// # Ok::<(), Error>(())
    /// ```
    #[must_use]
    pub fn lease_left(&self) -> Duration {
        self.client.lease_left()
    }

    /// What the cache answers at this moment; None where the master has to be asked. It waits for nobody.
    ///
    /// ```
    /// # use tillermoss::*;
    /// # let server = programs::server_of_its_own();
    /// # let address = server.address.as_str();
    /// let reader = Reader::new(Client::connect(&Options::new(address, "ann"))?);
    /// assert!(reader.hit("/ls/c/acl/base").is_none());
    /// reader.read("/ls/c/acl/base")?;
    /// assert_eq!(&reader.hit("/ls/c/acl/base").unwrap().page.content[..], b"ann\nbob\n");
    /// # Ok::<(), Error>(())
    /// ```
    #[must_use]
    pub fn hit(&self, name: &str) -> Option<Sight> {
        // (the clock first: at that moment the client stood as it does when its turns are read)
        let now = clock::now();
        let kept = self.kept.read().unwrap_or_else(PoisonError::into_inner).get(name).cloned()?;
        kept.used.store(now, Ordering::Relaxed);
        kept.published(&self.client, now).or_else(|| {
            // (whoever has it asks the master)
            let open = kept.open.try_lock().ok()?;
            kept.confirmed(&self.client, open.as_ref()?)
        })
    }

    /// What the cache answers, else what the master does.
    ///
    /// ```
    /// # use tillermoss::*;
    /// # let server = programs::server_of_its_own();
    /// # let address = server.address.as_str();
    /// let reader = Reader::new(Client::connect(&Options::new(address, "ann"))?);
    /// assert_eq!(&reader.read("/ls/c/acl/base")?.page.content[..], b"ann\nbob\n");
    /// # Ok::<(), Error>(())
    /// ```
    ///
    /// # Errors
    ///
    /// As the master refuses an open and a read of it: `NotFound`, `Denied` and others.
    pub fn read(&self, name: &str) -> Result<Sight, Error> {
        let kept = self.keep(name);
        let mut open = kept.open();
        let read = self.read_kept(name, &kept, &mut open);
        if read.is_err() {
            self.close(open.take());
        }
        if open.is_none() || !self.is_kept(name, &kept) {
            *kept.last.write().unwrap_or_else(PoisonError::into_inner) = Last::default();
            self.close(open.take());
            self.let_go(name, &kept);
        }
        read
    }

    /// The numbers of a node, with that of its lock: the master answers.
    ///
    /// ```
    /// # use tillermoss::*;
    /// # let server = programs::server_of_its_own();
    /// # let address = server.address.as_str();
    /// let reader = Reader::new(Client::connect(&Options::new(address, "ann"))?);
    /// assert_eq!(reader.stat("/ls/c/acl/base")?.length, 8);
    /// # Ok::<(), Error>(())
    /// ```
    ///
    /// # Errors
    ///
    /// As the master refuses an open of it.
    pub fn stat(&self, name: &str) -> Result<Stat, Error> {
        let handle = self.open(name)?;
        let stat = self.client.stat(handle);
        self.client.close(handle)?;
        stat
    }

    /// Watches a node for a task. An ephemeral one stays as long as it is watched.
    ///
    /// ```
    /// # use tillermoss::*;
    /// # let server = programs::server_of_its_own();
    /// # let address = server.address.as_str();
    /// let reader = Reader::new(Client::connect(&Options::new(address, "ann"))?);
    /// let watch = reader.watch("/ls/c", Events::CHILDREN)?;
    /// reader.end_watch(watch)?;
    /// # Ok::<(), Error>(())
    /// ```
    ///
    /// # Errors
    ///
    /// As the master refuses an open of it.
    pub fn watch(&self, name: &str, events: Events) -> Result<TaskWatch, Error> {
        let (handle, events) = self.client.watch_from_task(&Opening { events, ..Opening::new(name, Mode::READ) })?;
        Ok(TaskWatch { handle, events })
    }

    /// Ends a watch.
    ///
    /// ```
    /// # use tillermoss::*;
    /// # let server = programs::server_of_its_own();
    /// # let address = server.address.as_str();
    /// let reader = Reader::new(Client::connect(&Options::new(address, "ann"))?);
    /// reader.end_watch(reader.watch("/ls/c", Events::CHILDREN)?)?;
    /// # Ok::<(), Error>(())
    /// ```
    ///
    /// # Errors
    ///
    /// As the master refuses its close.
    pub fn end_watch(&self, watch: TaskWatch) -> Result<(), Error> {
        self.client.close(watch.handle)
    }

    fn read_kept(&self, name: &str, kept: &KeptName, open: &mut Option<Open>) -> Result<Sight, Error> {
        for _ in 0..TRIES {
            let opened = self.opened(name, open)?;
            // (somebody may have read it meanwhile)
            if let Some(sight) = kept.confirmed(&self.client, &opened) {
                return Ok(sight);
            }
            match self.client.read(opened.handle) {
                Ok(view) => return Ok(self.publish(kept, opened, view, open)),
                Err(Error::Refused(Refusal::StaleInstance | Refusal::BadHandle)) => self.close(open.take()),
                Err(error) => return Err(error),
            }
        }
        Err(Refusal::StaleInstance.into())
    }

    // The master says who may read it: a client answers a plain Open by itself, where it has such a handle and the cache holds the name.
    fn open(&self, name: &str) -> Result<Handle, Error> {
        self.client.open_with(&Opening { lock_delay: 1, ..Opening::new(name, Mode::READ) })
    }

    // The name, open for a while yet.
    fn opened(&self, name: &str, open: &mut Option<Open>) -> Result<Open, Error> {
        if let Some(opened) = open.filter(|opened| clock::now() < opened.until) {
            return Ok(opened);
        }
        let until = clock::now().saturating_add(OPEN);
        let opened = Open { handle: self.open(name)?, until };
        self.close(open.replace(opened));
        Ok(opened)
    }

    // What the master, or the cache, has just answered.
    fn publish(&self, kept: &KeptName, opened: Open, view: View, open: &mut Option<Open>) -> Sight {
        let View { stat, content, children, .. } = view;
        if stat.is_ephemeral {
            self.close(open.take());
        }
        // (who reads a name of the master has it alone meanwhile)
        let order = PAGES.fetch_add(1, Ordering::Relaxed);
        let page = Arc::new(Page { stat, content: content.into(), children, order });
        let (mark, now) = self.client.holds(opened.handle).filter(|_| open.is_some()).unwrap_or((Mark::NEVER, 0));
        let mut last = kept.last.write().unwrap_or_else(PoisonError::into_inner);
        *last = Last { page: Some(page.clone()), mark, until: opened.until };
        Sight { page, lease_left: mark.left(now) }
    }

    // (one that can't be closed is closed with the session)
    fn close(&self, open: Option<Open>) {
        open.into_iter().for_each(|open| drop(self.client.close(open.handle)));
    }

    fn keep(&self, name: &str) -> Arc<KeptName> {
        let now = clock::now();
        let mut all = self.kept.write().unwrap_or_else(PoisonError::into_inner);
        let longest = || all.iter().min_by_key(|(_, kept)| kept.used.load(Ordering::Relaxed)).map(|(name, _)| name.clone());
        let over = if all.len() >= MOST && !all.contains_key(name) { longest() } else { None };
        let gone = over.and_then(|name| all.remove(&name));
        let kept = all.entry(name.to_owned()).or_default().clone();
        kept.used.store(now, Ordering::Relaxed);
        drop(all);
        // (whoever reads one that was let go closes it)
        if let Some(mut open) = gone.as_ref().and_then(|gone| gone.open.try_lock().ok()) {
            self.close(open.take());
        }
        kept
    }

    fn is_kept(&self, name: &str, kept: &Arc<KeptName>) -> bool {
        self.kept.read().unwrap_or_else(PoisonError::into_inner).get(name).is_some_and(|other| Arc::ptr_eq(kept, other))
    }

    fn let_go(&self, name: &str, kept: &Arc<KeptName>) {
        let mut all = self.kept.write().unwrap_or_else(PoisonError::into_inner);
        if all.get(name).is_some_and(|other| Arc::ptr_eq(kept, other)) {
            all.remove(name);
        }
    }
}

impl KeptName {
    fn open(&self) -> MutexGuard<'_, Option<Open>> {
        self.open.lock().unwrap_or_else(PoisonError::into_inner)
    }

    // What was published last, where the client has begun no step since, and its lease runs.
    fn published(&self, client: &Client, now: u64) -> Option<Sight> {
        let last = self.last.read().unwrap_or_else(PoisonError::into_inner);
        let holds = now < last.until && client.stands_as(last.mark, now);
        last.page.as_ref().filter(|_| holds).map(|page| Sight { page: page.clone(), lease_left: last.mark.left(now) })
    }

    // What was published last, after a step of the client after which its cache still holds the name.
    fn confirmed(&self, client: &Client, open: &Open) -> Option<Sight> {
        let (mark, now) = client.holds(open.handle).filter(|(_, now)| *now < open.until)?;
        let mut last = self.last.write().unwrap_or_else(PoisonError::into_inner);
        let page = last.page.clone()?;
        (last.mark, last.until) = (mark, open.until);
        Some(Sight { page, lease_left: mark.left(now) })
    }
}
