//! What is watched: each name by one watch of the cell, of which all who watch it hear.

use crate::desks::Desk;
use crate::faults::HttpFault;
use crate::shown;
use bytes::Bytes;
use hyper::Body;
use hyper::body::Sender;
use std::collections::HashMap;
use std::sync::{Arc, Mutex, MutexGuard, PoisonError};
use std::time::Duration;
use tillermoss::{Error, Event, Events, Kind, Page, Refusal, Sight, TaskWatch};
use tokio::sync::{Mutex as Turns, OwnedSemaphorePermit, Semaphore, watch};
use tokio::task::spawn_blocking;
use tokio::time::{sleep, timeout};

/// How long a stream stays silent at most: then who is gone is noticed.
const SILENCE: Duration = Duration::from_secs(15);

/// How long until a name that can't be read for now is read again.
const AGAIN: Duration = Duration::from_millis(200);

/// What is told of a name: who hears of it late hears of the last alone.
#[derive(Clone, Debug)]
struct LastTold {
    // What it shows, the mark of that, and its event.
    page: Arc<Page>,
    mark: String,
    text: Bytes,
    is_safe: bool,
    // The last event, where nothing more is told.
    end: Option<Bytes>,
}

/// What is watched for a principal.
#[derive(Debug)]
pub struct Watches {
    all: Mutex<HashMap<String, Arc<watch::Sender<LastTold>>>>,
    // Who begins to watch a name has the turn.
    beginning: Turns<()>,
    places: Arc<Semaphore>,
}

/// One who watches a name.
#[derive(Debug)]
pub struct Watcher {
    told: watch::Receiver<LastTold>,
    _place: OwnedSemaphorePermit,
}

fn event(name: &str, data: &str) -> Bytes {
    format!("event: {name}\ndata: {data}\n\n").into()
}

impl LastTold {
    fn of(name: &str, sight: &Sight) -> LastTold {
        let page = &sight.page;
        let mark = shown::mark(&page.stat);
        let text = match page.stat.kind {
            Kind::File => format!("id: {mark}\nevent: content\ndata: {}\n\n", shown::view(name, page)).into(),
            Kind::Directory => event("children", &shown::children(name, &page.children).to_string()),
        };
        // (a directory has no generation: it is what it shows)
        let mark = if page.stat.kind == Kind::File { mark } else { format!("{mark} {}", page.children.join(" ")) };
        LastTold { page: page.clone(), mark, text, is_safe: true, end: None }
    }
}

// Tells what was read, unless something later was told; whoever reads it.
fn show(told: &watch::Sender<LastTold>, name: &str, sight: &Sight) {
    told.send_if_modified(|last| {
        if sight.page.order <= last.page.order {
            return false;
        }
        let next = LastTold { is_safe: last.is_safe, end: last.end.take(), ..LastTold::of(name, sight) };
        let is_other = next.mark != last.mark;
        *last = next;
        is_other
    });
}

impl Watches {
    /// None yet; so many who watch at once.
    pub fn new(most: usize) -> Watches {
        Watches { all: Mutex::default(), beginning: Turns::default(), places: Arc::new(Semaphore::new(most)) }
    }

    fn all(&self) -> MutexGuard<'_, HashMap<String, Arc<watch::Sender<LastTold>>>> {
        self.all.lock().unwrap_or_else(PoisonError::into_inner)
    }

    fn join(&self, name: &str) -> Option<(Arc<watch::Sender<LastTold>>, watch::Receiver<LastTold>)> {
        self.all().get(name).map(|told| (told.clone(), told.subscribe()))
    }

    // If nobody watches the name any more it is forgotten.
    fn forget(&self, name: &str, told: &Arc<watch::Sender<LastTold>>, is_over: bool) -> bool {
        let mut all = self.all();
        let is_left = is_over || told.receiver_count() == 0;
        if is_left && all.get(name).is_some_and(|other| Arc::ptr_eq(other, told)) {
            all.remove(name);
        }
        is_left
    }
}

impl Desk {
    /// Watches a name.
    pub async fn watch(self: &Arc<Self>, name: &str) -> Result<Watcher, HttpFault> {
        let places = self.watches.places.clone();
        let _place = places.try_acquire_owned().map_err(|_| HttpFault::TooMany("too many watches of this principal"))?;
        if let Some(told) = self.join(name).await? {
            return Ok(Watcher { told, _place });
        }
        let _turn = self.watches.beginning.lock().await;
        if let Some(told) = self.join(name).await? {
            return Ok(Watcher { told, _place });
        }
        let told = self.begin_watch(name.to_owned()).await?;
        Ok(Watcher { told, _place })
    }

    // Where others watch the name already, what it shows now is read for all of them: what was told last may be old.
    async fn join(&self, name: &str) -> Result<Option<watch::Receiver<LastTold>>, HttpFault> {
        let Some((told, heard)) = self.watches.join(name) else {
            return Ok(None);
        };
        show(&told, name, &self.sight(name).await?);
        Ok(Some(heard))
    }

    // (watched first and read then, so that no change between is missed)
    async fn begin_watch(self: &Arc<Self>, name: String) -> Result<watch::Receiver<LastTold>, HttpFault> {
        let wanted = name.clone();
        let (watch, sight) = self
            .read(move |reader| {
                let watch = reader.watch(&wanted, Events::CONTENTS.and(Events::CHILDREN))?;
                match reader.read(&wanted) {
                    Ok(sight) => Ok((watch, sight)),
                    Err(error) => reader.end_watch(watch).and(Err(error)),
                }
            })
            .await?;
        if sight.page.stat.is_ephemeral {
            // (one that can't be closed is closed with the session)
            let _ = self.read(|reader| reader.end_watch(watch)).await;
            return Err(HttpFault::Ephemeral);
        }
        let (told, heard) = watch::channel(LastTold::of(&name, &sight));
        let told = Arc::new(told);
        self.watches.all().insert(name.clone(), told.clone());
        tokio::spawn(self.clone().follow(name, watch, told));
        Ok(heard)
    }

    async fn follow(self: Arc<Self>, name: String, mut watch: TaskWatch, told: Arc<watch::Sender<LastTold>>) {
        let mut is_due = false;
        loop {
            tokio::select! {
                event = watch.events.recv() => is_due |= hear(event, &told),
                () = told.closed() => {}
                () = sleep(AGAIN), if is_due => {}
            }
            while let Ok(event) = watch.events.try_recv() {
                is_due |= hear(Some(event), &told);
            }
            if is_due {
                is_due = self.tell(&name, &told).await;
            }
            let is_over = told.borrow().end.is_some();
            if self.watches.forget(&name, &told, is_over) {
                break;
            }
        }
        // (of a session that is lost nothing is open)
        if let Ok(reader) = self.reader().await {
            drop(spawn_blocking(move || reader.end_watch(watch)));
        }
    }

    // Tells what the name shows now; whether that has to be read again.
    async fn tell(&self, name: &str, told: &watch::Sender<LastTold>) -> bool {
        let wanted = name.to_owned();
        match self.read(move |reader| reader.read(&wanted)).await {
            Ok(sight) => {
                show(told, name, &sight);
                false
            }
            Err(HttpFault::Cell(Error::Refused(Refusal::NotFound | Refusal::StaleInstance))) => {
                end(told, event("deleted", &shown::named(name).to_string()));
                false
            }
            Err(fault) if fault.is_for_now() => true,
            Err(fault) => {
                end(told, event("error", &fault.shown().to_string()));
                false
            }
        }
    }
}

fn end(told: &watch::Sender<LastTold>, last: Bytes) {
    told.send_modify(|told| told.end = Some(last));
}

// Whether the name has to be read after this event.
fn hear(event: Option<Event>, told: &watch::Sender<LastTold>) -> bool {
    match event {
        None => {
            end(told, self::event("error", &HttpFault::SessionLost.shown().to_string()));
            false
        }
        Some(Event::Jeopardy) => {
            told.send_modify(|told| told.is_safe = false);
            false
        }
        Some(Event::Safe) => {
            told.send_modify(|told| told.is_safe = true);
            true
        }
        Some(Event::ChildModified(_) | Event::Locked | Event::Conflict) => false,
        Some(_) => true,
    }
}

impl Watcher {
    /// What is told from here on, as server-sent events; after the event of this number, where one is named.
    pub fn into_body(self, last: Option<String>) -> Body {
        let (sender, body) = Body::channel();
        tokio::spawn(self.tell_all(sender, last.unwrap_or_default()));
        body
    }

    // (who is gone is told nothing more)
    async fn tell_all(mut self, mut sender: Sender, mut sent: String) {
        let mut was_safe = true;
        loop {
            let told = self.told.borrow_and_update().clone();
            let mut texts = Vec::new();
            if told.is_safe != was_safe {
                texts.push(event(if told.is_safe { "safe" } else { "jeopardy" }, "{}"));
                was_safe = told.is_safe;
            }
            if told.mark != sent {
                texts.push(told.text.clone());
                sent = told.mark;
            }
            texts.extend(told.end.clone());
            for text in texts {
                if sender.send_data(text).await.is_err() {
                    return;
                }
            }
            if told.end.is_some() {
                return;
            }
            match timeout(SILENCE, self.told.changed()).await {
                Ok(Ok(())) => {}
                Ok(Err(_)) => return,
                Err(_) => {
                    if sender.send_data(Bytes::from_static(b":\n\n")).await.is_err() {
                        return;
                    }
                }
            }
        }
    }
}
