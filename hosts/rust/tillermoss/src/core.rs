//! What the threads of a client share: the client library behind a lock, and who waits for what.

use crate::calls::Call;
use crate::clock;
use crate::errors::Error;
use crate::events::Event;
use crate::library::{Library, StepStatus};
use crate::lines::{Answer, Line};
use crate::outgoing::Outgoing;
use crate::refusals::Refusal;
use host_wire::{Asked, Notice, TurnedAway};
use std::sync::atomic::{AtomicU64, Ordering};
use std::sync::mpsc::{Receiver, Sender, channel};
use std::sync::{Arc, Condvar, Mutex, MutexGuard, PoisonError};
use std::time::Duration;
use tokio::sync::mpsc::UnboundedSender;

/// How long at most who waits for a change doesn't look again.
const LOOK: Duration = Duration::from_millis(50);

/// How a call ended.
#[derive(Debug)]
pub struct Reply {
    pub answer: Answer,
    /// Whether the client answered it by itself.
    pub is_own: bool,
}

impl Reply {
    fn own(answer: Answer) -> Reply {
        Reply { answer, is_own: true }
    }

    /// The content that it shows.
    pub fn content(self) -> Vec<u8> {
        match self.answer {
            Answer::Viewed(shown) => shown.content,
            _ => Vec::new(),
        }
    }
}

/// How a client stands.
#[derive(Clone, Copy, Debug, PartialEq, Eq)]
pub enum Standing {
    /// It has had no session yet.
    Unstarted,
    /// It has one, and trusts its lease, or is about to hear that it may no more.
    Safe,
    /// Its lease has ended.
    Jeopardy,
    /// It has none, and gets none.
    Lost,
}

/// Why nothing more is done.
#[derive(Clone, Copy, Debug)]
pub enum End {
    Closed,
    TurnedAway(TurnedAway),
}

/// What came of a try to make a call.
#[derive(Debug)]
pub enum Tried {
    /// The client answered it.
    Answered(Reply),
    /// The content that is asked for stands in the room.
    Served,
    /// It was sent; the reply comes here.
    Sent(Receiver<Result<Reply, Error>>),
    /// It can't be made now: another waits for its reply, or the session isn't safe.
    NotNow(Refusal),
}

/// What the cache answered holds, while the client makes no further step and its lease runs.
#[derive(Clone, Copy, Debug, Default, PartialEq, Eq)]
pub struct Mark {
    turn: u64,
    leased_until: u64,
}

impl Mark {
    /// That of an answer which holds for no moment.
    pub const NEVER: Mark = Mark { turn: 0, leased_until: 0 };

    /// How long at most it holds from this moment on.
    pub fn left(self, now: u64) -> Duration {
        Duration::from_millis(self.leased_until.saturating_sub(now))
    }
}

/// Where the events of a handle are told.
#[derive(Clone, Debug)]
pub enum Teller {
    /// To a thread that waits for them.
    Thread(Sender<Event>),
    /// To a task that does.
    Task(UnboundedSender<Event>),
}

impl Teller {
    // Whether anybody is still there to be told.
    fn tell(&self, event: Event) -> bool {
        match self {
            Teller::Thread(events) => events.send(event).is_ok(),
            Teller::Task(events) => events.send(event).is_ok(),
        }
    }
}

/// Who is told of the events of a handle.
#[derive(Debug)]
struct EventWatcher {
    opened: u64,
    handle: u64,
    events: Teller,
}

/// The client library, and who waits for what.
#[derive(Debug)]
pub struct State {
    library: Library,
    turns: Arc<AtomicU64>,
    outgoing: Option<Arc<Outgoing>>,
    notice: Option<Notice>,
    waiter: Option<Sender<Result<Reply, Error>>>,
    new_watcher: Option<Teller>,
    watchers: Vec<EventWatcher>,
    standing: Standing,
    end: Option<End>,
}

/// The state, and word of its changes.
#[derive(Debug)]
pub struct Core {
    state: Mutex<State>,
    changed: Condvar,
    // How many steps the client has begun. Each is counted before it is made, and so before its message is sent.
    turns: Arc<AtomicU64>,
}

impl Core {
    /// That of a client of the library that has done nothing yet.
    pub fn new(library: Library) -> Core {
        let turns = Arc::new(AtomicU64::new(1));
        let state = State {
            library,
            turns: Arc::clone(&turns),
            outgoing: None,
            notice: None,
            waiter: None,
            new_watcher: None,
            watchers: Vec::new(),
            standing: Standing::Unstarted,
            end: None,
        };
        Core { state: Mutex::new(state), changed: Condvar::new(), turns }
    }

    /// Whether the client has begun no step since this mark was made, and its lease still ran at this moment before. Takes no lock.
    pub fn stands_as(&self, mark: Mark, now: u64) -> bool {
        now < mark.leased_until && self.turns.load(Ordering::SeqCst) == mark.turn
    }

    /// The state, for one caller at a time.
    pub fn lock(&self) -> MutexGuard<'_, State> {
        self.state.lock().unwrap_or_else(PoisonError::into_inner)
    }

    /// Waits until something may have changed.
    pub fn wait<'a>(&self, state: MutexGuard<'a, State>) -> MutexGuard<'a, State> {
        self.changed.wait_timeout(state, LOOK).unwrap_or_else(PoisonError::into_inner).0
    }

    /// Tells those who wait that something has changed.
    pub fn tell(&self) {
        self.changed.notify_all();
    }

    /// Nothing more is done from here on; all who wait are told.
    pub fn end(&self, end: End) {
        let mut state = self.lock();
        state.end(end);
        state.disconnect();
        self.tell();
    }
}

impl State {
    /// How the client stands.
    pub fn standing(&self) -> Standing {
        self.standing
    }

    /// The moment from which on the client trusts its lease no more; 0 where the session can't be kept.
    pub fn leased_until(&mut self) -> u64 {
        if self.goes_on() { self.library.leased_until() } else { 0 }
    }

    /// Whether the session can still be kept.
    pub fn goes_on(&self) -> bool {
        self.end.is_none() && self.standing != Standing::Lost
    }

    /// Why nothing more is done.
    pub fn fault(&self) -> Option<Error> {
        self.end.map(|end| match end {
            End::Closed => Error::Closed,
            End::TurnedAway(reason) => Error::TurnedAway(reason),
        })
    }

    /// From here on messages go this way. A Beat goes first, and the outstanding call again.
    pub fn connect(&mut self, outgoing: Arc<Outgoing>) {
        self.outgoing = Some(outgoing);
    }

    // A step of the client begins: what it answered before needs no longer be so.
    fn turn(&self) {
        self.turns.fetch_add(1, Ordering::SeqCst);
    }

    /// The mark of what the cache answers now.
    pub fn mark(&mut self) -> Mark {
        Mark { turn: self.turns.load(Ordering::SeqCst), leased_until: self.library.leased_until() }
    }

    fn end(&mut self, end: End) {
        self.turn();
        self.end.get_or_insert(end);
        self.waiter = None;
        self.watchers.clear();
    }

    /// The connection is gone.
    pub fn disconnect(&mut self) {
        if let Some(outgoing) = self.outgoing.take() {
            outgoing.end();
        }
    }

    // Without a connection a message is lost, and goes again with the next one.
    fn send(&self, message: Option<Vec<u8>>) {
        if let (Some(outgoing), Some(message)) = (&self.outgoing, message) {
            outgoing.send(&message);
        }
    }

    /// Sends a Start or a Beat, which notes the time; gives its number, and the moment until which the client trusts its lease.
    pub fn beat(&mut self) -> (Option<u64>, u64) {
        self.turn();
        let status = self.library.beat(clock::now());
        self.learn(status);
        let message = if status == StepStatus::Send { self.library.message() } else { None };
        let number = message.as_deref().and_then(Asked::read).map(|asked| asked.number());
        self.send(message);
        (number, self.library.leased_until())
    }

    /// Sends the outstanding call again, where there is one.
    pub fn send_again(&mut self) {
        let message = self.library.again();
        self.send(message);
    }

    /// Gives the client a message of its master; or what the server says by itself.
    pub fn give(&mut self, message: &[u8]) {
        if let Some(notice) = Notice::read(message) {
            // (of another master the keeper hears)
            self.notice = Some(notice).filter(|notice| !notice.is_of_new_master()).or(self.notice.take());
            return;
        }
        self.turn();
        let status = self.library.give(clock::now(), message);
        self.learn(status);
        if self.standing == Standing::Unstarted && self.library.leased_until() > 0 {
            self.standing = Standing::Safe;
        }
    }

    /// The mark of what the cache would answer to a read of this handle, and the moment at which it would; None where it wouldn't.
    pub fn holds(&mut self, handle: u64) -> Option<(Mark, u64)> {
        let now = clock::now();
        let is_held = self.end.is_none() && self.library.holds(now, handle);
        is_held.then(|| (self.mark(), now))
    }

    /// Tries to read a content, out of the cache into the room, or by a call.
    pub fn read_into(&mut self, handle: u64, room: &mut Vec<u8>) -> Result<Tried, Error> {
        if let Some(fault) = self.fault() {
            return Err(fault);
        }
        if self.library.hit(clock::now(), handle, room) {
            return Ok(Tried::Served);
        }
        self.turn();
        let status = self.library.read(clock::now(), handle, room);
        if status == StepStatus::Served {
            return Ok(Tried::Served);
        }
        let own = self.learn(status);
        self.tried(status, own, None)
    }

    /// Tries to make a call. The events of the handle that it opens go to the watcher.
    pub fn call(&mut self, call: &Call, watcher: Option<&Teller>) -> Result<Tried, Error> {
        if let Some(fault) = self.fault() {
            return Err(fault);
        }
        if let Some(refusal) = call.fault() {
            return Err(refusal.into());
        }
        self.turn();
        let status = self.library.call(clock::now(), call);
        let own = self.learn(status);
        self.tried(status, own, watcher)
    }

    fn tried(&mut self, status: StepStatus, own: Option<Reply>, watcher: Option<&Teller>) -> Result<Tried, Error> {
        match status {
            StepStatus::Send => {
                // (only the call that ends the session goes out beside another, whose reply is given up)
                self.answer(Err(Refusal::NoSession.into()));
                let (waiter, reply) = channel();
                self.waiter = Some(waiter);
                self.new_watcher = watcher.cloned();
                let message = self.library.message();
                self.send(message);
                Ok(Tried::Sent(reply))
            }
            StepStatus::Served | StepStatus::Done => {
                own.map(Tried::Answered).ok_or_else(|| Error::Malformed("the client's own answer".to_owned()))
            }
            StepStatus::Bad(code) => Err(Error::Malformed(format!("the call, as {code}"))),
            StepStatus::Refused(refusal) => self.refused(refusal),
        }
    }

    // What the client refuses for now may be asked for again.
    fn refused(&self, refusal: Refusal) -> Result<Tried, Error> {
        match refusal {
            Refusal::CallOutstanding | Refusal::InJeopardy => Ok(Tried::NotNow(refusal)),
            Refusal::NoSession if self.standing == Standing::Unstarted => Ok(Tried::NotNow(refusal)),
            refusal => Err(refusal.into()),
        }
    }

    /// Poisons a handle.
    pub fn poison(&mut self, handle: u64) -> Result<(), Error> {
        self.turn();
        let status = self.library.poison(clock::now(), handle);
        self.learn(status);
        match status {
            StepStatus::Refused(refusal) => Err(refusal.into()),
            StepStatus::Bad(code) => Err(Error::Malformed(format!("the handle, as {code}"))),
            _ => Ok(()),
        }
    }

    // Does what the lines of a step tell, and gives the client's own answer where one stands among them.
    fn learn(&mut self, status: StepStatus) -> Option<Reply> {
        if status.is_without_effect() {
            return None;
        }
        let mut own = None;
        for line in self.library.lines().into_iter().filter_map(Line::of) {
            match line {
                Line::Done(0, answer) => own = Some(Reply::own(answer)),
                Line::Served(Some(shown)) => own = Some(Reply::own(Answer::Viewed(shown))),
                Line::Served(None) => own = Some(Reply::own(Answer::Refused(Refusal::NotFound))),
                Line::Done(number, answer) => self.finish(number, answer),
                Line::Event(opened, event) => self.publish(opened, &event),
                Line::Jeopardy => self.stand(Standing::Jeopardy, &Event::Jeopardy),
                Line::Safe => self.stand(Standing::Safe, &Event::Safe),
                Line::Lost => self.lose(),
            }
        }
        own
    }

    // The outstanding call ended.
    fn finish(&mut self, number: u64, answer: Answer) {
        let watcher = self.new_watcher.take();
        let notice = self.notice.take().filter(|notice| notice.number == number);
        if let (Answer::Opened(handle), Some(events)) = (&answer, watcher) {
            self.watchers.push(EventWatcher { opened: number, handle: *handle, events });
        }
        let result = match answer {
            Answer::Refused(refusal) => Err(notice.map_or(refusal.into(), |notice| Error::Limited(notice.reason))),
            answer => Ok(Reply { answer, is_own: false }),
        };
        self.answer(result);
    }

    // Tells it to who waits for the outstanding call.
    fn answer(&mut self, result: Result<Reply, Error>) {
        if let Some(waiter) = self.waiter.take() {
            // (who waited may be gone, and wants it no more)
            let _ = waiter.send(result);
        }
    }

    // Tells an event to the watchers of its handle; one of no handle to all. A watcher who is gone is forgotten.
    fn publish(&mut self, opened: Option<u64>, event: &Event) {
        self.watchers.retain(|watcher| opened.is_some_and(|opened| opened != watcher.opened) || watcher.events.tell(event.clone()));
    }

    fn stand(&mut self, standing: Standing, event: &Event) {
        self.standing = standing;
        self.publish(None, event);
    }

    // The session is lost: no event comes any more, and the outstanding call gets no reply.
    fn lose(&mut self) {
        self.standing = Standing::Lost;
        self.watchers.clear();
        self.answer(Err(Refusal::SessionExpired.into()));
    }

    /// A handle is closed: nobody is told of its events any more.
    pub fn forget(&mut self, handle: u64) {
        self.watchers.retain(|watcher| watcher.handle != handle);
    }
}

#[cfg(test)]
mod tests {
    use super::*;
    use programs::Master;
    use std::io;
    use std::pin::Pin;
    use std::task::{Context, Poll};
    use tokio::io::AsyncWrite;

    const CLIENT: u64 = 7;

    // What went out, each message with whether what a handle reader had read stood still then.
    type Sent = Arc<Mutex<Vec<(bool, Vec<u8>)>>>;

    /// A stream that keeps what is written.
    struct Watching {
        core: Arc<Core>,
        mark: Arc<Mutex<Mark>>,
        sent: Sent,
    }

    impl AsyncWrite for Watching {
        fn poll_write(self: Pin<&mut Self>, _: &mut Context<'_>, bytes: &[u8]) -> Poll<io::Result<usize>> {
            let stood = self.core.stands_as(*self.mark.lock().unwrap(), clock::now());
            // (in front of each message stands how long it is, in four bytes)
            self.sent.lock().unwrap().push((stood, bytes[4..].to_vec()));
            Poll::Ready(Ok(bytes.len()))
        }

        fn poll_flush(self: Pin<&mut Self>, _: &mut Context<'_>) -> Poll<io::Result<()>> {
            Poll::Ready(Ok(()))
        }

        fn poll_shutdown(self: Pin<&mut Self>, _: &mut Context<'_>) -> Poll<io::Result<()>> {
            Poll::Ready(Ok(()))
        }
    }

    /// A client over such a stream, and its master.
    struct Stage {
        core: Arc<Core>,
        mark: Arc<Mutex<Mark>>,
        sent: Sent,
        master: Master,
    }

    impl Stage {
        fn new() -> Stage {
            let core = Arc::new(Core::new(Library::open(CLIENT, "ann").unwrap()));
            let (mark, sent) = (Arc::new(Mutex::new(Mark::NEVER)), Arc::default());
            let stream = Watching { core: Arc::clone(&core), mark: Arc::clone(&mark), sent: Arc::clone(&sent) };
            core.lock().connect(Arc::new(Outgoing::new(Box::new(stream))));
            Stage { core, mark, sent, master: Master::start().unwrap() }
        }

        // A handle reader reads now.
        fn read(&self) {
            *self.mark.lock().unwrap() = self.core.lock().mark();
        }

        // The master answers what went out, and the client hears it. Whether what was read stood still when it went out.
        fn answer(&mut self) -> bool {
            let (stood, message) = self.sent.lock().unwrap().pop().unwrap();
            for (_, said) in self.master.ask(clock::now(), &message).unwrap() {
                self.core.lock().give(&said);
            }
            stood
        }
    }

    #[test]
    fn what_a_handle_reader_read_ends_before_a_message_goes_out() {
        let mut stage = Stage::new();
        stage.core.lock().beat();
        stage.answer();
        stage.read();
        assert!(stage.core.stands_as(*stage.mark.lock().unwrap(), clock::now()));
        stage.core.lock().beat();
        assert!(!stage.answer(), "a Beat");
        stage.read();
        assert!(matches!(stage.core.lock().call(&Call::Leave, None), Ok(Tried::Sent(_))));
        stage.core.lock().send_again();
        let again = stage.sent.lock().unwrap().pop().unwrap();
        assert!(!again.0, "a Leave that goes out again");
        assert!(!stage.answer(), "a Leave");
        assert!(!stage.core.stands_as(*stage.mark.lock().unwrap(), clock::now()));
    }
}
