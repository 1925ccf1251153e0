//! The thread that keeps a client's session: it beats, gives the client what comes, and connects again where a connection is lost.

use crate::clock;
use crate::core::{Core, End};
use crate::errors::Error;
use crate::outgoing::Outgoing;
use crate::reaching::Reach;
use host_wire::sockets::Stream;
use host_wire::trust::worded;
use host_wire::{ANSWER_LIMIT, Blocks, Hello, MasterAnswer, Notice, Said, TurnedAway, Welcome, framed};
use rand::Rng;
use std::io::{self, ErrorKind};
use std::sync::Arc;
use std::time::{Duration, Instant};
use tokio::io::{AsyncRead, AsyncWriteExt};
use tokio::time::{sleep, timeout};

/// How long a connection may take to be made, and a greeting to be answered.
const CONNECTING: Duration = Duration::from_secs(5);

/// How many milliseconds between two tries to connect, at first and at most; of each a random part, half at least, so that not all clients
/// of a server that is gone come back at once.
const PAUSES: (u64, u64) = (20, 500);

/// How many milliseconds at least between two Beats that have nothing to acknowledge.
const PACE: u64 = 20;

/// How many milliseconds an answer is waited for at least, and so many at most where the lease has ended: each time in a row twice as
/// many, else a session couldn't go on where an answer takes longer.
const AGAIN: (u64, u64) = (200, 10_000);

/// How many milliseconds after the end of its lease a client waits for an answer before it tries another server.
const SILENCE: u64 = 3_000;

/// How many milliseconds a master has kept a Beat where the next one is sent once more in the middle.
const LONG: u64 = 20_000;

/// A connection that is bound to a client, with what was read of it after the welcome.
pub struct Connection {
    stream: Box<dyn Stream>,
    blocks: Blocks,
    /// What it is bound to.
    pub welcome: Welcome,
}

/// Connects to the server that is tried now, and greets it. If it can't be reached or turns the client away, another is tried next:
/// the master, where it is told. That a number was given to another client counts once all servers have said so.
pub async fn greet(reach: &Reach, hello: &Hello) -> Result<Connection, Error> {
    let mut master = None;
    let greeted = timeout(CONNECTING, async { welcomed(reach.connect().await?, hello, &mut master).await });
    let mut greeted = greeted.await.unwrap_or_else(|_| Err(io::Error::from(ErrorKind::TimedOut).into()));
    match &mut greeted {
        Ok(_) => {
            reach.is_welcomed();
            return greeted;
        }
        Err(Error::TurnedAway(reason)) => *reason = reach.judge(*reason, master.as_deref()),
        Err(_) => {}
    }
    reach.turn(master.as_deref());
    greeted
}

/// As `greet`, of several servers until one is master, or so long; also of one that stands by.
pub async fn greet_any(reach: &Reach, hello: &Hello, patience: Duration) -> Result<Connection, Error> {
    let begun = Instant::now();
    let mut pause = PAUSES.0;
    // (one that stands by says that there are others, also where it is the only one that is known)
    let mut has_several = reach.has_several();
    loop {
        match greet(reach, hello).await {
            Err(Error::TurnedAway(reason)) if !reason.is_for_now() => return Err(Error::TurnedAway(reason)),
            Err(error) if begun.elapsed() < patience => {
                has_several |= matches!(error, Error::TurnedAway(TurnedAway::NotMaster)) || reach.has_several();
                if !has_several {
                    return Err(error);
                }
                pause = SessionKeeper::rest(pause).await;
            }
            greeted => return greeted,
        }
    }
}

// What came was no greeting, as of a server that listens by TLS there, or nothing came.
fn no_greeting() -> io::Error {
    io::Error::new(ErrorKind::UnexpectedEof, "it gave no greeting: is that its port, and tcp: or tls: as it listens there?")
}

async fn welcomed(mut stream: Box<dyn Stream>, hello: &Hello, master: &mut Option<String>) -> Result<Connection, Error> {
    stream.write_all(&framed(&hello.write())?).await.map_err(worded)?;
    let mut blocks = Blocks::new(ANSWER_LIMIT);
    let block = blocks.next_of(&mut stream).await.map_err(|error| match error.kind() {
        ErrorKind::InvalidData | ErrorKind::UnexpectedEof => no_greeting(),
        _ => worded(error),
    });
    let block = block?.ok_or_else(no_greeting)?;
    *master = Welcome::master(&block);
    match Welcome::read(&block) {
        Ok(Ok(welcome)) => Ok(Connection { stream, blocks, welcome }),
        Ok(Err(reason)) => Err(Error::TurnedAway(reason)),
        Err(_) => Err(Error::Malformed("the server's greeting".to_owned())),
    }
}

/// When the next Beat is due.
#[derive(Debug)]
struct Schedule {
    /// The number of the last one.
    number: Option<u64>,
    /// When that was sent, and when the first one after an answer; and until when the lease lasted then.
    sent: u64,
    first: u64,
    until: u64,
    due: u64,
    /// How many milliseconds an answer is waited for at least.
    pause: u64,
    /// How many milliseconds the last answer took: a master keeps a Beat until the lease is near its end.
    usual: u64,
    /// Whether an answer came.
    is_answered: bool,
}

// What came from the server, as far as the schedule goes by it.
#[derive(Clone, Copy, Debug)]
enum Answering {
    Said(Said),
    NewMaster,
    Other,
}

impl Answering {
    fn read(message: &[u8]) -> Answering {
        match Said::read(message) {
            Some(said) => Answering::Said(said),
            None if Notice::read(message).is_some_and(|notice| notice.is_of_new_master()) => Answering::NewMaster,
            None => Answering::Other,
        }
    }
}

impl Schedule {
    // None was sent yet.
    fn new() -> Schedule {
        Schedule { number: None, sent: 0, first: 0, until: 0, due: 0, pause: AGAIN.0, usual: 0, is_answered: true }
    }

    // One is sent now, under a lease until that moment. An answer to it counts only until the next one is sent: so that goes when an
    // answer has come, else when the lease has ended; and once in the middle, where the master keeps a Beat for long, because what a clock
    // may lose meanwhile is taken off the lease.
    fn sent(&self, now: u64, (number, leased_until): (Option<u64>, u64)) -> Schedule {
        let (first, until, pause) =
            if self.is_answered { (now, leased_until, AGAIN.0) } else { (self.first, self.until, (2 * self.pause).min(AGAIN.1)) };
        let left = leased_until.saturating_sub(now);
        let wait = if self.is_answered && self.usual >= LONG { left.min(self.usual / 2) } else { left };
        let due = now.saturating_add(wait.max(pause));
        Schedule { number, sent: now, first, until, due, pause, usual: self.usual, is_answered: false }
    }

    // From when on the server has been silent for so long that another may be master.
    fn silent_from(&self) -> u64 {
        if self.is_answered { u64::MAX } else { self.first.max(self.until).saturating_add(SILENCE) }
    }

    // A message came. After the answer to the last Beat the next one goes: at once where there is something to acknowledge. Where another
    // master is up the last one is lost.
    fn give(&mut self, now: u64, heard: Answering) {
        let said = match heard {
            Answering::Said(said) => said,
            Answering::NewMaster => {
                self.due = now;
                return;
            }
            Answering::Other => return,
        };
        let is_answer = self.number == Some(said.number);
        let paced = now.max(self.sent.saturating_add(PACE));
        self.due = match said.answer {
            MasterAnswer::Reply(_) => return,
            MasterAnswer::Alive(_, true) if is_answer => now,
            _ if is_answer || said.is_of_old_epoch() => self.due.min(paced),
            _ => return,
        };
        if is_answer {
            self.usual = now.saturating_sub(self.first);
            self.is_answered = true;
        }
    }
}

/// What the thread knows.
#[derive(Debug)]
pub struct SessionKeeper {
    /// What it shares with those who call.
    pub core: Arc<Core>,
    /// How the server is reached.
    pub reach: Reach,
    /// By what it takes its number up again.
    pub hello: Hello,
}

impl SessionKeeper {
    /// Keeps the session over this connection and later ones, until it is lost, or the client is closed or turned away.
    pub async fn run(&self, connection: Connection) {
        let mut next = Some(connection);
        let mut pause = PAUSES.0;
        while self.core.lock().goes_on() {
            let found = match next.take() {
                Some(connection) => Ok(connection),
                None => greet(&self.reach, &self.hello).await,
            };
            match found {
                Ok(connection) => {
                    let mut has_heard = false;
                    // (whatever ends a connection, another is made)
                    let _ = self.keep(connection, &mut has_heard).await;
                    self.core.lock().disconnect();
                    self.core.tell();
                    pause = if has_heard { PAUSES.0 } else { SessionKeeper::rest(pause).await };
                }
                Err(Error::TurnedAway(reason)) if !reason.is_for_now() => {
                    self.core.end(End::TurnedAway(reason));
                }
                Err(_) => {
                    // (a Beat without a connection notes the time)
                    self.core.lock().beat();
                    self.core.tell();
                    pause = SessionKeeper::rest(pause).await;
                }
            }
        }
    }

    // Waits so many milliseconds; gives how many the next time.
    async fn rest(pause: u64) -> u64 {
        let part = rand::thread_rng().gen_range(pause / 2..=pause);
        sleep(Duration::from_millis(part)).await;
        (2 * pause).min(PAUSES.1)
    }

    // Keeps it over this connection, until that is lost; whether the master was heard of meanwhile.
    async fn keep(&self, connection: Connection, has_heard: &mut bool) -> io::Result<()> {
        let Connection { stream, blocks, .. } = connection;
        let (read, write) = tokio::io::split(stream);
        let outgoing = Arc::new(Outgoing::new(Box::new(write)));
        self.core.lock().connect(outgoing.clone());
        tokio::select! {
            end = self.hear(read, blocks, has_heard) => end,
            end = outgoing.write_all() => end,
        }
    }

    async fn hear(&self, mut read: impl AsyncRead + Unpin, mut blocks: Blocks, has_heard: &mut bool) -> io::Result<()> {
        let mut schedule = self.beat(true, &Schedule::new());
        loop {
            let silent_from = if self.reach.has_several() { schedule.silent_from() } else { u64::MAX };
            let rest = schedule.due.min(silent_from).saturating_sub(clock::now()).max(1);
            match timeout(Duration::from_millis(rest), blocks.next_of(&mut read)).await {
                Ok(Ok(None)) => return Ok(()),
                Ok(Ok(Some(message))) => {
                    *has_heard = true;
                    self.give(&mut schedule, &message);
                }
                Ok(Err(error)) => return Err(error),
                Err(_) => {}
            }
            if clock::now() >= silent_from && !schedule.is_answered {
                self.reach.turn(None);
                return Err(ErrorKind::TimedOut.into());
            }
            // (a client that is closed beats no more)
            if self.core.lock().goes_on() && clock::now() >= schedule.due {
                schedule = self.beat(!schedule.is_answered, &schedule);
            }
        }
    }

    fn give(&self, schedule: &mut Schedule, message: &[u8]) {
        self.core.lock().give(message);
        self.core.tell();
        schedule.give(clock::now(), Answering::read(message));
    }

    // Beats; and sends the call that has no reply yet again, where its message or the reply may be lost.
    fn beat(&self, is_again: bool, before: &Schedule) -> Schedule {
        let mut state = self.core.lock();
        let now = clock::now();
        let beaten = state.beat();
        if is_again {
            state.send_again();
        }
        drop(state);
        self.core.tell();
        before.sent(now, beaten)
    }
}

#[cfg(test)]
mod tests {
    use super::*;

    fn said(number: u64, answer: MasterAnswer) -> Answering {
        Answering::Said(Said { client: 7, number, answer })
    }

    // An Alive; whether it comes with invalidations or events.
    fn alive(number: u64, brings: bool) -> Answering {
        said(number, MasterAnswer::Alive(Duration::ZERO, brings))
    }

    fn started(number: u64) -> Answering {
        said(number, MasterAnswer::Started(Duration::ZERO))
    }

    fn refused(number: u64, refusal: u32) -> Answering {
        said(number, MasterAnswer::Refused(refusal))
    }

    #[test]
    fn a_beat_without_an_answer_is_sent_anew() {
        let kept_for = |usual| Schedule { usual, ..Schedule::new() };
        let rows = [
            (0, 0, 1200),
            (0, 900, 1200),
            (0, 1100, 1200),
            (0, 5000, 5000),
            (8000, 12_000, 12_000),
            (0, 60_000, 60_000),
            (50_000, 60_000, 26_000),
            (50_000, 9000, 9000),
        ];
        for (usual, leased_until, due) in rows {
            let schedule = kept_for(usual).sent(1000, (Some(7), leased_until));
            assert_eq!(schedule.due, due, "{usual} {leased_until}");
            let next = schedule.sent(due, (Some(8), leased_until));
            assert_eq!(next.due, leased_until.max(due + 400), "{usual} {leased_until}");
        }
    }

    #[test]
    fn an_answer_that_takes_long_is_waited_for() {
        let mut schedule = Schedule::new().sent(0, (Some(0), 0));
        let mut dues = Vec::new();
        for number in 1..9 {
            dues.push(schedule.due);
            schedule = schedule.sent(schedule.due, (Some(number), 0));
        }
        assert_eq!(dues, [200, 600, 1400, 3000, 6200, 12_600, 22_600, 32_600]);
        schedule.give(40_000, alive(8, false));
        assert_eq!((schedule.usual, schedule.sent(40_020, (Some(9), 0)).due), (40_000, 40_220));
    }

    // (one that didn't answer the Beat of moment 1000: 3 s after that, or after the lease)
    #[test]
    fn a_silent_server_is_left() {
        for (leased_until, silent_from) in [(0, 4000), (5000, 8000)] {
            let mut schedule = Schedule::new().sent(1000, (Some(7), leased_until));
            assert_eq!(schedule.silent_from(), silent_from, "{leased_until}");
            schedule = schedule.sent(schedule.due, (Some(8), leased_until));
            assert_eq!(schedule.silent_from(), silent_from, "{leased_until}");
            schedule.give(6000, alive(8, false));
            assert_eq!(schedule.silent_from(), u64::MAX, "{leased_until}");
        }
        assert_eq!(Schedule::new().silent_from(), u64::MAX);
    }

    #[test]
    fn the_next_beat_goes_behind_an_answer() {
        let notice = |number| Answering::read(&Notice { number, reason: String::new() }.write());
        let rows = [
            (1005, alive(7, false), 1020, true),
            (1050, alive(7, false), 1050, true),
            (1005, alive(7, true), 1005, true),
            (1005, started(7), 1020, true),
            (1005, refused(7, 1), 1020, true),
            (1005, refused(6, 28), 1020, false),
            (1005, notice(0), 1005, false),
            (1005, notice(7), 5000, false),
            (1005, refused(6, 1), 5000, false),
            (1005, started(6), 5000, false),
            (1005, alive(6, true), 5000, false),
            (1005, said(7, MasterAnswer::Reply(None)), 5000, false),
        ];
        for (now, heard, due, is_answered) in rows {
            let mut schedule = Schedule::new().sent(1000, (Some(7), 5000));
            schedule.give(now, heard);
            assert_eq!((schedule.due, schedule.is_answered), (due, is_answered), "{heard:?}");
        }
    }
}
