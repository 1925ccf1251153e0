//! What clients notice of a fail-over, and how long a client that doesn't let go is waited for.

use crate::etcd::Etcd;
use crate::far::far_from;
use crate::plain::{Plain, Talker, again, new};
use crate::servers::{Kill, Server, Start, folder};
use std::io;
use std::net::Shutdown;
use std::sync::atomic::{AtomicBool, Ordering};
use std::thread;
use std::time::{Duration, Instant};
use tillermoss::{Bare, Client, Create, Error, Event, Events, Handle, LockMode, Mode, Opening, Options, Refusal, Watch};

/// How long clients do nothing before their server goes: then their Beats wait for answers.
const QUIET: Duration = Duration::from_secs(5);

/// How long a writer tries again while it is refused for now: longer than any is waited for.
const PATIENCE: Duration = Duration::from_secs(180);

/// Between two Beats of a client that doesn't wait for answers.
const PACE: Duration = Duration::from_millis(100);

/// What clients noticed of a server that went, and of the next one.
#[derive(Clone, Debug, Default)]
pub struct Noticed {
    /// How long after the next one was started a call of each was answered; the last of them.
    pub answered: Duration,
    /// How long after the first one was told to go; it includes its going.
    pub answered_since_the_end: Duration,
    /// How long after that another server was master, where several stand by for it.
    pub taken: Duration,
    /// How often a lease ended before it was given again.
    pub jeopardies: usize,
    /// How many sessions were lost.
    pub lost: usize,
}

impl Noticed {
    pub(crate) fn look_at(&mut self, guests: &[CachingClient]) {
        for guest in guests {
            let (jeopardies, is_lost) = guest.noticed();
            self.jeopardies += jeopardies;
            self.lost += usize::from(is_lost);
        }
    }
}

/// A client, its file that it caches, and whose lock it holds.
pub(crate) struct CachingClient {
    pub(crate) client: Client,
    pub(crate) watch: Watch,
}

impl CachingClient {
    fn new(options: &Options, number: usize) -> Result<CachingClient, Error> {
        let client = Client::connect(options)?;
        let file = Create { must: true, content: Some(Vec::new()), ..Create::default() };
        let (name, mode) = (format!("/ls/c/f{number}"), Mode::READ.and(Mode::WRITE));
        let opening = Opening { create: Some(file), events: Events::CONTENTS, ..Opening::new(&name, mode) };
        let watch = client.watch_with(&opening)?;
        client.acquire(watch.handle, LockMode::Exclusive)?;
        client.read(watch.handle)?;
        Ok(CachingClient { client, watch })
    }

    // How often its lease ended; and whether its session is lost, or the lock with it.
    pub(crate) fn noticed(&self) -> (usize, bool) {
        let jeopardies = self.watch.events.try_iter().filter(|event| *event == Event::Jeopardy).count();
        let still = self.client.sequencer(self.watch.handle).and_then(|held| self.client.check_sequencer(&held));
        (jeopardies, self.client.is_lost() || still.is_err())
    }
}

// A write, again where another master came up before the answer.
pub(crate) fn write(client: &Client, file: Handle) -> Result<(), Error> {
    loop {
        match client.set(file, b"written", None) {
            Err(Error::Refused(Refusal::Unknown)) => {}
            result => return result,
        }
    }
}

pub(crate) fn come(address: &str, clients: usize) -> Result<Vec<CachingClient>, Error> {
    come_by(&Options::new(address, "ann"), clients)
}

pub(crate) fn come_by(options: &Options, clients: usize) -> Result<Vec<CachingClient>, Error> {
    thread::scope(|scope| {
        let coming: Vec<_> = (0..clients).map(|number| scope.spawn(move || CachingClient::new(options, number))).collect();
        coming.into_iter().map(|guest| guest.join().unwrap_or(Err(Error::Closed))).collect()
    })
}

/// How many clients, each so far from the server one way, who hold locks and cache files and do nothing; the server goes by SIGTERM, and
/// another comes up at once. They are looked at for so long after it.
///
/// # Errors
///
/// If the server can't be started, or a client is refused.
pub fn fail_over(clients: usize, one_way: Duration, looked_at: Duration) -> Result<Noticed, Error> {
    let folder = folder("fail-over");
    let mut server = Start::new(&folder.join("store.db")).start()?;
    let mut address = server.address.clone();
    if !one_way.is_zero() {
        let place = server.place().parse().map_err(|_| Error::Malformed("the server's address".to_owned()))?;
        address = format!("tcp:{}", far_from(place, one_way)?);
    }
    let guests = come(&address, clients)?;
    thread::sleep(QUIET);
    let ended = Instant::now();
    server.kill(Kill::InOrder)?;
    let begun = Instant::now();
    let (again, last) = thread::scope(|scope| {
        let writers = guests.iter().map(|guest| (&guest.client, guest.watch.handle));
        let writing: Vec<_> = writers.map(|(client, file)| scope.spawn(move || write(client, file).map(|()| Instant::now()))).collect();
        let again = Start::new(&folder.join("store.db")).with(&[&server.address]).start();
        let answers = writing.into_iter().map(|writing| writing.join().unwrap_or(Err(Error::Closed)));
        (again, answers.collect::<Result<Vec<Instant>, Error>>().map(|answers| answers.into_iter().max()))
    });
    let (_again, last) = (again?, last?.unwrap_or(begun));
    let mut noticed = Noticed { answered: last - begun, answered_since_the_end: last - ended, ..Noticed::default() };
    thread::sleep(looked_at);
    noticed.look_at(&guests);
    drop(guests);
    std::fs::remove_dir_all(folder)?;
    Ok(noticed)
}

/// How a server over etcd goes.
#[derive(Clone, Copy, Debug, PartialEq, Eq)]
pub enum Going {
    /// By SIGTERM.
    InOrder,
    /// It and its master are killed.
    Killed,
    /// All its processes are, as where its machine dies.
    WithAll,
}

fn go(server: &mut Server, going: Going) -> io::Result<()> {
    if going == Going::WithAll {
        server.kill_guard()?;
    }
    if going != Going::InOrder {
        server.kill_master()?;
    }
    server.kill(if going == Going::InOrder { Kill::InOrder } else { Kill::Server }).map(drop)
}

// Until this server is master, as etcd has it: how long after that moment.
fn wait_for_master(etcd: &Etcd, server: &Server, since: Instant) -> io::Result<Duration> {
    while since.elapsed() < PATIENCE {
        if etcd.get("c/master").is_ok_and(|seat| seat.is_some_and(|seat| seat.contains(&server.address))) {
            return Ok(since.elapsed());
        }
        thread::sleep(Duration::from_millis(20));
    }
    Err(io::Error::other("nobody took over"))
}

/// How many clients of a cell over etcd that has so many files more; the server goes, and one that stands by takes its place. They are
/// looked at for so long after that. In what they noticed the first answer counts from the going, and so does the last.
///
/// # Errors
///
/// If etcd or a server can't be started, or a client is refused.
pub fn fail_over_to_one_that_stands_by(files: u64, clients: usize, going: Going, looked_at: Duration) -> Result<Noticed, Error> {
    let etcd = Etcd::with_cell(&[])?;
    etcd.put_files(files)?;
    let mut first = etcd.server("first", etcd.address).start()?;
    let second = etcd.server("second", etcd.address).stand_by()?;
    let guests = come(&format!("{},{}", first.address, second.address), clients)?;
    // (it reads the rows meanwhile)
    thread::sleep(QUIET + Duration::from_millis(files / 10));
    let gone = Instant::now();
    go(&mut first, going)?;
    let (taken, answers) = thread::scope(|scope| {
        let writers = guests.iter().map(|guest| (&guest.client, guest.watch.handle));
        let writing: Vec<_> = writers.map(|(client, file)| scope.spawn(move || write(client, file).map(|()| gone.elapsed()))).collect();
        let taken = wait_for_master(&etcd, &second, gone);
        let answers = writing.into_iter().map(|writing| writing.join().unwrap_or(Err(Error::Closed)));
        (taken, answers.collect::<Result<Vec<Duration>, Error>>())
    });
    let (taken, answers) = (taken?, answers?);
    let answered = answers.iter().min().copied().unwrap_or_default();
    let mut noticed =
        Noticed { answered, answered_since_the_end: answers.into_iter().max().unwrap_or_default(), taken, ..Noticed::default() };
    thread::sleep(looked_at);
    noticed.look_at(&guests);
    Ok(noticed)
}

/// How long after its start a server answers the first call of a new client, where so many clients, who held locks and cached files,
/// have all left the one before it, which went by SIGTERM.
///
/// # Errors
///
/// As `fail_over`.
pub fn start_after_clients_that_left(clients: usize) -> Result<Duration, Error> {
    let folder = folder("left");
    let mut server = Start::new(&folder.join("store.db")).start()?;
    for guest in come(&server.address, clients)? {
        guest.client.leave()?;
    }
    server.kill(Kill::InOrder)?;
    let begun = Instant::now();
    let again = Start::new(&folder.join("store.db")).with(&[&server.address]).start()?;
    Client::connect(&Options::new(&again.address, "bob"))?.create("/ls/c/f", b"")?;
    let answered = begun.elapsed();
    std::fs::remove_dir_all(folder)?;
    Ok(answered)
}

// Beats, each time with the next number, until it is over. What the master sends is read, or the connection would be cut off; but the
// client isn't given it.
fn beat_on(mut talker: Talker, is_over: &AtomicBool) -> io::Result<()> {
    let mut heard = talker.connection.stream.try_clone()?;
    thread::spawn(move || io::copy(&mut heard, &mut io::sink()));
    while !is_over.load(Ordering::Relaxed) {
        let beat = talker.beat().ok_or_else(|| io::Error::other("the client's session is lost"))?;
        talker.connection.send(&beat)?;
        thread::sleep(PACE);
    }
    talker.connection.stream.shutdown(Shutdown::Both)
}

// How long a write lasts beside a client that beats, and is told nothing.
fn write_beside(writer: &Client, file: Handle, talker: Talker) -> Result<Duration, Error> {
    let is_over = AtomicBool::new(false);
    thread::scope(|scope| {
        let sending = scope.spawn(|| beat_on(talker, &is_over));
        let begun = Instant::now();
        let written = write(writer, file);
        let waited = begun.elapsed();
        is_over.store(true, Ordering::Relaxed);
        sending.join().unwrap_or_else(|_| Err(io::Error::other("the client that sends failed")))?;
        written.map(|()| waited)
    })
}

// How long a write waits for a client of bob's that has the file in its cache, and from then on beats as this client does, which is made
// of it, and is told nothing; under this lease in milliseconds.
fn write_beside_one_that_cached(lease: u64, beats: fn(Bare) -> Result<Bare, Error>) -> Result<Duration, Error> {
    let folder = folder("keeps");
    let server = Start::new(&folder.join("store.db")).settings(&format!("lease = {lease}\n")).start()?;
    let writer = Client::connect(&Options { patience: PATIENCE, ..Options::new(&server.address, "ann") })?;
    let file = writer.create("/ls/c/f", b"")?;
    let mut talker = Plain::begin(server.place(), "bob")?;
    let opened = talker.open("/ls/c/f", b"").ok_or_else(|| Error::Malformed("an opened file".to_owned()))?;
    talker.read(opened);
    let waited = write_beside(&writer, file, Talker { client: beats(talker.client)?, ..talker })?;
    std::fs::remove_dir_all(folder)?;
    Ok(waited)
}

/// How long a write waits for a client that has the file in its cache, beats, and never acknowledges; under this lease in milliseconds.
///
/// # Errors
///
/// As `fail_over`.
pub fn write_beside_one_that_keeps(lease: u64) -> Result<Duration, Error> {
    write_beside_one_that_cached(lease, Ok)
}

/// As `write_beside_one_that_keeps`, for one that doesn't beat, and sends Starts of its session, which lives.
///
/// # Errors
///
/// As `fail_over`.
pub fn write_beside_one_that_starts(lease: u64) -> Result<Duration, Error> {
    write_beside_one_that_cached(lease, |client| {
        let mut starting = Bare::new(client.number(), "bob")?;
        // (the first was sent before)
        starting.beat(0);
        Ok(starting)
    })
}

/// How long a write waits after a new master for a client that beats there, and never acknowledges that it is another; under this lease
/// in milliseconds.
///
/// # Errors
///
/// As `fail_over`.
pub fn write_beside_one_that_stays_behind(lease: u64) -> Result<Duration, Error> {
    let folder = folder("late");
    let start = Start::new(&folder.join("store.db")).settings(&format!("lease = {lease}\n"));
    let mut server = start.start()?;
    let writer = Client::connect(&Options { patience: PATIENCE, ..Options::new(&server.address, "ann") })?;
    let file = writer.create("/ls/c/f", b"")?;
    let (connection, welcome) = Plain::greet(server.place(), &new("bob"))?;
    let welcome = welcome.map_err(Error::TurnedAway)?;
    let mut talker = Talker { connection, client: Bare::new(welcome.client, "bob")? };
    let begins = talker.beat();
    talker.ask(begins);
    server.kill(Kill::InOrder)?;
    let server = start.with(&[&server.address]).start()?;
    talker.connection = Plain::greet(server.place(), &again("bob", welcome))?.0;
    // (it is told of the second epoch, and of nothing else)
    let beat = talker.beat();
    talker.ask(beat);
    let waited = write_beside(&writer, file, talker)?;
    std::fs::remove_dir_all(folder)?;
    Ok(waited)
}
