//! The connections of clients. Each is bound to one client's number and principal, and carries that client's messages alone.

use crate::admin::metrics::Metrics;
use crate::etcd::mastership::Mastership;
use crate::master::lines::{Lines, Message};
use crate::master::numbers::{Given, Numbers};
use crate::master::picture::Picture;
use crate::net::changes::Changes;
use crate::net::crowd::{Crowd, CrowdSeat, Rates, SMALL, UNIT};
use crate::net::doors::{Credentials, Door, Guest};
use crate::net::outgoing::Outbox;
use crate::net::routes::Routes;
use crate::settings::Limits;
use anyhow::{Context, Result};
use host_wire::lobby::Lobby;
use host_wire::sockets::Stream;
use host_wire::trust::worded;
use host_wire::{Act, Asked, Blocks, GREETING_LIMIT, Hello, Notice, REQUEST_LIMIT, Text, TurnedAway, Welcome, framed, write_store_refused};
use std::collections::{BTreeSet, HashSet};
use std::io;
use std::sync::{Arc, Mutex, MutexGuard, PoisonError, RwLock};
use std::time::{Duration, Instant};
use tokio::io::{AsyncWriteExt, ReadHalf};
use tokio::sync::{OwnedSemaphorePermit, Semaphore};
use tokio::task::spawn_blocking;
use tokio::time::{sleep, timeout};
use tracing::{debug, error, info, warn};

/// How long after one that can't be taken the next is tried.
const PAUSE: Duration = Duration::from_millis(20);

/// How long the greeting may take, with all that stands before it.
const GREETING: Duration = Duration::from_secs(5);

/// How many messages of one connection wait for the master; it is read no further meanwhile.
const PLACES: usize = 4;

/// How many bytes of messages that aren't large wait for the master in all.
const ROOM: usize = 64 << 20;

/// How long a large message may take from when it has room until it is whole: others wait for that room.
const WHOLE: Duration = Duration::from_secs(30);

/// Why the connection of a client is cut off that an operator has ended.
const ENDED: &str = "an operator has ended its client";

/// What all connections share.
#[derive(Debug)]
pub struct Hall {
    /// The numbers that are given to new clients. Who takes one may wait for a disk or for etcd, and so may who waits for that one.
    pub numbers: Mutex<Numbers>,
    /// Which of them were given, for which nobody waits.
    given: RwLock<Given>,
    /// Whose turn it is to take one.
    allotting: Arc<Semaphore>,
    /// Where the messages for clients go.
    pub routes: Routes,
    /// Where the messages of clients go.
    pub lines: Lines,
    /// The changes that the master has, and those that are kept until it has fewer of them.
    pub changes: Changes,
    /// How much room there is for them, in units.
    pub room: Arc<Semaphore>,
    /// What the cell looks like.
    pub picture: Mutex<Picture>,
    /// How much is let in.
    pub limits: RwLock<Limits>,
    /// What is counted.
    pub metrics: Metrics,
    /// Who hasn't greeted yet.
    pub lobby: Lobby,
    /// Who has, by principal.
    pub crowd: Arc<Crowd>,
    /// The mastership of this server, where others stand by.
    pub mastership: Option<Arc<Mastership>>,
    /// The clients that operators have ended: none of their greetings is taken any more.
    ended: Mutex<HashSet<u64>>,
}

/// Whom a connection is bound to.
#[derive(Debug)]
struct Bound {
    client: u64,
    token: u64,
    seat: CrowdSeat,
}

/// Takes connections until the server goes, each with a task of its own.
pub async fn take_all(door: Door, hall: Arc<Hall>) {
    loop {
        match door.take().await {
            Ok(guest) => {
                let shared = hall.clone();
                tokio::spawn(async move { shared.take(guest).await });
            }
            Err(error) => {
                warn!(reason = %error, "a connection couldn't be taken");
                sleep(PAUSE).await;
            }
        }
    }
}

impl Hall {
    /// The hall of a server that begins. It knows of no node and no session yet.
    pub fn new(numbers: Numbers, limits: &Limits, mastership: Option<Arc<Mastership>>) -> Result<Hall> {
        Ok(Hall {
            given: RwLock::new(numbers.given()),
            ended: Mutex::new(numbers.ended().iter().copied().collect()),
            numbers: Mutex::new(numbers),
            allotting: Arc::new(Semaphore::new(1)),
            routes: Routes::default(),
            lines: Lines::default(),
            changes: Changes::default(),
            room: Arc::new(Semaphore::new(ROOM / UNIT)),
            picture: Mutex::default(),
            limits: RwLock::new(limits.clone()),
            metrics: Metrics::new()?,
            lobby: Lobby::default(),
            crowd: Arc::default(),
            mastership,
        })
    }

    // Whether another server may be master already. (A mastership that has ended may have been renewed before, and go on.)
    fn is_replaced(&self) -> bool {
        self.mastership.as_ref().is_some_and(|mastership| !mastership.holds())
    }

    /// What the cell looks like, for one at a time.
    pub fn picture(&self) -> MutexGuard<'_, Picture> {
        self.picture.lock().unwrap_or_else(PoisonError::into_inner)
    }

    /// The store took a write, or refused one. Only the first of many is logged.
    pub fn note_store(&self, is_refused: bool, line: Text<'_>) {
        let mut picture = self.picture();
        if picture.is_refused == is_refused {
            return;
        }
        picture.is_refused = is_refused;
        drop(picture);
        if is_refused {
            error!(reason = %line, "the store refuses; it is tried again, twice a second at least");
        } else {
            info!("the store takes writes again");
        }
    }

    /// How much is let in now.
    pub fn limits(&self) -> Limits {
        self.limits.read().unwrap_or_else(PoisonError::into_inner).clone()
    }

    // The clients that were ended, for one at a time.
    fn ended(&self) -> MutexGuard<'_, HashSet<u64>> {
        self.ended.lock().unwrap_or_else(PoisonError::into_inner)
    }

    /// Whether a client has a session or a connection.
    pub fn has(&self, client: u64) -> bool {
        self.picture().sessions.contains_key(&client) || self.routes.principal(client).is_some()
    }

    /// Ends clients: each is cut off, and comes back no more. Their sessions end once their leases have run out. That is noted, so that
    /// the next server knows it, too; where it can't be it holds until this one goes.
    pub async fn end(self: &Arc<Self>, clients: BTreeSet<u64>) -> Result<()> {
        let before = {
            let mut ended = self.ended();
            let before = ended.clone();
            ended.extend(&clients);
            before
        };
        clients.iter().for_each(|client| _ = self.routes.cut(*client, ENDED));
        // (whose session is over by now comes back by no number)
        let still: BTreeSet<u64> = {
            let picture = self.picture();
            before.into_iter().filter(|client| picture.sessions.contains_key(client)).chain(clients).collect()
        };
        let hall = self.clone();
        spawn_blocking(move || hall.numbers.lock().unwrap_or_else(PoisonError::into_inner).note_ended(still)).await?
    }

    // A connection, up to its greeting. After that it has another task: what a greeting needs is more, and is free then.
    async fn take(self: Arc<Self>, guest: Guest) {
        let peer = guest.peer();
        let greeted = {
            let place = self.lobby.enter(self.limits().greetings);
            tokio::select! {
                greeted = timeout(GREETING, self.greet(guest, &peer)) => greeted.unwrap_or_else(|_| Err(anyhow::anyhow!("the greeting took too long"))),
                () = place.is_cut() => Err(anyhow::anyhow!("too many that hadn't greeted")),
            }
        };
        match greeted {
            Ok(Some((stream, blocks, bound))) => drop(tokio::spawn(async move { self.carry(stream, blocks, &bound, &peer).await })),
            Ok(None) => {}
            Err(error) => {
                self.metrics.turned_away("greeting");
                info!(peer, reason = %format_args!("{error:#}"), "a connection was cut off before its greeting");
            }
        }
    }

    // Reads the hello, and answers one that is turned away.
    async fn greet(self: &Arc<Self>, guest: Guest, peer: &str) -> Result<Option<(Box<dyn Stream>, Blocks, Bound)>> {
        let (mut stream, shown) = guest.come_in().await?;
        let mut blocks = Blocks::new(GREETING_LIMIT);
        let first = blocks.next_of(&mut stream).await.map_err(|error| match error.kind() {
            io::ErrorKind::InvalidData => io::Error::new(error.kind(), reason(&error)),
            _ => worded(error),
        });
        let Some(first) = first? else {
            return Ok(None);
        };
        let bound = if self.is_replaced() { Err(TurnedAway::NotMaster) } else { self.bind(&first, &shown).await };
        let reason = match bound {
            Ok(bound) => return Ok(Some((stream, blocks, bound))),
            // (a number that it doesn't know its successor may have given)
            Err(_) if self.is_replaced() => TurnedAway::NotMaster,
            Err(reason) => reason,
        };
        self.metrics.turned_away(&format!("{reason:?}"));
        info!(peer, reason = %reason, ?shown, "a client was turned away");
        let answer = if reason == TurnedAway::NotMaster { Welcome::not_master("") } else { Welcome::write(&Err(reason)) };
        stream.write_all(&framed(&answer)?).await?;
        stream.shutdown().await?;
        Ok(None)
    }

    // Whom the first block binds the connection to.
    async fn bind(self: &Arc<Self>, first: &[u8], shown: &Credentials) -> Result<Bound, TurnedAway> {
        if matches!(shown, Credentials::Other(_)) {
            return Err(TurnedAway::BadPrincipal);
        }
        let hello = Hello::read(first)?;
        if matches!(shown, Credentials::Principal(name) if name != hello.principal()) {
            return Err(TurnedAway::OtherPrincipal);
        }
        if let Hello::Again { principal, client, token } = &hello
            && (!self.given.read().unwrap_or_else(PoisonError::into_inner).is_token(*client, principal, *token)
                || self.ended().contains(client))
        {
            return Err(TurnedAway::WrongToken);
        }
        let seat = self.crowd.enter(hello.principal(), &self.limits())?;
        let numbered = match hello {
            Hello::Again { client, token, .. } => Ok((client, token)),
            Hello::New { .. } => self.allot(seat.principal.clone()).await,
        };
        let (client, token) = numbered.map_err(|error| {
            warn!(reason = %format_args!("{error:#}"), "no number could be given");
            TurnedAway::NoNumber
        })?;
        Ok(Bound { client, token, seat })
    }

    // The next number, and its token. A thread that carries nothing waits until it is written down; the others wait for their turn.
    async fn allot(self: &Arc<Self>, principal: Arc<str>) -> Result<(u64, u64)> {
        let turn = self.allotting.clone().acquire_owned().await?;
        let hall = self.clone();
        let taken = spawn_blocking(move || {
            let _turn = turn;
            let mut numbers = hall.numbers.lock().unwrap_or_else(PoisonError::into_inner);
            let client = numbers.allot()?;
            *hall.given.write().unwrap_or_else(PoisonError::into_inner) = numbers.given();
            Ok((client, numbers.given().token(client, &principal)))
        });
        taken.await.context("the thread that takes numbers is gone")?
    }

    // A connection that is bound, to its end.
    async fn carry(&self, stream: Box<dyn Stream>, mut blocks: Blocks, bound: &Bound, peer: &str) {
        blocks.set_limit(REQUEST_LIMIT);
        let (client, principal) = (bound.client, &*bound.seat.principal);
        let welcome = Welcome { client, token: bound.token };
        let outgoing = Arc::new(Outbox::new(&bound.seat.principal));
        let (read, write) = tokio::io::split(stream);
        let binding = self.routes.bind(client, outgoing.clone(), &Welcome::write(&Ok(welcome)));
        if self.ended().contains(&client) {
            outgoing.cut(ENDED);
        }
        let writer = outgoing.clone();
        tokio::spawn(async move { writer.write_all(write).await });
        let end = tokio::select! {
            end = self.carry_messages(read, blocks, bound, binding, &outgoing) => end,
            why = outgoing.is_cut() => Some(why),
        };
        self.routes.unbind(client, binding);
        self.changes.forget(client, &bound.seat.principal, binding);
        outgoing.cut("its client ended it");
        match end {
            Some(reason) => {
                self.metrics.cut(reason);
                info!(client, principal, peer, reason, "a connection was cut off");
            }
            None => debug!(client, principal, peer, "a connection ended"),
        }
    }

    // Carries the client's messages to the master, until one isn't the client's, or the connection ends; why it is to be cut off.
    async fn carry_messages(
        &self,
        mut read: ReadHalf<Box<dyn Stream>>,
        mut blocks: Blocks,
        bound: &Bound,
        binding: u64,
        outgoing: &Outbox,
    ) -> Option<&'static str> {
        let mut rates = Rates::new(self.limits().pace_of_a_client(), Instant::now());
        let places = Arc::new(Semaphore::new(PLACES));
        loop {
            let (block, mut place) = match self.next(&mut read, &mut blocks, &mut rates, bound).await {
                Ok(Some(next)) => next,
                Ok(None) => return None,
                Err(error) => return Some(reason(&error)),
            };
            let principal = &bound.seat.principal;
            let Some(asked) = Asked::read(&block).filter(|asked| asked.is_from(bound.client, principal)) else {
                return Some("a message that isn't the client's");
            };
            if !self.picture().is_of(bound.client, principal) {
                return Some("its session is another principal's");
            }
            if place.is_empty() {
                place.extend(self.room.clone().acquire_many_owned((block.len() / UNIT + 1) as u32).await);
            }
            place.extend(places.clone().acquire_owned().await);
            if !self.routes.is_bound(bound.client, binding) {
                return Some("its client has a later one");
            }
            let (principal, is_call, is_start) = (principal.clone(), asked.is_call(), asked.is_start());
            let message = Message { client: bound.client, principal, is_call, is_start, bytes: block, place };
            self.go_on(self.let_in(&asked, message, binding, outgoing));
        }
    }

    // The next message, and the room that it has where it is large. What comes too fast waits, and what is large waits for room, before
    // it is read.
    async fn next(
        &self,
        read: &mut ReadHalf<Box<dyn Stream>>,
        blocks: &mut Blocks,
        rates: &mut Rates,
        bound: &Bound,
    ) -> io::Result<Option<(Vec<u8>, Vec<OwnedSemaphorePermit>)>> {
        let late = |_| io::Error::from(io::ErrorKind::TimedOut);
        let silence = Duration::from_secs(self.limits().silence);
        let Some(length) = timeout(silence, blocks.length_of(read)).await.map_err(late)?? else {
            return Ok(None);
        };
        let limits = self.limits();
        let wait = rates.take(length, limits.pace_of_a_client(), Instant::now()).max(bound.seat.take(length, &limits));
        if !wait.is_zero() {
            self.metrics.slowed();
            sleep(wait).await;
        }
        let room = bound.seat.room(length).await;
        let patience = if length > SMALL { WHOLE.min(silence) } else { silence };
        let block = timeout(patience, blocks.next_of(read)).await.map_err(late)??;
        Ok(block.map(|block| (block, room)))
    }

    // What may go to the master now. A call that goes beyond what its principal may write is answered at once; a change beyond its
    // principal's share of those that wait is kept.
    // (One that waits for a lock doesn't count, nor one of another epoch or without a session: the master refuses these.)
    fn let_in(&self, asked: &Asked, message: Message, binding: u64, outgoing: &Outbox) -> Option<Message> {
        let Some(deed) = asked.deed() else {
            return Some(message);
        };
        let (admitted, is_counted) = {
            let mut picture = self.picture();
            let is_counted = picture.is_present(&deed) && !matches!(deed.act, Act::Acquire(_));
            (picture.admit(&deed, &message.principal, &self.limits()), is_counted)
        };
        if let Err(reason) = admitted {
            self.metrics.limited();
            info!(client = message.client, principal = &*message.principal, %reason, name = deed.name, "a call was refused by a limit");
            outgoing.send(&Notice { number: deed.number, reason }.write());
            write_store_refused(deed.client, deed.epoch, deed.number).into_iter().for_each(|reply| outgoing.send(&reply));
            return None;
        }
        if !is_counted {
            return Some(message);
        }
        let taken = self.changes.take(message, deed.number, binding);
        if taken.is_none() {
            self.metrics.kept();
        }
        taken
    }

    /// These go to the master, each in its turn.
    pub fn go_on(&self, messages: impl IntoIterator<Item = Message>) {
        messages.into_iter().for_each(|message| self.lines.push(message));
    }
}

fn reason(error: &io::Error) -> &'static str {
    match error.kind() {
        io::ErrorKind::TimedOut => "its client is silent",
        io::ErrorKind::InvalidData => "a block that is too long, or broken",
        io::ErrorKind::UnexpectedEof => "it ended within a block",
        _ => "it is gone",
    }
}
