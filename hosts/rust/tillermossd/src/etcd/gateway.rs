//! What is asked of etcd, by gRPC: ranges, transactions, leases, and what changes.

use crate::etcd::channels::{ChannelFault, ChannelQuestion, Channels, Limit};
use crate::etcd::messages::{
    self, AlarmsWanted, Authenticate, CHANGED, CREATED, Compaction, ConditionWanted, DeedKind, DeleteRange, GONE, Header, KeepAlive,
    KeyValue, LeaseGrant, MethodCall, PutPair, Range, Revoke, Transaction, TransactionCondition, TransactionDeed, WatchOfKeys, WatchWanted,
    Watched, WatchedChange,
};
use crate::net::tls::Connector;
use anyhow::{Context, Error, Result, anyhow};
use prometheus::{Histogram, IntCounter, IntGauge, histogram_opts};
use prost::Message;
use std::fmt::{self, Display, Formatter};
use std::sync::atomic::{AtomicBool, AtomicUsize, Ordering};
use std::sync::{Arc, Mutex, PoisonError};
use std::time::{Duration, Instant};
use tracing::{error, info, warn};

/// How long an answer may take. Of one that is a page of rows: so long nothing may come of it.
const ANSWERING: Duration = Duration::from_secs(3);

/// How long nothing may change before it is asked again what does.
const SILENCE: Duration = Duration::from_secs(10);

/// The bounds of the times of answers, in seconds.
const BOUNDS: [f64; 9] = [0.001, 0.003, 0.01, 0.03, 0.1, 0.3, 1.0, 3.0, 10.0];

/// What etcd says where it has no room left, and where a message is longer than it reads, in its own words.
const NO_ROOM: &str = "database space exceeded";
const TOO_LONG: &str = "message larger than max";

/// How many operations stand side by side in a transaction. Of a longer one each of them is a transaction within it: etcd takes 128 in all
/// on the way down, unless its --max-txn-ops says otherwise, so three times 42 of them, and that is 74,088 at the bottom.
const WIDTH: usize = 42;

/// A pair as etcd keeps it.
#[derive(Clone, Debug, PartialEq, Eq)]
pub struct Pair {
    /// Its key.
    pub key: String,
    /// Its value.
    pub value: Vec<u8>,
    /// The revision that made it.
    pub created: i64,
    /// The revision that changed it last.
    pub changed: i64,
    /// The lease that it goes with; 0 where it stays.
    pub lease: i64,
}

impl Pair {
    // None of one whose key is no text, or that no revision made.
    fn of(told: KeyValue) -> Option<Pair> {
        let KeyValue { key, created, changed, value, lease } = told;
        (created > 0 && changed > 0).then_some(())?;
        Some(Pair { key: String::from_utf8(key).ok()?, value, created, changed, lease })
    }
}

/// One condition of a transaction.
#[derive(Clone, Debug)]
pub enum Compare<'a> {
    /// The key was made by this revision; by 0: it isn't there.
    Created(&'a str, i64),
    /// It was changed last by this one.
    Changed(&'a str, i64),
}

/// What a transaction does where its conditions hold.
#[derive(Clone, Debug, PartialEq, Eq)]
pub enum Operation {
    /// A pair is put.
    Put(String, Vec<u8>),
    /// One is put that goes with its lease.
    Lend(String, Vec<u8>, i64),
    /// A key goes.
    Delete(String),
    /// All keys go that begin so.
    DeleteAll(String),
}

/// What is told of changes.
#[derive(Debug)]
pub enum Followed {
    /// By this revision these changed: a pair stands so, or a key is gone.
    Changes(i64, Vec<Result<Pair, String>>),
    /// What changed is forgotten there.
    Forgotten,
}

impl Followed {
    // Of one message of a member; None where nothing changed.
    fn of(told: Watched) -> Result<Option<Followed>> {
        if told.is_cancelled {
            return Ok(Some(Followed::Forgotten));
        }
        let changes: Option<Vec<_>> = told.events.into_iter().map(change).collect();
        let changes = changes.context("etcd tells a change that isn't understood")?;
        let revision = revision(told.header)?;
        Ok((!changes.is_empty()).then_some(Followed::Changes(revision, changes)))
    }
}

fn change(event: WatchedChange) -> Option<Result<Pair, String>> {
    let about = event.pair?;
    if event.kind == GONE {
        return Some(Err(String::from_utf8(about.key).ok()?));
    }
    Pair::of(about).map(Ok)
}

/// By these numbers of gRPC a member tells that it refuses what is asked: its form (3), who asks (16) and what he may do (7), and what
/// stands there (9, 11).
const REFUSING: [u32; 5] = [3, 7, 9, 11, 16];

/// Why there is no answer.
#[derive(Debug)]
pub enum Lost {
    /// etcd refuses the request: nothing is done.
    Refused(Error),
    /// None came: whether it is done isn't known.
    Unknown(Error),
}

/// The members of one etcd.
#[derive(Clone, Debug)]
pub struct Members {
    channels: Arc<Channels>,
    /// The member that answered last.
    last: Arc<AtomicUsize>,
    user: Option<Arc<User>>,
    health: Arc<Health>,
    /// Where this is set no further member is asked.
    is_ended: Arc<AtomicBool>,
    /// Nothing is waited for after this moment.
    by: Option<Instant>,
}

/// Whom etcd is asked as.
#[derive(Debug)]
struct User {
    name: String,
    password: String,
    /// What the members know this user by; etcd forgets it when it likes.
    token: Mutex<Option<String>>,
}

impl User {
    fn token(&self) -> Option<String> {
        self.token.lock().unwrap_or_else(PoisonError::into_inner).clone()
    }
}

/// How etcd answered so far.
#[derive(Debug)]
pub struct Health {
    /// How long each answer took.
    pub seconds: Histogram,
    /// How often no member answered.
    pub failures: IntCounter,
    /// 1 while etcd has no room left.
    pub has_no_room: IntGauge,
    /// Only the first of faults in a row is logged.
    is_reached: AtomicBool,
}

impl Health {
    fn new() -> Health {
        let seconds = histogram_opts!("etcd_seconds", "From a question to etcd to its answer.", BOUNDS.to_vec());
        // (the names are fixed, so none of them fails)
        Health {
            seconds: Histogram::with_opts(seconds).expect("a histogram"),
            failures: IntCounter::new("etcd_failures_total", "Questions that no member of etcd answered.").expect("a counter"),
            has_no_room: IntGauge::new("etcd_no_room", "1 while etcd has the alarm NOSPACE: it takes no write.").expect("a gauge"),
            is_reached: AtomicBool::new(true),
        }
    }

    fn note(&self, began: Instant, fault: Option<&Lost>) {
        let is_reached = !matches!(fault, Some(Lost::Unknown(_)));
        if is_reached {
            self.seconds.observe(began.elapsed().as_secs_f64());
        } else {
            self.failures.inc();
        }
        match (self.is_reached.swap(is_reached, Ordering::SeqCst), fault) {
            (true, Some(Lost::Unknown(error))) => warn!(reason = %format_args!("{error:#}"), "etcd isn't reached"),
            (false, _) if is_reached => info!("etcd is reached again"),
            _ => {}
        }
    }

    /// Whether etcd takes no write, for want of room.
    #[must_use]
    pub fn has_room(&self) -> bool {
        self.has_no_room.get() == 0
    }

    /// etcd has no room, or has some again. Only a change is logged.
    pub fn note_room(&self, has_no_room: bool) {
        let before = self.has_no_room.get() == 1;
        self.has_no_room.set(i64::from(has_no_room));
        match (before, has_no_room) {
            (false, true) => error!("etcd has no room left: it takes no write until it is given more, and its alarm is taken back"),
            (true, false) => info!("etcd has room again"),
            _ => {}
        }
    }
}

impl Display for Lost {
    fn fmt(&self, out: &mut Formatter<'_>) -> fmt::Result {
        match self {
            Lost::Refused(error) => write!(out, "etcd refuses: {error:#}"),
            Lost::Unknown(error) => write!(out, "etcd doesn't answer: {error:#}"),
        }
    }
}

/// No member of etcd answered; it may do so a little later.
#[derive(Clone, Copy, Debug, PartialEq, Eq)]
pub struct Unanswered;

impl Display for Unanswered {
    fn fmt(&self, out: &mut Formatter<'_>) -> fmt::Result {
        out.write_str("etcd doesn't answer")
    }
}

impl From<ChannelFault> for Lost {
    fn from(fault: ChannelFault) -> Lost {
        match fault {
            ChannelFault::Told(status, words) if REFUSING.contains(&status) || words.contains(NO_ROOM) || words.contains(TOO_LONG) => {
                Lost::Refused(anyhow!(words))
            }
            fault => Lost::Unknown(fault.into()),
        }
    }
}

impl From<Lost> for Error {
    fn from(lost: Lost) -> Error {
        match lost {
            Lost::Refused(error) => error.context("etcd refuses"),
            Lost::Unknown(error) => error.context(Unanswered),
        }
    }
}

// What stands after all keys that begin so.
fn end_after(prefix: &str) -> Vec<u8> {
    let mut end = prefix.as_bytes().to_vec();
    if let Some(last) = end.last_mut() {
        *last += 1;
    }
    end
}

fn revision(header: Option<Header>) -> Result<i64> {
    Ok(header.context("etcd's answer has no revision")?.revision)
}

fn term(header: Option<Header>) -> Result<i64> {
    Ok(header.context("etcd's answer has no term")?.term.cast_signed())
}

impl Compare<'_> {
    fn write(&self) -> TransactionCondition {
        let (key, target, wanted) = match self {
            Compare::Created(key, at) => (key, CREATED, ConditionWanted::Created(*at)),
            Compare::Changed(key, at) => (key, CHANGED, ConditionWanted::Changed(*at)),
        };
        TransactionCondition { target, key: key.as_bytes().to_vec(), wanted: Some(wanted) }
    }
}

impl Operation {
    fn write(&self) -> TransactionDeed {
        let put = |key: &str, value: &[u8], lease| DeedKind::Put(PutPair { key: key.as_bytes().to_vec(), value: value.to_vec(), lease });
        let kind = match self {
            Operation::Put(key, value) => put(key, value, 0),
            Operation::Lend(key, value, lease) => put(key, value, *lease),
            Operation::Delete(key) => DeedKind::Delete(DeleteRange { key: key.as_bytes().to_vec(), end: Vec::new() }),
            Operation::DeleteAll(prefix) => DeedKind::Delete(DeleteRange { key: prefix.as_bytes().to_vec(), end: end_after(prefix) }),
        };
        TransactionDeed { kind: Some(kind) }
    }
}

// These deeds, of which etcd does all or none, in transactions within transactions where they are many.
fn nested(mut deeds: Vec<TransactionDeed>) -> Vec<TransactionDeed> {
    while deeds.len() > WIDTH {
        let mut parts = Vec::with_capacity(deeds.len() / WIDTH + 1);
        let mut rest = deeds.into_iter();
        while rest.len() > 0 {
            let part = Transaction { conditions: Vec::new(), deeds: rest.by_ref().take(WIDTH).collect() };
            parts.push(TransactionDeed { kind: Some(DeedKind::Transaction(part)) });
        }
        deeds = parts;
    }
    deeds
}

impl Members {
    /// That of these members, each a host and a port; by TLS where it is said how, as a user with a password where one is named.
    pub fn new(places: &[String], connector: Option<&Arc<Connector>>, user: Option<(String, String)>) -> Result<Members> {
        let channels = Arc::new(Channels::new(places, connector)?);
        let user = user.map(|(name, password)| Arc::new(User { name, password, token: Mutex::default() }));
        Ok(Members { channels, last: Arc::default(), user, health: Arc::new(Health::new()), is_ended: Arc::default(), by: None })
    }

    /// These members, of which none is asked any more once this is set; but a question that is out has its time.
    #[must_use]
    pub fn until(&self, is_ended: &Arc<AtomicBool>) -> Members {
        Members { is_ended: is_ended.clone(), ..self.clone() }
    }

    /// These members, of which none is asked any more after this moment, and no answer is waited for.
    #[must_use]
    pub fn by(&self, moment: Instant) -> Members {
        Members { by: Some(self.by.map_or(moment, |by| by.min(moment))), ..self.clone() }
    }

    /// How etcd answered so far.
    #[must_use]
    pub fn health(&self) -> &Health {
        &self.health
    }

    fn ask<Q: MethodCall>(&self, asked: &Q) -> Result<Q::Answer, Lost> {
        self.ask_within(asked, Some(ANSWERING))
    }

    // Asks the member that answered last, and the others after it. An answer may take so long in all, or as long as something comes.
    fn ask_within<Q: MethodCall>(&self, asked: &Q, limit: Option<Duration>) -> Result<Q::Answer, Lost> {
        let began = Instant::now();
        let answered = self.ask_each(asked, limit);
        self.health.note(began, answered.as_ref().err());
        if matches!(&answered, Err(Lost::Refused(error)) if error.to_string().contains(NO_ROOM)) {
            self.health.note_room(true);
        }
        answered
    }

    fn ask_each<Q: MethodCall>(&self, asked: &Q, limit: Option<Duration>) -> Result<Q::Answer, Lost> {
        let (first, count) = (self.last.load(Ordering::Relaxed), self.channels.count());
        let mut fault = None;
        for turn in 0..count {
            if self.is_ended.load(Ordering::SeqCst) || self.by.is_some_and(|by| by <= Instant::now()) {
                break;
            }
            let at = (first + turn) % count;
            let answered = self.ask_as_user(at, asked, limit);
            if !matches!(answered, Err(Lost::Unknown(_))) {
                self.last.store(at, Ordering::Relaxed);
            }
            match answered {
                Err(Lost::Unknown(error)) => fault = Some(error),
                // (a member before this one may do what this one refuses)
                Err(Lost::Refused(error)) if fault.is_some() => return Err(Lost::Unknown(error)),
                answered => return answered,
            }
        }
        Err(Lost::Unknown(fault.unwrap_or_else(|| anyhow!("no member was asked"))))
    }

    // (a token that etcd has forgotten is asked for anew, once)
    fn ask_as_user<Q: MethodCall>(&self, at: usize, asked: &Q, limit: Option<Duration>) -> Result<Q::Answer, Lost> {
        let Some(user) = &self.user else {
            return self.ask_one(at, asked, limit, None);
        };
        if let Some(token) = user.token() {
            match self.ask_one(at, asked, limit, Some(token)) {
                Err(Lost::Refused(error)) if error.to_string().contains("auth") => {}
                answered => return answered,
            }
        }
        let own = Authenticate { name: user.name.clone(), password: user.password.clone() };
        let token = self.ask_one(at, &own, Some(ANSWERING), None)?.token;
        *user.token.lock().unwrap_or_else(PoisonError::into_inner) = Some(token.clone());
        self.ask_one(at, asked, limit, Some(token))
    }

    fn ask_one<Q: MethodCall>(&self, at: usize, asked: &Q, limit: Option<Duration>, token: Option<String>) -> Result<Q::Answer, Lost> {
        let by = limit.map(|limit| Instant::now() + limit).into_iter().chain(self.by).min();
        let told = self.channels.ask(at, ChannelQuestion::new(Q::METHOD, asked, token), Limit { by, silence: ANSWERING })?;
        Q::Answer::decode(told).map_err(|error| Lost::Unknown(error.into()))
    }

    /// The pair of a key, if there is one. It is linearizable.
    pub fn get(&self, key: &str) -> Result<Option<Pair>, Lost> {
        let answer = self.ask(&Range { key: key.as_bytes().to_vec(), ..Range::default() })?;
        Ok(answer.pairs.into_iter().next().and_then(Pair::of))
    }

    /// How many pairs at most whose keys begin so, from a key on, as they stood at a revision; at 0: now. With the revision. It takes as
    /// long as something of it comes.
    pub fn page(&self, prefix: &str, from: &str, at: i64, count: usize) -> Result<(Vec<Pair>, i64), Lost> {
        let limit = i64::try_from(count).unwrap_or(i64::MAX);
        let asked = Range { key: from.as_bytes().to_vec(), end: end_after(prefix), limit, revision: at, counts: false };
        let answer = self.ask_within(&asked, None)?;
        let pairs: Option<Vec<Pair>> = answer.pairs.into_iter().map(Pair::of).collect();
        let revision = if at == 0 { revision(answer.header).map_err(Lost::Unknown)? } else { at };
        Ok((pairs.ok_or_else(|| Lost::Unknown(anyhow!("etcd's answer is no pair")))?, revision))
    }

    /// The revision at which all of it stands now.
    pub fn revision(&self, key: &str) -> Result<i64, Lost> {
        let asked = Range { key: key.as_bytes().to_vec(), counts: true, ..Range::default() };
        revision(self.ask(&asked)?.header).map_err(Lost::Unknown)
    }

    /// Follows what changes of the keys that begin so, from a revision on, until that tells to stop, or nothing came for a while. What is
    /// done at one revision is told together. It isn't called by what a runtime drives.
    pub fn follow(&self, prefix: &str, from: i64, mut tell: impl FnMut(Followed) -> bool) -> Result<()> {
        let at = self.last.load(Ordering::Relaxed) % self.channels.count();
        let wanted = WatchWanted { key: prefix.as_bytes().to_vec(), end: end_after(prefix), from };
        let token = self.user.as_ref().and_then(|user| user.token());
        let asked = ChannelQuestion::new(WatchOfKeys::METHOD, &WatchOfKeys { wanted: Some(wanted) }, token);
        self.channels.follow(at, asked, SILENCE, |told| Ok(Followed::of(Watched::decode(told)?)?.is_none_or(&mut tell)))
    }

    /// Forgets what stood before a revision. (One that was forgotten before is left so.)
    pub fn compact(&self, revision: i64) -> Result<(), Lost> {
        match self.ask(&Compaction { revision }) {
            Err(Lost::Refused(error)) if error.to_string().contains("compacted") => Ok(()),
            answered => answered.map(drop),
        }
    }

    /// Looks whether etcd has room, as its alarms say.
    pub fn look_for_room(&self) -> Result<(), Lost> {
        let answer = self.ask(&AlarmsWanted {})?;
        self.health.note_room(answer.alarms.iter().any(|alarm| alarm.kind == messages::NO_ROOM));
        Ok(())
    }

    /// Does a transaction, of however many deeds. Where its conditions held the revision that it made; none where they didn't.
    pub fn change(&self, conditions: &[Compare], deeds: &[Operation]) -> Result<Option<i64>, Lost> {
        let conditions = conditions.iter().map(Compare::write).collect();
        let answer = self.ask(&Transaction { conditions, deeds: nested(deeds.iter().map(Operation::write).collect()) })?;
        answer.has_succeeded.then(|| revision(answer.header).map_err(Lost::Unknown)).transpose()
    }

    /// A new lease of so many seconds; etcd may give more.
    pub fn lend(&self, seconds: u64) -> Result<(i64, u64)> {
        let answer = self.ask(&LeaseGrant { seconds: i64::try_from(seconds)? })?;
        if answer.lease == 0 {
            return Err(anyhow!("etcd gave no lease"));
        }
        Ok((answer.lease, u64::try_from(answer.seconds)?))
    }

    /// Keeps a lease as it stands, and tells for how many seconds it lasts from now on; with the term of etcd's leader, as the member that
    /// was asked knew it before.
    pub fn keep_alive(&self, lease: i64) -> Result<(u64, i64)> {
        let answer = self.ask(&KeepAlive { lease })?;
        let span = Some(answer.seconds).filter(|span| *span > 0).context("etcd has no such lease")?;
        Ok((u64::try_from(span)?, term(answer.header)?))
    }

    /// The pair of a key, and the term of etcd's leader after this answer. It is linearizable.
    pub fn get_of_term(&self, key: &str) -> Result<(Option<Pair>, i64)> {
        let answer = self.ask(&Range { key: key.as_bytes().to_vec(), ..Range::default() })?;
        Ok((answer.pairs.into_iter().next().and_then(Pair::of), term(answer.header)?))
    }

    /// Lets a lease go, and what was lent by it.
    pub fn give_back(&self, lease: i64) -> Result<()> {
        self.ask(&Revoke { lease })?;
        Ok(())
    }
}

#[cfg(test)]
mod tests {
    use super::*;
    use crate::etcd::pretended::{Pretended, Way, is_taken, within};
    use std::net::TcpListener;
    use std::slice::from_ref;

    #[test]
    fn a_prefix_ends_before_its_next() {
        assert_eq!(end_after("c/nodes/"), b"c/nodes0");
    }

    #[test]
    fn pairs_are_read() {
        let told = KeyValue { key: b"k".to_vec(), created: 2, changed: 3, value: b"v".to_vec(), lease: 9 };
        assert_eq!(Pair::of(told.clone()), Some(Pair { key: "k".to_owned(), value: b"v".to_vec(), created: 2, changed: 3, lease: 9 }));
        assert_eq!(Pair::of(KeyValue { value: Vec::new(), ..told.clone() }).unwrap().value, b"");
        assert_eq!(Pair::of(KeyValue { key: b"k".to_vec(), ..KeyValue::default() }), None);
        assert_eq!(Pair::of(KeyValue { key: vec![0xff], ..told }), None);
    }

    // The deeds that are no transactions themselves, in their order.
    fn bottom(deed: &TransactionDeed) -> Vec<&TransactionDeed> {
        match within(deed) {
            [] => vec![deed],
            deeds => deeds.iter().flat_map(bottom).collect(),
        }
    }

    #[test]
    fn etcd_takes_however_many_deeds() {
        for count in [0, 1, WIDTH, WIDTH + 1, WIDTH * WIDTH, WIDTH * WIDTH + 1, 10_000, WIDTH * WIDTH * WIDTH] {
            let deeds: Vec<TransactionDeed> = (0..count).map(|number| Operation::Delete(number.to_string()).write()).collect();
            let written = nested(deeds.clone());
            assert!(written.iter().flat_map(bottom).eq(&deeds) && is_taken(&written), "{count}");
        }
    }

    // By the numbers of etcd's rpc.proto: a field's number by eight, and 2 where its length comes next.
    #[test]
    fn conditions_and_deeds_are_written() {
        let rows = [
            (Compare::Created("k", 0).write().encode_to_vec(), vec![0x10, 1, 0x1a, 1, b'k', 0x28, 0]),
            (Compare::Changed("k", 7).write().encode_to_vec(), vec![0x10, 2, 0x1a, 1, b'k', 0x30, 7]),
            (Operation::Put("k".to_owned(), b"v".to_vec()).write().encode_to_vec(), vec![0x12, 6, 0x0a, 1, b'k', 0x12, 1, b'v']),
            (Operation::Lend("k".to_owned(), Vec::new(), 9).write().encode_to_vec(), vec![0x12, 5, 0x0a, 1, b'k', 0x18, 9]),
            (Operation::Delete("k".to_owned()).write().encode_to_vec(), vec![0x1a, 3, 0x0a, 1, b'k']),
            (Operation::DeleteAll("k".to_owned()).write().encode_to_vec(), vec![0x1a, 6, 0x0a, 1, b'k', 0x12, 1, b'l']),
        ];
        for (written, wanted) in rows {
            assert_eq!(written, wanted);
        }
    }

    // By gRPC's numbers of reasons and etcd's words.
    #[test]
    fn what_a_member_refuses_is_known_from_what_may_be_done() {
        let rows = [
            (3, "etcdserver: request is too large", true),
            (5, "etcdserver: requested lease not found", false),
            (7, "etcdserver: permission denied", true),
            (8, "etcdserver: mvcc: database space exceeded", true),
            (8, "grpc: received message larger than max (3000000 vs. 2097152)", true),
            (8, "etcdserver: too many requests", false),
            (9, "etcdserver: authentication is not enabled", true),
            (11, "etcdserver: mvcc: required revision has been compacted", true),
            (14, "etcdserver: no leader", false),
            (14, "etcdserver: request timed out", false),
            (16, "etcdserver: invalid auth token", true),
        ];
        for (status, words, is_refused) in rows {
            let lost = Lost::from(ChannelFault::Told(status, words.to_owned()));
            assert_eq!(matches!(lost, Lost::Refused(_)), is_refused, "{status} {words}");
            assert!(lost.to_string().contains(words), "{lost}");
        }
    }

    #[test]
    fn one_connection_is_kept() {
        let etcd = Pretended::start();
        let members = etcd.gateway();
        (0..5).for_each(|_| assert!(members.get("k").is_ok()));
        assert_eq!(etcd.connections(), 1);
        etcd.cut();
        // (what is asked while it ends isn't answered)
        let _ = members.get("k");
        assert!(members.get("k").is_ok());
        assert_eq!(etcd.connections(), 2);
        etcd.go_ranges(&[Way::Lost]);
        assert!(matches!(members.get("k"), Err(Lost::Unknown(_))) && members.get("k").is_ok());
        assert_eq!(etcd.connections(), 3);
    }

    #[test]
    fn what_is_asked_at_the_same_time_waits_for_nothing_else() {
        let etcd = Pretended::start();
        let members = etcd.gateway();
        etcd.go(&[Way::Held]);
        std::thread::scope(|scope| {
            let held = scope.spawn(|| members.change(&[], &[]));
            etcd.wait_for_held(1);
            assert!(members.get("k").is_ok());
            etcd.let_through();
            assert!(matches!(held.join().unwrap(), Err(Lost::Unknown(_))));
        });
    }

    #[test]
    fn the_next_member_is_asked_where_one_is_gone_or_silent() {
        let etcd = Pretended::start();
        let gone = TcpListener::bind("127.0.0.1:0").unwrap().local_addr().unwrap().to_string();
        let silent = TcpListener::bind("127.0.0.1:0").unwrap();
        let places = [gone, silent.local_addr().unwrap().to_string(), etcd.place.clone()];
        let members = Members::new(&places, None, None).unwrap();
        let begun = Instant::now();
        assert!(members.get("k").is_ok());
        assert!((ANSWERING..2 * ANSWERING).contains(&begun.elapsed()));
        // (who answered is asked first)
        let begun = Instant::now();
        assert!(members.get("k").is_ok() && begun.elapsed() < ANSWERING);
        etcd.go(&[Way::Refused]);
        assert!(matches!(members.change(&[], &[]), Err(Lost::Refused(_))));
    }

    // What one member may still do isn't refused by another.
    #[test]
    fn a_refusal_after_a_question_that_got_lost_says_nothing() {
        let [first, second] = [(); 2].map(|()| Pretended::start());
        let members = Members::new(&[first.place.clone(), second.place.clone()], None, None).unwrap();
        first.go(&[Way::Lost]);
        second.go(&[Way::Refused]);
        assert!(matches!(members.change(&[], &[]), Err(Lost::Unknown(_))));
        assert!(matches!(members.change(&[], &[]), Ok(Some(_))));
    }

    #[test]
    fn nothing_is_waited_for_after_a_moment() {
        const SOON: Duration = Duration::from_millis(300);
        let etcd = Pretended::start();
        let silent = TcpListener::bind("127.0.0.1:0").unwrap();
        let silent = Members::new(from_ref(&silent.local_addr().unwrap().to_string()), None, None).unwrap();
        let begun = Instant::now();
        let soon = silent.by(begun + SOON);
        assert!(soon.get("k").is_err() && soon.page("k", "k", 0, 1).is_err());
        assert!((SOON..ANSWERING).contains(&begun.elapsed()), "{:?}", begun.elapsed());
        assert!(etcd.gateway().by(begun + SOON).get("k").is_err() && etcd.connections() == 0);
        assert!(etcd.gateway().by(Instant::now() + ANSWERING).get("k").is_ok());
    }
}
