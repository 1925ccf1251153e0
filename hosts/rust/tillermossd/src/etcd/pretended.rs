//! An etcd of one member for tests, in memory, that speaks gRPC, and whose transactions may be refused or lose their way.

use crate::etcd::channels::{framed, unframed};
use crate::etcd::gateway::Members;
use crate::etcd::messages::{
    CHANGED, CREATED, ConditionWanted, DeedKind, Granted, Header, HeaderAlone, KeyValue, LeaseGrant, MethodCall, Range, RangeAnswer,
    Revoke, Transaction, TransactionAnswer, TransactionCondition, TransactionDeed,
};
use bytes::{Bytes, BytesMut};
use h2::server::SendResponse;
use h2::{Reason, RecvStream, SendStream};
use http::header::{HeaderMap, HeaderName, HeaderValue};
use http::{Request, Response};
use prost::Message;
use std::collections::{BTreeMap, VecDeque};
use std::mem;
use std::sync::{Arc, Mutex, MutexGuard};
use std::thread;
use std::time::Duration;
use tokio::net::{TcpListener, TcpStream};
use tokio::runtime::Builder;
use tokio::sync::watch;
use tokio::time::sleep;

/// What becomes of a transaction.
#[derive(Clone, Copy, Debug, PartialEq, Eq)]
pub enum Way {
    /// It is done and answered.
    Done,
    /// It is done, and the answer gets lost.
    Unanswered,
    /// It gets lost.
    Lost,
    /// It is refused.
    Refused,
    /// It is on its way until it is let through: then it is done, and the answer gets lost.
    Held,
    /// It is done, and the answer comes piece by piece, `SLOW` after each other.
    Slow,
}

/// How many operations of a transaction may stand side by side on the way down to the deepest, in all: as many as etcd takes unless it is
/// told otherwise.
const OPERATIONS: usize = 128;

/// How long before each of so many pieces of an answer that comes slowly.
pub const SLOW: Duration = Duration::from_millis(700);
pub const PIECES: usize = 6;

#[derive(Clone, Debug)]
struct Stands {
    value: Vec<u8>,
    created: i64,
    changed: i64,
    lease: i64,
}

#[derive(Debug, Default)]
struct PretendedState {
    revision: i64,
    pairs: BTreeMap<Vec<u8>, Stands>,
    leases: i64,
    ways: VecDeque<Way>,
    ways_of_ranges: VecDeque<Way>,
    held: Vec<(Transaction, SendResponse<Bytes>)>,
    connections: usize,
}

/// What came of a question: the message, or why it is refused.
type Answered = Result<Bytes, (u32, &'static str)>;

/// The etcd, whose thread goes on until the process ends.
#[derive(Clone, Debug)]
pub struct Pretended {
    /// Where it listens.
    pub place: String,
    state: Arc<Mutex<PretendedState>>,
    /// Each change ends the connections that there are.
    cut: Arc<watch::Sender<()>>,
}

/// What stands within a deed that is a transaction itself; nothing in another one.
pub fn within(deed: &TransactionDeed) -> &[TransactionDeed] {
    match &deed.kind {
        Some(DeedKind::Transaction(transaction)) => &transaction.deeds,
        _ => &[],
    }
}

fn side_by_side(deeds: &[TransactionDeed]) -> usize {
    deeds.len() + deeds.iter().map(|deed| side_by_side(within(deed))).max().unwrap_or(0)
}

/// Whether etcd takes a transaction of these deeds.
pub fn is_taken(deeds: &[TransactionDeed]) -> bool {
    side_by_side(deeds) <= OPERATIONS
}

impl PretendedState {
    // The keys that a range or a deletion is of.
    fn keys(&self, from: &Vec<u8>, end: &Vec<u8>) -> Vec<Vec<u8>> {
        let is_in = |key: &&Vec<u8>| if end.is_empty() { *key == from } else { (from..end).contains(key) };
        self.pairs.keys().filter(is_in).cloned().collect()
    }

    fn header(&self) -> Option<Header> {
        Some(Header { revision: self.revision, term: 1 })
    }

    fn answer(&mut self, path: &str, asked: &[u8]) -> Bytes {
        match path {
            Range::METHOD => framed(&self.range(&Range::decode(asked).unwrap())),
            Transaction::METHOD => framed(&self.transact(&Transaction::decode(asked).unwrap())),
            LeaseGrant::METHOD => {
                self.leases += 1;
                framed(&Granted { lease: self.leases, seconds: LeaseGrant::decode(asked).unwrap().seconds })
            }
            Revoke::METHOD => {
                let lease = Revoke::decode(asked).unwrap().lease;
                self.pairs.retain(|_, stands| stands.lease != lease);
                framed(&HeaderAlone { header: self.header() })
            }
            _ => panic!("{path}"),
        }
    }

    fn range(&self, asked: &Range) -> RangeAnswer {
        let found = self.keys(&asked.key, &asked.end).into_iter().map(|key| {
            let Stands { value, created, changed, lease } = self.pairs[&key].clone();
            KeyValue { key, created, changed, value, lease }
        });
        RangeAnswer { header: self.header(), pairs: found.collect() }
    }

    fn transact(&mut self, asked: &Transaction) -> TransactionAnswer {
        let holds = asked.conditions.iter().all(|condition| self.holds(condition));
        if holds {
            self.revision += 1;
            asked.deeds.iter().for_each(|deed| self.act(deed));
        }
        TransactionAnswer { header: self.header(), has_succeeded: holds }
    }

    fn holds(&self, condition: &TransactionCondition) -> bool {
        let stands = self.pairs.get(&condition.key);
        match (condition.target, &condition.wanted) {
            (CREATED, Some(ConditionWanted::Created(at))) => stands.map_or(0, |stands| stands.created) == *at,
            (CHANGED, Some(ConditionWanted::Changed(at))) => stands.map_or(0, |stands| stands.changed) == *at,
            _ => panic!("{condition:?}"),
        }
    }

    fn act(&mut self, deed: &TransactionDeed) {
        match deed.kind.as_ref().unwrap() {
            DeedKind::Transaction(transaction) => transaction.deeds.iter().for_each(|deed| self.act(deed)),
            DeedKind::Put(put) => {
                let created = self.pairs.get(&put.key).map_or(self.revision, |stands| stands.created);
                let stands = Stands { value: put.value.clone(), created, changed: self.revision, lease: put.lease };
                self.pairs.insert(put.key.clone(), stands);
            }
            DeedKind::Delete(gone) => {
                for key in self.keys(&gone.key, &gone.end) {
                    self.pairs.remove(&key);
                }
            }
        }
    }
}

// The one message that is asked.
async fn read(mut body: RecvStream) -> Option<Bytes> {
    let mut came = BytesMut::new();
    while let Some(some) = body.data().await {
        let some = some.ok()?;
        came.extend_from_slice(&some);
        body.flow_control().release_capacity(some.len()).ok()?;
    }
    unframed(&mut came).unwrap()
}

// Answers by a message, piece by piece. (Who has asked may have lost patience.)
async fn tell(answer: &mut SendStream<Bytes>, message: Bytes, pause: Duration) -> Result<(), h2::Error> {
    for piece in message.chunks(message.len() / PIECES + 1) {
        sleep(pause).await;
        answer.send_data(Bytes::copy_from_slice(piece), false)?;
    }
    answer.send_trailers(HeaderMap::from_iter([(HeaderName::from_static("grpc-status"), HeaderValue::from_static("0"))]))
}

impl Pretended {
    /// One that has nothing.
    pub fn start() -> Pretended {
        let listener = std::net::TcpListener::bind("127.0.0.1:0").unwrap();
        listener.set_nonblocking(true).unwrap();
        let place = listener.local_addr().unwrap().to_string();
        let etcd = Pretended { place, state: Arc::default(), cut: Arc::new(watch::channel(()).0) };
        let serving = etcd.clone();
        let runtime = Builder::new_current_thread().enable_all().build().unwrap();
        thread::spawn(move || runtime.block_on(serving.take_all(listener)));
        etcd
    }

    fn state(&self) -> MutexGuard<'_, PretendedState> {
        self.state.lock().unwrap()
    }

    async fn take_all(self, listener: std::net::TcpListener) {
        let listener = TcpListener::from_std(listener).unwrap();
        loop {
            let (stream, _) = listener.accept().await.unwrap();
            self.state().connections += 1;
            tokio::spawn(self.clone().serve(stream));
        }
    }

    async fn serve(self, stream: TcpStream) {
        let mut cut = self.cut.subscribe();
        let mut asked = h2::server::handshake(stream).await.unwrap();
        loop {
            tokio::select! {
                _ = cut.changed() => return,
                next = asked.accept() => match next {
                    Some(Ok((request, answer))) => drop(tokio::spawn(self.clone().answer(request, answer))),
                    _ => return,
                }
            }
        }
    }

    async fn answer(self, request: Request<RecvStream>, mut answer: SendResponse<Bytes>) {
        let path = request.uri().path().trim_start_matches('/').to_owned();
        let Some(asked) = read(request.into_body()).await else {
            return;
        };
        let way = self.way(&path);
        let answered = match way {
            Way::Lost => return answer.send_reset(Reason::INTERNAL_ERROR),
            Way::Held => return self.state().held.push((Transaction::decode(asked).unwrap(), answer)),
            _ => self.act(way, &path, &asked),
        };
        if way == Way::Unanswered {
            return answer.send_reset(Reason::INTERNAL_ERROR);
        }
        let head = Response::builder().header("content-type", "application/grpc");
        match answered {
            Err((status, words)) => {
                let head = head.header("grpc-status", status).header("grpc-message", words);
                drop(answer.send_response(head.body(()).unwrap(), true));
            }
            Ok(message) => {
                let pause = if way == Way::Slow { SLOW } else { Duration::ZERO };
                if let Ok(mut answer) = answer.send_response(head.body(()).unwrap(), false) {
                    let _ = tell(&mut answer, message, pause).await;
                }
            }
        }
    }

    fn way(&self, path: &str) -> Way {
        let mut state = self.state();
        let ways = match path {
            Transaction::METHOD => Some(&mut state.ways),
            Range::METHOD => Some(&mut state.ways_of_ranges),
            _ => None,
        };
        ways.and_then(VecDeque::pop_front).unwrap_or(Way::Done)
    }

    fn act(&self, way: Way, path: &str, asked: &[u8]) -> Answered {
        let is_taken = path != Transaction::METHOD || is_taken(&Transaction::decode(asked).unwrap().deeds);
        if way == Way::Refused || !is_taken { Err((3, "too%20many%20operations")) } else { Ok(self.state().answer(path, asked)) }
    }

    /// How many connections there were.
    pub fn connections(&self) -> usize {
        self.state().connections
    }

    /// Ends the connections that there are.
    pub fn cut(&self) {
        self.cut.send_replace(());
    }

    /// What becomes of the next ranges.
    pub fn go_ranges(&self, ways: &[Way]) {
        self.state().ways_of_ranges = ways.iter().copied().collect();
    }

    /// By which it is asked.
    pub fn gateway(&self) -> Arc<Members> {
        Arc::new(Members::new(std::slice::from_ref(&self.place), None, None).unwrap())
    }

    /// What becomes of the next transactions.
    pub fn go(&self, ways: &[Way]) {
        self.state().ways = ways.iter().copied().collect();
    }

    /// Waits until so many transactions are held.
    pub fn wait_for_held(&self, count: usize) {
        while self.state().held.len() < count {
            thread::sleep(Duration::from_millis(1));
        }
    }

    /// Lets through what is held.
    pub fn let_through(&self) {
        let held = mem::take(&mut self.state().held);
        for (asked, mut answer) in held {
            self.state().transact(&asked);
            answer.send_reset(Reason::INTERNAL_ERROR);
        }
    }

    /// Takes a key away, as another program does.
    pub fn remove(&self, key: &str) {
        self.state().pairs.remove(key.as_bytes());
    }

    /// The keys and their values.
    pub fn shown(&self) -> Vec<(String, String)> {
        let text = |bytes: &[u8]| String::from_utf8(bytes.to_vec()).unwrap();
        self.state().pairs.iter().map(|(key, stands)| (text(key), text(&stands.value))).collect()
    }
}
