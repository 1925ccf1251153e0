//! A network between a server and an etcd, which speak gRPC, that holds back the transactions which write one key, and lets the first of
//! them through late; all else passes meanwhile.

use bytes::{Bytes, BytesMut};
use h2::client::{ResponseFuture, SendRequest};
use h2::server::SendResponse;
use h2::{Reason, RecvStream, SendStream};
use http::{Request, Response};
use prost::Message;
use std::error::Error;
use std::io;
use std::net::{SocketAddr, TcpListener as StdTcpListener};
use std::sync::{Arc, Mutex, MutexGuard, PoisonError};
use std::thread;
use std::time::{Duration, Instant};
use tokio::net::{TcpListener, TcpStream};
use tokio::runtime::{Builder, Runtime};

/// The method by which a transaction is asked for.
const TRANSACTION: &str = "/etcdserverpb.KV/Txn";

/// What stands in front of a message: whether it is compressed, and its length.
const FRONT: usize = 5;

/// What becomes of what is carried.
type Carried<T> = Result<T, Box<dyn Error + Send + Sync>>;

/// A holder, whose threads go on until the process ends.
#[derive(Clone, Debug)]
pub struct Holder {
    address: SocketAddr,
    shared: Arc<Shared>,
}

#[derive(Debug)]
struct Shared {
    service: SocketAddr,
    key: String,
    state: Mutex<State>,
}

#[derive(Debug, Default)]
struct State {
    /// How many more are held.
    most: usize,
    /// The first one since it began to hold, and how many came in all.
    first: Option<(Request<()>, Bytes)>,
    count: usize,
    /// The answers to those that came, which end when it lets the first one through.
    waiting: Vec<SendResponse<Bytes>>,
}

/// A transaction, as far as it is read here.
#[derive(Clone, PartialEq, Message)]
struct Transaction {
    #[prost(message, repeated, tag = "2")]
    deeds: Vec<Deed>,
}

#[derive(Clone, PartialEq, Message)]
struct Deed {
    #[prost(message, optional, tag = "2")]
    put: Option<Put>,
    #[prost(message, optional, tag = "4")]
    transaction: Option<Transaction>,
}

#[derive(Clone, PartialEq, Message)]
struct Put {
    #[prost(bytes = "vec", tag = "1")]
    key: Vec<u8>,
}

/// What became of one.
#[derive(Clone, PartialEq, Message)]
struct Done {
    #[prost(bool, tag = "2")]
    has_succeeded: bool,
}

impl Transaction {
    fn writes(&self, key: &str) -> bool {
        self.deeds.iter().any(|Deed { put, transaction }| {
            put.as_ref().is_some_and(|put| put.key == key.as_bytes()) || transaction.as_ref().is_some_and(|within| within.writes(key))
        })
    }
}

impl Shared {
    fn state(&self) -> MutexGuard<'_, State> {
        self.state.lock().unwrap_or_else(PoisonError::into_inner)
    }

    // Holds a transaction, where it is one that is held; else its answer is given back.
    fn take(&self, request: &Request<()>, message: &Bytes, answer: SendResponse<Bytes>) -> Carried<Option<SendResponse<Bytes>>> {
        let mut state = self.state();
        if state.most == 0 || !Transaction::decode(message.get(FRONT..).unwrap_or_default())?.writes(&self.key) {
            return Ok(Some(answer));
        }
        (state.most, state.count) = (state.most - 1, state.count + 1);
        if state.first.is_none() {
            state.first = Some((again(request)?, message.clone()));
        }
        state.waiting.push(answer);
        Ok(None)
    }
}

// This request once more.
fn again(request: &Request<()>) -> Carried<Request<()>> {
    let mut same = Request::post(request.uri().clone()).body(())?;
    same.headers_mut().clone_from(request.headers());
    Ok(same)
}

fn runtime() -> io::Result<Runtime> {
    Builder::new_current_thread().enable_all().build()
}

impl Holder {
    /// A holder in front of this etcd, for transactions that write this key. It holds none yet.
    ///
    /// # Errors
    ///
    /// If it can't listen.
    pub fn start(service: SocketAddr, key: &str) -> io::Result<Holder> {
        let listener = StdTcpListener::bind("127.0.0.1:0")?;
        listener.set_nonblocking(true)?;
        let shared = Arc::new(Shared { service, key: key.to_owned(), state: Mutex::default() });
        let holder = Holder { address: listener.local_addr()?, shared: shared.clone() };
        let runtime = runtime()?;
        thread::spawn(move || runtime.block_on(take_all(listener, shared)));
        Ok(holder)
    }

    /// Where it listens.
    #[must_use]
    pub fn address(&self) -> SocketAddr {
        self.address
    }

    /// From here on it holds: the first that comes is done late, the others never.
    pub fn hold(&self) {
        *self.shared.state() = State { most: usize::MAX, ..State::default() };
    }

    /// From here on it holds the first that comes, which is done late; the others pass.
    pub fn hold_one(&self) {
        *self.shared.state() = State { most: 1, ..State::default() };
    }

    /// Waits until it holds so many, a minute at most; whether it does.
    #[must_use]
    pub fn has_held(&self, count: usize) -> bool {
        let begun = Instant::now();
        while self.shared.state().count < count {
            if begun.elapsed() > Duration::from_secs(60) {
                return false;
            }
            thread::sleep(Duration::from_millis(5));
        }
        true
    }

    /// Lets the first one through that it holds, and from here on all; whether that was done, as etcd says.
    ///
    /// # Errors
    ///
    /// If it holds none, or etcd isn't reached.
    pub fn let_through(&self) -> io::Result<bool> {
        let State { first, waiting, .. } = std::mem::take(&mut *self.shared.state());
        let (request, message) = first.ok_or_else(|| io::Error::other("nothing is held"))?;
        let asked = async {
            let mut etcd = connect(self.shared.service).await?;
            read(ask(&mut etcd, request, message)?.await?.body_mut()).await
        };
        let done = runtime()?.block_on(asked).map_err(io::Error::other)?;
        for mut answer in waiting {
            // (who waited has given up)
            answer.send_reset(Reason::INTERNAL_ERROR);
        }
        Ok(Done::decode(done.get(FRONT..).unwrap_or_default())?.has_succeeded)
    }
}

async fn take_all(listener: StdTcpListener, shared: Arc<Shared>) {
    let Ok(listener) = TcpListener::from_std(listener) else {
        return;
    };
    // (whatever ends one way ends the other)
    while let Ok((client, _)) = listener.accept().await {
        let shared = shared.clone();
        tokio::spawn(async move { drop(carry(client, &shared).await) });
    }
}

async fn connect(service: SocketAddr) -> Carried<SendRequest<Bytes>> {
    let stream = TcpStream::connect(service).await?;
    stream.set_nodelay(true)?;
    let (asking, connection) = h2::client::handshake(stream).await?;
    tokio::spawn(async move { drop(connection.await) });
    Ok(asking)
}

async fn carry(client: TcpStream, shared: &Arc<Shared>) -> Carried<()> {
    client.set_nodelay(true)?;
    let etcd = connect(shared.service).await?;
    let mut asked = h2::server::handshake(client).await?;
    while let Some(next) = asked.accept().await {
        let ((request, answer), etcd, shared) = (next?, etcd.clone(), shared.clone());
        // (an answer that is dropped tells the client that none comes)
        tokio::spawn(async move { drop(pass(request, answer, etcd, &shared).await) });
    }
    Ok(())
}

async fn pass(request: Request<RecvStream>, answer: SendResponse<Bytes>, mut etcd: SendRequest<Bytes>, shared: &Shared) -> Carried<()> {
    let (head, mut body) = request.into_parts();
    let request = Request::from_parts(head, ());
    if request.uri().path() == TRANSACTION {
        let message = read(&mut body).await?;
        return match shared.take(&request, &message, answer)? {
            Some(answer) => give(ask(&mut etcd, request, message)?, answer).await,
            None => Ok(()),
        };
    }
    let (coming, mut asking) = etcd.send_request(request, false)?;
    let mut answered = std::pin::pin!(give(coming, answer));
    tokio::select! {
        over = &mut answered => return over,
        asked = pump(&mut body, &mut asking) => asked?,
    }
    answered.await
}

// Asks for a transaction that is whole.
fn ask(etcd: &mut SendRequest<Bytes>, request: Request<()>, message: Bytes) -> Carried<ResponseFuture> {
    let (coming, mut asking) = etcd.send_request(request, false)?;
    asking.send_data(message, true)?;
    Ok(coming)
}

async fn give(coming: ResponseFuture, mut answer: SendResponse<Bytes>) -> Carried<()> {
    let (head, mut body) = coming.await?.into_parts();
    let is_over = body.is_end_stream();
    let mut sending = answer.send_response(Response::from_parts(head, ()), is_over)?;
    if is_over { Ok(()) } else { pump(&mut body, &mut sending).await }
}

// All that comes, with the fronts of its messages.
async fn read(body: &mut RecvStream) -> Carried<Bytes> {
    let mut came = BytesMut::new();
    while let Some(some) = next(body).await? {
        came.extend_from_slice(&some);
    }
    Ok(came.freeze())
}

async fn next(body: &mut RecvStream) -> Carried<Option<Bytes>> {
    let some = body.data().await.transpose()?;
    body.flow_control().release_capacity(some.as_ref().map_or(0, Bytes::len))?;
    Ok(some)
}

async fn pump(from: &mut RecvStream, to: &mut SendStream<Bytes>) -> Carried<()> {
    loop {
        let some = tokio::select! {
            some = next(from) => some?,
            // (whoever doesn't want it any more wants nothing of it)
            _ = std::future::poll_fn(|context| to.poll_reset(context)) => return Ok(()),
        };
        match some {
            Some(some) => to.send_data(some, false)?,
            None => break,
        }
    }
    match from.trailers().await? {
        Some(trailers) => to.send_trailers(trailers)?,
        None => to.send_data(Bytes::new(), true)?,
    }
    Ok(())
}
