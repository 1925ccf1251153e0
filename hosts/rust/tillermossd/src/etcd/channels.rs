//! gRPC to the members of an etcd: to each one connection of HTTP/2 that is kept open. A thread of its own carries them all; who asks
//! waits in its own thread, until a moment that it says.

use crate::net::tls::Connector;
use anyhow::{Context, Error, Result, anyhow, bail};
use bytes::{Buf, BufMut, Bytes, BytesMut};
use h2::client::{Builder, SendRequest};
use h2::{Ping, PingPong, RecvStream, SendStream};
use http::header::{CONTENT_TYPE, HeaderMap, HeaderValue, TE};
use http::{Request, StatusCode};
use prost::Message;
use std::future::Future;
use std::pin::Pin;
use std::sync::atomic::{AtomicBool, Ordering};
use std::sync::mpsc::sync_channel;
use std::sync::{Arc, Weak};
use std::thread;
use std::time::{Duration, Instant};
use tokio::io::{AsyncRead, AsyncWrite};
use tokio::net::TcpStream;
use tokio::select;
use tokio::sync::mpsc::{Sender, UnboundedReceiver, UnboundedSender, channel, unbounded_channel};
use tokio::sync::{Mutex, MutexGuard};
use tokio::time::{sleep, timeout, timeout_at};

/// How long a connection may take.
const CONNECTING: Duration = Duration::from_secs(1);

/// How often a member is pinged while an answer of it is open, and how long it may take to answer that; after it the connection is cut.
/// (etcd ends a connection itself that is pinged more than once in five seconds, or while nothing is open.)
const PINGING: Duration = Duration::from_secs(6);
const PINGED: Duration = Duration::from_secs(3);

/// How much of an answer may come that isn't read yet, and of all answers over a connection.
const WINDOW: u32 = 4 << 20;
const WINDOWS: u32 = 16 << 20;

/// The longest head of an answer, and its longest message.
const HEAD_LIMIT: u32 = 1 << 14;
const ANSWER_LIMIT: usize = 1 << 30;

/// What stands in front of a message: whether it is compressed, and its length.
const FRONT: usize = 5;

/// How many messages of one that is followed may come that nobody has taken yet.
const UNTAKEN: usize = 16;

/// What the thread does beside all else.
type Task = Pin<Box<dyn Future<Output = ()> + Send>>;

/// Why there is no answer.
#[derive(Debug)]
pub enum ChannelFault {
    /// The member says why: gRPC's number of the reason, and its words.
    Told(u32, String),
    /// It took too long.
    Late,
    /// It ended without one.
    Cut(Error),
}

impl From<ChannelFault> for Error {
    fn from(fault: ChannelFault) -> Error {
        match fault {
            ChannelFault::Told(status, words) => anyhow!("status {status}: {words}"),
            ChannelFault::Late => anyhow!("it took too long"),
            ChannelFault::Cut(error) => error,
        }
    }
}

/// How long an answer is waited for.
#[derive(Clone, Copy, Debug)]
pub struct Limit {
    /// Until this moment in all.
    pub by: Option<Instant>,
    /// For so long at most while nothing of it comes.
    pub silence: Duration,
}

impl Limit {
    async fn wait<T, E: Into<Error>>(self, coming: impl Future<Output = Result<T, E>>) -> Result<T, ChannelFault> {
        let silent = Instant::now() + self.silence;
        let until = self.by.map_or(silent, |by| by.min(silent));
        match timeout_at(until.into(), coming).await {
            Ok(come) => come.map_err(|error| ChannelFault::Cut(error.into())),
            Err(_) => Err(ChannelFault::Late),
        }
    }
}

/// What is asked: by which method, the message as it goes out, and by what the member knows who asks.
#[derive(Clone, Debug)]
pub struct ChannelQuestion {
    method: &'static str,
    framed: Bytes,
    token: Option<String>,
}

impl ChannelQuestion {
    /// This message.
    #[must_use]
    pub fn new(method: &'static str, message: &impl Message, token: Option<String>) -> ChannelQuestion {
        ChannelQuestion { method, framed: framed(message), token }
    }

    fn request(&self, member: &str) -> Result<Request<()>> {
        let mut request = Request::post(format!("{member}/{}", self.method)).body(())?;
        let headers = request.headers_mut();
        headers.insert(CONTENT_TYPE, HeaderValue::from_static("application/grpc"));
        headers.insert(TE, HeaderValue::from_static("trailers"));
        if let Some(token) = &self.token {
            headers.insert("token", HeaderValue::from_str(token)?);
        }
        Ok(request)
    }
}

/// A message as it goes over a connection.
#[must_use]
pub fn framed(message: &impl Message) -> Bytes {
    let length = message.encoded_len();
    let mut framed = BytesMut::with_capacity(FRONT + length);
    framed.put_u8(0);
    // (one of 4 GiB isn't made: etcd takes 1.5 MB)
    framed.put_u32(length as u32);
    // (it fails only where there is no room for it)
    let _ = message.encode(&mut framed);
    framed.freeze()
}

/// The next whole message of what came, which it takes out.
pub fn unframed(came: &mut BytesMut) -> Result<Option<Bytes>> {
    let Some(&[is_compressed, a, b, c, d]) = came.first_chunk::<FRONT>() else {
        return Ok(None);
    };
    let length = u32::from_be_bytes([a, b, c, d]) as usize;
    if is_compressed != 0 || length > ANSWER_LIMIT {
        bail!("a message that is compressed, or too long");
    }
    if came.len() < FRONT + length {
        return Ok(None);
    }
    came.advance(FRONT);
    Ok(Some(came.split_to(length).freeze()))
}

// What became of a question, where these say it.
fn state(told: &HeaderMap) -> Option<Result<(), ChannelFault>> {
    let status = told.get("grpc-status")?.to_str().ok()?.parse().ok()?;
    Some(if status == 0 { Ok(()) } else { Err(ChannelFault::Told(status, words(told))) })
}

// The words of a reason, where each byte that isn't plain stands as a % and two digits.
fn words(told: &HeaderMap) -> String {
    let mut rest = told.get("grpc-message").map(HeaderValue::as_bytes).unwrap_or_default();
    let mut plain = Vec::with_capacity(rest.len());
    while let Some((first, after)) = rest.split_first() {
        let mut byte = [*first];
        let digits = after.first_chunk::<2>().filter(|digits| *first == b'%' && hex::decode_to_slice(digits, &mut byte).is_ok());
        plain.push(byte[0]);
        rest = digits.map_or(after, |digits| &after[digits.len()..]);
    }
    String::from_utf8_lossy(&plain).into_owned()
}

/// A connection that is kept.
#[derive(Clone, Debug)]
struct KeptConnection {
    sending: SendRequest<Bytes>,
    open: Arc<ConnectionUse>,
}

/// Has a part in each answer that is open over a connection, and in what is kept of it.
#[derive(Debug, Default)]
struct ConnectionUse {
    /// Nothing more is asked over it.
    is_left: AtomicBool,
}

/// An answer that is coming. (What is asked isn't at its end before this is dropped, unless it was whole.)
struct ComingAnswer {
    body: RecvStream,
    came: BytesMut,
    _asking: SendStream<Bytes>,
    _open: Arc<ConnectionUse>,
}

impl ComingAnswer {
    // Its next message; None at its end, where the member says that all is well.
    async fn next(&mut self, limit: Limit) -> Result<Option<Bytes>, ChannelFault> {
        loop {
            if let Some(message) = unframed(&mut self.came).map_err(ChannelFault::Cut)? {
                return Ok(Some(message));
            }
            let Some(some) = limit.wait(async { self.body.data().await.transpose() }).await? else {
                break;
            };
            self.came.extend_from_slice(&some);
            // (it fails only where the answer is over)
            let _ = self.body.flow_control().release_capacity(some.len());
        }
        let trailers = limit.wait(self.body.trailers()).await?.unwrap_or_default();
        state(&trailers).unwrap_or_else(|| Err(ChannelFault::Cut(anyhow!("an answer without an end")))).map(|()| None)
    }
}

impl KeptConnection {
    // Begins it over a stream that is there.
    async fn begin(stream: impl AsyncRead + AsyncWrite + Send + Unpin + 'static) -> Result<KeptConnection> {
        let mut builder = Builder::new();
        builder.initial_window_size(WINDOW).initial_connection_window_size(WINDOWS).max_header_list_size(HEAD_LIMIT).enable_push(false);
        let (sending, mut connection) = builder.handshake(stream).await?;
        let open = Arc::<ConnectionUse>::default();
        let (pings, watched) = (connection.ping_pong().context("a connection without pings")?, Arc::downgrade(&open));
        // (where it ends, so does what is open over it)
        tokio::spawn(async move {
            select! {
                ended = connection => drop(ended),
                () = ping(pings, watched) => {}
            }
        });
        Ok(KeptConnection { sending, open })
    }

    // Asks; the answer as it begins. `is_whole` says that nothing else is asked with it.
    async fn ask(mut self, member: &str, asked: &ChannelQuestion, is_whole: bool, limit: Limit) -> Result<ComingAnswer, ChannelFault> {
        let request = asked.request(member).map_err(ChannelFault::Cut)?;
        let (coming, mut asking) = self.sending.send_request(request, false).map_err(|error| ChannelFault::Cut(error.into()))?;
        asking.send_data(asked.framed.clone(), is_whole).map_err(|error| ChannelFault::Cut(error.into()))?;
        let answer = limit.wait(coming).await?;
        if answer.status() != StatusCode::OK {
            return Err(ChannelFault::Cut(anyhow!("status {} of HTTP", answer.status())));
        }
        // (a member that has nothing else to say says at once what became of it)
        if let Some(Err(fault)) = state(answer.headers()) {
            return Err(fault);
        }
        Ok(ComingAnswer { body: answer.into_body(), came: BytesMut::new(), _asking: asking, _open: self.open })
    }
}

// Pings while something is open beside the one who keeps the connection; over where the member doesn't answer.
async fn ping(mut pings: PingPong, open: Weak<ConnectionUse>) {
    loop {
        sleep(PINGING).await;
        if open.strong_count() > 1 && !matches!(timeout(PINGED, pings.ping(Ping::opaque())).await, Ok(Ok(_))) {
            return;
        }
    }
}

/// A member.
#[derive(Debug)]
struct Member {
    /// Its host and port.
    place: String,
    connector: Option<Arc<Connector>>,
    /// The connection, where there is one; it may have ended.
    kept: Mutex<Option<KeptConnection>>,
}

impl Member {
    async fn connect(&self) -> Result<KeptConnection> {
        let connecting = timeout(CONNECTING, TcpStream::connect(&self.place));
        let stream = connecting.await.context("connecting took too long")??;
        stream.set_nodelay(true)?;
        let host = self.place.rsplit_once(':').map_or(self.place.as_str(), |(host, _)| host);
        match &self.connector {
            Some(connector) => KeptConnection::begin(connector.connect(host, stream).await?).await,
            None => KeptConnection::begin(stream).await,
        }
    }

    // One that is ready: that is kept, or a new one where it has ended or was left.
    async fn connection(&self) -> Result<KeptConnection> {
        let mut kept: MutexGuard<Option<KeptConnection>> = self.kept.lock().await;
        if let Some(KeptConnection { sending, open }) = kept.take_if(|kept| !kept.open.is_left.load(Ordering::SeqCst))
            && let Ok(sending) = sending.ready().await
        {
            return Ok(kept.insert(KeptConnection { sending, open }).clone());
        }
        Ok(kept.insert(self.connect().await?).clone())
    }

    // Asks; after a question that wasn't answered the next one goes over another connection.
    async fn ask<T>(&self, limit: Limit, deed: impl AsyncFnOnce(KeptConnection) -> Result<T, ChannelFault>) -> Result<T, ChannelFault> {
        let connection = limit.wait(self.connection()).await?;
        let open = connection.open.clone();
        let answered = deed(connection).await;
        if matches!(answered, Err(ChannelFault::Late | ChannelFault::Cut(_))) {
            open.is_left.store(true, Ordering::SeqCst);
        }
        answered
    }

    fn name(&self) -> String {
        format!("{}://{}", if self.connector.is_some() { "https" } else { "http" }, self.place)
    }

    // The one message that is answered; of a stream the first.
    async fn answer(&self, asked: &ChannelQuestion, limit: Limit) -> Result<Bytes, ChannelFault> {
        self.ask(limit, async |connection| {
            let mut answer = connection.ask(&self.name(), asked, true, limit).await?;
            let first = answer.next(limit).await?;
            while answer.next(limit).await?.is_some() {}
            first.ok_or_else(|| ChannelFault::Cut(anyhow!("an empty answer")))
        })
        .await
    }

    // Tells each message that is answered, until nobody takes them, or nothing came for a while.
    async fn follow(
        &self,
        asked: &ChannelQuestion,
        limit: Limit,
        telling: &Sender<Result<Bytes, ChannelFault>>,
    ) -> Result<(), ChannelFault> {
        let begun = self.ask(limit, async |connection| connection.ask(&self.name(), asked, false, limit).await);
        let mut answer = begun.await?;
        loop {
            let next = select! {
                next = answer.next(limit) => next,
                () = telling.closed() => return Ok(()),
            };
            let message = match next {
                Ok(Some(message)) => message,
                Ok(None) | Err(ChannelFault::Late) => return Ok(()),
                Err(fault) => return Err(fault),
            };
            if telling.send(Ok(message)).await.is_err() {
                return Ok(());
            }
        }
    }
}

/// The members, and the thread that carries what is asked of them; it ends when this is dropped.
#[derive(Debug)]
pub struct Channels {
    members: Vec<Arc<Member>>,
    tasks: UnboundedSender<Task>,
}

// Does all tasks at the same time, until no more can come.
async fn carry(mut tasks: UnboundedReceiver<Task>) {
    while let Some(task) = tasks.recv().await {
        tokio::spawn(task);
    }
}

impl Channels {
    /// Those to members at these places, each a host and a port; by TLS where it is said how. None is connected before it is asked.
    pub fn new(places: &[String], connector: Option<&Arc<Connector>>) -> Result<Channels> {
        let runtime = tokio::runtime::Builder::new_current_thread().enable_all().build()?;
        let (tasks, coming) = unbounded_channel();
        thread::Builder::new().name("etcd".to_owned()).spawn(move || runtime.block_on(carry(coming)))?;
        let member = |place: &String| Arc::new(Member { place: place.clone(), connector: connector.cloned(), kept: Mutex::default() });
        Ok(Channels { members: places.iter().map(member).collect(), tasks })
    }

    /// How many members there are.
    #[must_use]
    pub fn count(&self) -> usize {
        self.members.len()
    }

    fn begin(&self, task: impl Future<Output = ()> + Send + 'static) {
        // (where the thread is gone, so is whatever would answer)
        let _ = self.tasks.send(Box::pin(task));
    }

    /// What the member at this place answers.
    pub fn ask(&self, at: usize, asked: ChannelQuestion, limit: Limit) -> Result<Bytes, ChannelFault> {
        let member = self.members[at].clone();
        let (telling, told) = sync_channel(1);
        self.begin(async move {
            // (there is room for it, and who asked waits)
            let _ = telling.send(member.answer(&asked, limit).await);
        });
        told.recv().unwrap_or_else(|_| Err(ChannelFault::Cut(anyhow!("nobody carries it"))))
    }

    /// Each message that the member at this place answers, until that tells to stop, or nothing came for a while. It isn't called by what
    /// a runtime drives.
    pub fn follow(&self, at: usize, asked: ChannelQuestion, silence: Duration, mut tell: impl FnMut(Bytes) -> Result<bool>) -> Result<()> {
        let member = self.members[at].clone();
        let (telling, mut told) = channel(UNTAKEN);
        self.begin(async move {
            if let Err(fault) = member.follow(&asked, Limit { by: None, silence }, &telling).await {
                // (who doesn't take it any more doesn't want it)
                let _ = telling.send(Err(fault)).await;
            }
        });
        while let Some(message) = told.blocking_recv() {
            if !tell(message?)? {
                break;
            }
        }
        Ok(())
    }
}

#[cfg(test)]
mod tests {
    use super::*;
    use crate::etcd::messages::Revoke;

    #[test]
    fn messages_have_their_length_in_front() {
        let whole = framed(&Revoke { lease: 300 });
        assert_eq!(&whole[..], [0, 0, 0, 0, 3, 8, 0xac, 2]);
        let twice = [&whole[..], &whole].concat();
        for cut in 0..=twice.len() {
            let mut came = BytesMut::from(&twice[..cut]);
            let mut read = Vec::new();
            while let Some(message) = unframed(&mut came).unwrap() {
                read.push(message);
            }
            assert_eq!(read, vec![Bytes::from_static(&[8, 0xac, 2]); cut / whole.len()], "{cut}");
            assert_eq!(came, twice[cut - cut % whole.len()..cut], "{cut}");
        }
        for front in [[1, 0, 0, 0, 0], [0, 0x40, 0, 0, 1]] {
            assert!(unframed(&mut BytesMut::from(&front[..])).is_err(), "{front:?}");
        }
    }

    #[test]
    fn reasons_are_told_in_their_own_words() {
        let rows = [
            (vec![("grpc-status", "0")], Some(None)),
            (vec![("grpc-status", "0"), ("grpc-message", "well")], Some(None)),
            (vec![("grpc-status", "9"), ("grpc-message", "too%20many: 100%25 %c3%A4 %")], Some(Some((9, "too many: 100% ä %")))),
            (vec![("grpc-status", "14"), ("grpc-message", "%zz%4")], Some(Some((14, "%zz%4")))),
            (vec![("grpc-status", "14")], Some(Some((14, "")))),
            (vec![("grpc-status", "-1")], None),
            (vec![("grpc-message", "well")], None),
        ];
        for (told, wanted) in rows {
            let headers =
                told.iter().map(|(name, value)| (http::header::HeaderName::from_static(name), HeaderValue::from_str(value).unwrap()));
            let read = state(&headers.collect()).map(|read| match read {
                Err(ChannelFault::Told(status, words)) => Some((status, words)),
                _ => None,
            });
            assert_eq!(read, wanted.map(|it| it.map(|(status, words): (u32, &str)| (status, words.to_owned()))), "{told:?}");
        }
    }
}
