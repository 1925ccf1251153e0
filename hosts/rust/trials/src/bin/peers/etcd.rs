//! etcd, by its own messages, as its clients in Go and Java send them: gRPC, which is HTTP/2 with messages of protobuf. A client is a
//! connection that is kept, and a lease.

use crate::{CONTENT, Measured, Session};
use bytes::Bytes;
use h2::client::SendRequest;
use h2::{RecvStream, SendStream};
use http::Request;
use std::time::{Duration, Instant};
use tokio::net::TcpStream;
use tokio::runtime::{Builder, Runtime};

/// How many seconds a lease lasts without being kept, and so often it is kept.
const LEASE: u64 = 12;
const KEPT: Duration = Duration::from_secs(4);

/// How messages go over a connection that is kept: what is read of it is read while something is asked.
pub struct Etcd {
    runtime: Runtime,
    sending: SendRequest<Bytes>,
    lease: u64,
    kept: Instant,
    held: Option<Vec<u8>>,
    watch: Option<Stream>,
    /// The revision of the last transaction; 0 before the first.
    changed: u64,
}

/// A call whose messages come one after the other. It lasts while what is sent isn't at its end.
struct Stream {
    _asking: SendStream<Bytes>,
    body: RecvStream,
    came: Vec<u8>,
}

/// The fields of a message: numbers, and bytes after their length. A field that isn't there is 0, or empty.
#[derive(Clone, Default)]
struct Fields(Vec<u8>);

impl Fields {
    fn varint(&mut self, mut number: u64) {
        while number >= 0x80 {
            self.0.push(number as u8 | 0x80);
            number >>= 7;
        }
        self.0.push(number as u8);
    }

    fn number(mut self, field: u8, number: u64) -> Fields {
        self.0.push(field << 3);
        self.varint(number);
        self
    }

    fn bytes(mut self, field: u8, bytes: impl AsRef<[u8]>) -> Fields {
        self.0.push(field << 3 | 2);
        self.varint(bytes.as_ref().len() as u64);
        self.0.extend(bytes.as_ref());
        self
    }

    fn message(self, field: u8, message: &Fields) -> Fields {
        self.bytes(field, &message.0)
    }

    fn put(name: &str) -> Fields {
        Fields::default().bytes(1, name).bytes(2, CONTENT)
    }
}

/// A value of a field.
#[derive(Clone, Copy)]
enum Value<'a> {
    Number(u64),
    Bytes(&'a [u8]),
}

fn varint(message: &[u8], at: &mut usize) -> Option<u64> {
    let mut number = 0;
    for shift in (0..64).step_by(7) {
        let byte = *message.get(*at)?;
        *at += 1;
        number |= u64::from(byte & 0x7f) << shift;
        if byte < 0x80 {
            return Some(number);
        }
    }
    None
}

// The next field's number and value.
fn next<'a>(message: &'a [u8], at: &mut usize) -> Option<(u64, Value<'a>)> {
    let key = varint(message, at)?;
    let value = match key & 7 {
        0 => Value::Number(varint(message, at)?),
        2 => {
            let length = usize::try_from(varint(message, at)?).ok()?;
            let begin = *at;
            *at = begin.checked_add(length)?;
            Value::Bytes(message.get(begin..*at)?)
        }
        _ => return None,
    };
    Some((key >> 3, value))
}

// The first value of this field.
fn field(message: &[u8], number: u64) -> Option<Value<'_>> {
    let mut at = 0;
    std::iter::from_fn(|| next(message, &mut at)).find(|(found, _)| *found == number).map(|(_, value)| value)
}

fn bytes_of(message: &[u8], number: u64) -> Measured<&[u8]> {
    match field(message, number) {
        Some(Value::Bytes(bytes)) => Ok(bytes),
        _ => Err(format!("an answer without field {number}: {message:?}").into()),
    }
}

fn number_of(message: &[u8], number: u64) -> Measured<u64> {
    match field(message, number) {
        Some(Value::Number(found)) => Ok(found),
        _ => Err(format!("an answer without field {number}: {message:?}").into()),
    }
}

// A message after the byte that it isn't compressed, and its length.
fn framed(message: &Fields) -> Measured<Bytes> {
    let length = u32::try_from(message.0.len())?.to_be_bytes();
    Ok([&[0][..], &length, &message.0].concat().into())
}

impl Stream {
    // The next message; None at the end.
    async fn message(&mut self) -> Measured<Option<Vec<u8>>> {
        loop {
            if let Some((head, rest)) = self.came.split_first_chunk::<5>() {
                let length = u32::from_be_bytes([head[1], head[2], head[3], head[4]]) as usize;
                if rest.len() >= length {
                    let message = rest[..length].to_vec();
                    self.came.drain(..5 + length);
                    return Ok(Some(message));
                }
            }
            let Some(some) = self.body.data().await else {
                return self.end().await;
            };
            let some = some?;
            self.came.extend(&some);
            self.body.flow_control().release_capacity(some.len())?;
        }
    }

    // What it came to.
    async fn end(&mut self) -> Measured<Option<Vec<u8>>> {
        let trailers = self.body.trailers().await?.unwrap_or_default();
        match trailers.get("grpc-status") {
            Some(status) if status == "0" => Ok(None),
            _ => Err(format!("refused: {trailers:?}").into()),
        }
    }
}

async fn connected(address: &str) -> Measured<SendRequest<Bytes>> {
    let stream = TcpStream::connect(address).await?;
    stream.set_nodelay(true)?;
    let (sending, connection) = h2::client::handshake(stream).await?;
    // (where it ends, so does what is asked over it)
    tokio::spawn(async move { drop(connection.await) });
    Ok(sending)
}

async fn begun(sending: &SendRequest<Bytes>, address: &str, path: &str, asked: &Fields, is_whole: bool) -> Measured<Stream> {
    let request = Request::post(format!("http://{address}/{path}")).header("content-type", "application/grpc").header("te", "trailers");
    let (answer, mut asking) = sending.clone().ready().await?.send_request(request.body(())?, false)?;
    asking.send_data(framed(asked)?, is_whole)?;
    let answer = answer.await?;
    if let Some(status) = answer.headers().get("grpc-status").filter(|status| *status != "0") {
        return Err(format!("refused with {status:?}").into());
    }
    Ok(Stream { _asking: asking, body: answer.into_body(), came: Vec::new() })
}

impl Etcd {
    pub fn connect(address: &str) -> Measured<Etcd> {
        let runtime = Builder::new_current_thread().enable_all().build()?;
        let sending = runtime.block_on(connected(address))?;
        let mut etcd = Etcd { runtime, sending, lease: 0, kept: Instant::now(), held: None, watch: None, changed: 0 };
        let granted = etcd.ask("etcdserverpb.Lease/LeaseGrant", &Fields::default().number(1, LEASE))?;
        etcd.lease = number_of(&granted, 2)?;
        Ok(etcd)
    }

    fn ask(&self, path: &str, asked: &Fields) -> Measured<Vec<u8>> {
        self.runtime.block_on(async {
            let mut stream = begun(&self.sending, "etcd", path, asked, true).await?;
            let message = stream.message().await?.ok_or("no answer")?;
            // (a unary call is over after its trailers)
            if !path.ends_with("KeepAlive") {
                stream.message().await?;
            }
            Ok(message)
        })
    }

    /// Puts two values in one transaction, if nobody else has changed the first since.
    pub fn transact(&mut self, name: &str) -> Measured<()> {
        // (compared is the revision that changed it last)
        let same = Fields::default().number(2, 2).bytes(3, name).number(6, self.changed);
        let put = |name: &str| Fields::default().message(2, &Fields::put(name));
        let asked = Fields::default().message(1, &same).message(2, &put(name)).message(2, &put(&format!("{name}/beside")));
        let answer = self.ask("etcdserverpb.KV/Txn", &asked)?;
        number_of(&answer, 2).map_err(|_| "its key was changed by another")?;
        self.changed = number_of(bytes_of(&answer, 1)?, 3)?;
        Ok(())
    }

    // The next message of the watch.
    fn told(&mut self) -> Measured<Vec<u8>> {
        let watch = self.watch.as_mut().ok_or("no watch")?;
        self.runtime.block_on(watch.message())?.ok_or_else(|| "the watch ended".into())
    }
}

impl Session for Etcd {
    fn make_directory(&mut self, _: &str) -> Measured<()> {
        Ok(())
    }

    fn make(&mut self, name: &str) -> Measured<()> {
        self.set(name)
    }

    fn make_all(&mut self, names: &[String]) -> Measured<()> {
        for some in names.chunks(100) {
            let put = |name: &String| Fields::default().message(2, &Fields::put(name));
            let puts = some.iter().fold(Fields::default(), |puts, name| puts.message(2, &put(name)));
            self.ask("etcdserverpb.KV/Txn", &puts)?;
        }
        Ok(())
    }

    fn open(&mut self, _: &str) -> Measured<()> {
        Ok(())
    }

    fn set(&mut self, name: &str) -> Measured<()> {
        self.ask("etcdserverpb.KV/Put", &Fields::put(name)).map(|_| ())
    }

    fn read(&mut self, name: &str) -> Measured<()> {
        let answer = self.ask("etcdserverpb.KV/Range", &Fields::default().bytes(1, name))?;
        if bytes_of(bytes_of(&answer, 2)?, 5)? != CONTENT { Err("another content is there".into()) } else { Ok(()) }
    }

    fn delete(&mut self, name: &str) -> Measured<()> {
        let answer = self.ask("etcdserverpb.KV/DeleteRange", &Fields::default().bytes(1, name))?;
        if number_of(&answer, 2)? != 1 { Err("there was no such key".into()) } else { Ok(()) }
    }

    // The keys with the name and a slash in front, without their values. (0 comes after the slash.)
    fn list(&mut self, name: &str) -> Measured<usize> {
        let asked = Fields::default().bytes(1, format!("{name}/")).bytes(2, format!("{name}0")).number(8, 1);
        let answer = self.ask("etcdserverpb.KV/Range", &asked)?;
        let mut at = 0;
        let found = std::iter::from_fn(|| next(&answer, &mut at)).filter_map(|(field, value)| match value {
            Value::Bytes(pair) if field == 2 => Some(bytes_of(pair, 1).map(|key| String::from_utf8_lossy(key).into_owned())),
            _ => None,
        });
        Ok(found.collect::<Measured<Vec<_>>>()?.len())
    }

    // (the watch goes on; the first message says that it begins)
    fn follow(&mut self, name: &str) -> Measured<()> {
        if self.watch.is_none() {
            let asked = Fields::default().message(1, &Fields::default().bytes(1, name));
            let watch = self.runtime.block_on(begun(&self.sending, "etcd", "etcdserverpb.Watch/Watch", &asked, false))?;
            self.watch = Some(watch);
            number_of(&self.told()?, 3)?;
        }
        Ok(())
    }

    fn wait_told(&mut self) -> Measured<()> {
        bytes_of(&self.told()?, 11).map(|_| ())
    }

    fn lock(&mut self, name: &str) -> Measured<()> {
        let answer = self.ask("v3lockpb.Lock/Lock", &Fields::default().bytes(1, name).number(2, self.lease))?;
        self.held = Some(bytes_of(&answer, 2)?.to_vec());
        Ok(())
    }

    fn unlock(&mut self, _: &str) -> Measured<()> {
        let held = self.held.take().ok_or("it isn't held")?;
        self.ask("v3lockpb.Lock/Unlock", &Fields::default().bytes(1, held)).map(|_| ())
    }

    fn keep(&mut self) -> Measured<()> {
        if self.kept.elapsed() > KEPT {
            self.kept = Instant::now();
            self.ask("etcdserverpb.Lease/LeaseKeepAlive", &Fields::default().number(1, self.lease))?;
        }
        Ok(())
    }
}
