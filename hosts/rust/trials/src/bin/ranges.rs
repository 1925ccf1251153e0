//! Reads one content again and again over so many connections, each read after the answer to the last one: a file of a gateway by HTTP/1.1,
//! or a key of etcd by gRPC. `bench/gateway` starts the services and asks for the figures.
//! Usage: ranges gateway|etcd|etcd-serializable HOST:PORT NAME CONNECTIONS SECONDS [DEPTH]
//! With DEPTH so many reads of a gateway go out together over each connection, and the next ones after all their answers: so who reads
//! takes less of a processor.

use bytes::Bytes;
use http::Request;
use std::error::Error;
use std::sync::Arc;
use std::sync::atomic::{AtomicBool, AtomicU64, Ordering};
use std::time::{Duration, Instant};
use tokio::io::{AsyncReadExt, AsyncWriteExt};
use tokio::net::TcpStream;
use tokio::task::JoinSet;
use tokio::time::sleep;

type Done<T> = Result<T, Box<dyn Error + Send + Sync>>;

/// What all connections share.
#[derive(Default)]
struct Count {
    reads: AtomicU64,
    is_over: AtomicBool,
}

impl Count {
    // One more answer came; whether another one is asked for.
    fn goes_on(&self) -> bool {
        self.reads.fetch_add(1, Ordering::Relaxed);
        !self.is_over.load(Ordering::Relaxed)
    }
}

async fn connect(place: &str) -> Done<TcpStream> {
    let stream = TcpStream::connect(place).await?;
    stream.set_nodelay(true)?;
    Ok(stream)
}

// (its answers are read whole, by the length that each one says)
async fn read_by_http(place: String, name: String, depth: usize, count: Arc<Count>) -> Done<()> {
    let mut stream = connect(&place).await?;
    let asked = format!("GET /v1/file/{name} HTTP/1.1\r\nHost: {place}\r\n\r\n").repeat(depth);
    let mut came = Vec::with_capacity(4096 * depth);
    loop {
        stream.write_all(asked.as_bytes()).await?;
        let (mut goes_on, mut left) = (true, depth);
        while left > 0 {
            if stream.read_buf(&mut came).await? == 0 {
                return Err("the connection ended".into());
            }
            let mut at = 0;
            while let Some(length) = whole(&came[at..])? {
                (at, left, goes_on) = (at + length, left - 1, count.goes_on());
            }
            came.drain(..at);
        }
        if !goes_on {
            return Ok(());
        }
    }
}

// How long the first answer is, which has a content; None where it isn't whole.
fn whole(came: &[u8]) -> Done<Option<usize>> {
    let Some(end) = came.windows(4).position(|four| four == b"\r\n\r\n") else {
        return Ok(None);
    };
    let head = std::str::from_utf8(&came[..end])?;
    if !head.starts_with("HTTP/1.1 200") {
        return Err(head.to_owned().into());
    }
    let length = head.lines().find_map(|line| line.strip_prefix("content-length: ")).ok_or("no length")?;
    let whole = end + 4 + length.parse::<usize>()?;
    Ok((came.len() >= whole).then_some(whole))
}

// A message of gRPC: that it isn't compressed, its length, and a range of one key, which a member answers by itself where that is said.
fn range(name: &str, is_serializable: bool) -> Done<Bytes> {
    let mut asked = vec![0x0a, u8::try_from(name.len())?];
    asked.extend(name.as_bytes());
    if is_serializable {
        asked.extend([0x38, 1]);
    }
    let length = u32::try_from(asked.len())?.to_be_bytes();
    Ok([&[0][..], &length, &asked].concat().into())
}

async fn read_by_grpc(place: String, asked: Bytes, count: Arc<Count>) -> Done<()> {
    let (mut sending, connection) = h2::client::handshake(connect(&place).await?).await?;
    tokio::spawn(connection);
    loop {
        sending = sending.ready().await?;
        let request = Request::post(format!("http://{place}/etcdserverpb.KV/Range")).header("content-type", "application/grpc");
        let (answer, mut asking) = sending.send_request(request.header("te", "trailers").body(())?, false)?;
        asking.send_data(asked.clone(), true)?;
        let mut body = answer.await?.into_body();
        let mut length = 0;
        while let Some(data) = body.data().await {
            let data = data?;
            length += data.len();
            body.flow_control().release_capacity(data.len())?;
        }
        let trailers = body.trailers().await?.ok_or("no trailers")?;
        if trailers.get("grpc-status").is_none_or(|status| status != "0") || length < 64 {
            return Err(format!("{trailers:?}, {length} bytes").into());
        }
        if !count.goes_on() {
            return Ok(());
        }
    }
}

#[tokio::main]
async fn main() -> Done<()> {
    let words: Vec<String> = std::env::args().skip(1).collect();
    let [kind, place, name, connections, seconds, depth @ ..] = &words[..] else {
        return Err("usage: ranges gateway|etcd|etcd-serializable HOST:PORT NAME CONNECTIONS SECONDS [DEPTH]".into());
    };
    let depth = depth.first().map_or(Ok(1), |depth| depth.parse())?;
    let (count, mut reading) = (Arc::new(Count::default()), JoinSet::new());
    let places: Vec<&str> = place.split(',').collect();
    for number in 0..connections.parse()? {
        let place = places[number % places.len()].to_owned();
        match kind.as_str() {
            "gateway" => reading.spawn(read_by_http(place, name.clone(), depth, count.clone())),
            "etcd" | "etcd-serializable" => reading.spawn(read_by_grpc(place, range(name, kind != "etcd")?, count.clone())),
            other => return Err(format!("{other}: no such service").into()),
        };
    }
    sleep(Duration::from_secs(1)).await;
    let (begun, before) = (Instant::now(), count.reads.load(Ordering::Relaxed));
    sleep(Duration::from_secs(seconds.parse()?)).await;
    let reads = count.reads.load(Ordering::Relaxed) - before;
    let a_second = reads as f64 / begun.elapsed().as_secs_f64();
    count.is_over.store(true, Ordering::Relaxed);
    while let Some(read) = reading.join_next().await {
        read??;
    }
    let (places, all) = (places.len(), count.reads.load(Ordering::Relaxed));
    println!("{kind} at {places}: {a_second:.0} reads a second over {connections} connections; {all} in all");
    Ok(())
}
