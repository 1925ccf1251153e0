//! Many who watch one file through gateways, and when each of them is told that it was set.

use crate::gateways::GatewayProcess;
use nix::sys::resource::{Resource, getrlimit, setrlimit};
use std::error::Error;
use std::io;
use std::time::{Duration, Instant};
use tillermoss::{Client, Handle};
use tokio::io::{AsyncReadExt, AsyncWriteExt};
use tokio::net::TcpStream;
use tokio::runtime::Builder;
use tokio::sync::mpsc::{UnboundedReceiver, UnboundedSender, unbounded_channel};
use tokio::time::{sleep, timeout};

/// How long the last of them is waited for.
const LATEST: Duration = Duration::from_secs(60);

/// The time between two sets.
const REST: Duration = Duration::from_millis(500);

/// When all were told of one set.
#[derive(Clone, Copy, Debug, PartialEq, Eq)]
pub struct TellingTime {
    /// From the asking for the set: until it was done.
    pub done: Duration,
    /// Half of them were told.
    pub half: Duration,
    /// All of them were told.
    pub all: Duration,
}

/// Who was told of which generation, and when.
type Told = (u64, Instant);

async fn watch(place: String, name: String, told: UnboundedSender<Told>) -> io::Result<()> {
    let mut stream = TcpStream::connect(&place).await?;
    stream.write_all(format!("GET /v1/watch/{name} HTTP/1.1\r\nHost: {place}\r\n\r\n").as_bytes()).await?;
    let mut came = Vec::new();
    loop {
        if stream.read_buf(&mut came).await? == 0 {
            return Err(io::Error::other("a watch ended"));
        }
        let now = Instant::now();
        let Some(end) = came.windows(2).rposition(|two| two == b"\n\n") else {
            continue;
        };
        let text = String::from_utf8_lossy(&came[..end]).into_owned();
        came.drain(..end + 2);
        for mark in text.lines().filter_map(|line| line.strip_prefix("id: ")) {
            let generation = mark.split_once('.').and_then(|(_, generation)| generation.parse().ok());
            // (who asked is gone once all is over)
            generation.into_iter().for_each(|generation| _ = told.send((generation, now)));
        }
    }
}

// The moments at which so many were told of this generation.
async fn all_told(told: &mut UnboundedReceiver<Told>, generation: u64, count: usize) -> Result<Vec<Instant>, Box<dyn Error>> {
    let mut moments = Vec::new();
    while moments.len() < count {
        let (found, moment) = timeout(LATEST, told.recv()).await?.ok_or("no watch is left")?;
        if found == generation {
            moments.push(moment);
        }
    }
    moments.sort();
    Ok(moments)
}

/// How many watch a file of this name through these gateways in turn, and a client sets it so many times: when they were told of each.
///
/// # Errors
///
/// If one of them isn't told of a set within a minute, or the file can't be set.
pub fn tell_watchers(
    gateways: &[&GatewayProcess],
    name: &str,
    count: usize,
    (client, file): (&Client, Handle),
    sets: usize,
) -> Result<Vec<TellingTime>, Box<dyn Error>> {
    let (_, most) = getrlimit(Resource::RLIMIT_NOFILE)?;
    setrlimit(Resource::RLIMIT_NOFILE, most, most)?;
    let runtime = Builder::new_multi_thread().worker_threads(2).enable_all().build()?;
    runtime.block_on(async {
        let (sender, mut told) = unbounded_channel();
        for number in 0..count {
            tokio::spawn(watch(gateways[number % gateways.len()].place().to_owned(), name.to_owned(), sender.clone()));
        }
        let mut generation = client.stat(file)?.content_generation;
        all_told(&mut told, generation, count).await?;
        let mut times = Vec::new();
        for _ in 0..sets {
            sleep(REST).await;
            generation += 1;
            let begun = Instant::now();
            client.set(file, generation.to_string().as_bytes(), None)?;
            let done = begun.elapsed();
            let moments = all_told(&mut told, generation, count).await?;
            let since = |moment: Instant| moment.saturating_duration_since(begun);
            times.push(TellingTime { done, half: since(moments[count / 2]), all: since(moments[count - 1]) });
        }
        Ok(times)
    })
}
