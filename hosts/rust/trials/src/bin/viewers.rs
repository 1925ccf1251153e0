//! Hits of a client's cache of files of 64 bytes by viewers, each in a thread of its own, with a server of its own. Run by
//! bench/run_hits. Usage: viewers FILES HITS VIEWERS.., as viewers 4096 5000000 1 2 4: so many of each viewer, by so many viewers at once.

use std::fs::{self, read_to_string};
use std::hint::black_box;
use std::io::{Error as Fault, ErrorKind};
use std::thread;
use std::time::Instant;
use tillermoss::{Client, Error, Handle, HandleReader, Options};
use trials::{Kill, Server, folder};

/// What one thread found, and the nanoseconds of a processor that it took.
struct Done {
    found: u64,
    busy: u64,
}

fn main() -> Result<(), Error> {
    let words: Vec<usize> = std::env::args().skip(1).filter_map(|word| word.parse().ok()).collect();
    let [count, hits, viewers @ ..] = &words[..] else {
        return Err(Fault::new(ErrorKind::InvalidInput, "usage: viewers FILES HITS VIEWERS..").into());
    };
    let folder = folder("viewers");
    let mut server = Server::start(&folder.join("store.db"))?;
    let client = Client::connect(&Options::new(&server.address.to_string(), "ann"))?;
    let files = (0..*count).map(|k| client.create(&format!("/ls/c/f{k}"), &[b'a'; 64])).collect::<Result<Vec<_>, _>>()?;
    for &viewers in viewers {
        measure(&client, &files, *hits, viewers)?;
    }
    server.kill(Kill::InOrder)?;
    Ok(fs::remove_dir_all(folder)?)
}

fn measure(client: &Client, files: &[Handle], hits: usize, viewers: usize) -> Result<(), Error> {
    let mut ready = (0..viewers).map(|_| client.handle_reader()).collect::<Vec<_>>();
    for viewer in &mut ready {
        read(viewer, files, files.len(), 0)?;
    }
    let begun = Instant::now();
    let done = thread::scope(|scope| {
        let reading: Vec<_> = ready.iter_mut().zip(0..).map(|(viewer, k)| scope.spawn(move || read(viewer, files, hits, k))).collect();
        reading.into_iter().map(|reading| reading.join().unwrap_or(Err(Error::Closed))).collect::<Result<Vec<_>, _>>()
    })?;
    let each = begun.elapsed().as_nanos() / hits.max(1) as u128;
    let found: u64 = done.iter().map(|done| done.found).sum();
    let busy = done.iter().map(|done| done.busy).sum::<u64>() / (hits * viewers).max(1) as u64;
    println!("viewers {viewers}: found {found}, {each} ns each in a thread, {busy} of a processor");
    Ok(())
}

// Each reader begins at another file.
fn read(viewer: &mut HandleReader<&Client>, files: &[Handle], hits: usize, k: usize) -> Result<Done, Error> {
    let before = busy()?;
    let mut found = 0;
    let mut at = k * 1000 % files.len();
    for _ in 0..hits {
        let content = viewer.read(black_box(files[at]))?;
        at = if at + 1 < files.len() { at + 1 } else { 0 };
        found += u64::from(black_box(content).len() == 64);
    }
    Ok(Done { found, busy: busy()? - before })
}

// The nanoseconds that this thread has had a processor for.
fn busy() -> Result<u64, Error> {
    let said = read_to_string("/proc/thread-self/schedstat")?;
    Ok(said.split(' ').next().and_then(|word| word.parse().ok()).unwrap_or_default())
}
