//! Measures a read out of the cache, and writes over TCP to a store in a file: with a server of its own, on a quiet machine.

use std::hint::black_box;
use std::thread;
use std::time::Instant;
use tillermoss::{Client, Error, Handle, Options};
use trials::{Kill, Server, folder};

const READS: u32 = 10_000_000;
const WRITES: u32 = 1000;
const CLIENTS: u32 = 8;

fn main() -> Result<(), Error> {
    let folder = folder("costs");
    let mut server = Server::start(&folder.join("store.db"))?;
    let options = Options::new(&server.address.to_string(), "ann");
    let client = Client::connect(&options)?;
    let file = client.create("/ls/c/f", &[b'a'; 64])?;
    let mut room = Vec::new();
    client.read_into(file, &mut room)?;

    let begun = Instant::now();
    let mut served = 0;
    for _ in 0..READS {
        served += u32::from(client.read_into(file, &mut room)?);
    }
    let nanoseconds = begun.elapsed().as_nanos() / u128::from(READS);
    println!("a read of 64 bytes {nanoseconds} ns, {served} of {READS} served by the cache");

    for viewers in [1, 2, 4] {
        let nanoseconds = read_by_viewers(&client, file, viewers)?;
        println!("a read by a viewer, beside {} others, {nanoseconds:.1} ns", viewers - 1);
    }

    let alone = client.create("/ls/c/g", b"")?;
    let begun = Instant::now();
    for turn in 0..WRITES {
        client.set(alone, &turn.to_be_bytes(), None)?;
    }
    println!("{:.0} writes a second by one client", f64::from(WRITES) / begun.elapsed().as_secs_f64());

    let clients = (0..CLIENTS).map(|_| Client::connect(&options)).collect::<Result<Vec<_>, _>>()?;
    let begun = Instant::now();
    thread::scope(|scope| {
        let writing: Vec<_> = clients.iter().map(|client| scope.spawn(|| write_all(client))).collect();
        writing.into_iter().try_for_each(|writing| writing.join().unwrap_or(Err(Error::Closed)))
    })?;
    println!("{:.0} writes a second by {CLIENTS} clients", f64::from(CLIENTS * WRITES) / begun.elapsed().as_secs_f64());
    server.kill(Kill::InOrder)?;
    Ok(std::fs::remove_dir_all(folder)?)
}

// In threads of their own: what each read takes one of them.
fn read_by_viewers(client: &Client, file: Handle, viewers: u32) -> Result<f64, Error> {
    let begun = Instant::now();
    thread::scope(|scope| {
        let reading: Vec<_> = (0..viewers)
            .map(|_| {
                let mut viewer = client.handle_reader();
                scope.spawn(move || (0..READS).try_for_each(|_| viewer.read(file).map(|content| assert_eq!(black_box(content).len(), 64))))
            })
            .collect();
        reading.into_iter().try_for_each(|reading| reading.join().unwrap_or(Err(Error::Closed)))
    })?;
    Ok(begun.elapsed().as_secs_f64() * 1e9 / f64::from(READS))
}

// To a file of its own.
fn write_all(client: &Client) -> Result<(), Error> {
    let file = client.create(&format!("/ls/c/own{}", client.number()), b"")?;
    (0..WRITES).try_for_each(|turn| client.set(file, &turn.to_be_bytes(), None))
}
