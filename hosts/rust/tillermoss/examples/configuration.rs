//! Reads a configuration a million times, of which the cell hears once. Arguments: the server.

use std::thread;
use tillermoss::{Client, Error, Mode, Options};

const READERS: u64 = 4;
const READS: u64 = 250_000;

fn main() -> Result<(), Error> {
    let server = std::env::args().nth(1).unwrap_or("127.0.0.1:7171".to_owned());
    let client = Client::connect(&Options::new(&server, "ann"))?;
    let config = client.open("/ls/c/config", Mode::READ)?;
    println!("the configuration: {}", String::from_utf8_lossy(&client.read(config)?.content));

    // Threads share the client, each by a handle reader of its own. What that shows is what the master holds at that moment: no copy can be old.
    let read = || -> Result<u64, Error> {
        let mut reader = client.handle_reader();
        let mut bytes = 0;
        for _ in 0..READS {
            bytes += reader.read(config)?.len() as u64;
        }
        Ok(bytes)
    };
    let bytes = thread::scope(|scope| {
        let readers: Vec<_> = (0..READERS).map(|_| scope.spawn(read)).collect();
        readers.into_iter().map(|reader| reader.join().unwrap_or(Err(Error::Closed))).sum::<Result<u64, Error>>()
    })?;
    println!("{} reads, {bytes} bytes", READERS * READS);
    Ok(())
}
