//! Measures what nodes, sessions and rights take: of the master's memory, and of the store's file. With a server of its own.

use std::error::Error;
use std::fs;
use std::path::Path;
use tillermoss::{Client, Create, Mode, Opening, Options};
use trials::{Kill, Server, folder};

const NODES: u64 = 4000;
const CLIENTS: u64 = 400;
const CONTENT: [u8; 64] = [b'a'; 64];

fn main() -> Result<(), Box<dyn Error>> {
    let folder = folder("sizes");
    let store = folder.join("store.db");
    let mut server = Server::start(&store)?;
    let options = Options::new(&server.address.to_string(), "ann");
    let client = Client::connect(&options)?;
    client.open_with(&Opening { create: Some(Create::default()), ..Opening::new("/ls/c/d", Mode::READ) })?;

    let before = memory(&server)?;
    for number in 0..NODES {
        client.close(client.create(&name(number), &CONTENT)?)?;
    }
    let nodes = memory(&server)?;
    println!("a node with a name of 15 bytes and a content of 64: {} bytes of memory", (nodes - before) / NODES);

    for number in 0..NODES {
        client.read(client.open(&name(number), Mode::READ)?)?;
    }
    let rights = memory(&server)?;
    println!("a right to cache, and an open handle: {} bytes of memory", (rights - nodes) / NODES);

    let clients = (0..CLIENTS).map(|_| Client::connect(&options)).collect::<Result<Vec<_>, _>>()?;
    println!("a session: {} bytes of memory", (memory(&server)? - rights) / CLIENTS);
    drop(clients);
    drop(client);
    server.kill(Kill::InOrder)?;
    println!("a node in the store: {} bytes of the file", fs::metadata(&store)?.len() / NODES);
    Ok(fs::remove_dir_all(folder)?)
}

fn name(number: u64) -> String {
    format!("/ls/c/d/f{number:06}")
}

// What the master's process holds, in bytes.
fn memory(server: &Server) -> Result<u64, Box<dyn Error>> {
    let status = fs::read_to_string(Path::new("/proc").join(server.master()?.to_string()).join("status"))?;
    let line = status.lines().find_map(|line| line.strip_prefix("VmRSS:")).ok_or("no VmRSS")?;
    Ok(line.trim().trim_end_matches(" kB").parse::<u64>()? * 1024)
}
