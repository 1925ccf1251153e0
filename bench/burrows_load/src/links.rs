//! The connections: one for each client, from an address of loopback of its own share, as events come.

use crate::wire::{self, Welcome};
use anyhow::{Context, Result};
use mio::net::TcpStream;
use mio::{Interest, Registry, Token};
use socket2::{Domain, Protocol, Socket, Type};
use std::io::{self, ErrorKind, Read, Write};
use std::net::{Ipv4Addr, SocketAddr, SocketAddrV4};

/// So many clients share an address: of the ports of one some 28,000 may be out.
const SHARE: usize = 10_000;

/// So much is read at once.
const ROOM: usize = 1 << 16;

/// How far a connection is.
#[derive(Clone, Copy, Debug, PartialEq, Eq)]
pub enum State {
    Down,
    /// It is being made; the greeting goes with it.
    Greeting,
    Bound,
}

/// The connection of one client.
#[derive(Debug)]
pub struct Link {
    pub state: State,
    /// When the next one is tried, and how long it then waits.
    pub retry: u64,
    pub pause: u64,
    /// Which of the servers is tried.
    pub place: usize,
    /// Since when it is tried.
    pub since: u64,
    stream: Option<TcpStream>,
    input: Vec<u8>,
    output: Vec<u8>,
}

/// What came over one.
#[derive(Debug)]
pub enum Came {
    Blocks(Vec<Vec<u8>>),
    /// It is gone.
    Gone(Vec<Vec<u8>>),
}

impl Link {
    pub fn new() -> Link {
        Link { state: State::Down, retry: 0, pause: 0, place: 0, since: 0, stream: None, input: Vec::new(), output: Vec::new() }
    }

    /// Begins to connect from the address of this client's share, and to greet.
    pub fn connect(&mut self, registry: &Registry, slot: usize, places: &[SocketAddr], hello: Vec<u8>, now: u64) -> Result<()> {
        let socket = Socket::new(Domain::IPV4, Type::STREAM, Some(Protocol::TCP))?;
        socket.set_nonblocking(true)?;
        socket.set_nodelay(true)?;
        let own = Ipv4Addr::new(127, 0, 1, u8::try_from(1 + slot / SHARE)?);
        socket.bind(&SocketAddr::V4(SocketAddrV4::new(own, 0)).into()).with_context(|| format!("a port of {own}"))?;
        match socket.connect(&places[self.place % places.len()].into()) {
            Err(error) if !matches!(error.raw_os_error(), Some(nix::libc::EINPROGRESS)) && error.kind() != ErrorKind::WouldBlock => {
                return Err(error.into());
            }
            _ => {}
        }
        let mut stream = TcpStream::from_std(socket.into());
        registry.register(&mut stream, Token(slot), Interest::READABLE | Interest::WRITABLE)?;
        (self.state, self.since) = (State::Greeting, now);
        (self.stream, self.input, self.output) = (Some(stream), Vec::new(), hello);
        Ok(())
    }

    /// Ends it.
    pub fn end(&mut self) {
        (self.stream, self.input, self.output, self.state) = (None, Vec::new(), Vec::new(), State::Down);
    }

    /// Sends a block, as far as the stream takes it; whether the connection goes on.
    pub fn send(&mut self, block: &[u8]) -> bool {
        self.output.extend_from_slice(block);
        self.flush()
    }

    /// Sends what waits.
    pub fn flush(&mut self) -> bool {
        let Some(stream) = self.stream.as_mut() else {
            return false;
        };
        let mut sent = 0;
        let goes_on = loop {
            match stream.write(&self.output[sent..]) {
                _ if sent == self.output.len() => break true,
                Ok(count) => sent += count,
                Err(error) if matches!(error.kind(), ErrorKind::WouldBlock | ErrorKind::NotConnected) => break true,
                Err(error) if error.kind() == ErrorKind::Interrupted => {}
                Err(_) => break false,
            }
        };
        self.output.drain(..sent);
        if self.output.is_empty() {
            self.output = Vec::new();
        }
        goes_on
    }

    /// All that came.
    pub fn receive(&mut self, room: &mut Vec<u8>) -> Came {
        room.resize(ROOM, 0);
        let goes_on = loop {
            let Some(stream) = self.stream.as_mut() else {
                break false;
            };
            match stream.read(room) {
                Ok(0) => break false,
                Ok(count) => self.input.extend_from_slice(&room[..count]),
                Err(error) if matches!(error.kind(), ErrorKind::WouldBlock | ErrorKind::NotConnected) => break true,
                Err(error) if error.kind() == ErrorKind::Interrupted => {}
                Err(_) => break false,
            }
        };
        let blocks = self.take();
        if goes_on { Came::Blocks(blocks) } else { Came::Gone(blocks) }
    }

    // The whole blocks of what was read.
    fn take(&mut self) -> Vec<Vec<u8>> {
        let mut blocks = Vec::new();
        let mut at = 0;
        while let Some(length) = self.input.get(at..at + 4) {
            let end = at + 4 + u32::from_be_bytes([length[0], length[1], length[2], length[3]]) as usize;
            let Some(block) = self.input.get(at + 4..end) else {
                break;
            };
            blocks.push(block.to_vec());
            at = end;
        }
        self.input.drain(..at);
        if self.input.is_empty() {
            self.input = Vec::new();
        }
        blocks
    }

    /// The answer to the greeting, where the block is one.
    pub fn welcome(block: &[u8]) -> io::Result<Welcome> {
        wire::welcome(block).ok_or_else(|| io::Error::from(ErrorKind::InvalidData))
    }
}
