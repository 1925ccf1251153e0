//! Connections by bytes, without the client library's own.

use crate::masters::opening;
use host_wire::{Asked, Blocks, Hello, MasterAnswer, Said, TurnedAway, Welcome, write_block, write_store_refused};
use std::io::{self, Write};
use std::net::TcpStream;
use std::time::Duration;
use tillermoss::Bare;

/// A connection to a server at `tcp:`.
#[derive(Debug)]
pub struct Plain {
    /// What goes both ways.
    pub stream: TcpStream,
    blocks: Blocks,
}

impl Plain {
    /// Connects, and says nothing.
    ///
    /// # Errors
    ///
    /// If it can't be connected.
    pub fn connect(place: &str) -> io::Result<Plain> {
        let stream = TcpStream::connect(place)?;
        stream.set_read_timeout(Some(Duration::from_secs(20)))?;
        stream.set_nodelay(true)?;
        Ok(Plain { stream, blocks: Blocks::new(1 << 20) })
    }

    /// Connects, and says this first.
    ///
    /// # Errors
    ///
    /// As `connect`.
    pub fn new(place: &str, first: &[u8]) -> io::Result<Plain> {
        let mut connection = Plain::connect(place)?;
        connection.send(first)?;
        Ok(connection)
    }

    /// Connects, and greets; what the server answers.
    ///
    /// # Errors
    ///
    /// If it can't be connected, or the server answers nothing.
    pub fn greet(place: &str, hello: &Hello) -> io::Result<(Plain, Result<Welcome, TurnedAway>)> {
        let mut connection = Plain::new(place, &hello.write())?;
        let answer = connection.next_block().ok_or_else(|| io::Error::from(io::ErrorKind::UnexpectedEof))?;
        let answer = Welcome::read(&answer).map_err(|_| io::Error::from(io::ErrorKind::InvalidData))?;
        Ok((connection, answer))
    }

    /// Greets as a new client for this principal, and begins a session.
    ///
    /// # Errors
    ///
    /// As `greet`, and where it is turned away or gets no session.
    pub fn begin(place: &str, principal: &str) -> io::Result<Talker> {
        let (connection, welcome) = Plain::greet(place, &new(principal))?;
        let number = welcome.map_err(|reason| io::Error::other(reason.to_string()))?.client;
        let client = Bare::new(number, principal).map_err(|error| io::Error::other(error.to_string()))?;
        let mut talker = Talker { connection, client };
        let start = talker.client.beat(NOW);
        talker.ask(start);
        if talker.client.leased_until() == 0 {
            return Err(io::Error::other("no session began"));
        }
        Ok(talker)
    }

    /// Sends a block.
    ///
    /// # Errors
    ///
    /// If the connection is gone.
    pub fn send(&mut self, block: &[u8]) -> io::Result<()> {
        write_block(&mut self.stream, block)
    }

    /// Sends bytes as they are.
    ///
    /// # Errors
    ///
    /// If the connection is gone.
    pub fn send_bytes(&mut self, bytes: &[u8]) -> io::Result<()> {
        self.stream.write_all(bytes)
    }

    /// The next block; None where the server ended the connection.
    pub fn next_block(&mut self) -> Option<Vec<u8>> {
        self.blocks.next(&mut self.stream).unwrap_or(None)
    }

    /// Whether the server has ended the connection, whatever it sent before.
    pub fn is_ended(&mut self) -> bool {
        loop {
            match self.blocks.next(&mut self.stream) {
                Ok(Some(_)) => {}
                Ok(None) => return true,
                Err(error) => return !matches!(error.kind(), io::ErrorKind::WouldBlock | io::ErrorKind::TimedOut),
            }
        }
    }
}

/// The hello of a new client.
#[must_use]
pub fn new(principal: &str) -> Hello {
    Hello::New { principal: principal.to_owned() }
}

/// The hello of a client that was welcomed so.
#[must_use]
pub fn again(principal: &str, welcome: Welcome) -> Hello {
    Hello::Again { principal: principal.to_owned(), client: welcome.client, token: welcome.token }
}

/// A client whose clock stands still, and its connection. It says what it is told to, and nothing by itself.
#[derive(Debug)]
pub struct Talker {
    /// What goes both ways.
    pub connection: Plain,
    /// What it says is its own: no message is laid out here.
    pub client: Bare,
}

/// The moment at which it stands.
const NOW: u64 = 0;

impl Talker {
    /// Its next Start or Beat.
    pub fn beat(&mut self) -> Option<Vec<u8>> {
        self.client.beat(NOW)
    }

    /// The call to read by a handle.
    pub fn read_call(&mut self, handle: u64) -> Option<Vec<u8>> {
        self.client.read(NOW, handle)
    }

    /// The call to set a content by a handle.
    pub fn set_call(&mut self, handle: u64, content: &[u8]) -> Option<Vec<u8>> {
        self.client.set(NOW, handle, content)
    }

    /// Sends a message of its own; what is answered, which its client isn't given: to the client the answer is lost.
    pub fn lose(&mut self, message: &[u8]) -> Option<MasterAnswer> {
        let number = Asked::read(message)?.number();
        self.connection.send(message).ok()?;
        loop {
            match Said::read(&self.connection.next_block()?) {
                Some(said) if said.number == number => return Some(said.answer),
                _ => {}
            }
        }
    }

    /// Sends a message of its own, and gives the client what comes until that is answered; the answer. None where there was nothing to
    /// send, and where the connection ended.
    pub fn ask(&mut self, message: Option<Vec<u8>>) -> Option<MasterAnswer> {
        self.told(message).map(|(answer, _)| answer)
    }

    // As `ask`, with the handle that was opened.
    fn told(&mut self, message: Option<Vec<u8>>) -> Option<(MasterAnswer, Option<u64>)> {
        let message = message?;
        let number = Asked::read(&message)?.number();
        self.connection.send(&message).ok()?;
        loop {
            let block = self.connection.next_block()?;
            let opened = self.client.give(NOW, &block);
            match Said::read(&block) {
                Some(said) if said.number == number => return Some((said.answer, opened)),
                _ => {}
            }
        }
    }

    /// Opens a file to read and to write, which is made with this content where there is none; its handle.
    pub fn open(&mut self, name: &str, content: &[u8]) -> Option<u64> {
        let open = self.client.open(NOW, &opening(name, content));
        self.told(open)?.1
    }

    /// Reads by a handle; what is answered.
    pub fn read(&mut self, handle: u64) -> Option<MasterAnswer> {
        let read = self.read_call(handle);
        self.ask(read)
    }

    /// Ends the outstanding call as if it had been refused, whatever the master says to it later.
    pub fn forget(&mut self, call: &[u8]) {
        let refused = Asked::read(call).and_then(|call| write_store_refused(self.client.number(), call.epoch(), call.number()));
        if let Some(refused) = refused {
            self.client.give(NOW, &refused);
        }
    }
}

/// What the server sends next for the master, read; None where it ended the connection, or that is none.
pub fn answer(connection: &mut Plain) -> Option<MasterAnswer> {
    Said::read(&connection.next_block()?).map(|said| said.answer)
}

/// A client's first Start.
///
/// # Panics
///
/// If there is no such client.
#[must_use]
pub fn start(client: u64, principal: &str) -> Vec<u8> {
    Bare::new(client, principal).ok().and_then(|mut client| client.beat(NOW)).expect("a client begins by a Start")
}
