//! A network that holds back what goes over it, and lets it through later: between a server and an etcd.

use std::io::{self, Read, Write};
use std::net::{Shutdown, SocketAddr, TcpListener, TcpStream};
use std::sync::{Arc, Condvar, Mutex, MutexGuard, PoisonError};
use std::thread;
use std::time::Duration;

/// How long after what was held back the end of its connection comes: what was asked is done by then.
const END_AFTER: Duration = Duration::from_millis(500);

/// What gets through.
#[derive(Clone, Copy, Debug, PartialEq, Eq)]
pub enum Passing {
    /// All.
    All,
    /// What is asked, but no answer.
    Questions,
    /// Nothing.
    Nothing,
}

/// A relay, whose threads go on until the process ends.
#[derive(Clone, Debug)]
pub struct Relay {
    address: SocketAddr,
    gate: Arc<Gate>,
}

#[derive(Debug)]
struct Gate {
    passing: Mutex<Passing>,
    changed: Condvar,
}

impl Gate {
    fn lock(&self) -> MutexGuard<'_, Passing> {
        self.passing.lock().unwrap_or_else(PoisonError::into_inner)
    }

    // Waits until it lets this way through; whether it had to.
    fn pass(&self, is_question: bool) -> bool {
        let mut passing = self.lock();
        let mut has_waited = false;
        while *passing == Passing::Nothing || (*passing == Passing::Questions && !is_question) {
            has_waited = true;
            passing = self.changed.wait(passing).unwrap_or_else(PoisonError::into_inner);
        }
        has_waited
    }
}

impl Relay {
    /// A relay in front of this service, which lets all through.
    ///
    /// # Errors
    ///
    /// If it can't listen.
    pub fn start(service: SocketAddr) -> io::Result<Relay> {
        let listener = TcpListener::bind("127.0.0.1:0")?;
        let gate = Arc::new(Gate { passing: Mutex::new(Passing::All), changed: Condvar::new() });
        let relay = Relay { address: listener.local_addr()?, gate: gate.clone() };
        thread::spawn(move || {
            for client in listener.incoming().flatten() {
                // (a client whose connection can't be made is cut off)
                let _ = carry(&client, service, &gate);
            }
        });
        Ok(relay)
    }

    /// Where it listens.
    #[must_use]
    pub fn address(&self) -> SocketAddr {
        self.address
    }

    /// From here on it lets this through; what it has held back comes then.
    pub fn set(&self, passing: Passing) {
        *self.gate.lock() = passing;
        self.gate.changed.notify_all();
    }
}

fn carry(client: &TcpStream, service: SocketAddr, gate: &Arc<Gate>) -> io::Result<()> {
    let server = TcpStream::connect(service)?;
    for stream in [client, &server] {
        stream.set_nodelay(true)?;
    }
    for (from, to, is_question) in [(client, &server, true), (&server, client, false)] {
        let (from, to, gate) = (from.try_clone()?, to.try_clone()?, gate.clone());
        thread::spawn(move || {
            // (whatever ends one way ends the other)
            let _ = pump(&from, &to, is_question, &gate);
            let _ = from.shutdown(Shutdown::Both);
            let _ = to.shutdown(Shutdown::Both);
        });
    }
    Ok(())
}

fn pump(mut from: &TcpStream, mut to: &TcpStream, is_question: bool, gate: &Gate) -> io::Result<()> {
    let mut room = [0; 0x4000];
    let mut has_waited = false;
    loop {
        let count = from.read(&mut room)?;
        has_waited |= gate.pass(is_question);
        if count == 0 {
            if has_waited {
                thread::sleep(END_AFTER);
            }
            return Ok(());
        }
        to.write_all(&room[..count])?;
    }
}

#[cfg(test)]
mod tests {
    use super::*;

    // A service that answers each byte by the same.
    fn echo() -> SocketAddr {
        let listener = TcpListener::bind("127.0.0.1:0").unwrap();
        let address = listener.local_addr().unwrap();
        thread::spawn(move || {
            let (stream, _) = listener.accept().unwrap();
            io::copy(&mut &stream, &mut &stream).unwrap();
        });
        address
    }

    #[test]
    fn what_is_held_back_comes_later() {
        for passing in [Passing::Nothing, Passing::Questions] {
            let relay = Relay::start(echo()).unwrap();
            let mut stream = TcpStream::connect(relay.address()).unwrap();
            let mut room = [0];
            stream.write_all(b"a").unwrap();
            stream.read_exact(&mut room).unwrap();
            relay.set(passing);
            stream.write_all(b"b").unwrap();
            stream.set_read_timeout(Some(Duration::from_millis(100))).unwrap();
            assert!(stream.read_exact(&mut room).is_err(), "{passing:?}");
            relay.set(Passing::All);
            stream.set_read_timeout(None).unwrap();
            stream.read_exact(&mut room).unwrap();
            assert_eq!(&room, b"b", "{passing:?}");
        }
    }
}
