//! A bad network between clients and their server: what goes over it is late, is cut off, and comes once more.

use rand::rngs::StdRng;
use rand::{Rng, SeedableRng};
use std::io::{self, Read, Write};
use std::net::{Shutdown, SocketAddr, TcpListener, TcpStream};
use std::sync::atomic::{AtomicU64, Ordering};
use std::sync::{Arc, Mutex, PoisonError};
use std::thread;
use std::time::Duration;

/// How much of what a client sent is kept, to come once more.
const KEPT: usize = 0x1_0000;

/// What was done to connections.
#[derive(Debug, Default)]
pub struct Counts {
    /// How many were made.
    pub made: AtomicU64,
    /// How many pieces were late.
    pub late: AtomicU64,
    /// How many connections were cut off.
    pub cut: AtomicU64,
    /// Of so many all that the client had sent came once more.
    pub repeated: AtomicU64,
}

/// A proxy, whose threads go on until the process ends.
#[derive(Debug)]
pub struct Proxy {
    address: SocketAddr,
    shared: Arc<Shared>,
}

#[derive(Debug)]
struct Shared {
    server: Mutex<SocketAddr>,
    counts: Counts,
    seed: u64,
}

/// One way of one connection.
struct Way {
    from: TcpStream,
    to: TcpStream,
    random: StdRng,
    shared: Arc<Shared>,
    /// What the client sent, on the way to the server.
    kept: Option<Vec<u8>>,
}

impl Proxy {
    /// A proxy in front of this server. What it does, and when by its count of pieces, hangs on the seed alone.
    ///
    /// # Errors
    ///
    /// If it can't listen.
    pub fn start(server: SocketAddr, seed: u64) -> io::Result<Proxy> {
        let listener = TcpListener::bind("127.0.0.1:0")?;
        let shared = Arc::new(Shared { server: Mutex::new(server), counts: Counts::default(), seed });
        let proxy = Proxy { address: listener.local_addr()?, shared: shared.clone() };
        thread::spawn(move || {
            for client in listener.incoming().flatten() {
                // (a client whose connection can't be made is cut off)
                let _ = carry(client, &shared);
            }
        });
        Ok(proxy)
    }

    /// Where clients connect.
    #[must_use]
    pub fn address(&self) -> SocketAddr {
        self.address
    }

    /// From here on connections lead to this server.
    pub fn lead_to(&self, server: SocketAddr) {
        *self.shared.server.lock().unwrap_or_else(PoisonError::into_inner) = server;
    }

    /// What was done so far.
    #[must_use]
    pub fn counts(&self) -> &Counts {
        &self.shared.counts
    }
}

fn connect(shared: &Shared) -> io::Result<TcpStream> {
    let address = *shared.server.lock().unwrap_or_else(PoisonError::into_inner);
    let server = TcpStream::connect(address)?;
    server.set_nodelay(true)?;
    Ok(server)
}

fn carry(client: TcpStream, shared: &Arc<Shared>) -> io::Result<()> {
    let server = connect(shared)?;
    client.set_nodelay(true)?;
    let number = shared.counts.made.fetch_add(1, Ordering::Relaxed);
    let way = |from: &TcpStream, to: &TcpStream, side: u64, kept: Option<Vec<u8>>| -> io::Result<Way> {
        let random = StdRng::seed_from_u64(shared.seed ^ (2 * number + side) << 20);
        Ok(Way { from: from.try_clone()?, to: to.try_clone()?, random, shared: shared.clone(), kept })
    };
    let (there, back) = (way(&client, &server, 0, Some(Vec::new()))?, way(&server, &client, 1, None)?);
    thread::spawn(move || there.run());
    thread::spawn(move || back.run());
    Ok(())
}

impl Way {
    fn run(mut self) {
        // (whatever ends one way ends the other)
        let is_cut = self.pump().unwrap_or(false);
        for stream in [&self.from, &self.to] {
            // (one that is gone already is shut down)
            let _ = stream.shutdown(Shutdown::Both);
        }
        let Some(kept) = self.kept.take() else {
            return;
        };
        if is_cut && self.random.gen_ratio(1, 2) {
            // (where the server is away nothing comes once more)
            let _ = self.repeat(&kept);
        }
    }

    // Carries pieces until an end; whether that was a cut.
    fn pump(&mut self) -> io::Result<bool> {
        let mut room = [0; 4096];
        loop {
            let count = self.from.read(&mut room)?;
            if count == 0 {
                return Ok(false);
            }
            if let Some(kept) = self.kept.as_mut().filter(|kept| kept.len() + count <= KEPT) {
                kept.extend_from_slice(&room[..count]);
            }
            if self.random.gen_ratio(1, 8) {
                self.shared.counts.late.fetch_add(1, Ordering::Relaxed);
                thread::sleep(Duration::from_millis(self.random.gen_range(0..30)));
            }
            if self.random.gen_ratio(1, 200) {
                self.shared.counts.cut.fetch_add(1, Ordering::Relaxed);
                // (a part of the piece may still come)
                let part = self.random.gen_range(0..=count);
                self.to.write_all(&room[..part])?;
                return Ok(true);
            }
            self.to.write_all(&room[..count])?;
        }
    }

    // All that the client sent comes once more, over a connection of its own; the answers are dropped.
    fn repeat(&mut self, kept: &[u8]) -> io::Result<()> {
        let mut server = connect(&self.shared)?;
        server.write_all(kept)?;
        self.shared.counts.repeated.fetch_add(1, Ordering::Relaxed);
        server.set_read_timeout(Some(Duration::from_millis(1 + self.random.gen_range(0..100))))?;
        let mut room = [0; 4096];
        while server.read(&mut room)? > 0 {}
        Ok(())
    }
}
