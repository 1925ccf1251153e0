//! A network over which everything takes its time.

use std::io::{self, Read, Write};
use std::net::{Shutdown, SocketAddr, TcpListener, TcpStream};
use std::sync::mpsc::{Receiver, SyncSender, sync_channel};
use std::sync::{Arc, Mutex, PoisonError};
use std::thread;
use std::time::{Duration, Instant};

/// What comes of one way, and when; no bytes at its end.
type Piece = (Instant, Vec<u8>);

/// How many pieces of one connection are on their way at most, of so many bytes.
const PIECES: usize = 256;
const BYTES: usize = 16 << 10;

/// What a network does to what goes over it.
#[derive(Clone, Copy, Debug)]
pub struct Network {
    /// How much later each piece arrives; a connection is made as much later there and back.
    pub one_way: Duration,
    /// How many bytes a second go each way at most, those of all connections together; without it as many as come.
    pub rate: Option<u64>,
}

/// One way through a network, for all connections.
#[derive(Debug)]
struct Lane {
    network: Network,
    free: Mutex<Instant>,
}

impl Lane {
    fn new(network: Network) -> Arc<Lane> {
        Arc::new(Lane { network, free: Mutex::new(Instant::now()) })
    }

    // When a piece of so many bytes arrives, which goes now or when those before it have gone.
    fn due(&self, count: usize) -> Instant {
        let mut free = self.free.lock().unwrap_or_else(PoisonError::into_inner);
        let span = self.network.rate.map_or(0.0, |rate| count as f64 / rate as f64);
        *free = Instant::now().max(*free) + Duration::from_secs_f64(span);
        *free + self.network.one_way
    }
}

/// Starts a proxy before this server: each piece arrives so much later, and a connection is made as much later there and back. Gives
/// where clients connect. Its threads go on until the process ends.
///
/// # Errors
///
/// If it can't listen.
pub fn far_from(server: SocketAddr, one_way: Duration) -> io::Result<SocketAddr> {
    over(server, Network { one_way, rate: None })
}

/// As `far_from`, over a network that also has a rate.
///
/// # Errors
///
/// If it can't listen.
pub fn over(server: SocketAddr, network: Network) -> io::Result<SocketAddr> {
    let listener = TcpListener::bind("127.0.0.1:0")?;
    let address = listener.local_addr()?;
    let lanes = [Lane::new(network), Lane::new(network)];
    thread::spawn(move || {
        for client in listener.incoming().flatten() {
            let lanes = lanes.clone();
            // (a client whose connection can't be made is cut off)
            thread::spawn(move || carry(client, server, lanes));
        }
    });
    Ok(address)
}

fn carry(client: TcpStream, server: SocketAddr, [there, back]: [Arc<Lane>; 2]) -> io::Result<()> {
    thread::sleep(2 * there.network.one_way);
    let server = TcpStream::connect(server)?;
    for (from, to, lane) in [(&client, &server, there), (&server, &client, back)] {
        from.set_nodelay(true)?;
        let (from, to, (pieces, late)) = (from.try_clone()?, to.try_clone()?, sync_channel(PIECES));
        thread::spawn(move || take(from, &lane, &pieces));
        thread::spawn(move || give(to, &late));
    }
    Ok(())
}

// Takes what comes, up to its end.
fn take(mut from: TcpStream, lane: &Lane, pieces: &SyncSender<Piece>) {
    let mut room = [0; BYTES];
    loop {
        // (one that is gone has ended)
        let count = from.read(&mut room).unwrap_or(0);
        if pieces.send((lane.due(count), room[..count].to_vec())).is_err() || count == 0 {
            return;
        }
    }
}

// Gives on what has come, each piece in its time; at the end both ways end.
fn give(mut to: TcpStream, late: &Receiver<Piece>) {
    while let Ok((due, piece)) = late.recv() {
        thread::sleep(due.saturating_duration_since(Instant::now()));
        if piece.is_empty() || to.write_all(&piece).is_err() {
            break;
        }
    }
    // (one that is gone already is shut down)
    let _ = to.shutdown(Shutdown::Both);
}

#[cfg(test)]
mod tests {
    use super::*;

    #[test]
    fn what_is_answered_comes_a_round_later() {
        let listener = TcpListener::bind("127.0.0.1:0").unwrap();
        let address = far_from(listener.local_addr().unwrap(), Duration::from_millis(50)).unwrap();
        let begun = Instant::now();
        let mut client = TcpStream::connect(address).unwrap();
        client.write_all(b"asked").unwrap();
        let (mut server, _) = listener.accept().unwrap();
        assert!(begun.elapsed() >= Duration::from_millis(100));
        let mut room = [0; 5];
        server.read_exact(&mut room).unwrap();
        server.write_all(&room).unwrap();
        client.read_exact(&mut room).unwrap();
        assert!(begun.elapsed() >= Duration::from_millis(200) && &room == b"asked");
        drop(server);
        assert_eq!(client.read(&mut room).unwrap(), 0);
    }

    #[test]
    fn a_rate_holds_for_all_connections_together() {
        const RATE: u64 = 1 << 20;
        let listener = TcpListener::bind("127.0.0.1:0").unwrap();
        let address = over(listener.local_addr().unwrap(), Network { one_way: Duration::ZERO, rate: Some(RATE) }).unwrap();
        let begun = Instant::now();
        let sending: Vec<_> =
            (0..2).map(|_| thread::spawn(move || TcpStream::connect(address).unwrap().write_all(&[7; 1 << 18]))).collect();
        let taking =
            (0..2).map(|_| listener.accept().unwrap().0).map(|mut stream| thread::spawn(move || io::copy(&mut stream, &mut io::sink())));
        let taken: u64 = taking.collect::<Vec<_>>().into_iter().map(|taking| taking.join().unwrap().unwrap()).sum();
        sending.into_iter().for_each(|sending| sending.join().unwrap().unwrap());
        assert_eq!(taken, 1 << 19);
        // (half of what goes in a second)
        assert!(begun.elapsed() >= Duration::from_millis(490), "{:?}", begun.elapsed());
    }
}
