//! What goes out over a connection: whoever sends writes by itself, and what the stream doesn't take at once a task writes.

use host_wire::put_block;
use std::fmt::{self, Debug, Formatter};
use std::future::poll_fn;
use std::io::{self, ErrorKind};
use std::pin::Pin;
use std::sync::{Mutex, MutexGuard, PoisonError};
use std::task::{Context, Poll, Waker, ready};
use std::time::Duration;
use tokio::io::AsyncWrite;
use tokio::sync::Notify;
use tokio::time::timeout;

/// How long what waits may take to be written.
const WRITING: Duration = Duration::from_secs(10);

/// How many bytes of room are kept where nothing is to be written.
const KEPT: usize = 4096;

/// A stream to write to.
pub type Write = Box<dyn AsyncWrite + Send + Unpin>;

/// The messages to a server, in the order in which they are sent.
pub struct Outgoing {
    state: Mutex<OutgoingState>,
    filled: Notify,
}

struct OutgoingState {
    stream: Write,
    // (from its begin on it isn't written yet)
    waiting: Vec<u8>,
    begin: usize,
    /// Whether the task writes; and whether it ends the stream after that.
    is_left: bool,
    is_over: bool,
}

impl Debug for Outgoing {
    fn fmt(&self, out: &mut Formatter<'_>) -> fmt::Result {
        out.write_str("Outgoing")
    }
}

impl Outgoing {
    /// Nothing was sent yet.
    pub fn new(stream: Write) -> Outgoing {
        let state = OutgoingState { stream, waiting: Vec::new(), begin: 0, is_left: false, is_over: false };
        Outgoing { state: Mutex::new(state), filled: Notify::new() }
    }

    fn state(&self) -> MutexGuard<'_, OutgoingState> {
        self.state.lock().unwrap_or_else(PoisonError::into_inner)
    }

    /// Sends a message, after those that were sent before. One of 2^32 bytes or more, which no client makes, isn't sent.
    pub fn send(&self, message: &[u8]) {
        let mut state = self.state();
        if put_block(&mut state.waiting, message).is_err() || state.is_left {
            return;
        }
        let written = state.write(&mut Context::from_waker(Waker::noop()));
        state.is_left = !matches!(written, Poll::Ready(Ok(())));
        if state.is_left {
            self.filled.notify_one();
        }
    }

    /// Nothing more is sent.
    pub fn end(&self) {
        self.state().is_over = true;
        self.filled.notify_one();
    }

    /// Writes what is left to it, until nothing more is sent, or the stream takes no more.
    pub async fn write_all(&self) -> io::Result<()> {
        let mut is_over = false;
        while !is_over {
            self.filled.notified().await;
            let writing = poll_fn(|context| self.state().write_left(context));
            is_over = timeout(WRITING, writing).await.unwrap_or_else(|_| Err(ErrorKind::TimedOut.into()))?;
        }
        poll_fn(|context| Pin::new(&mut self.state().stream).poll_shutdown(context)).await
    }
}

impl OutgoingState {
    // Writes all that waits, for the task; whether nothing more is sent.
    fn write_left(&mut self, context: &mut Context<'_>) -> Poll<io::Result<bool>> {
        ready!(self.write(context))?;
        self.is_left = false;
        Poll::Ready(Ok(self.is_over))
    }

    // Writes all that waits.
    fn write(&mut self, context: &mut Context<'_>) -> Poll<io::Result<()>> {
        while self.begin < self.waiting.len() {
            let count = ready!(Pin::new(&mut self.stream).poll_write(context, &self.waiting[self.begin..]))?;
            if count == 0 {
                return Poll::Ready(Err(ErrorKind::WriteZero.into()));
            }
            self.begin += count;
        }
        self.begin = 0;
        self.waiting.clear();
        self.waiting.shrink_to(KEPT);
        Pin::new(&mut self.stream).poll_flush(context)
    }
}

#[cfg(test)]
mod tests {
    use super::*;
    use std::sync::Arc;
    use std::thread;
    use tokio::io::{AsyncReadExt, duplex};

    // (a stream that takes so many bytes and then waits for its reader; another thread sends)
    #[tokio::test]
    async fn messages_go_in_their_order_whoever_writes() {
        for room in [1, 5, 64, 1 << 20] {
            let (stream, mut other) = duplex(room);
            let outgoing = Arc::new(Outgoing::new(Box::new(stream)));
            let writer = outgoing.clone();
            let writing = tokio::spawn(async move { writer.write_all().await });
            let sender = thread::spawn(move || {
                (0..100_u8).for_each(|number| outgoing.send(&[number; 3]));
                outgoing.end();
            });
            let mut came = Vec::new();
            other.read_to_end(&mut came).await.unwrap();
            let wanted: Vec<u8> = (0..100).flat_map(|number| [0, 0, 0, 3, number, number, number]).collect();
            assert_eq!(came, wanted, "{room}");
            writing.await.unwrap().unwrap();
            sender.join().unwrap();
        }
    }

    #[tokio::test]
    async fn a_stream_that_is_gone_ends_it() {
        let (stream, other) = duplex(64);
        drop(other);
        let outgoing = Outgoing::new(Box::new(stream));
        outgoing.send(b"lost");
        assert_eq!(outgoing.write_all().await.unwrap_err().kind(), ErrorKind::BrokenPipe);
    }
}
