//! What goes out over a connection.

use host_wire::put_block;
use std::mem;
use std::sync::{Arc, Mutex, MutexGuard, PoisonError};
use std::time::Duration;
use tokio::io::{AsyncWrite, AsyncWriteExt};
use tokio::sync::Notify;
use tokio::time::timeout;

/// How many bytes may wait for a client that doesn't read, and one more message.
const ROOM: usize = 1 << 20;

/// How long may one write to a client last, which has so many bytes at most.
const PATIENCE: Duration = Duration::from_secs(10);
const PIECE: usize = 1 << 16;

/// How many bytes of room are kept where nothing is to be written.
const KEPT: usize = 4096;

/// The messages to one connection, which a task writes: those that wait together in one write.
#[derive(Debug)]
pub struct Outbox {
    /// For whom its client acts.
    pub principal: Arc<str>,
    state: Mutex<OutboxState>,
    filled: Notify,
    ended: Notify,
}

// The blocks that wait, and how many bytes are being written.
#[derive(Debug, Default)]
struct OutboxState {
    waiting: Vec<u8>,
    writing: usize,
    cut: Option<&'static str>,
}

impl Outbox {
    /// Nothing is sent yet.
    #[must_use]
    pub fn new(principal: &Arc<str>) -> Outbox {
        let (principal, state) = (principal.clone(), Mutex::default());
        Outbox { principal, state, filled: Notify::new(), ended: Notify::new() }
    }

    fn state(&self) -> MutexGuard<'_, OutboxState> {
        self.state.lock().unwrap_or_else(PoisonError::into_inner)
    }

    /// Sends a message; or cuts the connection off, where the client doesn't keep up: it asks anew when it comes back.
    pub fn send(&self, block: &[u8]) {
        if self.put(block) {
            self.wake();
        }
    }

    /// As `send`, of a message that goes once `wake` is called; whether that is still to be done.
    pub fn put(&self, block: &[u8]) -> bool {
        let mut state = self.state();
        let is_first = state.waiting.is_empty();
        // (a message of a master has fewer than 2^32 bytes: its frame has, too)
        if state.waiting.len() + state.writing <= ROOM && put_block(&mut state.waiting, block).is_ok() {
            return is_first;
        }
        drop(state);
        self.cut("it doesn't read what it is sent");
        false
    }

    /// What waits is written.
    pub fn wake(&self) {
        self.filled.notify_one();
    }

    /// Cuts the connection off, for this reason where there was none.
    pub fn cut(&self, why: &'static str) {
        let mut state = self.state();
        state.cut.get_or_insert(why);
        state.waiting = Vec::new();
        self.filled.notify_one();
        self.ended.notify_one();
    }

    /// Waits until it is cut off; why.
    pub async fn is_cut(&self) -> &'static str {
        loop {
            if let Some(why) = self.state().cut {
                return why;
            }
            self.ended.notified().await;
        }
    }

    // Takes all that waits, in the place of what was written; false where it is cut off.
    async fn next(&self, bytes: &mut Vec<u8>) -> bool {
        bytes.clear();
        bytes.shrink_to(KEPT);
        loop {
            {
                let mut state = self.state();
                if state.cut.is_some() {
                    return false;
                }
                if !state.waiting.is_empty() {
                    mem::swap(bytes, &mut state.waiting);
                    state.writing = bytes.len();
                    return true;
                }
            }
            self.filled.notified().await;
        }
    }

    /// Writes what comes, until it is cut off.
    pub async fn write_all(&self, mut stream: impl AsyncWrite + Unpin) {
        let mut bytes = Vec::new();
        while self.next(&mut bytes).await {
            if let Err(why) = self.write(&mut stream, &bytes).await {
                self.cut(why);
            }
        }
        // (one that is gone already is shut down)
        let _ = timeout(PATIENCE, stream.shutdown()).await;
    }

    async fn write(&self, stream: &mut (impl AsyncWrite + Unpin), bytes: &[u8]) -> Result<(), &'static str> {
        for piece in bytes.chunks(PIECE) {
            let written = timeout(PATIENCE, stream.write_all(piece)).await.map_err(|_| "it doesn't read what it is sent")?;
            written.map_err(|_| "it is gone")?;
            self.state().writing -= piece.len();
        }
        Ok(())
    }
}

#[cfg(test)]
mod tests {
    use super::*;
    use std::io;
    use std::pin::Pin;
    use std::task::{Context, Poll};

    /// A stream that notes what each write has.
    #[derive(Clone, Default)]
    struct Noted(Arc<Mutex<Vec<Vec<u8>>>>);

    impl AsyncWrite for Noted {
        fn poll_write(self: Pin<&mut Self>, _: &mut Context<'_>, bytes: &[u8]) -> Poll<io::Result<usize>> {
            self.0.lock().unwrap().push(bytes.to_vec());
            Poll::Ready(Ok(bytes.len()))
        }

        fn poll_flush(self: Pin<&mut Self>, _: &mut Context<'_>) -> Poll<io::Result<()>> {
            Poll::Ready(Ok(()))
        }

        fn poll_shutdown(self: Pin<&mut Self>, _: &mut Context<'_>) -> Poll<io::Result<()>> {
            Poll::Ready(Ok(()))
        }
    }

    #[tokio::test]
    async fn what_waits_together_is_one_write() {
        let (outgoing, noted) = (Arc::new(Outbox::new(&"ann".into())), Noted::default());
        let (writer, stream) = (outgoing.clone(), noted.clone());
        let writing = tokio::spawn(async move { writer.write_all(stream).await });
        tokio::task::yield_now().await;
        assert!(outgoing.put(b"a"));
        assert!(!outgoing.put(b""));
        tokio::task::yield_now().await;
        assert!(!outgoing.put(b"bc"));
        outgoing.wake();
        while noted.0.lock().unwrap().is_empty() {
            tokio::task::yield_now().await;
        }
        outgoing.send(&[7; PIECE]);
        while noted.0.lock().unwrap().len() < 3 {
            tokio::task::yield_now().await;
        }
        outgoing.cut("the end");
        writing.await.unwrap();
        let large = [b"\0\x01\0\0".to_vec(), vec![7; PIECE]].concat();
        let (piece, rest) = large.split_at(PIECE);
        assert_eq!(*noted.0.lock().unwrap(), [b"\0\0\0\x01a\0\0\0\0\0\0\0\x02bc", piece, rest]);
        assert_eq!(outgoing.state().writing, 0);
    }

    #[test]
    fn a_client_that_does_not_read_is_cut_off() {
        let rows: &[(&[usize], bool)] = &[
            (&[10, ROOM - 18], false),
            (&[10, ROOM - 18, ROOM], false),
            (&[10 * ROOM], false),
            (&[10, 10 * ROOM], false),
            (&[ROOM - 3, 1], true),
            (&[10, ROOM - 17, 1], true),
        ];
        for (lengths, wanted) in rows {
            let outgoing = Outbox::new(&"ann".into());
            for length in *lengths {
                outgoing.send(&vec![0; *length]);
            }
            assert_eq!(outgoing.state().cut.is_some(), *wanted, "{lengths:?}");
        }
    }
}
