//! A client without a connection, for who carries its messages by himself.

use crate::calls::{Call, Opening};
use crate::errors::Error;
use crate::library::{Library, StepStatus};
use crate::lines::{Answer, Line};

/// A client without a connection: what it has to say is handed out as bytes, and what it is told is handed in, at moments that the caller
/// names, in milliseconds. It keeps nothing going by itself: for who carries its messages in another way, and for tests of who carries
/// them. A handle is its own number, counted from 1.
///
/// ```
/// use tillermoss::{Bare, Mode, Opening};
///
/// let mut client = Bare::new(7, "ann")?;
/// let start = client.beat(1000).unwrap();
/// assert!(!start.is_empty());
/// // (no master has answered that)
/// assert_eq!(client.open(1000, &Opening::new("/ls/c/f", Mode::READ)), None);
/// # Ok::<(), tillermoss::Error>(())
/// ```
#[derive(Debug)]
pub struct Bare {
    number: u64,
    library: Library,
}

impl Bare {
    /// A client of this number, which no other client has ever had, that acts for this principal.
    ///
    /// # Errors
    ///
    /// If no client has such a number, or the text is no principal.
    pub fn new(number: u64, principal: &str) -> Result<Bare, Error> {
        match Library::open(number, principal) {
            Ok(library) => Ok(Bare { number, library }),
            Err(status) => Err(Error::Malformed(format!("the client's number or principal, as {status:?}"))),
        }
    }

    /// Its number.
    #[must_use]
    pub fn number(&self) -> u64 {
        self.number
    }

    /// Its next Start or Beat; None where its session is lost.
    pub fn beat(&mut self, now: u64) -> Option<Vec<u8>> {
        let status = self.library.beat(now);
        self.sent(status)
    }

    /// The call to open a node; None where the client answers it by itself, or refuses it.
    pub fn open(&mut self, now: u64, opening: &Opening) -> Option<Vec<u8>> {
        let status = self.library.call(now, &Call::Open(opening));
        self.sent(status)
    }

    /// The call to read by a handle; None as of `open`.
    pub fn read(&mut self, now: u64, handle: u64) -> Option<Vec<u8>> {
        let status = self.library.call(now, &Call::Read(handle));
        self.sent(status)
    }

    /// The call to set a content by a handle; None as of `open`.
    pub fn set(&mut self, now: u64, handle: u64, content: &[u8]) -> Option<Vec<u8>> {
        let status = self.library.call(now, &Call::Set(handle, content, None));
        self.sent(status)
    }

    /// Gives it a message of its master; the handle that it opened by that.
    pub fn give(&mut self, now: u64, message: &[u8]) -> Option<u64> {
        let status = self.library.give(now, message);
        if status.is_without_effect() {
            return None;
        }
        self.library.lines().into_iter().filter_map(Line::of).find_map(|line| match line {
            Line::Done(_, Answer::Opened(handle)) => Some(handle),
            _ => None,
        })
    }

    /// The moment from which on it trusts its lease no more; 0 without one.
    pub fn leased_until(&mut self) -> u64 {
        self.library.leased_until()
    }

    fn sent(&mut self, status: StepStatus) -> Option<Vec<u8>> {
        (status == StepStatus::Send).then(|| self.library.message()).flatten()
    }
}
