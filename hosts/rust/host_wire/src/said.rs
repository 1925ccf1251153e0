//! What a master says to a client, as far as a host has to know it.

use crate::library::{SaidParts, said, store_refused};
use crate::numbers::{ALIVE, REFUSED, REPLY, STARTED};
use std::time::Duration;

/// The refusal that another master is up.
const OLD_EPOCH: u32 = 28;

/// A message of a master.
#[derive(Clone, Copy, Debug, PartialEq, Eq)]
pub struct Said {
    /// For whom it is.
    pub client: u64,
    /// The number of the client's message that it answers.
    pub number: u64,
    /// What is said of that.
    pub answer: MasterAnswer,
}

/// What is said of a client's message. Refusals are numbers, as `docs/FORMATS.md` has them.
#[derive(Clone, Copy, Debug, PartialEq, Eq)]
pub enum MasterAnswer {
    /// The session has begun, and has a lease of so long.
    Started(Duration),
    /// The session goes on for so long; and whether that comes with invalidations or events, which the next Beat acknowledges.
    Alive(Duration, bool),
    /// The call has ended: by which refusal, where its result is one.
    Reply(Option<u32>),
    /// It was refused.
    Refused(u32),
}

impl Said {
    /// What these bytes say; None where they are no message of a master.
    #[must_use]
    pub fn read(message: &[u8]) -> Option<Said> {
        Said::of(said(message)?)
    }

    /// What these parts of a message say.
    #[must_use]
    pub(crate) fn of(parts: SaidParts) -> Option<Said> {
        let SaidParts { what, fault, client, number, span, brings, .. } = parts;
        let span = Duration::from_millis(span);
        let answer = match what {
            STARTED => MasterAnswer::Started(span),
            ALIVE => MasterAnswer::Alive(span, brings == 1),
            REPLY => MasterAnswer::Reply(Some(fault).filter(|fault| *fault > 0)),
            REFUSED => MasterAnswer::Refused(fault),
            _ => return None,
        };
        Some(Said { client, number, answer })
    }

    /// Whether it says that another master is up.
    #[must_use]
    pub fn is_of_old_epoch(&self) -> bool {
        self.answer == MasterAnswer::Refused(OLD_EPOCH)
    }
}

/// The bytes of a master's reply that the store refused; None where no client or no call has such a number.
#[must_use]
pub fn write_store_refused(client: u64, epoch: u64, number: u64) -> Option<Vec<u8>> {
    store_refused(client, epoch, number)
}

#[cfg(test)]
mod tests {
    use super::*;

    #[test]
    fn what_a_master_says_is_read() {
        let parts = |what, fault, brings| SaidParts { what, fault, brings, client: 7, epoch: 2, number: 5, span: 12_000 };
        let span = Duration::from_millis(12_000);
        let rows = [
            (parts(1, 0, 0), Some(MasterAnswer::Started(span))),
            (parts(2, 0, 0), Some(MasterAnswer::Alive(span, false))),
            (parts(2, 0, 1), Some(MasterAnswer::Alive(span, true))),
            (parts(3, 0, 0), Some(MasterAnswer::Reply(None))),
            (parts(3, 15, 0), Some(MasterAnswer::Reply(Some(15)))),
            (parts(4, 28, 0), Some(MasterAnswer::Refused(28))),
            (parts(4, 29, 0), Some(MasterAnswer::Refused(29))),
            (parts(0, 0, 0), None),
        ];
        for (parts, answer) in rows {
            let said = answer.map(|answer| Said { client: 7, number: 5, answer });
            assert_eq!(Said::of(parts), said, "{parts:?}");
            assert_eq!(said.is_some_and(|said| said.is_of_old_epoch()), answer == Some(MasterAnswer::Refused(28)));
        }
    }

    #[test]
    fn a_reply_that_the_store_refused_is_read_as_it_was_written() {
        let said = |client| write_store_refused(client, 2, 5).map(|bytes| Said::read(&bytes));
        assert_eq!(said(7), Some(Some(Said { client: 7, number: 5, answer: MasterAnswer::Reply(Some(15)) })));
        assert_eq!((said(0), Said::read(b""), Said::read(b"said")), (None, None, None));
    }
}
