//! Why something couldn't be done.

use crate::refusals::Refusal;
use host_wire::TurnedAway;
use std::io;
use thiserror::Error;

/// Why a call came to nothing.
///
/// ```
/// use tillermoss::{Error, Refusal};
///
/// let error = Error::from(Refusal::NotFound);
/// assert_eq!(error.to_string(), "NotFound: no such node, or no such parent at a create");
/// ```
#[derive(Debug, Error)]
pub enum Error {
    /// The master or the client library refused it.
    #[error(transparent)]
    Refused(#[from] Refusal),
    /// A limit of the server stands against it.
    #[error("{0}")]
    Limited(String),
    /// The server doesn't take the client.
    #[error("turned away: {0}")]
    TurnedAway(TurnedAway),
    /// The client can't be connected, or its thread can't be started.
    #[error(transparent)]
    Io(#[from] io::Error),
    /// What an operator asked for isn't done.
    #[error("{reason}")]
    NotDone {
        /// The status of the answer, as HTTP has them: 404 if there is no such client, 401 and 403 if this operator may not.
        status: u16,
        /// Why.
        reason: String,
    },
    /// No session began, or none was safe, for as long as the client waits for it.
    #[error("the cell can't be reached")]
    Unavailable,
    /// The client was closed.
    #[error("the client is closed")]
    Closed,
    /// What came back isn't understood.
    #[error("not understood: {0}")]
    Malformed(String),
}

impl Error {
    /// The refusal, where it is one.
    ///
    /// ```
    /// use tillermoss::{Error, Refusal};
    ///
    /// assert_eq!(Error::from(Refusal::Exists).refusal(), Some(Refusal::Exists));
    /// assert_eq!(Error::Closed.refusal(), None);
    /// ```
    #[must_use]
    pub fn refusal(&self) -> Option<Refusal> {
        match self {
            Error::Refused(refusal) => Some(*refusal),
            _ => None,
        }
    }
}
