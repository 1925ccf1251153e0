//! Where a server is, in one word.

use std::fmt;
use std::net::{IpAddr, SocketAddr};
use std::path::PathBuf;
use std::str::FromStr;
use thiserror::Error;

/// Where a server listens, and where a client finds it.
#[derive(Clone, Debug, PartialEq, Eq)]
pub enum Address {
    /// `unix:PATH`: a socket in a file, whose two ends the system knows.
    Unix(PathBuf),
    /// `tls:HOST:PORT`: encrypted, and both ends show certificates.
    Tls(String),
    /// `tcp:HOST:PORT`: neither encrypted nor vouched for by anybody.
    Tcp(String),
}

/// A word that is no address.
#[derive(Clone, Copy, Debug, PartialEq, Eq, Error)]
#[error("not unix:PATH, tls:HOST:PORT, tcp:HOST:PORT, HOST:PORT or PORT")]
pub struct NoAddress;

// Without a host it is loopback.
fn with_host(text: &str) -> Option<String> {
    if text.parse::<u16>().is_ok() {
        return Some(format!("127.0.0.1:{text}"));
    }
    let (host, port) = text.rsplit_once(':')?;
    (!host.is_empty() && port.parse::<u16>().is_ok()).then(|| text.to_owned())
}

impl FromStr for Address {
    type Err = NoAddress;

    fn from_str(word: &str) -> Result<Address, NoAddress> {
        let address = match word.split_once(':') {
            Some(("unix", path)) => (!path.is_empty()).then(|| Address::Unix(path.into())),
            Some(("tls", rest)) => with_host(rest).map(Address::Tls),
            Some(("tcp", rest)) => with_host(rest).map(Address::Tcp),
            _ => with_host(word).map(Address::Tcp),
        };
        address.ok_or(NoAddress)
    }
}

impl fmt::Display for Address {
    fn fmt(&self, out: &mut fmt::Formatter<'_>) -> fmt::Result {
        match self {
            Address::Unix(path) => write!(out, "unix:{}", path.display()),
            Address::Tls(place) => write!(out, "tls:{place}"),
            Address::Tcp(place) => write!(out, "tcp:{place}"),
        }
    }
}

impl Address {
    /// This address with the place where a socket listens: its port is known then.
    #[must_use]
    pub fn at(&self, place: SocketAddr) -> Address {
        match self {
            Address::Unix(path) => Address::Unix(path.clone()),
            Address::Tls(_) => Address::Tls(place.to_string()),
            Address::Tcp(_) => Address::Tcp(place.to_string()),
        }
    }

    /// Whether only this machine can reach it, as far as the word says: a name other than `localhost` may lead anywhere.
    #[must_use]
    pub fn is_local(&self) -> bool {
        let (Address::Tls(place) | Address::Tcp(place)) = self else {
            return true;
        };
        let host = place.rsplit_once(':').map_or(place.as_str(), |(host, _)| host);
        let host = host.trim_start_matches('[').trim_end_matches(']');
        host == "localhost" || host.parse().is_ok_and(|address: IpAddr| address.is_loopback())
    }
}

#[cfg(test)]
mod tests {
    use super::*;

    #[test]
    fn words_are_addresses() {
        let rows = [
            ("7", Some(("tcp:127.0.0.1:7", true))),
            ("h:7", Some(("tcp:h:7", false))),
            ("localhost:7", Some(("tcp:localhost:7", true))),
            ("tcp:7", Some(("tcp:127.0.0.1:7", true))),
            ("tcp:[::1]:7", Some(("tcp:[::1]:7", true))),
            ("[::]:7", Some(("tcp:[::]:7", false))),
            ("tcp:0.0.0.0:7", Some(("tcp:0.0.0.0:7", false))),
            ("tls:h:7", Some(("tls:h:7", false))),
            ("tls:7", Some(("tls:127.0.0.1:7", true))),
            ("unix:/run/a:b", Some(("unix:/run/a:b", true))),
            ("unix:", None),
            ("tls:h", None),
            ("65536", None),
            (":7", None),
            ("h", None),
            ("", None),
        ];
        for (word, wanted) in rows {
            let found = word.parse::<Address>().ok().map(|address| (address.to_string(), address.is_local()));
            assert_eq!(found, wanted.map(|(text, is_local)| (text.to_owned(), is_local)), "{word}");
        }
    }
}
