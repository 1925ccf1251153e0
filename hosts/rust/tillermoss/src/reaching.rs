//! How a server is reached: the stream to it, and whom the client shows there.

use crate::denials::Denials;
use host_wire::sockets::Stream;
use host_wire::trust::{certificates, common_name, show_by, trust, why};
use host_wire::{Address, TurnedAway};
use nix::unistd::{User, getuid};
use openssl::ssl::{Ssl, SslConnector, SslMethod};
use openssl::x509::verify::X509CheckFlags;
use std::io::{self, ErrorKind};
use std::net::IpAddr;
use std::path::{Path, PathBuf};
use std::pin::Pin;
use std::sync::{Arc, Mutex, MutexGuard, PoisonError};
use tokio::net::{TcpStream, UnixStream};
use tokio_openssl::SslStream;

/// Where the servers of a cell are, of which one is master, and by what the client and a server know each other.
#[derive(Clone)]
pub struct Reach {
    places: Arc<[Address]>,
    turn: Arc<Mutex<NextServer>>,
    tls: Option<SslConnector>,
}

/// Which server is tried next: one of the places, or another that was told.
#[derive(Default)]
struct NextServer {
    at: usize,
    told: Option<Address>,
    denials: Denials,
}

impl std::fmt::Debug for Reach {
    fn fmt(&self, out: &mut std::fmt::Formatter<'_>) -> std::fmt::Result {
        write!(out, "{}", self.address())
    }
}

fn fault(text: String) -> io::Error {
    io::Error::new(ErrorKind::InvalidInput, text)
}

fn config(certificate: Option<&PathBuf>, own_key: Option<&PathBuf>, authority: Option<&PathBuf>) -> io::Result<SslConnector> {
    let (Some(certificate), Some(own_key), Some(authority)) = (certificate, own_key, authority) else {
        return Err(fault("tls: wants a certificate, its key, and the server's authority".to_owned()));
    };
    connector(authority, Some((certificate.as_path(), own_key.as_path())))
}

/// Servers whose certificates these authorities have signed; and by which certificate and key this end shows itself there, if it does.
pub fn connector(authority: &Path, own: Option<(&Path, &Path)>) -> io::Result<SslConnector> {
    let mut connector = SslConnector::builder(SslMethod::tls_client())?;
    trust(&mut connector, authority, None)?;
    own.into_iter().try_for_each(|(certificate, key)| show_by(&mut connector, certificate, key))?;
    Ok(connector.build())
}

/// A stream by TLS to the server of this place, `HOST:PORT`, whose certificate has to name the host.
pub async fn encrypted(connector: &SslConnector, place: &str) -> io::Result<SslStream<TcpStream>> {
    let mut stream = SslStream::new(wanted(connector, server_name(place)?)?, stream(place).await?)?;
    let connected = Pin::new(&mut stream).connect().await;
    connected.map_err(|error| why(stream.ssl(), &error))?;
    Ok(stream)
}

impl Reach {
    /// That of words between commas, with the files of certificates where one is a `tls:`.
    pub fn new(servers: &str, certificate: Option<&PathBuf>, own_key: Option<&PathBuf>, authority: Option<&PathBuf>) -> io::Result<Reach> {
        let read = |server: &str| server.parse().map_err(|error| fault(format!("{server}: {error}")));
        let places = servers.split(',').map(read).collect::<io::Result<Arc<[Address]>>>()?;
        let is_tls = places.iter().any(|address| matches!(address, Address::Tls(_)));
        let tls = if is_tls { Some(config(certificate, own_key, authority)?) } else { None };
        Ok(Reach { places, turn: Arc::default(), tls })
    }

    fn lock(&self) -> MutexGuard<'_, NextServer> {
        self.turn.lock().unwrap_or_else(PoisonError::into_inner)
    }

    fn address(&self) -> Address {
        let turn = self.lock();
        turn.told.clone().unwrap_or_else(|| self.places[turn.at].clone())
    }

    /// Whether there is another server to try.
    pub fn has_several(&self) -> bool {
        self.places.len() > 1 || self.lock().told.is_some()
    }

    /// From here on the one that was told is tried, where it is one of them or reached in the same way; else the next one.
    pub fn turn(&self, told: Option<&str>) {
        let present = self.address();
        let told = told.and_then(|told| told.parse().ok()).filter(|told| is_alike(told, &present) || self.places.contains(told));
        let mut turn = self.lock();
        match told.as_ref().and_then(|told| self.places.iter().position(|place| place == told)) {
            Some(at) => (turn.at, turn.told) = (at, None),
            None if told.is_some() => turn.told = told,
            None => (turn.at, turn.told) = ((turn.at + 1) % self.places.len(), None),
        }
    }

    /// The server that is tried now took the client.
    pub fn is_welcomed(&self) {
        self.lock().denials.forget();
    }

    /// It turned the client away, and told where the master is; for which reason the client is turned away by what all have said.
    pub fn judge(&self, reason: TurnedAway, master: Option<&str>) -> TurnedAway {
        let (present, master) = (self.address(), master.and_then(|told| told.parse().ok()));
        self.lock().denials.judge(&present, reason, master.as_ref(), &self.places)
    }

    /// A stream to the server that is tried now.
    pub async fn connect(&self) -> io::Result<Box<dyn Stream>> {
        match (&self.address(), &self.tls) {
            (Address::Unix(path), _) => Ok(Box::new(UnixStream::connect(path).await?)),
            (Address::Tls(place), Some(connector)) => Ok(Box::new(encrypted(connector, place).await?)),
            (Address::Tls(place) | Address::Tcp(place), _) => Ok(Box::new(stream(place).await?)),
        }
    }
}

// Whether a client that trusts the one is right to go to the other.
fn is_alike(told: &Address, present: &Address) -> bool {
    matches!((told, present), (Address::Tcp(_), Address::Tcp(_)) | (Address::Tls(_), Address::Tls(_)))
}

// The name that the server's certificate has to have. It is that of a host, never a number; this machine's is `localhost`.
fn server_name(place: &str) -> io::Result<&str> {
    let host = place.rsplit_once(':').map_or(place, |(host, _)| host).trim_matches(['[', ']']);
    let address: Option<IpAddr> = host.parse().ok();
    let is_name = !host.is_empty() && host.bytes().all(|byte| byte.is_ascii_alphanumeric() || b"-._".contains(&byte));
    match address {
        Some(address) if address.is_loopback() => Ok("localhost"),
        None if is_name => Ok(host),
        _ => Err(fault(format!("tls: wants the server by the name that its certificate has, not {host}"))),
    }
}

// A handshake with the server of this name, which stands among the alternative names of its certificate.
fn wanted(config: &SslConnector, name: &str) -> io::Result<Ssl> {
    let mut ssl = config.configure()?.into_ssl(name)?;
    ssl.param_mut().set_hostflags(X509CheckFlags::NO_PARTIAL_WILDCARDS | X509CheckFlags::NEVER_CHECK_SUBJECT);
    Ok(ssl)
}

async fn stream(place: &str) -> io::Result<TcpStream> {
    let stream = TcpStream::connect(place).await?;
    stream.set_nodelay(true)?;
    Ok(stream)
}

/// Whom a client acts for where nobody says it: at `unix:` this process's user, at `tls:` the common name of the certificate. None
/// at `tcp:`, where a client says it, and where there is no such name.
///
/// ```
/// # use tillermoss::own_principal;
/// assert_eq!(own_principal("tcp:127.0.0.1:7171", None), None);
/// ```
#[must_use]
pub fn own_principal(server: &str, certificate: Option<&Path>) -> Option<String> {
    match server.split(',').next()?.parse().ok()? {
        Address::Unix(_) => User::from_uid(getuid()).ok()?.map(|user| user.name),
        Address::Tls(_) => common_name(certificates(certificate?).ok()?.first()?),
        Address::Tcp(_) => None,
    }
}

#[cfg(test)]
mod tests {
    use super::*;

    #[test]
    fn a_certificate_names_a_host() {
        let rows = [("h.example:7", true), ("localhost:7", true), ("127.0.0.1:7", true), ("[::1]:7", true), ("10.0.0.1:7", false)];
        for (place, wanted) in rows {
            assert_eq!(server_name(place).is_ok(), wanted, "{place}");
        }
    }

    #[test]
    fn servers_are_tried_in_turn() {
        let rows: &[(&str, &[Option<&str>], &str)] = &[
            ("h:7,tcp:i:7,unix:/s", &[], "tcp:h:7"),
            ("h:7,tcp:i:7,unix:/s", &[None], "tcp:i:7"),
            ("h:7,tcp:i:7,unix:/s", &[None, None], "unix:/s"),
            ("h:7,tcp:i:7,unix:/s", &[None, None, None], "tcp:h:7"),
            ("h:7,tcp:i:7,unix:/s", &[Some("tcp:i:7")], "tcp:i:7"),
            ("h:7,tcp:i:7,unix:/s", &[Some("unix:/s")], "unix:/s"),
            // (one that isn't among them is tried once)
            ("h:7", &[Some("tcp:other:7")], "tcp:other:7"),
            ("h:7", &[Some("tcp:other:7"), None], "tcp:h:7"),
            ("h:7", &[Some("tls:other:7")], "tcp:h:7"),
            ("unix:/s", &[Some("unix:/t")], "unix:/s"),
            ("h:7,i:7", &[Some("no address")], "tcp:i:7"),
        ];
        for (servers, turns, wanted) in rows {
            let reach = Reach::new(servers, None, None, None).unwrap();
            turns.iter().for_each(|told| reach.turn(*told));
            assert_eq!(reach.address().to_string(), *wanted, "{servers} {turns:?}");
            assert_eq!(reach.has_several(), servers.contains(',') || wanted.contains("other"), "{servers} {turns:?}");
        }
        assert!(Reach::new("h:7,i", None, None, None).is_err());
    }

    #[test]
    fn what_tls_wants_is_told() {
        assert!(Reach::new("tls:h:7", None, None, None).unwrap_err().to_string().contains("wants a certificate"));
        assert!(Reach::new("h", None, None, None).is_err());
        assert_eq!(own_principal("h:7", None), None);
        assert!(own_principal("unix:/s", None).is_some());
    }
}
