//! Where clients come in: the sockets that the server listens at, and whom each connection shows.

use crate::options::ServerOptions;
use anyhow::{Context, Result, bail};
use host_wire::handshakes::{Certificates, Trusted, server_config};
use host_wire::sockets::{Stream, listen_unix, not_listening, user_name};
use host_wire::{Address, is_component};
use openssl::ssl::SslContext;
use std::io;
use std::net::SocketAddr;
use std::sync::Arc;
use tokio::net::{TcpListener, TcpSocket, TcpStream, UnixListener, UnixStream, lookup_host};

/// How many connections may wait until they are taken: all clients come at once where a server is replaced, and one that finds no place
/// tries again after a second. (The system has a limit of its own.)
const BACKLOG: u32 = 4096;

/// A socket that takes connections.
#[derive(Debug)]
pub enum Door {
    Unix(UnixListener),
    Tls(TcpListener, Arc<Certificates>),
    Tcp(TcpListener),
}

/// A connection that was taken, and nothing was said yet.
#[derive(Debug)]
pub enum Guest {
    Unix(UnixStream),
    Tls(TcpStream, Arc<Certificates>),
    Tcp(TcpStream),
}

/// Who comes to an address by TLS.
#[derive(Clone, Copy, Debug, PartialEq, Eq)]
pub enum Comer {
    /// A client, who shows a certificate.
    Client,
    /// An operator, who shows a certificate or says a token later.
    Operator,
}

/// What is shown by TLS to those who come, by the files of the options, as they are now.
pub fn context(options: &ServerOptions, comer: Comer) -> Result<SslContext> {
    let takes_none = comer == Comer::Operator;
    let revoked = options.client_crl.as_deref();
    let clients = options.client_ca.as_deref().map(|authority| Trusted { authority, revoked, takes_none });
    match (&options.cert, &options.key, comer, clients) {
        (Some(cert), Some(key), _, Some(clients)) => Ok(server_config(cert, key, Some(clients))?),
        (Some(cert), Some(key), Comer::Operator, None) => Ok(server_config(cert, key, None)?),
        (.., Comer::Operator, _) => bail!("--admin tls: wants --cert and --key"),
        (.., Comer::Client, _) => bail!("tls: wants --cert, --key and --client-ca"),
    }
}

/// A socket at the first of the place's addresses that can be had.
pub async fn listen_tcp(place: &str) -> io::Result<TcpListener> {
    let mut listener = Err(io::Error::from(io::ErrorKind::AddrNotAvailable));
    for address in lookup_host(place).await? {
        listener = listen_at(address);
        if listener.is_ok() {
            break;
        }
    }
    listener
}

fn listen_at(address: SocketAddr) -> io::Result<TcpListener> {
    let socket = if address.is_ipv4() { TcpSocket::new_v4()? } else { TcpSocket::new_v6()? };
    socket.set_reuseaddr(true)?;
    socket.bind(address)?;
    socket.listen(BACKLOG)
}

impl Door {
    /// Listens at an address; gives it with the port that it has. Whoever the system knows may come to a `unix:`.
    pub async fn open(address: &Address, is_insecure: bool, certificates: Option<&Arc<Certificates>>) -> Result<(Door, Address)> {
        let (place, certificates) = match (address, certificates) {
            (Address::Unix(path), _) => return Ok((Door::Unix(listen_unix(path, 0o666)?), address.clone())),
            (Address::Tls(place), Some(certificates)) => (place, Some(certificates.clone())),
            (Address::Tls(_), None) => bail!("tls: wants --cert, --key and --client-ca"),
            (Address::Tcp(place), _) if address.is_local() || is_insecure => (place, None),
            (Address::Tcp(_), _) => bail!("{address}: who connects there acts for anybody, and nothing is encrypted; only with --insecure"),
        };
        let listener = listen_tcp(place).await.map_err(|error| not_listening(&address.to_string(), &error))?;
        let address = address.at(listener.local_addr()?);
        let door = match certificates {
            Some(certificates) => Door::Tls(listener, certificates),
            None => Door::Tcp(listener),
        };
        Ok((door, address))
    }

    /// The next connection.
    pub async fn take(&self) -> io::Result<Guest> {
        match self {
            Door::Unix(listener) => Ok(Guest::Unix(listener.accept().await?.0)),
            Door::Tls(listener, certificates) => Ok(Guest::Tls(listener.accept().await?.0, certificates.clone())),
            Door::Tcp(listener) => Ok(Guest::Tcp(listener.accept().await?.0)),
        }
    }
}

/// Whom a connection shows.
#[derive(Clone, Debug, PartialEq, Eq)]
pub enum Credentials {
    /// Nobody: the client says for whom it acts.
    Nobody,
    /// This principal, and it acts for no other.
    Principal(String),
    /// A name that is no principal.
    Other(String),
}

impl Credentials {
    fn of(name: String) -> Credentials {
        if is_component(&name) { Credentials::Principal(name) } else { Credentials::Other(name) }
    }
}

impl Guest {
    /// From where it came, for an operator: an address, or the process at a socket.
    #[must_use]
    pub fn peer(&self) -> String {
        let process = |stream: &UnixStream| stream.peer_cred().ok().and_then(|shown| shown.pid());
        match self {
            Guest::Unix(stream) => process(stream).map_or_else(|| "a socket".to_owned(), |process| format!("process {process}")),
            // (of one that has gone meanwhile the system tells nothing)
            Guest::Tls(stream, _) | Guest::Tcp(stream) => stream.peer_addr().map_or_else(|_| "gone".to_owned(), |peer| peer.to_string()),
        }
    }

    /// Lets it in, as far as its greeting: the stream to it, and whom it shows.
    pub async fn come_in(self) -> Result<(Box<dyn Stream>, Credentials)> {
        match self {
            Guest::Unix(stream) => {
                let name = user_name(stream.peer_cred()?.uid()).await?;
                Ok((Box::new(stream), Credentials::of(name)))
            }
            Guest::Tls(stream, certificates) => {
                let (stream, shown) = certificates.greet(stream).await?;
                Ok((Box::new(stream), Credentials::of(shown.context("no certificate")?)))
            }
            Guest::Tcp(stream) => {
                stream.set_nodelay(true)?;
                Ok((Box::new(stream), Credentials::Nobody))
            }
        }
    }
}
