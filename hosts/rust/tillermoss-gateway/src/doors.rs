//! Where requests come in: the sockets, and whom each connection shows.

use crate::gateway::Gateway;
use crate::options::GatewayOptions;
use anyhow::{Result, bail};
use host_wire::handshakes::{Certificates, Trusted, server_config};
use host_wire::lobby::Lobby;
use host_wire::sockets::{Stream, listen_unix, not_listening, user_name};
use host_wire::{Address, is_component};
use hyper::server::conn::Http;
use hyper::service::service_fn;
use openssl::ssl::SslContext;
use std::io;
use std::sync::Arc;
use std::time::Duration;
use tokio::net::{TcpListener, TcpStream, UnixListener, UnixStream};
use tokio::sync::{Notify, Semaphore};
use tokio::time::{sleep, timeout};
use tracing::debug;

/// How many connections there are at once of which nobody knows yet who asks; with one more the oldest of them is cut off.
const STRANGERS: usize = 1024;

/// How long a handshake lasts at most, and so long a connection says nothing that is a request.
const HANDSHAKE: Duration = Duration::from_secs(5);
const SILENCE: Duration = Duration::from_secs(60);

/// How many bytes the head of a request has at most.
const HEAD: usize = 32 << 10;

/// Whom a connection shows.
#[derive(Clone, Debug, PartialEq, Eq)]
pub enum ShownName {
    /// Nobody, as at `tcp:`; whether it comes from this machine alone.
    Nobody { is_local: bool },
    /// This principal, and it acts for no other.
    Principal(Arc<str>),
    /// A name that is no principal.
    Other,
}

impl ShownName {
    fn of(name: &str) -> ShownName {
        if is_component(name) { ShownName::Principal(name.into()) } else { ShownName::Other }
    }
}

/// What the gateway shows by TLS, by the files of the options, as they are now.
pub fn context(options: &GatewayOptions) -> Result<SslContext> {
    let (Some(cert), Some(key)) = (&options.cert, &options.key) else {
        bail!("tls: wants --cert and --key");
    };
    // (who may show a token need show no certificate)
    let takes_none = options.tokens.is_some();
    let clients = options.client_ca.as_deref();
    if clients.is_none() && !takes_none {
        bail!("tls: wants --client-ca or --tokens, else nobody knows who asks");
    }
    let clients = clients.map(|authority| Trusted { authority, revoked: options.client_crl.as_deref(), takes_none });
    Ok(server_config(cert, key, clients)?)
}

/// A socket that takes connections.
pub enum HttpDoor {
    Unix(UnixListener),
    Tls(TcpListener, Arc<Certificates>),
    // (whether only this machine reaches it)
    Tcp(TcpListener, bool),
}

/// A connection that was taken, and nothing was said yet.
enum HttpGuest {
    Unix(UnixStream),
    Tls(TcpStream, Arc<Certificates>),
    Tcp(TcpStream, bool),
}

impl HttpDoor {
    /// Listens at an address; gives it with the port that it has.
    pub async fn open(
        address: &Address,
        options: &GatewayOptions,
        certificates: Option<&Arc<Certificates>>,
    ) -> Result<(HttpDoor, Address)> {
        let place = match address {
            Address::Unix(path) => return Ok((HttpDoor::Unix(listen_unix(path, 0o666)?), address.clone())),
            Address::Tls(place) => place,
            Address::Tcp(place) if address.is_local() || options.insecure => place,
            Address::Tcp(_) => bail!("{address}: nothing is encrypted there, tokens neither; only with --insecure"),
        };
        let listener = TcpListener::bind(place).await.map_err(|error| not_listening(&address.to_string(), &error))?;
        let bound = address.at(listener.local_addr()?);
        match (address, certificates) {
            (Address::Tls(_), Some(certificates)) => Ok((HttpDoor::Tls(listener, certificates.clone()), bound)),
            (Address::Tls(_), None) => bail!("tls: wants --cert and --key"),
            _ => Ok((HttpDoor::Tcp(listener, address.is_local()), bound)),
        }
    }

    async fn take(&self) -> io::Result<HttpGuest> {
        match self {
            HttpDoor::Unix(listener) => Ok(HttpGuest::Unix(listener.accept().await?.0)),
            HttpDoor::Tls(listener, certificates) => Ok(HttpGuest::Tls(listener.accept().await?.0, certificates.clone())),
            HttpDoor::Tcp(listener, is_local) => Ok(HttpGuest::Tcp(listener.accept().await?.0, *is_local)),
        }
    }

    /// Answers those who come, until the gateway goes.
    pub async fn serve(self, gateway: Arc<Gateway>, hall: Arc<HttpHall>) {
        loop {
            let Ok(guest) = self.take().await else {
                sleep(Duration::from_millis(20)).await;
                continue;
            };
            let Ok(place) = hall.places.clone().try_acquire_owned() else {
                debug!("a connection too many was closed");
                continue;
            };
            let (gateway, hall) = (gateway.clone(), hall.clone());
            tokio::spawn(async move {
                let _place = place;
                attend(guest, gateway, &hall.lobby).await;
            });
        }
    }
}

/// The connections of all doors.
#[derive(Debug)]
pub struct HttpHall {
    lobby: Lobby,
    places: Arc<Semaphore>,
}

impl HttpHall {
    /// Room for so many.
    pub fn new(most: usize) -> HttpHall {
        HttpHall { lobby: Lobby::default(), places: Arc::new(Semaphore::new(most)) }
    }
}

impl HttpGuest {
    async fn come_in(self) -> Result<(Box<dyn Stream>, ShownName)> {
        match self {
            HttpGuest::Unix(stream) => {
                let name = user_name(stream.peer_cred()?.uid()).await?;
                Ok((Box::new(stream), ShownName::of(&name)))
            }
            HttpGuest::Tls(stream, certificates) => {
                let (stream, shown) = certificates.greet(stream).await?;
                let shown = shown.map_or(ShownName::Nobody { is_local: false }, |name| ShownName::of(&name));
                Ok((Box::new(stream), shown))
            }
            HttpGuest::Tcp(stream, is_local) => {
                stream.set_nodelay(true)?;
                Ok((Box::new(stream), ShownName::Nobody { is_local }))
            }
        }
    }
}

// Answers one connection until it ends, or gives way to others before anybody knows who asks.
async fn attend(guest: HttpGuest, gateway: Arc<Gateway>, lobby: &Lobby) {
    let place = lobby.enter(STRANGERS);
    let known = Arc::new(Notify::new());
    let answering = async {
        match timeout(HANDSHAKE, guest.come_in()).await {
            Ok(Ok((stream, shown))) => answer(stream, gateway, shown, known.clone()).await,
            Ok(Err(fault)) => debug!(reason = %format_args!("{fault:#}"), "a connection came to nothing"),
            Err(_) => debug!("a handshake took too long"),
        }
    };
    tokio::pin!(answering);
    let is_known = tokio::select! {
        () = &mut answering => false,
        () = place.is_cut() => false,
        () = known.notified() => true,
    };
    drop(place);
    if is_known {
        answering.await;
    }
}

async fn answer(stream: Box<dyn Stream>, gateway: Arc<Gateway>, shown: ShownName, known: Arc<Notify>) {
    let service = service_fn(|request| {
        let (gateway, shown, known) = (gateway.clone(), shown.clone(), known.clone());
        async move { gateway.answer(request, &shown, &known).await }
    });
    let mut http = Http::new();
    http.http1_only(true).http1_header_read_timeout(SILENCE).max_buf_size(HEAD);
    // (whatever ends a connection, another may be made)
    if let Err(error) = http.serve_connection(stream, service).await {
        debug!(reason = %error, "a connection ended");
    }
}
