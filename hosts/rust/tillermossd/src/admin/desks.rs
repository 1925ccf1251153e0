//! Where operators come in, and who of them is shown more than that the server lives.

use crate::admin::pages::{Copies, ServerKind, Visit, answer};
use crate::net::doors::listen_tcp;
use crate::options::ServerOptions;
use anyhow::{Context, Result, anyhow, bail};
use host_wire::Address;
use host_wire::handshakes::Certificates;
use host_wire::lobby::Lobby;
use host_wire::sockets::{Stream, listen_unix, not_listening};
use hyper::header::AUTHORIZATION;
use hyper::server::conn::Http;
use hyper::service::service_fn;
use hyper::{Body, Request, StatusCode};
use openssl::sha::sha256;
use std::fs;
use std::io;
use std::path::Path;
use std::sync::atomic::{AtomicBool, Ordering};
use std::sync::{Arc, PoisonError, RwLock};
use std::time::Duration;
use tokio::net::{TcpListener, TcpStream, UnixListener};
use tokio::sync::Semaphore;
use tokio::time::{sleep, timeout};
use tracing::info;

/// How many connections of operators there are at once; with one more the oldest is cut off that takes no copy.
const MOST: usize = 64;

/// How many copies are taken at once.
const COPIES: usize = 4;

/// How many characters a token has at least.
const SHORTEST: usize = 16;

/// How long one may last, and its handshake.
const PATIENCE: Duration = Duration::from_secs(300);
const HANDSHAKE: Duration = Duration::from_secs(5);

/// What operators show who come from elsewhere, by its sum: so how long a comparison takes tells nothing of it.
#[derive(Clone, Debug)]
pub struct OperatorToken([u8; 32]);

impl OperatorToken {
    fn of(text: &str) -> OperatorToken {
        OperatorToken(sha256(text.as_bytes()))
    }

    /// That of a file.
    pub fn read(path: &Path) -> Result<OperatorToken> {
        let text = fs::read_to_string(path).with_context(|| format!("--admin-token names a file that can be read: {}", path.display()))?;
        match text.trim() {
            token if token.len() >= SHORTEST && token.bytes().all(|byte| byte.is_ascii_graphic()) => Ok(OperatorToken::of(token)),
            _ => Err(anyhow!("it is {SHORTEST} characters or more, without spaces").context(format!("the token of {}", path.display()))),
        }
    }

    fn is_shown(&self, request: &Request<Body>) -> bool {
        let shown = request.headers().get(AUTHORIZATION).and_then(|shown| shown.to_str().ok());
        shown.and_then(|shown| shown.strip_prefix("Bearer ")).is_some_and(|shown| OperatorToken::of(shown).0 == self.0)
    }
}

/// Who is let in beyond the machine: who shows the token, or a certificate with one of these common names.
#[derive(Clone, Debug)]
pub struct Operators {
    token: Option<OperatorToken>,
    names: Vec<String>,
}

impl Operators {
    /// Those of the options.
    pub fn read(options: &ServerOptions) -> Result<Operators> {
        let token = options.admin_token.as_deref().map(OperatorToken::read).transpose()?;
        Ok(Operators { token, names: options.operator.clone() })
    }

    /// Whether a token lets somebody in.
    #[must_use]
    pub fn has_token(&self) -> bool {
        self.token.is_some()
    }

    /// Whether there is anything by which somebody is known.
    #[must_use]
    pub fn are_known(&self) -> bool {
        self.token.is_some() || !self.names.is_empty()
    }

    /// Why who shows this name, or none, gets no answer to the request; None if he gets one.
    #[must_use]
    pub fn refusal(&self, shown: Option<&str>, request: &Request<Body>) -> Option<(StatusCode, String)> {
        let is_operator = shown.is_some_and(|shown| self.names.iter().any(|name| name == shown));
        if is_operator || self.token.as_ref().is_some_and(|token| token.is_shown(request)) {
            return None;
        }
        Some(match (shown, &self.token) {
            (Some(shown), _) => (StatusCode::FORBIDDEN, format!("{shown} is no operator: tillermossd --operator says who is\n")),
            (None, Some(_)) => {
                let wanted = "wants the token, as Authorization: Bearer TOKEN: tillermoss --admin-token names its file\n";
                (StatusCode::UNAUTHORIZED, wanted.to_owned())
            }
            (None, None) => (StatusCode::UNAUTHORIZED, "wants an operator's certificate\n".to_owned()),
        })
    }
}

/// Where operators ask. What kind of server that is changes when it becomes master.
#[derive(Clone, Debug, Default)]
pub struct Counter {
    asked: Arc<RwLock<Arc<ServerKind>>>,
    // (without them whoever is on this machine gets there, and the machine says who that is)
    operators: Option<Arc<Operators>>,
}

impl Counter {
    /// One for these; without them for whoever is on this machine.
    #[must_use]
    pub fn new(operators: Option<Arc<Operators>>) -> Counter {
        Counter { operators, ..Counter::default() }
    }

    /// From here on it is asked of one of this kind.
    pub fn turn(&self, asked: ServerKind) {
        *self.asked.write().unwrap_or_else(PoisonError::into_inner) = Arc::new(asked);
    }

    fn asked(&self) -> Arc<ServerKind> {
        self.asked.read().unwrap_or_else(PoisonError::into_inner).clone()
    }
}

/// A socket for operators.
#[derive(Debug)]
pub enum AdminDoor {
    Unix(UnixListener),
    Tls(TcpListener, Arc<Certificates>),
    Tcp(TcpListener),
}

/// One who has connected, and said nothing yet.
enum Operator {
    Plain(Box<dyn Stream>),
    Tls(TcpStream, Arc<Certificates>),
}

impl Operator {
    // The stream, and the common name of the certificate that was shown.
    async fn come_in(self) -> Result<(Box<dyn Stream>, Option<String>)> {
        match self {
            Operator::Plain(stream) => Ok((stream, None)),
            Operator::Tls(stream, certificates) => {
                let (stream, shown) = certificates.greet(stream).await?;
                Ok((Box::new(stream), shown))
            }
        }
    }
}

impl AdminDoor {
    /// Listens at an address; gives it with the port that it has.
    pub async fn open(address: &Address, operators: &Operators, certificates: Option<&Arc<Certificates>>) -> Result<(AdminDoor, Address)> {
        let place = match address {
            Address::Unix(path) => return Ok((AdminDoor::Unix(listen_unix(path, 0o600)?), address.clone())),
            Address::Tls(place) if operators.are_known() => place,
            Address::Tls(_) => bail!("--admin {address}: wants --operator, or --admin-token: else nobody is let in"),
            Address::Tcp(place) if address.is_local() || operators.has_token() => place,
            Address::Tcp(_) => bail!(
                "--admin {address}: only unix:PATH, tls:, or tcp: on loopback; elsewhere with --admin-token, because nothing there is encrypted"
            ),
        };
        let listener = listen_tcp(place).await.map_err(|error| not_listening(&address.to_string(), &error))?;
        let bound = address.at(listener.local_addr()?);
        match (address, certificates) {
            (Address::Tls(_), Some(certificates)) => Ok((AdminDoor::Tls(listener, certificates.clone()), bound)),
            (Address::Tls(_), None) => bail!("--admin {address}: wants --cert and --key"),
            _ => Ok((AdminDoor::Tcp(listener), bound)),
        }
    }

    async fn take(&self) -> io::Result<Operator> {
        match self {
            AdminDoor::Unix(listener) => Ok(Operator::Plain(Box::new(listener.accept().await?.0))),
            AdminDoor::Tls(listener, certificates) => Ok(Operator::Tls(listener.accept().await?.0, certificates.clone())),
            AdminDoor::Tcp(listener) => Ok(Operator::Plain(Box::new(listener.accept().await?.0))),
        }
    }

    /// Answers those who come, until the server goes.
    pub async fn serve(self, counter: Counter) {
        let (lobby, copies) = (Arc::new(Lobby::default()), Arc::new(Semaphore::new(COPIES)));
        loop {
            let Ok(guest) = self.take().await else {
                sleep(Duration::from_millis(20)).await;
                continue;
            };
            let (counter, lobby, copies) = (counter.clone(), lobby.clone(), copies.clone());
            tokio::spawn(async move { attend(guest, &counter, &lobby, &copies).await });
        }
    }
}

// Answers one connection, until it ends or gives way to others.
async fn attend(guest: Operator, counter: &Counter, lobby: &Lobby, copies: &Arc<Semaphore>) {
    let place = lobby.enter(MOST);
    let come = tokio::select! {
        come = timeout(HANDSHAKE, guest.come_in()) => come,
        () = place.is_cut() => return,
    };
    let (stream, shown) = match come {
        Ok(Ok(come)) => come,
        Ok(Err(fault)) => return info!(reason = %format_args!("{fault:#}"), "an operator's connection came to nothing"),
        Err(_) => return,
    };
    let copying = Arc::new(AtomicBool::new(false));
    let visit =
        || Visit { operators: counter.operators.clone(), shown: shown.clone(), copies: Copies::new(copying.clone(), copies.clone()) };
    let service = service_fn(|request| answer(counter.asked(), visit(), request));
    let served = timeout(PATIENCE, Http::new().http1_only(true).serve_connection(stream, service));
    tokio::pin!(served);
    // (whatever ends a connection of an operator, another may be made)
    let is_cut = tokio::select! {
        _ = &mut served => false,
        () = place.is_cut() => true,
    };
    if is_cut && copying.load(Ordering::Relaxed) {
        let _ = served.await;
    }
}

#[cfg(test)]
mod tests {
    use super::*;

    // Who shows which name and which header is let in, or how he is refused.
    #[test]
    fn who_is_known_is_let_in() {
        let operators = |token: Option<&str>, names: &[&str]| Operators {
            token: token.map(OperatorToken::of),
            names: names.iter().map(|name| (*name).to_owned()).collect(),
        };
        let (by_token, by_name, both) = (operators(Some("t"), &[]), operators(None, &["ann"]), operators(Some("t"), &["ann", "bob"]));
        let rows = [
            (&by_token, None, None, Some(401)),
            (&by_token, None, Some("Bearer t"), None),
            (&by_token, None, Some("Bearer u"), Some(401)),
            (&by_token, None, Some("t"), Some(401)),
            (&by_name, None, None, Some(401)),
            (&by_name, Some("ann"), None, None),
            (&by_name, Some("bob"), None, Some(403)),
            (&by_name, Some(""), None, Some(403)),
            (&by_name, Some("eve"), Some("Bearer t"), Some(403)),
            (&both, Some("bob"), None, None),
            (&both, Some("eve"), Some("Bearer t"), None),
            (&both, None, Some("Bearer t"), None),
            (&both, Some("eve"), Some("Bearer ann"), Some(403)),
        ];
        for (operators, shown, header, wanted) in rows {
            let mut request = Request::new(Body::empty());
            header.into_iter().for_each(|header| _ = request.headers_mut().insert(AUTHORIZATION, header.parse().unwrap()));
            let found = operators.refusal(shown, &request).map(|(status, _)| status.as_u16());
            assert_eq!(found, wanted, "{operators:?} {shown:?} {header:?}");
        }
    }
}
