//! What a server shows by TLS, and whom it trusts; and handshakes, on threads of their own.

use crate::trust::{common_name, show_by, trust, why};
use openssl::ssl::{Ssl, SslAcceptor, SslContext, SslMethod, SslOptions, SslSessionCacheMode, SslVerifyMode};
use openssl::x509::X509Name;
use std::fmt::{self, Debug, Formatter};
use std::io;
use std::path::Path;
use std::pin::Pin;
use std::sync::{PoisonError, RwLock};
use std::time::Duration;
use tokio::io::{AsyncReadExt, AsyncWriteExt};
use tokio::net::TcpStream;
use tokio::runtime::{Builder, Runtime};
use tokio::task::JoinSet;
use tokio::time::timeout;
use tokio_openssl::SslStream;

/// Handshakes are made by so many threads, which do nothing else: what strangers cost there they take from each other.
const THREADS: usize = 2;

/// How long who made none that succeeded may take to hear why.
const PARTING: Duration = Duration::from_millis(500);

/// Whose certificates a server takes.
#[derive(Clone, Copy, Debug)]
pub struct Trusted<'a> {
    /// The file of the authorities that sign them, in PEM.
    pub authority: &'a Path,
    /// The file of the lists of those that are revoked.
    pub revoked: Option<&'a Path>,
    /// Who shows none gets in too.
    pub takes_none: bool,
}

/// How a server shows itself, and whose certificates it takes: where it wants some, only a client with one of these authorities gets in.
/// No session is taken up again: each connection shows its certificate anew.
///
/// # Errors
///
/// If a file can't be read, or doesn't have what it is named for.
pub fn server_config(certificate: &Path, own_key: &Path, clients: Option<Trusted>) -> io::Result<SslContext> {
    let mut acceptor = SslAcceptor::mozilla_intermediate_v5(SslMethod::tls_server())?;
    show_by(&mut acceptor, certificate, own_key)?;
    if let Some(clients) = clients {
        trust(&mut acceptor, clients.authority, clients.revoked)?;
        let names = X509Name::load_client_ca_file(clients.authority);
        let at = |error| io::Error::other(format!("reading {}: {error}", clients.authority.display()));
        acceptor.set_client_ca_list(names.map_err(at)?);
        if clients.takes_none {
            acceptor.set_verify(SslVerifyMode::PEER);
        }
    }
    acceptor.set_session_cache_mode(SslSessionCacheMode::OFF);
    acceptor.set_options(SslOptions::NO_TICKET | SslOptions::NO_RENEGOTIATION);
    Ok(acceptor.build().into_context())
}

/// What a server shows by TLS, as it was last read, and who makes the handshakes with those who come.
pub struct Certificates {
    context: RwLock<SslContext>,
    handshakes: Handshakes,
}

impl Debug for Certificates {
    fn fmt(&self, out: &mut Formatter<'_>) -> fmt::Result {
        out.write_str("Certificates")
    }
}

impl Certificates {
    /// These, of which nothing was shown yet.
    ///
    /// # Errors
    ///
    /// If no threads can be started.
    pub fn new(context: SslContext) -> io::Result<Certificates> {
        Ok(Certificates { context: RwLock::new(context), handshakes: Handshakes::new()? })
    }

    /// From here on these are shown.
    pub fn renew(&self, context: SslContext) {
        *self.context.write().unwrap_or_else(PoisonError::into_inner) = context;
    }

    /// The handshake with who has connected; and the common name of the certificate that was shown, which is empty if it has none.
    ///
    /// # Errors
    ///
    /// If the other end goes, or isn't let in.
    pub async fn greet(&self, stream: TcpStream) -> io::Result<(SslStream<TcpStream>, Option<String>)> {
        stream.set_nodelay(true)?;
        let context = self.context.read().unwrap_or_else(PoisonError::into_inner).clone();
        let stream = self.handshakes.make(&context, stream).await?;
        let shown = stream.ssl().peer_certificate().map(|certificate| common_name(&certificate).unwrap_or_default());
        Ok((stream, shown))
    }
}

/// The threads that make handshakes.
#[derive(Debug)]
pub struct Handshakes(Option<Runtime>);

impl Handshakes {
    /// They have nothing to do yet.
    ///
    /// # Errors
    ///
    /// If they can't be started.
    pub fn new() -> io::Result<Handshakes> {
        let threads = Builder::new_multi_thread().worker_threads(THREADS).thread_name("handshakes").build()?;
        Ok(Handshakes(Some(threads)))
    }

    /// Makes one with who has connected. If that isn't waited for any longer it is given up.
    ///
    /// # Errors
    ///
    /// If the other end goes, or isn't let in.
    pub async fn make(&self, context: &SslContext, stream: TcpStream) -> io::Result<SslStream<TcpStream>> {
        let threads = self.0.as_ref().ok_or_else(|| io::Error::other("no handshakes are made any more"))?;
        let mut stream = SslStream::new(Ssl::new(context)?, stream)?;
        let mut making = JoinSet::new();
        let made = async move {
            let accepted = Pin::new(&mut stream).accept().await;
            (accepted.map_err(|error| why(stream.ssl(), &error)), stream)
        };
        making.spawn_on(made, threads.handle());
        let (made, mut stream) = making.join_next().await.ok_or_else(|| io::Error::other("a handshake that wasn't begun"))??;
        if made.is_err() {
            part(stream.get_mut()).await;
        }
        made?;
        Ok(stream)
    }
}

// Ends a connection whose handshake has failed. What it was told of that would get lost on the way where something of it is unread.
async fn part(stream: &mut TcpStream) {
    // (one that is gone is told nothing)
    let _ = stream.shutdown().await;
    let mut room = [0; 1024];
    let reading = async { while let Ok(1..) = stream.read(&mut room).await {} };
    let _ = timeout(PARTING, reading).await;
}

impl Drop for Handshakes {
    fn drop(&mut self) {
        // (what is in the making goes with it)
        self.0.take().into_iter().for_each(Runtime::shutdown_background);
    }
}
