//! What an operator asks a server for, where `tillermossd --admin` listens.

use crate::errors::Error;
use crate::reaching::{connector, encrypted};
use host_wire::trust::worded;
use host_wire::{Address, LockShown, SessionShown, Shown, Status};
use hyper::body::HttpBody;
use hyper::client::conn::handshake;
use hyper::{Body, Method, Request, Response};
use openssl::ssl::SslConnector;
use serde::de::DeserializeOwned;
use std::fs::{self, File};
use std::future::Future;
use std::io::{self, ErrorKind, Write};
use std::os::unix::fs::OpenOptionsExt;
use std::path::Path;
use std::time::Duration;
use tokio::io::{AsyncRead, AsyncWrite};
use tokio::net::{TcpStream, UnixStream};
use tokio::runtime::Builder;
use tokio::time::timeout;

/// How long an answer may take to begin; a copy is taken meanwhile.
const PATIENCE: Duration = Duration::from_secs(60);

/// A server, as its operators reach it. Each call is a connection of its own.
///
/// ```
/// # let server = programs::server_of_its_own();
/// # let address = server.admin.as_deref().unwrap();
/// # use tillermoss::*;
/// let admin = Admin::new(address)?;
/// assert_eq!(admin.status()?.epoch, 1);
/// # Ok::<(), Error>(())
/// ```
#[derive(Clone, Debug)]
pub struct Admin {
    address: Address,
    token: Option<String>,
    connector: Option<SslConnector>,
}

// (the fault of the stream, if it is one: what the server has against this end is told with what is read first)
fn io_error(error: hyper::Error) -> Error {
    let text = error.to_string();
    let inner = error.into_cause().and_then(|cause| cause.downcast::<io::Error>().ok());
    inner.map_or_else(|| io::Error::other(text), |inner| worded(*inner)).into()
}

impl Admin {
    /// The one at this address, `unix:PATH`, `tls:HOST:PORT` or `tcp:HOST:PORT`, as `tillermossd` prints it after `admin`.
    ///
    /// ```
    /// # use tillermoss::Admin;
    /// assert!(Admin::new("unix:/run/tillermoss/admin").is_ok());
    /// assert!(Admin::new("h.example").is_err());
    /// ```
    ///
    /// # Errors
    ///
    /// If that is no such address. Nothing is connected yet.
    pub fn new(address: &str) -> Result<Admin, Error> {
        match address.parse() {
            Ok(address) => Ok(Admin { address, token: None, connector: None }),
            Err(error) => Err(io::Error::new(ErrorKind::InvalidInput, format!("{address}: {error}")).into()),
        }
    }

    /// This one for `tls:`, where the server's certificate is signed by one of the authorities of this file; and with the files of a
    /// certificate and its key, by which this end shows who it is (`tillermossd --operator`). All are in PEM.
    ///
    /// ```no_run
    /// # use tillermoss::Admin;
    /// # use std::path::Path;
    /// let own = Some((Path::new("ann.pem"), Path::new("ann.key")));
    /// let admin = Admin::new("tls:cell.example:7173")?.with_certificates(Path::new("ca.pem"), own)?;
    /// # Ok::<(), tillermoss::Error>(())
    /// ```
    ///
    /// # Errors
    ///
    /// If a file can't be read, or doesn't have what it is named for.
    pub fn with_certificates(self, authority: &Path, own: Option<(&Path, &Path)>) -> Result<Admin, Error> {
        Ok(Admin { connector: Some(connector(authority, own)?), ..self })
    }

    /// This one, which shows this token: a server beyond this machine wants it (`tillermossd --admin-token`).
    ///
    /// ```
    /// # use tillermoss::Admin;
    /// let admin = Admin::new("tcp:cell.example:7172")?.with_token("0123456789abcdef");
    /// # Ok::<(), tillermoss::Error>(())
    /// ```
    #[must_use]
    pub fn with_token(self, token: &str) -> Admin {
        Admin { token: Some(token.to_owned()), ..self }
    }

    /// How the server stands.
    ///
    /// ```
    /// # let server = programs::server_of_its_own();
    /// # let address = server.admin.as_deref().unwrap();
    /// # use tillermoss::*;
    /// let admin = Admin::new(address)?;
    /// assert!(admin.status()?.is_ready);
    /// # Ok::<(), Error>(())
    /// ```
    ///
    /// # Errors
    ///
    /// If it can't be reached, or doesn't let this operator in.
    pub fn status(&self) -> Result<Status, Error> {
        self.get("/status")
    }

    /// The sessions that are live.
    ///
    /// ```
    /// # let server = programs::server_of_its_own();
    /// # let address = server.admin.as_deref().unwrap();
    /// # use tillermoss::*;
    /// let admin = Admin::new(address)?;
    /// assert_eq!(admin.sessions()?, []);
    /// # Ok::<(), Error>(())
    /// ```
    ///
    /// # Errors
    ///
    /// As `status`.
    pub fn sessions(&self) -> Result<Vec<SessionShown>, Error> {
        self.get("/sessions")
    }

    /// The locks that aren't free, with those who hold them and wait for them.
    ///
    /// ```
    /// # let server = programs::server_of_its_own();
    /// # let address = server.admin.as_deref().unwrap();
    /// # use tillermoss::*;
    /// let admin = Admin::new(address)?;
    /// assert_eq!(admin.locks()?, []);
    /// # Ok::<(), Error>(())
    /// ```
    ///
    /// # Errors
    ///
    /// As `status`.
    pub fn locks(&self) -> Result<Vec<LockShown>, Error> {
        self.get("/locks")
    }

    /// All that a server shows: how it stands, nodes, sessions, locks, and which calls wait for whom.
    ///
    /// ```
    /// # let server = programs::server_of_its_own();
    /// # let address = server.admin.as_deref().unwrap();
    /// # use tillermoss::*;
    /// let shown: Shown = Admin::new(address)?.all()?;
    /// assert!(shown.status.is_ready && shown.waits.is_empty());
    /// # Ok::<(), Error>(())
    /// ```
    ///
    /// # Errors
    ///
    /// As `status`.
    pub fn all(&self) -> Result<Shown, Error> {
        self.get("/all")
    }

    /// All of the names, principals and clients in which a text stands, of the characters that names have: of a cell that has more than
    /// a page shows.
    ///
    /// ```
    /// # let server = programs::server_of_its_own();
    /// # let address = server.admin.as_deref().unwrap();
    /// # use tillermoss::*;
    /// let shown = Admin::new(address)?.find("acl")?;
    /// assert_eq!(shown.nodes.len(), 2);
    /// # Ok::<(), Error>(())
    /// ```
    ///
    /// # Errors
    ///
    /// As `status`.
    pub fn find(&self, text: &str) -> Result<Shown, Error> {
        self.get(&format!("/all?find={text}"))
    }

    /// Takes a copy of the store into a new file that this user alone reads; how many bytes it has. The server gives it over a
    /// `unix:` alone. While it copies its files the master is given nothing; the copy is whole, as of one moment between two changes.
    ///
    /// ```
    /// # let server = programs::server_of_its_own();
    /// # let address = server.admin.as_deref().unwrap();
    /// # use tillermoss::*;
    /// let admin = Admin::new(address)?;
    /// let copy = std::env::temp_dir().join(format!("tillermoss-copy-{}.db", std::process::id()));
    /// assert!(admin.backup(&copy)? > 0);
    /// # std::fs::remove_file(copy)?;
    /// # Ok::<(), Error>(())
    /// ```
    ///
    /// # Errors
    ///
    /// If the file is there, or can't be written, or the server doesn't give a copy. Then there is no file.
    pub fn backup(&self, file: &Path) -> Result<u64, Error> {
        let mut out = File::options().write(true).create_new(true).mode(0o600).open(file)?;
        let taken = self.run(async {
            let mut answer = self.ask(Method::POST, "/backup").await?;
            let mut length = 0;
            while let Some(bytes) = answer.body_mut().data().await {
                let bytes = bytes.map_err(io_error)?;
                length += bytes.len() as u64;
                out.write_all(&bytes)?;
            }
            out.sync_all()?;
            Ok(length)
        });
        if taken.is_err() {
            // (a file that can't be removed stays, and is no whole copy)
            let _ = fs::remove_file(file);
        }
        taken
    }

    /// Ends a client: it is cut off, and comes back no more. Its session ends once its lease has run out. The server does so over a
    /// `unix:` alone.
    ///
    /// ```
    /// # let server = programs::server_of_its_own();
    /// # let address = server.admin.as_deref().unwrap();
    /// # use tillermoss::*;
    /// let client = Client::connect(&Options::new(&server.address, "ann"))?;
    /// let admin = Admin::new(address)?;
    /// assert_eq!(admin.end(client.number())?, [client.number()]);
    /// assert!(admin.end(u64::MAX).is_err());
    /// # Ok::<(), Error>(())
    /// ```
    ///
    /// # Errors
    ///
    /// If there is no such client, or the server ends none.
    pub fn end(&self, client: u64) -> Result<Vec<u64>, Error> {
        self.post(&format!("/end/client/{client}"))
    }

    /// Ends all clients of a principal; which these are.
    ///
    /// ```
    /// # let server = programs::server_of_its_own();
    /// # let address = server.admin.as_deref().unwrap();
    /// # use tillermoss::*;
    /// let client = Client::connect(&Options::new(&server.address, "bob"))?;
    /// let admin = Admin::new(address)?;
    /// assert_eq!(admin.end_all("bob")?, [client.number()]);
    /// assert!(admin.end_all("carol").is_err());
    /// # Ok::<(), Error>(())
    /// ```
    ///
    /// # Errors
    ///
    /// As `end`.
    pub fn end_all(&self, principal: &str) -> Result<Vec<u64>, Error> {
        self.post(&format!("/end/principal/{principal}"))
    }

    fn run<T>(&self, asked: impl Future<Output = Result<T, Error>>) -> Result<T, Error> {
        Builder::new_current_thread().enable_all().build()?.block_on(asked)
    }

    fn get<T: DeserializeOwned>(&self, path: &str) -> Result<T, Error> {
        self.read(Method::GET, path)
    }

    fn post<T: DeserializeOwned>(&self, path: &str) -> Result<T, Error> {
        self.read(Method::POST, path)
    }

    fn read<T: DeserializeOwned>(&self, method: Method, path: &str) -> Result<T, Error> {
        let bytes = self.run(async {
            let answer = self.ask(method, path).await?;
            hyper::body::to_bytes(answer.into_body()).await.map_err(io_error)
        })?;
        serde_json::from_slice(&bytes).map_err(|error| Error::Malformed(error.to_string()))
    }

    async fn ask(&self, method: Method, path: &str) -> Result<Response<Body>, Error> {
        let mut request = Request::builder().method(method).uri(path).header("host", "localhost");
        if let Some(token) = &self.token {
            request = request.header("authorization", format!("Bearer {token}"));
        }
        let request = request.body(Body::empty());
        let request = request.map_err(io::Error::other)?;
        let answered = timeout(PATIENCE, self.send(request));
        let answer = answered.await.unwrap_or_else(|_| Err(io::Error::from(ErrorKind::TimedOut).into()))?;
        if answer.status().is_success() {
            return Ok(answer);
        }
        let status = answer.status().as_u16();
        let said = hyper::body::to_bytes(answer.into_body()).await.map_err(io_error)?;
        Err(Error::NotDone { status, reason: String::from_utf8_lossy(&said).trim_end().to_owned() })
    }

    async fn send(&self, request: Request<Body>) -> Result<Response<Body>, Error> {
        match (&self.address, &self.connector) {
            (Address::Unix(path), _) => ask_over(UnixStream::connect(path).await?, request).await,
            (Address::Tls(place), Some(connector)) => ask_over(encrypted(connector, place).await?, request).await,
            (Address::Tls(_), None) => {
                Err(io::Error::new(ErrorKind::InvalidInput, format!("{}: wants the server's authorities", self.address)).into())
            }
            (Address::Tcp(place), _) => ask_over(TcpStream::connect(place).await?, request).await,
        }
    }
}

async fn ask_over(stream: impl AsyncRead + AsyncWrite + Unpin + Send + 'static, request: Request<Body>) -> Result<Response<Body>, Error> {
    let (mut sender, connection) = handshake(stream).await.map_err(io_error)?;
    // (how it ends is told with the answer)
    tokio::spawn(connection);
    sender.send_request(request).await.map_err(io_error)
}
