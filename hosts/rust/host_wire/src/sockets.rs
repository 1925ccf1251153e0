//! Sockets in files, and who comes over them.

use nix::unistd::{Uid, User};
use std::fs::{self, Permissions};
use std::io::{self, ErrorKind};
use std::os::unix::fs::{FileTypeExt, PermissionsExt};
use std::os::unix::net::UnixStream as StdUnixStream;
use std::path::Path;
use std::sync::LazyLock;
use tokio::io::{AsyncRead, AsyncWrite};
use tokio::net::UnixListener;
use tokio::sync::Semaphore;
use tokio::task::spawn_blocking;

/// A stream of bytes both ways.
pub trait Stream: AsyncRead + AsyncWrite + Send + Unpin {}

impl<S: AsyncRead + AsyncWrite + Send + Unpin> Stream for S {}

/// How many users are looked up at once, each by a thread that does nothing else.
static LOOKUPS: LazyLock<Semaphore> = LazyLock::new(|| Semaphore::new(4));

/// Why nothing listens at an address, in words: the address, the reason, and what to do.
#[must_use]
pub fn not_listening(address: &str, error: &io::Error) -> io::Error {
    let cure = match error.kind() {
        ErrorKind::AddrInUse => "something is there already: end it, or name another address",
        ErrorKind::AddrNotAvailable => "name an address of this machine",
        ErrorKind::NotFound => "make the folder of the socket first",
        ErrorKind::PermissionDenied => "this user may not listen there",
        _ => "name another address",
    };
    io::Error::new(error.kind(), format!("listening at {address}: {error}: {cure}"))
}

/// A socket in a file of this mode; one that nobody listens at any more gives way.
///
/// # Errors
///
/// If it can't be made.
pub fn listen_unix(path: &Path, mode: u32) -> io::Result<UnixListener> {
    let at = |error: io::Error| not_listening(&format!("unix:{}", path.display()), &error);
    let is_socket = fs::symlink_metadata(path).is_ok_and(|file| file.file_type().is_socket());
    if is_socket && StdUnixStream::connect(path).is_err_and(|error| error.kind() == ErrorKind::ConnectionRefused) {
        fs::remove_file(path).map_err(at)?;
    }
    let listener = UnixListener::bind(path).map_err(at)?;
    fs::set_permissions(path, Permissions::from_mode(mode)).map_err(at)?;
    Ok(listener)
}

/// The name of a user of this machine, else its number. Where users stand in a directory elsewhere that takes its time.
///
/// # Errors
///
/// If the system can't be asked.
pub async fn user_name(user: u32) -> io::Result<String> {
    let turn = LOOKUPS.acquire().await.map_err(io::Error::other)?;
    let found = spawn_blocking(move || {
        let _turn = turn;
        User::from_uid(Uid::from_raw(user))
    });
    let user_found = found.await??;
    Ok(user_found.map_or_else(|| user.to_string(), |user| user.name))
}
