//! A server that stands by: whoever comes is told who is master.

use crate::etcd::mastership::Seat;
use crate::net::doors::{Door, Guest};
use crate::options::ServerOptions;
use anyhow::Result;
use host_wire::handshakes::Certificates;
use host_wire::{Address, Blocks, GREETING_LIMIT, Welcome, framed};
use std::sync::{Arc, Mutex, PoisonError};
use std::time::Duration;
use tokio::io::AsyncWriteExt;
use tokio::task::JoinSet;
use tokio::time::{sleep, timeout};
use tracing::debug;

/// How long a greeting may take.
const GREETING: Duration = Duration::from_secs(5);

/// How long after a connection that can't be taken.
const PAUSE: Duration = Duration::from_millis(20);

/// What a server that stands by knows of the others.
#[derive(Debug, Default)]
pub struct Others {
    /// The one that is master, if etcd says that.
    pub master: Option<Seat>,
    /// Where the last other one was that was master; empty where none is known.
    pub last: String,
}

/// Who is master and who was, for all who ask for it.
pub type KnownMaster = Arc<Mutex<Others>>;

impl Others {
    /// Etcd said who is master, or nothing.
    pub fn see(&mut self, master: Option<Seat>, own: &str) {
        if let Some(other) = master.as_ref().filter(|seat| seat.address != own) {
            self.last.clone_from(&other.address);
        }
        self.master = master;
    }

    /// Where clients are sent: to the master, else to the last one that is known, which can tell who is master now.
    #[must_use]
    pub fn next(&self) -> &str {
        self.master.as_ref().map_or(&self.last, |seat| &seat.address)
    }
}

/// Listens at each address, and tells whoever comes who is master, until it is dropped.
pub async fn stand_by(options: &ServerOptions, certificates: Option<&Arc<Certificates>>, known: &KnownMaster) -> Result<JoinSet<()>> {
    let mut tasks = JoinSet::new();
    for address in &options.listen {
        let (door, _) = Door::open(address, options.insecure, certificates).await?;
        let known = known.clone();
        tasks.spawn(async move { turn_away(&door, &known).await });
    }
    Ok(tasks)
}

async fn turn_away(door: &Door, known: &KnownMaster) {
    loop {
        let Ok(guest) = door.take().await else {
            sleep(PAUSE).await;
            continue;
        };
        let address = known.lock().unwrap_or_else(PoisonError::into_inner).next().to_owned();
        let peer = guest.peer();
        tokio::spawn(async move {
            if let Ok(Err(error)) | Err(error) = timeout(GREETING, tell(guest, &address)).await.map_err(Into::into) {
                debug!(peer, reason = %format_args!("{error:#}"), "a connection was cut off before its greeting");
            }
        });
    }
}

async fn tell(guest: Guest, master: &str) -> Result<()> {
    let (mut stream, _) = guest.come_in().await?;
    if Blocks::new(GREETING_LIMIT).next_of(&mut stream).await?.is_some() {
        stream.write_all(&framed(&Welcome::not_master(master))?).await?;
        stream.shutdown().await?;
    }
    Ok(())
}

/// Where clients find this server.
#[must_use]
pub fn address(options: &ServerOptions) -> String {
    options.advertise.as_ref().or(options.listen.first()).map(Address::to_string).unwrap_or_default()
}

#[cfg(test)]
mod tests {
    use super::*;

    #[test]
    fn a_server_that_can_not_look_tells_of_the_last_other_one() {
        let rows: &[(&[Option<&str>], &str)] = &[
            (&[], ""),
            (&[None], ""),
            (&[Some("tcp:b:7")], "tcp:b:7"),
            (&[Some("tcp:b:7"), None], "tcp:b:7"),
            (&[Some("tcp:b:7"), Some("tcp:c:7"), None, None], "tcp:c:7"),
            // (it sends nobody to itself unless etcd says so)
            (&[Some("tcp:own:7")], "tcp:own:7"),
            (&[Some("tcp:own:7"), None], ""),
            (&[Some("tcp:b:7"), Some("tcp:own:7"), None], "tcp:b:7"),
        ];
        for (seen, wanted) in rows {
            let mut others = Others::default();
            for address in *seen {
                others.see(address.map(|address| Seat { address: address.to_owned(), server: "one".to_owned() }), "tcp:own:7");
            }
            assert_eq!(others.next(), *wanted, "{seen:?}");
        }
    }
}
