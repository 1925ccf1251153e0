//! What clients notice of a server, a master or both that are stopped by SIGSTOP for a while, and go on.

use crate::fail_overs::{CachingClient, Noticed, come_by, write};
use crate::members::Member;
use crate::servers::{Server, Start, certificates, folder, free};
use nix::sys::signal::Signal;
use std::io;
use std::path::{Path, PathBuf};
use std::sync::{Mutex, PoisonError};
use std::thread;
use std::time::{Duration, Instant};
use tillermoss::{Error, Options};

/// How many clients a cell has.
const CLIENTS: usize = 8;

/// How long clients do nothing before the stop: then their Beats wait for answers.
const QUIET: Duration = Duration::from_secs(5);

/// Held while a cell over etcd comes up: of many at once a mastership would end before its server reads the rows.
static COMING_UP: Mutex<()> = Mutex::new(());

/// What is stopped.
#[derive(Clone, Copy, Debug, PartialEq, Eq)]
pub enum Stopped {
    /// The server.
    Server,
    /// The server and its master.
    Both,
    /// The master.
    Master,
}

/// What a cell is like whose server is stopped.
#[derive(Clone, Copy, Debug, PartialEq, Eq)]
pub struct Kind {
    /// Clients come by TLS, else by TCP.
    pub is_tls: bool,
    /// Its rows stand in etcd and two servers take turns, else they stand in a file that one server has.
    pub is_over_etcd: bool,
}

/// A cell with one server, or with one that is master and one that stands by.
struct Cell {
    folder: PathBuf,
    servers: Vec<Server>,
    options: Options,
}

impl Cell {
    fn start(kind: Kind, member: Option<&Member>, name: &str) -> io::Result<Cell> {
        let folder = folder("stops");
        let shown = kind.is_tls.then(|| certificates(&folder, &["ann"]));
        let mut servers = Vec::new();
        match member {
            None => servers.push(start(&folder, "first", shown.as_deref()).start()?),
            Some(member) => {
                let _alone = COMING_UP.lock().unwrap_or_else(PoisonError::into_inner);
                member.make(name)?;
                servers.push(start(&folder, "first", shown.as_deref()).rows(&member.rows(name)).start()?);
                servers.push(start(&folder, "second", shown.as_deref()).rows(&member.rows(name)).stand_by()?);
            }
        }
        let places: Vec<String> = servers.iter().map(|server| server.address.replace("127.0.0.1", "localhost")).collect();
        let file = |end: &str| shown.as_ref().map(|folder| folder.join(end));
        let options = Options {
            certificate: file("ann.pem"),
            key: file("ann.key"),
            authority: file("ca.pem"),
            ..Options::new(&places.join(","), "ann")
        };
        Ok(Cell { folder, servers, options })
    }

    fn tell(&self, what: Stopped, signal: Signal) -> io::Result<()> {
        let server = &self.servers[0];
        // (of both the server goes on first, as one would find it whose machine was stopped)
        if what != Stopped::Master {
            server.signal(signal)?;
        }
        if what != Stopped::Server { server.signal_master(signal) } else { Ok(()) }
    }
}

fn start(folder: &Path, name: &str, certificates: Option<&Path>) -> Start {
    let start = Start::new(&folder.join(name));
    match certificates {
        Some(certificates) => start.tls_at(&format!("tls:{}", free()), certificates),
        None => start.with(&[&format!("tcp:{}", free())]),
    }
}

/// A cell whose server, its master or both are stopped for so long, with clients that hold locks and cache files: what these noticed by
/// the time at which a write of each was answered. Over etcd the cell is of this name, in this member.
///
/// # Errors
///
/// If the cell doesn't come up, or a client isn't let in.
pub fn stop_for(kind: Kind, member: Option<&Member>, what: Stopped, lasting: Duration) -> Result<Noticed, Error> {
    let name = format!("{what:?}-{}", lasting.as_secs()).to_lowercase();
    let cell = Cell::start(kind, member, &name)?;
    let guests = come_by(&cell.options, CLIENTS)?;
    thread::sleep(QUIET);
    let stopped = Instant::now();
    cell.tell(what, Signal::SIGSTOP)?;
    thread::sleep(lasting);
    let woken = Instant::now();
    // (a master that doesn't answer is replaced meanwhile, and one that was may be gone)
    let _ = cell.tell(what, Signal::SIGCONT);
    let mut noticed = Noticed { answered: write_each(&guests, woken), answered_since_the_end: stopped.elapsed(), ..Noticed::default() };
    noticed.look_at(&guests);
    drop(guests);
    drop(cell.servers);
    std::fs::remove_dir_all(cell.folder)?;
    Ok(noticed)
}

// A write of each, of a lost session too; how long since then the last answer came.
fn write_each(guests: &[CachingClient], since: Instant) -> Duration {
    thread::scope(|scope| {
        for (client, file) in guests.iter().map(|guest| (&guest.client, guest.watch.handle)) {
            // (whether its session is lost it is asked later)
            scope.spawn(move || drop(write(client, file)));
        }
    });
    since.elapsed()
}
