//! An etcd of one member, for trials of servers whose rows stand there.

use crate::servers::{free, master_program, program};
use nix::sys::signal::{Signal, kill};
use nix::unistd::Pid;
use std::fs;
use std::io;
use std::net::{SocketAddr, TcpStream};
use std::path::{Path, PathBuf};
use std::process::{Child, Command, Stdio};
use std::thread;
use std::time::{Duration, Instant};

/// How long a member may take to come up.
const COMING_UP: Duration = Duration::from_secs(60);

/// A member that runs, alone in its etcd.
#[derive(Debug)]
pub struct Member {
    child: Child,
    place: SocketAddr,
    folder: PathBuf,
}

fn run(program: &Path, words: &[&str]) -> io::Result<()> {
    let done = Command::new(program).args(words).stdin(Stdio::null()).output()?;
    if !done.status.success() {
        let said = String::from_utf8_lossy(&done.stderr);
        return Err(io::Error::other(format!("{} {words:?}: {}: {said}", program.display(), done.status)));
    }
    Ok(())
}

impl Member {
    /// Starts one with its files in this folder, and waits until it is up.
    ///
    /// # Errors
    ///
    /// If the program `etcd` isn't there, or doesn't come up.
    pub fn start(folder: &Path) -> io::Result<Member> {
        let (place, peer) = (free(), free());
        let (client, peer) = (format!("http://{place}"), format!("http://{peer}"));
        let data = folder.join("etcd").display().to_string();
        let words = ["--name", "m", "--data-dir", &data, "--log-level", "error"];
        let urls = ["--listen-client-urls", &client, "--advertise-client-urls", &client, "--listen-peer-urls", &peer];
        let own = ["--initial-advertise-peer-urls", &peer, "--initial-cluster", &format!("m={peer}")];
        let mut command = Command::new("etcd");
        command.args(words).args(urls).args(own).stdin(Stdio::null()).stdout(Stdio::null()).stderr(Stdio::null());
        let child = command.spawn().map_err(|error| io::Error::other(format!("etcd (Debian: apt-get install etcd-server): {error}")))?;
        let member = Member { child, place, folder: folder.to_owned() };
        let begun = Instant::now();
        while !member.is_up() {
            if begun.elapsed() > COMING_UP {
                return Err(io::Error::other("etcd doesn't come up"));
            }
            thread::sleep(Duration::from_millis(100));
        }
        Ok(member)
    }

    fn is_up(&self) -> bool {
        TcpStream::connect(self.place).is_ok() && ureq::get(&format!("http://{}/health", self.place)).call().is_ok()
    }

    /// Where the rows of a cell of this name stand, once it is made there.
    #[must_use]
    pub fn rows(&self, cell: &str) -> String {
        format!("etcd://{}/{cell}", self.place)
    }

    /// Makes a new cell of this name.
    ///
    /// # Errors
    ///
    /// If that fails, as where there is one.
    pub fn make(&self, cell: &str) -> io::Result<()> {
        let store = self.folder.join(format!("{cell}.db")).display().to_string();
        run(&master_program(), &["run", "--store", &store])?;
        run(
            &program("tillermossd"),
            &["copy", "--from", &store, "--to", &self.rows(cell), "--master", &master_program().display().to_string()],
        )?;
        fs::remove_file(store)
    }
}

impl Member {
    /// Lets it hang while this is done: who connects is taken by the system, and isn't answered.
    ///
    /// # Errors
    ///
    /// If it is gone.
    pub fn hang<T>(&self, during: impl FnOnce() -> T) -> io::Result<T> {
        let process = Pid::from_raw(self.child.id().cast_signed());
        kill(process, Signal::SIGSTOP)?;
        let done = during();
        kill(process, Signal::SIGCONT)?;
        Ok(done)
    }
}

impl Drop for Member {
    fn drop(&mut self) {
        // (one that has ended is killed already)
        let _ = self.child.kill();
        let _ = self.child.wait();
    }
}
