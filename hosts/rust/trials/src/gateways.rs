//! Gateways as processes, and what is asked of them by curl.

use crate::servers::program;
use nix::sys::signal::{Signal, kill};
use nix::unistd::Pid;
use std::fs::{self, File};
use std::io::{self, BufRead, BufReader};
use std::path::{Path, PathBuf};
use std::process::{Child, Command, ExitStatus, Stdio};

/// A gateway that runs.
#[derive(Debug)]
pub struct GatewayProcess {
    child: Child,
    /// Where it listens first, as it said.
    pub address: String,
    log: PathBuf,
}

/// What curl was answered.
#[derive(Clone, Debug, Default, PartialEq, Eq)]
pub struct Answered {
    /// The status; 0 where no answer came.
    pub status: u16,
    /// The lines of the head, in lower case.
    pub head: String,
    /// The body.
    pub body: String,
}

impl GatewayProcess {
    /// Starts one with these words, which logs into this folder, and waits until it listens.
    ///
    /// # Errors
    ///
    /// If it can't be started, or ends first: then what it logged is told.
    pub fn start(folder: &Path, words: &[&str]) -> io::Result<GatewayProcess> {
        let log = folder.join("gateway.log");
        let out = File::options().create(true).append(true).open(&log)?;
        let mut child = Command::new(program("tillermoss-gateway")).args(words).stdout(Stdio::piped()).stderr(out).spawn()?;
        let lines = child.stdout.take().map(|out| BufReader::new(out).lines()).into_iter().flatten();
        let address = lines.map_while(Result::ok).find_map(|line| line.strip_prefix("listening ").map(str::to_owned));
        match address {
            Some(address) => Ok(GatewayProcess { child, address, log }),
            None => {
                child.wait()?;
                Err(io::Error::other(format!("the gateway didn't come up: {}", fs::read_to_string(log)?)))
            }
        }
    }

    /// The address without its kind.
    ///
    /// # Panics
    ///
    /// If it has no kind.
    #[must_use]
    pub fn place(&self) -> &str {
        self.address.split_once(':').expect("an address has a kind").1
    }

    /// What it logged.
    ///
    /// # Panics
    ///
    /// If that can't be read.
    #[must_use]
    pub fn logged(&self) -> String {
        fs::read_to_string(&self.log).expect("the log can be read")
    }

    /// Sends it a signal.
    ///
    /// # Errors
    ///
    /// If it is gone.
    pub fn signal(&self, signal: Signal) -> io::Result<()> {
        Ok(kill(Pid::from_raw(self.child.id().cast_signed()), signal)?)
    }

    /// Ends it in order; how it ended.
    ///
    /// # Errors
    ///
    /// If it is gone.
    pub fn end(&mut self) -> io::Result<ExitStatus> {
        self.signal(Signal::SIGTERM)?;
        self.child.wait()
    }
}

impl Drop for GatewayProcess {
    fn drop(&mut self) {
        // (one that has ended is killed already)
        let _ = self.child.kill();
        let _ = self.child.wait();
    }
}

/// Asks by curl, with these words, for 30 s at most.
///
/// # Panics
///
/// If there is no curl.
#[must_use]
pub fn curl(words: &[&str]) -> Answered {
    let told = Command::new("curl").args(["-s", "-i", "--max-time", "30"]).args(words).output().expect("curl is there");
    let text = String::from_utf8_lossy(&told.stdout).into_owned();
    // (after a 100 Continue stands the answer)
    let text = text.strip_prefix("HTTP/1.1 100 Continue\r\n\r\n").unwrap_or(&text);
    let (head, body) = text.split_once("\r\n\r\n").unwrap_or((text, ""));
    let status = head.split(' ').nth(1).and_then(|word| word.parse().ok()).unwrap_or(0);
    Answered { status, head: head.to_lowercase(), body: body.to_owned() }
}

impl Answered {
    /// The value of a line of its head.
    #[must_use]
    pub fn header(&self, name: &str) -> Option<&str> {
        self.head.lines().find_map(|line| line.strip_prefix(name)?.strip_prefix(": "))
    }
}
