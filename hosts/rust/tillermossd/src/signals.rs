//! The signals that a server heeds, from its start to its end, and how long that end may take.

use crate::admin::processes;
use nix::sys::signal::{Signal, kill};
use nix::unistd::Pid;
use sd_notify::NotifyState;
use signal_hook::consts::{SIGINT, SIGTERM};
use signal_hook::iterator::Signals as Told;
use std::future::pending;
use std::io;
use std::process;
use std::sync::mpsc;
use std::thread;
use std::time::Duration;
use tokio::signal::unix::{self, SignalKind};
use tokio::sync::watch;
use tracing::{error, info};

/// How long the end may take, from the first signal on, whatever the server waits for: its master, etcd, a disk. It is above the 10 s that
/// a master has to go, and below the unit's TimeoutStopSec.
const END: Duration = Duration::from_secs(15);

/// How long the last line of the log may take: whoever reads the log may have stopped.
const LAST_LINE: Duration = Duration::from_secs(1);

/// The signals that a server heeds.
pub struct Signals {
    /// Those by which it is told to go.
    pub going: Going,
    /// By which it reads its files again.
    pub hangup: unix::Signal,
}

/// Whether it was told to go.
pub struct Going(watch::Receiver<bool>);

impl Signals {
    /// From here on they are heeded. Those by which the server is told to go come to a thread of their own, which waits for no other.
    pub fn take() -> io::Result<Signals> {
        let hangup = unix::signal(SignalKind::hangup())?;
        let (tell, told) = watch::channel(false);
        let mut signals = Told::new([SIGTERM, SIGINT])?;
        thread::spawn(move || {
            for (earlier, _) in signals.forever().enumerate() {
                if earlier > 0 {
                    end_at_once("it was told to go once more");
                }
                thread::spawn(|| {
                    thread::sleep(END);
                    end_at_once("its end took too long");
                });
                tell.send_replace(true);
            }
        });
        Ok(Signals { going: Going(told), hangup })
    }
}

impl Going {
    /// Waits until it is told to go, for the first time.
    pub async fn wait(&mut self) {
        // (who tells ends with the process)
        if self.0.changed().await.is_err() {
            pending().await
        }
        info!("going");
        // (where no service manager waits for it nothing is told)
        let _ = sd_notify::notify(false, &[NotifyState::Stopping]);
    }

    /// Whether it was.
    pub fn is_told(&self) -> bool {
        *self.0.borrow()
    }
}

// Ends the server, whatever its threads do, and kills its master. (Its guard gives a mastership back.)
fn end_at_once(reason: &'static str) -> ! {
    let (note, noted) = mpsc::channel();
    thread::spawn(move || {
        error!(reason, "the server ends at once");
        note.send(())
    });
    let _ = noted.recv_timeout(LAST_LINE);
    // (after the line: whoever waits for the master ends the server, too)
    if let Some(master) = processes::master().and_then(|master| master.parse().ok()) {
        // (one that is gone can't be killed)
        let _ = kill(Pid::from_raw(master), Signal::SIGKILL);
    }
    process::exit(1)
}

#[cfg(test)]
mod tests {
    use super::*;

    #[test]
    fn the_unit_waits_for_the_end() {
        let unit = include_str!("../tillermossd.service");
        let seconds = unit.lines().find_map(|line| line.strip_prefix("TimeoutStopSec=")).unwrap().parse().unwrap();
        assert!(END + LAST_LINE < Duration::from_secs(seconds));
    }
}
