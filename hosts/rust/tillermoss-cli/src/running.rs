//! A command that runs while something is held, and the signals that come meanwhile.

use crate::faults::Fault;
use crate::output::say;
use nix::sys::signal::{Signal, kill, killpg};
use nix::time::{ClockId, clock_gettime};
use nix::unistd::{Pid, getpgrp, tcgetpgrp};
use signal_hook::consts::{SIGHUP, SIGINT, SIGKILL, SIGTERM};
use signal_hook::iterator::Signals;
use std::ffi::{OsStr, OsString};
use std::io::{self, IsTerminal};
use std::os::unix::process::{CommandExt, ExitStatusExt};
use std::process::{self, Child, ExitStatus};
use std::sync::atomic::{AtomicBool, Ordering};
use std::sync::mpsc::TryRecvError;
use std::thread;
use std::time::{Duration, Instant};
use tillermoss::{Client, Error, Event, Refusal, Watch};

/// The time between two looks at the command, the session and the signals.
pub const LOOK: Duration = Duration::from_millis(20);

/// How long a command has to end after SIGTERM where the session is lost.
const LAST: Duration = Duration::from_secs(2);

/// The signals that end what is held, or are passed on to the command.
pub fn signals() -> Result<Signals, Fault> {
    Ok(Signals::new([SIGTERM, SIGINT, SIGHUP])?)
}

/// Asks for what has to be waited for, and for so long at most, where that is said. A signal that comes meanwhile, or the end of that
/// time, ends the wait, and the session with it.
pub fn wait_for<T>(
    client: &Client,
    most: Option<Duration>,
    signals: &mut Signals,
    ask: impl FnOnce() -> Result<T, Error>,
) -> Result<T, Fault> {
    let is_done = AtomicBool::new(false);
    thread::scope(|scope| {
        let waiting = scope.spawn(|| stop_waiting(client, most, signals, &is_done));
        let result = ask();
        is_done.store(true, Ordering::SeqCst);
        match waiting.join() {
            Ok(Some(fault)) => Err(fault),
            _ => Ok(result?),
        }
    })
}

fn stop_waiting(client: &Client, most: Option<Duration>, signals: &mut Signals, is_done: &AtomicBool) -> Option<Fault> {
    let begun = Instant::now();
    while !is_done.load(Ordering::SeqCst) {
        let is_late = most.is_some_and(|most| begun.elapsed() >= most);
        if let Some(fault) = signals.pending().next().map(Fault::Signal).or(is_late.then_some(Fault::Late)) {
            // (where no master answers, the cell knows of the wait until the lease has run out)
            let _ = client.give_up();
            return Some(fault);
        }
        thread::sleep(LOOK);
    }
    None
}

/// A command, and what it runs under.
pub struct Command<'a> {
    /// Its program and its words; none where nothing is to be run.
    pub words: &'a [OsString],
    /// What stands in its environment besides.
    pub environment: Vec<(&'static str, String)>,
    /// How long it may run.
    pub until: Until,
}

/// How long a command may run.
#[derive(Clone, Copy, Debug, PartialEq, Eq)]
pub enum Until {
    /// As long as the lease runs. Then it has so long to end after SIGTERM.
    Lease(Duration),
    /// Until the session is lost.
    Session,
    /// To its own end.
    Own,
}

/// Runs the command to its end, and passes the signals on to it; without a command, waits for a signal. Gives the status. If it may
/// run no longer it is ended.
pub fn run(client: &Client, command: &Command<'_>, watch: &Watch, signals: &mut Signals) -> Result<u8, Fault> {
    let mut held = Held { client, watch, until: command.until, is_told: false };
    match command.words.split_first() {
        Some((program, words)) => {
            let told = |error| Fault::Command(program.to_string_lossy().into_owned(), error);
            let running = Running::start(program, words, &command.environment).map_err(told)?;
            follow(running, &mut held, signals).map_err(|end| end.fault(program))
        }
        None => hold(&mut held, signals),
    }
}

/// Why a command that ran gives no status.
enum Ended {
    Io(io::Error),
    Cell(Fault),
}

impl Ended {
    fn fault(self, program: &OsStr) -> Fault {
        match self {
            Ended::Io(error) => Fault::Command(program.to_string_lossy().into_owned(), error),
            Ended::Cell(fault) => fault,
        }
    }
}

impl From<io::Error> for Ended {
    fn from(error: io::Error) -> Ended {
        Ended::Io(error)
    }
}

fn follow(mut running: Running, held: &mut Held<'_>, signals: &mut Signals) -> Result<u8, Ended> {
    loop {
        if let Some(status) = running.child.try_wait()? {
            return Ok(status_of(status));
        }
        for signal in signals.pending() {
            running.pass_on(signal);
        }
        if let Some(over) = held.over() {
            say(&format!("{}: the command gets SIGTERM, and SIGKILL in {} s", over.reason(), held.grace().as_secs()));
            running.end(held.grace())?;
            say(&format!("{}: the command was ended, because what it held may be another's", over.reason()));
            return Err(Ended::Cell(over));
        }
        thread::sleep(LOOK);
    }
}

fn hold(held: &mut Held<'_>, signals: &mut Signals) -> Result<u8, Fault> {
    while signals.pending().next().is_none() {
        // (without a command nothing of this program's runs on where the session is lost)
        if let Some(over) = held.over().or_else(|| held.client.is_lost().then(|| Refusal::SessionExpired.into())) {
            return Err(over);
        }
        thread::sleep(LOOK);
    }
    Ok(0)
}

/// What is held while a command runs.
struct Held<'a> {
    client: &'a Client,
    watch: &'a Watch,
    until: Until,
    is_told: bool,
}

impl Held<'_> {
    // Why the command may run no longer, where that is so. The lease is looked at by the clock, before anything is heard of its end.
    fn over(&mut self) -> Option<Fault> {
        let is_lost = self.is_lost();
        match self.until {
            Until::Lease(_) if !is_lost && self.client.lease_left().is_zero() => Some(Fault::Lease),
            Until::Lease(_) | Until::Session if is_lost => Some(Refusal::SessionExpired.into()),
            Until::Own if is_lost && !self.is_told => {
                self.is_told = true;
                say("the session is lost: the command runs on, and what it held may be another's");
                None
            }
            _ => None,
        }
    }

    fn grace(&self) -> Duration {
        match self.until {
            Until::Lease(grace) => grace,
            Until::Session | Until::Own => LAST,
        }
    }

    // The events of a session that is lost end.
    fn is_lost(&self) -> bool {
        loop {
            match self.watch.events.try_recv() {
                Err(TryRecvError::Disconnected) => return true,
                Err(TryRecvError::Empty) => return false,
                Ok(Event::Jeopardy) if self.until == Until::Own => say("the lease has ended: what is held may be another's"),
                Ok(Event::Jeopardy) if self.until == Until::Session => say("the lease has ended: what is held may be lost"),
                Ok(Event::Safe) => say("the session is safe again"),
                Ok(_) => {}
            }
        }
    }
}

/// A command that runs. If the standard input is no terminal it has a group of processes of its own: all that it started gets the
/// signals. At a terminal it stays in this program's group, which the terminal's keys reach; it gets the signals alone.
struct Running {
    child: Child,
    has_group: bool,
}

impl Running {
    fn start(program: &OsStr, words: &[OsString], environment: &[(&'static str, String)]) -> io::Result<Running> {
        let has_group = !io::stdin().is_terminal();
        let mut command = process::Command::new(program);
        command.args(words).envs(environment.iter().map(|(name, value)| (name, value)));
        if has_group {
            command.process_group(0);
        }
        Ok(Running { child: command.spawn()?, has_group })
    }

    // A terminal sends its interrupts to the command by itself.
    fn pass_on(&self, signal: i32) {
        let is_terminals = signal == SIGINT && !self.has_group && tcgetpgrp(0).is_ok_and(|group| group == getpgrp());
        if !is_terminals {
            self.send(signal);
        }
    }

    // (to what has ended, and wasn't waited for yet, it does nothing)
    fn send(&self, signal: i32) {
        if let (Ok(process), Ok(signal)) = (i32::try_from(self.child.id()), Signal::try_from(signal)) {
            let process = Pid::from_raw(process);
            let _ = if self.has_group { killpg(process, signal) } else { kill(process, signal) };
        }
    }

    // Asks the command to end, and where it hasn't in time, ends it; it has ended then. The processes that it leaves in its group are
    // ended with it.
    fn end(&mut self, grace: Duration) -> io::Result<()> {
        self.send(SIGTERM);
        let begun = since_start()?;
        while self.child.try_wait()?.is_none() {
            if since_start()?.saturating_sub(begun) >= grace {
                self.send(SIGKILL);
                self.child.wait()?;
                return Ok(());
            }
            thread::sleep(LOOK);
        }
        self.send(SIGKILL);
        Ok(())
    }
}

// The clock by which a lease is counted: it goes on while the machine sleeps.
fn since_start() -> io::Result<Duration> {
    Ok(Duration::from(clock_gettime(ClockId::CLOCK_BOOTTIME)?))
}

// That of a command which a signal ended is 128 and the signal's number, as a shell has it.
fn status_of(status: ExitStatus) -> u8 {
    let code = status.code().or_else(|| status.signal().map(|signal| 128 + signal));
    code.and_then(|code| u8::try_from(code).ok()).unwrap_or(1)
}

#[cfg(test)]
mod tests {
    use super::*;

    #[test]
    fn a_command_ends_as_a_shell_tells_it() {
        for (raw, wanted) in [(0, 0), (7 << 8, 7), (9, 137), (15, 143)] {
            assert_eq!(status_of(ExitStatus::from_raw(raw)), wanted, "{raw}");
        }
    }
}
