//! What is held while a command runs: a lock, an election, a file that says that somebody is there.

use crate::commands::Asker;
use crate::faults::{Fault, at_making};
use crate::output::{print, print_json, print_sequencer, say};
use crate::running::{Command, Until, run, signals, wait_for};
use crate::words::{Elect, Ending, Hold, LockWords, Output};
use serde_json::json;
use signal_hook::iterator::Signals;
use std::os::unix::ffi::OsStrExt;
use std::time::Duration;
use tillermoss::{Client, Create, Error, Events, Handle, Life, LockMode, Mode, Opening, Refusal, Sequencer, Watch};

/// How long until a file that is there is tried again to be made, where nothing was told of it.
const AGAIN: Duration = Duration::from_secs(1);

/// Waits for the lock of a file, runs the command, and lets the lock go; gives the command's status.
pub fn lock(asker: &Asker<'_>, name: &str, asked: &LockWords) -> Result<u8, Fault> {
    let client = &asker.connect()?;
    let mut signals = signals()?;
    let mode = if asked.shared { LockMode::Shared } else { LockMode::Exclusive };
    let watch = candidate(asker, client, name, asked.ending)?;
    let held = watch.handle;
    let ended = take(asker, client, held, mode, Patience::of(asked.no_wait, asked.ending), &mut signals).and_then(|()| {
        let environment = environment(&client.sequencer(held)?)?;
        let command = Command { words: &asked.command, environment, until: until(asked.ending) };
        run(client, &command, &watch, &mut signals)
    });
    close(client, held);
    ended
}

/// Waits for the lock of a file, writes the value into it, runs the command, empties the file and lets the lock go; gives the
/// command's status.
pub fn elect(asker: &Asker<'_>, name: &str, asked: &Elect) -> Result<u8, Fault> {
    let client = &asker.connect()?;
    let mut signals = signals()?;
    let watch = candidate(asker, client, name, asked.ending)?;
    let held = watch.handle;
    let patience = Patience::of(asked.hold.no_wait, asked.ending);
    let ended = take(asker, client, held, LockMode::Exclusive, patience, &mut signals).and_then(|()| {
        client.set(held, asked.hold.value.as_bytes(), None)?;
        let environment = environment(&client.sequencer(held)?)?;
        announce(asker.output, &asked.hold, "elected", name)?;
        let command = Command { words: &asked.hold.command, environment, until: until(asked.ending) };
        let ended = run(client, &command, &watch, &mut signals);
        if !client.lease_left().is_zero() {
            client.set(held, b"", None)?;
        }
        ended
    });
    close(client, held);
    ended
}

/// Makes a file that goes with this program, runs the command, and deletes the file; gives the command's status.
pub fn register(asker: &Asker<'_>, name: &str, asked: &Hold) -> Result<u8, Fault> {
    let client = &asker.connect()?;
    let mut signals = signals()?;
    let waiting = asker.wait_by(client);
    let watch = make(client, name, asked, &mut signals)?;
    drop(waiting);
    announce(asker.output, asked, "registered", name)?;
    let command = Command { words: &asked.command, environment: Vec::new(), until: Until::Session };
    let ended = run(client, &command, &watch, &mut signals);
    if !client.is_lost() {
        // (one that somebody else deleted is gone already)
        let _ = client.delete(watch.handle);
    }
    close(client, watch.handle);
    ended
}

/// Asks whether the lock of a sequencer is held still, and prints what the sequencer says.
pub fn check(asker: &Asker<'_>, text: &str) -> Result<(), Fault> {
    let bytes = hex::decode(text.trim()).map_err(|_| Fault::Sequencer)?;
    let sequencer = Sequencer::read(&bytes).ok_or(Fault::Sequencer)?;
    asker.connect()?.check_sequencer(&bytes)?;
    Ok(print_sequencer(asker.output, &sequencer)?)
}

// A file that is made where there is none. It stays unless that is asked for: then the generation of its lock goes on.
fn candidate(asker: &Asker<'_>, client: &Client, name: &str, ending: Ending) -> Result<Watch, Fault> {
    let _waiting = asker.wait_by(client);
    let life = if ending.ephemeral { Life::Ephemeral } else { Life::Permanent };
    let file = Create { content: Some(Vec::new()), life, ..Create::default() };
    let opening = Opening { create: Some(file), lock_delay: ending.lock_delay(), ..Opening::new(name, Mode::WRITE) };
    client.watch_with(&opening).map_err(|error| at_making(name, error))
}

fn until(ending: Ending) -> Until {
    if ending.keep_running { Until::Own } else { Until::Lease(Duration::from_secs(ending.grace)) }
}

// What a command under a lock is told of it.
fn environment(bytes: &[u8]) -> Result<Vec<(&'static str, String)>, Error> {
    let sequencer = Sequencer::read(bytes).ok_or_else(|| Error::Malformed("the sequencer".to_owned()))?;
    Ok(vec![
        ("TILLERMOSS_SEQUENCER", hex::encode(bytes)),
        ("TILLERMOSS_FENCING_NUMBER", sequencer.fencing_number().to_string()),
        ("TILLERMOSS_LOCK_GENERATION", sequencer.generation.to_string()),
    ])
}

// Without a command nothing else tells that it begins.
fn announce(output: Output, asked: &Hold, word: &str, name: &str) -> Result<(), Fault> {
    match output {
        _ if !asked.command.is_empty() => {}
        Output::Text => print(format!("{word} {name}").as_bytes())?,
        Output::Json => print_json(&json!({ "event": word, "name": name }))?,
    }
    Ok(())
}

/// How long a lock is waited for.
#[derive(Clone, Copy)]
enum Patience {
    /// Not at all.
    None,
    /// As long as it takes, but no longer than so, where that is said.
    AtMost(Option<Duration>),
}

impl Patience {
    fn of(no_wait: bool, ending: Ending) -> Patience {
        if no_wait { Patience::None } else { Patience::AtMost(ending.timeout.map(Duration::from_secs)) }
    }
}

fn take(asker: &Asker<'_>, client: &Client, held: Handle, mode: LockMode, patience: Patience, signals: &mut Signals) -> Result<(), Fault> {
    let _waiting = asker.wait_by(client);
    match patience {
        Patience::None => Ok(client.try_acquire(held, mode)?),
        Patience::AtMost(most) => wait_for(client, most, signals, || acquire(client, held, mode)),
    }
}

// Where another master came up meanwhile the lock may be held already: then it is let go, and waited for again.
fn acquire(client: &Client, held: Handle, mode: LockMode) -> Result<(), Error> {
    loop {
        match client.acquire(held, mode) {
            Err(Error::Refused(Refusal::Unknown | Refusal::Held(_))) => match client.release(held) {
                Err(Error::Refused(Refusal::NotHolder | Refusal::Unknown)) | Ok(()) => {}
                Err(error) => return Err(error),
            },
            result => return result,
        }
    }
}

// What is closed frees its lock; where the lease has ended nobody would hear of that, and where the session is over, also by the end of
// a wait, nothing is held.
fn close(client: &Client, held: Handle) {
    if client.lease_left().is_zero() {
        return;
    }
    if let Err(error) = client.close(held) {
        say(&format!("letting go: {error}; it is free when the lease has run out"));
    }
}

// Makes the file, and waits while there is one of the name. To have that open would keep it: so its directory is watched.
fn make(client: &Client, name: &str, asked: &Hold, signals: &mut Signals) -> Result<Watch, Fault> {
    let content = asked.value.as_bytes().to_vec();
    let file = Create { must: true, content: Some(content), life: Life::Ephemeral, acl: None };
    let opening = Opening { create: Some(file), ..Opening::new(name, Mode::READ.and(Mode::WRITE)) };
    let mut above = None;
    loop {
        match client.watch_with(&opening) {
            Err(Error::Refused(Refusal::Exists)) if !asked.no_wait => {}
            result => return result.map_err(|error| at_making(name, error)),
        }
        if let Some(signal) = signals.pending().next() {
            return Err(Fault::Signal(signal));
        }
        match &above {
            None => {
                let parent = name.rsplit_once('/').map_or("", |(parent, _)| parent);
                above = Some(client.watch(parent, Events::CHILDREN)?);
            }
            Some(watch) => _ = watch.events.recv_timeout(AGAIN),
        }
    }
}
