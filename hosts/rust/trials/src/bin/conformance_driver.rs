//! Does with the client in Rust what hosts/conformance/play says, as its text has it; each line by a thread of its own, while others last.

use std::collections::HashMap;
use std::io::{self, BufRead, Write};
use std::sync::mpsc::Receiver;
use std::sync::{Arc, Mutex, MutexGuard, PoisonError};
use std::thread;
use std::time::Duration;
use tillermoss::{Client, Error, Event, Events, Handle, Mode, Opening, Options};

/// The client, where it is connected, and what is open by which word.
#[derive(Default)]
struct Driver {
    client: Mutex<Option<Arc<Client>>>,
    handles: Mutex<HashMap<String, Handle>>,
    // (the client's own events come by each handle that is watched: by the first one they are told)
    events: Mutex<Option<Receiver<Event>>>,
}

fn lock<T>(mutex: &Mutex<T>) -> MutexGuard<'_, T> {
    mutex.lock().unwrap_or_else(PoisonError::into_inner)
}

fn bytes(text: &str) -> Option<Vec<u8>> {
    (0..text.len()).step_by(2).map(|at| u8::from_str_radix(text.get(at..at + 2)?, 16).ok()).collect()
}

fn hex(bytes: &[u8]) -> String {
    bytes.iter().map(|byte| format!("{byte:02x}")).collect()
}

fn name_of(event: &Event) -> &'static str {
    match event {
        Event::Contents { .. } => "contents",
        Event::ChildAdded(_) => "child-added",
        Event::ChildRemoved(_) => "child-removed",
        Event::ChildModified(_) => "child-modified",
        Event::Invalid => "invalid",
        Event::Locked => "locked",
        Event::Conflict => "conflict",
        Event::Failover => "failover",
        Event::Lost => "lost",
        Event::Jeopardy => "jeopardy",
        Event::Safe => "safe",
    }
}

impl Driver {
    fn client(&self) -> Result<Arc<Client>, Error> {
        lock(&self.client).clone().ok_or(Error::Closed)
    }

    fn handle(&self, word: &str) -> Result<Handle, Error> {
        lock(&self.handles).get(word).copied().ok_or_else(|| Error::Malformed(format!("{word} isn't open")))
    }

    fn said(&self, words: &[&str]) -> String {
        match self.done(words) {
            Ok(said) => said,
            Err(error) => error.refusal().map_or_else(|| format!("closed {error}"), |refusal| format!("refused {}", refusal.number())),
        }
    }

    fn done(&self, words: &[&str]) -> Result<String, Error> {
        let not_understood = || Error::Malformed(words.join(" "));
        match words {
            ["connect", address, patience] => {
                let patience = Duration::from_millis(patience.parse().map_err(|_| not_understood())?);
                let client = Client::connect(&Options { patience, ..Options::new(address, "ann") })?;
                *lock(&self.client) = Some(Arc::new(client));
                Ok("connected".to_owned())
            }
            ["open", word, name] => {
                let watch =
                    self.client()?.watch_with(&Opening { events: Events::NONE, ..Opening::new(name, Mode::READ.and(Mode::WRITE)) })?;
                lock(&self.handles).insert((*word).to_owned(), watch.handle);
                lock(&self.events).get_or_insert(watch.events);
                // (a handle doesn't show its node's instance)
                Ok("opened".to_owned())
            }
            ["read", word] => {
                let view = self.client()?.read(self.handle(word)?)?;
                Ok(format!("view {} {}", hex(&view.content), if view.is_served { "cache" } else { "master" }))
            }
            ["set", word, content] => {
                self.client()?.set(self.handle(word)?, &bytes(content).ok_or_else(not_understood)?, None)?;
                Ok("done".to_owned())
            }
            ["event"] => {
                let events = lock(&self.events);
                // (those of a session that is lost end)
                let event = events.as_ref().ok_or_else(not_understood)?.recv();
                Ok(format!("event {}", event.as_ref().map_or("lost", name_of)))
            }
            ["leave"] => {
                let client = lock(&self.client).take().and_then(Arc::into_inner).ok_or(Error::Closed)?;
                client.leave()?;
                Ok("left".to_owned())
            }
            _ => Err(not_understood()),
        }
    }
}

fn main() -> io::Result<()> {
    let driver = Arc::new(Driver::default());
    for line in io::stdin().lock().lines() {
        let (line, driver) = (line?, driver.clone());
        thread::spawn(move || {
            let words: Vec<&str> = line.split(' ').collect();
            if let Some((label, words)) = words.split_first() {
                // (where nobody hears it any more, the driver is told to end)
                let _ = writeln!(io::stdout(), "{label} {}", driver.said(words));
            }
        });
    }
    Ok(())
}
