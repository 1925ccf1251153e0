//! What happens to a node, as it is printed.

use crate::faults::Fault;
use crate::output::{content, note, print, print_json, say};
use crate::running::{LOOK, signals};
use crate::words::Output;
use serde_json::{Map, Value};
use signal_hook::iterator::Signals;
use std::sync::mpsc::{Receiver, RecvTimeoutError};
use tillermoss::{Client, Error, Event, Events, Kind, Refusal, View, Watch};

/// Prints the content of a file whenever it was written, and the children of a directory that come, go, or are written; until the
/// node is deleted, so many events were printed, or a signal comes. Where two writes come close together the later content may stand for both.
pub fn watch(client: &Client, output: Output, name: &str, prev: bool, count: Option<u64>) -> Result<(), Fault> {
    let mut signals = signals()?;
    let watched = client.watch(name, Events::CONTENTS.and(Events::CHILDREN))?;
    let seen = client.read(watched.handle)?;
    let mut teller = ContentTeller { output, prev, left: count, name: name.to_owned(), seen };
    note(&format!("watching {name}"));
    while teller.left != Some(0) {
        let event = next(&watched.events, &mut signals)?;
        if !teller.tell(client, &watched, event)? {
            break;
        }
    }
    Ok(())
}

fn next(events: &Receiver<Event>, signals: &mut Signals) -> Result<Event, Fault> {
    loop {
        if let Some(signal) = signals.pending().next() {
            return Err(Fault::Signal(signal));
        }
        match events.recv_timeout(LOOK) {
            Ok(event) => return Ok(event),
            Err(RecvTimeoutError::Timeout) => {}
            Err(RecvTimeoutError::Disconnected) => return Err(Refusal::SessionExpired.into()),
        }
    }
}

/// What was printed of a node, and how more is.
struct ContentTeller {
    output: Output,
    prev: bool,
    left: Option<u64>,
    name: String,
    seen: View,
}

impl ContentTeller {
    // Whether the node is still there.
    fn tell(&mut self, client: &Client, watched: &Watch, event: Event) -> Result<bool, Fault> {
        match event {
            Event::Contents { generation, .. } if generation <= self.seen.stat.content_generation => {}
            Event::Contents { .. } | Event::Failover | Event::Lost => return self.read(client, watched),
            Event::ChildAdded(child) => self.print("ADDED", &child, None)?,
            Event::ChildRemoved(child) => self.print("REMOVED", &child, None)?,
            Event::ChildModified(child) => self.print("MODIFIED", &child, None)?,
            Event::Invalid => return self.gone(),
            Event::Jeopardy => say("the lease has ended: nothing is heard of the cell"),
            Event::Safe => say("the session is safe again"),
            _ => {}
        }
        Ok(true)
    }

    fn gone(&mut self) -> Result<bool, Fault> {
        let name = self.name.clone();
        self.print("DELETE", &name, None)?;
        Ok(false)
    }

    // The content, where it is later than what was seen.
    fn read(&mut self, client: &Client, watched: &Watch) -> Result<bool, Fault> {
        let view = match client.read(watched.handle) {
            Err(Error::Refused(Refusal::StaleInstance)) => return self.gone(),
            result => result?,
        };
        if view.stat.kind == Kind::File && view.stat.content_generation > self.seen.stat.content_generation {
            let name = self.name.clone();
            self.print("PUT", &name, Some(&view))?;
        }
        self.seen = view;
        Ok(true)
    }

    fn print(&mut self, word: &str, name: &str, view: Option<&View>) -> Result<(), Fault> {
        self.left = self.left.map(|left| left.saturating_sub(1));
        match self.output {
            Output::Text => self.print_text(word, name, view),
            Output::Json => self.print_json(word, name, view),
        }
    }

    fn print_text(&self, word: &str, name: &str, view: Option<&View>) -> Result<(), Fault> {
        print(format!("{word} {name}").as_bytes())?;
        if let Some(view) = view {
            if self.prev {
                print(&self.seen.content)?;
            }
            print(&view.content)?;
        }
        Ok(())
    }

    fn print_json(&self, word: &str, name: &str, view: Option<&View>) -> Result<(), Fault> {
        let mut line = Map::new();
        line.insert("event".to_owned(), word.to_lowercase().into());
        line.insert("name".to_owned(), name.into());
        if let Some(view) = view {
            content(&mut line, &view.content);
            line.insert("content_generation".to_owned(), view.stat.content_generation.into());
            if self.prev {
                let mut before = Map::new();
                content(&mut before, &self.seen.content);
                before.insert("content_generation".to_owned(), self.seen.stat.content_generation.into());
                line.insert("previous".to_owned(), Value::Object(before));
            }
        }
        Ok(print_json(&Value::Object(line))?)
    }
}
