//! What clients notice of a master that is killed.

use crate::cell::Kill;
use crate::counts::{Counts, KINDS, Times};
use std::collections::HashSet;

/// One, from the kill until all that was there is heard of again. Moments are milliseconds since the kill.
#[derive(Debug)]
pub struct FailOver {
    pub kind: Kill,
    pub at: u64,
    /// Clients that had a session and weren't answered by the next master yet.
    pub unheard: HashSet<u32>,
    /// Clients with a call that was asked for before all were heard of, and has no reply yet.
    pub waiting: HashSet<u32>,
    pub up: Option<u64>,
    heard: Vec<u32>,
    first_call: Option<u64>,
    last_call: Option<u64>,
    pub jeopardies: u64,
    pub lost: u64,
    pub counts: Counts,
    /// Connections that were begun, and that were turned away or got lost.
    pub connections: (u64, u64),
    clients: usize,
}

impl FailOver {
    pub fn new(kind: Kill, at: u64, clients: HashSet<u32>, waiting: HashSet<u32>) -> FailOver {
        FailOver {
            kind,
            at,
            clients: clients.len(),
            unheard: clients,
            waiting,
            up: None,
            heard: Vec::new(),
            first_call: None,
            last_call: None,
            jeopardies: 0,
            lost: 0,
            counts: Counts::default(),
            connections: (0, 0),
        }
    }

    /// The next master said something.
    pub fn is_up(&mut self, now: u64) {
        self.up.get_or_insert(now - self.at);
    }

    /// A client has a lease of the next master.
    pub fn heard(&mut self, slot: u32, now: u64) {
        if self.unheard.remove(&slot) {
            self.heard.push((now - self.at) as u32 * 1000);
        }
    }

    /// A client goes by itself.
    pub fn forget(&mut self, slot: u32) {
        self.unheard.remove(&slot);
        self.waiting.remove(&slot);
    }

    /// A call has its reply; whether it is a change that waited for the recovery.
    pub fn answered(&mut self, slot: u32, now: u64) {
        self.first_call.get_or_insert(now - self.at);
        if self.waiting.remove(&slot) {
            self.last_call = Some(now - self.at);
        }
    }

    pub fn is_over(&self) -> bool {
        self.unheard.is_empty() && self.waiting.is_empty() && self.first_call.is_some()
    }

    /// What is told of it.
    pub fn text(&self) -> String {
        let seconds = |moment: Option<u64>| moment.map_or("never".to_owned(), |ms| format!("{:.2} s", ms as f64 / 1000.0));
        let heard = Times::of(self.heard.clone());
        let [half, most, all] = [0.5, 0.99, 1.0].map(|part| heard.at(part) / 1000.0);
        let sent: Vec<String> =
            KINDS.iter().zip(self.counts.sent).filter(|(_, count)| *count > 0).map(|(kind, count)| format!("{count} {kind}")).collect();
        format!(
            "fail-over {:?} at {} s: master heard {}, {} of {} clients answered (half {half:.2} s, 99 % {most:.2} s, all {all:.2} s), first call {}, last call {}, jeopardies {}, lost {}, connections {} begun {} lost; sent {}; told {}; unheard {}, calls without a reply {}",
            self.kind,
            self.at / 1000,
            seconds(self.up),
            heard.count(),
            self.clients,
            seconds(self.first_call),
            seconds(self.last_call),
            self.jeopardies,
            self.lost,
            self.connections.0,
            self.connections.1,
            sent.join(", "),
            self.counts.told,
            self.unheard.len(),
            self.waiting.len(),
        )
    }
}
