//! All clients of the table, by events: what is due and what comes, one after the other, in one thread.

use crate::cell::{Cell, principal};
use crate::client::{Asked, Client, Ended, Heard, NoSession, Phase, Step};
use crate::counts::{Counts, kind};
use crate::fail_overs::FailOver;
use crate::links::{Came, Link, State};
use crate::names::{Names, Range};
use crate::table::Table;
use crate::wire::{self, BUSY, EXISTS, NOT_FOUND, Outcome, RECOVERING, Said, Welcome};
use anyhow::Result;
use mio::{Events, Poll};
use rand::Rng;
use rand::rngs::SmallRng;
use std::cmp::Reverse;
use std::collections::BinaryHeap;
use std::time::{Duration, Instant};

/// So many connections are made at once where nothing was there before.
const GREETINGS: usize = 256;

/// How long it is waited for the next try to connect, at first and at most; each time twice as long, of which a random half at least.
const PAUSES: (u64, u64) = (20, 500);

/// Of all that goes wrong in one way so many are told of.
const TOLD: u64 = 20;

/// A refusal: the node of the handle was deleted.
const STALE: u8 = 14;

/// What has gone so far.
#[derive(Clone, Copy, Debug, Default)]
pub struct Totals {
    /// What was read or cached and was never written, or not any more.
    pub wrong: u64,
    pub jeopardies: u64,
    pub lost: u64,
    /// Clients that a master which was killed began a session for, and that never heard of it: each waited for the end of that.
    pub unbegun: u64,
    /// Sessions that began, calls that were refused for now, and calls that were refused otherwise.
    pub begun: u64,
    pub put_off: u64,
    pub refused: u64,
    pub turned_away: u64,
    /// Answers out of caches that were tested.
    pub hits: u64,
}

/// The load.
pub struct Load {
    pub table: Table,
    pub names: Names,
    pub cell: Cell,
    pub clients: Vec<Client>,
    links: Vec<Link>,
    timers: BinaryHeap<Reverse<(u64, u32)>>,
    wakes: Vec<u64>,
    poll: Poll,
    pub random: SmallRng,
    pub begun: Instant,
    pub now: u64,
    pub counts: Counts,
    pub totals: Totals,
    pub fail_over: Option<FailOver>,
    /// What left caches, by client and name, and whether another master came up.
    pub forgotten: Vec<(u32, u32, bool)>,
    /// The times of calls of these clients are kept apart.
    pub apart: Vec<(u32, Step, Duration)>,
    pub is_spread: bool,
    unconnected: Vec<u32>,
    greeting: usize,
    room: Vec<u8>,
}

impl Load {
    pub fn new(table: Table, names: Names, cell: Cell, random: SmallRng, is_spread: bool) -> Result<Load> {
        let count = table.clients;
        Ok(Load {
            table,
            names,
            cell,
            clients: (0..count).map(|slot| Client::new(principal(slot))).collect(),
            links: (0..count).map(|_| Link::new()).collect(),
            timers: BinaryHeap::new(),
            wakes: vec![u64::MAX; count],
            poll: Poll::new()?,
            random,
            begun: Instant::now(),
            now: 0,
            counts: Counts::default(),
            totals: Totals::default(),
            fail_over: None,
            forgotten: Vec::new(),
            apart: Vec::new(),
            is_spread,
            unconnected: (0..count as u32).rev().collect(),
            greeting: 0,
            room: Vec::new(),
        })
    }

    /// What is due and what comes, for so many milliseconds at most.
    pub fn turn(&mut self, events: &mut Events, most: u64) -> Result<()> {
        self.now = self.begun.elapsed().as_millis() as u64;
        let due = self.timers.peek().map_or(most, |Reverse((at, _))| at.saturating_sub(self.now).min(most));
        match self.poll.poll(events, Some(Duration::from_millis(due))) {
            Err(error) if error.kind() == std::io::ErrorKind::Interrupted => {}
            polled => polled?,
        }
        for event in events.iter() {
            self.now = self.begun.elapsed().as_millis() as u64;
            self.event(event.token().0, event.is_writable());
        }
        self.now = self.begun.elapsed().as_millis() as u64;
        while let Some(Reverse((at, slot))) = self.timers.peek().copied().filter(|Reverse((at, _))| *at <= self.now) {
            self.timers.pop();
            if self.wakes[slot as usize] == at {
                self.wakes[slot as usize] = u64::MAX;
                self.go_on(slot as usize);
            }
        }
        while self.greeting < GREETINGS
            && let Some(slot) = self.unconnected.pop()
        {
            self.greeting += 1;
            self.connect(slot as usize);
        }
        Ok(())
    }

    /// Those with a session, of which these are in jeopardy.
    pub fn sessions(&self) -> (usize, usize) {
        let has = |is: fn(&Phase) -> bool| self.clients.iter().filter(|client| is(&client.phase)).count();
        (has(|phase| matches!(phase, Phase::Live | Phase::Jeopardy(_))), has(|phase| matches!(phase, Phase::Jeopardy(_))))
    }

    pub fn connected(&self) -> usize {
        self.links.iter().filter(|link| link.state == State::Bound).count()
    }

    fn wrong(&mut self, words: &str) {
        self.totals.wrong += 1;
        if self.totals.wrong <= TOLD {
            println!("WRONG at {} ms: {words}", self.now);
        }
    }

    // Looks at a client again at this moment.
    fn wake(&mut self, slot: usize, at: u64) {
        if at < self.wakes[slot] {
            self.wakes[slot] = at;
            self.timers.push(Reverse((at, slot as u32)));
        }
    }

    fn connect(&mut self, slot: usize) {
        let client = &self.clients[slot];
        let hello = wire::hello(&client.principal, client.known);
        if let Some(over) = &mut self.fail_over {
            over.connections.0 += 1;
        }
        let made = self.links[slot].connect(self.poll.registry(), slot, &self.cell.places, hello, self.now);
        if made.is_err() {
            self.is_gone(slot);
        }
    }

    // The connection is gone: another is tried a little later, at the next server where there are several.
    fn is_gone(&mut self, slot: usize) {
        let link = &mut self.links[slot];
        if link.state == State::Greeting {
            self.greeting = self.greeting.saturating_sub(1);
        }
        if let Some(over) = &mut self.fail_over {
            over.connections.1 += 1;
        }
        link.end();
        link.place += 1;
        link.pause = if link.pause == 0 { PAUSES.0 } else { (2 * link.pause).min(PAUSES.1) };
        let pause = link.pause;
        let wait = if self.is_spread { self.random.gen_range(pause / 2..=pause) } else { pause };
        self.links[slot].retry = self.now + wait;
        self.go_on(slot);
    }

    fn event(&mut self, slot: usize, is_writable: bool) {
        if self.links[slot].state == State::Down {
            return;
        }
        let mut room = std::mem::take(&mut self.room);
        let came = self.links[slot].receive(&mut room);
        self.room = room;
        let (blocks, mut goes_on) = match came {
            Came::Blocks(blocks) => (blocks, true),
            Came::Gone(blocks) => (blocks, false),
        };
        for block in blocks {
            match self.links[slot].state {
                State::Bound => self.hear(slot, &block),
                State::Greeting => self.welcome(slot, &block),
                State::Down => return,
            }
        }
        if goes_on && is_writable && self.links[slot].state != State::Down {
            goes_on = self.links[slot].flush();
        }
        if !goes_on && self.links[slot].state != State::Down {
            self.is_gone(slot);
        } else {
            self.go_on(slot);
        }
    }

    fn welcome(&mut self, slot: usize, block: &[u8]) {
        match Link::welcome(block) {
            Ok(Welcome::Bound { client, token }) => {
                self.greeting = self.greeting.saturating_sub(1);
                let link = &mut self.links[slot];
                (link.state, link.pause) = (State::Bound, 0);
                self.clients[slot].known = Some((client, token));
                // (what was on its way over the last one may be lost)
                self.clients[slot].due = self.now;
                self.send_again(slot);
            }
            Ok(Welcome::NotMaster(master)) => {
                self.is_gone(slot);
                let told = master.strip_prefix("tcp:").and_then(|place| place.parse().ok());
                if let Some(at) = told.and_then(|told| self.cell.places.iter().position(|place| *place == told)) {
                    self.links[slot].place = at;
                }
            }
            Ok(Welcome::TurnedAway(2)) => self.lose(slot, "its token isn't known"),
            _ => {
                self.totals.turned_away += 1;
                self.is_gone(slot);
            }
        }
    }

    fn send_again(&mut self, slot: usize) {
        if let Some(call) = self.clients[slot].again() {
            self.counts.sent[self.clients[slot].asked.as_ref().map_or(0, |asked| kind(asked.step))] += 1;
            self.links[slot].send(call);
        }
    }

    // The session is over without a Leave: the client begins anew, with nothing.
    fn lose(&mut self, slot: usize, why: &str) {
        self.totals.lost += 1;
        if self.totals.lost <= TOLD {
            println!("LOST at {} ms: client {:?} of slot {slot}: {why}: {:?}", self.now, self.clients[slot].known, self.clients[slot].past);
        }
        if let Some(over) = &mut self.fail_over {
            over.lost += 1;
        }
        self.begin_anew(slot);
    }

    /// Another client takes the place of this one.
    pub fn begin_anew(&mut self, slot: usize) {
        if let Some(over) = &mut self.fail_over {
            over.forget(slot as u32);
        }
        let steps = self.clients[slot].asked.take().map(|asked| asked.step).into_iter().chain(self.clients[slot].plan.drain(..));
        let changed: Vec<u32> =
            steps.filter(|step| matches!(step, Step::Set(_) | Step::Make(_) | Step::Delete(_))).filter_map(Step::name).collect();
        changed.into_iter().for_each(|name| self.names.leave(name));
        if self.links[slot].state == State::Greeting {
            self.greeting = self.greeting.saturating_sub(1);
        }
        self.links[slot].end();
        self.clients[slot] = Client::new(principal(slot));
        self.links[slot].retry = self.now;
        self.wake(slot, self.now);
    }

    fn hear(&mut self, slot: usize, block: &[u8]) {
        self.counts.told += 1;
        self.look(slot);
        let Some(said) = wire::said(block) else {
            self.wrong(&format!("client of slot {slot}: a message that isn't understood: {block:?}"));
            return;
        };
        match &said {
            Said::NewMaster => {
                self.clients[slot].due = self.now;
                if let Some(over) = &mut self.fail_over {
                    over.is_up(self.now);
                }
            }
            Said::Notice(text) => println!("a limit at {} ms: {text}", self.now),
            _ => {}
        }
        let is_alive = matches!(said, Said::Alive { .. });
        let heard = self.clients[slot].give(self.now, said, &self.names);
        self.note(slot, is_alive, heard);
    }

    fn note(&mut self, slot: usize, is_alive: bool, heard: Heard<'_>) {
        if let Some(fault) = heard.fault {
            self.wrong(&format!("client of slot {slot}: {fault}"));
        }
        self.totals.begun += u64::from(heard.has_begun);
        self.forgotten.extend(heard.forgotten.iter().map(|name| (slot as u32, *name, heard.has_failed_over)));
        if let Some(over) = &mut self.fail_over {
            if heard.has_failed_over {
                over.is_up(self.now);
                self.clients[slot].is_told_of_fail_over = true;
            } else if is_alive && std::mem::take(&mut self.clients[slot].is_told_of_fail_over) {
                over.heard(slot as u32, self.now);
            }
        }
        if let Some((asked, ended)) = heard.ended {
            self.ended(slot, asked, ended);
        }
        match heard.no_session {
            Some(NoSession::Lost) => self.lose(slot, "the master says that it has no session"),
            Some(NoSession::Left) => self.begin_anew(slot),
            Some(NoSession::Unbegun) => {
                self.totals.unbegun += 1;
                println!("# client {:?} of slot {slot} never began: {:?}", self.clients[slot].known, self.clients[slot].past);
                self.begin_anew(slot);
            }
            None => {}
        }
    }

    // Looks at the lease.
    fn look(&mut self, slot: usize) {
        let cached: Vec<u32> = if self.clients[slot].phase == Phase::Live && self.now >= self.clients[slot].leased_until() {
            self.clients[slot].cache.keys().copied().collect()
        } else {
            Vec::new()
        };
        match self.clients[slot].look(self.now) {
            Some(Phase::Jeopardy(_)) => {
                self.totals.jeopardies += 1;
                self.forgotten.extend(cached.into_iter().map(|name| (slot as u32, name, true)));
                if let Some(over) = &mut self.fail_over {
                    over.jeopardies += 1;
                }
            }
            Some(Phase::Lost) => self.lose(slot, "its grace period is over"),
            _ => {}
        }
    }

    // What is due for a client.
    fn go_on(&mut self, slot: usize) {
        self.look(slot);
        match self.links[slot].state {
            State::Down if self.links[slot].retry <= self.now && (self.clients[slot].known.is_some() || self.links[slot].retry > 0) => {
                self.connect(slot)
            }
            State::Bound if self.clients[slot].due <= self.now => self.beat(slot),
            _ => {}
        }
        if self.links[slot].state == State::Bound {
            self.ask(slot);
        }
        let (client, link) = (&self.clients[slot], &self.links[slot]);
        let mut next = match link.state {
            State::Down if link.retry > 0 => link.retry,
            State::Bound => client.due,
            _ => u64::MAX,
        };
        match client.phase {
            Phase::Live => next = next.min(client.leased_until()),
            Phase::Jeopardy(since) => next = next.min(since + 45_001),
            _ => {}
        }
        if link.state == State::Bound && client.asked.is_none() && !client.plan.is_empty() && client.phase == Phase::Live {
            next = next.min(client.rests_until);
        }
        self.wake(slot, next.max(self.now + 1));
    }

    fn beat(&mut self, slot: usize) {
        let is_again = self.clients[slot].is_unanswered();
        let is_start = self.clients[slot].phase == Phase::Starting;
        if let Some(beat) = self.clients[slot].beat(self.now) {
            self.counts.sent[usize::from(!is_start)] += 1;
            self.links[slot].send(&beat);
            if is_again {
                self.send_again(slot);
            }
        }
    }

    /// Lets a client go on with its plan.
    pub fn ask(&mut self, slot: usize) {
        let client = &self.clients[slot];
        if client.phase != Phase::Live || client.asked.is_some() || client.rests_until > self.now || self.links[slot].state != State::Bound
        {
            return;
        }
        while let Some(step) = self.clients[slot].plan.pop_front() {
            let name = step.name().unwrap_or_default();
            let handle: Option<Box<[u8]>> = self.clients[slot].handle(name).map(Into::into);
            let needs_none = matches!(step, Step::Open(_) | Step::OpenToWrite(_) | Step::Make(_) | Step::Leave);
            if needs_none || handle.is_some() {
                self.send_call(slot, step, &handle.unwrap_or_default());
                return;
            }
            // (it was to be opened, and wasn't)
            if matches!(step, Step::Set(_) | Step::Delete(_)) {
                self.names.leave(name);
            }
        }
    }

    fn send_call(&mut self, slot: usize, step: Step, handle: &[u8]) {
        let name = step.name().unwrap_or_default();
        let range = self.names.range(name);
        let version = match step {
            Step::Set(_) => self.names.ask(name),
            Step::Make(_) | Step::Delete(_) if self.names.comes_and_goes(name) => self.names.ask_once(name),
            _ => 0,
        };
        let content = match step {
            Step::Set(_) | Step::Make(_) if self.names.is_file(name) => self.names.content(name, version),
            _ => Vec::new(),
        };
        let call = self.names.call(step, handle, &content);
        self.counts.sent[kind(step)] += 1;
        self.clients[slot].note(self.now, crate::counts::KINDS[kind(step)], 0);
        if let Some(over) = self.fail_over.as_mut().filter(|over| !over.unheard.is_empty()) {
            over.waiting.insert(slot as u32);
        }
        if let Some(bytes) = self.clients[slot].ask(step, call, range, version) {
            self.links[slot].send(bytes);
        }
    }

    fn ended(&mut self, slot: usize, asked: Asked, ended: Ended<'_>) {
        let (outcome, may_keep) = match ended {
            Ended::Replied(Outcome::Refused(BUSY | RECOVERING), _) | Ended::Unknown => {
                // (once more, a little later)
                self.totals.put_off += 1;
                self.clients[slot].plan.push_front(asked.step);
                self.clients[slot].rests_until = self.now + self.random.gen_range(100..300);
                return;
            }
            Ended::Replied(outcome, may_keep) => (outcome, may_keep),
        };
        let took = asked.at.elapsed();
        self.counts.took(asked.step, took);
        self.apart.push((slot as u32, asked.step, took));
        if let Some(over) = &mut self.fail_over {
            over.answered(slot as u32, self.now);
        }
        self.replied(slot, &asked, outcome, may_keep);
    }

    fn replied(&mut self, slot: usize, asked: &Asked, outcome: Outcome<'_>, may_keep: bool) {
        let name = asked.step.name().unwrap_or_default();
        match (asked.step, outcome) {
            (Step::Open(_) | Step::OpenToWrite(_), Outcome::Opened { handle }) => self.opened(slot, asked, name, handle),
            (Step::Make(_), Outcome::Opened { handle }) => {
                self.clients[slot].handles.push((name, handle.into()));
                self.changed(name, asked.version);
            }
            (Step::Make(_), Outcome::Refused(EXISTS)) | (Step::Delete(_), Outcome::Refused(STALE)) => self.changed(name, asked.version),
            (Step::Open(_) | Step::OpenToWrite(_), Outcome::Refused(NOT_FOUND)) => self.shown(slot, asked, name, Some(0), may_keep),
            (Step::Read(_), Outcome::View { content, children, .. }) => {
                let shown =
                    if self.names.is_file(name) { self.names.version(name, content) } else { self.names.presence(name, children.len()) };
                self.shown(slot, asked, name, shown, may_keep);
            }
            (Step::Stat(_), Outcome::Stat { length }) => self.has_length(name, length),
            (Step::Set(_) | Step::Delete(_), Outcome::Done) => self.changed(name, asked.version),
            (Step::Close(_), Outcome::Done | Outcome::Refused(_)) => self.clients[slot].handles.retain(|(of, _)| *of != name),
            (Step::Acquire(_) | Step::Release(_), Outcome::Done) => {}
            (Step::Leave, Outcome::Done) => {
                self.clients[slot].phase = Phase::Left;
                self.begin_anew(slot);
            }
            (step, other) => self.refused(slot, step, &other),
        }
    }

    // (a file has the same length in all its versions, but for the digits of their numbers)
    fn has_length(&mut self, name: u32, length: u64) {
        if self.names.is_file(name) && length != self.names.content(name, 0).len() as u64 {
            self.wrong(&format!("{} has {length} bytes", self.names.text(name)));
        }
    }

    fn refused(&mut self, slot: usize, step: Step, outcome: &Outcome<'_>) {
        let name = step.name().unwrap_or_default();
        if matches!(step, Step::Set(_) | Step::Make(_) | Step::Delete(_)) {
            self.names.leave(name);
        }
        self.totals.refused += 1;
        if self.totals.refused <= TOLD {
            println!("REFUSED at {} ms: slot {slot} {step:?} {}: {outcome:?}", self.now, self.names.text(name));
        }
    }

    fn opened(&mut self, slot: usize, asked: &Asked, name: u32, handle: &[u8]) {
        self.clients[slot].handles.push((name, handle.into()));
        if name >= self.names.absence(0) {
            self.shown(slot, asked, name, Some(1), false);
            if matches!(asked.step, Step::Open(_)) {
                self.clients[slot].plan.push_front(Step::Close(name));
            }
        }
    }

    // A name was shown so: what may be shown is what was there between the call and now.
    fn shown(&mut self, slot: usize, asked: &Asked, name: u32, shown: Option<u32>, may_keep: bool) {
        let range = Range { from: asked.range.from, to: self.names.range(name).to };
        match shown {
            Some(shown) if self.names.may_show(name, shown, range) => {
                if self.names.is_file(name) {
                    self.names.done(name, shown);
                }
                if may_keep {
                    self.clients[slot].keep(name, shown);
                }
            }
            _ => {
                let text = self.names.text(name).to_owned();
                self.wrong(&format!("slot {slot}: {text} shows {shown:?}, and it may show {range:?}"));
            }
        }
    }

    // A change was done: from now on no cache serves what was there before.
    fn changed(&mut self, name: u32, version: u32) {
        self.names.done(name, version);
        self.names.leave(name);
        self.test_caches_of(name);
        if let Some(directory) = self.names.subject(name).filter(|subject| *subject != name) {
            self.test_caches_of(directory);
        }
    }

    fn test_caches_of(&mut self, name: u32) {
        let range = self.names.range(name);
        let served = |client: &Client| client.served(name, self.now).is_some_and(|shown| !self.names.may_show(name, shown, range));
        let stale: Vec<usize> = (0..self.clients.len()).filter(|slot| served(&self.clients[*slot])).collect();
        for slot in stale {
            let text = self.names.text(name).to_owned();
            self.wrong(&format!("slot {slot} caches {text} as it was before {range:?}"));
        }
    }

    /// Tests what the caches of so many clients by chance serve.
    pub fn test_hits(&mut self, clients: usize) {
        for _ in 0..clients {
            let slot = self.random.gen_range(0..self.clients.len());
            self.look(slot);
            let cached: Vec<u32> = self.clients[slot].cache.keys().copied().collect();
            for name in cached {
                let Some(shown) = self.clients[slot].served(name, self.now) else {
                    continue;
                };
                self.totals.hits += 1;
                let range = self.names.range(name);
                if !self.names.may_show(name, shown, range) {
                    let text = self.names.text(name).to_owned();
                    self.wrong(&format!("slot {slot} serves {text} as {shown}, and it may show {range:?}"));
                }
            }
        }
    }

    /// Whether a client may be given something to do.
    pub fn is_idle(&self, slot: usize) -> bool {
        let client = &self.clients[slot];
        client.phase == Phase::Live && client.asked.is_none() && client.plan.is_empty() && self.links[slot].state == State::Bound
    }

    /// Gives a client steps, after what it has to do.
    pub fn give(&mut self, slot: usize, steps: &[Step]) {
        self.clients[slot].plan.extend(steps);
        self.ask(slot);
        if self.clients[slot].asked.is_none() {
            self.wake(slot, self.now.max(self.clients[slot].rests_until) + 1);
        }
    }

    /// Kills the connection of a client that has nothing outstanding, as if its program were killed; another takes its place.
    pub fn kill(&mut self, slot: usize) {
        self.begin_anew(slot);
    }
}
