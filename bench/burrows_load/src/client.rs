//! One client, by docs/PROTOCOL.md: its session, its lease, what it caches, and its one call. It carries nothing itself.

use crate::names::{Names, Range};
use crate::wire::{self, Call, NO_SESSION, OLD_EPOCH, Outcome, Said};
use std::collections::{HashMap, VecDeque};
use std::time::Instant;

/// Milliseconds after the end of a lease in which a better one saves the session.
const GRACE: u64 = 45_000;

/// Between two Beats without anything to acknowledge.
const PACE: u64 = 20;

/// How long an answer to a Beat is waited for where the lease has ended, at first and at most.
const AGAIN: (u64, u64) = (200, 10_000);

/// So much of what it did and heard last is kept of each client.
const PAST: usize = 12;

/// How a session stands.
#[derive(Clone, Copy, Debug, PartialEq, Eq)]
pub enum Phase {
    /// It hasn't begun.
    Starting,
    Live,
    /// Its lease has ended, which was noticed then.
    Jeopardy(u64),
    Lost,
    Left,
}

/// One thing that a client is to do, with the name that it is about.
#[derive(Clone, Copy, Debug, PartialEq, Eq)]
pub enum Step {
    Open(u32),
    OpenToWrite(u32),
    Make(u32),
    Close(u32),
    Read(u32),
    Stat(u32),
    Set(u32),
    Delete(u32),
    Acquire(u32),
    Release(u32),
    Leave,
}

impl Step {
    /// The name that it is about.
    pub fn name(self) -> Option<u32> {
        match self {
            Step::Open(name) | Step::OpenToWrite(name) | Step::Make(name) | Step::Close(name) | Step::Read(name) | Step::Stat(name) => {
                Some(name)
            }
            Step::Set(name) | Step::Delete(name) | Step::Acquire(name) | Step::Release(name) => Some(name),
            Step::Leave => None,
        }
    }
}

/// A call that has no reply yet.
#[derive(Debug)]
pub struct Asked {
    number: u64,
    bytes: Vec<u8>,
    pub step: Step,
    pub at: Instant,
    /// What could be read of its name when it went out; and the version that it writes.
    pub range: Range,
    pub version: u32,
}

/// What came of it.
#[derive(Debug)]
pub enum Ended<'a> {
    /// The result; whether the client may keep it.
    Replied(Outcome<'a>, bool),
    /// Another master came up before.
    Unknown,
}

/// How a client ends whom the master says that it has no session.
#[derive(Clone, Copy, Debug, PartialEq, Eq)]
pub enum NoSession {
    /// It had one, and knew of it.
    Lost,
    /// It asked for the end of it, and the reply got lost.
    Left,
    /// It never heard of one: a master that was killed began it, and the next one ended it.
    Unbegun,
}

/// What a message brought.
#[derive(Debug, Default)]
pub struct Heard<'a> {
    pub has_begun: bool,
    pub is_safe: bool,
    pub has_failed_over: bool,
    pub no_session: Option<NoSession>,
    /// Names that left the cache.
    pub forgotten: Vec<u32>,
    pub ended: Option<(Asked, Ended<'a>)>,
    /// It breaks a rule of the protocol, and which.
    pub fault: Option<&'static str>,
}

/// A client. Moments are milliseconds of one clock.
#[derive(Debug)]
pub struct Client {
    pub phase: Phase,
    /// Its number and token, once it was given them.
    pub known: Option<(u64, u64)>,
    pub principal: String,
    pub cache: HashMap<u32, u32>,
    pub handles: Vec<(u32, Box<[u8]>)>,
    pub plan: VecDeque<Step>,
    pub asked: Option<Asked>,
    /// From when on the next call may go out.
    pub rests_until: u64,
    /// Whether it knows of a fail-over, and has no lease of the next master yet.
    pub is_told_of_fail_over: bool,
    /// It has asked for the end of its session.
    is_leaving: bool,
    /// What it sent and heard last: when, what, and which number.
    pub past: VecDeque<(u64, &'static str, u64)>,
    epoch: u64,
    number: u64,
    calls: u64,
    invalidations: u64,
    events: u64,
    lease: (u64, u64),
    sent: u64,
    pause: u64,
    is_answered: bool,
    /// When the next Start or Beat goes.
    pub due: u64,
}

impl Client {
    pub fn new(principal: String) -> Client {
        Client {
            phase: Phase::Starting,
            known: None,
            principal,
            cache: HashMap::new(),
            handles: Vec::new(),
            plan: VecDeque::new(),
            asked: None,
            rests_until: 0,
            is_told_of_fail_over: false,
            is_leaving: false,
            past: VecDeque::new(),
            epoch: 0,
            number: 0,
            calls: 0,
            invalidations: 0,
            events: 0,
            lease: (0, 0),
            sent: 0,
            pause: AGAIN.0,
            is_answered: true,
            due: 0,
        }
    }

    /// Notes what it did or heard.
    pub fn note(&mut self, now: u64, what: &'static str, number: u64) {
        if self.past.len() == PAST {
            self.past.pop_front();
        }
        self.past.push_back((now, what, number));
    }

    /// Whether it has a session, as far as it knows.
    pub fn has_session(&self) -> bool {
        matches!(self.phase, Phase::Live | Phase::Jeopardy(_))
    }

    pub fn is_over(&self) -> bool {
        matches!(self.phase, Phase::Lost | Phase::Left)
    }

    pub fn handle(&self, name: u32) -> Option<&[u8]> {
        self.handles.iter().find(|(of, _)| *of == name).map(|(_, handle)| &**handle)
    }

    // Whether the lease runs: 17 * (now - sent + 1) < 16 * span.
    fn is_leased(&self, now: u64) -> bool {
        let (sent, span) = self.lease;
        17 * (now.saturating_sub(sent) + 1) < 16 * span
    }

    /// The first moment at which the lease doesn't run.
    pub fn leased_until(&self) -> u64 {
        let (sent, span) = self.lease;
        sent + (16 * span).div_ceil(17).saturating_sub(1)
    }

    /// Looks at the lease before anything else is done; whether that has ended, or the session with it.
    pub fn look(&mut self, now: u64) -> Option<Phase> {
        match self.phase {
            Phase::Live if !self.is_leased(now) => {
                self.cache.clear();
                self.phase = Phase::Jeopardy(now);
            }
            Phase::Jeopardy(since) if now > since + GRACE => self.phase = Phase::Lost,
            _ => return None,
        }
        Some(self.phase)
    }

    /// What its cache answers, where it may answer.
    pub fn served(&self, name: u32, now: u64) -> Option<u32> {
        if self.phase == Phase::Live && self.is_leased(now) { self.cache.get(&name).copied() } else { None }
    }

    /// The next Start or Beat, where it has a number.
    pub fn beat(&mut self, now: u64) -> Option<Vec<u8>> {
        let (client, _) = self.known.filter(|_| !self.is_over())?;
        self.number += 1;
        let pause = if self.is_answered { AGAIN.0 } else { self.pause };
        self.due = self.leased_until().max(now + pause);
        self.pause = if self.is_answered { pause } else { (2 * pause).min(AGAIN.1) };
        (self.sent, self.is_answered) = (now, false);
        self.note(now, if self.phase == Phase::Starting { "start" } else { "beat" }, self.number);
        Some(match self.phase {
            Phase::Starting => wire::start(client, self.number, &self.principal),
            _ => wire::beat(client, self.epoch, self.number, self.invalidations, self.events),
        })
    }

    /// Whether a Beat has waited for its answer for longer than the lease.
    pub fn is_unanswered(&self) -> bool {
        !self.is_answered
    }

    /// The call that has no reply yet, once more.
    pub fn again(&self) -> Option<&[u8]> {
        self.asked.as_ref().map(|asked| &*asked.bytes)
    }

    /// Begins a call, where none is outstanding: its bytes.
    pub fn ask(&mut self, step: Step, call: Call<'_>, range: Range, version: u32) -> Option<&[u8]> {
        let (client, _) = self.known?;
        self.calls += 1;
        let bytes = call.write(client, self.epoch, self.calls);
        if matches!(call, Call::Leave) {
            self.cache.clear();
            self.is_leaving = true;
        }
        let asked = Asked { number: self.calls, bytes, step, at: Instant::now(), range, version };
        Some(&self.asked.insert(asked).bytes)
    }

    /// A message for it came.
    pub fn give<'a>(&mut self, now: u64, said: Said<'a>, names: &Names) -> Heard<'a> {
        let mut heard = Heard::default();
        self.note_said(now, &said);
        match said {
            Said::Started { epoch, number, span } if self.phase == Phase::Starting && number == self.number => {
                (self.phase, self.epoch, self.lease) = (Phase::Live, epoch, (self.sent, span));
                self.answered(now, false);
                heard.has_begun = true;
            }
            Said::Alive { epoch, number, span, invalidations, events } if epoch == self.epoch && self.has_session() => {
                self.alive(now, (number, span), &invalidations, &events, names, &mut heard);
            }
            Said::Reply { epoch, number, stamp, result } if epoch == self.epoch => {
                if let Some(asked) = self.asked.take_if(|asked| asked.number == number) {
                    let may_keep =
                        stamp.is_some_and(|stamp| self.invalidations <= stamp) && self.phase == Phase::Live && self.is_leased(now);
                    heard.ended = Some((asked, Ended::Replied(result, may_keep)));
                }
            }
            Said::Refused { epoch, number, refusal, argument } => self.refused(now, (epoch, number, refusal, argument), &mut heard),
            _ => {}
        }
        heard
    }

    fn note_said(&mut self, now: u64, said: &Said<'_>) {
        match said {
            Said::Started { number, .. } => self.note(now, "started", *number),
            Said::Alive { number, .. } => self.note(now, "alive", *number),
            Said::Reply { number, .. } => self.note(now, "reply", *number),
            Said::Refused { refusal, .. } => self.note(now, "refused as", u64::from(*refusal)),
            Said::NewMaster => self.note(now, "another master", 0),
            Said::Notice(_) => {}
        }
    }

    fn alive(
        &mut self,
        now: u64,
        (number, span): (u64, u64),
        invalidations: &[(u64, &str)],
        events: &[(u64, u8)],
        names: &Names,
        heard: &mut Heard<'_>,
    ) {
        let first = invalidations.first().map_or(0, |(first, _)| *first);
        if first > self.invalidations + 1 || events.first().is_some_and(|(first, _)| *first > self.events + 1) {
            heard.fault = Some("an Alive passes over an invalidation or an event");
        }
        for (_, name) in invalidations.iter().filter(|(count, _)| *count > self.invalidations) {
            heard.forgotten.extend(names.number(name).filter(|name| self.cache.remove(name).is_some()));
        }
        let before = (self.invalidations, self.events);
        self.invalidations = invalidations.last().map_or(before.0, |(last, _)| before.0.max(*last));
        self.events = events.last().map_or(before.1, |(last, _)| before.1.max(*last));
        if number != self.number {
            return;
        }
        if 17 * self.sent + 16 * span > 17 * self.lease.0 + 16 * self.lease.1 {
            self.lease = (self.sent, span);
        }
        if matches!(self.phase, Phase::Jeopardy(_)) && self.is_leased(now) {
            self.phase = Phase::Live;
            heard.is_safe = true;
        }
        self.answered(now, before != (self.invalidations, self.events));
    }

    // The last Beat was answered: the next one goes, at once where there is something to acknowledge.
    fn answered(&mut self, now: u64, is_told: bool) {
        self.is_answered = true;
        self.due = if is_told { now } else { now.max(self.sent + PACE) };
    }

    fn refused(&mut self, now: u64, (epoch, number, refusal, argument): (u64, u64, u8, u64), heard: &mut Heard<'_>) {
        match (refusal, self.phase) {
            (NO_SESSION, Phase::Starting) => heard.no_session = Some(NoSession::Unbegun),
            (NO_SESSION, _) if epoch >= self.epoch => {
                heard.no_session = Some(if self.is_leaving { NoSession::Left } else { NoSession::Lost });
            }
            (OLD_EPOCH, Phase::Live | Phase::Jeopardy(_)) if epoch >= self.epoch && argument > self.epoch => {
                (self.epoch, self.invalidations, self.events) = (argument, 0, 0);
                heard.forgotten.extend(self.cache.drain().map(|(name, _)| name));
                heard.has_failed_over = true;
                heard.ended = self.asked.take().map(|asked| (asked, Ended::Unknown));
                (self.due, self.is_answered) = (now, true);
            }
            // (a Start is sent again a little later)
            (_, Phase::Starting) if number == self.number => self.due = now + self.pause,
            _ => {}
        }
        if heard.no_session.is_some() {
            self.phase = Phase::Lost;
        }
    }

    /// Puts what a Reply taught into the cache.
    pub fn keep(&mut self, name: u32, shown: u32) {
        self.cache.insert(name, shown);
    }
}

#[cfg(test)]
mod tests {
    use super::*;
    use crate::table::Table;
    use rand::SeedableRng;
    use rand::rngs::SmallRng;

    fn names() -> Names {
        Names::new(&Table::of(0.01), &mut SmallRng::seed_from_u64(1))
    }

    // One that sent its Start at the moment 1000, and is live by a lease of 12,000 since.
    fn live() -> Client {
        let mut client = Client::new("ann".into());
        client.known = Some((1, 2));
        client.beat(1000).unwrap();
        let heard = client.give(1010, Said::Started { epoch: 1, number: 1, span: 12_000 }, &names());
        assert!(heard.has_begun);
        client
    }

    fn alive<'a>(epoch: u64, number: u64, invalidations: Vec<(u64, &'a str)>) -> Said<'a> {
        Said::Alive { epoch, number, span: 12_000, invalidations, events: Vec::new() }
    }

    // (17 * (now - 1000 + 1) < 16 * 12,000 up to 12,293)
    #[test]
    fn a_lease_runs_until_its_end() {
        for (now, wanted) in [(1000, true), (12_293, true), (12_294, false), (12_295, false)] {
            let mut client = live();
            assert_eq!(client.leased_until(), 12_294);
            assert_eq!(client.look(now).is_none(), wanted, "{now}");
        }
        let mut client = live();
        client.look(13_000);
        client.cache.insert(1, 0);
        for (now, wanted) in [(13_001, None), (58_000, None), (58_001, Some(Phase::Lost))] {
            assert_eq!(client.look(now), wanted, "{now}");
        }
    }

    #[test]
    fn a_better_lease_saves_a_session() {
        let mut client = live();
        client.beat(1020).unwrap();
        client.beat(12_294).unwrap();
        assert_eq!(client.look(12_300), Some(Phase::Jeopardy(12_300)));
        client.give(12_310, alive(1, 2, Vec::new()), &names());
        assert_eq!(client.phase, Phase::Jeopardy(12_300));
        assert!(client.give(12_320, alive(1, 3, Vec::new()), &names()).is_safe);
        assert_eq!((client.phase, client.leased_until()), (Phase::Live, 12_294 + 11_294));
    }

    #[test]
    fn what_is_invalidated_is_forgotten_and_acknowledged() {
        let names = names();
        let mut client = live();
        client.beat(1020).unwrap();
        client.keep(0, 4);
        client.keep(1, 4);
        let heard = client.give(1500, alive(1, 2, vec![(1, names.text(0))]), &names);
        assert_eq!((heard.forgotten, client.served(0, 1500), client.served(1, 1500)), (vec![0], None, Some(4)));
        assert_eq!(client.due, 1500);
        let beat = client.beat(1500).unwrap();
        assert_eq!(beat, wire::beat(1, 1, 3, 1, 0));
        let late = client.give(1600, alive(1, 3, vec![(3, names.text(1))]), &names);
        assert!(late.fault.is_some());
    }

    #[test]
    fn a_stamp_says_whether_an_answer_may_be_kept() {
        let names = names();
        for (stamp, wanted) in [(None, false), (Some(0), false), (Some(1), true), (Some(2), true)] {
            let mut client = live();
            client.beat(1020).unwrap();
            client.give(1100, alive(1, 2, vec![(1, names.text(7))]), &names);
            client.ask(Step::Read(0), Call::Read(b"h"), Range { from: 0, to: 0 }, 0).unwrap();
            let view = Outcome::View { generation: 1, content: b"", children: Vec::new() };
            let heard = client.give(1200, Said::Reply { epoch: 1, number: 1, stamp, result: view }, &names);
            assert!(matches!(heard.ended, Some((_, Ended::Replied(_, may_keep))) if may_keep == wanted), "{stamp:?}");
        }
    }

    #[test]
    fn a_session_goes_on_after_a_fail_over() {
        let mut client = live();
        client.beat(1020).unwrap();
        client.keep(0, 4);
        client.ask(Step::Read(0), Call::Read(b"h"), Range { from: 0, to: 0 }, 0).unwrap();
        let refused = |epoch, argument| Said::Refused { epoch, number: 2, refusal: OLD_EPOCH, argument };
        assert!(!client.give(2000, refused(1, 1), &names()).has_failed_over);
        let heard = client.give(2000, refused(1, 2), &names());
        assert!(heard.has_failed_over && matches!(heard.ended, Some((_, Ended::Unknown))));
        assert_eq!((client.phase, client.cache.len(), client.due), (Phase::Live, 0, 2000));
        assert_eq!(client.beat(2000).unwrap(), wire::beat(1, 2, 3, 0, 0));
        let lost = client.give(2010, no_session(2, 3), &names());
        assert_eq!((lost.no_session, client.phase), (Some(NoSession::Lost), Phase::Lost));
    }

    fn no_session(epoch: u64, number: u64) -> Said<'static> {
        Said::Refused { epoch, number, refusal: NO_SESSION, argument: 0 }
    }

    #[test]
    fn who_never_began_or_left_has_lost_nothing() {
        let mut client = live();
        client.ask(Step::Leave, Call::Leave, Range { from: 0, to: 0 }, 0).unwrap();
        client.give(2000, Said::Refused { epoch: 1, number: 2, refusal: OLD_EPOCH, argument: 2 }, &names());
        assert_eq!(client.give(2010, no_session(1, 3), &names()).no_session, None);
        assert_eq!(client.give(2010, no_session(2, 3), &names()).no_session, Some(NoSession::Left));
        let mut client = Client::new("ann".into());
        client.known = Some((1, 2));
        client.beat(1000).unwrap();
        assert_eq!(client.give(1010, no_session(2, 1), &names()).no_session, Some(NoSession::Unbegun));
    }

    // (the first one at the lease's end, and then after 200, 400, 800 and so on)
    #[test]
    fn a_beat_that_is_not_answered_is_sent_again() {
        let mut client = live();
        client.beat(1020).unwrap();
        let mut dues = Vec::new();
        for _ in 0..7 {
            dues.push(client.due);
            let due = client.due;
            client.beat(due).unwrap();
        }
        let mut wanted = vec![12_294];
        for pause in [200, 400, 800, 1600, 3200, 6400] {
            wanted.push(wanted.last().unwrap() + pause);
        }
        assert_eq!(dues, wanted);
    }
}
