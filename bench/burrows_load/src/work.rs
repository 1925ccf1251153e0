//! What clients are asked for: first what the table says that they hold, and then so much of each kind a second.

use crate::client::{Phase, Step};
use crate::load::Load;
use crate::table::Rates;
use rand::Rng;
use rand::seq::SliceRandom;
use std::cmp::Reverse;
use std::collections::{BinaryHeap, VecDeque};
use std::time::Duration;

/// Of so many clients one comes and goes, and holds nothing.
const PASSING: usize = 20;

/// So many files are cached by many: each client that stays has one of them.
const POPULAR: u32 = 10;

/// What is read after an invalidation: that which is sent for at once, and that which the rates of the table leave for later.
#[derive(Debug, Default)]
pub struct Again {
    at: BinaryHeap<Reverse<(u64, u32, u32)>>,
    later: VecDeque<(u32, u32)>,
}

/// A set of the file that many cache, and what is measured beside it.
#[derive(Debug, Default)]
pub struct Herd {
    /// So many clients cache it; each this many milliseconds it is set.
    count: usize,
    every: u64,
    next: u64,
    begun: Option<(u64, usize)>,
    probed_until: u64,
    sets: Vec<u32>,
    reads: Vec<u32>,
    writes: Vec<u32>,
}

/// The work.
pub struct Work {
    pub again: Again,
    pub herd: Herd,
    /// After a fail-over caches are filled within so many milliseconds.
    pub refill: u64,
    /// Of so many that go one is killed, and the others leave; 0 stands for none.
    killed: u32,
    next: [f64; 7],
}

/// The file that the herd caches, and those of the clients that measure beside it. (Nobody else touches them.)
const SHARED: u32 = 0;
const OWN: u32 = 1;
const PROBES: u32 = 4;
const RESERVED: u32 = OWN + PROBES;

fn probes(load: &Load) -> std::ops::Range<usize> {
    staying(load) - PROBES as usize..staying(load)
}

/// So many clients stay; the last of them measure.
fn staying(load: &Load) -> usize {
    load.table.clients - load.table.clients / PASSING
}

/// The steps by which the cell is filled: directories of the first level, all others, and files.
pub fn names(load: &mut Load) -> Vec<Vec<(usize, Vec<Step>)>> {
    let clients = load.table.clients;
    let made = |of: std::ops::Range<u32>, load: &Load, is_file: bool| -> Vec<(usize, Vec<Step>)> {
        let number = |at: u32| if is_file { at } else { load.names.directory(at) };
        of.map(|at| (at as usize % clients, vec![Step::Make(number(at)), Step::Close(number(at))])).collect()
    };
    vec![
        made(0..load.names.tops, load, false),
        made(load.names.tops..load.names.directories, load, false),
        made(0..load.names.files, load, true),
    ]
}

/// The steps by which clients come to hold what the table says.
pub fn holdings(load: &mut Load, herd: &Herd) -> Vec<(usize, Vec<Step>)> {
    let stay = staying(load) - PROBES as usize;
    let mut given = Vec::new();
    let table = load.table;
    let cached = (table.cached as u32).min(load.names.files + load.names.directories);
    let mut open = table.open.saturating_sub(table.locks + PROBES as usize);
    for entry in 0..table.entries {
        let slot = entry % stay;
        let name = match entry / stay {
            0 => RESERVED + load.random.gen_range(0..POPULAR),
            _ if entry < cached as usize + stay => (entry - stay) as u32 % cached,
            _ => load.random.gen_range(RESERVED..cached),
        };
        let name = name.max(RESERVED);
        let mut steps = vec![Step::Open(name), Step::Read(name)];
        // (what is open stays open)
        if open == 0 || entry / stay == 0 {
            steps.push(Step::Close(name));
        } else {
            open -= 1;
        }
        given.push((slot, steps));
    }
    given.extend((0..table.absent).map(|at| (at % stay, vec![Step::Open(load.names.absence(at as u32))])));
    for lock in 0..table.locks {
        let file = load.names.files - 1 - lock as u32 % (load.names.files - RESERVED);
        given.push((lock % stay, vec![Step::OpenToWrite(file), Step::Acquire(file)]));
    }
    given.extend((0..herd.count.min(stay)).map(|slot| (slot, vec![Step::Open(SHARED), Step::Read(SHARED)])));
    for (at, slot) in probes(load).enumerate() {
        let file = OWN + at as u32;
        given.push((slot, vec![Step::OpenToWrite(file), Step::Stat(file)]));
    }
    given.push((probes(load).start, vec![Step::OpenToWrite(SHARED)]));
    given
}

impl Work {
    pub fn new(herd: Herd, refill: u64, killed: u32) -> Work {
        Work { again: Again::default(), herd, refill, killed, next: [0.0; 7] }
    }

    /// From now on the rates hold.
    pub fn begin(&mut self, load: &Load) {
        self.next = [load.now as f64; 7];
        self.herd.next = load.now + self.herd.every;
    }

    /// What is due.
    pub fn turn(&mut self, load: &mut Load) {
        self.note_forgotten(load);
        let Rates { stats, opens, sessions, reads, sets, acquires, makes } = load.table.rates;
        for (at, rate) in [stats, opens, sessions, reads, sets, acquires, makes].into_iter().enumerate() {
            while self.next[at] <= load.now as f64 {
                // (as many as there would be if they came by chance)
                let part: f64 = load.random.gen_range(f64::EPSILON..1.0);
                self.next[at] += -part.ln() * 1000.0 / rate;
                self.begin_one(load, at);
            }
        }
        while let Some(Reverse((at, slot, name))) = self.again.at.peek().copied()
            && at <= load.now
        {
            self.again.at.pop();
            read_again(load, slot as usize, name);
        }
        if self.herd.count > 0 {
            self.herd.turn(load);
        }
    }

    // What left a cache is read again: soon where many have it or another master is up, else as the rate of reads lets it.
    fn note_forgotten(&mut self, load: &mut Load) {
        for (slot, name, is_fail_over) in std::mem::take(&mut load.forgotten) {
            let within = match name {
                SHARED => self.herd.every / 2,
                _ if is_fail_over => self.refill,
                _ if name < RESERVED + POPULAR => 10_000,
                _ => {
                    self.again.later.push_back((slot, name));
                    continue;
                }
            };
            let at = load.now + load.random.gen_range(0..=within.max(1));
            self.again.at.push(Reverse((at, slot, name)));
        }
    }

    fn begin_one(&mut self, load: &mut Load, kind: usize) {
        match kind {
            0 => stat(load),
            1 => open(load),
            2 => session(load, self.killed),
            3 => match self.again.later.pop_front() {
                Some((slot, name)) => read_again(load, slot as usize, name),
                None => read(load),
            },
            4 => set(load),
            5 => lock(load),
            _ => make(load),
        }
    }
}

// One that stays and has nothing to do.
fn idle(load: &mut Load) -> Option<usize> {
    let stay = staying(load) - PROBES as usize;
    let slots: [usize; 64] = std::array::from_fn(|_| load.random.gen_range(0..stay));
    slots.into_iter().find(|slot| load.is_idle(*slot))
}

fn any_file(load: &mut Load) -> u32 {
    let files = load.names.files;
    load.random.gen_range(RESERVED + POPULAR..files)
}

fn stat(load: &mut Load) {
    for _ in 0..64 {
        let Some(slot) = idle(load) else {
            return;
        };
        let open: Vec<u32> = load.clients[slot].handles.iter().map(|(name, _)| *name).collect();
        if let Some(name) = open.choose(&mut load.random) {
            let name = *name;
            return load.give(slot, &[Step::Stat(name)]);
        }
    }
}

fn open(load: &mut Load) {
    let name = any_file(load);
    if let Some(slot) = idle(load).filter(|slot| load.clients[*slot].handle(name).is_none()) {
        load.give(slot, &[Step::Open(name), Step::Close(name)]);
    }
}

fn read(load: &mut Load) {
    let name = any_file(load);
    if let Some(slot) = idle(load) {
        read_again(load, slot, name);
    }
}

fn read_again(load: &mut Load, slot: usize, name: u32) {
    if load.clients[slot].is_over() || load.clients[slot].cache.contains_key(&name) {
        return;
    }
    let is_absence = name >= load.names.absence(0);
    match load.clients[slot].handle(name) {
        Some(_) => load.give(slot, &[Step::Read(name)]),
        None if is_absence => load.give(slot, &[Step::Open(name)]),
        None => load.give(slot, &[Step::Open(name), Step::Read(name), Step::Close(name)]),
    }
}

fn set(load: &mut Load) {
    let name = any_file(load);
    if let Some(slot) = idle(load).filter(|slot| load.clients[*slot].handle(name).is_none())
        && load.names.take(name)
    {
        load.give(slot, &[Step::OpenToWrite(name), Step::Set(name), Step::Close(name)]);
    }
}

fn lock(load: &mut Load) {
    let lock = load.random.gen_range(0..load.table.locks);
    let file = load.names.files - 1 - lock as u32 % (load.names.files - RESERVED);
    let slot = lock % (staying(load) - PROBES as usize);
    if load.is_idle(slot) && load.clients[slot].handle(file).is_some() {
        load.give(slot, &[Step::Release(file), Step::Acquire(file)]);
    }
}

fn make(load: &mut Load) {
    let at = load.random.gen_range(0..load.names.directories.min(load.names.absent));
    let name = load.names.absence(at);
    let range = load.names.range(name);
    let Some(slot) = idle(load).filter(|_| load.names.take(name)) else {
        return;
    };
    // (one whose outcome isn't known is asked for again)
    let is_there = (range.to > range.from) == range.to.is_multiple_of(2);
    if is_there {
        load.give(slot, &[Step::OpenToWrite(name), Step::Delete(name), Step::Close(name)]);
    } else {
        load.give(slot, &[Step::Make(name), Step::Close(name)]);
    }
}

// One that passes goes, and another comes.
fn session(load: &mut Load, killed: u32) {
    let slots = staying(load)..load.table.clients;
    if slots.is_empty() {
        return;
    }
    let slot = load.random.gen_range(slots);
    if load.clients[slot].phase != Phase::Live || !load.is_idle(slot) {
        return;
    }
    if killed > 0 && load.random.gen_range(0..killed) == 0 {
        load.kill(slot);
    } else {
        load.give(slot, &[Step::Leave]);
    }
}

impl Herd {
    /// One of so many clients, which is set each so many milliseconds.
    pub fn new(count: usize, every: u64) -> Herd {
        Herd { count, every, ..Herd::default() }
    }

    // Sets the shared file when its time comes, and measures reads and sets of others until that is done.
    fn turn(&mut self, load: &mut Load) {
        let probes = probes(load);
        for (slot, step, took) in load.apart.drain(..) {
            self.note(slot as usize, step, took, &probes, load.now);
        }
        if load.now >= self.next && load.is_idle(probes.start) {
            self.next = load.now + self.every;
            let holders = load.clients.iter().filter(|client| client.cache.contains_key(&SHARED)).count();
            self.begun = Some((load.now, holders));
            self.probed_until = load.now + 10_000;
            load.give(probes.start, &[Step::Set(SHARED)]);
        }
        if load.now >= self.probed_until {
            return;
        }
        for (at, slot) in probes.enumerate().skip(1) {
            if load.is_idle(slot) && load.clients[slot].rests_until <= load.now {
                let file = OWN + at as u32;
                load.clients[slot].rests_until = load.now + 10;
                let step = if at == 1 { Step::Set(file) } else { Step::Read(file) };
                load.clients[slot].plan.push_back(step);
            } else if load.clients[slot].rests_until <= load.now {
                load.ask(slot);
            }
        }
    }

    fn note(&mut self, slot: usize, step: Step, took: Duration, probes: &std::ops::Range<usize>, now: u64) {
        let micros = u32::try_from(took.as_micros()).unwrap_or(u32::MAX);
        match step {
            Step::Set(SHARED) => {
                self.sets.push(micros);
                self.probed_until = now;
                let (begun, holders) = self.begun.take().unwrap_or((now, 0));
                let most = |times: &[u32]| f64::from(times.iter().copied().max().unwrap_or(0)) / 1000.0;
                println!(
                    "herd at {} s: {holders} clients cached the file; its set took {:.1} ms; beside it {} reads took {:.1} ms at most, {} sets {:.1}",
                    begun / 1000,
                    f64::from(micros) / 1000.0,
                    self.reads.len(),
                    most(&self.reads),
                    self.writes.len(),
                    most(&self.writes),
                );
                (self.reads, self.writes) = Default::default();
            }
            Step::Set(_) if probes.contains(&slot) && self.begun.is_some() => self.writes.push(micros),
            Step::Read(_) if probes.contains(&slot) && self.begun.is_some() => self.reads.push(micros),
            _ => {}
        }
    }
}

impl Work {
    /// Somebody asks for something that only reads, so that a call is out.
    pub fn ask_one(&mut self, load: &mut Load) {
        stat(load);
    }
}
