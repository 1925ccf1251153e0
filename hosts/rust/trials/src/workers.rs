//! Clients at their work: they read, write and hold a lock, and note what came of it.

use crate::history::{Read, Write, check_history};
use crate::holds::{Hold, check_holds};
use rand::rngs::StdRng;
use rand::{Rng, SeedableRng};
use std::sync::atomic::{AtomicBool, Ordering};
use std::thread;
use std::time::{Duration, Instant};
use tillermoss::{Client, Create, Error, Handle, LockMode, Mode, Opening, Options, Refusal};

/// How many files are read and written.
pub const FILES: usize = 3;

/// What one client did. Moments are nanoseconds.
#[derive(Clone, Debug, Default)]
pub struct Deeds {
    /// What it wrote.
    pub writes: Vec<Write>,
    /// What it read.
    pub reads: Vec<Read>,
    /// When it held the lock.
    pub holds: Vec<Hold>,
    /// How many reads the cache answered.
    pub served: usize,
    /// When each of the others was answered.
    pub answered: Vec<u64>,
    /// How often its session was lost, and it began another.
    pub lost: usize,
}

/// What all clients go by.
#[derive(Debug, Default)]
pub struct Rules {
    /// They end.
    pub is_over: AtomicBool,
    /// They only read.
    pub is_quiet: AtomicBool,
    /// One that loses its session goes on with another.
    pub may_lose: bool,
}

/// One client at its work.
#[derive(Debug)]
pub struct Worker {
    options: Options,
    client: Client,
    files: Vec<Handle>,
    lock: Handle,
    random: StdRng,
    begun: Instant,
    deeds: Deeds,
}

impl Worker {
    /// A client by these options, with the files and the lock open. What it does hangs on the seed; its moments are since `begun`.
    ///
    /// # Errors
    ///
    /// If no session begins, or a file can't be opened.
    pub fn new(options: &Options, seed: u64, begun: Instant) -> Result<Worker, Error> {
        let (client, files, lock) = come(options)?;
        let random = StdRng::seed_from_u64(seed);
        Ok(Worker { options: options.clone(), client, files, lock, random, begun, deeds: Deeds::default() })
    }

    fn now(&self) -> u64 {
        self.begun.elapsed().as_nanos() as u64
    }

    /// Works until it is over.
    ///
    /// # Errors
    ///
    /// If something is refused that it may do.
    pub fn work(mut self, rules: &Rules) -> Result<Deeds, Error> {
        while !rules.is_over.load(Ordering::Relaxed) {
            let deeds = if rules.is_quiet.load(Ordering::Relaxed) { 16 } else { 20 };
            let done = match self.random.gen_range(0..deeds) {
                0..16 => {
                    let file = self.random.gen_range(0..FILES);
                    self.read(file)
                }
                16..19 => self.write(),
                _ => self.hold(),
            };
            match done {
                Err(_) if rules.may_lose && self.client.is_lost() => self.come_again(&rules.is_over),
                done => done?,
            }
            thread::sleep(Duration::from_micros(self.random.gen_range(0..4000)));
        }
        Ok(self.deeds)
    }

    /// Writes until it is over, a few times a second.
    ///
    /// # Errors
    ///
    /// As `work`.
    pub fn write_on(mut self, is_over: &AtomicBool) -> Result<Deeds, Error> {
        while !is_over.load(Ordering::Relaxed) {
            self.write()?;
            thread::sleep(Duration::from_millis(200));
        }
        Ok(self.deeds)
    }

    fn come_again(&mut self, is_over: &AtomicBool) {
        self.deeds.lost += 1;
        while !is_over.load(Ordering::Relaxed) {
            if let Ok(come) = come(&self.options) {
                (self.client, self.files, self.lock) = come;
                break;
            }
        }
    }

    /// Reads each file once.
    ///
    /// # Errors
    ///
    /// If that is refused.
    pub fn read_all(&mut self) -> Result<(), Error> {
        (0..FILES).try_for_each(|file| self.read(file))
    }

    /// What it did.
    #[must_use]
    pub fn deeds(self) -> Deeds {
        self.deeds
    }

    fn read(&mut self, file: usize) -> Result<(), Error> {
        let begin = self.now();
        let view = self.client.read(self.files[file])?;
        let end = self.now();
        let value = view.content.try_into().map_or(0, u64::from_be_bytes);
        self.deeds.reads.push(Read { file, value, generation: view.stat.content_generation, begin, end });
        if view.is_served {
            self.deeds.served += 1;
        } else {
            self.deeds.answered.push(end);
        }
        Ok(())
    }

    // (what became of one that isn't answered nobody knows)
    fn write(&mut self) -> Result<(), Error> {
        let file = self.random.gen_range(0..FILES);
        let value = self.client.number() << 32 | (self.deeds.writes.len() as u64 + 1);
        let begin = self.now();
        let done = self.client.set(self.files[file], &value.to_be_bytes(), None);
        let end = done.is_ok().then(|| self.now());
        self.deeds.writes.push(Write { file, value, begin, end });
        match done {
            Err(Error::Refused(Refusal::Unknown)) => Ok(()),
            done => done,
        }
    }

    // Whether the lock was got isn't known where another master came up meanwhile: then it is let go.
    fn hold(&mut self) -> Result<(), Error> {
        match self.client.acquire(self.lock, LockMode::Exclusive) {
            Ok(()) => {
                let begin = self.now();
                let sequencer = self.client.sequencer(self.lock)?;
                let generation = self.client.stat(self.lock)?.lock_generation.unwrap_or(0);
                // (held still, so that generation is its own)
                self.client.check_sequencer(&sequencer)?;
                thread::sleep(Duration::from_millis(self.random.gen_range(0..5)));
                self.deeds.holds.push(Hold { client: self.client.number(), begin, end: self.now(), generation });
            }
            Err(Error::Refused(Refusal::Unknown)) => {}
            Err(error) => return Err(error),
        }
        loop {
            match self.client.release(self.lock) {
                Ok(()) | Err(Error::Refused(Refusal::NotHolder)) => return Ok(()),
                Err(Error::Refused(Refusal::Unknown)) => {}
                Err(error) => return Err(error),
            }
        }
    }
}

fn come(options: &Options) -> Result<(Client, Vec<Handle>, Handle), Error> {
    let client = Client::connect(options)?;
    let files = (0..FILES).map(|file| open(&client, &format!("/ls/c/f{file}"))).collect::<Result<_, _>>()?;
    let lock = open(&client, "/ls/c/lock")?;
    Ok((client, files, lock))
}

// Opens a file, which is made where there is none; again where another master came up meanwhile.
fn open(client: &Client, name: &str) -> Result<Handle, Error> {
    let create = Create { content: Some(Vec::new()), ..Create::default() };
    let opening = Opening { create: Some(create), ..Opening::new(name, Mode::READ.and(Mode::WRITE)) };
    loop {
        match client.open_with(&opening) {
            Err(Error::Refused(Refusal::Unknown)) => {}
            result => return result,
        }
    }
}

/// Whether what they read was there, and the lock was held by one at a time.
///
/// # Errors
///
/// What can't have been.
pub fn check_deeds(deeds: &[Deeds]) -> Result<(), String> {
    let mut writes: Vec<Write> = deeds.iter().flat_map(|deeds| deeds.writes.clone()).collect();
    // (a new file is empty)
    writes.extend((0..FILES).map(|file| Write { file, value: 0, begin: 0, end: Some(0) }));
    let reads: Vec<Read> = deeds.iter().flat_map(|deeds| deeds.reads.clone()).collect();
    check_history(&writes, &reads)?;
    let holds: Vec<Hold> = deeds.iter().flat_map(|deeds| deeds.holds.clone()).collect();
    check_holds(&holds)
}
