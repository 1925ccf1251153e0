//! Who reads and writes files through a gateway by HTTP, and notes what came of it.

use crate::history::{Read, Write};
use crate::workers::{Deeds, FILES};
use rand::rngs::StdRng;
use rand::{Rng, SeedableRng};
use std::io::Read as _;
use std::sync::atomic::{AtomicBool, Ordering};
use std::thread;
use std::time::{Duration, Instant};
use ureq::{Agent, AgentBuilder, Response};

/// How long an answer is waited for: longer than a gateway takes for the longest.
const LONGEST: Duration = Duration::from_secs(120);

/// One who asks a gateway, over connections that are kept.
#[derive(Debug)]
pub struct Asking {
    agent: Agent,
    place: String,
    number: u64,
    random: StdRng,
    begun: Instant,
    deeds: Deeds,
    /// How many answers said that the gateway doesn't know now.
    refused: usize,
}

/// What one of them did.
#[derive(Clone, Debug, Default)]
pub struct Asked {
    /// What it read and wrote.
    pub deeds: Deeds,
    /// How many answers said that the gateway doesn't know now.
    pub refused: usize,
}

impl Asking {
    /// One of this number, at a gateway of this place. What it does hangs on the seed; its moments are since `begun`.
    #[must_use]
    pub fn new(place: &str, number: u64, seed: u64, begun: Instant) -> Asking {
        let agent = AgentBuilder::new().timeout(LONGEST).build();
        let random = StdRng::seed_from_u64(seed);
        Asking { agent, place: place.to_owned(), number, random, begun, deeds: Deeds::default(), refused: 0 }
    }

    fn now(&self) -> u64 {
        self.begun.elapsed().as_nanos() as u64
    }

    /// Reads, and writes a little, until it is over.
    ///
    /// # Errors
    ///
    /// What a gateway shouldn't answer.
    pub fn work(mut self, is_over: &AtomicBool) -> Result<Asked, String> {
        while !is_over.load(Ordering::Relaxed) {
            let file = self.random.gen_range(0..FILES);
            match self.random.gen_range(0..20) {
                0..19 => self.read(file)?,
                _ => self.write(file)?,
            }
            thread::sleep(Duration::from_micros(self.random.gen_range(0..4000)));
        }
        Ok(Asked { deeds: self.deeds, refused: self.refused })
    }

    // (an answer that never comes shows nothing)
    fn read(&mut self, file: usize) -> Result<(), String> {
        let begin = self.now();
        let answered = self.agent.get(&format!("http://{}/v1/file/f{file}", self.place)).call();
        let response = match answered {
            Ok(response) => response,
            Err(ureq::Error::Status(503, _) | ureq::Error::Transport(_)) => {
                self.refused += 1;
                return Ok(());
            }
            Err(ureq::Error::Status(status, response)) => return Err(format!("a read: {status}: {:?}", response.into_string())),
        };
        let generation = generation(&response).ok_or_else(|| format!("no ETag: {response:?}"))?;
        let lease = response.header("tillermoss-lease").and_then(|lease| lease.parse::<u64>().ok()).unwrap_or(0);
        let mut content = Vec::new();
        if response.into_reader().read_to_end(&mut content).is_err() {
            return Ok(());
        }
        let end = self.now();
        let value = content.try_into().map_or(0, u64::from_be_bytes);
        self.deeds.reads.push(Read { file, value, generation, begin, end });
        // (a master that is asked while a change waits lets nobody keep its answer)
        self.deeds.served += usize::from(lease > 0);
        Ok(())
    }

    fn write(&mut self, file: usize) -> Result<(), String> {
        let value = (1 << 60) | self.number << 32 | (self.deeds.writes.len() as u64 + 1);
        let begin = self.now();
        let answered = self.agent.put(&format!("http://{}/v1/file/f{file}", self.place)).send_bytes(&value.to_be_bytes());
        let (end, refused) = match answered {
            Ok(_) => (Some(self.now()), false),
            Err(ureq::Error::Status(503 | 504, _) | ureq::Error::Transport(_)) => (None, true),
            Err(ureq::Error::Status(status, response)) => return Err(format!("a write: {status}: {:?}", response.into_string())),
        };
        self.refused += usize::from(refused);
        self.deeds.writes.push(Write { file, value, begin, end });
        Ok(())
    }
}

fn generation(response: &Response) -> Option<u64> {
    response.header("etag")?.trim_matches('"').split_once('.')?.1.parse().ok()
}
