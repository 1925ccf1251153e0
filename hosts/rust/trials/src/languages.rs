//! Clients in any language, each by the driver that does what it is told (hosts/conformance), at a real server that is killed again and
//! again: what they read was there.

use crate::history::{Read, Write};
use crate::servers::{Kill, Server, Start, free};
use crate::workers::{Deeds, FILES, check_deeds};
use rand::rngs::StdRng;
use rand::{Rng, SeedableRng};
use std::error::Error;
use std::io::{self, BufRead, BufReader, Write as _};
use std::path::Path;
use std::process::{Child, ChildStdin, ChildStdout, Command, Stdio};
use std::sync::atomic::{AtomicBool, Ordering};
use std::thread;
use std::time::{Duration, Instant};

/// How long a client asks again what is refused for now, in milliseconds.
const PATIENCE: u32 = 90_000;

/// A driver that runs.
#[derive(Debug)]
struct Driver {
    child: Child,
    words: ChildStdin,
    said: BufReader<ChildStdout>,
    address: String,
    number: u64,
    random: StdRng,
    begun: Instant,
    deeds: Deeds,
}

impl Driver {
    fn start(command: &[String], address: &str, number: u64, begun: Instant) -> io::Result<Driver> {
        let (program, words) = command.split_first().ok_or_else(|| io::Error::other("no program"))?;
        let mut child = Command::new(program).args(words).stdin(Stdio::piped()).stdout(Stdio::piped()).spawn()?;
        let (Some(words), Some(said)) = (child.stdin.take(), child.stdout.take()) else {
            return Err(io::Error::other("a driver without streams"));
        };
        let (said, address, random) = (BufReader::new(said), address.to_owned(), StdRng::seed_from_u64(number));
        let mut driver = Driver { child, words, said, address, number, random, begun, deeds: Deeds::default() };
        driver.connect()?;
        Ok(driver)
    }

    // One line is done at a time.
    fn ask(&mut self, words: &str) -> io::Result<String> {
        writeln!(self.words, "1 {words}")?;
        let mut line = String::new();
        if self.said.read_line(&mut line)? == 0 {
            return Err(io::Error::other(format!("driver {} has ended at {words}", self.number)));
        }
        Ok(line.trim_end().strip_prefix("1 ").unwrap_or_default().to_owned())
    }

    fn connect(&mut self) -> io::Result<()> {
        let said = self.ask(&format!("connect {} {PATIENCE}", self.address))?;
        let opened = (0..FILES).map(|file| self.ask(&format!("open f{file} /ls/c/f{file}"))).collect::<io::Result<Vec<_>>>()?;
        let is_done = said == "connected" && opened.iter().all(|opened| opened.starts_with("opened"));
        if is_done { Ok(()) } else { Err(io::Error::other(format!("driver {}: {said} {opened:?}", self.number))) }
    }

    fn now(&self) -> u64 {
        self.begun.elapsed().as_nanos() as u64
    }

    fn work(mut self, is_over: &AtomicBool) -> io::Result<Deeds> {
        while !is_over.load(Ordering::Relaxed) {
            let file = self.random.gen_range(0..FILES);
            let is_lost = if self.random.gen_range(0..20) < 17 { self.read(file)? } else { self.write(file)? };
            if is_lost {
                self.deeds.lost += 1;
                self.connect()?;
            }
            thread::sleep(Duration::from_micros(self.random.gen_range(0..4000)));
        }
        Ok(std::mem::take(&mut self.deeds))
    }

    // Whether the session is lost. (A view of a driver has no generation: each value has one of its own.)
    fn read(&mut self, file: usize) -> io::Result<bool> {
        let begin = self.now();
        let said = self.ask(&format!("read f{file}"))?;
        let end = self.now();
        let words: Vec<&str> = said.split(' ').collect();
        let (content, whose) = match words[..] {
            ["view", content, whose] => (content, whose),
            ["view", whose] => ("", whose),
            _ => return Ok(true),
        };
        let value = if content.is_empty() { 0 } else { u64::from_str_radix(content, 16).map_err(io::Error::other)? };
        self.deeds.reads.push(Read { file, value, generation: value, begin, end });
        self.deeds.served += usize::from(whose == "cache");
        Ok(false)
    }

    // (what became of one that isn't answered nobody knows)
    fn write(&mut self, file: usize) -> io::Result<bool> {
        let value = self.number << 32 | (self.deeds.writes.len() as u64 + 1);
        let begin = self.now();
        let said = self.ask(&format!("set f{file} {value:016x}"))?;
        let end = (said == "done").then(|| self.now());
        self.deeds.writes.push(Write { file, value, begin, end });
        Ok(said != "done" && said != "refused 34")
    }
}

impl Drop for Driver {
    fn drop(&mut self) {
        // (one that has ended is killed already)
        let _ = self.child.kill();
        let _ = self.child.wait();
    }
}

fn kill_in_turn(start: &Start, server: &mut Server, lasting: Duration, between: Duration) -> io::Result<usize> {
    let begun = Instant::now();
    // (None: its master alone, which the server replaces)
    for (count, kill) in [Some(Kill::Server), Some(Kill::InOrder), None].into_iter().cycle().enumerate() {
        thread::sleep(between);
        if begun.elapsed() >= lasting {
            return Ok(count);
        }
        match kill {
            None => server.kill_master()?,
            Some(kill) => {
                server.kill(kill)?;
                *server = start.start()?;
            }
        }
    }
    Ok(0)
}

/// Runs these drivers for so long at a server that is killed in turn, so long after the last time: how many kills there were, and what
/// each driver did, where all that was read was there.
///
/// # Errors
///
/// What can't have been; or why there is no run.
pub fn run_languages(
    folder: &Path,
    drivers: &[Vec<String>],
    lasting: Duration,
    between: Duration,
) -> Result<(usize, Vec<Deeds>), Box<dyn Error>> {
    let address = format!("tcp:{}", free());
    let start = Start::new(&folder.join("store.db")).with(&[&address]);
    let mut server = start.start()?;
    let maker = tillermoss::Client::connect(&tillermoss::Options::new(&address, "ann"))?;
    (0..FILES).try_for_each(|file| maker.create(&format!("/ls/c/f{file}"), b"").map(|_| ()))?;
    maker.leave()?;
    let (begun, is_over, place) = (Instant::now(), AtomicBool::new(false), address.trim_start_matches("tcp:"));
    let started = drivers.iter().zip(1..).map(|(command, number)| Driver::start(command, place, number, begun));
    let started = started.collect::<io::Result<Vec<_>>>()?;
    let (killed, deeds) = thread::scope(|scope| {
        let working: Vec<_> = started.into_iter().map(|driver| scope.spawn(|| driver.work(&is_over))).collect();
        let killed = kill_in_turn(&start, &mut server, lasting, between);
        is_over.store(true, Ordering::Relaxed);
        let join = |one: thread::ScopedJoinHandle<'_, io::Result<Deeds>>| one.join().map_err(|_| io::Error::other("a driver failed"))?;
        (killed, working.into_iter().map(join).collect::<io::Result<Vec<_>>>())
    });
    let deeds = deeds?;
    check_deeds(&deeds)?;
    Ok((killed?, deeds))
}
