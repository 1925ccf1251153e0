//! Three members of an etcd and three servers on this machine, one cell over them, and eight clients over a bad network. Masters and
//! members are killed, masters are stopped for longer than a mastership and go on, and servers are cut off from etcd, but not from their
//! clients. What was read was there, the lock was held by one at a time, and no replaced master has committed. `hosts/check_replicated`
//! runs it.

mod etcd;
mod machines;

use etcd::{Commit, check_commits};
use machines::{Cell, Trouble};
use std::error::Error;
use std::process::ExitCode;
use std::sync::atomic::{AtomicBool, Ordering};
use std::thread;
use std::time::{Duration, Instant};
use tillermoss::Options;
use trials::{Deeds, Passing, Rules, Worker, check_deeds};

/// What a trial comes to.
type Tried<T> = Result<T, Box<dyn Error + Send + Sync>>;

const SEED: u64 = 20_061_106;
const CLIENTS: u64 = 8;

/// How long a call is tried again: longer than any recovery.
const PATIENCE: Duration = Duration::from_secs(180);

/// How long a server is cut off that has nothing to write.
const QUIET: Duration = Duration::from_secs(80);

/// What the words ask for.
struct Words {
    rounds: usize,
    troubles: Vec<Trouble>,
    calm: Duration,
}

fn words() -> Tried<Words> {
    let words: Vec<String> = std::env::args().skip(1).collect();
    let rounds = words.first().map_or(Ok(10), |word| word.parse())?;
    let kinds = words.get(1).map_or("kill,stop,cut,member,wake,members,stuck,child,shot,quiet", String::as_str);
    let troubles = kinds.split(',').map(str::parse).collect::<Result<_, _>>()?;
    let calm = words.get(2).map_or(Ok(8), |word| word.parse())?;
    Ok(Words { rounds, troubles, calm: Duration::from_secs(calm) })
}

fn main() -> ExitCode {
    match words().and_then(|words| run(&words)) {
        Ok(()) => ExitCode::SUCCESS,
        Err(fault) => {
            eprintln!("replicated: {fault}");
            ExitCode::FAILURE
        }
    }
}

fn run(words: &Words) -> Tried<()> {
    let mut cell = Cell::start(SEED)?;
    let etcd = cell.etcd.clone();
    let commits = thread::spawn(move || etcd.commits());
    let begun = Instant::now();
    let workers = (0..CLIENTS).map(|number| worker(&cell, number, begun)).collect::<Tried<Vec<Worker>>>()?;
    let rules = Rules { may_lose: true, ..Rules::default() };
    let (mut deeds, (kills, others)) = thread::scope(|scope| {
        let rules = &rules;
        let working: Vec<_> = workers.into_iter().map(|worker| scope.spawn(move || worker.work(rules))).collect();
        let troubled = trouble(words, &mut cell, begun, rules);
        rules.is_over.store(true, Ordering::Relaxed);
        let deeds: Tried<Vec<Deeds>> = working.into_iter().map(|worker| Ok(worker.join().map_err(|_| "a client panicked")??)).collect();
        Ok::<_, Box<dyn Error + Send + Sync>>((deeds?, troubled?))
    })?;
    let lost: usize = deeds.iter().map(|deeds| deeds.lost).sum();
    deeds.extend(others);
    let last = finish(&cell, begun)?;
    let etcd = cell.etcd.clone();
    etcd.end()?;
    let commits = commits.join().map_err(|_| "who watches the commits panicked")??;
    let told = cell.close()?;
    tell(words, &cell, &deeds, &kills, &commits);
    println!("{told}");
    let mut all = deeds;
    all.push(last);
    check_deeds(&all)?;
    println!("keepers that wrote: {}, each in a row", check_commits(&commits)? + 1);
    if lost > 0 {
        return Err(format!("{lost} sessions were lost").into());
    }
    let acted: usize = all.iter().map(|deeds| deeds.reads.len()).sum();
    if acted < 1000 { Err("too little was read".into()) } else { Ok(()) }
}

// The last two know one server alone, and stay with that one while it is master. (If it is cut off from etcd it tells them of another.)
fn worker(cell: &Cell, number: u64, begun: Instant) -> Tried<Worker> {
    let places = match number.checked_sub(CLIENTS - 2) {
        Some(at) => cell.place(at as usize),
        None => cell.places(),
    };
    come(&places, SEED + number, begun)
}

// (the network may cut off one that comes)
fn come(places: &str, seed: u64, begun: Instant) -> Tried<Worker> {
    let trying = Instant::now();
    loop {
        match Worker::new(&options(places), seed, begun) {
            Err(_) if trying.elapsed() < PATIENCE => thread::sleep(Duration::from_millis(100)),
            worker => return Ok(worker?),
        }
    }
}

fn options(places: &str) -> Options {
    Options { patience: PATIENCE, ..Options::new(places, "ann") }
}

// Makes trouble, and gives the moments at which masters were killed, and what others did meanwhile.
fn trouble(words: &Words, cell: &mut Cell, begun: Instant, rules: &Rules) -> Tried<(Vec<u64>, Vec<Deeds>)> {
    let (mut kills, mut others) = (Vec::new(), Vec::new());
    for round in 0..words.rounds {
        for trouble in &words.troubles {
            thread::sleep(words.calm);
            let at = cell.master()?;
            eprintln!("{} s: {trouble:?}, the server {at} is master", begun.elapsed().as_secs());
            if *trouble == Trouble::Kill {
                kills.push(begun.elapsed().as_nanos() as u64);
            }
            if *trouble == Trouble::Quiet {
                others.push(stay_quiet(cell, at, begun, rules)?);
            } else {
                cell.make(*trouble, at, round)?;
            }
        }
    }
    thread::sleep(2 * words.calm);
    Ok((kills, others))
}

// The clients only read, so that nothing is asked of etcd, and their server is cut off from it for longer than any session lasts that
// no master hears of. Another client comes meanwhile to the other servers, and writes.
fn stay_quiet(cell: &Cell, at: usize, begun: Instant, rules: &Rules) -> Tried<Deeds> {
    rules.is_quiet.store(true, Ordering::Relaxed);
    thread::sleep(Duration::from_secs(2));
    cell.cut(at, Passing::Nothing);
    thread::sleep(Duration::from_secs(8));
    let writer = come(&cell.places_but(at), SEED + CLIENTS + begun.elapsed().as_secs(), begun)?;
    let is_over = AtomicBool::new(false);
    let wrote = thread::scope(|scope| {
        let writing = scope.spawn(|| writer.write_on(&is_over));
        thread::sleep(QUIET.saturating_sub(Duration::from_secs(8)));
        is_over.store(true, Ordering::Relaxed);
        writing.join().map_err(|_| "the writer panicked")
    })?;
    cell.cut(at, Passing::All);
    rules.is_quiet.store(false, Ordering::Relaxed);
    Ok(wrote?)
}

// What a new client reads at the end.
fn finish(cell: &Cell, begun: Instant) -> Tried<Deeds> {
    let mut worker = come(&cell.places(), SEED, begun)?;
    worker.read_all()?;
    Ok(worker.deeds())
}

// How many seconds after each kill a server answered a read. (An answer may be on its way when its master is killed.)
fn fail_overs(deeds: &[Deeds], kills: &[u64]) -> Vec<f64> {
    const ON_ITS_WAY: u64 = 1_000_000_000;
    let answered = |kill: u64| deeds.iter().flat_map(|deeds| &deeds.answered).filter(move |at| **at > kill + ON_ITS_WAY).min();
    kills.iter().filter_map(|kill| answered(*kill).map(|at| (at - kill) as f64 / 1e9)).collect()
}

fn tell(words: &Words, cell: &Cell, deeds: &[Deeds], kills: &[u64], commits: &[Commit]) {
    let sum = |count: fn(&Deeds) -> usize| deeds.iter().map(count).sum::<usize>();
    let unknown = sum(|deeds| deeds.writes.iter().filter(|write| write.end.is_none()).count());
    let (reads, served, writes, holds) =
        (sum(|deeds| deeds.reads.len()), sum(|deeds| deeds.served), sum(|deeds| deeds.writes.len()), sum(|deeds| deeds.holds.len()));
    println!("{} rounds of {:?}, {} s of calm before each", words.rounds, words.troubles, words.calm.as_secs());
    println!("reads {reads}, {served} of them out of caches; writes {writes}, of {unknown} it isn't known whether; holds {holds}");
    println!("sessions lost {}; {}", sum(|deeds| deeds.lost), cell.network());
    let mut masters: Vec<i64> = commits.iter().map(|commit| commit.by).filter(|by| *by > 0).collect();
    masters.dedup();
    println!("commits {}, by {} masterships", commits.len(), masters.len());
    let mut fail_overs = fail_overs(deeds, kills);
    fail_overs.sort_by(f64::total_cmp);
    if let [first, .., last] = fail_overs[..] {
        println!(
            "from a kill to the first read that a server answered: {first:.1} to {last:.1} s, the median {:.1}",
            fail_overs[fail_overs.len() / 2]
        );
    } else {
        println!("from a kill to the first read that a server answered: {fail_overs:.1?} s");
    }
}
