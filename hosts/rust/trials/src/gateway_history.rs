//! Readers and writers at two gateways and at the server itself, while servers are killed, and servers and gateways are stopped for a
//! while: what was read was there.

use crate::asking::{Asked, Asking};
use crate::gateways::GatewayProcess;
use crate::servers::{Kill, Server, Start, free};
use crate::workers::{Deeds, Rules, Worker, check_deeds};
use nix::sys::signal::Signal;
use std::error::Error;
use std::path::Path;
use std::sync::atomic::Ordering;
use std::thread;
use std::time::{Duration, Instant};
use tillermoss::Options;

/// How many ask each gateway, and so many the server.
const ASKING: u64 = 4;
const WORKERS: u64 = 3;

/// What is done to the cell, in turn.
#[derive(Clone, Copy, Debug, PartialEq, Eq)]
pub enum Trouble {
    /// The server is killed, and another started.
    Killed,
    /// The server goes in order, and another is started.
    InOrder,
    /// The master alone is killed.
    Master,
    /// The server is stopped for so many seconds: gateways are cut off from their cell.
    ServerStopped(u64),
    /// A gateway is stopped for so many seconds.
    GatewayStopped(u64),
}

/// What came of a run.
#[derive(Clone, Debug, Default)]
pub struct Tally {
    /// Answers of gateways with a content.
    pub reads: usize,
    /// Of these, those that their cache held.
    pub served: usize,
    /// Answers that said that the gateway doesn't know.
    pub refused: usize,
    /// Writes by HTTP, and those whose outcome isn't known.
    pub writes: (usize, usize),
    /// Reads and writes by the server's own clients.
    pub others: (usize, usize),
}

/// A cell under a history.
struct Cell<'a> {
    start: Start,
    server: Server,
    gateways: &'a [GatewayProcess; 2],
}

impl Cell<'_> {
    fn meet(&mut self, trouble: Trouble, turn: usize) -> Result<(), Box<dyn Error>> {
        let kill = match trouble {
            Trouble::Master => return Ok(self.server.kill_master()?),
            Trouble::ServerStopped(seconds) => {
                self.server.signal(Signal::SIGSTOP)?;
                thread::sleep(Duration::from_secs(seconds));
                return Ok(self.server.signal(Signal::SIGCONT)?);
            }
            Trouble::GatewayStopped(seconds) => {
                let gateway = &self.gateways[turn % 2];
                gateway.signal(Signal::SIGSTOP)?;
                thread::sleep(Duration::from_secs(seconds));
                return Ok(gateway.signal(Signal::SIGCONT)?);
            }
            Trouble::Killed => Kill::Server,
            Trouble::InOrder => Kill::InOrder,
        };
        self.server.kill(kill)?;
        self.server = self.start.start()?;
        Ok(())
    }
}

/// Runs these troubles in turn, with so long between two, in this folder; what came of it, where all that was read was there.
///
/// # Errors
///
/// What can't have been; or why there is no run.
pub fn run_gateway_history(folder: &Path, troubles: &[Trouble], between: Duration) -> Result<Tally, Box<dyn Error>> {
    let address = format!("tcp:{}", free());
    let start = Start::new(&folder.join("store.db")).with(&[&address]);
    let server = start.start()?;
    let words = ["0", "--server", &address, "--as", "ann"];
    let gateways = [GatewayProcess::start(folder, &words)?, GatewayProcess::start(folder, &words)?];
    let (begun, rules) = (Instant::now(), Rules { may_lose: true, ..Rules::default() });
    let options = Options::new(&address, "ann");
    let workers = (0..WORKERS).map(|number| Worker::new(&options, number, begun)).collect::<Result<Vec<_>, _>>()?;
    let asking = |number| Asking::new(gateways[number as usize % 2].place(), number, number, begun);
    let asking: Vec<Asking> = (0..2 * ASKING).map(asking).collect();
    let mut cell = Cell { start, server, gateways: &gateways };
    let (asked, deeds) = thread::scope(|scope| {
        let asking: Vec<_> = asking.into_iter().map(|one| scope.spawn(|| one.work(&rules.is_over))).collect();
        let working: Vec<_> = workers.into_iter().map(|worker| scope.spawn(|| worker.work(&rules))).collect();
        let met = troubles.iter().enumerate().try_for_each(|(turn, trouble)| {
            thread::sleep(between);
            cell.meet(*trouble, turn)
        });
        thread::sleep(between);
        rules.is_over.store(true, Ordering::Relaxed);
        let asked: Result<Vec<Asked>, String> = asking.into_iter().map(|one| one.join().map_err(|_| "one who asks failed")?).collect();
        let deeds: Result<Vec<Deeds>, String> =
            working.into_iter().map(|one| one.join().map_err(|_| "a worker failed")?.map_err(|error| error.to_string())).collect();
        met.map(|()| (asked, deeds))
    })?;
    judged(&asked?, &deeds?)
}

fn judged(asked: &[Asked], deeds: &[Deeds]) -> Result<Tally, Box<dyn Error>> {
    let all: Vec<Deeds> = asked.iter().map(|one| one.deeds.clone()).chain(deeds.iter().cloned()).collect();
    check_deeds(&all)?;
    let sum = |count: fn(&Asked) -> usize| asked.iter().map(count).sum::<usize>();
    let of = |count: fn(&Deeds) -> usize| deeds.iter().map(count).sum::<usize>();
    Ok(Tally {
        reads: sum(|one| one.deeds.reads.len()),
        served: sum(|one| one.deeds.served),
        refused: sum(|one| one.refused),
        writes: (sum(|one| one.deeds.writes.len()), sum(|one| one.deeds.writes.iter().filter(|write| write.end.is_none()).count())),
        others: (of(|one| one.reads.len()), of(|one| one.writes.len())),
    })
}
