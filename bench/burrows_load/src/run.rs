//! One run: the cell is filled, the rates are held, and what was counted is told.

use crate::Options;
use crate::cell::{Cell, Programs, Used};
use crate::client::Step;
use crate::counts::{Counts, KINDS};
use crate::fail_overs::FailOver;
use crate::load::Load;
use crate::names::Names;
use crate::table::Table;
use crate::work::{self, Herd, Work};
use anyhow::{Context, Result, bail};
use mio::Events;
use nix::sys::resource::{Resource, getrlimit, setrlimit};
use rand::SeedableRng;
use rand::rngs::SmallRng;
use std::collections::{BTreeMap, HashSet};
use std::path::PathBuf;
use std::process::ExitCode;

/// So many events are taken at once.
const EVENTS: usize = 4096;

/// So many clients at once fill the cell: with more the answers of each only take longer.
const AT_ONCE: usize = 200;

/// So long a part of the filling may stand still.
const PATIENCE: u64 = 120_000;

/// Of so many clients a second the caches are tested.
const TESTED: usize = 500;

/// So many clients ask for something just before a kill.
const ASKING: usize = 50;

/// A fail-over is looked at for so long at most.
const LOOKED_AT: u64 = 120_000;

/// The columns of the lines, one a second.
pub const COLUMNS: &str = "second connected sessions jeopardy entries handles starts beats calls told read_p50 read_p99 read_p999 set_p99 server_cpu server_mb master_cpu master_mb own_cpu store_mb lost wrong";

struct Run {
    load: Load,
    work: Work,
    events: Events,
    /// Until when seconds were told of, and what was used then.
    told: u64,
    used: [Used; 3],
    /// All of the rates, and what of it was outside of fail-overs.
    all: Counts,
    quiet: Counts,
    over: Vec<String>,
}

/// Runs the load.
pub fn run(options: &Options) -> Result<ExitCode> {
    let mut table = Table::of(options.factor);
    table.clients = options.clients.unwrap_or(table.clients).max(24);
    raise_descriptors(table.clients as u64 + 100)?;
    let folder = options.folder.clone().unwrap_or_else(|| std::env::temp_dir().join(format!("burrows.{}", std::process::id())));
    if folder.join("cell.db").exists() {
        bail!("{} has a store already", folder.display());
    }
    let mut random = SmallRng::seed_from_u64(options.seed);
    let names = Names::new(&table, &mut random);
    let server = options.server.clone();
    let master = options.master.clone().unwrap_or_else(|| server.with_file_name("cellctl"));
    let programs = Programs { server, master, etcd: options.etcd.clone(), limits: options.limit.join("\n"), lease: options.lease };
    println!("{table:?}");
    let cell = Cell::start(programs, &folder)?;
    let load = Load::new(table, names, cell, random, !options.herded)?;
    let herd = Herd::new(options.shared, options.every * 1000);
    let work = Work::new(herd, options.refill * 1000, options.killed);
    let events = Events::with_capacity(EVENTS);
    let mut run =
        Run { load, work, events, told: 0, used: [Used::default(); 3], all: Counts::default(), quiet: Counts::default(), over: Vec::new() };
    println!("{COLUMNS}");
    run.fill()?;
    run.hold(options)?;
    let is_right = run.tell();
    drop(run);
    if options.folder.is_none() && is_right {
        std::fs::remove_dir_all(&folder)?;
    }
    Ok(if is_right { ExitCode::SUCCESS } else { ExitCode::FAILURE })
}

// As many descriptors as connections want, for this program and the server that it starts.
fn raise_descriptors(wanted: u64) -> Result<()> {
    let (_, most) = getrlimit(Resource::RLIMIT_NOFILE)?;
    let limit = most.max(wanted);
    setrlimit(Resource::RLIMIT_NOFILE, limit, limit).with_context(|| format!("{wanted} descriptors are wanted, and {most} may be had"))
}

impl Run {
    fn turn(&mut self) -> Result<()> {
        let next_second = (self.told + 1) * 1000;
        self.load.turn(&mut self.events, next_second.saturating_sub(self.load.now).clamp(1, 5))?;
        if self.load.now >= next_second {
            self.second();
        }
        Ok(())
    }

    // Until all sessions are there, and each part of what the table counts.
    fn fill(&mut self) -> Result<()> {
        let mut begun = self.load.now;
        let mut least = usize::MAX;
        while self.load.sessions().0 < self.load.table.clients {
            self.turn()?;
            self.is_going_on(&mut begun, &mut least, self.load.table.clients - self.load.sessions().0)?;
        }
        println!("# {} sessions after {:.1} s", self.load.table.clients, self.load.now as f64 / 1000.0);
        for part in work::names(&mut self.load) {
            self.fill_part(part, "names")?;
        }
        let holdings = work::holdings(&mut self.load, &self.work.herd);
        self.fill_part(holdings, "holdings")
    }

    // So many clients at once do what there is to do.
    fn fill_part(&mut self, part: Vec<(usize, Vec<Step>)>, what: &str) -> Result<()> {
        let (begun, count) = (self.load.now, part.iter().map(|(_, steps)| steps.len()).sum::<usize>());
        let mut steps: BTreeMap<usize, Vec<Step>> = BTreeMap::new();
        for (slot, more) in part {
            steps.entry(slot).or_default().extend(more);
        }
        let (mut active, mut since, mut least) = (Vec::new(), self.load.now, usize::MAX);
        loop {
            active.retain(|slot| !self.load.is_idle(*slot));
            while active.len() < AT_ONCE
                && let Some((slot, steps)) = steps.pop_first()
            {
                self.load.give(slot, &steps);
                active.push(slot);
            }
            if active.is_empty() {
                break;
            }
            let left = steps.len() * count + active.iter().map(|slot| self.load.clients[*slot].plan.len() + 1).sum::<usize>();
            self.is_going_on(&mut since, &mut least, left)?;
            self.turn()?;
        }
        println!("# {what}: {count} calls in {:.1} s", (self.load.now - begun) as f64 / 1000.0);
        Ok(())
    }

    fn is_going_on(&self, since: &mut u64, least: &mut usize, left: usize) -> Result<()> {
        if left < *least {
            (*since, *least) = (self.load.now, left);
        }
        if self.load.now - *since > PATIENCE {
            bail!("it stands still, with {left} left to do");
        }
        Ok(())
    }

    // The rates, for so long; and kills, each once the one before is over.
    fn hold(&mut self, options: &Options) -> Result<()> {
        let begun = self.load.now;
        println!("# the rates begin at {:.1} s", begun as f64 / 1000.0);
        (self.all, self.quiet) = (Counts::default(), Counts::default());
        self.load.totals.put_off = 0;
        self.work.begin(&self.load);
        let mut kills = options.kill.clone();
        kills.sort_by_key(|(_, at)| *at);
        let mut kills = kills.into_iter().peekable();
        while self.load.now < begun + options.seconds * 1000 || self.load.fail_over.is_some() {
            self.turn()?;
            self.work.turn(&mut self.load);
            self.end_fail_over();
            if self.load.fail_over.is_none()
                && let Some((kind, _)) = kills.next_if(|(_, at)| self.load.now >= begun + at * 1000)
            {
                self.kill(kind)?;
            }
        }
        Ok(())
    }

    fn kill(&mut self, kind: crate::cell::Kill) -> Result<()> {
        for _ in 0..ASKING {
            self.work.ask_one(&mut self.load);
        }
        let slots = |is: &dyn Fn(&crate::client::Client) -> bool| -> HashSet<u32> {
            (0..self.load.clients.len()).filter(|slot| is(&self.load.clients[*slot])).map(|slot| slot as u32).collect()
        };
        let over = FailOver::new(kind, self.load.now, slots(&|client| client.has_session()), slots(&|client| client.asked.is_some()));
        println!("# {kind:?} is killed at {:.1} s", self.load.now as f64 / 1000.0);
        self.load.cell.kill(kind)?;
        self.load.fail_over = Some(over);
        Ok(())
    }

    fn end_fail_over(&mut self) {
        let is_over = |over: &FailOver| over.is_over() || self.load.now > over.at + LOOKED_AT;
        if self.load.fail_over.as_ref().is_some_and(is_over)
            && let Some(over) = self.load.fail_over.take()
        {
            println!("{}", over.text());
            self.over.push(over.text());
        }
    }

    // A line of this second.
    fn second(&mut self) {
        let (server, master) = self.load.cell.used();
        let used = [server, master, Used::of(std::process::id())];
        let seconds = (self.load.now / 1000 - self.told) as f64;
        let part = |at: usize| 100.0 * (used[at].seconds - self.used[at].seconds).max(0.0) / seconds;
        let counts = std::mem::take(&mut self.load.counts);
        let (reads, sets) = (counts.times(&["reads", "stats", "opens"]), counts.times(&["sets"]));
        let (sessions, jeopardy) = self.load.sessions();
        let entries: usize = self.load.clients.iter().map(|client| client.cache.len()).sum();
        let handles: usize = self.load.clients.iter().map(|client| client.handles.len()).sum();
        let megabytes = |bytes: u64| bytes as f64 / 1e6;
        println!(
            "{} {} {sessions} {jeopardy} {entries} {handles} {} {} {} {} {:.1} {:.1} {:.1} {:.1} {:.0} {:.1} {:.0} {:.1} {:.0} {:.1} {} {}",
            self.load.now / 1000,
            self.load.connected(),
            counts.sent[0],
            counts.sent[1],
            counts.sent[2..].iter().sum::<u64>(),
            counts.told,
            reads.at(0.5),
            reads.at(0.99),
            reads.at(0.999),
            sets.at(0.99),
            part(0),
            megabytes(used[0].memory),
            part(1),
            megabytes(used[1].memory),
            part(2),
            megabytes(self.load.cell.stored()),
            self.load.totals.lost,
            self.load.totals.wrong,
        );
        match &mut self.load.fail_over {
            Some(over) => over.counts.add(&counts),
            None => self.quiet.add(&counts),
        }
        self.all.add(&counts);
        (self.told, self.used) = (self.load.now / 1000, used);
        self.load.test_hits(TESTED);
    }

    // What was counted; whether all was right.
    fn tell(&self) -> bool {
        let totals = self.load.totals;
        for line in &self.over {
            println!("{line}");
        }
        for (name, counts) in [("outside of fail-overs", &self.quiet), ("in all", &self.all)] {
            for kind in &KINDS[2..] {
                let times = counts.times(&[*kind]);
                if times.count() > 0 {
                    println!("{kind} {name}: {}", times.text());
                }
            }
        }
        println!("{totals:?}");
        totals.wrong == 0 && totals.lost == 0
    }
}

/// Where the lines of a run are drawn.
pub fn beside(lines: &std::path::Path) -> PathBuf {
    lines.with_extension("svg")
}
