//! The members of the etcd, the servers, the networks between them, and what goes wrong with these.

use crate::Tried;
use crate::etcd::Etcd;
use nix::sys::signal::{Signal, kill};
use nix::unistd::Pid;
use serde_json::Value;
use std::fs::{self, File};
use std::net::{SocketAddr, TcpListener};
use std::path::{Path, PathBuf};
use std::process::{Child, Command, Stdio};
use std::str::FromStr;
use std::sync::atomic::Ordering;
use std::thread;
use std::time::{Duration, Instant};
use tempfile::TempDir;
use trials::{Holder, Passing, Proxy, Relay, guards, master_program, masters, program};

/// How many members, and so many servers.
const MACHINES: usize = 3;

/// How long a server is away that was killed, and a member.
const SERVER_AWAY: Duration = Duration::from_secs(3);
const MEMBER_AWAY: Duration = Duration::from_secs(10);

/// How long a server is stopped, and so long it is cut off.
const STOPPED: Duration = Duration::from_secs(30);
const CUT_OFF: Duration = Duration::from_secs(15);

/// How long two members are stopped at once: for longer than a mastership lasts.
const MEMBERS_STOPPED: Duration = Duration::from_secs(10);

/// How long a server may take to go beside a master that is stuck: its own bound, and what a busy machine adds.
const GOING: Duration = Duration::from_secs(20);

/// How long the next master has to come up while a commit of the one before it is held back.
const COMING_UP: Duration = Duration::from_secs(1);

/// What a server says that has shot its master.
const REPLACED: &str = "the master is gone; another takes its place";

/// What one says whose mastership was over before.
const ENDED: &str = "the mastership has ended";

/// How often a commit is held back until the server shoots its master.
const TRIES: usize = 5;

/// How long there may be no master.
const WITHOUT: Duration = Duration::from_secs(60);

/// What goes wrong.
#[derive(Clone, Copy, Debug, PartialEq, Eq)]
pub enum Trouble {
    /// The server that is master is killed, with its master.
    Kill,
    /// It is stopped for longer than its mastership lasts, and goes on.
    Stop,
    /// It is cut off from etcd, but not from its clients.
    Cut,
    /// A member of the etcd is killed, and comes back.
    Member,
    /// It is stopped until another server has taken over, and goes on at once.
    Wake,
    /// Two members of the etcd are stopped, and go on.
    Members,
    /// It is told to go while its master is stopped, and comes back.
    Stuck,
    /// Its master alone is killed.
    Child,
    /// A commit is held back until the server has shot its master and started the next one, and is done then.
    Shot,
    /// It is cut off for longer than any session lasts that no master hears of, while its clients only read and another writes.
    Quiet,
}

impl FromStr for Trouble {
    type Err = String;

    fn from_str(word: &str) -> Result<Trouble, String> {
        match word {
            "kill" => Ok(Trouble::Kill),
            "stop" => Ok(Trouble::Stop),
            "cut" => Ok(Trouble::Cut),
            "member" => Ok(Trouble::Member),
            "wake" => Ok(Trouble::Wake),
            "members" => Ok(Trouble::Members),
            "stuck" => Ok(Trouble::Stuck),
            "child" => Ok(Trouble::Child),
            "shot" => Ok(Trouble::Shot),
            "quiet" => Ok(Trouble::Quiet),
            _ => Err(format!("{word}: kill, stop, cut, member, wake, members, stuck, child, shot or quiet")),
        }
    }
}

/// One server, its addresses, and its networks.
struct Server {
    child: Child,
    words: Vec<String>,
    log: PathBuf,
    proxy: Proxy,
    relays: Vec<Relay>,
    holders: Vec<Holder>,
}

/// All of it.
pub struct Cell {
    folder: TempDir,
    members: Vec<(Child, Vec<String>)>,
    servers: Vec<Server>,
    /// The members.
    pub etcd: Etcd,
}

fn free() -> Tried<SocketAddr> {
    Ok(TcpListener::bind("127.0.0.1:0")?.local_addr()?)
}

fn start_member(words: &[String]) -> Tried<Child> {
    let mut command = Command::new("etcd");
    command.args(words).stdin(Stdio::null()).stdout(Stdio::null()).stderr(Stdio::null());
    Ok(command.spawn().map_err(|error| format!("starting etcd (Debian: apt-get install etcd-server): {error}"))?)
}

fn start_server(words: &[String], log: &Path) -> Tried<Child> {
    let log = File::options().create(true).append(true).open(log)?;
    Ok(Command::new(program("tillermossd")).args(words).stdin(Stdio::null()).stdout(Stdio::null()).stderr(log).spawn()?)
}

fn run(program: &Path, words: &[&str]) -> Tried<String> {
    let done = Command::new(program).args(words).stdin(Stdio::null()).output()?;
    if !done.status.success() {
        let said = String::from_utf8_lossy(&done.stderr);
        return Err(format!("{} {words:?}: {}: {said}", program.display(), done.status).into());
    }
    Ok(String::from_utf8_lossy(&done.stdout).trim().to_owned())
}

fn tell(process: u32, signal: Signal) {
    // (one that is gone needs none)
    let _ = kill(Pid::from_raw(process.cast_signed()), signal);
}

// Stops processes for so long.
fn stop_for(processes: &[u32], lasting: Duration) {
    processes.iter().for_each(|it| tell(*it, Signal::SIGSTOP));
    thread::sleep(lasting);
    processes.iter().for_each(|it| tell(*it, Signal::SIGCONT));
}

impl Cell {
    /// Starts them, over the rows of a new cell that are copied into etcd.
    pub fn start(seed: u64) -> Tried<Cell> {
        let folder = tempfile::tempdir()?;
        let (clients, peers) =
            ((0..MACHINES).map(|_| free()).collect::<Tried<Vec<_>>>()?, (0..MACHINES).map(|_| free()).collect::<Tried<Vec<_>>>()?);
        let cluster: Vec<String> = peers.iter().enumerate().map(|(at, peer)| format!("m{at}=http://{peer}")).collect();
        let mut members = Vec::new();
        for at in 0..MACHINES {
            let (client, peer) = (format!("http://{}", clients[at]), format!("http://{}", peers[at]));
            let data = folder.path().join(format!("m{at}")).display().to_string();
            let name = format!("m{at}");
            let words = ["--name", &name, "--data-dir", &data, "--log-level", "error"];
            let urls = ["--listen-client-urls", &client, "--advertise-client-urls", &client, "--listen-peer-urls", &peer];
            let others = ["--initial-advertise-peer-urls", &peer, "--initial-cluster", &cluster.join(",")];
            let words: Vec<String> = words.iter().chain(&urls).chain(&others).map(|word| (*word).to_owned()).collect();
            members.push((start_member(&words)?, words));
        }
        let etcd = Etcd::new(clients.iter().map(SocketAddr::to_string).collect());
        let mut cell = Cell { folder, members, servers: Vec::new(), etcd };
        cell.fill(&clients)?;
        for at in 0..MACHINES {
            let server = cell.server(at, &clients, seed)?;
            cell.servers.push(server);
        }
        cell.master()?;
        Ok(cell)
    }

    fn fill(&self, clients: &[SocketAddr]) -> Tried<()> {
        let begun = Instant::now();
        while self.etcd.get("c/meta").is_err() {
            if begun.elapsed() > WITHOUT {
                return Err("etcd doesn't come up".into());
            }
            thread::sleep(Duration::from_millis(200));
        }
        let store = self.path("cell.db");
        run(&master_program(), &["run", "--store", &store])?;
        run(&program("tillermossd"), &["copy", "--from", &store, "--to", &rows(clients, "c")])?;
        Ok(())
    }

    fn server(&self, at: usize, clients: &[SocketAddr], seed: u64) -> Tried<Server> {
        let address = free()?;
        let proxy = Proxy::start(address, seed + at as u64)?;
        let holders = clients.iter().map(|client| Holder::start(*client, "c/meta")).collect::<Result<Vec<_>, _>>()?;
        let relays = holders.iter().map(|holder| Relay::start(holder.address())).collect::<Result<Vec<_>, _>>()?;
        let places: Vec<SocketAddr> = relays.iter().map(Relay::address).collect();
        let (rows, told) = (rows(&places, "c"), format!("tcp:{}", proxy.address()));
        let words = [&format!("tcp:{address}"), "--rows", &rows, "--advertise", &told, "--master", &master_program().display().to_string()];
        let words: Vec<String> = words.iter().map(|word| (*word).to_owned()).collect();
        let log = PathBuf::from(self.path(&format!("server{at}.log")));
        Ok(Server { child: start_server(&words, &log)?, words, log, proxy, relays, holders })
    }

    fn path(&self, name: &str) -> String {
        self.folder.path().join(name).display().to_string()
    }

    /// Where clients find one server.
    pub fn place(&self, at: usize) -> String {
        format!("tcp:{}", self.servers[at].proxy.address())
    }

    /// Where they find all of them.
    pub fn places(&self) -> String {
        (0..MACHINES).map(|at| self.place(at)).collect::<Vec<_>>().join(",")
    }

    /// Where they find the others.
    pub fn places_but(&self, one: usize) -> String {
        (0..MACHINES).filter(|at| *at != one).map(|at| self.place(at)).collect::<Vec<_>>().join(",")
    }

    /// Which server is master, as etcd has it; waits until there is one.
    pub fn master(&self) -> Tried<usize> {
        let begun = Instant::now();
        while begun.elapsed() < WITHOUT {
            if let Ok(Some(seat)) = self.etcd.get("c/master") {
                let seat: Value = serde_json::from_str(&seat)?;
                let found = (0..MACHINES).find(|at| self.servers.len() > *at && seat["address"] == self.place(*at));
                if let Some(at) = found {
                    return Ok(at);
                }
            }
            thread::sleep(Duration::from_millis(100));
        }
        Err(format!("there is no master; the logs: {}", self.logs()).into())
    }

    fn logs(&self) -> String {
        let last = |server: &Server| {
            let log = fs::read_to_string(&server.log).unwrap_or_default();
            log.lines().rev().take(5).map(str::to_owned).collect::<Vec<_>>().join("\n")
        };
        self.servers.iter().map(last).collect::<Vec<_>>().join("\n--\n")
    }

    /// Makes trouble for the server that is master, and waits until it is over.
    pub fn make(&mut self, trouble: Trouble, at: usize, round: usize) -> Tried<()> {
        let process = self.servers[at].child.id();
        match trouble {
            Trouble::Kill => {
                // (each second time as where its machine dies: nobody is left who gives its mastership back)
                let guards = if round.is_multiple_of(2) { guards(process) } else { Vec::new() };
                for it in guards.into_iter().chain([process]).chain(masters(process)) {
                    tell(it, Signal::SIGKILL);
                }
                let server = &mut self.servers[at];
                server.child.wait()?;
                thread::sleep(SERVER_AWAY);
                server.child = start_server(&server.words, &server.log)?;
            }
            Trouble::Stop => {
                // (each second time the server alone: what its master answers meanwhile it finds when it goes on)
                let others = if round.is_multiple_of(2) { Vec::new() } else { masters(process) };
                stop_for(&[process].into_iter().chain(others).collect::<Vec<u32>>(), STOPPED);
            }
            Trouble::Cut => {
                self.cut(at, if round.is_multiple_of(2) { Passing::Nothing } else { Passing::Questions });
                thread::sleep(CUT_OFF);
                self.cut(at, Passing::All);
            }
            Trouble::Wake => self.stop_until_replaced(at, round)?,
            Trouble::Members => {
                let stopped = (0..MACHINES - 1).map(|other| self.members[(round + other) % MACHINES].0.id());
                stop_for(&stopped.collect::<Vec<u32>>(), MEMBERS_STOPPED);
            }
            Trouble::Stuck => self.go_beside_a_stuck_master(at)?,
            Trouble::Child => masters(process).into_iter().for_each(|it| tell(it, Signal::SIGKILL)),
            Trouble::Shot => self.hold_back()?,
            Trouble::Quiet => return Err("that is made elsewhere".into()),
            Trouble::Member => {
                let (child, words) = &mut self.members[round % MACHINES];
                child.kill()?;
                child.wait()?;
                thread::sleep(MEMBER_AWAY);
                *child = start_member(words)?;
            }
        }
        Ok(())
    }

    // (each second time with its master)
    fn stop_until_replaced(&self, at: usize, round: usize) -> Tried<()> {
        let process = self.servers[at].child.id();
        let others = if round.is_multiple_of(2) { Vec::new() } else { masters(process) };
        let all: Vec<u32> = [process].into_iter().chain(others).collect();
        all.iter().for_each(|it| tell(*it, Signal::SIGSTOP));
        let begun = Instant::now();
        let replaced = loop {
            match self.master() {
                Ok(other) if other == at && begun.elapsed() < WITHOUT => thread::sleep(Duration::from_millis(100)),
                Ok(other) if other == at => break Err("nobody took over from a server that is stopped".into()),
                other => break other.map(drop),
            }
        };
        all.iter().for_each(|it| tell(*it, Signal::SIGCONT));
        replaced
    }

    fn go_beside_a_stuck_master(&mut self, at: usize) -> Tried<()> {
        let process = self.servers[at].child.id();
        masters(process).into_iter().for_each(|master| tell(master, Signal::SIGSTOP));
        tell(process, Signal::SIGTERM);
        let begun = Instant::now();
        while self.servers[at].child.try_wait()?.is_none() {
            if begun.elapsed() > GOING {
                return Err(format!("a server didn't go that was told to, beside a stuck master; the logs: {}", self.logs()).into());
            }
            thread::sleep(Duration::from_millis(100));
        }
        thread::sleep(SERVER_AWAY);
        let server = &mut self.servers[at];
        server.child = start_server(&server.words, &server.log)?;
        Ok(())
    }

    // Holds back what the keeper of the present server writes, until another master takes the place of its master, and lets it through
    // then. (If a slow machine ends the mastership first it is tried again with the next server.)
    fn hold_back(&self) -> Tried<()> {
        for _ in 0..TRIES {
            let at = self.master()?;
            let server = &self.servers[at];
            let said = |what: &str| fs::read_to_string(&server.log).unwrap_or_default().matches(what).count();
            let (replaced, ended, begun) = (said(REPLACED), said(ENDED), Instant::now());
            server.holders.iter().for_each(Holder::hold);
            while said(REPLACED) == replaced && said(ENDED) == ended && begun.elapsed() < WITHOUT {
                thread::sleep(Duration::from_millis(50));
            }
            thread::sleep(COMING_UP);
            // (of those that hold the same one etcd does it once; one holds none where it wasn't asked)
            let done = server.holders.iter().filter(|holder| holder.let_through().unwrap_or(false)).count();
            match (said(REPLACED) > replaced && said(ENDED) == ended, done) {
                (true, 1) => return Ok(()),
                // (the first that was held had been done before, by another member whose answer was late)
                (true, 0) => eprintln!("nothing that was held back was done; once more"),
                (true, _) => return Err(format!("what was held back was done {done} times").into()),
                (false, _) => eprintln!("the mastership ended first; once more"),
            }
        }
        Err(format!("no master was shot; the logs: {}", self.logs()).into())
    }

    /// From here on this gets through between a server and etcd.
    pub fn cut(&self, at: usize, passing: Passing) {
        self.servers[at].relays.iter().for_each(|relay| relay.set(passing));
    }

    /// What was done to connections of clients.
    pub fn network(&self) -> String {
        let sum = |count: fn(&trials::Counts) -> u64| self.servers.iter().map(|server| count(server.proxy.counts())).sum::<u64>();
        let (made, cut) = (sum(|counts| counts.made.load(Ordering::Relaxed)), sum(|counts| counts.cut.load(Ordering::Relaxed)));
        let (late, repeated) = (sum(|counts| counts.late.load(Ordering::Relaxed)), sum(|counts| counts.repeated.load(Ordering::Relaxed)));
        format!("connections {made}, cut {cut}, repeated {repeated}; pieces late {late}")
    }

    /// Ends the servers, and copies the rows into a file, back into etcd, and into a file again: what stands there.
    pub fn close(&mut self) -> Tried<String> {
        for server in &mut self.servers {
            tell(server.child.id(), Signal::SIGTERM);
            server.child.wait()?;
        }
        let daemon = program("tillermossd");
        let clients: Vec<SocketAddr> = self.members.iter().map(|(_, words)| place_of(words)).collect::<Tried<_>>()?;
        let (first, second) = (self.path("first.db"), self.path("second.db"));
        run(&daemon, &["copy", "--from", &rows(&clients, "c"), "--to", &first, "--master", &master_program().display().to_string()])?;
        run(&daemon, &["copy", "--from", &first, "--to", &rows(&clients, "d"), "--master", &master_program().display().to_string()])?;
        run(&daemon, &["copy", "--from", &rows(&clients, "d"), "--to", &second, "--master", &master_program().display().to_string()])?;
        let (there, back) = (self.rows("c/")?, self.rows("d/")?);
        if there != back {
            return Err("the rows that were copied there and back are others".into());
        }
        let sound = run(&master_program(), &["check", &first])?;
        if !sound.starts_with("sound ") || run(&master_program(), &["check", &second])? != sound {
            return Err(format!("the rows: {sound}").into());
        }
        Ok(format!("{sound}; {} rows are the same after a copy into a file and back", there.len()))
    }

    // The rows of a cell but for the numbers of its commits and what stands beside them.
    fn rows(&self, prefix: &str) -> Tried<Vec<(String, String)>> {
        let is_row = |key: &str| ["nodes/", "generations/", "sessions/", "locks/"].iter().any(|kind| key.starts_with(kind));
        Ok(self.etcd.pairs(prefix)?.into_iter().filter(|(key, _)| is_row(key)).collect())
    }
}

// Where a member answers clients.
fn place_of(words: &[String]) -> Tried<SocketAddr> {
    let at = words.iter().position(|word| word == "--listen-client-urls").ok_or("a member without a place")?;
    Ok(words[at + 1].trim_start_matches("http://").parse()?)
}

fn rows(places: &[SocketAddr], cell: &str) -> String {
    let places: Vec<String> = places.iter().map(SocketAddr::to_string).collect();
    format!("etcd://{}/{cell}", places.join(","))
}

impl Drop for Cell {
    fn drop(&mut self) {
        for server in &mut self.servers {
            for it in guards(server.child.id()).into_iter().chain(masters(server.child.id())).chain([server.child.id()]) {
                tell(it, Signal::SIGCONT);
                tell(it, Signal::SIGKILL);
            }
            // (one that has ended is waited for already)
            let _ = server.child.wait();
        }
        for (member, _) in &mut self.members {
            let _ = member.kill();
            let _ = member.wait();
        }
    }
}
