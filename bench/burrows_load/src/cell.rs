//! The servers: one over a file, or two over an etcd, each a process that this program starts, watches, and kills.

use anyhow::{Context, Result, bail};
use nix::sys::signal::{Signal, kill};
use nix::unistd::{Pid, SysconfVar, sysconf};
use std::fs::{self, File};
use std::net::{SocketAddr, TcpListener};
use std::path::{Path, PathBuf};
use std::process::{Child, Command, Stdio};
use std::time::{Duration, Instant};

/// So long a cell may take to be there.
const PATIENCE: Duration = Duration::from_secs(120);

/// Those for whom clients act.
pub const PRINCIPALS: usize = 16;

/// How a master goes.
#[derive(Clone, Copy, Debug, PartialEq, Eq, clap::ValueEnum)]
pub enum Kill {
    /// It alone; its server starts another.
    Master,
    /// With its server; another is started at once over the same store.
    Server,
    /// With its server, over etcd: the one that stands by takes over.
    Standby,
}

/// What the programs are.
#[derive(Clone, Debug)]
pub struct Programs {
    pub server: PathBuf,
    pub master: PathBuf,
    pub etcd: Option<PathBuf>,
    /// Lines of the table of limits.
    pub limits: String,
    pub lease: u64,
}

/// What a process uses: seconds of processors since it began, and bytes of memory.
#[derive(Clone, Copy, Debug, Default)]
pub struct Used {
    pub seconds: f64,
    pub memory: u64,
}

/// A server's process.
#[derive(Debug)]
struct Server {
    child: Child,
    out: PathBuf,
}

/// The cell.
#[derive(Debug)]
pub struct Cell {
    programs: Programs,
    folder: PathBuf,
    pub places: Vec<SocketAddr>,
    servers: Vec<Server>,
    etcd: Option<(Child, u16)>,
    starts: usize,
}

fn free_port() -> Result<SocketAddr> {
    Ok(TcpListener::bind("127.0.0.1:0")?.local_addr()?)
}

impl Cell {
    /// Starts one over a folder; it serves.
    pub fn start(programs: Programs, folder: &Path) -> Result<Cell> {
        fs::create_dir_all(folder).with_context(|| format!("making {}", folder.display()))?;
        let principals: Vec<String> = (0..PRINCIPALS).map(|at| format!("{:?}", principal(at))).collect();
        let cell = format!("lease = {}\nprincipals = [{}]\n[limits]\n{}\n", programs.lease, principals.join(", "), programs.limits);
        fs::write(folder.join("settings.toml"), cell)?;
        let mut cell = Cell { programs, folder: folder.to_owned(), places: Vec::new(), servers: Vec::new(), etcd: None, starts: 0 };
        if let Some(program) = cell.programs.etcd.clone() {
            cell.start_etcd(&program)?;
        }
        let count = if cell.etcd.is_some() { 2 } else { 1 };
        for at in 0..count {
            cell.places.push(free_port()?);
            let server = cell.server(at)?;
            cell.servers.push(server);
            let begun = Instant::now();
            // (the first one is master, and the other stands by)
            while !cell.says(at, if at == 0 { "listening" } else { "standing by" }) {
                if begun.elapsed() > PATIENCE || cell.servers[at].child.try_wait()?.is_some() {
                    bail!("the server doesn't serve: see {}", folder.join("server.log").display());
                }
                std::thread::sleep(Duration::from_millis(50));
            }
        }
        Ok(cell)
    }

    fn start_etcd(&mut self, program: &Path) -> Result<()> {
        let (own, peer) = (free_port()?, free_port()?);
        let log = File::create(self.folder.join("etcd.log"))?;
        let (client, peer) = (format!("http://{own}"), format!("http://{peer}"));
        let child = Command::new(program)
            .args(["--data-dir".as_ref(), self.folder.join("etcd").as_os_str()])
            .args(["--listen-client-urls", &client, "--advertise-client-urls", &client])
            .args(["--listen-peer-urls", &peer, "--initial-advertise-peer-urls", &peer, "--initial-cluster", &format!("default={peer}")])
            .args(["--quota-backend-bytes", "4000000000"])
            .stdin(Stdio::null())
            .stdout(log.try_clone()?)
            .stderr(log)
            .spawn()
            .context("starting etcd")?;
        self.etcd = Some((child, own.port()));
        self.seed()
    }

    // A new cell, which is made over a file, and copied into etcd.
    fn seed(&mut self) -> Result<()> {
        let (seed, settings) = (self.folder.join("seed.db"), self.folder.join("settings.toml"));
        let out = self.folder.join("seed.out");
        let quiet = |command: &mut Command| -> Result<Child> {
            let log = File::options().append(true).create(true).open(self.folder.join("server.log"))?;
            Ok(command.stdin(Stdio::null()).stderr(log).spawn()?)
        };
        let mut made = Command::new(&self.programs.server);
        made.arg("0").arg("--settings").arg(settings).arg("--store").arg(&seed).arg("--master").arg(&self.programs.master);
        let mut made = quiet(made.stdout(File::create(&out)?))?;
        let begun = Instant::now();
        while !fs::read_to_string(&out)?.contains("listening") {
            if begun.elapsed() > PATIENCE || made.try_wait()?.is_some() {
                bail!("no cell was made: see {}", self.folder.join("server.log").display());
            }
            std::thread::sleep(Duration::from_millis(50));
        }
        kill(Pid::from_raw(made.id() as i32), Signal::SIGTERM)?;
        made.wait()?;
        let mut copied = Command::new(&self.programs.server);
        copied.arg("copy").arg("--from").arg(seed).arg("--to").arg(self.rows());
        if !quiet(copied.stdout(Stdio::null()))?.wait()?.success() {
            bail!("the cell wasn't copied into etcd: see {}", self.folder.join("server.log").display());
        }
        Ok(())
    }

    // Where the rows stand in etcd.
    fn rows(&self) -> String {
        self.etcd.as_ref().map_or_else(String::new, |(_, port)| format!("etcd://127.0.0.1:{port}/c"))
    }

    fn server(&mut self, at: usize) -> Result<Server> {
        self.starts += 1;
        let out = self.folder.join(format!("server.{}.out", self.starts));
        let log = File::options().append(true).create(true).open(self.folder.join("server.log"))?;
        let mut command = Command::new(&self.programs.server);
        command.arg(self.places[at].to_string()).arg("--settings").arg(self.folder.join("settings.toml"));
        match &self.etcd {
            None => command.arg("--store").arg(self.folder.join("cell.db")),
            Some(_) => command.arg("--rows").arg(self.rows()),
        };
        command.arg("--master").arg(&self.programs.master).arg("--admin").arg(format!("unix:{}/admin.{at}", self.folder.display()));
        let child = command.stdin(Stdio::null()).stdout(File::create(&out)?).stderr(log).spawn();
        Ok(Server { child: child.with_context(|| format!("starting {}", self.programs.server.display()))?, out })
    }

    fn says(&self, at: usize, word: &str) -> bool {
        fs::read_to_string(&self.servers[at].out).is_ok_and(|said| said.contains(word))
    }

    // Which server is master: the one that listens.
    fn serving(&self) -> Option<usize> {
        (0..self.servers.len()).find(|at| self.says(*at, "listening"))
    }

    /// Kills, and starts what is to be started in the place.
    pub fn kill(&mut self, how: Kill) -> Result<()> {
        let at = self.serving().context("no server serves")?;
        let server = self.servers[at].child.id();
        let master = master_of(server).context("there is no master")?;
        kill(Pid::from_raw(master as i32), Signal::SIGKILL)?;
        if how == Kill::Master {
            return Ok(());
        }
        self.servers[at].child.kill()?;
        self.servers[at].child.wait()?;
        self.servers[at] = self.server(at)?;
        Ok(())
    }

    /// What the serving server uses, and its master.
    pub fn used(&self) -> (Used, Used) {
        let server = self.serving().map(|at| self.servers[at].child.id());
        let used = |process: Option<u32>| process.map(Used::of).unwrap_or_default();
        (used(server), used(server.and_then(master_of)))
    }

    /// Bytes of the store's file and its log.
    pub fn stored(&self) -> u64 {
        let length = |name: &str| fs::metadata(self.folder.join(name)).map_or(0, |file| file.len());
        length("cell.db") + length("cell.db-wal")
    }
}

impl Drop for Cell {
    fn drop(&mut self) {
        for server in &mut self.servers {
            // (one that is gone can't be told, nor waited for)
            let _ = kill(Pid::from_raw(server.child.id() as i32), Signal::SIGTERM);
            let _ = server.child.wait();
        }
        if let Some((etcd, _)) = &mut self.etcd {
            let _ = etcd.kill();
            let _ = etcd.wait();
        }
    }
}

/// The principal of this number.
pub fn principal(at: usize) -> String {
    format!("user{}", at % PRINCIPALS)
}

// The master that a server has started. (Over etcd its guard is another child of it.)
fn master_of(server: u32) -> Option<u32> {
    let tasks = fs::read_dir(format!("/proc/{server}/task")).ok()?;
    let children = tasks.flatten().filter_map(|task| fs::read_to_string(task.path().join("children")).ok()).collect::<String>();
    let is_master = |child: &&str| {
        let words = fs::read_to_string(format!("/proc/{child}/cmdline")).unwrap_or_default();
        words.split('\0').nth(1) == Some("serve")
    };
    children.split_whitespace().find(is_master)?.parse().ok()
}

impl Used {
    /// That of a process; nothing of one that is gone.
    pub fn of(process: u32) -> Used {
        let stat = fs::read_to_string(format!("/proc/{process}/stat")).unwrap_or_default();
        // (the name, which may have spaces, stands in brackets)
        let fields: Vec<u64> = stat.rsplit(')').next().unwrap_or_default().split(' ').map(|field| field.parse().unwrap_or(0)).collect();
        let field = |number: usize| fields.get(number - 2).copied().unwrap_or(0);
        let setting = |name| sysconf(name).ok().flatten().and_then(|value| u64::try_from(value).ok()).unwrap_or(1);
        let ticks = setting(SysconfVar::CLK_TCK) as f64;
        Used { seconds: (field(14) + field(15)) as f64 / ticks, memory: field(24) * setting(SysconfVar::PAGE_SIZE) }
    }
}
