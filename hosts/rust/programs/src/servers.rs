//! Servers as processes.

use nix::sys::signal::{Signal, kill};
use nix::unistd::Pid;
use std::fmt::Debug;
use std::fs::{self, File};
use std::io::{self, BufRead, BufReader, Read, Seek, SeekFrom, Write};
use std::net::{SocketAddr, TcpListener};
use std::path::{Path, PathBuf};
use std::process::{Child, Command, ExitStatus, Stdio};
use std::thread;
use std::time::{Duration, Instant};

/// How a server is killed.
#[derive(Clone, Copy, Debug, PartialEq, Eq)]
pub enum Kill {
    /// By SIGTERM: it goes in order.
    InOrder,
    /// By SIGKILL.
    Server,
}

/// How long a server may take to say what is waited for, where it says it into a file.
const SAYING: Duration = Duration::from_secs(60);

/// A server that runs.
#[derive(Debug)]
pub struct Server {
    child: Child,
    /// Where it listens first, as it said.
    pub address: String,
    /// Where it listens, in the order of its words.
    pub addresses: Vec<String>,
    /// Where it shows itself to operators first, where that was asked for.
    pub admin: Option<String>,
    /// Where it does so, in the order of its words.
    pub admins: Vec<String>,
    log: PathBuf,
    disk: Option<PathBuf>,
}

/// How a server is started.
#[derive(Clone, Debug)]
pub struct Start {
    words: Vec<String>,
    store: PathBuf,
    rows: Option<String>,
    log: PathBuf,
    megabytes: Option<u32>,
}

/// An address of loopback that nobody has now.
///
/// # Panics
///
/// If there is none.
#[must_use]
pub fn free() -> SocketAddr {
    TcpListener::bind("127.0.0.1:0").and_then(|listener| listener.local_addr()).expect("a port is free")
}

/// A program of this workspace: cargo builds it, because its package has a test of it.
///
/// # Panics
///
/// If the tests' own program has no folder.
#[must_use]
pub fn program(name: &str) -> PathBuf {
    let own = std::env::current_exe().expect("this program has a path");
    // (tests lie in the folder deps beside the programs)
    let folder = own.ancestors().skip(1).find(|folder| !folder.ends_with("deps"));
    let beside = folder.expect("this program lies in a folder").join(name);
    // (the programs of documents' examples lie elsewhere)
    let built = |kind: &str| Path::new(env!("CARGO_MANIFEST_DIR")).join("../target").join(kind).join(name);
    [beside, built("debug"), built("release")].into_iter().find(|path| path.exists()).expect("the program is built")
}

/// The master's program: CELLCTL, else where it is built.
#[must_use]
pub fn master_program() -> PathBuf {
    let built = Path::new(env!("CARGO_MANIFEST_DIR")).join("../../../crates/cellctl/out/cellctl");
    std::env::var_os("CELLCTL").map_or(built, PathBuf::from)
}

/// A new folder for a test.
///
/// # Panics
///
/// If it can't be made.
#[must_use]
pub fn folder(test: &str) -> PathBuf {
    let made = tempfile::Builder::new().prefix(&format!("tillermoss-{test}-")).tempdir();
    made.expect("a folder can be made").into_path()
}

/// A folder with certificates of an authority for tests: `server`, and these principals.
///
/// # Panics
///
/// If they can't be made.
#[must_use]
pub fn certificates(folder: &Path, principals: &[&str]) -> PathBuf {
    let made = folder.join("certificates");
    let script = Path::new(env!("CARGO_MANIFEST_DIR")).join("../../certificates");
    let status = Command::new(script).arg(&made).args(principals).status().expect("hosts/certificates can be run");
    assert!(status.success(), "hosts/certificates failed: {status}");
    made
}

/// Lists these certificates of a folder as revoked, in its `revoked.pem`, with those that are listed there.
///
/// # Panics
///
/// If it can't be written.
pub fn revoke(certificates: &Path, principals: &[&str]) {
    let script = Path::new(env!("CARGO_MANIFEST_DIR")).join("../../certificates");
    let status = Command::new(script).arg(certificates).arg("--revoke").args(principals).status();
    assert!(status.expect("hosts/certificates can be run").success(), "hosts/certificates failed");
}

impl Start {
    /// Over this store, at a free port of loopback.
    #[must_use]
    pub fn new(store: &Path) -> Start {
        Start { words: Vec::new(), store: store.to_owned(), rows: None, log: store.with_added_extension("log"), megabytes: None }
    }

    /// With these words more. If an address is among them it listens there alone.
    #[must_use]
    pub fn with(mut self, words: &[&str]) -> Start {
        self.words.extend(words.iter().map(|word| (*word).to_owned()));
        self
    }

    /// At a free port by TLS, with certificates of this folder.
    #[must_use]
    pub fn tls(self, certificates: &Path) -> Start {
        self.tls_at("tls:0", certificates)
    }

    /// At this address by TLS, with certificates of this folder.
    #[must_use]
    pub fn tls_at(self, address: &str, certificates: &Path) -> Start {
        let file = |name: &str| certificates.join(name).display().to_string();
        self.with(&[address, "--cert", &file("server.pem"), "--key", &file("server.key"), "--client-ca", &file("ca.pem")])
    }

    /// Over these rows in etcd, in place of the store, beside whose path its log stands and what it prints. Its addresses have to be among
    /// its words, by their ports.
    #[must_use]
    pub fn rows(mut self, rows: &str) -> Start {
        self.rows = Some(rows.to_owned());
        self
    }

    /// With settings of this text.
    ///
    /// # Panics
    ///
    /// If they can't be written beside the store.
    #[must_use]
    pub fn settings(self, text: &str) -> Start {
        let path = self.store.with_added_extension("toml");
        fs::write(&path, text).expect("a file beside the store can be written");
        self.with(&["--settings", &path.display().to_string()])
    }

    /// On a disk of its own of so many megabytes, in memory, as which it sees the store's folder; a user may make one within its own
    /// namespaces. What stands in that folder the server doesn't see.
    #[must_use]
    pub fn on_disk(mut self, megabytes: u32) -> Start {
        self.megabytes = Some(megabytes);
        self
    }

    // The disk, where it has one of its own.
    fn disk(&self) -> Option<PathBuf> {
        self.megabytes.and_then(|_| Some(self.store.parent()?.to_owned()))
    }

    // The command that another one goes after.
    fn inside(&self) -> Command {
        let (Some(disk), Some(megabytes)) = (self.disk(), self.megabytes) else {
            return Command::new(program("tillermossd"));
        };
        let script = format!("mount -t tmpfs -o size={megabytes}m none \"$0\" && exec \"$@\"");
        let mut inside = Command::new("unshare");
        inside.args(["--map-root-user", "--mount", "sh", "-c", &script]).arg(disk).arg(program("tillermossd"));
        inside
    }

    /// The command that starts it.
    #[must_use]
    pub fn command(&self) -> Command {
        let mut command = self.inside();
        if self.addresses() == 0 {
            command.arg("0");
        }
        command.args(&self.words);
        if !self.words.iter().any(|word| word == "--master") {
            command.arg("--master").arg(master_program());
        }
        match &self.rows {
            Some(rows) => command.arg("--rows").arg(rows),
            None => command.arg("--store").arg(&self.store),
        };
        command
    }

    // The addresses among the words.
    fn listens(&self) -> Vec<String> {
        let is_address = |word: &String| ["tcp:", "tls:", "unix:"].iter().any(|kind| word.starts_with(kind));
        let is_other = |at: usize| at > 0 && ["--admin", "--advertise"].contains(&self.words[at - 1].as_str());
        let found = self.words.iter().enumerate().filter(|(at, word)| is_address(word) && !is_other(*at));
        found.map(|(_, word)| word.clone()).collect()
    }

    fn addresses(&self) -> usize {
        self.listens().len()
    }

    /// Starts one over rows in etcd, and waits until it stands by.
    ///
    /// # Errors
    ///
    /// If it can't be started, or ends first.
    pub fn stand_by(&self) -> io::Result<Server> {
        self.start_until("standing by")
    }

    // Starts it, and waits until it has printed this; into a file, because it may print more later.
    fn start_until(&self, wanted: &str) -> io::Result<Server> {
        let log = File::options().create(true).append(true).open(&self.log)?;
        let told = self.log.with_extension("out");
        let mut child = self.command().stdout(File::create(&told)?).stderr(log).spawn()?;
        let begun = Instant::now();
        while !fs::read_to_string(&told)?.contains(wanted) {
            if child.try_wait()?.is_some() || begun.elapsed() > SAYING {
                // (one that has ended is killed already)
                let _ = child.kill();
                child.wait()?;
                return Err(io::Error::other(format!("the server didn't come up: {}", fs::read_to_string(&self.log)?)));
            }
            thread::sleep(Duration::from_millis(20));
        }
        let addresses = self.listens();
        let address = addresses.first().cloned().ok_or_else(|| io::Error::other("no address is among the words"))?;
        let admin = self.words.iter().position(|word| word == "--admin").and_then(|at| self.words.get(at + 1).cloned());
        let admins = admin.iter().cloned().collect();
        Ok(Server { child, address, addresses, admin, admins, log: self.log.clone(), disk: None })
    }

    /// Starts it, and waits until it listens.
    ///
    /// # Errors
    ///
    /// If it can't be started, or ends first: then what it logged is told.
    pub fn start(&self) -> io::Result<Server> {
        if self.rows.is_some() {
            return self.start_until("listening ");
        }
        let log = File::options().create(true).append(true).open(&self.log)?;
        let begun = log.metadata()?.len();
        let mut child = self.command().stdout(Stdio::piped()).stderr(log).spawn()?;
        let (mut addresses, mut admins) = (Vec::new(), Vec::new());
        let lines = child.stdout.take().map(|out| BufReader::new(out).lines()).into_iter().flatten();
        let wanted = self.addresses().max(1) + self.words.iter().filter(|word| *word == "--admin").count();
        for line in lines {
            let line = line?;
            match line.split_once(' ') {
                Some(("listening", place)) => addresses.push(place.to_owned()),
                Some(("admin", place)) => admins.push(place.to_owned()),
                _ => {}
            }
            if addresses.len() + admins.len() == wanted {
                break;
            }
        }
        match addresses.first().cloned() {
            Some(address) => {
                Ok(Server { child, address, addresses, admin: admins.first().cloned(), admins, log: self.log.clone(), disk: self.disk() })
            }
            None => {
                let status = child.wait()?;
                let mut logged = String::new();
                let mut log = File::open(&self.log)?;
                log.seek(SeekFrom::Start(begun))?;
                log.read_to_string(&mut logged)?;
                Err(io::Error::other(format!("the server didn't come up: {status}: {logged}")))
            }
        }
    }
}

impl Server {
    /// Starts one over this store, and waits until it listens.
    ///
    /// # Errors
    ///
    /// If it can't be started, or ends first.
    pub fn start(store: &Path) -> io::Result<Server> {
        Start::new(store).start()
    }

    /// As `start`, with the settings of a file.
    ///
    /// # Errors
    ///
    /// As `start`.
    pub fn start_with(store: &Path, settings: Option<&Path>) -> io::Result<Server> {
        let start = Start::new(store);
        settings.map_or(start.clone(), |settings| start.with(&["--settings", &settings.display().to_string()])).start()
    }

    /// The address without its kind, of one that listens at `tcp:` or `tls:`.
    ///
    /// # Panics
    ///
    /// If it listens at another.
    #[must_use]
    pub fn place(&self) -> &str {
        self.address.split_once(':').expect("an address has a kind").1
    }

    /// The number of its process.
    #[must_use]
    pub fn process(&self) -> u32 {
        self.child.id()
    }

    /// What it and those before it over the store logged.
    ///
    /// # Panics
    ///
    /// If that can't be read.
    #[must_use]
    pub fn logged(&self) -> String {
        fs::read_to_string(&self.log).expect("the log can be read")
    }

    /// Waits until it has logged this, 20 s at most.
    #[must_use]
    pub fn has_logged(&self, text: &str) -> bool {
        (0..400).any(|_| {
            let has = self.logged().contains(text);
            if !has {
                thread::sleep(Duration::from_millis(50));
            }
            has
        })
    }

    /// Fills its disk, where it has one of its own: the file that does so, which is removed to make room.
    ///
    /// # Errors
    ///
    /// If it has none.
    pub fn fill_disk(&self) -> io::Result<PathBuf> {
        let disk = self.disk.as_ref().ok_or_else(|| io::Error::other("the server has no disk of its own"))?;
        let filler = PathBuf::from(format!("/proc/{}/root{}/filler", self.child.id(), disk.display()));
        let mut out = File::create(&filler)?;
        while out.write_all(&[0; 1024]).is_ok() {}
        Ok(filler)
    }

    /// Waits so long, fills its disk for so long, and makes room again: since when there is.
    ///
    /// # Errors
    ///
    /// As `fill_disk`.
    pub fn fill_disk_for(&self, before: Duration, lasting: Duration) -> io::Result<Instant> {
        thread::sleep(before);
        let filler = self.fill_disk()?;
        thread::sleep(lasting);
        fs::remove_file(filler)?;
        Ok(Instant::now())
    }

    /// Waits until it ends by itself; how.
    ///
    /// # Errors
    ///
    /// If it can't be waited for.
    pub fn wait(&mut self) -> io::Result<ExitStatus> {
        self.child.wait()
    }

    /// How it ended, where it has.
    ///
    /// # Errors
    ///
    /// If that can't be said.
    pub fn has_ended(&mut self) -> io::Result<Option<ExitStatus>> {
        self.child.try_wait()
    }

    /// Kills it; how it ended.
    ///
    /// # Errors
    ///
    /// If it can't be killed.
    pub fn kill(&mut self, kill: Kill) -> io::Result<ExitStatus> {
        match kill {
            Kill::Server => self.child.kill()?,
            Kill::InOrder => self.signal(Signal::SIGTERM)?,
        }
        self.child.wait()
    }

    /// Kills its master by SIGKILL, which it replaces.
    ///
    /// # Errors
    ///
    /// If it has none.
    pub fn kill_master(&self) -> io::Result<()> {
        send(self.master()?, Signal::SIGKILL)
    }

    /// Sends its master a signal.
    ///
    /// # Errors
    ///
    /// If it has none.
    pub fn signal_master(&self, signal: Signal) -> io::Result<()> {
        send(self.master()?, signal)
    }

    /// Sends it a signal.
    ///
    /// # Errors
    ///
    /// If it is gone.
    pub fn signal(&self, signal: Signal) -> io::Result<()> {
        send(self.child.id(), signal)
    }

    /// The number of the process of its master, the only child that serves.
    ///
    /// # Errors
    ///
    /// If it has none.
    pub fn master(&self) -> io::Result<u32> {
        match masters(self.child.id())[..] {
            [master] => Ok(master),
            ref others => Err(io::Error::other(format!("the server's masters: {others:?}"))),
        }
    }

    /// Kills the process that gives its mastership back where it is gone, as where the whole machine dies.
    ///
    /// # Errors
    ///
    /// If it has none.
    pub fn kill_guard(&self) -> io::Result<()> {
        match guards(self.child.id())[..] {
            [guard] => send(guard, Signal::SIGKILL),
            ref others => Err(io::Error::other(format!("the server's guards: {others:?}"))),
        }
    }
}

// The processes that a process has started with this word.
fn children(process: u32, word: &str) -> Vec<u32> {
    let tasks = fs::read_dir(format!("/proc/{process}/task")).into_iter().flatten().flatten();
    let told = tasks.filter_map(|task| fs::read_to_string(task.path().join("children")).ok()).collect::<String>();
    let is_so = |child: &u32| {
        let words = fs::read_to_string(format!("/proc/{child}/cmdline")).unwrap_or_default();
        words.split('\0').nth(1) == Some(word)
    };
    told.split_whitespace().filter_map(|child| child.parse().ok()).filter(is_so).collect()
}

/// The masters that the server with this process has started.
#[must_use]
pub fn masters(server: u32) -> Vec<u32> {
    children(server, "serve")
}

/// The processes that guard its mastership.
#[must_use]
pub fn guards(server: u32) -> Vec<u32> {
    children(server, "guard")
}

fn send(process: u32, signal: Signal) -> io::Result<()> {
    Ok(kill(Pid::from_raw(process.cast_signed()), signal)?)
}

impl Drop for Server {
    fn drop(&mut self) {
        // (a master that is stopped would outlive it)
        let _ = self.signal_master(Signal::SIGCONT);
        // (one that has ended is killed already)
        let _ = self.child.kill();
        let _ = self.child.wait();
    }
}

/// A server of an example's own, over a new store, which also shows itself to operators.
///
/// # Panics
///
/// If it can't be started.
#[must_use]
pub fn server_of_its_own() -> Server {
    let folder = tempfile::tempdir().expect("a folder can be made").into_path();
    let admin = format!("unix:{}", folder.join("admin").display());
    Start::new(&folder.join("store.db")).with(&["--admin", &admin]).start().expect("a server can be started")
}

/// Runs an example with the address of a server of its own.
///
/// # Panics
///
/// If the server can't be started, and if the example fails.
pub fn with_server<E: Debug>(example: impl FnOnce(&str) -> Result<(), E>) {
    let server = server_of_its_own();
    example(&server.address).expect("the example succeeds");
}
