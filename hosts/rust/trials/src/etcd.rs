//! An etcd on this machine, of one member or of three, with the rows of a new cell.

use crate::far::{Network, over};
use crate::servers::{Start, free, master_program, program};
use nix::sys::signal::{Signal, kill};
use nix::unistd::Pid;
use serde_json::{Value, json};
use std::io;
use std::net::SocketAddr;
use std::path::PathBuf;
use std::process::{Child, Command, Output, Stdio};
use std::thread;
use std::time::{Duration, Instant};
use tempfile::TempDir;

/// How long it may take to come up.
const COMING_UP: Duration = Duration::from_secs(60);

/// How long an answer of it may take.
const ANSWERING: Duration = Duration::from_secs(5);

/// The etcd. It goes when this is dropped.
#[derive(Debug)]
pub struct Etcd {
    folder: TempDir,
    members: Vec<Child>,
    /// Where its first member answers clients.
    pub address: SocketAddr,
    /// Where its members do.
    pub addresses: Vec<SocketAddr>,
}

/// Where a member listens, to clients and to other members, and where these find it.
#[derive(Clone, Copy, Debug)]
struct Places {
    listens: [SocketAddr; 2],
    is_found: [SocketAddr; 2],
}

impl Places {
    fn new(network: Option<Network>) -> io::Result<Places> {
        let listens = [free(), free()];
        let is_found = match network {
            None => listens,
            Some(network) => [over(listens[0], network)?, over(listens[1], network)?],
        };
        Ok(Places { listens, is_found })
    }
}

fn done(command: &mut Command) -> io::Result<Output> {
    let output = command.stdin(Stdio::null()).output()?;
    if output.status.success() { Ok(output) } else { Err(io::Error::other(format!("{command:?}: {output:?}"))) }
}

impl Etcd {
    /// Starts one with these options more, and waits until it answers.
    ///
    /// # Errors
    ///
    /// If it can't be started: Debian's package is etcd-server.
    pub fn start(options: &[&str]) -> io::Result<Etcd> {
        Etcd::of(&[Places::new(None)?], options)
    }

    // One with members at these places.
    fn of(places: &[Places], options: &[&str]) -> io::Result<Etcd> {
        let folder = tempfile::tempdir()?;
        let addresses: Vec<SocketAddr> = places.iter().map(|places| places.is_found[0]).collect();
        let mut etcd = Etcd { folder, members: Vec::new(), address: addresses[0], addresses };
        let all: Vec<String> = places.iter().enumerate().map(|(at, places)| format!("m{at}=http://{}", places.is_found[1])).collect();
        for (at, Places { listens, is_found }) in places.iter().enumerate() {
            let url = |place: &SocketAddr| format!("http://{place}");
            let mut command = Command::new("etcd");
            command.arg("--data-dir").arg(etcd.path(&format!("etcd{at}"))).args(["--name", &format!("m{at}"), "--log-level", "error"]);
            command.args(["--listen-client-urls", &url(&listens[0]), "--advertise-client-urls", &url(&is_found[0])]);
            command.args(["--listen-peer-urls", &url(&listens[1]), "--initial-advertise-peer-urls", &url(&is_found[1])]);
            command.args(["--initial-cluster", &all.join(",")]).args(options);
            let child = command.stdin(Stdio::null()).stdout(Stdio::null()).stderr(Stdio::null()).spawn();
            let missing = |error| io::Error::other(format!("starting etcd (Debian: apt-get install etcd-server): {error}"));
            etcd.members.push(child.map_err(missing)?);
        }
        let begun = Instant::now();
        while etcd.get("c/meta").is_err() {
            if begun.elapsed() > COMING_UP {
                return Err(io::Error::other("etcd doesn't come up"));
            }
            thread::sleep(Duration::from_millis(50));
        }
        Ok(etcd)
    }

    /// One of three members, as etcd is without any option but its addresses, with a new cell at `c/`. This network lies between
    /// all of them, and before each for its clients.
    ///
    /// # Errors
    ///
    /// As `with_cell`.
    pub fn of_three(network: Network) -> io::Result<Etcd> {
        let places = (0..3).map(|_| Places::new(Some(network))).collect::<io::Result<Vec<_>>>()?;
        let etcd = Etcd::of(&places, &[])?;
        etcd.make_cell()?;
        Ok(etcd)
    }

    /// One with the rows of a new cell at `c/`.
    ///
    /// # Errors
    ///
    /// As `start`, and where the rows can't be copied there.
    pub fn with_cell(options: &[&str]) -> io::Result<Etcd> {
        let etcd = Etcd::start(options)?;
        etcd.make_cell()?;
        Ok(etcd)
    }

    fn make_cell(&self) -> io::Result<()> {
        let store = self.path("cell.db");
        done(Command::new(master_program()).arg("run").arg("--store").arg(&store))?;
        done(Command::new(program("tillermossd")).args(["copy", "--to", &rows_of(&self.addresses)]).arg("--from").arg(&store)).map(drop)
    }

    /// A file in its folder.
    #[must_use]
    pub fn path(&self, name: &str) -> PathBuf {
        self.folder.path().join(name)
    }

    /// How a server over its cell is started, at a free port, which reaches it at this address. Its log has this name.
    #[must_use]
    pub fn server(&self, name: &str, address: SocketAddr) -> Start {
        Start::new(&self.path(name)).rows(&rows(address)).with(&[&format!("tcp:{}", free())])
    }

    /// As `server`, which reaches all members where they are found.
    #[must_use]
    pub fn server_of_all(&self, name: &str) -> Start {
        Start::new(&self.path(name)).rows(&rows_of(&self.addresses)).with(&[&format!("tcp:{}", free())])
    }

    /// What it answers at a path of its gateway; a fault where it refuses.
    ///
    /// # Errors
    ///
    /// If it isn't reached, or refuses.
    pub fn ask(&self, path: &str, asked: &Value) -> io::Result<Value> {
        let told = ureq::post(&format!("http://{}/v3/{path}", self.address)).timeout(ANSWERING).send_string(&asked.to_string());
        Ok(serde_json::from_str(&told.map_err(io::Error::other)?.into_string()?)?)
    }

    /// The value of a key, where it is there.
    ///
    /// # Errors
    ///
    /// If it isn't reached.
    pub fn get(&self, key: &str) -> io::Result<Option<String>> {
        let told = self.ask("kv/range", &json!({ "key": base64::encode(key) }))?;
        let value = told.pointer("/kvs/0/value").and_then(Value::as_str).map(base64::decode).transpose().map_err(io::Error::other)?;
        Ok(value.map(|bytes| String::from_utf8_lossy(&bytes).into_owned()))
    }

    /// Sends its members a signal.
    ///
    /// # Errors
    ///
    /// If one is gone.
    pub fn signal(&self, signal: Signal) -> io::Result<()> {
        self.members.iter().try_for_each(|member| Ok(kill(Pid::from_raw(member.id().cast_signed()), signal)?))
    }

    /// Puts so many files into its cell, which no server serves.
    ///
    /// # Errors
    ///
    /// If it refuses them.
    pub fn put_files(&self, count: u64) -> io::Result<()> {
        let meta = self.get("c/meta")?.ok_or_else(|| io::Error::other("there is no cell"))?;
        let mut meta: Value = serde_json::from_str(&meta)?;
        let first = meta["next_instance"].as_u64().unwrap_or_default();
        meta["next_instance"] = json!(first + count);
        let file = |number: u64| {
            let node = json!({
                "kind": "file", "instance": first + number, "content_generation": 1, "acl_generation": 1, "read": "base", "write": "base",
                "change": "base", "life": "permanent", "content": { "text": format!("{number}") },
            });
            (format!("c/nodes/ls/c/file{number}"), node)
        };
        let pairs: Vec<(String, Value)> = (0..count).map(file).chain([("c/meta".to_owned(), meta)]).collect();
        for some in pairs.chunks(100) {
            let put = |(key, value): &(String, Value)| json!({ "request_put": { "key": base64::encode(key), "value": base64::encode(value.to_string()) } });
            self.ask("kv/txn", &json!({ "success": some.iter().map(put).collect::<Vec<_>>() }))?;
        }
        Ok(())
    }
}

/// Where the cell's rows stand.
#[must_use]
pub fn rows(address: SocketAddr) -> String {
    rows_of(&[address])
}

fn rows_of(addresses: &[SocketAddr]) -> String {
    let members: Vec<String> = addresses.iter().map(SocketAddr::to_string).collect();
    format!("etcd://{}/c", members.join(","))
}

impl Drop for Etcd {
    fn drop(&mut self) {
        for member in &mut self.members {
            // (one that has ended is killed already)
            let _ = member.kill();
            let _ = member.wait();
        }
    }
}
