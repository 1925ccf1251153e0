//! The settings: those of the cell, which its master reads, and the limits of the server, a table of their own.

use crate::configuration::SERVER;
use anyhow::{Context, Result, anyhow, bail};
use host_wire::is_component;
use rusqlite::{Connection, OptionalExtension};
use serde::{Deserialize, Serialize};
use std::fs;
use std::io::Write;
use std::path::Path;
use tempfile::NamedTempFile;
use toml::value::Table;

/// The key of the table of limits.
const LIMITS: &str = "limits";

/// The key of a new store's secret.
const SECRET: &str = "secret";

/// How much a server lets in.
#[derive(Clone, Debug, PartialEq, Eq, Deserialize)]
#[serde(default, deny_unknown_fields)]
pub struct Limits {
    /// Connections that have greeted.
    pub connections: usize,
    /// Of these, those of one principal.
    pub connections_of_a_principal: usize,
    /// Connections that haven't greeted yet; with one more the oldest of them is cut off.
    pub greetings: usize,
    /// Seconds that a client may be silent. One with a session lets the master hear of it more often: a Beat is answered within
    /// 60,002 ms.
    pub silence: u64,
    /// Messages a second that a client sends; it has to wait with more.
    pub rate_of_a_client: u32,
    /// Messages a second that all clients of a principal send.
    pub rate_of_a_principal: u32,
    /// Bytes a second that a client sends; it has to wait with more.
    pub byte_rate_of_a_client: u32,
    /// Bytes a second that all clients of a principal send.
    pub byte_rate_of_a_principal: u32,
    /// Nodes of the cell. Its master keeps to this limit and the next two, from the server's start on.
    pub nodes: u64,
    /// Bytes of all contents.
    pub bytes: u64,
    /// Locks that one session holds or waits for; where nothing is said, it hangs on where the rows stand.
    pub locks: Option<u64>,
    /// Bytes of the contents that a principal wrote since the server began.
    pub bytes_of_a_principal: u64,
}

impl Default for Limits {
    fn default() -> Limits {
        Limits {
            connections: 40_000,
            connections_of_a_principal: 30_000,
            greetings: 4096,
            silence: 180,
            rate_of_a_client: 2_000,
            rate_of_a_principal: 10_000,
            byte_rate_of_a_client: 8 << 20,
            byte_rate_of_a_principal: 32 << 20,
            nodes: 1_000_000,
            bytes: 1 << 30,
            locks: None,
            bytes_of_a_principal: 1 << 29,
        }
    }
}

/// How many locks a session may hold or wait for, where nothing is said: over a file, and over etcd, where the end of a session is one
/// transaction.
const LOCKS: u64 = 10_000;
const LOCKS_OVER_ETCD: u64 = 100;

/// How many it may be over etcd at most: a busy one does the transaction that ends such a session within the time that an answer has.
const MOST_LOCKS_OVER_ETCD: u64 = 1_000;

/// The limits of a cell, by the keys that its master knows.
#[derive(Debug, Serialize)]
struct OfTheCell {
    max_nodes: u64,
    max_bytes: u64,
    max_locks: u64,
}

/// How many descriptors a server wants for other things than connections.
const OTHERS: usize = 128;

impl Limits {
    /// These limits in a process that may have so many descriptors: each connection is one. Few of them are kept for greetings.
    #[must_use]
    pub fn within(self, descriptors: u64) -> Limits {
        let descriptors = usize::try_from(descriptors).unwrap_or(usize::MAX).saturating_sub(OTHERS);
        let greetings = self.greetings.min(descriptors / 16);
        Limits { greetings, connections: self.connections.min(descriptors - greetings), ..self }
    }

    /// These limits, with those of the cell that its master was started with; and whether these were others.
    #[must_use]
    pub fn beside(self, present: &Limits) -> (Limits, bool) {
        let of_the_cell = |limits: &Limits| (limits.nodes, limits.bytes, limits.locks);
        let are_others = of_the_cell(&self) != of_the_cell(present);
        (Limits { nodes: present.nodes, bytes: present.bytes, locks: present.locks, ..self }, are_others)
    }

    /// How many locks a session may hold or wait for.
    #[must_use]
    pub fn locks(&self, is_over_etcd: bool) -> u64 {
        self.locks.unwrap_or(if is_over_etcd { LOCKS_OVER_ETCD } else { LOCKS })
    }
}

/// What is said of the cell, by the rules that its master keeps.
#[derive(Debug, Deserialize)]
#[serde(deny_unknown_fields)]
struct Cell {
    cell: Option<String>,
    lease: Option<u64>,
    principals: Option<Vec<String>>,
    secret: Option<String>,
}

impl Cell {
    fn check(&self) -> Result<()> {
        if self.cell.as_deref().is_some_and(|cell| !is_component(cell)) {
            bail!("cell is 1 to 64 of a-z 0-9 . _ -");
        }
        if self.lease.is_some_and(|lease| !(1_000..=60_000).contains(&lease)) {
            bail!("lease is 1000 to 60000 milliseconds");
        }
        if let Some(other) = self.principals.iter().flatten().find(|principal| !is_component(principal)) {
            bail!("principals has {other:?}: each is 1 to 64 of a-z 0-9 . _ -");
        }
        let is_digit = |digit: u8| digit.is_ascii_digit() || (b'a'..=b'f').contains(&digit);
        if self.secret.as_ref().is_some_and(|secret| secret.len() != 64 || !secret.bytes().all(is_digit)) {
            bail!("secret is 64 hexadecimal digits in lower case");
        }
        Ok(())
    }
}

/// What a store was made with.
#[derive(Clone, Debug, PartialEq, Eq)]
pub struct MadeWith {
    /// Its secret, in hexadecimal digits.
    pub secret: String,
    /// How often its ACL `base` was written, and what it holds. None where it isn't there any more.
    pub base: Option<(u64, Vec<u8>)>,
}

impl MadeWith {
    /// That of a store in a file.
    pub fn read(store: &Connection) -> Result<MadeWith> {
        let (cell, secret): (String, Vec<u8>) =
            store.query_row("SELECT cell, secret FROM meta WHERE id = 1", [], |row| Ok((row.get(0)?, row.get(1)?)))?;
        let base = "SELECT content_gen, content FROM nodes WHERE name = ?";
        let base = store.query_row(base, [format!("/ls/{cell}/acl/base")], |row| Ok((row.get(0)?, row.get(1)?)));
        Ok(MadeWith { secret: hex::encode(secret), base: base.optional()? })
    }
}

/// What a file of settings says.
#[derive(Clone, Debug, Default, PartialEq)]
pub struct Settings {
    /// What the master reads.
    pub cell: Table,
    /// What the server keeps to.
    pub limits: Limits,
}

// The fault of a value, without the types of this program.
fn worded(error: toml::de::Error) -> anyhow::Error {
    let text = ["u64", "u32", "usize"]
        .iter()
        .fold(error.to_string(), |text, kind| text.replace(&format!("expected {kind}"), "expected a whole number, 0 or more,"));
    anyhow!(text)
}

impl Settings {
    /// Those of a file, for rows in a file or in etcd; without one those that stand where nothing is said.
    pub fn read(path: Option<&Path>, is_over_etcd: bool) -> Result<Settings> {
        let Some(path) = path else {
            return Ok(Settings::default());
        };
        let text = fs::read_to_string(path).with_context(|| format!("--settings names a file that can be read: {}", path.display()))?;
        let settings = Settings::of_text(&text).and_then(|settings| settings.fitting(is_over_etcd));
        settings.with_context(|| format!("the settings of {}", path.display()))
    }

    // These settings, if they fit to where the rows stand.
    fn fitting(self, is_over_etcd: bool) -> Result<Settings> {
        let (locks, most) = (self.limits.locks(is_over_etcd), MOST_LOCKS_OVER_ETCD);
        if is_over_etcd && locks > most {
            bail!("the limit locks = {locks} is too much: over etcd {most} at most, because a session ends in one transaction");
        }
        Ok(self)
    }

    /// Those of a text.
    pub fn of_text(text: &str) -> Result<Settings> {
        let mut cell: Table = toml::from_str(text)?;
        // (the command line has taken these)
        cell.remove(SERVER);
        let limits =
            cell.remove(LIMITS).map_or(Ok(Limits::default()), |limits| limits.try_into().map_err(worded).context("the table limits"))?;
        let said: Cell = toml::Value::Table(cell.clone()).try_into().map_err(worded)?;
        said.check()?;
        Ok(Settings { cell, limits })
    }

    /// Why these aren't the settings of a store that is there: the secret and the principals are those of a new one, and to pass over
    /// them would leave who changed them in the belief that they hold. What they name that the store's ACL `base`, which was written
    /// since, doesn't have.
    pub fn check(&self, store: &MadeWith) -> Result<Vec<String>> {
        let said: Cell = toml::Value::Table(self.cell.clone()).try_into()?;
        if said.secret.is_some_and(|said| said != store.secret) {
            bail!("secret isn't that of the store, which keeps the one that it was made with: take the line out, or put the old one back");
        }
        // (whoever may delete the ACL has done so)
        let (Some(principals), Some((generation, content))) = (said.principals, &store.base) else {
            return Ok(Vec::new());
        };
        let text = String::from_utf8_lossy(content);
        let present: Vec<&str> = text.lines().collect();
        if *generation == 1 && principals != present {
            bail!(
                "principals are those of a new store, and this one was made with {present:?}: `tillermoss put acl/base` changes whom it \
                 lets in; then take the line out"
            );
        }
        Ok(principals.into_iter().filter(|principal| !present.contains(&principal.as_str())).collect())
    }

    /// These settings, with a secret of 32 random bytes if none is said.
    #[must_use]
    pub fn with_secret(mut self) -> Settings {
        self.cell.entry(SECRET).or_insert_with(|| hex::encode(rand::random::<[u8; 32]>()).into());
        self
    }

    /// Whether it is said whom a new cell trusts.
    #[must_use]
    pub fn has_principals(&self) -> bool {
        self.cell.contains_key("principals")
    }

    /// Whether the secret that is said is the one that everybody knows.
    #[must_use]
    pub fn has_known_secret(&self) -> bool {
        let said = self.cell.get(SECRET).and_then(toml::Value::as_str);
        said.is_some_and(|secret| secret.bytes().all(|digit| digit == b'0'))
    }

    /// Those of the cell, with its limits, in a file that nobody else reads, and that goes with what is given back.
    pub fn write(&self, is_over_etcd: bool) -> Result<NamedTempFile> {
        let Limits { nodes, bytes, .. } = self.limits;
        let limits = OfTheCell { max_nodes: nodes, max_bytes: bytes, max_locks: self.limits.locks(is_over_etcd) };
        let mut cell = self.cell.clone();
        cell.insert(LIMITS.to_owned(), toml::Value::try_from(limits)?);
        let mut file = NamedTempFile::new()?;
        // (what is no table goes first)
        file.write_all(toml::to_string(&toml::Value::Table(cell))?.as_bytes())?;
        file.flush()?;
        Ok(file)
    }
}

#[cfg(test)]
mod tests {
    use super::*;

    #[test]
    fn limits_are_told_from_the_cell() {
        let settings = Settings::of_text("cell = \"k\"\nlease = 2000\n[limits]\nnodes = 7\n").unwrap();
        assert_eq!(settings.limits, Limits { nodes: 7, ..Limits::default() });
        for text in ["[limits]\nnode = 7\n", "[limits]\nnodes = -1\n", "[limits]\nlocks = -1\n", "limits = 7\n", "cell"] {
            assert!(Settings::of_text(text).is_err(), "{text}");
        }
    }

    #[test]
    fn a_master_is_told_the_limits_of_the_cell() {
        let rows = [
            ("", false, (1_000_000, 1 << 30, 10_000)),
            ("", true, (1_000_000, 1 << 30, 100)),
            ("nodes = 7\nbytes = 0\nlocks = 126\n", false, (7, 0, 126)),
            ("locks = 126\nconnections = 3\n", true, (1_000_000, 1 << 30, 126)),
        ];
        for (limits, is_over_etcd, (nodes, bytes, locks)) in rows {
            let settings = Settings::of_text(&format!("principals = [\"ann\"]\n[limits]\n{limits}")).unwrap();
            let told = fs::read_to_string(settings.write(is_over_etcd).unwrap().path()).unwrap();
            let wanted = format!("principals = [\"ann\"]\n[limits]\nmax_bytes = {bytes}\nmax_locks = {locks}\nmax_nodes = {nodes}\n");
            assert_eq!(toml::from_str::<Table>(&told).unwrap(), toml::from_str::<Table>(&wanted).unwrap(), "{limits}");
        }
    }

    #[test]
    fn more_locks_than_one_transaction_may_end_are_refused() {
        let file = NamedTempFile::new().unwrap();
        let read = |locks: u64, is_over_etcd| {
            fs::write(file.path(), format!("[limits]\nlocks = {locks}\n")).unwrap();
            Settings::read(Some(file.path()), is_over_etcd).map(|settings| settings.limits.locks(is_over_etcd))
        };
        for (locks, is_over_etcd) in [(0, true), (1_000, true), (1_001, false)] {
            assert_eq!(read(locks, is_over_etcd).unwrap(), locks);
        }
        let told = format!("{:#}", read(1_001, true).unwrap_err());
        let wanted = "the limit locks = 1001 is too much: over etcd 1000 at most, because a session ends in one transaction";
        assert_eq!(told, format!("the settings of {}: {wanted}", file.path().display()));
    }

    #[test]
    fn limits_of_the_cell_stay_until_the_next_start() {
        let of_text = |limits: &str| Settings::of_text(&format!("[limits]\n{limits}")).unwrap().limits;
        let present = of_text("nodes = 7\nlocks = 9\n");
        let rows = [
            ("nodes = 7\nlocks = 9\nsilence = 20\n", false),
            ("nodes = 8\nlocks = 9\nsilence = 20\n", true),
            ("nodes = 7\nlocks = 9\nbytes = 1\nsilence = 20\n", true),
            ("nodes = 7\nsilence = 20\n", true),
        ];
        for (limits, wanted) in rows {
            assert_eq!(of_text(limits).beside(&present), (Limits { silence: 20, ..present.clone() }, wanted), "{limits}");
        }
    }

    #[test]
    fn each_connection_wants_a_descriptor() {
        let limits = Limits { connections: 500, greetings: 200, ..Limits::default() };
        let rows = [(u64::MAX, 500, 200), (3328, 500, 200), (3327, 500, 199), (628, 469, 31), (0, 0, 0)];
        for (descriptors, connections, greetings) in rows {
            let found = limits.clone().within(descriptors);
            assert_eq!((found.connections, found.greetings), (connections, greetings), "{descriptors}");
        }
    }

    #[test]
    fn a_secret_is_made_where_none_is_said() {
        let secret = |text: &str| Settings::of_text(text).unwrap().with_secret().cell[SECRET].as_str().unwrap().to_owned();
        let said = "ab".repeat(32);
        assert_eq!(secret(&format!("secret = \"{said}\"\n")), said);
        assert!(Settings::of_text(&format!("secret = \"{}\"\n", "00".repeat(32))).unwrap().has_known_secret());
        assert!(!Settings::of_text("").unwrap().with_secret().has_known_secret());
        assert_eq!(secret("").len(), 64);
        assert_ne!(secret(""), secret(""));
    }

    #[test]
    fn a_rule_that_is_broken_is_told() {
        let rows = [
            ("cell = \"C\"", "cell is"),
            ("lease = 999", "lease is"),
            ("lease = 60001", "lease is"),
            ("lease = \"1 s\"", "expected a whole number, 0 or more, for key `lease`"),
            ("[limits]\nnodes = -7", "expected a whole number, 0 or more, for key `nodes`"),
            ("principals = [\"ann\", \"Bob\"]", "\"Bob\""),
            ("secret = \"00\"", "secret is"),
            ("leese = 1000", "leese"),
            ("[limits]\nnode = 7", "limits"),
        ];
        for (text, wanted) in rows {
            let told = format!("{:#}", Settings::of_text(text).unwrap_err());
            assert!(told.contains(wanted), "{text}: {told}");
        }
    }

    // A store of the cell c with this content of its ACL base, which was written so many times.
    fn store(base: &str, generation: u64) -> Connection {
        let store = Connection::open_in_memory().unwrap();
        store.execute_batch("CREATE TABLE meta (id, cell, secret); CREATE TABLE nodes (name, content_gen, content)").unwrap();
        store.execute("INSERT INTO meta VALUES (1, 'c', ?)", [[0xab_u8; 32]]).unwrap();
        store.execute("INSERT INTO nodes VALUES ('/ls/c/acl/base', ?, ?)", (generation, base.as_bytes())).unwrap();
        store
    }

    #[test]
    fn what_a_store_does_not_take_is_refused() {
        let check =
            |text: &str, generation| Settings::of_text(text).unwrap().check(&MadeWith::read(&store("ann\nbob\n", generation)).unwrap());
        let secret = |byte: &str| format!("secret = \"{}\"", byte.repeat(32));
        assert_eq!(check("", 1).unwrap(), [""; 0]);
        assert_eq!(check(&secret("ab"), 1).unwrap(), [""; 0]);
        assert!(check(&secret("ac"), 1).unwrap_err().to_string().contains("secret isn't"));
        assert_eq!(check("principals = [\"ann\", \"bob\"]", 1).unwrap(), [""; 0]);
        for other in ["[\"ann\"]", "[\"ann\", \"bob\", \"eve\"]", "[]"] {
            let told = check(&format!("principals = {other}"), 1).unwrap_err().to_string();
            assert!(told.contains("made with [\"ann\", \"bob\"]"), "{other}: {told}");
        }
        assert_eq!(check("principals = [\"ann\", \"eve\"]", 2).unwrap(), ["eve"]);
    }
}
