//! What a server shows to operators, in JSON.

use serde::{Deserialize, Serialize};

/// How a server stands.
#[derive(Clone, Debug, Default, PartialEq, Eq, Serialize, Deserialize)]
pub struct Status {
    /// The server's version.
    pub version: String,
    /// Since so many seconds it serves.
    pub seconds: u64,
    /// Where it listens.
    pub listening: Vec<String>,
    /// What an operator is to know, as that an address isn't safe.
    pub warnings: Vec<String>,
    /// A master is up, and has recovered.
    pub is_ready: bool,
    /// The master's epoch.
    pub epoch: u64,
    /// How many nodes there are.
    pub nodes: usize,
    /// How many bytes their contents have.
    pub bytes: u64,
    /// How many sessions are live.
    pub sessions: usize,
    /// How many locks aren't free.
    pub locks: usize,
    /// How many rights to cache a name are held.
    pub rights: usize,
    /// How many changes wait.
    pub changes_waiting: usize,
    /// How many connections have greeted.
    pub connections: usize,
    /// What a master that came up waits for before it changes anything; None where it has recovered.
    #[serde(default)]
    pub recovery: Option<RecoveryShown>,
}

/// What a recovery waits for.
#[derive(Clone, Debug, Default, PartialEq, Eq, Serialize, Deserialize)]
pub struct RecoveryShown {
    /// The clients of before that weren't heard of yet; the first hundred.
    pub waits_for: Vec<SessionShown>,
    /// How many these are.
    pub count: usize,
    /// How many milliseconds it lasts at most: then their sessions end.
    pub left: u64,
}

/// A session that is live.
#[derive(Clone, Debug, PartialEq, Eq, Serialize, Deserialize)]
pub struct SessionShown {
    /// The client's number.
    pub client: u64,
    /// For whom it acts.
    pub principal: String,
    /// Whether it has a connection.
    pub is_connected: bool,
    /// How many milliseconds its last lease still runs, 0 where it has ended; None where this server gave none.
    pub lease_left: Option<u64>,
}

/// A lock that isn't free.
#[derive(Clone, Debug, PartialEq, Eq, Serialize, Deserialize)]
pub struct LockShown {
    /// The node's name.
    pub name: String,
    /// Whether it is shared.
    pub is_shared: bool,
    /// The clients that hold it; none where the lock-delay of one that is gone runs.
    pub holders: Vec<u64>,
    /// The clients that wait for it.
    pub waiters: Vec<u64>,
    /// How often it went from free to held.
    pub generation: u64,
}

/// A call that waits.
#[derive(Clone, Debug, PartialEq, Eq, Serialize, Deserialize)]
pub struct WaitShown {
    /// Whose call it is.
    pub client: u64,
    /// For whom that acts.
    pub principal: String,
    /// What is asked for.
    pub act: String,
    /// Of which node.
    pub name: String,
    /// Since so many milliseconds.
    pub waited: u64,
    /// For which clients it waits: they hold the lock, or may have the node in their cache; the first hundred.
    pub waits_for: Vec<u64>,
    /// How many these are.
    #[serde(default)]
    pub count: usize,
}

/// A node, without its content.
#[derive(Clone, Debug, PartialEq, Eq, Serialize, Deserialize)]
pub struct NodeShown {
    /// The whole name.
    pub name: String,
    /// A file, or a directory.
    pub is_file: bool,
    /// It goes once nobody holds it open.
    pub is_ephemeral: bool,
    /// How many bytes its content has.
    pub length: u64,
    /// How often its content was written.
    pub generation: u64,
}

/// All of it.
#[derive(Clone, Debug, Default, PartialEq, Eq, Serialize, Deserialize)]
pub struct Shown {
    /// It changes with whatever is shown.
    pub mark: u64,
    /// How the server stands.
    pub status: Status,
    /// The nodes, in order of names; the first thousand.
    pub nodes: Vec<NodeShown>,
    /// The sessions that are live; two hundred, and of these first those for which a call waits.
    pub sessions: Vec<SessionShown>,
    /// The locks that aren't free; two hundred, and of these first those that most wait for.
    pub locks: Vec<LockShown>,
    /// The calls that wait; the two hundred that have waited longest, these first.
    pub waits: Vec<WaitShown>,
}
