//! Nodes, and what may be done with them.

use crate::numbers;
use std::fmt;

/// A file or a directory.
///
/// ```
/// # programs::with_server(|address| -> Result<(), tillermoss::Error> {
/// # use tillermoss::*;
/// # let client = &Client::connect(&Options::new(address, "ann"))?;
/// let root = client.open("/ls/c", Mode::READ)?;
/// assert_eq!(client.stat(root)?.kind, Kind::Directory);
/// assert_eq!(Kind::File.to_string(), "file");
/// # Ok(()) });
/// ```
#[derive(Clone, Copy, Debug, PartialEq, Eq)]
pub enum Kind {
    /// It has a content.
    File,
    /// It has children.
    Directory,
}

/// How a lock is held.
///
/// ```
/// # programs::with_server(|address| -> Result<(), tillermoss::Error> {
/// # use tillermoss::*;
/// # let client = &Client::connect(&Options::new(address, "ann"))?;
/// client.acquire(client.create("/ls/c/f", b"")?, LockMode::Shared)?;
/// client.acquire(client.open("/ls/c/f", Mode::WRITE)?, LockMode::Shared)?;
/// # Ok(()) });
/// ```
#[derive(Clone, Copy, Debug, PartialEq, Eq)]
pub enum LockMode {
    /// By one handle alone.
    Exclusive,
    /// By any number of handles.
    Shared,
}

/// What a principal may be permitted on a node.
///
/// ```
/// # programs::with_server(|address| -> Result<(), tillermoss::Error> {
/// # use tillermoss::*;
/// # let client = &Client::connect(&Options::new(address, "ann"))?;
/// let file = client.create("/ls/c/f", b"")?;
/// let reading = client.open("/ls/c/f", Mode::READ)?;
/// assert_eq!(client.set(reading, b"", None).unwrap_err().refusal(), Some(Refusal::Denied(Right::Write)));
/// client.close(file)?;
/// # Ok(()) });
/// ```
#[derive(Clone, Copy, Debug, PartialEq, Eq)]
pub enum Right {
    /// To read it.
    Read,
    /// To write it, and to take its lock.
    Write,
    /// To change who may what.
    Change,
}

/// What a handle is for: each wants the right of its name when it is opened.
///
/// ```
/// # programs::with_server(|address| -> Result<(), tillermoss::Error> {
/// # let client = &tillermoss::Client::connect(&tillermoss::Options::new(address, "ann"))?;
/// use tillermoss::Mode;
/// client.create("/ls/c/f", b"")?;
/// client.open("/ls/c/f", Mode::READ.and(Mode::WRITE))?;
/// # Ok(()) });
/// ```
#[derive(Clone, Copy, Debug, PartialEq, Eq)]
pub struct Mode(pub(crate) u8);

impl Mode {
    /// To read, and to list.
    ///
    /// ```
    /// # programs::with_server(|address| -> Result<(), tillermoss::Error> {
    /// # use tillermoss::*;
    /// # let client = &Client::connect(&Options::new(address, "ann"))?;
    /// assert_eq!(client.list(client.open("/ls/c", Mode::READ)?)?, ["acl"]);
    /// # Ok(()) });
    /// ```
    pub const READ: Mode = Mode(numbers::READ as u8);
    /// To set, to delete, and to take the lock.
    ///
    /// ```
    /// # programs::with_server(|address| -> Result<(), tillermoss::Error> {
    /// # use tillermoss::*;
    /// # let client = &Client::connect(&Options::new(address, "ann"))?;
    /// client.create("/ls/c/f", b"")?;
    /// let file = client.open("/ls/c/f", Mode::WRITE)?;
    /// client.set(file, b"hello", None)?;
    /// assert_eq!(client.read(file).unwrap_err().refusal(), Some(Refusal::Denied(Right::Read)));
    /// # Ok(()) });
    /// ```
    pub const WRITE: Mode = Mode(numbers::WRITE as u8);
    /// To change the names of the ACLs.
    ///
    /// ```
    /// # programs::with_server(|address| -> Result<(), tillermoss::Error> {
    /// # use tillermoss::*;
    /// # let client = &Client::connect(&Options::new(address, "ann"))?;
    /// client.create("/ls/c/f", b"")?;
    /// client.set_acl(client.open("/ls/c/f", Mode::CHANGE)?, &["base", "base", "base"].map(str::to_owned), None)?;
    /// # Ok(()) });
    /// ```
    pub const CHANGE: Mode = Mode(numbers::CHANGE_ACL as u8);

    /// For what either is for.
    ///
    /// ```
    /// # use tillermoss::Mode;
    /// assert_eq!(Mode::READ.and(Mode::WRITE), Mode::WRITE.and(Mode::READ));
    /// ```
    #[must_use]
    pub const fn and(self, other: Mode) -> Mode {
        Mode(self.0 | other.0)
    }
}

/// The numbers of a node.
///
/// ```
/// # programs::with_server(|address| -> Result<(), tillermoss::Error> {
/// # let client = &tillermoss::Client::connect(&tillermoss::Options::new(address, "ann"))?;
/// let file = client.create("/ls/c/f", b"a")?;
/// client.set(file, b"bc", None)?;
/// let stat = client.stat(file)?;
/// assert_eq!((stat.length, stat.content_generation, stat.is_ephemeral), (2, 2, false));
/// # Ok(()) });
/// ```
#[derive(Clone, Debug, PartialEq, Eq)]
pub struct Stat {
    /// A file or a directory.
    pub kind: Kind,
    /// It tells the node from every other that had its name.
    pub instance: u64,
    /// How often its content was written; 1 for a new file, 0 for a directory.
    pub content_generation: u64,
    /// How often its ACL names were written, the first time too.
    pub acl_generation: u64,
    /// How often its lock went from free to held; None where a read shows it.
    pub lock_generation: Option<u64>,
    /// The ACLs to read, to write, and to change ACLs.
    pub acl: [String; 3],
    /// It goes by itself once nobody holds it open.
    pub is_ephemeral: bool,
    /// How many bytes its content has; 0 for a directory.
    pub length: u64,
}

/// What a read shows of a node.
///
/// ```
/// # programs::with_server(|address| -> Result<(), tillermoss::Error> {
/// # let client = &tillermoss::Client::connect(&tillermoss::Options::new(address, "ann"))?;
/// use tillermoss::Mode;
/// let view = client.read(client.open("/ls/c", Mode::READ)?)?;
/// assert_eq!(view.children, ["acl"]);
/// # Ok(()) });
/// ```
#[derive(Clone, Debug, PartialEq, Eq)]
pub struct View {
    /// Its numbers.
    pub stat: Stat,
    /// Its whole content; empty for a directory.
    pub content: Vec<u8>,
    /// The last components of the names of its children, in order of bytes; none of a file.
    pub children: Vec<String>,
    /// Whether the cache served it, so that the master wasn't asked.
    pub is_served: bool,
}

// (by the numbers of `include/cell_client.h`)
impl Kind {
    pub(crate) fn of(number: u64) -> Option<Kind> {
        match u32::try_from(number).ok()? {
            numbers::A_FILE => Some(Kind::File),
            numbers::A_DIRECTORY => Some(Kind::Directory),
            _ => None,
        }
    }
}

impl LockMode {
    pub(crate) fn of(number: u64) -> Option<LockMode> {
        match u32::try_from(number).ok()? {
            numbers::EXCLUSIVE => Some(LockMode::Exclusive),
            numbers::SHARED => Some(LockMode::Shared),
            _ => None,
        }
    }

    pub(crate) fn number(self) -> u32 {
        match self {
            LockMode::Exclusive => numbers::EXCLUSIVE,
            LockMode::Shared => numbers::SHARED,
        }
    }
}

impl Right {
    pub(crate) fn of(number: u64) -> Option<Right> {
        match u32::try_from(number).ok()? {
            numbers::READ => Some(Right::Read),
            numbers::WRITE => Some(Right::Write),
            numbers::CHANGE_ACL => Some(Right::Change),
            _ => None,
        }
    }
}

impl fmt::Display for Kind {
    fn fmt(&self, out: &mut fmt::Formatter<'_>) -> fmt::Result {
        out.write_str(match self {
            Kind::File => "file",
            Kind::Directory => "dir",
        })
    }
}

impl fmt::Display for LockMode {
    fn fmt(&self, out: &mut fmt::Formatter<'_>) -> fmt::Result {
        out.write_str(match self {
            LockMode::Exclusive => "x",
            LockMode::Shared => "s",
        })
    }
}

impl fmt::Display for Right {
    fn fmt(&self, out: &mut fmt::Formatter<'_>) -> fmt::Result {
        out.write_str(match self {
            Right::Read => "read",
            Right::Write => "write",
            Right::Change => "change",
        })
    }
}
