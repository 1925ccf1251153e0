//! The rows as they stand in etcd, and what a master asks and is told of them: docs/BEYOND_ONE_MACHINE.md has the keys.

use crate::etcd::decisions::Turn;
use anyhow::{Context, Result};
use host_wire::rows::{self, Own};
use serde::{Deserialize, Serialize};

/// The words of choices, each at its place.
pub const KINDS: [&str; 2] = ["file", "dir"];
/// The words of lives, each at its place.
pub const LIVES: [&str; 2] = ["permanent", "ephemeral"];
/// The words of locks, each at its place.
pub const STATES: [&str; 3] = ["lapsed", "exclusive", "shared"];

/// A content: a text where it is one that can be read, else in hexadecimal.
#[derive(Clone, Debug, PartialEq, Eq, Serialize, Deserialize)]
#[serde(rename_all = "lowercase")]
pub enum Content {
    /// As it is.
    Text(String),
    /// Two digits for each byte.
    Hex(String),
}

/// A node as it stands in etcd. The generation of its lock stands by itself.
#[derive(Clone, Debug, PartialEq, Eq, Serialize, Deserialize)]
pub struct NodeRow {
    /// A file or a directory.
    pub kind: String,
    /// Which one it is of all that ever stood at its name.
    pub instance: u64,
    /// How often its content was written.
    pub content_generation: u64,
    /// How often its ACL names were changed.
    pub acl_generation: u64,
    /// Who may read.
    pub read: String,
    /// Who may write.
    pub write: String,
    /// Who may change the three names.
    pub change: String,
    /// Permanent or ephemeral.
    pub life: String,
    /// What a file holds.
    pub content: Content,
}

/// A session.
#[derive(Clone, Debug, PartialEq, Eq, Serialize, Deserialize)]
pub struct SessionRow {
    /// Whom its client acts for.
    pub principal: String,
    /// Whether it hasn't ended.
    pub live: bool,
}

/// A row of a lock.
#[derive(Clone, Debug, PartialEq, Eq, Serialize, Deserialize)]
pub struct LockRow {
    /// Lapsed, exclusive or shared.
    pub state: String,
    /// Its lock-delay, in milliseconds.
    pub delay: u64,
}

/// The cell's own row.
#[derive(Clone, Debug, Default, PartialEq, Eq, Serialize, Deserialize)]
pub struct Meta {
    /// The cell.
    pub cell: String,
    /// Its secret, in hexadecimal.
    pub secret: String,
    /// How many masters came up.
    pub epoch: u64,
    /// The instance of the next node.
    pub next_instance: u64,
    /// A client number below it that has no session gets none any more.
    #[serde(default)]
    pub ended_below: u64,
    /// The number of the last commit.
    pub number: u64,
    /// Under which mastership it was made: the revision by which that began.
    pub by: i64,
    /// Which keeper wrote this, by the number that it has alone; 0 of one that had none.
    #[serde(default)]
    pub keeper: u64,
    /// Which of its transactions did.
    #[serde(default)]
    pub turn: u64,
}

/// The key of a lock's row.
pub type LockRowKey = (u64, u64, u64);

/// One of a list of words, by its place.
pub fn chosen(words: &[&str], place: u32) -> Option<String> {
    words.get(place as usize).map(|word| (*word).to_owned())
}

/// The place of a word in its list.
pub fn place(words: &[&str], word: &str) -> Result<u32> {
    let at = words.iter().position(|known| *known == word).with_context(|| format!("{word} is none of {words:?}"))?;
    Ok(at as u32)
}

impl Meta {
    /// Whose transaction wrote it.
    #[must_use]
    pub fn written_by(&self) -> Turn {
        Turn { keeper: self.keeper, turn: self.turn }
    }
}

impl Content {
    /// How many bytes it has.
    #[must_use]
    pub fn length(&self) -> u64 {
        match self {
            Content::Text(text) => text.len() as u64,
            Content::Hex(digits) => digits.len() as u64 / 2,
        }
    }

    /// That of these bytes. (A text of control characters would have six letters for each.)
    #[must_use]
    pub fn of(bytes: &[u8]) -> Content {
        match std::str::from_utf8(bytes) {
            Ok(text) if !text.chars().any(|letter| letter.is_control() && letter != '\n') => Content::Text(text.to_owned()),
            _ => Content::Hex(hex::encode(bytes)),
        }
    }

    /// Its bytes.
    pub fn bytes(&self) -> Result<Vec<u8>> {
        match self {
            Content::Text(text) => Ok(text.clone().into_bytes()),
            Content::Hex(digits) => Ok(hex::decode(digits)?),
        }
    }
}

impl NodeRow {
    /// That of a master; None of one that isn't understood.
    pub fn of(node: &rows::Node) -> Option<NodeRow> {
        let [read, write, change] = node.acl.clone();
        Some(NodeRow {
            kind: chosen(&KINDS, node.kind)?,
            instance: node.instance,
            content_generation: node.content_generation,
            acl_generation: node.acl_generation,
            read,
            write,
            change,
            life: chosen(&LIVES, node.life)?,
            content: Content::of(&node.content),
        })
    }

    /// A row that a master is told.
    pub fn row(&self, name: &str, lock_generation: u64) -> Result<Vec<u8>> {
        let node = rows::Node {
            kind: place(&KINDS, &self.kind)?,
            life: place(&LIVES, &self.life)?,
            instance: self.instance,
            content_generation: self.content_generation,
            acl_generation: self.acl_generation,
            acl: [&self.read, &self.write, &self.change].map(Clone::clone),
            content: self.content.bytes()?,
        };
        node.row(name, lock_generation).with_context(|| format!("the node at {name} can't be told"))
    }
}

impl SessionRow {
    /// That of a master.
    pub fn of(session: &rows::Session) -> SessionRow {
        SessionRow { principal: session.principal.clone(), live: session.is_live }
    }

    /// A row that a master is told.
    pub fn row(&self, client: u64) -> Result<Vec<u8>> {
        let session = rows::Session { principal: self.principal.clone(), is_live: self.live };
        session.row(client).with_context(|| format!("the session of {client} can't be told"))
    }
}

impl LockRow {
    /// That of a master; None of one that isn't understood.
    pub fn of(lock: rows::Lock) -> Option<LockRow> {
        Some(LockRow { state: chosen(&STATES, lock.state)?, delay: lock.delay })
    }

    /// A row that a master is told.
    pub fn row(&self, key: LockRowKey) -> Result<Vec<u8>> {
        let lock = rows::Lock { state: place(&STATES, &self.state)?, delay: self.delay };
        lock.row(key).with_context(|| format!("the lock {key:?} can't be told"))
    }
}

/// What a master is answered.
#[derive(Clone, Debug, PartialEq, Eq)]
pub enum RowsAnswer {
    /// All rows: what stands in front of them, and their bytes.
    Rows(Vec<u8>, Vec<u8>),
    /// Whether a commit stands.
    Verdict(bool),
}

impl RowsAnswer {
    /// That these are all rows: so many, and their bytes.
    pub fn rows(meta: &Meta, count: usize, rows: Vec<u8>) -> Result<RowsAnswer> {
        let secret = hex::decode(&meta.secret)?;
        let Meta { number, epoch, next_instance, ended_below, .. } = *meta;
        let own = Own { number, cell: &meta.cell, secret: &secret, epoch, next_instance, ended_below };
        let front = own.before(count, rows.len()).context("the rows are more than 4 GiB, or the cell's own row is none")?;
        Ok(RowsAnswer::Rows(front, rows))
    }
}

#[cfg(test)]
mod tests {
    use super::*;

    #[test]
    fn contents_are_readable_where_they_can_be() {
        let rows = [(&b"one\ntwo"[..], Content::Text("one\ntwo".to_owned())), (&[0, 255], Content::Hex("00ff".to_owned()))];
        for (bytes, wanted) in rows {
            assert_eq!(Content::of(bytes), wanted);
            assert_eq!(wanted.bytes().unwrap(), bytes);
        }
    }

    #[test]
    fn what_a_master_puts_has_its_words() {
        let acl = ["base", "own", "acl"].map(str::to_owned);
        let node = |kind, life| rows::Node {
            kind,
            life,
            instance: 4,
            content_generation: 1,
            acl_generation: 2,
            acl: acl.clone(),
            content: b"hi".to_vec(),
        };
        let words = |kind, life| NodeRow::of(&node(kind, life)).map(|node| (node.kind, node.life, node.change));
        let wanted = |kind: &str, life: &str| Some((kind.to_owned(), life.to_owned(), "acl".to_owned()));
        let rows = [(0, 0, wanted("file", "permanent")), (1, 1, wanted("dir", "ephemeral")), (2, 0, None), (0, 2, None)];
        for (kind, life, wanted) in rows {
            assert_eq!(words(kind, life), wanted, "{kind} {life}");
        }
        let locks = [(0, Some("lapsed")), (1, Some("exclusive")), (2, Some("shared")), (3, None)];
        for (state, wanted) in locks {
            let lock = LockRow::of(rows::Lock { state, delay: 60 });
            assert_eq!(lock, wanted.map(|state| LockRow { state: state.to_owned(), delay: 60 }), "{state}");
        }
    }

    #[test]
    fn rows_go_out_as_a_master_knows_them() {
        let acl = ["base", "own", "acl"].map(str::to_owned);
        let node = rows::Node { kind: 0, life: 1, instance: 4, content_generation: 1, acl_generation: 2, acl, content: vec![0, 255] };
        assert_eq!(NodeRow::of(&node).unwrap().row("/ls/c/f", 9).ok(), node.row("/ls/c/f", 9));
        let session = rows::Session { principal: "ann".to_owned(), is_live: true };
        assert_eq!(SessionRow::of(&session).row(7).ok(), session.row(7));
        let lock = rows::Lock { state: 2, delay: 60 };
        assert_eq!(LockRow::of(lock).unwrap().row((4, 1, 2)).ok(), lock.row((4, 1, 2)));
    }
}
