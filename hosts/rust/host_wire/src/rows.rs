//! The rows of a cell, as a master asks for them and is told them by who keeps them.

use crate::library::{
    EditParts, LockParts, NodeParts, OwnParts, rows_asked, rows_edit, rows_front, rows_kept, rows_lock, rows_node, rows_refused,
    rows_session,
};
use crate::numbers;

/// What a master asks.
#[derive(Clone, Debug, PartialEq, Eq)]
pub enum Question {
    /// All rows.
    Load,
    /// That these edits be done, all or none, as the commit of this number.
    Commit(u64, Vec<Edit>),
}

/// One edit.
#[derive(Clone, Debug, PartialEq, Eq)]
pub enum Edit {
    /// How many masters came up.
    Epoch(u64),
    /// The instance of the next node.
    NextInstance(u64),
    /// A node at a name.
    PutNode(String, Node),
    /// The generation of the lock of the node at a name.
    LockGeneration(String, u64),
    /// The node at a name goes, with its locks.
    RemoveNode(String),
    /// The session of a client.
    PutSession(u64, Session),
    /// A row of a lock.
    PutLock(LockKey, Lock),
    /// It goes.
    RemoveLock(LockKey),
    /// The session of a client, which has ended, isn't recorded any more.
    RemoveSession(u64),
    /// A client number below it that has no session gets none any more.
    EndedBelow(u64),
}

/// A node, without the generation of its lock.
#[derive(Clone, Debug, PartialEq, Eq)]
pub struct Node {
    /// 0 a file, 1 a directory.
    pub kind: u32,
    /// 0 permanent, 1 ephemeral.
    pub life: u32,
    /// Which one it is of all that ever stood at its name.
    pub instance: u64,
    /// How often its content was written.
    pub content_generation: u64,
    /// How often its ACL names were changed.
    pub acl_generation: u64,
    /// Who may read, write, and change the three names.
    pub acl: [String; 3],
    /// What a file holds.
    pub content: Vec<u8>,
}

/// A session.
#[derive(Clone, Debug, PartialEq, Eq)]
pub struct Session {
    /// Whom its client acts for.
    pub principal: String,
    /// Whether it hasn't ended.
    pub is_live: bool,
}

/// Which lock it is, of whose handle: instance, client, handle.
pub type LockKey = (u64, u64, u64);

/// A row of a lock.
#[derive(Clone, Copy, Debug, PartialEq, Eq)]
pub struct Lock {
    /// 0 lapsed, 1 exclusive, 2 shared.
    pub state: u32,
    /// Its lock-delay, in milliseconds.
    pub delay: u64,
}

/// The cell's own row, and the number of the last commit.
#[derive(Clone, Copy, Debug, PartialEq, Eq)]
pub struct Own<'a> {
    /// How many commits made the rows.
    pub number: u64,
    /// The cell.
    pub cell: &'a str,
    /// Its secret.
    pub secret: &'a [u8],
    /// How many masters came up.
    pub epoch: u64,
    /// The instance of the next node.
    pub next_instance: u64,
    /// A client number below it that has no session gets none any more.
    pub ended_below: u64,
}

impl Question {
    /// What is asked by these bytes, without their number in front; None where nothing is, or memory is wanting.
    #[must_use]
    pub fn read(block: &[u8]) -> Option<Question> {
        let parts = rows_asked(block)?;
        match parts.what {
            numbers::LOAD => Some(Question::Load),
            numbers::COMMIT => {
                let edits = block.get(usize::try_from(parts.edits_at).ok()?..)?;
                Some(Question::Commit(parts.number, edits_of(edits, parts.edits)?))
            }
            _ => None,
        }
    }
}

// How many edits, each where the one before it ends.
fn edits_of(mut bytes: &[u8], count: u64) -> Option<Vec<Edit>> {
    let (mut edits, mut room) = (Vec::new(), vec![0; 0x1_0000]);
    for _ in 0..count {
        let parts = rows_edit(bytes, &mut room)?;
        edits.push(Edit::of(&parts, &room)?);
        bytes = bytes.get(usize::try_from(parts.taken).ok()?..)?;
    }
    Some(edits)
}

// The texts of an edit, from the left.
struct Texts<'a>(&'a [u8]);

impl<'a> Texts<'a> {
    fn bytes(&mut self, length: u64) -> Option<&'a [u8]> {
        let (now, later) = self.0.split_at_checked(usize::try_from(length).ok()?)?;
        self.0 = later;
        Some(now)
    }

    fn text(&mut self, length: u64) -> Option<String> {
        std::str::from_utf8(self.bytes(length)?).ok().map(str::to_owned)
    }
}

impl Edit {
    fn of(parts: &EditParts, room: &[u8]) -> Option<Edit> {
        let mut texts = Texts(room);
        let name = texts.text(parts.name_length)?;
        let key = (parts.instance, parts.client, parts.handle);
        Some(match parts.what {
            numbers::EDIT_EPOCH => Edit::Epoch(parts.number),
            numbers::EDIT_NEXT_INSTANCE => Edit::NextInstance(parts.number),
            numbers::EDIT_PUT_NODE => Edit::PutNode(name, Node::of(parts, &mut texts)?),
            numbers::EDIT_LOCK_GENERATION => Edit::LockGeneration(name, parts.number),
            numbers::EDIT_REMOVE_NODE => Edit::RemoveNode(name),
            numbers::EDIT_PUT_SESSION => Edit::PutSession(parts.client, Session { principal: name, is_live: parts.live == 1 }),
            numbers::EDIT_PUT_LOCK => Edit::PutLock(key, Lock { state: parts.state, delay: parts.delay }),
            numbers::EDIT_REMOVE_LOCK => Edit::RemoveLock(key),
            numbers::EDIT_REMOVE_SESSION => Edit::RemoveSession(parts.client),
            numbers::EDIT_ENDED_BELOW => Edit::EndedBelow(parts.number),
            _ => return None,
        })
    }
}

impl Node {
    fn of(parts: &EditParts, texts: &mut Texts) -> Option<Node> {
        let EditParts { kind, life, instance, content_generation, acl_generation, .. } = *parts;
        let acl = [texts.text(parts.read_length)?, texts.text(parts.write_length)?, texts.text(parts.change_length)?];
        let content = texts.bytes(parts.content_length)?.to_vec();
        Some(Node { kind, life, instance, content_generation, acl_generation, acl, content })
    }

    /// Its row, at this name and with this generation of its lock; None where it has none.
    #[must_use]
    pub fn row(&self, name: &str, lock_generation: u64) -> Option<Vec<u8>> {
        let Node { kind, life, instance, content_generation, acl_generation, .. } = *self;
        let parts = NodeParts { kind, life, instance, content_generation, acl_generation, lock_generation };
        rows_node(parts, name, self.acl.each_ref().map(String::as_str), &self.content)
    }
}

impl Session {
    /// Its row, of this client; None where it has none.
    #[must_use]
    pub fn row(&self, client: u64) -> Option<Vec<u8>> {
        rows_session(client, &self.principal, self.is_live)
    }
}

impl Lock {
    /// Its row; None where it has none.
    #[must_use]
    pub fn row(&self, (instance, client, handle): LockKey) -> Option<Vec<u8>> {
        rows_lock(LockParts { instance, client, handle, state: self.state.into(), delay: self.delay })
    }
}

impl Own<'_> {
    /// What goes out before so many rows, which have so many bytes together; None where that can't be told.
    #[must_use]
    pub fn before(&self, rows: usize, length: usize) -> Option<Vec<u8>> {
        let Own { number, cell, secret, epoch, next_instance, ended_below } = *self;
        rows_front(OwnParts { number, epoch, next_instance, ended_below, rows: rows as u64, length: length as u64 }, cell, secret)
    }
}

/// The answer that the edits of a commit stand, or that they don't; None where memory is wanting.
#[must_use]
pub fn write_verdict(is_kept: bool) -> Option<Vec<u8>> {
    if is_kept { rows_kept() } else { rows_refused() }
}

#[cfg(test)]
mod tests {
    use super::*;

    fn parts(what: u32) -> EditParts {
        EditParts { what, number: 3, client: 1, live: 1, instance: 4, handle: 2, state: 1, delay: 60, ..EditParts::default() }
    }

    #[test]
    fn edits_have_their_values() {
        let name = || "/ls/c/f".to_owned();
        let of_node = EditParts {
            kind: 1,
            life: 1,
            content_generation: 5,
            acl_generation: 6,
            name_length: 7,
            read_length: 1,
            write_length: 2,
            change_length: 3,
            content_length: 2,
            ..parts(3)
        };
        let acl = ["r", "wr", "own"].map(str::to_owned);
        let node = Node { kind: 1, life: 1, instance: 4, content_generation: 5, acl_generation: 6, acl, content: vec![0, 255] };
        let named = |what| EditParts { name_length: 7, ..parts(what) };
        let rows = [
            (parts(1), Some(Edit::Epoch(3))),
            (parts(2), Some(Edit::NextInstance(3))),
            (of_node, Some(Edit::PutNode(name(), node))),
            (named(4), Some(Edit::LockGeneration(name(), 3))),
            (named(5), Some(Edit::RemoveNode(name()))),
            (named(6), Some(Edit::PutSession(1, Session { principal: name(), is_live: true }))),
            (EditParts { live: 0, ..named(6) }, Some(Edit::PutSession(1, Session { principal: name(), is_live: false }))),
            (parts(7), Some(Edit::PutLock((4, 1, 2), Lock { state: 1, delay: 60 }))),
            (parts(8), Some(Edit::RemoveLock((4, 1, 2)))),
            (parts(9), Some(Edit::RemoveSession(1))),
            (parts(10), Some(Edit::EndedBelow(3))),
            (parts(11), None),
            (EditParts { name_length: 99, ..parts(5) }, None),
        ];
        for (parts, wanted) in rows {
            assert_eq!(Edit::of(&parts, b"/ls/c/frwrown\0\xff.."), wanted, "{parts:?}");
        }
    }

    #[test]
    fn what_is_no_question_asks_nothing() {
        for block in [&b""[..], b"load"] {
            assert_eq!(Question::read(block), None, "{block:?}");
        }
    }

    #[test]
    fn what_is_none_has_no_row() {
        let node = |kind, life, acl: [&str; 3]| {
            let acl = acl.map(str::to_owned);
            Node { kind, life, instance: 4, content_generation: 1, acl_generation: 1, acl, content: Vec::new() }
        };
        let base = ["base"; 3];
        let rows = [
            (node(0, 0, base), "/ls/c/f", true),
            (node(1, 1, base), "/ls/c/f", true),
            (node(2, 0, base), "/ls/c/f", false),
            (node(0, 2, base), "/ls/c/f", false),
            (node(0, 0, ["base", "base", ""]), "/ls/c/f", false),
            (node(0, 0, base), "/ls/c/F", false),
        ];
        for (node, name, is_one) in rows {
            assert_eq!(node.row(name, 9).is_some(), is_one, "{name} {node:?}");
        }
        let session = |principal: &str| Session { principal: principal.to_owned(), is_live: true };
        assert_eq!([session("ann"), session("Ann")].map(|session| session.row(1).is_some()), [true, false]);
        assert_eq!([2, 3].map(|state| Lock { state, delay: 60 }.row((4, 1, 2)).is_some()), [true, false]);
        let own = |cell, secret| Own { number: 0, cell, secret, epoch: 1, next_instance: 4, ended_below: 2 };
        let rows = [
            (own("c", &[0; 32]), 0, true),
            (own("c", &[0; 31]), 0, false),
            (own("C", &[0; 32]), 0, false),
            (own("c", &[0; 32]), u32::MAX as usize, false),
        ];
        for (own, length, is_one) in rows {
            assert_eq!(own.before(1, length).is_some(), is_one, "{own:?} {length}");
        }
        assert!(write_verdict(true).is_some() && write_verdict(true) != write_verdict(false));
    }
}
