//! What a client's message asks for, as far as a server has to know it: whose it is, for its limits, and to show who waits for what.

use crate::library::{AskedParts, Name, asked};
use crate::numbers::{ACQUIRE, CALL, DELETE, OPEN, SET, SET_ACL, START};

/// A message of a client.
#[derive(Clone, Debug)]
pub struct Asked {
    parts: AskedParts,
    name: Name,
}

/// A call that may change the cell, or wait.
#[derive(Clone, Debug, PartialEq, Eq)]
pub struct Deed<'a> {
    /// Whose call it is.
    pub client: u64,
    /// The master that it is for.
    pub epoch: u64,
    /// Its number.
    pub number: u64,
    /// The node's name. That of a handle is what the client says: only the master tests its digits.
    pub name: &'a str,
    /// What is asked for.
    pub act: Act,
}

/// What is asked for.
#[derive(Clone, Copy, Debug, PartialEq, Eq)]
pub enum Act {
    /// A node is made where there is none, with a content of so many bytes.
    Create(u64),
    /// A content of so many bytes.
    Set(u64),
    /// Other ACLs.
    SetAcl,
    /// The node goes.
    Delete,
    /// The lock of the node of this instance.
    Acquire(u64),
}

impl Act {
    /// Its name.
    #[must_use]
    pub fn name(self) -> &'static str {
        match self {
            Act::Create(_) => "create",
            Act::Set(_) => "set",
            Act::SetAcl => "acl",
            Act::Delete => "delete",
            Act::Acquire(_) => "acquire",
        }
    }
}

impl Asked {
    /// What these bytes ask for. None where they are no message of a client, in all of them; a master would refuse them.
    #[must_use]
    pub fn read(message: &[u8]) -> Option<Asked> {
        asked(message).map(|(parts, name)| Asked { parts, name })
    }

    /// Its number: Starts and Beats have theirs, and calls.
    #[must_use]
    pub fn number(&self) -> u64 {
        self.parts.number
    }

    /// The epoch of the master that it is for; 0 of a Start.
    #[must_use]
    pub fn epoch(&self) -> u64 {
        self.parts.epoch
    }

    /// Whether a session is to begin.
    #[must_use]
    pub fn is_start(&self) -> bool {
        self.parts.what == START
    }

    /// Whether something is asked for; else a session is begun or kept.
    #[must_use]
    pub fn is_call(&self) -> bool {
        self.parts.what == CALL
    }

    /// Whether it is from the client of this number, who acts for this principal.
    #[must_use]
    pub fn is_from(&self, client: u64, principal: &str) -> bool {
        self.parts.client == client && (!self.is_start() || self.name.text(self.parts.name_length) == Some(principal))
    }

    /// What is done by it; None of another message, of a call that only reads, and where its handle shows no name: a master refuses
    /// that.
    #[must_use]
    pub fn deed(&self) -> Option<Deed<'_>> {
        let AskedParts { what, call, client, epoch, number, makes, instance, length, name_length } = self.parts;
        if what != CALL {
            return None;
        }
        let act = match call {
            OPEN if makes == 1 => Act::Create(length),
            SET => Act::Set(length),
            SET_ACL => Act::SetAcl,
            DELETE => Act::Delete,
            ACQUIRE => Act::Acquire(instance),
            _ => return None,
        };
        let name = self.name.text(name_length)?;
        Some(Deed { client, epoch, number, name, act })
    }
}

#[cfg(test)]
mod tests {
    use super::*;
    use crate::library::tests::named;

    fn message(what: u32, call: u32, makes: u64, name: &str) -> Asked {
        let parts = AskedParts { what, call, makes, instance: 4, length: 3, client: 7, epoch: 2, number: 5, ..AskedParts::default() };
        Asked { parts: AskedParts { name_length: name.len() as u64, ..parts }, name: named(name) }
    }

    #[test]
    fn a_message_is_from_the_client_and_principal_that_it_names() {
        let rows = [
            (message(1, 0, 0, "ann"), 7, "ann", true),
            (message(1, 0, 0, "ann"), 7, "bob", false),
            (message(1, 0, 0, "ann"), 8, "ann", false),
            (message(2, 0, 0, ""), 7, "bob", true),
            (message(2, 0, 0, ""), 8, "bob", false),
            (message(3, 1, 0, "/ls/c"), 7, "bob", true),
        ];
        for (asked, client, principal, wanted) in rows {
            assert_eq!(asked.is_from(client, principal), wanted, "{asked:?}");
        }
    }

    #[test]
    fn deeds_are_calls_that_change_or_wait() {
        let (name, long, longer) = ("/ls/c/f", "n".repeat(512), "n".repeat(513));
        let rows = [
            (message(3, 1, 1, name), Some((name, Act::Create(3)))),
            (message(3, 1, 0, name), None),
            (message(3, 3, 0, name), None),
            (message(3, 6, 0, name), Some((name, Act::Set(3)))),
            (message(3, 7, 0, name), Some((name, Act::SetAcl))),
            (message(3, 8, 0, name), Some((name, Act::Delete))),
            (message(3, 9, 0, name), Some((name, Act::Acquire(4)))),
            (message(3, 10, 0, name), None),
            (message(3, 8, 0, &long), Some((&*long, Act::Delete))),
            (message(3, 8, 0, &longer), None),
            (message(1, 0, 0, name), None),
        ];
        for (asked, wanted) in rows {
            let found = asked.deed();
            assert_eq!(found.as_ref().map(|deed| (deed.name, deed.act)), wanted, "{asked:?}");
            assert!(found.is_none_or(|deed| (deed.client, deed.epoch, deed.number) == (7, 2, 5)));
        }
    }

    #[test]
    fn bytes_that_are_none_ask_for_nothing() {
        for bytes in [&b""[..], b"asked", b"hello"] {
            assert!(Asked::read(bytes).is_none(), "{bytes:?}");
        }
    }
}
