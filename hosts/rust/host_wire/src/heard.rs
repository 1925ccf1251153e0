//! What a master tells its server, and what it is sent.

use crate::library::{HeardParts, Name, down, heard, message, text, tick, up};
use crate::numbers;
use crate::said::Said;
use std::fmt::{self, Display, Formatter};

/// At which byte of a block that tells a message the bytes of it begin.
const MESSAGE_AT: usize = numbers::MESSAGE_AT as usize;

/// What a server sends to its master.
#[derive(Clone, Copy, Debug)]
pub enum Frame<'a> {
    /// A master comes up, at this moment.
    Up(u64),
    /// The bytes of a client's message come to it, at this moment.
    Message(u64, &'a [u8]),
    /// It does what there is to do at this moment.
    Tick(u64),
    /// It goes.
    Down,
}

impl Frame<'_> {
    /// Its bytes, ready to be sent, and those of a message as they came; None where they are too many, or memory is wanting.
    #[must_use]
    pub fn write(self) -> Option<Vec<u8>> {
        match self {
            Frame::Up(moment) => up(moment),
            Frame::Message(moment, bytes) => message(moment, bytes),
            Frame::Tick(moment) => tick(moment),
            Frame::Down => down(),
        }
    }
}

/// What a master tells in a block.
#[derive(Clone, Debug)]
pub struct Heard<'a> {
    block: &'a [u8],
    parts: HeardParts,
    name: Name,
}

/// What a block tells, as far as a server follows it.
#[derive(Clone, Debug, PartialEq, Eq)]
pub enum Told<'a> {
    /// A line that a step printed.
    Line(Printed<'a>),
    /// What a message says, for this client, and its bytes.
    Message(u64, Said, &'a [u8]),
    /// A frame was none, for the reason of this number.
    Bad(u32),
    /// All that is told of a frame stands before. From this moment on the master has something to do; None where nothing before a
    /// message comes.
    End(Option<u64>),
    /// What a server doesn't ask for.
    Other,
}

/// A line, as far as a server follows it. Clients, instances and rights are numbers.
#[derive(Clone, Copy, Debug, PartialEq, Eq)]
pub enum Printed<'a> {
    /// A master of this epoch is up.
    Up(u64),
    /// It has heard of all clients.
    Recovered,
    /// A session of this client began.
    Started(u64),
    /// It ended.
    Ended(u64),
    /// A node is as this, by a call of this client; 0 where the cell did it.
    Put(u64, Put<'a>),
    /// A node went.
    Gone(&'a str),
    /// A right of this number, for a client to cache a name.
    Granted(u64, u64, &'a str),
    /// A right ended, because its client let go.
    Acked(u64),
    /// A right ended with its session.
    Expired(u64),
    /// A client holds the lock of an instance.
    Locked(Locked),
    /// A client let go of the lock of an instance.
    Freed(u64, u64),
    /// A client's session ended while it held the lock of an instance.
    Lapsed(u64, u64),
    /// The lock-delay of an instance is over.
    Reopened(u64),
    /// Something was refused, by this number.
    Refused(u32),
    /// What a server doesn't follow.
    Other,
}

/// A node as it is seen after a change.
#[derive(Clone, Copy, Debug, PartialEq, Eq)]
pub struct Put<'a> {
    /// Where it is.
    pub name: &'a str,
    /// Which one it is of all that ever stood there.
    pub instance: u64,
    /// A file, or else a directory.
    pub is_file: bool,
    /// It goes when nobody holds it open.
    pub is_ephemeral: bool,
    /// Of its content.
    pub generation: u64,
    /// Of its content, in bytes.
    pub length: u64,
}

/// A lock that is held from now on.
#[derive(Clone, Copy, Debug, PartialEq, Eq)]
pub struct Locked {
    /// Who holds it.
    pub client: u64,
    /// Of which node.
    pub instance: u64,
    /// Whether others may hold it too.
    pub is_shared: bool,
    /// The lock's own.
    pub generation: u64,
}

/// The line that a block tells, as it is printed: for who reads a log.
#[derive(Clone, Copy, Debug)]
pub struct Text<'a>(pub &'a [u8]);

impl Display for Text<'_> {
    fn fmt(&self, out: &mut Formatter<'_>) -> fmt::Result {
        out.write_str(&String::from_utf8_lossy(&text(self.0).unwrap_or_default()))
    }
}

impl<'a> Heard<'a> {
    /// What is told in the block of these bytes; None where they tell nothing.
    #[must_use]
    pub fn read(block: &'a [u8]) -> Option<Heard<'a>> {
        heard(block).map(|(parts, name)| Heard { block, parts, name })
    }

    /// What the block tells, as far as a server follows it.
    #[must_use]
    pub fn told(&self) -> Told<'_> {
        let HeardParts { what, fault, is_timed, client, moment, said, .. } = self.parts;
        match what {
            numbers::LINE => Told::Line(self.printed().unwrap_or(Printed::Other)),
            numbers::MESSAGE => match (Said::of(said), self.block.get(MESSAGE_AT..)) {
                (Some(said), Some(bytes)) => Told::Message(client, said, bytes),
                _ => Told::Other,
            },
            numbers::BAD => Told::Bad(fault),
            numbers::END => Told::End((is_timed == 1).then_some(moment)),
            _ => Told::Other,
        }
    }

    // (None where a name doesn't fit: none is so long)
    fn printed(&self) -> Option<Printed<'_>> {
        let HeardParts { line, change, mode, fault, client, number, instance, generation, epoch, name_length, .. } = self.parts;
        Some(match (line, change) {
            (numbers::LINE_UP, _) => Printed::Up(epoch),
            (numbers::LINE_RECOVERED, _) => Printed::Recovered,
            (numbers::LINE_STARTED, _) => Printed::Started(client),
            (numbers::LINE_ENDED, _) => Printed::Ended(client),
            (numbers::LINE_APPLIED, numbers::PUT) => Printed::Put(client, self.put()?),
            (numbers::LINE_APPLIED, numbers::GONE) => Printed::Gone(self.name.text(name_length)?),
            (numbers::LINE_GRANTED, _) => Printed::Granted(number, client, self.name.text(name_length)?),
            (numbers::LINE_ACKED, _) => Printed::Acked(number),
            (numbers::LINE_EXPIRED, _) => Printed::Expired(number),
            (numbers::LINE_LOCKED, _) => Printed::Locked(Locked { client, instance, is_shared: mode == 1, generation }),
            (numbers::LINE_FREED, _) => Printed::Freed(client, instance),
            (numbers::LINE_LAPSED, _) => Printed::Lapsed(client, instance),
            (numbers::LINE_REOPENED, _) => Printed::Reopened(instance),
            (numbers::LINE_REFUSED, _) => Printed::Refused(fault),
            _ => Printed::Other,
        })
    }

    fn put(&self) -> Option<Put<'_>> {
        let HeardParts { kind, life, instance, generation, length, name_length, .. } = self.parts;
        let name = self.name.text(name_length)?;
        Some(Put { name, instance, is_file: kind == 0, is_ephemeral: life == 1, generation, length })
    }
}

impl Printed<'_> {
    /// The name of what happened, where that is counted.
    #[must_use]
    pub fn event(&self) -> Option<&'static str> {
        Some(match self {
            Printed::Put(..) | Printed::Gone(_) => "applied",
            Printed::Started(_) => "started",
            Printed::Ended(_) => "ended",
            Printed::Granted(..) => "granted",
            Printed::Acked(_) => "acked",
            Printed::Expired(_) => "expired",
            Printed::Locked(_) => "locked",
            Printed::Freed(..) => "freed",
            Printed::Lapsed(..) => "lapsed",
            _ => return None,
        })
    }

    /// Whether the store has taken a write.
    #[must_use]
    pub fn is_commit(&self) -> bool {
        matches!(
            self,
            Printed::Put(..)
                | Printed::Gone(_)
                | Printed::Started(_)
                | Printed::Ended(_)
                | Printed::Locked(_)
                | Printed::Freed(..)
                | Printed::Lapsed(..)
        )
    }

    /// Whether the store refused: it failed, or is damaged.
    #[must_use]
    pub fn is_store_refused(&self) -> bool {
        matches!(self, Printed::Refused(15 | 16))
    }
}

#[cfg(test)]
mod tests {
    use super::*;
    use crate::library::SaidParts;
    use crate::library::tests::named;
    use crate::said::MasterAnswer;

    const BLOCK: [u8; 12] = [0; 12];

    fn told(parts: HeardParts, name: &str) -> Heard<'static> {
        let parts = HeardParts { name_length: name.len() as u64, ..parts };
        Heard { block: &BLOCK, parts, name: named(name) }
    }

    fn line(line: u32, change: u32) -> HeardParts {
        HeardParts { what: 1, line, change, client: 1, number: 5, instance: 4, generation: 2, epoch: 3, length: 3, ..HeardParts::default() }
    }

    #[test]
    fn lines_are_told_by_their_parts() {
        let name = "/ls/c/f";
        let put = |is_file, is_ephemeral| Put { name, instance: 4, is_file, is_ephemeral, generation: 2, length: 3 };
        let lock = |is_shared| Locked { client: 1, instance: 4, is_shared, generation: 2 };
        let rows = [
            (line(1, 0), Printed::Up(3)),
            (line(2, 0), Printed::Other),
            (line(3, 0), Printed::Recovered),
            (line(4, 0), Printed::Started(1)),
            (line(5, 0), Printed::Ended(1)),
            (line(6, 1), Printed::Put(1, put(true, false))),
            (HeardParts { kind: 1, life: 1, ..line(6, 1) }, Printed::Put(1, put(false, true))),
            (line(6, 2), Printed::Gone(name)),
            (line(7, 0), Printed::Granted(5, 1, name)),
            (line(8, 0), Printed::Acked(5)),
            (line(9, 0), Printed::Expired(5)),
            (line(10, 0), Printed::Locked(lock(false))),
            (HeardParts { mode: 1, ..line(10, 0) }, Printed::Locked(lock(true))),
            (line(11, 0), Printed::Freed(1, 4)),
            (line(12, 0), Printed::Lapsed(1, 4)),
            (line(13, 0), Printed::Reopened(4)),
            (HeardParts { fault: 15, ..line(20, 0) }, Printed::Refused(15)),
            (line(14, 0), Printed::Other),
        ];
        for (parts, wanted) in rows {
            assert_eq!(told(parts, name).told(), Told::Line(wanted), "{parts:?}");
        }
    }

    #[test]
    fn all_else_is_told_by_its_parts() {
        let of = |what| HeardParts { what, client: 7, fault: 5, moment: 9, ..HeardParts::default() };
        let said = SaidParts { what: 4, fault: 28, client: 7, number: 5, ..SaidParts::default() };
        let answer = Said { client: 7, number: 5, answer: MasterAnswer::Refused(28) };
        let rows = [
            (HeardParts { said, ..of(2) }, Told::Message(7, answer, &BLOCK[MESSAGE_AT..])),
            (of(3), Told::Bad(5)),
            (of(4), Told::End(None)),
            (HeardParts { is_timed: 1, ..of(4) }, Told::End(Some(9))),
            (of(5), Told::Other),
        ];
        for (parts, wanted) in rows {
            assert_eq!(told(parts, "").told(), wanted, "{parts:?}");
        }
        assert!(Heard::read(b"").is_none());
        assert!(Heard::read(b"up 1").is_none());
    }

    #[test]
    fn what_a_line_says_of_the_store() {
        let rows = [
            (Printed::Gone("/ls/c/f"), true, false),
            (Printed::Freed(1, 4), true, false),
            (Printed::Granted(5, 1, "/ls/c/f"), false, false),
            (Printed::Refused(14), false, false),
            (Printed::Refused(15), false, true),
            (Printed::Refused(16), false, true),
        ];
        for (printed, is_commit, is_refused) in rows {
            assert_eq!((printed.is_commit(), printed.is_store_refused()), (is_commit, is_refused), "{printed:?}");
        }
    }

    #[test]
    fn frames_are_written() {
        for frame in [Frame::Up(1000), Frame::Tick(2), Frame::Down] {
            assert!(frame.write().is_some(), "{frame:?}");
        }
        for bytes in [&b""[..], b"no message"] {
            let frame = Frame::Message(1, bytes).write();
            assert!(frame.is_some_and(|frame| frame.ends_with(bytes) && frame.len() == bytes.len() + 14), "{bytes:?}");
        }
    }
}
