//! The bytes of docs/PROTOCOL.md and docs/FORMATS.md: what a client sends, and what it is told.

/// The version of greetings, and that of messages.
const GREETING: u8 = 1;
const VERSION: u8 = 2;

/// Refusals that this program acts on, by their numbers.
pub const NOT_FOUND: u8 = 6;
pub const EXISTS: u8 = 7;
pub const NO_SESSION: u8 = 19;
pub const BUSY: u8 = 22;
pub const OLD_EPOCH: u8 = 28;
pub const RECOVERING: u8 = 29;

/// How a file is opened.
pub const READ: u8 = 1;
pub const READ_WRITE: u8 = 3;

/// A block in the making: its length stands before it once it is done.
#[derive(Debug)]
pub struct Block(Vec<u8>);

impl Block {
    fn of(version: u8, kind: u8) -> Block {
        Block(vec![0, 0, 0, 0, version, kind])
    }

    fn byte(mut self, byte: u8) -> Block {
        self.0.push(byte);
        self
    }

    fn word(mut self, word: u64) -> Block {
        self.0.extend_from_slice(&word.to_be_bytes());
        self
    }

    fn bytes(mut self, bytes: &[u8]) -> Block {
        self.0.extend_from_slice(&(bytes.len() as u32).to_be_bytes());
        self.0.extend_from_slice(bytes);
        self
    }

    fn done(mut self) -> Vec<u8> {
        let length = (self.0.len() - 4) as u32;
        self.0[..4].copy_from_slice(&length.to_be_bytes());
        self.0
    }
}

/// The greeting of a new client, or of one that has a number and a token.
pub fn hello(principal: &str, known: Option<(u64, u64)>) -> Vec<u8> {
    let greeting = Block::of(GREETING, known.is_some().into()).bytes(principal.as_bytes());
    match known {
        Some((client, token)) => greeting.word(client).word(token).done(),
        None => greeting.done(),
    }
}

/// What the server answers to a greeting.
#[derive(Clone, Debug, PartialEq, Eq)]
pub enum Welcome {
    Bound { client: u64, token: u64 },
    NotMaster(String),
    TurnedAway(u8),
}

/// The first block that comes.
pub fn welcome(block: &[u8]) -> Option<Welcome> {
    let mut rest = Fields(block);
    match (rest.byte()?, rest.byte()?) {
        (GREETING, 0) => Some(Welcome::Bound { client: rest.word()?, token: rest.word()? }),
        (GREETING, 1) => match rest.byte()? {
            7 => Some(Welcome::NotMaster(String::from_utf8(rest.bytes()?.to_vec()).ok()?)),
            reason => Some(Welcome::TurnedAway(reason)),
        },
        _ => None,
    }
}

/// A Start.
pub fn start(client: u64, number: u64, principal: &str) -> Vec<u8> {
    Block::of(VERSION, 0).word(client).word(number).bytes(principal.as_bytes()).done()
}

/// A Beat, with what the client has processed of invalidations and of events.
pub fn beat(client: u64, epoch: u64, number: u64, invalidations: u64, events: u64) -> Vec<u8> {
    Block::of(VERSION, 1).word(client).word(epoch).word(number).word(invalidations).word(events).done()
}

/// What may be asked.
#[derive(Clone, Copy, Debug)]
pub enum Call<'a> {
    /// Opens what is there.
    Open(&'a str, u8),
    /// Opens a file that has to be new, with this content.
    MakeFile(&'a str, &'a [u8]),
    /// Opens a directory that has to be new.
    MakeDirectory(&'a str),
    Close(&'a [u8]),
    Read(&'a [u8]),
    Stat(&'a [u8]),
    List(&'a [u8]),
    Set(&'a [u8], &'a [u8]),
    Delete(&'a [u8]),
    /// An exclusive lock, for which it waits.
    Acquire(&'a [u8]),
    Release(&'a [u8]),
    Leave,
}

impl Call<'_> {
    /// The message of this call.
    pub fn write(self, client: u64, epoch: u64, number: u64) -> Vec<u8> {
        let call = Block::of(VERSION, 2).word(client).word(epoch).word(number);
        let written = match self {
            Call::Open(name, mode) => call.byte(0).bytes(name.as_bytes()).byte(mode).byte(0).word(0).byte(0),
            Call::MakeFile(name, content) => {
                let made = call.byte(0).bytes(name.as_bytes()).byte(READ_WRITE).byte(1);
                // (it must be new; a file; permanent; the ACL names of its parent)
                made.byte(1).byte(0).bytes(content).byte(0).byte(0).word(0).byte(0)
            }
            Call::MakeDirectory(name) => {
                call.byte(0).bytes(name.as_bytes()).byte(READ).byte(1).byte(1).byte(1).byte(0).byte(0).word(0).byte(0)
            }
            Call::Close(handle) => call.byte(1).bytes(handle),
            Call::Read(handle) => call.byte(2).bytes(handle),
            Call::Stat(handle) => call.byte(3).bytes(handle),
            Call::List(handle) => call.byte(4).bytes(handle),
            Call::Set(handle, content) => call.byte(5).bytes(handle).bytes(content).byte(0),
            Call::Delete(handle) => call.byte(7).bytes(handle),
            Call::Acquire(handle) => call.byte(8).bytes(handle).byte(0),
            Call::Release(handle) => call.byte(10).bytes(handle),
            Call::Leave => call.byte(14),
        };
        // (no sequencer)
        written.byte(0).done()
    }
}

/// A message of the master, or a notice of the server.
#[derive(Debug, PartialEq, Eq)]
pub enum Said<'a> {
    Started {
        epoch: u64,
        number: u64,
        span: u64,
    },
    Alive {
        epoch: u64,
        number: u64,
        span: u64,
        invalidations: Vec<(u64, &'a str)>,
        events: Vec<(u64, u8)>,
    },
    Reply {
        epoch: u64,
        number: u64,
        stamp: Option<u64>,
        result: Outcome<'a>,
    },
    Refused {
        epoch: u64,
        number: u64,
        refusal: u8,
        argument: u64,
    },
    /// Another master is up.
    NewMaster,
    /// Which limit the server has met.
    Notice(&'a str),
}

/// What came of a call.
#[derive(Debug, PartialEq, Eq)]
pub enum Outcome<'a> {
    Opened {
        handle: &'a [u8],
    },
    /// The view of a Read or a ReadDir.
    View {
        generation: u64,
        content: &'a [u8],
        children: Vec<&'a str>,
    },
    Stat {
        length: u64,
    },
    Refused(u8),
    /// Closed, or done.
    Done,
}

/// A block after the greeting.
pub fn said(block: &[u8]) -> Option<Said<'_>> {
    let mut rest = Fields(block);
    if rest.byte()? != VERSION {
        return None;
    }
    let kind = rest.byte()?;
    if kind == 4 {
        return Some(if rest.word()? == 0 { Said::NewMaster } else { Said::Notice(std::str::from_utf8(rest.0).unwrap_or("?")) });
    }
    let (_client, epoch, number) = (rest.word()?, rest.word()?, rest.word()?);
    let said = match kind {
        0 => Said::Started { epoch, number, span: rest.word()? },
        1 => {
            let span = rest.word()?;
            let invalidations = rest.list(|fields| Some((fields.word()?, fields.text()?)))?;
            let events = rest.list(|fields| Some((fields.word()?, fields.event()?)))?;
            Said::Alive { epoch, number, span, invalidations, events }
        }
        2 => Said::Reply { epoch, number, stamp: rest.optional(Fields::word)?, result: rest.outcome()? },
        3 => {
            let (refusal, argument) = rest.refusal()?;
            Said::Refused { epoch, number, refusal, argument }
        }
        _ => return None,
    };
    rest.0.is_empty().then_some(said)
}

/// What is left of a block.
struct Fields<'a>(&'a [u8]);

impl<'a> Fields<'a> {
    fn take(&mut self, count: usize) -> Option<&'a [u8]> {
        let (taken, rest) = self.0.split_at_checked(count)?;
        self.0 = rest;
        Some(taken)
    }

    fn byte(&mut self) -> Option<u8> {
        self.take(1).map(|bytes| bytes[0])
    }

    fn word(&mut self) -> Option<u64> {
        Some(u64::from_be_bytes(self.take(8)?.try_into().ok()?))
    }

    fn count(&mut self) -> Option<usize> {
        Some(u32::from_be_bytes(self.take(4)?.try_into().ok()?) as usize)
    }

    fn bytes(&mut self) -> Option<&'a [u8]> {
        let count = self.count()?;
        self.take(count)
    }

    fn text(&mut self) -> Option<&'a str> {
        std::str::from_utf8(self.bytes()?).ok()
    }

    fn list<T>(&mut self, item: impl Fn(&mut Self) -> Option<T>) -> Option<Vec<T>> {
        let count = self.count()?;
        (0..count).map(|_| item(self)).collect()
    }

    fn optional<T>(&mut self, item: impl Fn(&mut Self) -> Option<T>) -> Option<Option<T>> {
        match self.byte()? {
            0 => Some(None),
            1 => item(self).map(Some),
            _ => None,
        }
    }

    // The kind of an event; its fields are passed over.
    fn event(&mut self) -> Option<u8> {
        let kind = self.byte()?;
        match kind {
            0 | 8 => {}
            1 => _ = self.take(24)?,
            2..=4 => {
                self.word()?;
                self.bytes()?;
            }
            5..=7 => _ = self.word()?,
            _ => return None,
        }
        Some(kind)
    }

    // Its number, and its argument where that is a word.
    fn refusal(&mut self) -> Option<(u8, u64)> {
        let number = self.byte()?.checked_add(1)?;
        let argument = match number {
            8 | 10 | 23 => u64::from(self.byte()?),
            11 | 20 | 24 | 28 | 41 | 42 => self.word()?,
            _ => 0,
        };
        Some((number, argument))
    }

    fn outcome(&mut self) -> Option<Outcome<'a>> {
        Some(match self.byte()? {
            0 => {
                let handle = self.bytes()?;
                // (the instance, and whether it stays)
                self.take(9)?;
                Outcome::Opened { handle }
            }
            1 | 6 => Outcome::Done,
            2 | 4 => {
                // (the kind and the instance; then the generations, of which the content's counts)
                self.take(9)?;
                let generation = self.word()?;
                self.word()?;
                (0..3).try_for_each(|_| self.bytes().map(drop))?;
                self.byte()?;
                Outcome::View { generation, content: self.bytes()?, children: self.list(Fields::text)? }
            }
            3 => {
                self.take(33)?;
                (0..3).try_for_each(|_| self.bytes().map(drop))?;
                self.byte()?;
                Outcome::Stat { length: self.word()? }
            }
            7 => Outcome::Refused(self.refusal()?.0),
            _ => return None,
        })
    }
}

#[cfg(test)]
mod tests {
    use super::*;

    fn block(hex: &str) -> Vec<u8> {
        let digits: Vec<u8> = hex.bytes().filter(|byte| !byte.is_ascii_whitespace()).collect();
        digits.chunks(2).map(|pair| u8::from_str_radix(std::str::from_utf8(pair).unwrap(), 16).unwrap()).collect()
    }

    // The bytes of "A connection in bytes", docs/PROTOCOL.md.
    #[test]
    fn what_is_sent_is_as_the_protocol_says() {
        let rows = [
            (hello("ann", None), "00000009 01 00 00000003 616e6e"),
            (start(1, 1, "ann"), "00000019 02 00 0000000000000001 0000000000000001 00000003 616e6e"),
            (beat(1, 1, 2, 0, 0), "0000002a 02 01 0000000000000001 0000000000000001 0000000000000002 0000000000000000 0000000000000000"),
            (Call::Leave.write(1, 1, 2), "0000001c 02 02 0000000000000001 0000000000000001 0000000000000002 0e 00"),
            (
                Call::MakeFile("/ls/c/f", b"hi").write(1, 1, 1),
                "00000041 02 02 0000000000000001 0000000000000001 0000000000000001 00 00000007 2f6c732f632f66 03 01 01 00 00000002 6869
                 00 00 0000000000000000 00 00",
            ),
        ];
        for (written, wanted) in rows {
            let wanted = block(wanted);
            // (that page's file may be there, and this one has to be new)
            assert_eq!(written[4..], wanted[4..], "{wanted:?}");
            assert_eq!(written.len() - 4, u32::from_be_bytes(written[..4].try_into().unwrap()) as usize);
        }
    }

    #[test]
    fn what_comes_is_read() {
        let rows = [
            ("02 00 0000000000000001 0000000000000001 0000000000000001 0000000000002ee0", Some(Said::Started { epoch: 1, number: 1, span: 12_000 })),
            (
                "02 01 0000000000000001 0000000000000001 0000000000000002 0000000000002ee0 00000001 0000000000000001 00000007 2f6c732f632f66
                 00000001 0000000000000001 00",
                Some(Said::Alive { epoch: 1, number: 2, span: 12_000, invalidations: vec![(1, "/ls/c/f")], events: vec![(1, 0)] }),
            ),
            (
                "02 02 0000000000000001 0000000000000001 0000000000000002 00 06",
                Some(Said::Reply { epoch: 1, number: 2, stamp: None, result: Outcome::Done }),
            ),
            (
                "02 03 0000000000000001 0000000000000001 0000000000000002 1b 0000000000000005",
                Some(Said::Refused { epoch: 1, number: 2, refusal: OLD_EPOCH, argument: 5 }),
            ),
            ("02 04 0000000000000000 6162", Some(Said::NewMaster)),
            ("02 02 0000000000000001 0000000000000001 0000000000000002 00 06 00", None),
            ("01 00", None),
        ];
        for (bytes, wanted) in rows {
            let bytes = block(bytes);
            assert_eq!(said(&bytes), wanted, "{bytes:?}");
        }
        assert_eq!(
            welcome(&block("01 00 0000000000000001 91a3c5e7091b2d3f")),
            Some(Welcome::Bound { client: 1, token: 0x91a3_c5e7_091b_2d3f })
        );
        assert_eq!(welcome(&block("01 01 07 00000001 61")), Some(Welcome::NotMaster("a".into())));
        assert_eq!(welcome(&block("01 01 04")), Some(Welcome::TurnedAway(4)));
    }
}
