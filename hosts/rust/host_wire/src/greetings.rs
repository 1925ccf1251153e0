//! The first block each way: who the client is, and which number the connection is bound to.
//!
//! ```text
//! hello     = version 00 principal                    a new client, for this principal
//!           | version 01 principal client token       the client of this number, as its welcome named it
//! welcome   = version 00 client token                 the connection is bound to this number
//!           | version 01 reason address               it isn't bound, and is closed; the address, as bytes, stands after 7 alone
//! version   = 01
//! ```
//!
//! A client and a token are words, a principal is bytes after their length in four, a reason is one byte. A token is shown to
//! the client that was given the number and to nobody else: who has it may take the number up again.

use crate::components::is_component;
use crate::fields::Fields;
use thiserror::Error;

/// The version of greetings.
const GREETING: u8 = 1;

/// The longest greeting, in bytes.
pub const GREETING_LIMIT: usize = 256;

/// A first block that isn't one.
#[derive(Clone, Copy, Debug, PartialEq, Eq)]
pub struct Malformed;

/// What a client says first.
#[derive(Clone, Debug, PartialEq, Eq)]
pub enum Hello {
    /// A client that has no number yet.
    New {
        /// Whom it acts for.
        principal: String,
    },
    /// A client that was given a number, over a new connection.
    Again {
        /// Whom it acts for: as it said when it was given the number.
        principal: String,
        /// The number.
        client: u64,
        /// What came with it.
        token: u64,
    },
}

/// What the server answers to a hello: the connection is bound.
#[derive(Clone, Copy, Debug, PartialEq, Eq)]
pub struct Welcome {
    /// The client's number, 1 to 2^53-1, which no other client gets.
    pub client: u64,
    /// By this the client takes its number up again.
    pub token: u64,
}

/// Why a connection isn't bound, and is closed.
#[derive(Clone, Copy, Debug, PartialEq, Eq, Error)]
#[repr(u8)]
pub enum TurnedAway {
    /// The first block is no hello, or one of another version.
    #[error("the greeting wasn't understood")]
    NotUnderstood = 0,
    /// The principal isn't 1 to 64 of `a-z 0-9 . _ -`, or is `.` or `..`.
    #[error("not a principal")]
    BadPrincipal = 1,
    /// The number wasn't given to this principal with this token.
    #[error("the number was given to another client")]
    WrongToken = 2,
    /// No number is left, or none could be written down.
    #[error("no number could be given")]
    NoNumber = 3,
    /// As many clients are connected as the server takes.
    #[error("too many clients")]
    Full = 4,
    /// The connection is that of another principal, by its certificate or its user.
    #[error("the connection is that of another principal")]
    OtherPrincipal = 5,
    /// As many clients of this principal are connected as the server takes of one.
    #[error("too many clients of this principal")]
    FullForPrincipal = 6,
    /// The server isn't master: it stands by. The address of the one that is stands after the reason, if it is known.
    #[error("the server isn't master")]
    NotMaster = 7,
}

impl TurnedAway {
    fn read(byte: u8) -> Option<TurnedAway> {
        TurnedAway::ALL.into_iter().find(|reason| *reason as u8 == byte)
    }

    /// Each of them.
    pub const ALL: [TurnedAway; 8] = {
        use TurnedAway::{BadPrincipal, Full, FullForPrincipal, NoNumber, NotMaster, NotUnderstood, OtherPrincipal, WrongToken};
        [NotUnderstood, BadPrincipal, WrongToken, NoNumber, Full, OtherPrincipal, FullForPrincipal, NotMaster]
    };

    /// Whether it may be otherwise a little later.
    #[must_use]
    pub fn is_for_now(self) -> bool {
        matches!(self, TurnedAway::Full | TurnedAway::FullForPrincipal | TurnedAway::NoNumber | TurnedAway::NotMaster)
    }
}

fn put_bytes(out: &mut Vec<u8>, bytes: &[u8]) {
    out.extend_from_slice(&(bytes.len() as u32).to_be_bytes());
    out.extend_from_slice(bytes);
}

impl Hello {
    /// Whom it is for.
    #[must_use]
    pub fn principal(&self) -> &str {
        match self {
            Hello::New { principal } | Hello::Again { principal, .. } => principal,
        }
    }

    /// Its bytes.
    #[must_use]
    pub fn write(&self) -> Vec<u8> {
        let kind = u8::from(matches!(self, Hello::Again { .. }));
        let mut out = vec![GREETING, kind];
        put_bytes(&mut out, self.principal().as_bytes());
        if let Hello::Again { client, token, .. } = self {
            out.extend_from_slice(&client.to_be_bytes());
            out.extend_from_slice(&token.to_be_bytes());
        }
        out
    }

    /// The hello of these bytes.
    ///
    /// # Errors
    ///
    /// Why they are none: as `NotUnderstood`, or as `BadPrincipal`.
    pub fn read(bytes: &[u8]) -> Result<Hello, TurnedAway> {
        let hello = Hello::fields(bytes).ok_or(TurnedAway::NotUnderstood)?;
        if is_component(hello.principal()) { Ok(hello) } else { Err(TurnedAway::BadPrincipal) }
    }

    fn fields(bytes: &[u8]) -> Option<Hello> {
        let mut fields = Fields(bytes);
        if fields.byte()? != GREETING {
            return None;
        }
        let kind = fields.byte()?;
        let principal = String::from_utf8_lossy(fields.bytes()?).into_owned();
        let hello = match kind {
            0 => Hello::New { principal },
            1 => Hello::Again { principal, client: fields.word()?, token: fields.word()? },
            _ => return None,
        };
        fields.is_done().then_some(hello)
    }
}

impl Welcome {
    /// The bytes of a welcome, or of the reason why there is none.
    #[must_use]
    pub fn write(answer: &Result<Welcome, TurnedAway>) -> Vec<u8> {
        match answer {
            Ok(welcome) => {
                let mut out = vec![GREETING, 0];
                out.extend_from_slice(&welcome.client.to_be_bytes());
                out.extend_from_slice(&welcome.token.to_be_bytes());
                out
            }
            Err(reason) => vec![GREETING, 1, *reason as u8],
        }
    }

    /// The bytes by which a server that stands by turns clients away: the address of the master, empty where it isn't known.
    #[must_use]
    pub fn not_master(address: &str) -> Vec<u8> {
        let mut out = Welcome::write(&Err(TurnedAway::NotMaster));
        put_bytes(&mut out, address.as_bytes());
        out
    }

    /// The address of the master in such bytes.
    #[must_use]
    pub fn master(bytes: &[u8]) -> Option<String> {
        let mut fields = Fields(bytes);
        let is_it = fields.take(3)? == Welcome::write(&Err(TurnedAway::NotMaster));
        let address = fields.text().filter(|_| is_it && fields.is_done())?;
        (!address.is_empty()).then(|| address.to_owned())
    }

    /// The welcome of these bytes, or the reason why there is none.
    ///
    /// # Errors
    ///
    /// If they are neither.
    pub fn read(bytes: &[u8]) -> Result<Result<Welcome, TurnedAway>, Malformed> {
        Welcome::fields(bytes).ok_or(Malformed)
    }

    fn fields(bytes: &[u8]) -> Option<Result<Welcome, TurnedAway>> {
        let mut fields = Fields(bytes);
        if fields.byte()? != GREETING {
            return None;
        }
        let answer = match fields.byte()? {
            0 => Ok(Welcome { client: fields.word()?, token: fields.word()? }),
            1 => match TurnedAway::read(fields.byte()?)? {
                // (who wants the address reads it by `master`)
                TurnedAway::NotMaster => fields.text().map(|_| Err(TurnedAway::NotMaster))?,
                reason => Err(reason),
            },
            _ => return None,
        };
        fields.is_done().then_some(answer)
    }
}

#[cfg(test)]
mod tests {
    use super::*;

    fn principal() -> String {
        "ann".to_owned()
    }

    #[test]
    fn a_hello_is_read_as_it_was_written() {
        let rows: &[(Hello, &[u8])] = &[
            (Hello::New { principal: principal() }, b"\x01\0\0\0\0\x03ann"),
            (Hello::Again { principal: principal(), client: 2, token: 3 }, b"\x01\x01\0\0\0\x03ann\0\0\0\0\0\0\0\x02\0\0\0\0\0\0\0\x03"),
        ];
        for (hello, bytes) in rows {
            assert_eq!(hello.write(), *bytes);
            assert_eq!(Hello::read(bytes).as_ref(), Ok(hello));
        }
    }

    #[test]
    fn other_first_blocks_are_turned_away() {
        let rows: &[(&[u8], TurnedAway)] = &[
            (b"", TurnedAway::NotUnderstood),
            (b"\x02\0\0\0\0\x03ann", TurnedAway::NotUnderstood),
            (b"\x01\x02\0\0\0\x03ann", TurnedAway::NotUnderstood),
            (b"\x01\0\0\0\0\x04ann", TurnedAway::NotUnderstood),
            (b"\x01\0\0\0\0\x03ann!", TurnedAway::NotUnderstood),
            (b"\x01\x01\0\0\0\x03ann\0", TurnedAway::NotUnderstood),
            (b"\x01\0\0\0\0\x03Ann", TurnedAway::BadPrincipal),
            (b"\x01\0\0\0\0\x02..", TurnedAway::BadPrincipal),
            (b"\x01\0\0\0\0\0", TurnedAway::BadPrincipal),
        ];
        for (bytes, reason) in rows {
            assert_eq!(Hello::read(bytes), Err(*reason), "{bytes:?}");
        }
    }

    #[test]
    fn the_master_is_told() {
        let told = Welcome::not_master("tcp:h:7");
        assert_eq!(told, b"\x01\x01\x07\0\0\0\x07tcp:h:7");
        assert_eq!((Welcome::read(&told), Welcome::master(&told)), (Ok(Err(TurnedAway::NotMaster)), Some("tcp:h:7".to_owned())));
        let unknown = Welcome::not_master("");
        assert_eq!((Welcome::read(&unknown), Welcome::master(&unknown)), (Ok(Err(TurnedAway::NotMaster)), None));
        assert_eq!(Welcome::master(b"\x01\x01\x06\0\0\0\x07tcp:h:7"), None);
    }

    #[test]
    fn an_answer_is_read_as_it_was_written() {
        let welcome = Welcome { client: 1, token: 2 };
        let rows: &[(Result<Welcome, TurnedAway>, &[u8])] = &[
            (Ok(welcome), b"\x01\0\0\0\0\0\0\0\0\x01\0\0\0\0\0\0\0\x02"),
            (Err(TurnedAway::NotUnderstood), b"\x01\x01\0"),
            (Err(TurnedAway::BadPrincipal), b"\x01\x01\x01"),
            (Err(TurnedAway::WrongToken), b"\x01\x01\x02"),
            (Err(TurnedAway::NoNumber), b"\x01\x01\x03"),
            (Err(TurnedAway::Full), b"\x01\x01\x04"),
            (Err(TurnedAway::OtherPrincipal), b"\x01\x01\x05"),
            (Err(TurnedAway::FullForPrincipal), b"\x01\x01\x06"),
        ];
        for (answer, bytes) in rows {
            assert_eq!(Welcome::write(answer), *bytes);
            assert_eq!(Welcome::read(bytes).as_ref(), Ok(answer));
        }
        assert_eq!(Welcome::read(b"\x01\x01\x07"), Err(Malformed));
        assert_eq!(Welcome::read(b"\x01\x01\x08"), Err(Malformed));
        assert_eq!(Welcome::read(b"\x01\x02"), Err(Malformed));
    }
}
