//! What a server says by itself to a client after the greeting: that it doesn't hand a call on to the master, and why; or that another
//! master is up.

use crate::fields::Fields;

/// How a notice begins, where the messages of a master have their version and their kind: of that version, and of a kind that no
/// master sends.
const HEAD: [u8; 2] = [2, 4];

/// Why a server doesn't hand the call of this number on to its master: a block before the reply, which then is that the store
/// refused. With the number 0, which no call has, that another master is up: what the client sent to the last one may be lost.
#[derive(Clone, Debug, PartialEq, Eq)]
pub struct Notice {
    /// The call's number.
    pub number: u64,
    /// Which limit stands against it.
    pub reason: String,
}

impl Notice {
    /// That another master is up.
    #[must_use]
    pub fn of_new_master() -> Notice {
        Notice { number: 0, reason: "another master is up".to_owned() }
    }

    /// Whether it says that another master is up.
    #[must_use]
    pub fn is_of_new_master(&self) -> bool {
        self.number == 0
    }

    /// Its bytes.
    #[must_use]
    pub fn write(&self) -> Vec<u8> {
        let mut out = HEAD.to_vec();
        out.extend_from_slice(&self.number.to_be_bytes());
        out.extend_from_slice(self.reason.as_bytes());
        out
    }

    /// The notice of these bytes; None of another block.
    #[must_use]
    pub fn read(block: &[u8]) -> Option<Notice> {
        let mut fields = Fields(block);
        if fields.take(2)? != HEAD {
            return None;
        }
        Some(Notice { number: fields.word()?, reason: String::from_utf8_lossy(fields.0).into_owned() })
    }
}

#[cfg(test)]
mod tests {
    use super::*;

    #[test]
    fn a_notice_is_read_as_it_was_written() {
        let notice = Notice { number: 258, reason: "no room".to_owned() };
        assert_eq!(notice.write(), b"\x02\x04\0\0\0\0\0\0\x01\x02no room");
        assert_eq!(Notice::read(&notice.write()), Some(notice));
        for other in [&b"\x02\x02\0\0\0\0\0\0\0\x01"[..], b"\x02\x04\0", b""] {
            assert_eq!(Notice::read(other), None);
        }
    }
}
