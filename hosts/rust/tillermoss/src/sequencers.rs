//! What the bytes of a sequencer say.

use crate::nodes::LockMode;

/// What a sequencer says: which lock was held, how, and at which of its generations (Burrows 2006, section 2.4). It is read out of the
/// bytes alone: whether the lock is held still, only the cell knows ([`check_sequencer`](crate::Client::check_sequencer)).
///
/// ```
/// # programs::with_server(|address| -> Result<(), tillermoss::Error> {
/// # use tillermoss::*;
/// # let client = &Client::connect(&Options::new(address, "ann"))?;
/// let file = client.create("/ls/c/f", b"")?;
/// client.acquire(file, LockMode::Exclusive)?;
/// let sequencer = Sequencer::read(&client.sequencer(file)?).unwrap();
/// assert_eq!((sequencer.name.as_str(), sequencer.mode, sequencer.generation), ("/ls/c/f", LockMode::Exclusive, 1));
/// # Ok(()) });
/// ```
#[derive(Clone, Debug, PartialEq, Eq)]
pub struct Sequencer {
    /// The name of the node.
    pub name: String,
    /// How its lock was held.
    pub mode: LockMode,
    /// The instance of the node: of two nodes of one name the later has the greater.
    pub instance: u64,
    /// The generation of the node's lock: it rises whenever a free lock is taken, and begins anew where the node is made anew.
    pub generation: u64,
}

impl Sequencer {
    /// That of these bytes; None where they aren't those of a sequencer.
    ///
    /// ```
    /// # use tillermoss::Sequencer;
    /// assert_eq!(Sequencer::read(b"no sequencer"), None);
    /// ```
    #[must_use]
    pub fn read(bytes: &[u8]) -> Option<Sequencer> {
        let (head, name) = bytes.split_at_checked(20)?;
        let number = |at: usize| Some(u64::from_be_bytes(head[at..at + 8].try_into().ok()?));
        let mode = match head[..2] {
            [1, 1] => LockMode::Exclusive,
            [1, 2] => LockMode::Shared,
            _ => return None,
        };
        let (instance, generation) = (number(2)?, number(10)?);
        let is_whole = usize::from(u16::from_be_bytes([head[18], head[19]])) == name.len();
        let in_range = [instance, generation].iter().all(|number| (1..1 << 63).contains(number));
        let name = String::from_utf8(name.to_vec()).ok()?;
        (is_whole && in_range).then_some(Sequencer { name, mode, instance, generation })
    }

    /// A number that rises from one holder of a name to the next, also where the node was deleted and made again: the instance and the
    /// generation in order, as one number. Who keeps the greatest that it has seen, and refuses a smaller one, is written to by no holder
    /// of before. Of holders that share a lock some have the same.
    ///
    /// For what takes 64 bits alone the [generation](Sequencer::generation) does, as long as the node is permanent and nobody deletes it.
    ///
    /// ```
    /// # use tillermoss::{LockMode, Sequencer};
    /// let first = Sequencer { name: "/ls/c/f".to_owned(), mode: LockMode::Exclusive, instance: 4, generation: 9 };
    /// let of_a_new_node = Sequencer { instance: 5, generation: 1, ..first.clone() };
    /// assert!(first.fencing_number() < of_a_new_node.fencing_number());
    /// assert_eq!(first.fencing_number(), 73_786_976_294_838_206_473);
    /// ```
    #[must_use]
    pub fn fencing_number(&self) -> u128 {
        u128::from(self.instance) << 64 | u128::from(self.generation)
    }
}

#[cfg(test)]
mod tests {
    use super::*;

    #[test]
    fn a_sequencer_is_read_of_its_bytes_alone() {
        let bytes = hex_bytes("01010000000000000004000000000000000100072f6c732f632f66");
        let wanted = Sequencer { name: "/ls/c/f".to_owned(), mode: LockMode::Exclusive, instance: 4, generation: 1 };
        assert_eq!(Sequencer::read(&bytes), Some(wanted));
        for (at, byte) in [(0, 2), (1, 0), (1, 3), (2, 0x80), (9, 0), (17, 0), (19, 6), (19, 8), (20, 0xff)] {
            let mut wrong = bytes.clone();
            wrong[at] = byte;
            assert_eq!(Sequencer::read(&wrong), None, "{at} {byte}");
        }
        assert_eq!(Sequencer::read(&bytes[..bytes.len() - 1]), None);
        assert_eq!(Sequencer::read(&bytes[..19]), None);
        assert_eq!(Sequencer::read(&[]), None);
    }

    fn hex_bytes(text: &str) -> Vec<u8> {
        (0..text.len()).step_by(2).map(|at| u8::from_str_radix(&text[at..at + 2], 16).unwrap()).collect()
    }

    #[test]
    fn the_number_rises_over_generations_and_instances() {
        let at = |instance, generation| Sequencer { name: String::new(), mode: LockMode::Shared, instance, generation }.fencing_number();
        let last = (1 << 63) - 1;
        let numbers = [at(1, 1), at(1, 2), at(1, last), at(2, 1), at(last, 1), at(last, last)];
        assert!(numbers.is_sorted_by(|one, other| one < other));
    }
}
