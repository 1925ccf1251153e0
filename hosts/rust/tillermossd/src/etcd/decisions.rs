//! What is decided by the proved code of crates/mastership: when a mastership ends, what became of a commit whose answer got lost, and
//! which number a client gets. include/mastership.h says what each of these promises.

unsafe extern "C" {
    fn mastership_end(sent: u64, span: u64) -> u64;
    fn mastership_settled(keeper: u64, turn: u64, over: u64, read_keeper: u64, read_turn: u64, read_revision: u64) -> u32;
    fn mastership_number(from: u64, to: u64, given: u64) -> u64;
}

/// Which transaction of which keeper one is.
#[derive(Clone, Copy, Debug, PartialEq, Eq)]
pub struct Turn {
    /// The keeper's own number.
    pub keeper: u64,
    /// Which of its transactions.
    pub turn: u64,
}

/// What became of a commit.
#[derive(Clone, Copy, Debug, PartialEq, Eq)]
pub enum Outcome {
    /// It stands.
    Stands,
    /// It isn't done, and never will be.
    IsOff,
    /// It isn't done, and may still be.
    IsOpen,
    /// Another keeper has written, and the time of this one is over.
    IsOver,
}

/// When a mastership ends whose last renewal was sent then, and answered with so many seconds.
#[must_use]
pub fn end_of(sent: u64, seconds: u64) -> u64 {
    // SAFETY: it takes and gives numbers alone.
    unsafe { mastership_end(sent, seconds.saturating_mul(1000)) }
}

/// What became of the commit of this turn, which was sent over this revision: by whose turn what now stands was written, and at which
/// revision.
#[must_use]
pub fn outcome(commit: Turn, over: i64, read: Turn, revision: i64) -> Outcome {
    let (over, revision) = (over.cast_unsigned(), revision.cast_unsigned());
    // SAFETY: it takes and gives numbers alone.
    match unsafe { mastership_settled(commit.keeper, commit.turn, over, read.keeper, read.turn, revision) } {
        1 => Outcome::Stands,
        2 => Outcome::IsOff,
        3 => Outcome::IsOpen,
        _ => Outcome::IsOver,
    }
}

/// The number that a client gets, of those from one on and below another, of which so many are given; None where none is left.
#[must_use]
pub fn number(from: u64, to: u64, given: u64) -> Option<u64> {
    // SAFETY: it takes and gives numbers alone.
    let number = unsafe { mastership_number(from, to, given) };
    (number > 0).then_some(number)
}

#[cfg(test)]
mod tests {
    use super::*;

    // (5,000 ms: 80,000 sixteenths, less than that in seventeenths is 4,705)
    #[test]
    fn a_mastership_ends_before_its_lease() {
        assert_eq!(end_of(1000, 5), 1000 + 4705);
        assert_eq!(end_of(1000, 0), 0);
        assert_eq!(end_of(1 << 53, 5), 0);
    }

    #[test]
    fn a_commit_is_told_by_its_turn() {
        let turn = |keeper, turn| Turn { keeper, turn };
        let rows = [
            (turn(7, 3), 20, Outcome::Stands),
            (turn(7, 4), 20, Outcome::IsOff),
            (turn(7, 2), 10, Outcome::IsOpen),
            (turn(7, 5), 20, Outcome::IsOver),
            (turn(8, 3), 20, Outcome::IsOver),
            (turn(8, 4), 20, Outcome::IsOver),
        ];
        for (read, revision, wanted) in rows {
            assert_eq!(outcome(turn(7, 3), 10, read, revision), wanted, "{read:?} {revision}");
        }
    }

    #[test]
    fn numbers_are_given_from_the_first_to_the_last() {
        let rows = [(5, 8, 0, Some(5)), (5, 8, 2, Some(7)), (5, 8, 3, None), (5, 5, 0, None), (8, 5, 0, None), (1, u64::MAX, 0, Some(1))];
        for (from, to, given, wanted) in rows {
            assert_eq!(number(from, to, given), wanted, "{from} {to} {given}");
        }
    }
}
