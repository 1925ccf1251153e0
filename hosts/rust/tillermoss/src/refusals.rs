//! Why a call is refused.

use crate::nodes::{Kind, LockMode, Right};
use std::fmt;

// What a refusal tells besides, by its number.
trait Argument: Sized {
    fn of(number: u64) -> Option<Self>;
}

impl Argument for u64 {
    fn of(number: u64) -> Option<u64> {
        Some(number)
    }
}

impl Argument for Kind {
    fn of(number: u64) -> Option<Kind> {
        Kind::of(number)
    }
}

impl Argument for LockMode {
    fn of(number: u64) -> Option<LockMode> {
        LockMode::of(number)
    }
}

impl Argument for Right {
    fn of(number: u64) -> Option<Right> {
        Right::of(number)
    }
}

macro_rules! refusals {
    ($($number:literal $name:ident $(($argument:ty))? $meaning:literal)*) => {
        /// Why a master or a client refuses a call: nothing was done, unless it says otherwise.
        ///
        /// ```
        /// use tillermoss::Refusal;
        ///
        /// let refusal = Refusal::WrongGeneration(3);
        /// assert_eq!(refusal.to_string(), "WrongGeneration 3: another generation is present");
        /// ```
        #[derive(Clone, Copy, Debug, PartialEq, Eq)]
        pub enum Refusal {
            $(#[doc = $meaning] $name $(($argument))?,)*
        }

        impl Refusal {
            /// Its number, as it is printed.
            ///
            /// ```
            /// # use tillermoss::Refusal;
            /// assert_eq!(Refusal::WrongGeneration(3).number(), 11);
            /// ```
            #[must_use]
            pub fn number(&self) -> u32 {
                match self {
                    $(Refusal::$name { .. } => $number,)*
                }
            }

            /// Its name, as it is printed.
            ///
            /// ```
            /// # use tillermoss::Refusal;
            /// assert_eq!(Refusal::WrongGeneration(3).name(), "WrongGeneration");
            /// ```
            #[must_use]
            pub fn name(&self) -> &'static str {
                match self {
                    $(Refusal::$name { .. } => stringify!($name),)*
                }
            }

            /// What it means.
            ///
            /// ```
            /// # use tillermoss::Refusal;
            /// assert_eq!(Refusal::WrongGeneration(3).meaning(), "another generation is present");
            /// ```
            #[must_use]
            pub fn meaning(&self) -> &'static str {
                match self {
                    $(Refusal::$name { .. } => $meaning,)*
                }
            }

            // That of a number, with its argument's, which is 0 where there is none.
            pub(crate) fn of(number: u32, argument: u64) -> Option<Refusal> {
                let refusal = match number {
                    $($number => Refusal::$name $((<$argument as Argument>::of(argument)?))?,)*
                    _ => return None,
                };
                (refusal.argument().is_some() || argument == 0).then_some(refusal)
            }
        }
    };
}

refusals! {
    1 NoMemory "memory ran out"
    2 BadName "not a name"
    3 OtherCell "a name of another cell"
    4 BadPrincipal "not a principal"
    5 BadAcl "not the content of an ACL file"
    6 NotFound "no such node, or no such parent at a create"
    7 Exists "it was to be made anew, and is there"
    8 WrongKind(Kind) "the other kind is needed; this one is there"
    9 NotEmpty "a directory with children, or the root"
    10 Denied(Right) "this right is missing"
    11 WrongGeneration(u64) "another generation is present"
    12 TooLarge "a content above 262,144 bytes"
    13 Exhausted "a number or a moment at its end"
    14 StaleInstance "the node of the handle was deleted"
    15 StoreRefused "the store refused"
    16 StoreDamaged "the store's rows break its rules"
    17 BadHandle "no open handle"
    18 BadSequencer "not the bytes of a sequencer"
    19 NoSession "no live session"
    20 BadAck(u64) "more was acknowledged than was issued"
    21 Repeat "an older or a repeated number"
    22 Busy "4,096 changes wait"
    23 Held(LockMode) "the lock is held so, or waited for"
    24 Delayed(u64) "the lock-delay runs for so many milliseconds"
    25 NotHolder "the handle holds no lock"
    26 SequencerStale "the sequencer isn't valid"
    27 DelayTooLong "a lock-delay above 60,000 milliseconds"
    28 OldEpoch(u64) "another master is up"
    29 Recovering "the master hasn't heard of all clients yet"
    30 InJeopardy "the lease has ended"
    31 SessionExpired "the session is lost"
    32 Poisoned "the handle is poisoned"
    33 CallOutstanding "a call waits for its reply"
    34 Unknown "another master came up: it was done, or not"
    35 ProtocolFault "no master sends such a message"
    36 UnfairClock "a clock went too fast"
    37 NoSuchMessage "no such message"
    38 MasterDown "no master is up"
    39 MasterUp "a master is up"
    43 NoRoom(u64) "this limit of the cell leaves no room"
}

impl Refusal {
    fn argument(&self) -> Option<String> {
        match self {
            Refusal::WrongKind(kind) => Some(kind.to_string()),
            Refusal::Denied(right) => Some(right.to_string()),
            Refusal::Held(mode) => Some(mode.to_string()),
            Refusal::WrongGeneration(number)
            | Refusal::BadAck(number)
            | Refusal::Delayed(number)
            | Refusal::OldEpoch(number)
            | Refusal::NoRoom(number) => Some(number.to_string()),
            _ => None,
        }
    }

    // One that a client answers by itself: none of these has an argument.
    pub(crate) fn of_code(code: u32) -> Option<Refusal> {
        Refusal::of(code, 0).filter(|refusal| refusal.argument().is_none())
    }
}

impl fmt::Display for Refusal {
    fn fmt(&self, out: &mut fmt::Formatter<'_>) -> fmt::Result {
        match self.argument() {
            Some(argument) => write!(out, "{} {argument}: {}", self.name(), self.meaning()),
            None => write!(out, "{}: {}", self.name(), self.meaning()),
        }
    }
}

impl std::error::Error for Refusal {}

#[cfg(test)]
mod tests {
    use super::*;

    #[test]
    fn refusals_have_their_arguments() {
        let rows = [
            (1, 0, Some(Refusal::NoMemory)),
            (8, 0, Some(Refusal::WrongKind(Kind::File))),
            (8, 1, Some(Refusal::WrongKind(Kind::Directory))),
            (8, 2, None),
            (10, 1, Some(Refusal::Denied(Right::Read))),
            (10, 2, Some(Refusal::Denied(Right::Write))),
            (10, 4, Some(Refusal::Denied(Right::Change))),
            (10, 0, None),
            (10, 3, None),
            (11, 7, Some(Refusal::WrongGeneration(7))),
            (20, 0, Some(Refusal::BadAck(0))),
            (23, 0, Some(Refusal::Held(LockMode::Exclusive))),
            (23, 1, Some(Refusal::Held(LockMode::Shared))),
            (23, 2, None),
            (24, 60_000, Some(Refusal::Delayed(60_000))),
            (28, u64::MAX, Some(Refusal::OldEpoch(u64::MAX))),
            (34, 0, Some(Refusal::Unknown)),
            (39, 0, Some(Refusal::MasterUp)),
            (43, 0, Some(Refusal::NoRoom(0))),
            (43, 20, Some(Refusal::NoRoom(20))),
            (6, 1, None),
            (0, 0, None),
            (40, 0, None),
        ];
        for (number, argument, wanted) in rows {
            assert_eq!(Refusal::of(number, argument), wanted, "{number} {argument}");
        }
    }

    #[test]
    fn each_number_has_one_refusal() {
        let with_argument = [8, 10, 11, 20, 23, 24, 28, 43];
        for number in (1..=39).chain([43]) {
            assert_eq!(Refusal::of(number, 0).or(Refusal::of(number, 1)).map(|refusal| refusal.number()), Some(number));
            assert_eq!(Refusal::of_code(number).is_none(), with_argument.contains(&number), "{number}");
        }
    }
}
