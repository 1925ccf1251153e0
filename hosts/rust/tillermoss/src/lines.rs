//! The lines of a client's last step, of the plain numbers and texts in which the library tells them.

use crate::events::Event;
use crate::library::{LineNumbers, ToldLine};
use crate::nodes::{Kind, Stat};
use crate::numbers;
use crate::refusals::Refusal;

/// What a view shows.
#[derive(Clone, Debug, PartialEq, Eq)]
pub struct ShownView {
    pub stat: Stat,
    pub content: Vec<u8>,
    /// The last components of the children's names.
    pub children: Vec<String>,
}

/// How a call ended.
#[derive(Clone, Debug, PartialEq, Eq)]
pub enum Answer {
    /// The client's own number for the handle.
    Opened(u64),
    Closed,
    Poisoned,
    Viewed(ShownView),
    Stated(Stat),
    /// The last components of the children's names.
    Names(Vec<String>),
    Sequencer(Vec<u8>),
    Done,
    Refused(Refusal),
}

/// A line.
#[derive(Clone, Debug, PartialEq, Eq)]
pub enum Line {
    /// The call of this number ended, 0 where the client answered by itself.
    Done(u64, Answer),
    /// Answered out of the cache: what it shows, None where there is no such node.
    Served(Option<ShownView>),
    /// An event, of the handle whose Open had this number, where it is of one.
    Event(Option<u64>, Event),
    Jeopardy,
    Safe,
    Lost,
}

impl Line {
    /// The line that is told so; None for one that a client doesn't print of its own.
    pub fn of(told: ToldLine) -> Option<Line> {
        match told.numbers.what {
            numbers::SEEN => Some(Line::Served(Some(shown(told)?))),
            numbers::ABSENT => Some(Line::Served(None)),
            numbers::EVENT => Event::of(&told.numbers, told.name).map(|event| Line::Event(opened(&told.numbers), event)),
            numbers::JEOPARDY => Some(Line::Jeopardy),
            numbers::SAFE => Some(Line::Safe),
            numbers::LOST => Some(Line::Lost),
            _ => Some(Line::Done(told.numbers.call, answer(told)?)),
        }
    }
}

// (no call has the number 0)
fn opened(numbers: &LineNumbers) -> Option<u64> {
    Some(numbers.opened).filter(|&opened| opened != 0)
}

fn answer(told: ToldLine) -> Option<Answer> {
    Some(match told.numbers.what {
        numbers::OPENED => Answer::Opened(told.numbers.handle),
        numbers::CLOSED => Answer::Closed,
        numbers::HANDLE_POISONED => Answer::Poisoned,
        numbers::VIEWED => Answer::Viewed(shown(told)?),
        numbers::STATED => Answer::Stated(stat(&told.numbers, told.acl, Some(told.numbers.lock_generation))?),
        numbers::NAMES => Answer::Names(told.children),
        numbers::SEQUENCER => Answer::Sequencer(told.bytes),
        numbers::OKAY => Answer::Done,
        numbers::REFUSED => Answer::Refused(Refusal::of(told.numbers.fault, told.numbers.argument)?),
        _ => return None,
    })
}

fn shown(told: ToldLine) -> Option<ShownView> {
    Some(ShownView { stat: stat(&told.numbers, told.acl, None)?, content: told.bytes, children: told.children })
}

fn stat(numbers: &LineNumbers, acl: [String; 3], lock_generation: Option<u64>) -> Option<Stat> {
    let &LineNumbers { instance, content_generation, acl_generation, length, .. } = numbers;
    let is_ephemeral = numbers.life == numbers::EPHEMERAL;
    Some(Stat {
        kind: Kind::of(numbers.kind.into())?,
        instance,
        content_generation,
        acl_generation,
        lock_generation,
        acl,
        is_ephemeral,
        length,
    })
}

#[cfg(test)]
mod tests {
    use super::*;

    fn names<const N: usize>(names: [&str; N]) -> [String; N] {
        names.map(str::to_owned)
    }

    // What a line of this kind tells of a node, or of a view of one.
    fn told(what: u32, kind: u32, bytes: &[u8], children: &[&str]) -> ToldLine {
        let (instance, content_generation, acl_generation, lock_generation) = (4, 2, 1, 7);
        let (length, life, call) = (3, kind, 2);
        let numbers = LineNumbers {
            what,
            call,
            instance,
            content_generation,
            acl_generation,
            lock_generation,
            length,
            kind,
            life,
            ..LineNumbers::default()
        };
        let children = children.iter().map(|name| (*name).to_owned()).collect();
        ToldLine { numbers, bytes: bytes.to_vec(), children, acl: names(["base", "read", "own"]), name: String::new() }
    }

    fn numbered(numbers: LineNumbers) -> ToldLine {
        ToldLine { numbers, ..ToldLine::default() }
    }

    fn of_node(kind: Kind, lock_generation: Option<u64>) -> Stat {
        let acl = names(["base", "read", "own"]);
        let is_ephemeral = kind == Kind::Directory;
        Stat { kind, instance: 4, content_generation: 2, acl_generation: 1, lock_generation, acl, is_ephemeral, length: 3 }
    }

    fn view(kind: Kind, content: &[u8], children: &[&str]) -> ShownView {
        let children = children.iter().map(|name| (*name).to_owned()).collect();
        ShownView { stat: of_node(kind, None), content: content.to_vec(), children }
    }

    #[test]
    fn the_ends_of_calls_are_told() {
        let ended = |what| LineNumbers { what, call: 2, ..LineNumbers::default() };
        let sequencer = ToldLine { bytes: vec![1, 255], ..numbered(ended(numbers::SEQUENCER)) };
        let listing = ToldLine { children: names(["a", "b"]).to_vec(), ..numbered(ended(numbers::NAMES)) };
        let rows = [
            (numbered(LineNumbers { handle: 3, ..ended(numbers::OPENED) }), Some(Answer::Opened(3))),
            (numbered(ended(numbers::CLOSED)), Some(Answer::Closed)),
            (numbered(ended(numbers::HANDLE_POISONED)), Some(Answer::Poisoned)),
            (told(numbers::VIEWED, 0, b"abc", &[]), Some(Answer::Viewed(view(Kind::File, b"abc", &[])))),
            (told(numbers::VIEWED, 1, b"", &["a", "b"]), Some(Answer::Viewed(view(Kind::Directory, b"", &["a", "b"])))),
            (told(numbers::VIEWED, 2, b"", &[]), None),
            (told(numbers::STATED, 0, b"", &[]), Some(Answer::Stated(of_node(Kind::File, Some(7))))),
            (numbered(ended(numbers::NAMES)), Some(Answer::Names(vec![]))),
            (listing, Some(Answer::Names(names(["a", "b"]).to_vec()))),
            (sequencer, Some(Answer::Sequencer(vec![1, 255]))),
            (numbered(ended(numbers::OKAY)), Some(Answer::Done)),
            (numbered(LineNumbers { fault: 6, ..ended(numbers::REFUSED) }), Some(Answer::Refused(Refusal::NotFound))),
            (
                numbered(LineNumbers { fault: 11, argument: 9, ..ended(numbers::REFUSED) }),
                Some(Answer::Refused(Refusal::WrongGeneration(9))),
            ),
            (numbered(ended(numbers::REFUSED)), None),
            (numbered(ended(0)), None),
            (numbered(ended(16)), None),
        ];
        for (told, wanted) in rows {
            let what = told.numbers.what;
            assert_eq!(Line::of(told), wanted.map(|answer| Line::Done(2, answer)), "{what}");
        }
    }

    #[test]
    fn other_lines_are_told() {
        let bare = |what| LineNumbers { what, ..LineNumbers::default() };
        let rows = [
            (told(numbers::SEEN, 0, b"abc", &[]), Some(Line::Served(Some(view(Kind::File, b"abc", &[]))))),
            (told(numbers::SEEN, 1, b"", &["acl"]), Some(Line::Served(Some(view(Kind::Directory, b"", &["acl"]))))),
            (numbered(bare(numbers::ABSENT)), Some(Line::Served(None))),
            (numbered(LineNumbers { event: 1, ..bare(numbers::EVENT) }), Some(Line::Event(None, Event::Failover))),
            (numbered(LineNumbers { event: 6, opened: 2, ..bare(numbers::EVENT) }), Some(Line::Event(Some(2), Event::Invalid))),
            (numbered(bare(numbers::EVENT)), None),
            (numbered(bare(numbers::JEOPARDY)), Some(Line::Jeopardy)),
            (numbered(bare(numbers::SAFE)), Some(Line::Safe)),
            (numbered(bare(numbers::LOST)), Some(Line::Lost)),
        ];
        for (told, wanted) in rows {
            let what = told.numbers.what;
            assert_eq!(Line::of(told), wanted, "{what}");
        }
    }
}
