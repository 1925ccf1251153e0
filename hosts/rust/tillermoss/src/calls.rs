//! What a client calls.

use crate::events::Events;
use crate::library::OpenParts;
use crate::nodes::{LockMode, Mode};
use crate::numbers;
use crate::refusals::Refusal;
use host_wire::{is_component, is_name};

/// Whether a new node goes by itself.
///
/// ```
/// # programs::with_server(|address| -> Result<(), tillermoss::Error> {
/// # use tillermoss::*;
/// # let client = &Client::connect(&Options::new(address, "ann"))?;
/// let file = Create { content: Some(vec![]), life: Life::Ephemeral, ..Create::default() };
/// let opened = client.open_with(&Opening { create: Some(file), ..Opening::new("/ls/c/here", Mode::READ) })?;
/// assert!(client.stat(opened)?.is_ephemeral);
/// # Ok(()) });
/// ```
#[derive(Clone, Copy, Debug, Default, PartialEq, Eq)]
pub enum Life {
    /// It stays until it is deleted.
    #[default]
    Permanent,
    /// It goes once nobody holds it open.
    Ephemeral,
}

/// What an Open makes where there is no node of the name.
///
/// ```
/// use tillermoss::Create;
///
/// let directory = Create::default();
/// let file = Create { must: true, content: Some(b"hello".to_vec()), ..Create::default() };
/// assert_ne!(directory, file);
/// ```
#[derive(Clone, Debug, Default, PartialEq, Eq)]
pub struct Create {
    /// It is refused where there is a node.
    pub must: bool,
    /// The content of a new file; None for a directory.
    pub content: Option<Vec<u8>>,
    /// Whether it goes by itself.
    pub life: Life,
    /// The ACLs to read, to write, and to change ACLs, by their components; None for those of its parent.
    pub acl: Option<[String; 3]>,
}

/// What an Open asks for.
///
/// ```
/// # programs::with_server(|address| -> Result<(), tillermoss::Error> {
/// # use tillermoss::*;
/// # let client = &Client::connect(&Options::new(address, "ann"))?;
/// // Its lock stays closed for a minute where the session ends while this handle holds it.
/// let file = Create { content: Some(vec![]), ..Create::default() };
/// let opening = Opening { create: Some(file), lock_delay: 60_000, ..Opening::new("/ls/c/lock", Mode::WRITE) };
/// client.acquire(client.open_with(&opening)?, LockMode::Exclusive)?;
/// # Ok(()) });
/// ```
#[derive(Clone, Debug, PartialEq, Eq)]
pub struct Opening {
    /// The whole name, as `/ls/c/f`.
    pub name: String,
    /// What the handle is for.
    pub mode: Mode,
    /// What is made where there is no node.
    pub create: Option<Create>,
    /// How many milliseconds, at most 60,000, its lock stays closed where the session ends while the handle holds it.
    pub lock_delay: u64,
    /// Of which events the client is told.
    pub events: Events,
}

impl Opening {
    /// A plain one: nothing is made, and nothing told.
    ///
    /// ```
    /// # programs::with_server(|address| -> Result<(), tillermoss::Error> {
    /// # let client = &tillermoss::Client::connect(&tillermoss::Options::new(address, "ann"))?;
    /// use tillermoss::{Mode, Opening};
    /// client.open_with(&Opening::new("/ls/c", Mode::READ))?;
    /// # Ok(()) });
    /// ```
    #[must_use]
    pub fn new(name: &str, mode: Mode) -> Opening {
        Opening { name: name.to_owned(), mode, create: None, lock_delay: 0, events: Events::NONE }
    }

    // Whether it may be made, and may be there already.
    pub(crate) fn may_find(&self) -> bool {
        self.create.as_ref().is_some_and(|create| !create.must)
    }

    // The plain numbers of it.
    pub(crate) fn parts(&self) -> OpenParts {
        let plain = OpenParts { lock_delay: self.lock_delay, mode: self.mode.0, events: self.events.0, ..OpenParts::default() };
        let Some(create) = &self.create else {
            return OpenParts { create: numbers::MAKES_NOTHING as u8, ..plain };
        };
        let create_number = if create.must { numbers::MUST_MAKE } else { numbers::MAY_MAKE };
        let kind = if create.content.is_some() { numbers::A_FILE } else { numbers::A_DIRECTORY };
        let life = if create.life == Life::Ephemeral { numbers::EPHEMERAL } else { numbers::PERMANENT };
        OpenParts { create: create_number as u8, kind: kind as u8, life: life as u8, ..plain }
    }

    // The content of the file that is made.
    pub(crate) fn content(&self) -> &[u8] {
        self.create.as_ref().and_then(|create| create.content.as_deref()).unwrap_or_default()
    }

    // The ACLs of what is made, where they aren't those of its parent.
    pub(crate) fn acl(&self) -> Option<&[String; 3]> {
        self.create.as_ref().and_then(|create| create.acl.as_ref())
    }

    // This opening without what is made: of a node that is there.
    pub(crate) fn plain(&self) -> Opening {
        Opening { lock_delay: self.lock_delay, events: self.events, ..Opening::new(&self.name, self.mode) }
    }
}

/// A call. A handle is the client's own number for it.
#[derive(Clone, Copy, Debug)]
pub enum Call<'a> {
    Open(&'a Opening),
    Close(u64),
    Read(u64),
    Stat(u64),
    List(u64),
    Set(u64, &'a [u8], Option<u64>),
    SetAcl(u64, &'a [String; 3], Option<u64>),
    Delete(u64),
    Acquire(u64, LockMode),
    TryAcquire(u64, LockMode),
    Release(u64),
    GetSequencer(u64),
    SetSequencer(u64, &'a [u8]),
    CheckSequencer(&'a [u8]),
    Leave,
}

/// The longest content of a file, in bytes.
const CONTENT_LIMIT: usize = 262_144;

/// The longest sequencer, in bytes: 20 in front of a name.
const SEQUENCER_LIMIT: usize = 532;

impl Call<'_> {
    /// Why it isn't sent: no server takes a message with such a name, and none hands on one that is too long. Each would end the
    /// connection, again and again, until the session is lost.
    pub fn fault(&self) -> Option<Refusal> {
        let is_acl = |acl: &[String; 3]| acl.iter().all(|component| is_component(component));
        match self {
            Call::Open(opening) if !is_name(&opening.name) => Some(Refusal::BadName),
            Call::Open(opening) if !opening.acl().is_none_or(is_acl) => Some(Refusal::BadName),
            Call::Open(opening) if opening.content().len() > CONTENT_LIMIT => Some(Refusal::TooLarge),
            Call::Set(_, content, _) if content.len() > CONTENT_LIMIT => Some(Refusal::TooLarge),
            Call::SetAcl(_, acl, _) if !is_acl(acl) => Some(Refusal::BadName),
            Call::SetSequencer(_, bytes) | Call::CheckSequencer(bytes) if bytes.len() > SEQUENCER_LIMIT => Some(Refusal::BadSequencer),
            _ => None,
        }
    }

    /// Whether it changes nothing, so that it may be made again where its outcome isn't known.
    pub fn only_reads(&self) -> bool {
        match self {
            Call::Open(opening) => opening.create.is_none(),
            Call::Read(_) | Call::Stat(_) | Call::List(_) | Call::GetSequencer(_) | Call::CheckSequencer(_) => true,
            _ => false,
        }
    }
}

#[cfg(test)]
mod tests {
    use super::*;

    fn opening(create: Option<Create>) -> Opening {
        let mode = Mode::READ.and(Mode::WRITE);
        Opening { create, events: Events::CONTENTS.and(Events::LOCK), lock_delay: 258, ..Opening::new("/ls/c", mode) }
    }

    #[test]
    fn an_open_has_its_parts() {
        let acl = ["a", "b", "c"].map(str::to_owned);
        let file = Create { must: true, content: Some(b"\xff".to_vec()), life: Life::Ephemeral, acl: Some(acl.clone()) };
        let rows: [(_, _, &[u8], _); 3] =
            [(None, [0, 0, 0], b"", None), (Some(file), [2, 0, 1], b"\xff", Some(acl)), (Some(Create::default()), [1, 1, 0], b"", None)];
        for (made, [create, kind, life], content, acl) in rows {
            let opening = opening(made);
            assert_eq!(opening.parts(), OpenParts { lock_delay: 258, mode: 3, events: 5, create, kind, life });
            assert_eq!((opening.content(), opening.acl()), (content, acl.as_ref()));
        }
    }

    #[test]
    fn calls_that_only_read_may_be_made_again() {
        let (plain, making) = (opening(None), opening(Some(Create::default())));
        let rows = [
            (Call::Open(&plain), true),
            (Call::Open(&making), false),
            (Call::Read(1), true),
            (Call::List(1), true),
            (Call::Set(1, b"", None), false),
            (Call::Acquire(1, LockMode::Exclusive), false),
            (Call::Delete(1), false),
        ];
        for (call, wanted) in rows {
            assert_eq!(call.only_reads(), wanted, "{call:?}");
        }
    }

    #[test]
    fn what_no_server_takes_is_not_sent() {
        let file = |name: &str, length: usize, acl: &str| Opening {
            create: Some(Create { content: Some(vec![0; length]), acl: Some([acl, "b", "c"].map(str::to_owned)), ..Create::default() }),
            ..Opening::new(name, Mode::READ)
        };
        let rows = [
            (Call::Open(&file("/ls/c/f", CONTENT_LIMIT, "a")), None),
            (Call::Open(&file("/ls/c/F", 0, "a")), Some(Refusal::BadName)),
            (Call::Open(&file("f", 0, "a")), Some(Refusal::BadName)),
            (Call::Open(&file("/ls/c/f", 0, "A")), Some(Refusal::BadName)),
            (Call::Open(&file("/ls/c/f", CONTENT_LIMIT + 1, "a")), Some(Refusal::TooLarge)),
            (Call::Set(1, &[0; CONTENT_LIMIT], None), None),
            (Call::Set(1, &[0; CONTENT_LIMIT + 1], None), Some(Refusal::TooLarge)),
            (Call::SetAcl(1, &["a", "b", "c/d"].map(str::to_owned), None), Some(Refusal::BadName)),
            (Call::CheckSequencer(&[0; SEQUENCER_LIMIT]), None),
            (Call::SetSequencer(1, &[0; SEQUENCER_LIMIT + 1]), Some(Refusal::BadSequencer)),
        ];
        for (call, wanted) in rows {
            assert_eq!(call.fault(), wanted);
        }
    }
}
