//! What a client is told of a node that it watches.

use crate::library::LineNumbers;
use crate::numbers;

/// Of which events the client of a handle is told.
///
/// ```
/// use tillermoss::Events;
///
/// assert_ne!(Events::CONTENTS.and(Events::CHILDREN), Events::CONTENTS);
/// assert_eq!(Events::NONE.and(Events::LOCK), Events::LOCK);
/// ```
#[derive(Clone, Copy, Debug, Default, PartialEq, Eq)]
pub struct Events(pub(crate) u8);

impl Events {
    /// Of none.
    ///
    /// ```
    /// # programs::with_server(|address| -> Result<(), tillermoss::Error> {
    /// # use tillermoss::*;
    /// # let client = &Client::connect(&Options::new(address, "ann"))?;
    /// let file = client.create("/ls/c/f", b"")?;
    /// let watch = client.watch("/ls/c/f", Events::NONE)?;
    /// client.set(file, b"a", None)?;
    /// assert!(watch.events.try_recv().is_err());
    /// # Ok(()) });
    /// ```
    pub const NONE: Events = Events(0);
    /// The content was set.
    ///
    /// ```
    /// # programs::with_server(|address| -> Result<(), tillermoss::Error> {
    /// # use tillermoss::*;
    /// # let client = &Client::connect(&Options::new(address, "ann"))?;
    /// let file = client.create("/ls/c/f", b"")?;
    /// let watch = client.watch("/ls/c/f", Events::CONTENTS)?;
    /// client.set(file, b"a", None)?;
    /// assert!(matches!(watch.events.recv(), Ok(Event::Contents { generation: 2, .. })));
    /// # Ok(()) });
    /// ```
    pub const CONTENTS: Events = Events(numbers::CONTENTS as u8);
    /// A child came, went, or was set.
    ///
    /// ```
    /// # programs::with_server(|address| -> Result<(), tillermoss::Error> {
    /// # use tillermoss::*;
    /// # let client = &Client::connect(&Options::new(address, "ann"))?;
    /// let file = client.create("/ls/c/f", b"")?;
    /// let watch = client.watch("/ls/c", Events::CHILDREN)?;
    /// client.set(file, b"a", None)?;
    /// assert_eq!(watch.events.recv(), Ok(Event::ChildModified("/ls/c/f".to_owned())));
    /// # Ok(()) });
    /// ```
    pub const CHILDREN: Events = Events(numbers::CHILDREN as u8);
    /// The lock went from free to held.
    ///
    /// ```
    /// # programs::with_server(|address| -> Result<(), tillermoss::Error> {
    /// # use tillermoss::*;
    /// # let client = &Client::connect(&Options::new(address, "ann"))?;
    /// let file = client.create("/ls/c/f", b"")?;
    /// let watch = client.watch("/ls/c/f", Events::LOCK)?;
    /// client.acquire(file, LockMode::Shared)?;
    /// assert_eq!(watch.events.recv(), Ok(Event::Locked));
    /// # Ok(()) });
    /// ```
    pub const LOCK: Events = Events(numbers::LOCK as u8);
    /// Another wants the lock that the handle holds.
    ///
    /// ```
    /// # programs::with_server(|address| -> Result<(), tillermoss::Error> {
    /// # use tillermoss::*;
    /// # let client = &Client::connect(&Options::new(address, "ann"))?;
    /// client.create("/ls/c/f", b"")?;
    /// let watch = client.watch_with(&Opening { events: Events::CONFLICT, ..Opening::new("/ls/c/f", Mode::WRITE) })?;
    /// client.acquire(watch.handle, LockMode::Exclusive)?;
    /// let other = client.open("/ls/c/f", Mode::WRITE)?;
    /// client.try_acquire(other, LockMode::Exclusive).unwrap_err();
    /// assert_eq!(watch.events.recv(), Ok(Event::Conflict));
    /// # Ok(()) });
    /// ```
    pub const CONFLICT: Events = Events(numbers::CONFLICT as u8);

    /// Of those of either.
    ///
    /// ```
    /// # use tillermoss::Events;
    /// assert_eq!(Events::LOCK.and(Events::CONFLICT), Events::CONFLICT.and(Events::LOCK));
    /// ```
    #[must_use]
    pub const fn and(self, other: Events) -> Events {
        Events(self.0 | other.0)
    }
}

/// An event. It tells of a change that was made: what is read afterwards is no older.
///
/// ```
/// # programs::with_server(|address| -> Result<(), tillermoss::Error> {
/// # use tillermoss::*;
/// # let client = &Client::connect(&Options::new(address, "ann"))?;
/// let watch = client.watch("/ls/c", Events::CHILDREN)?;
/// client.delete(client.create("/ls/c/f", b"")?)?;
/// assert_eq!(watch.events.recv(), Ok(Event::ChildAdded("/ls/c/f".to_owned())));
/// assert_eq!(watch.events.recv(), Ok(Event::ChildRemoved("/ls/c/f".to_owned())));
/// # Ok(()) });
/// ```
#[derive(Clone, Debug, PartialEq, Eq)]
pub enum Event {
    /// The content was set: the node's instance, and its content generation from then on.
    Contents {
        /// The node's instance.
        instance: u64,
        /// How often its content was written.
        generation: u64,
    },
    /// A child of this name came.
    ChildAdded(String),
    /// A child of this name went.
    ChildRemoved(String),
    /// The content of a child of this name was set.
    ChildModified(String),
    /// The node was deleted: the handle can only be closed.
    Invalid,
    /// The lock went from free to held.
    Locked,
    /// Another wants the lock that the handle holds.
    Conflict,
    /// Another master came up. Events may have been missed.
    Failover,
    /// Too many events waited: some were missed.
    Lost,
    /// The lease has ended: the cache serves nothing until the session is safe again, or is lost. (Then the events end.)
    Jeopardy,
    /// The session is safe again.
    Safe,
}

impl Event {
    // That of the number in `include/cell_client.h`, with what belongs to it.
    pub(crate) fn of(told: &LineNumbers, name: String) -> Option<Event> {
        Some(match u32::try_from(told.event).ok()? {
            numbers::FAIL_OVER => Event::Failover,
            numbers::CONTENTS_SET => Event::Contents { instance: told.instance, generation: told.content_generation },
            numbers::CHILD_ADDED => Event::ChildAdded(name),
            numbers::CHILD_REMOVED => Event::ChildRemoved(name),
            numbers::CHILD_MODIFIED => Event::ChildModified(name),
            numbers::INVALID => Event::Invalid,
            numbers::LOCK_TAKEN => Event::Locked,
            numbers::LOCK_WANTED => Event::Conflict,
            numbers::EVENTS_LOST => Event::Lost,
            _ => return None,
        })
    }
}

#[cfg(test)]
mod tests {
    use super::*;

    #[test]
    fn each_event_has_its_number() {
        let name = || "/ls/c/f".to_owned();
        let rows = [
            (0, None),
            (1, Some(Event::Failover)),
            (2, Some(Event::Contents { instance: 4, generation: 3 })),
            (3, Some(Event::ChildAdded(name()))),
            (4, Some(Event::ChildRemoved(name()))),
            (5, Some(Event::ChildModified(name()))),
            (6, Some(Event::Invalid)),
            (7, Some(Event::Locked)),
            (8, Some(Event::Conflict)),
            (9, Some(Event::Lost)),
            (10, None),
        ];
        for (event, wanted) in rows {
            let numbers = LineNumbers { event, instance: 4, content_generation: 3, ..LineNumbers::default() };
            assert_eq!(Event::of(&numbers, name()), wanted, "{event}");
        }
    }
}
