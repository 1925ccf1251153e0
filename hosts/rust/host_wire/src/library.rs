//! The library that knows the bytes of messages, of lines and of frames: each call here is a call of it, on the caller's thread.
//!
//! Nothing compares the declarations here with the library's source (`include/cell_server.h` has the same in C, and what each call
//! owes), and nothing checks a call from here against a contract.

use std::ptr;

/// The longest name, in bytes. What is longer is no name.
pub const NAME_ROOM: usize = 512;

/// Done; all other answers are what is wrong.
use crate::numbers::DONE;

/// A client's message in plain numbers, as the library declares it.
#[repr(C)]
#[derive(Clone, Copy, Debug, Default, PartialEq, Eq)]
pub struct AskedParts {
    pub what: u32,
    pub call: u32,
    pub client: u64,
    pub epoch: u64,
    pub number: u64,
    pub makes: u64,
    pub instance: u64,
    pub length: u64,
    pub name_length: u64,
}

/// A master's message in plain numbers, as the library declares it.
#[repr(C)]
#[derive(Clone, Copy, Debug, Default, PartialEq, Eq)]
pub struct SaidParts {
    pub what: u32,
    pub fault: u32,
    pub client: u64,
    pub epoch: u64,
    pub number: u64,
    pub span: u64,
    pub brings: u64,
}

/// What a master tells in plain numbers, as the library declares it.
#[repr(C)]
#[derive(Clone, Copy, Debug, Default, PartialEq, Eq)]
pub struct HeardParts {
    pub what: u32,
    pub line: u32,
    pub change: u32,
    pub kind: u32,
    pub life: u32,
    pub mode: u32,
    pub fault: u32,
    pub is_timed: u32,
    pub client: u64,
    pub call: u64,
    pub number: u64,
    pub instance: u64,
    pub generation: u64,
    pub length: u64,
    pub moment: u64,
    pub epoch: u64,
    pub sessions: u64,
    pub nodes: u64,
    pub rights: u64,
    pub changes: u64,
    pub name_length: u64,
    pub said: SaidParts,
}

/// What a master asks of who keeps its rows in plain numbers, as the library declares it.
#[repr(C)]
#[derive(Clone, Copy, Debug, Default, PartialEq, Eq)]
pub struct QuestionParts {
    pub what: u32,
    pub edits_at: u32,
    pub number: u64,
    pub edits: u64,
}

/// An edit of the rows in plain numbers, as the library declares it.
#[repr(C)]
#[derive(Clone, Copy, Debug, Default, PartialEq, Eq)]
pub struct EditParts {
    pub what: u32,
    pub kind: u32,
    pub life: u32,
    pub state: u32,
    pub number: u64,
    pub client: u64,
    pub live: u64,
    pub instance: u64,
    pub handle: u64,
    pub content_generation: u64,
    pub acl_generation: u64,
    pub delay: u64,
    pub name_length: u64,
    pub read_length: u64,
    pub write_length: u64,
    pub change_length: u64,
    pub content_length: u64,
    pub taken: u64,
}

/// What is told before the rows in plain numbers, as the library declares it.
#[repr(C)]
#[derive(Clone, Copy, Debug, Default, PartialEq, Eq)]
pub struct OwnParts {
    pub number: u64,
    pub epoch: u64,
    pub next_instance: u64,
    pub ended_below: u64,
    pub rows: u64,
    pub length: u64,
}

/// A node as its row has it in plain numbers, as the library declares it.
#[repr(C)]
#[derive(Clone, Copy, Debug, Default, PartialEq, Eq)]
pub struct NodeParts {
    pub kind: u32,
    pub life: u32,
    pub instance: u64,
    pub content_generation: u64,
    pub acl_generation: u64,
    pub lock_generation: u64,
}

/// The row of a lock in plain numbers, as the library declares it.
#[repr(C)]
#[derive(Clone, Copy, Debug, Default, PartialEq, Eq)]
pub struct LockParts {
    pub instance: u64,
    pub client: u64,
    pub handle: u64,
    pub state: u64,
    pub delay: u64,
}

unsafe extern "C" {
    fn cell_server_asked(message: *const u8, length: usize, out: *mut AskedParts, name: *mut u8, room: usize) -> u32;
    fn cell_server_said(message: *const u8, length: usize, out: *mut SaidParts) -> u32;
    fn cell_server_heard(block: *const u8, length: usize, out: *mut HeardParts, name: *mut u8, room: usize) -> u32;
    fn cell_server_text(block: *const u8, block_length: usize, room: *mut u8, room_length: usize, length: *mut usize) -> u32;
    fn cell_server_up(moment: u64, room: *mut u8, room_length: usize, length: *mut usize) -> u32;
    fn cell_server_message(
        moment: u64,
        message: *const u8,
        message_length: usize,
        room: *mut u8,
        room_length: usize,
        length: *mut usize,
    ) -> u32;
    fn cell_server_tick(moment: u64, room: *mut u8, room_length: usize, length: *mut usize) -> u32;
    fn cell_server_down(room: *mut u8, room_length: usize, length: *mut usize) -> u32;
    fn cell_server_store_refused(client: u64, epoch: u64, number: u64, room: *mut u8, room_length: usize, length: *mut usize) -> u32;
    fn cell_server_rows_asked(block: *const u8, length: usize, out: *mut QuestionParts) -> u32;
    fn cell_server_rows_edit(edits: *const u8, length: usize, out: *mut EditParts, texts: *mut u8, room: usize) -> u32;
    fn cell_server_rows_front(
        parts: *const OwnParts,
        cell: *const u8,
        cell_length: usize,
        secret: *const u8,
        secret_length: usize,
        room: *mut u8,
        room_length: usize,
        length: *mut usize,
    ) -> u32;
    fn cell_server_rows_node(
        parts: *const NodeParts,
        name: *const u8,
        name_length: usize,
        read: *const u8,
        read_length: usize,
        write: *const u8,
        write_length: usize,
        change: *const u8,
        change_length: usize,
        content: *const u8,
        content_length: usize,
        room: *mut u8,
        room_length: usize,
        length: *mut usize,
    ) -> u32;
    fn cell_server_rows_session(
        client: u64,
        principal: *const u8,
        principal_length: usize,
        live: u64,
        room: *mut u8,
        room_length: usize,
        length: *mut usize,
    ) -> u32;
    fn cell_server_rows_lock(parts: *const LockParts, room: *mut u8, room_length: usize, length: *mut usize) -> u32;
    fn cell_server_rows_kept(room: *mut u8, room_length: usize, length: *mut usize) -> u32;
    fn cell_server_rows_refused(room: *mut u8, room_length: usize, length: *mut usize) -> u32;
}

/// The client's message of these bytes, and its name, as far as it fits; None where they are none.
#[must_use]
pub fn asked(message: &[u8]) -> Option<(AskedParts, Name)> {
    let (mut parts, mut name) = (AskedParts::default(), Name([0; NAME_ROOM]));
    let room = name.0.as_mut_ptr();
    // SAFETY: the pointers are of slices and a struct that outlive the call, with their lengths
    let code = unsafe { cell_server_asked(message.as_ptr(), message.len(), ptr::from_mut(&mut parts), room, NAME_ROOM) };
    (code == DONE).then_some((parts, name))
}

/// The master's message of these bytes; None where they are none.
#[must_use]
pub fn said(message: &[u8]) -> Option<SaidParts> {
    let mut parts = SaidParts::default();
    // SAFETY: as above
    let code = unsafe { cell_server_said(message.as_ptr(), message.len(), ptr::from_mut(&mut parts)) };
    (code == DONE).then_some(parts)
}

/// What a master tells in the block of these bytes, and its name, as far as it fits; None where it tells nothing.
#[must_use]
pub fn heard(block: &[u8]) -> Option<(HeardParts, Name)> {
    let (mut parts, mut name) = (HeardParts::default(), Name([0; NAME_ROOM]));
    let room = name.0.as_mut_ptr();
    // SAFETY: as above
    let code = unsafe { cell_server_heard(block.as_ptr(), block.len(), ptr::from_mut(&mut parts), room, NAME_ROOM) };
    (code == DONE).then_some((parts, name))
}

/// The line that a master tells in the block of these bytes, as it is printed; None where it tells none.
#[must_use]
pub fn text(block: &[u8]) -> Option<Vec<u8>> {
    // SAFETY: as above
    written(256, |room, length| unsafe { cell_server_text(block.as_ptr(), block.len(), room.as_mut_ptr(), room.len(), length) })
}

/// The frame by which a master comes up.
#[must_use]
pub fn up(moment: u64) -> Option<Vec<u8>> {
    // SAFETY: as above
    written(64, |room, length| unsafe { cell_server_up(moment, room.as_mut_ptr(), room.len(), length) })
}

/// The frame by which these bytes come to a master as a client's message, as they are; None where they are too many.
#[must_use]
pub fn message(moment: u64, message: &[u8]) -> Option<Vec<u8>> {
    // SAFETY: as above
    written(message.len() + 64, |room, length| unsafe {
        cell_server_message(moment, message.as_ptr(), message.len(), room.as_mut_ptr(), room.len(), length)
    })
}

/// The frame by which a master does what there is to do.
#[must_use]
pub fn tick(moment: u64) -> Option<Vec<u8>> {
    // SAFETY: as above
    written(64, |room, length| unsafe { cell_server_tick(moment, room.as_mut_ptr(), room.len(), length) })
}

/// The frame by which a master goes.
#[must_use]
pub fn down() -> Option<Vec<u8>> {
    // SAFETY: as above
    written(64, |room, length| unsafe { cell_server_down(room.as_mut_ptr(), room.len(), length) })
}

/// The bytes of a master's reply that the store refused; None where no client or no call has such a number.
#[must_use]
pub fn store_refused(client: u64, epoch: u64, number: u64) -> Option<Vec<u8>> {
    // SAFETY: as above
    written(64, |room, length| unsafe { cell_server_store_refused(client, epoch, number, room.as_mut_ptr(), room.len(), length) })
}

/// What a master asks by the bytes of this question; None where they are none.
#[must_use]
pub fn rows_asked(block: &[u8]) -> Option<QuestionParts> {
    let mut parts = QuestionParts::default();
    // SAFETY: as above
    let code = unsafe { cell_server_rows_asked(block.as_ptr(), block.len(), ptr::from_mut(&mut parts)) };
    (code == DONE).then_some(parts)
}

/// The edit at the front of these bytes; its texts stand at the front of the room, which grows where they don't fit. None where there is
/// none.
#[must_use]
pub fn rows_edit(edits: &[u8], room: &mut Vec<u8>) -> Option<EditParts> {
    loop {
        let mut parts = EditParts::default();
        // SAFETY: as above
        let code = unsafe { cell_server_rows_edit(edits.as_ptr(), edits.len(), ptr::from_mut(&mut parts), room.as_mut_ptr(), room.len()) };
        if code != DONE {
            return None;
        }
        let EditParts { name_length, read_length, write_length, change_length, content_length, .. } = parts;
        let length = usize::try_from(name_length + read_length + write_length + change_length + content_length).ok()?;
        if length <= room.len() {
            return Some(parts);
        }
        room.resize(length, 0);
    }
}

/// What stands in front of the rows that a master is told; None where that can't be told.
#[must_use]
pub fn rows_front(parts: OwnParts, cell: &str, secret: &[u8]) -> Option<Vec<u8>> {
    // SAFETY: as above
    written(256, |room, length| unsafe {
        let (parts, at) = (ptr::from_ref(&parts), room.as_mut_ptr());
        cell_server_rows_front(parts, cell.as_ptr(), cell.len(), secret.as_ptr(), secret.len(), at, room.len(), length)
    })
}

/// The row of a node, its ACL names to read, to write and to change them; None where it has none.
#[must_use]
pub fn rows_node(parts: NodeParts, name: &str, [read, write, change]: [&str; 3], content: &[u8]) -> Option<Vec<u8>> {
    // SAFETY: as above
    written(content.len() + 1024, |room, length| unsafe {
        cell_server_rows_node(
            ptr::from_ref(&parts),
            name.as_ptr(),
            name.len(),
            read.as_ptr(),
            read.len(),
            write.as_ptr(),
            write.len(),
            change.as_ptr(),
            change.len(),
            content.as_ptr(),
            content.len(),
            room.as_mut_ptr(),
            room.len(),
            length,
        )
    })
}

/// The row of a client's session; None where it has none.
#[must_use]
pub fn rows_session(client: u64, principal: &str, is_live: bool) -> Option<Vec<u8>> {
    // SAFETY: as above
    written(128, |room, length| unsafe {
        let (at, live) = (room.as_mut_ptr(), is_live.into());
        cell_server_rows_session(client, principal.as_ptr(), principal.len(), live, at, room.len(), length)
    })
}

/// The row of a lock; None where it has none.
#[must_use]
pub fn rows_lock(parts: LockParts) -> Option<Vec<u8>> {
    // SAFETY: as above
    written(64, |room, length| unsafe { cell_server_rows_lock(ptr::from_ref(&parts), room.as_mut_ptr(), room.len(), length) })
}

/// The answer that the edits of a commit stand.
#[must_use]
pub fn rows_kept() -> Option<Vec<u8>> {
    // SAFETY: as above
    written(64, |room, length| unsafe { cell_server_rows_kept(room.as_mut_ptr(), room.len(), length) })
}

/// The answer that they don't.
#[must_use]
pub fn rows_refused() -> Option<Vec<u8>> {
    // SAFETY: as above
    written(64, |room, length| unsafe { cell_server_rows_refused(room.as_mut_ptr(), room.len(), length) })
}

/// A name that the library wrote.
#[derive(Clone, Copy, Debug)]
pub struct Name([u8; NAME_ROOM]);

impl Name {
    /// How many bytes of it, where they are a text and fitted.
    #[must_use]
    pub fn text(&self, length: u64) -> Option<&str> {
        let bytes = self.0.get(..usize::try_from(length).ok()?)?;
        std::str::from_utf8(bytes).ok()
    }
}

// The bytes that a call writes into its room, which is made as large as they are where it was too small.
fn written(room: usize, call: impl Fn(&mut [u8], &mut usize) -> u32) -> Option<Vec<u8>> {
    let (mut bytes, mut length) = (vec![0; room], 0);
    if call(&mut bytes, &mut length) != DONE {
        return None;
    }
    if length > bytes.len() {
        bytes.resize(length, 0);
        if call(&mut bytes, &mut length) != DONE {
            return None;
        }
    }
    bytes.truncate(length);
    Some(bytes)
}

#[cfg(test)]
pub mod tests {
    use super::*;

    /// A name as the library writes it; nothing where it doesn't fit.
    pub fn named(text: &str) -> Name {
        let mut name = Name([0; NAME_ROOM]);
        if let Some(room) = name.0.get_mut(..text.len()) {
            room.copy_from_slice(text.as_bytes());
        }
        name
    }

    #[test]
    fn a_room_grows_where_it_was_too_small() {
        let five = |room: &mut [u8], length: &mut usize| {
            *length = 5;
            if let Some(room) = room.get_mut(..5) {
                room.copy_from_slice(b"bytes");
            }
            DONE
        };
        for room in [0, 4, 5, 6] {
            assert_eq!(written(room, five).as_deref(), Some(&b"bytes"[..]), "{room}");
        }
        assert_eq!(written(9, |_, _| 1), None);
    }

    #[test]
    fn names_are_texts_that_fit() {
        assert_eq!(named("/ls/c/f").text(7), Some("/ls/c/f"));
        assert_eq!(named("").text(513), None);
        assert_eq!(Name([255; NAME_ROOM]).text(1), None);
    }
}
