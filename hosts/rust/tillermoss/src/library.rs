//! The client library: each call here is a call of it, on the caller's thread.
//!
//! Nothing compares the declarations here with the library's source (`include/cell_client.h` has the same in C, and what each call
//! owes) but for its [numbers](crate::numbers), and nothing checks a call from here against a contract.

use crate::calls::{Call, Opening};
use crate::numbers;
use crate::refusals::Refusal;
use std::ptr::{self, NonNull};

/// A struct of one pointer, as the library declares it. It owns the client there.
#[repr(C)]
struct RawHandle {
    at: *mut u8,
}

/// How a node is opened, as the library declares it.
#[repr(C)]
#[derive(Clone, Copy, Debug, Default, PartialEq, Eq)]
pub struct OpenParts {
    pub lock_delay: u64,
    pub mode: u8,
    pub events: u8,
    pub create: u8,
    pub kind: u8,
    pub life: u8,
}

/// A line of the last step in plain numbers, as the library declares it.
#[repr(C)]
#[derive(Clone, Copy, Debug, Default, PartialEq, Eq)]
pub struct LineNumbers {
    pub what: u32,
    pub fault: u32,
    pub call: u64,
    pub handle: u64,
    pub instance: u64,
    pub content_generation: u64,
    pub acl_generation: u64,
    pub lock_generation: u64,
    pub length: u64,
    pub kind: u32,
    pub life: u32,
    pub argument: u64,
    pub opened: u64,
    pub children: u64,
    pub event: u64,
}

/// A line of the last step, with what belongs to it; what doesn't is empty.
#[derive(Clone, Debug, Default)]
pub struct ToldLine {
    pub numbers: LineNumbers,
    /// The content, or the sequencer.
    pub bytes: Vec<u8>,
    /// The last components of the children's names.
    pub children: Vec<String>,
    /// The ACLs to read, to write, and to change ACLs.
    pub acl: [String; 3],
    /// The whole name of an event's child.
    pub name: String,
}

type ShowCall = unsafe extern "C" fn(*mut RawHandle, *mut u8, usize, *mut usize) -> u32;

unsafe extern "C" {
    fn cell_client_open(number: u64, principal: *const u8, length: usize, out: *mut *mut u8) -> u32;
    fn cell_client_beat(handle: *mut RawHandle, now: u64) -> u32;
    fn cell_client_read(handle: *mut RawHandle, now: u64, number: u64, room: *mut u8, room_length: usize, length: *mut usize) -> u32;
    fn cell_client_hit(handle: *mut RawHandle, now: u64, number: u64, room: *mut u8, room_length: usize, length: *mut usize) -> u32;
    fn cell_client_poison(handle: *mut RawHandle, now: u64, number: u64) -> u32;
    fn cell_client_open_node(
        handle: *mut RawHandle,
        now: u64,
        name: *const u8,
        name_length: usize,
        opening: *const OpenParts,
        content: *const u8,
        content_length: usize,
    ) -> u32;
    fn cell_client_open_under(
        handle: *mut RawHandle,
        now: u64,
        name: *const u8,
        name_length: usize,
        opening: *const OpenParts,
        content: *const u8,
        content_length: usize,
        read: *const u8,
        read_length: usize,
        write: *const u8,
        write_length: usize,
        change: *const u8,
        change_length: usize,
    ) -> u32;
    fn cell_client_close_handle(handle: *mut RawHandle, now: u64, number: u64) -> u32;
    fn cell_client_stat(handle: *mut RawHandle, now: u64, number: u64) -> u32;
    fn cell_client_list(handle: *mut RawHandle, now: u64, number: u64) -> u32;
    fn cell_client_set(handle: *mut RawHandle, now: u64, number: u64, content: *const u8, content_length: usize, generation: u64) -> u32;
    fn cell_client_set_acl(
        handle: *mut RawHandle,
        now: u64,
        number: u64,
        read: *const u8,
        read_length: usize,
        write: *const u8,
        write_length: usize,
        change: *const u8,
        change_length: usize,
        generation: u64,
    ) -> u32;
    fn cell_client_delete(handle: *mut RawHandle, now: u64, number: u64) -> u32;
    fn cell_client_acquire(handle: *mut RawHandle, now: u64, number: u64, mode: u32) -> u32;
    fn cell_client_try_acquire(handle: *mut RawHandle, now: u64, number: u64, mode: u32) -> u32;
    fn cell_client_release(handle: *mut RawHandle, now: u64, number: u64) -> u32;
    fn cell_client_get_sequencer(handle: *mut RawHandle, now: u64, number: u64) -> u32;
    fn cell_client_set_sequencer(handle: *mut RawHandle, now: u64, number: u64, sequencer: *const u8, sequencer_length: usize) -> u32;
    fn cell_client_check_sequencer(handle: *mut RawHandle, now: u64, sequencer: *const u8, sequencer_length: usize) -> u32;
    fn cell_client_leave(handle: *mut RawHandle, now: u64) -> u32;
    fn cell_client_give(handle: *mut RawHandle, now: u64, message: *const u8, length: usize) -> u32;
    fn cell_client_message(handle: *mut RawHandle, room: *mut u8, room_length: usize, length: *mut usize) -> u32;
    fn cell_client_line(handle: *mut RawHandle, place: usize, out: *mut LineNumbers);
    fn cell_client_line_bytes(handle: *mut RawHandle, place: usize, room: *mut u8, room_length: usize) -> usize;
    fn cell_client_line_child(handle: *mut RawHandle, place: usize, index: usize, room: *mut u8, room_length: usize) -> usize;
    fn cell_client_line_acl(handle: *mut RawHandle, place: usize, right: u32, room: *mut u8, room_length: usize) -> usize;
    fn cell_client_line_name(handle: *mut RawHandle, place: usize, room: *mut u8, room_length: usize) -> usize;
    fn cell_client_content(handle: *mut RawHandle, room: *mut u8, room_length: usize) -> usize;
    fn cell_client_again(handle: *mut RawHandle, room: *mut u8, room_length: usize, length: *mut usize) -> u32;
    fn cell_client_leased_until(handle: *mut RawHandle) -> u64;
    fn cell_client_close(handle: RawHandle);
}

/// What a step came to.
#[derive(Clone, Copy, Debug, PartialEq, Eq)]
pub enum StepStatus {
    /// There is nothing to send.
    Done,
    /// There is a message to send.
    Send,
    /// Answered out of the cache.
    Served,
    /// Refused by the client itself.
    Refused(Refusal),
    /// The bytes that were passed are none, for the reason of this code.
    Bad(u32),
}

impl StepStatus {
    fn of(code: u32) -> StepStatus {
        match code {
            numbers::DONE => StepStatus::Done,
            numbers::SEND => StepStatus::Send,
            numbers::SERVED => StepStatus::Served,
            _ => Refusal::of_code(code).map_or(StepStatus::Bad(code), StepStatus::Refused),
        }
    }

    /// Whether the step changed nothing, so that what it would show is that of the step before.
    pub fn is_without_effect(self) -> bool {
        matches!(self, StepStatus::Bad(_) | StepStatus::Refused(Refusal::NoMemory | Refusal::Exhausted))
    }
}

/// An open client of the library. No clone: one owner, and one call at a time.
#[derive(Debug)]
pub struct Library {
    at: *mut u8,
}

// SAFETY: the library proves `Send` of what the handle owns.
unsafe impl Send for Library {}

impl Library {
    /// Opens a client of this number, for this principal; or the code of why there is none.
    pub fn open(number: u64, principal: &str) -> Result<Library, StepStatus> {
        let mut at = ptr::null_mut();
        // SAFETY: the text is there for the call, and the address is written over a pointer, which may be null.
        match unsafe { cell_client_open(number, principal.as_ptr(), principal.len(), &raw mut at) } {
            0 => Ok(Library { at }),
            code => Err(StepStatus::of(code)),
        }
    }

    // The handle for one call. (It isn't changed: the client is where it points to.)
    fn handle(&mut self) -> RawHandle {
        RawHandle { at: self.at }
    }

    /// Asks for a Start or a Beat.
    pub fn beat(&mut self, now: u64) -> StepStatus {
        let mut handle = self.handle();
        // SAFETY: the handle is that of an open client, and `&mut self` is one call at a time; so too below.
        StepStatus::of(unsafe { cell_client_beat(&raw mut handle, now) })
    }

    /// Asks for a call.
    pub fn call(&mut self, now: u64, call: &Call) -> StepStatus {
        let mut handle = self.handle();
        let at = &raw mut handle;
        let mut length = 0;
        // SAFETY: as above; what is passed is there for the call.
        let code = unsafe {
            match *call {
                Call::Open(opening) => return self.open_node(now, opening),
                // (into no room: the lines show what the cache answers)
                Call::Read(number) => cell_client_read(at, now, number, NonNull::dangling().as_ptr(), 0, &raw mut length),
                Call::Set(number, content, generation) => {
                    cell_client_set(at, now, number, content.as_ptr(), content.len(), wanted(generation))
                }
                Call::SetAcl(number, acl, generation) => return self.set_acl(now, number, acl, generation),
                Call::Close(number) => cell_client_close_handle(at, now, number),
                Call::Stat(number) => cell_client_stat(at, now, number),
                Call::List(number) => cell_client_list(at, now, number),
                Call::Delete(number) => cell_client_delete(at, now, number),
                Call::Acquire(number, mode) => cell_client_acquire(at, now, number, mode.number()),
                Call::TryAcquire(number, mode) => cell_client_try_acquire(at, now, number, mode.number()),
                Call::Release(number) => cell_client_release(at, now, number),
                Call::GetSequencer(number) => cell_client_get_sequencer(at, now, number),
                Call::SetSequencer(number, sequencer) => cell_client_set_sequencer(at, now, number, sequencer.as_ptr(), sequencer.len()),
                Call::CheckSequencer(sequencer) => cell_client_check_sequencer(at, now, sequencer.as_ptr(), sequencer.len()),
                Call::Leave => cell_client_leave(at, now),
            }
        };
        StepStatus::of(code)
    }

    fn open_node(&mut self, now: u64, opening: &Opening) -> StepStatus {
        let mut handle = self.handle();
        let at = &raw mut handle;
        let (name, content, parts) = (opening.name.as_bytes(), opening.content(), opening.parts());
        let Some([read, write, change]) = opening.acl() else {
            // SAFETY: as above.
            return StepStatus::of(unsafe {
                cell_client_open_node(at, now, name.as_ptr(), name.len(), &raw const parts, content.as_ptr(), content.len())
            });
        };
        // SAFETY: as above.
        StepStatus::of(unsafe {
            cell_client_open_under(
                at,
                now,
                name.as_ptr(),
                name.len(),
                &raw const parts,
                content.as_ptr(),
                content.len(),
                read.as_ptr(),
                read.len(),
                write.as_ptr(),
                write.len(),
                change.as_ptr(),
                change.len(),
            )
        })
    }

    fn set_acl(&mut self, now: u64, number: u64, [read, write, change]: &[String; 3], generation: Option<u64>) -> StepStatus {
        let mut handle = self.handle();
        let generation = wanted(generation);
        // SAFETY: as above.
        StepStatus::of(unsafe {
            cell_client_set_acl(
                &raw mut handle,
                now,
                number,
                read.as_ptr(),
                read.len(),
                write.as_ptr(),
                write.len(),
                change.as_ptr(),
                change.len(),
                generation,
            )
        })
    }

    /// Reads the node of a handle. Served, its content stands in the room; else the room is empty.
    pub fn read(&mut self, now: u64, number: u64, room: &mut Vec<u8>) -> StepStatus {
        let mut handle = self.handle();
        room.clear();
        let mut length = 0;
        // SAFETY: as above; the room is there for the call, and nothing else has it. It is written and isn't read.
        let code = unsafe { cell_client_read(&raw mut handle, now, number, room.as_mut_ptr(), room.capacity(), &raw mut length) };
        let status = StepStatus::of(code);
        if status == StepStatus::Served && length <= room.capacity() {
            // SAFETY: so many bytes were written to the room's front.
            unsafe { room.set_len(length) };
        } else if status == StepStatus::Served {
            *room = self.content();
        }
        status
    }

    /// Whether the cache serves a read of this handle now: then its content stands in the room; else the room is empty. No step: what
    /// the last one showed stays.
    pub fn hit(&mut self, now: u64, number: u64, room: &mut Vec<u8>) -> bool {
        let mut handle = self.handle();
        room.clear();
        loop {
            let mut length = 0;
            // SAFETY: as above; the room is there for the call, and nothing else has it. It is written and isn't read.
            let code = unsafe { cell_client_hit(&raw mut handle, now, number, room.as_mut_ptr(), room.capacity(), &raw mut length) };
            if StepStatus::of(code) != StepStatus::Served {
                return false;
            }
            if length <= room.capacity() {
                // SAFETY: so many bytes were written to the room's front.
                unsafe { room.set_len(length) };
                return true;
            }
            room.reserve(length);
        }
    }

    /// Whether the cache would serve a read of this handle now. No step, and nothing is copied.
    pub fn holds(&mut self, now: u64, number: u64) -> bool {
        let mut handle = self.handle();
        let mut length = 0;
        // SAFETY: as above; into no room nothing is written.
        let code = unsafe { cell_client_hit(&raw mut handle, now, number, NonNull::dangling().as_ptr(), 0, &raw mut length) };
        StepStatus::of(code) == StepStatus::Served
    }

    /// Poisons a handle.
    pub fn poison(&mut self, now: u64, number: u64) -> StepStatus {
        let mut handle = self.handle();
        // SAFETY: as above.
        StepStatus::of(unsafe { cell_client_poison(&raw mut handle, now, number) })
    }

    /// Gives the client a message of the master.
    pub fn give(&mut self, now: u64, message: &[u8]) -> StepStatus {
        let mut handle = self.handle();
        // SAFETY: as above; the bytes are there for the call.
        StepStatus::of(unsafe { cell_client_give(&raw mut handle, now, message.as_ptr(), message.len()) })
    }

    /// The message that the last step gave to be sent.
    pub fn message(&mut self) -> Option<Vec<u8>> {
        self.shown(cell_client_message).filter(|message| !message.is_empty())
    }

    /// The message of the outstanding call, to be sent again.
    pub fn again(&mut self) -> Option<Vec<u8>> {
        self.shown(cell_client_again).filter(|message| !message.is_empty())
    }

    /// The lines of the last step.
    pub fn lines(&mut self) -> Vec<ToldLine> {
        (0..).map_while(|place| self.line(place)).collect()
    }

    // The line at this place; None after the last.
    fn line(&mut self, place: usize) -> Option<ToldLine> {
        let mut handle = self.handle();
        let mut numbers = LineNumbers::default();
        // SAFETY: as above; what is written is there for the call, and nothing else has it.
        unsafe { cell_client_line(&raw mut handle, place, &raw mut numbers) };
        (numbers.what != 0).then(|| ToldLine {
            numbers,
            // SAFETY: as `filled` says; so too below.
            bytes: self.filled(|at, room, length| unsafe { cell_client_line_bytes(at, place, room, length) }),
            children: (0..).take_while(|&index| index as u64 != numbers.children).map(|index| self.child(place, index)).collect(),
            acl: [1, 2, 4].map(|right| self.text(|at, room, length| unsafe { cell_client_line_acl(at, place, right, room, length) })),
            name: self.text(|at, room, length| unsafe { cell_client_line_name(at, place, room, length) }),
        })
    }

    fn child(&mut self, place: usize, index: usize) -> String {
        // SAFETY: as `filled` says.
        self.text(|at, room, length| unsafe { cell_client_line_child(at, place, index, room, length) })
    }

    /// The whole content of the view that the last line of the last step shows.
    pub fn content(&mut self) -> Vec<u8> {
        // SAFETY: as `filled` says.
        self.filled(|at, room, length| unsafe { cell_client_content(at, room, length) })
    }

    // (a name is ASCII)
    fn text(&mut self, shows: impl Fn(*mut RawHandle, *mut u8, usize) -> usize) -> String {
        String::from_utf8_lossy(&self.filled(shows)).into_owned()
    }

    // All that one of the calls shows which answer how long that is, and write it where there is room for it. It is handed the handle of an
    // open client, and room that is there for the call and that nothing else has.
    fn filled(&mut self, shows: impl Fn(*mut RawHandle, *mut u8, usize) -> usize) -> Vec<u8> {
        let mut handle = self.handle();
        let mut room = Vec::new();
        loop {
            let length = shows(&raw mut handle, room.as_mut_ptr(), room.len());
            if length <= room.len() {
                room.truncate(length);
                return room;
            }
            room.resize(length, 0);
        }
    }

    /// The moment from which on the client trusts its lease no more; 0 without a lease.
    pub fn leased_until(&mut self) -> u64 {
        let mut handle = self.handle();
        // SAFETY: as above.
        unsafe { cell_client_leased_until(&raw mut handle) }
    }

    // What one of the calls shows that change nothing; None for want of memory.
    fn shown(&mut self, shows: ShowCall) -> Option<Vec<u8>> {
        let mut handle = self.handle();
        let mut room = vec![0; 256];
        loop {
            let mut length = 0;
            // SAFETY: as above; the room is there for the call, and nothing else has it.
            let code = unsafe { shows(&raw mut handle, room.as_mut_ptr(), room.len(), &raw mut length) };
            if code != 0 {
                return None;
            }
            if length <= room.len() {
                room.truncate(length);
                return Some(room);
            }
            room.resize(length, 0);
        }
    }
}

// To the library 0 is any generation; and no node has the generation 0, nor the greatest number.
fn wanted(generation: Option<u64>) -> u64 {
    match generation {
        None => 0,
        Some(0) => u64::MAX,
        Some(generation) => generation,
    }
}

impl Drop for Library {
    fn drop(&mut self) {
        // SAFETY: the handle is that of an open client, and is used no more.
        unsafe { cell_client_close(RawHandle { at: self.at }) }
    }
}

#[cfg(test)]
mod tests {
    use super::*;
    use crate::calls::{Create, Life};
    use crate::events::{Event, Events};
    use crate::lines::{Answer, Line, ShownView};
    use crate::nodes::{Kind, LockMode, Mode, Right, Stat};
    use host_wire::Asked;
    use programs::Master;

    const CLIENT: u64 = 7;
    const OTHER: u64 = 8;
    const BOTH: Mode = Mode::READ.and(Mode::WRITE);

    fn lines(library: &mut Library) -> Vec<Line> {
        library.lines().into_iter().filter_map(Line::of).collect()
    }

    // Hands the master a client's message at this moment, and these clients what it says to them.
    fn serve<const N: usize>(master: &mut Master, message: &[u8], mut clients: [(u64, &mut Library); N]) {
        for (number, said) in master.ask(1100, message).unwrap() {
            let (_, library) = clients.iter_mut().find(|(client, _)| *client == number).unwrap();
            assert_eq!(library.give(1100, &said), StepStatus::Done);
        }
    }

    // A client that was given a session at 1000 ms, of 12,000 ms: it is trusted until 11,293 have passed.
    fn began(master: &mut Master, number: u64) -> Library {
        let mut library = Library::open(number, "ann").unwrap();
        assert_eq!(library.beat(1000), StepStatus::Send);
        let start = library.message().unwrap();
        serve(master, &start, [(number, &mut library)]);
        library
    }

    fn started() -> (Master, Library) {
        let mut master = Master::start().unwrap();
        let library = began(&mut master, CLIENT);
        (master, library)
    }

    // Makes a call that the master does, and gives the lines that came of it.
    fn call(master: &mut Master, library: &mut Library, number: u64, call: &Call) -> Vec<Line> {
        assert_eq!(library.call(1100, call), StepStatus::Send, "{call:?}");
        let message = library.message().unwrap();
        serve(master, &message, [(number, library)]);
        lines(library)
    }

    fn file(content: &[u8]) -> Create {
        Create { must: true, content: Some(content.to_vec()), ..Create::default() }
    }

    fn making(name: &str, create: Create) -> Opening {
        Opening { create: Some(create), ..Opening::new(name, BOTH.and(Mode::CHANGE)) }
    }

    // A master and a client with handle 1 on /ls/c/f.
    fn opened() -> (Master, Library) {
        let (mut master, mut library) = started();
        let told = call(&mut master, &mut library, CLIENT, &Call::Open(&making("/ls/c/f", file(b"hello"))));
        assert_eq!(told, [Line::Done(1, Answer::Opened(1))]);
        (master, library)
    }

    // A master and a client with handle 1 on /ls/c/f, and its content cached.
    fn cached() -> (Master, Library) {
        let (mut master, mut library) = opened();
        assert_eq!(library.read(1100, 1, &mut Vec::new()), StepStatus::Send);
        let read = library.message().unwrap();
        serve(&mut master, &read, [(CLIENT, &mut library)]);
        (master, library)
    }

    fn base() -> [String; 3] {
        ["base"; 3].map(str::to_owned)
    }

    // The numbers of the first node that is made.
    fn stat(kind: Kind, instance: u64, content_generation: u64, length: u64) -> Stat {
        let (lock_generation, is_ephemeral) = (None, false);
        Stat { kind, instance, content_generation, acl_generation: 1, lock_generation, acl: base(), is_ephemeral, length }
    }

    #[test]
    fn numbers_and_principals_are_refused() {
        for (number, principal) in [(0, "ann"), (1 << 53, "ann"), (1, "Ann"), (1, "")] {
            assert!(Library::open(number, principal).is_err(), "{number} {principal}");
        }
    }

    #[test]
    fn a_session_is_begun_and_kept() {
        let mut library = Library::open(CLIENT, "ann").unwrap();
        assert_eq!((library.leased_until(), library.message(), lines(&mut library)), (0, None, vec![]));
        assert_eq!(library.beat(1000), StepStatus::Send);
        let start = Asked::read(&library.message().unwrap()).unwrap();
        assert!(start.is_start() && start.is_from(CLIENT, "ann"));
        assert_eq!((start.number(), library.call(1000, &Call::Read(1))), (1, StepStatus::Refused(Refusal::NoSession)));
        let (_, mut library) = started();
        assert_eq!(library.leased_until(), 12_294);
        assert_eq!(library.call(1100, &Call::Read(1)), StepStatus::Refused(Refusal::BadHandle));
        assert_eq!(library.beat(1100), StepStatus::Send);
        let beat = Asked::read(&library.message().unwrap()).unwrap();
        assert!(!beat.is_start() && beat.is_from(CLIENT, "ann"));
        assert_eq!((beat.number(), beat.epoch()), (2, 1));
    }

    #[test]
    fn a_call_is_sent_and_sent_again() {
        let (_, mut library) = started();
        let opening = Opening::new("/ls/c/f", Mode::READ);
        assert_eq!(library.again(), None);
        assert_eq!(library.call(1100, &Call::Open(&opening)), StepStatus::Send);
        let sent = library.message();
        assert!(sent.is_some() && library.again() == sent);
        assert_eq!(library.call(1100, &Call::Open(&opening)), StepStatus::Refused(Refusal::CallOutstanding));
    }

    // Each call with what a master of a new store answers, in this order.
    #[test]
    fn each_call_is_done() {
        let (mut master, mut library) = started();
        let mut number = 0;
        let mut done = |call: Call, wanted: Answer| {
            number += 1;
            let told = self::call(&mut master, &mut library, CLIENT, &call);
            assert_eq!(told, [Line::Done(number, wanted)], "{call:?}");
        };
        let refused = Answer::Refused;
        let changed = [base()[0].clone(), "own".to_owned(), base()[0].clone()];
        let own = Create { acl: Some(changed.clone()), life: Life::Ephemeral, ..file(b"\xff") };
        // (nobody stands in an ACL that isn't there)
        let opening = Opening { lock_delay: 258, events: Events::CONTENTS, ..making("/ls/c/e", own) };
        done(Call::Open(&opening), refused(Refusal::Denied(Right::Write)));
        done(Call::Open(&Opening { mode: Mode::READ.and(Mode::CHANGE), ..opening }), Answer::Opened(1));
        let ephemeral = Stat { acl: changed, is_ephemeral: true, lock_generation: Some(0), ..stat(Kind::File, 4, 1, 1) };
        done(Call::Stat(1), Answer::Stated(ephemeral));
        done(Call::Open(&making("/ls/c/d", Create::default())), Answer::Opened(2));
        done(Call::Open(&making("/ls/c/d/f", file(b"new"))), Answer::Opened(3));
        done(Call::Open(&making("/ls/c/d/f", file(b""))), refused(Refusal::Exists));
        done(Call::Open(&Opening::new("/ls/c/d/f", BOTH)), Answer::Opened(4));
        done(Call::Open(&Opening::new("/ls/c/d/f", Mode::READ)), Answer::Opened(5));
        done(Call::Set(5, b"", None), refused(Refusal::Denied(Right::Write)));
        done(Call::Set(3, b"\xab\xcd", None), Answer::Done);
        done(Call::Set(3, b"", Some(3)), refused(Refusal::WrongGeneration(2)));
        done(Call::Set(3, b"", Some(0)), refused(Refusal::WrongGeneration(2)));
        done(Call::Set(3, b"abc", Some(2)), Answer::Done);
        done(Call::Set(2, b"", None), refused(Refusal::WrongKind(Kind::Directory)));
        done(Call::SetAcl(3, &base(), Some(2)), refused(Refusal::WrongGeneration(1)));
        done(Call::SetAcl(3, &base(), None), Answer::Done);
        done(Call::Acquire(3, LockMode::Shared), Answer::Done);
        done(Call::TryAcquire(4, LockMode::Exclusive), refused(Refusal::Held(LockMode::Shared)));
        done(Call::TryAcquire(4, LockMode::Shared), Answer::Done);
        done(Call::Release(4), Answer::Done);
        done(Call::Release(4), refused(Refusal::NotHolder));
        done(Call::GetSequencer(4), refused(Refusal::NotHolder));
        done(Call::CheckSequencer(b"\xcd"), refused(Refusal::BadSequencer));
        done(Call::SetSequencer(4, b"\xcd"), refused(Refusal::BadSequencer));
        done(Call::Delete(2), refused(Refusal::NotEmpty));
        let locked = Stat { acl_generation: 2, lock_generation: Some(1), ..stat(Kind::File, 6, 3, 3) };
        done(Call::Stat(3), Answer::Stated(locked.clone()));
        let shown = Stat { lock_generation: None, ..locked };
        done(Call::Read(3), Answer::Viewed(ShownView { stat: shown, content: b"abc".to_vec(), children: Vec::new() }));
        done(Call::List(2), Answer::Names(vec!["f".to_owned()]));
        done(Call::Delete(1), refused(Refusal::Denied(Right::Write)));
        done(Call::Open(&making("/ls/c/g", file(b""))), Answer::Opened(6));
        done(Call::Delete(6), Answer::Done);
        done(Call::Stat(6), refused(Refusal::StaleInstance));
        done(Call::Open(&Opening::new("/ls/c", Mode::READ)), Answer::Opened(7));
        let children = ["acl", "d", "e"].map(str::to_owned).to_vec();
        done(Call::Read(7), Answer::Viewed(ShownView { stat: stat(Kind::Directory, 1, 0, 0), content: Vec::new(), children }));
        done(Call::Close(4), Answer::Closed);
        done(Call::Leave, Answer::Done);
    }

    #[test]
    fn a_sequencer_goes_out_as_it_came() {
        let (mut master, mut library) = opened();
        assert_eq!(call(&mut master, &mut library, CLIENT, &Call::Acquire(1, LockMode::Exclusive)), [Line::Done(2, Answer::Done)]);
        let told = call(&mut master, &mut library, CLIENT, &Call::GetSequencer(1));
        let [Line::Done(3, Answer::Sequencer(sequencer))] = &told[..] else { panic!("{told:?}") };
        assert_eq!(call(&mut master, &mut library, CLIENT, &Call::CheckSequencer(sequencer)), [Line::Done(4, Answer::Done)]);
        assert_eq!(call(&mut master, &mut library, CLIENT, &Call::SetSequencer(1, sequencer)), [Line::Done(5, Answer::Done)]);
        assert_eq!(call(&mut master, &mut library, CLIENT, &Call::Release(1)), [Line::Done(6, Answer::Done)]);
        let stale = Answer::Refused(Refusal::SequencerStale);
        assert_eq!(call(&mut master, &mut library, CLIENT, &Call::CheckSequencer(sequencer)), [Line::Done(7, stale)]);
    }

    #[test]
    fn what_is_no_name_isnt_sent() {
        let (_, mut library) = opened();
        let acl = |name: &str| [name, "b", "c"].map(str::to_owned);
        let open = |name, acl| Opening { create: Some(Create { acl: Some(acl), ..Create::default() }), ..Opening::new(name, Mode::READ) };
        for opening in [open("/ls/c/D", acl("a")), open("/ls/c/d", acl("")), open("/ls/c/d", acl("a/b"))] {
            assert_eq!(library.call(1100, &Call::Open(&opening)), StepStatus::Bad(86), "{opening:?}");
        }
        assert_eq!(library.call(1100, &Call::SetAcl(1, &acl(".."), None)), StepStatus::Bad(86));
        assert_eq!(lines(&mut library), [Line::Done(1, Answer::Opened(1))]);
    }

    // What one client does, and what is told another, which has opened the directory, the file in it and its lock.
    #[test]
    fn events_have_their_values() {
        let (mut master, mut library) = started();
        let all = Events::CONTENTS.and(Events::LOCK).and(Events::CONFLICT);
        let watched = |name, events| Opening { events, ..Opening::new(name, BOTH) };
        let made = Opening { create: Some(file(b"")), ..watched("/ls/c/f", all) };
        for (opening, number) in [watched("/ls/c", Events::CHILDREN), made].into_iter().zip(1..) {
            let told = call(&mut master, &mut library, CLIENT, &Call::Open(&opening));
            assert_eq!(told, [Line::Done(number, Answer::Opened(number))]);
        }
        // (it is told of what it made itself)
        assert_eq!(library.beat(1100), StepStatus::Send);
        let beat = library.message().unwrap();
        serve(&mut master, &beat, [(CLIENT, &mut library)]);
        let own = || "/ls/c/f".to_owned();
        assert_eq!(lines(&mut library), [Line::Event(Some(1), Event::ChildAdded(own()))]);
        let mut other = began(&mut master, OTHER);
        let opened = call(&mut master, &mut other, OTHER, &Call::Open(&Opening::new("/ls/c/f", BOTH)));
        assert_eq!(opened, [Line::Done(1, Answer::Opened(1))]);
        let (name, making) = (|| "/ls/c/g".to_owned(), making("/ls/c/g", file(b"")));
        let lock = LockMode::Exclusive;
        let rows = [
            (Call::Open(&making), vec![(1, Event::ChildAdded(name()))]),
            (Call::Set(2, b"new", None), vec![(1, Event::ChildModified(name()))]),
            (Call::Delete(2), vec![(1, Event::ChildRemoved(name()))]),
            (Call::Set(1, b"", None), vec![(1, Event::ChildModified(own())), (2, Event::Contents { instance: 4, generation: 2 })]),
            (Call::Acquire(1, lock), vec![(2, Event::Locked)]),
        ];
        for (deed, events) in rows {
            tell(&mut master, (CLIENT, &mut library), (OTHER, &mut other), &deed);
            let wanted: Vec<Line> = events.into_iter().map(|(opened, event)| Line::Event(Some(opened), event)).collect();
            assert_eq!(lines(&mut library), wanted);
        }
    }

    // A Beat of the first waits at the master, and the other makes a call: what that tells the first is given to it.
    fn tell(master: &mut Master, (number, library): (u64, &mut Library), (by, other): (u64, &mut Library), deed: &Call) {
        assert_eq!(library.beat(1100), StepStatus::Send);
        let beat = library.message().unwrap();
        serve(master, &beat, [(number, library), (by, other)]);
        assert_eq!(other.call(1100, deed), StepStatus::Send, "{deed:?}");
        let message = other.message().unwrap();
        serve(master, &message, [(number, library), (by, other)]);
    }

    #[test]
    fn a_fail_over_is_an_event_of_no_handle() {
        let (mut master, mut library) = started();
        master.again().unwrap();
        for wanted in [vec![], vec![Line::Event(None, Event::Failover)]] {
            assert_eq!(library.beat(1100), StepStatus::Send);
            let beat = library.message().unwrap();
            serve(&mut master, &beat, [(CLIENT, &mut library)]);
            assert_eq!(lines(&mut library), wanted);
        }
    }

    #[test]
    fn a_read_is_served_while_the_lease_runs() {
        let (_master, mut library) = cached();
        let shown = ShownView { stat: stat(Kind::File, 4, 1, 5), content: b"hello".to_vec(), children: Vec::new() };
        assert_eq!(lines(&mut library), [Line::Done(2, Answer::Viewed(shown.clone()))]);
        assert_eq!(library.content(), b"hello");
        for capacity in [0, 4, 5, 100] {
            let mut room = Vec::with_capacity(capacity);
            assert_eq!(library.read(12_293, 1, &mut room), StepStatus::Served);
            assert_eq!(room, b"hello");
        }
        assert_eq!(lines(&mut library), [Line::Served(Some(shown))]);
        let mut room = b"old".to_vec();
        assert_eq!(library.read(12_294, 1, &mut room), StepStatus::Refused(Refusal::InJeopardy));
        assert_eq!((room.as_slice(), lines(&mut library)), (&b""[..], vec![Line::Jeopardy]));
    }

    #[test]
    fn a_hit_is_what_a_read_is_served() {
        let (_master, mut library) = cached();
        let (before, end) = (lines(&mut library), 12_294);
        for (now, number) in [(0, 1), (1100, 1), (end - 1, 1), (end, 1), (1 << 53, 1), (1100, 0), (1100, 2)] {
            let is_served = number == 1 && now < end;
            for capacity in [0, 4, 5, 100] {
                let mut room = Vec::with_capacity(capacity);
                assert_eq!(library.hit(now, number, &mut room), is_served, "{now} {number}");
                assert_eq!(room, if is_served { &b"hello"[..] } else { b"" });
            }
        }
        assert_eq!((lines(&mut library), library.content()), (before, b"hello".to_vec()));
        let mut room = b"old".to_vec();
        assert_eq!(library.poison(1100, 1), StepStatus::Done);
        assert!(!library.hit(1100, 1, &mut room) && room.is_empty());
        assert!(!started().1.hit(1100, 1, &mut room));
    }

    #[test]
    fn a_poisoned_handle_is_refused() {
        let (_master, mut library) = cached();
        assert_eq!(library.poison(1100, 2), StepStatus::Refused(Refusal::BadHandle));
        assert_eq!(library.poison(1100, 1), StepStatus::Done);
        assert_eq!(lines(&mut library), [Line::Done(0, Answer::Poisoned)]);
        assert_eq!(library.read(1100, 1, &mut Vec::new()), StepStatus::Refused(Refusal::Poisoned));
    }

    #[test]
    fn what_is_no_message_changes_nothing() {
        let (mut master, mut library) = cached();
        let before = lines(&mut library);
        let mut other = Library::open(OTHER, "ann").unwrap();
        assert_eq!(other.beat(1000), StepStatus::Send);
        let said = master.ask(1100, &other.message().unwrap()).unwrap().remove(0).1;
        let rows: &[(&[u8], u32)] =
            &[(b"", 82), (&said[..said.len() - 1], 82), (&[&[1], &said[1..]].concat(), 83), (&[&said[..], b"a"].concat(), 87)];
        for (message, code) in rows {
            assert_eq!(library.give(9_999_999, message), StepStatus::Bad(*code), "{message:?}");
        }
        assert_eq!(library.call(9_999_999, &Call::Open(&Opening::new("f", Mode::READ))), StepStatus::Bad(86));
        assert_eq!(library.beat(1 << 53), StepStatus::Refused(Refusal::Exhausted));
        assert_eq!((lines(&mut library), library.content()), (before, b"hello".to_vec()));
        assert_eq!(library.read(1100, 1, &mut Vec::new()), StepStatus::Served);
    }
}
