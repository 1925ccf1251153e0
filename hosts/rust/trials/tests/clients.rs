//! The calls of a client, each with a server.

use host_wire::MasterAnswer;
use std::path::PathBuf;
use std::sync::atomic::{AtomicU64, Ordering};
use std::thread;
use std::time::{Duration, Instant};
use tillermoss::{Client, Create, Error, Event, Events, Handle, Kind, Life, LockMode, Mode, Opening, Options, Refusal, Right};
use trials::{Kill, Plain, Server, folder};

const BOTH: Mode = Mode::READ.and(Mode::WRITE);

struct Cell {
    server: Server,
    folder: PathBuf,
}

impl Cell {
    fn new(test: &str) -> Cell {
        let folder = folder(test);
        Cell { server: Server::start(&folder.join("store.db")).unwrap(), folder }
    }

    fn client(&self, principal: &str) -> Client {
        Client::connect(&Options::new(&self.server.address.to_string(), principal)).unwrap()
    }
}

impl Drop for Cell {
    fn drop(&mut self) {
        // (a folder that stays is in nobody's way)
        let _ = std::fs::remove_dir_all(&self.folder);
    }
}

fn refusal<T>(result: Result<T, Error>) -> Option<Refusal> {
    result.err().and_then(|error| error.refusal())
}

fn make_directory(client: &Client, name: &str) -> Handle {
    let create = Create { must: true, ..Create::default() };
    client.open_with(&Opening { create: Some(create), ..Opening::new(name, BOTH) }).unwrap()
}

#[test]
fn files_and_directories() {
    let cell = Cell::new("files");
    let client = cell.client("ann");
    let directory = make_directory(&client, "/ls/c/d");
    assert_eq!(client.list(directory).unwrap(), [""; 0]);
    let file = client.create("/ls/c/d/f", b"hello").unwrap();
    client.create("/ls/c/d/e", b"").unwrap();
    assert_eq!(client.list(directory).unwrap(), ["e", "f"]);
    let view = client.read(file).unwrap();
    assert_eq!((view.content.as_slice(), view.stat.kind, view.stat.content_generation), (&b"hello"[..], Kind::File, 1));
    client.set(file, b"world", None).unwrap();
    client.set(file, b"again", Some(2)).unwrap();
    assert_eq!(refusal(client.set(file, b"late", Some(2))), Some(Refusal::WrongGeneration(3)));
    assert_eq!(client.read(file).unwrap().content, b"again");
    let stat = client.stat(file).unwrap();
    assert_eq!((stat.length, stat.lock_generation, stat.is_ephemeral), (5, Some(0), false));
    client.delete(file).unwrap();
    assert_eq!(refusal(client.read(file)), Some(Refusal::StaleInstance));
    client.close(file).unwrap();
    assert_eq!(client.list(directory).unwrap(), ["e"]);
    let long = vec![b'a'; 262_144];
    let file = client.create("/ls/c/long", &long).unwrap();
    assert_eq!(client.read(file).unwrap().content, long);
}

// (each of these would end the connection, again and again, until the session is lost)
#[test]
fn what_no_server_takes_is_refused_at_once() {
    let cell = Cell::new("unsent");
    let client = cell.client("ann");
    let file = client.create("/ls/c/f", b"first").unwrap();
    let large = vec![b'a'; 1 << 20];
    let begun = Instant::now();
    for name in ["f", "/ls/c/F", "/ls/c/", "/ls/c/\u{e9}", "/ls/c/..", ""] {
        assert_eq!(refusal(client.open(name, Mode::READ)), Some(Refusal::BadName), "{name}");
    }
    assert_eq!(refusal(client.set_acl(file, &["a", "B", "c"].map(str::to_owned), None)), Some(Refusal::BadName));
    assert_eq!(refusal(client.create("/ls/c/g", &large)), Some(Refusal::TooLarge));
    assert_eq!(refusal(client.set(file, &large, None)), Some(Refusal::TooLarge));
    assert_eq!(refusal(client.check_sequencer(&large)), Some(Refusal::BadSequencer));
    assert!(begun.elapsed() < Duration::from_secs(2), "{:?}", begun.elapsed());
    assert_eq!(client.read(file).unwrap().content, b"first");
}

#[test]
fn refusals_are_told() {
    let cell = Cell::new("refusals");
    let (client, eve) = (cell.client("ann"), cell.client("eve"));
    let file = client.create("/ls/c/f", b"").unwrap();
    let read = client.open("/ls/c/f", Mode::READ).unwrap();
    let root = client.open("/ls/c", BOTH).unwrap();
    let rows = [
        (refusal(client.open("/ls/c/g", Mode::READ)), Refusal::NotFound),
        (refusal(client.create("/ls/c/f", b"")), Refusal::Exists),
        (refusal(client.create("/ls/c/g/h", b"")), Refusal::NotFound),
        (refusal(client.open("/ls/d/f", Mode::READ)), Refusal::OtherCell),
        (refusal(client.set(read, b"", None)), Refusal::Denied(Right::Write)),
        (refusal(client.list(file)), Refusal::WrongKind(Kind::File)),
        (refusal(client.set(root, b"", None)), Refusal::WrongKind(Kind::Directory)),
        (refusal(client.delete(root)), Refusal::NotEmpty),
        (refusal(client.set(file, &vec![0; 262_145], None)), Refusal::TooLarge),
        (refusal(client.release(file)), Refusal::NotHolder),
        (refusal(eve.read(file)), Refusal::BadHandle),
        (refusal(client.check_sequencer(b"a")), Refusal::BadSequencer),
        (refusal(eve.open("/ls/c/f", Mode::READ)), Refusal::Denied(Right::Read)),
    ];
    for (found, wanted) in rows {
        assert_eq!(found, Some(wanted));
    }
}

#[test]
fn a_read_is_served_until_another_writes() {
    let cell = Cell::new("served");
    let (client, other) = (cell.client("ann"), cell.client("bob"));
    let file = client.create("/ls/c/f", b"old").unwrap();
    assert!(!client.read(file).unwrap().is_served);
    let view = client.read(file).unwrap();
    assert!(view.is_served);
    assert_eq!(view.content, b"old");
    let mut room = Vec::new();
    assert!(client.read_into(file, &mut room).unwrap());
    assert_eq!(room, b"old");
    other.set(other.open("/ls/c/f", Mode::WRITE).unwrap(), b"new", None).unwrap();
    let view = client.read(file).unwrap();
    assert_eq!((view.content.as_slice(), view.is_served), (&b"new"[..], false));
    assert!(client.read(file).unwrap().is_served);
    client.poison(file).unwrap();
    assert_eq!(refusal(client.read(file)), Some(Refusal::Poisoned));
    client.close(file).unwrap();
    assert_eq!(refusal(client.read(file)), Some(Refusal::BadHandle));
}

// (each of four threads reads by a viewer of its own, while another client writes numbers that rise: what is read is never below the last
// one that was acknowledged before)
#[test]
fn viewers_show_no_content_behind_a_write() {
    let cell = Cell::new("viewers");
    let (reader, writer) = (cell.client("ann"), cell.client("ann"));
    let written = writer.create("/ls/c/f", &0u64.to_be_bytes()).unwrap();
    let read = reader.open("/ls/c/f", Mode::READ).unwrap();
    let acknowledged = AtomicU64::new(0);
    let counts = thread::scope(|scope| {
        let readers: Vec<_> = (0..4)
            .map(|_| {
                let (mut viewer, acknowledged) = (reader.handle_reader(), &acknowledged);
                scope.spawn(move || {
                    let mut count = 0u64;
                    loop {
                        let least = acknowledged.load(Ordering::SeqCst);
                        let shown = u64::from_be_bytes(viewer.read(read).unwrap().try_into().unwrap());
                        assert!(shown >= least, "{shown} where {least} is written");
                        count += 1;
                        if shown == 300 {
                            return count;
                        }
                    }
                })
            })
            .collect();
        for number in 1..=300u64 {
            writer.set(written, &number.to_be_bytes(), None).unwrap();
            acknowledged.store(number, Ordering::SeqCst);
        }
        readers.into_iter().map(|reader| reader.join().unwrap()).collect::<Vec<_>>()
    });
    assert!(counts.iter().sum::<u64>() > 1200, "{counts:?}");
    let mut viewer = reader.handle_reader();
    reader.close(read).unwrap();
    assert_eq!(refusal(viewer.read(read)), Some(Refusal::BadHandle));
    assert_eq!(refusal(viewer.read(written)), Some(Refusal::BadHandle));
}

// (what a viewer kept isn't shown any more, once the lease has ended without an answer)
#[test]
fn a_viewer_trusts_a_lease_no_longer_than_its_client() {
    let mut cell = Cell::new("viewer_lease");
    let client =
        Client::connect(&Options { patience: Duration::from_millis(100), ..Options::new(&cell.server.address.to_string(), "ann") })
            .unwrap();
    let file = client.create("/ls/c/f", b"hello").unwrap();
    let mut viewer = client.handle_reader();
    viewer.read(file).unwrap();
    assert_eq!(viewer.read(file).unwrap(), b"hello");
    cell.server.kill(Kill::Server).unwrap();
    assert_eq!(viewer.read(file).unwrap(), b"hello");
    let begun = Instant::now();
    while viewer.read(file).is_ok() {
        assert!(begun.elapsed() < Duration::from_secs(20));
        thread::sleep(Duration::from_millis(20));
    }
    assert_eq!(refusal(viewer.read(file)), Some(Refusal::InJeopardy));
}

#[test]
fn a_listing_is_served_until_a_node_comes_or_goes() {
    let cell = Cell::new("listed");
    let (client, other) = (cell.client("ann"), cell.client("bob"));
    let directory = make_directory(&client, "/ls/c/d");
    assert_eq!(client.list(directory).unwrap(), [""; 0]);
    assert!(client.read(directory).unwrap().is_served);
    let file = other.create("/ls/c/d/f", b"old").unwrap();
    let view = client.read(directory).unwrap();
    assert_eq!((view.children, view.is_served), (vec!["f".to_owned()], false));
    other.set(file, b"new", None).unwrap();
    assert!(client.read(directory).unwrap().is_served);
    assert_eq!(client.list(directory).unwrap(), ["f"]);
    other.delete(file).unwrap();
    assert_eq!(client.list(directory).unwrap(), [""; 0]);
    let view = client.read(directory).unwrap();
    assert_eq!((view.children, view.is_served), (vec![], true));
}

// How long whatever waits for a client that left waits at most; a session that isn't ended lasts 12 s after its last Beat that was
// answered.
const SOON: Duration = Duration::from_secs(2);

#[test]
fn a_client_that_is_dropped_lets_no_write_wait() {
    let cell = Cell::new("dropped");
    let other = cell.client("bob");
    let file = other.create("/ls/c/f", b"old").unwrap();
    let client = cell.client("ann");
    client.read(client.open("/ls/c/f", Mode::READ).unwrap()).unwrap();
    drop(client);
    let begun = Instant::now();
    other.set(file, b"new", None).unwrap();
    assert!(begun.elapsed() < SOON, "{:?}", begun.elapsed());
}

#[test]
fn what_one_who_leaves_has_is_free_at_once() {
    let cell = Cell::new("left");
    let (client, other) = (cell.client("ann"), cell.client("bob"));
    let create = Create { content: Some(Vec::new()), ..Create::default() };
    let opening = Opening { create: Some(create), lock_delay: 60_000, ..Opening::new("/ls/c/f", BOTH) };
    client.acquire(client.open_with(&opening).unwrap(), LockMode::Exclusive).unwrap();
    let wanted = other.open("/ls/c/f", Mode::WRITE).unwrap();
    std::thread::scope(|scope| {
        let waiting = scope.spawn(|| other.acquire(wanted, LockMode::Exclusive));
        std::thread::sleep(Duration::from_millis(300));
        assert!(!waiting.is_finished());
        let begun = Instant::now();
        client.leave().unwrap();
        waiting.join().unwrap().unwrap();
        assert!(begun.elapsed() < SOON, "{:?}", begun.elapsed());
    });
}

// (for 60 s after a start no ephemeral file goes)
#[test]
fn an_ephemeral_file_goes_with_one_who_leaves() {
    let cell = Cell::new("gone");
    let begun = Instant::now();
    let (client, other) = (cell.client("ann"), cell.client("bob"));
    let create = Create { content: Some(Vec::new()), life: Life::Ephemeral, ..Create::default() };
    client.open_with(&Opening { create: Some(create), ..Opening::new("/ls/c/f", BOTH) }).unwrap();
    let above = other.open("/ls/c", Mode::READ).unwrap();
    let is_there = || other.list(above).unwrap().contains(&"f".to_owned());
    assert!(is_there());
    std::thread::sleep(Duration::from_secs(61).saturating_sub(begun.elapsed()));
    client.leave().unwrap();
    let begun = Instant::now();
    while is_there() {
        assert!(begun.elapsed() < SOON, "{:?}", begun.elapsed());
    }
}

#[test]
fn one_that_is_killed_is_waited_for_until_its_time_is_up() {
    let cell = Cell::new("killed");
    let client = cell.client("ann");
    let file = client.create("/ls/c/f", b"old").unwrap();
    let mut other = Plain::begin(cell.server.place(), "bob").unwrap();
    let opened = other.open("/ls/c/f", b"").unwrap();
    assert_eq!(other.read(opened), Some(MasterAnswer::Reply(None)));
    drop(other);
    let begun = Instant::now();
    client.set(file, b"new", None).unwrap();
    assert!((6..13).contains(&begun.elapsed().as_secs()), "{:?}", begun.elapsed());
}

#[test]
fn one_that_no_master_answers_is_closed_all_the_same() {
    let mut cell = Cell::new("unheard");
    let client = cell.client("ann");
    let other = Client::connect(&Options { patience: Duration::from_millis(300), ..Options::new(&cell.server.address, "bob") }).unwrap();
    cell.server.kill(Kill::Server).unwrap();
    let begun = Instant::now();
    assert!(matches!(other.leave(), Err(Error::Unavailable)));
    assert!(begun.elapsed() < SOON, "{:?}", begun.elapsed());
    let begun = Instant::now();
    drop(client);
    assert!((2..4).contains(&begun.elapsed().as_secs()), "{:?}", begun.elapsed());
}

// (who caches a name and acknowledges nothing lets a change of it wait for a lease, 12 s)
#[test]
fn to_open_what_may_be_made_waits_for_nobody_where_it_is_there() {
    let cell = Cell::new("may-make");
    let client = cell.client("ann");
    client.create("/ls/c/f", b"kept").unwrap();
    let mut other = Plain::begin(cell.server.place(), "bob").unwrap();
    let opened = other.open("/ls/c/f", b"").unwrap();
    assert_eq!(other.read(opened), Some(MasterAnswer::Reply(None)));
    let create = Create { content: Some(Vec::new()), ..Create::default() };
    let opening = |name| Opening { create: Some(create.clone()), ..Opening::new(name, BOTH) };
    let begun = Instant::now();
    let file = client.open_with(&opening("/ls/c/f")).unwrap();
    assert!(begun.elapsed() < Duration::from_secs(6), "{:?}", begun.elapsed());
    assert_eq!(client.read(file).unwrap().content, b"kept");
    let made = client.open_with(&opening("/ls/c/g")).unwrap();
    assert_eq!(client.read(made).unwrap().content, b"");
    let begun = Instant::now();
    client.set(file, b"new", None).unwrap();
    assert!(begun.elapsed() > Duration::from_secs(6), "the other client cached it: {:?}", begun.elapsed());
}

#[test]
fn locks_and_sequencers() {
    let cell = Cell::new("locks");
    let (client, other) = (cell.client("ann"), cell.client("bob"));
    let held = client.create("/ls/c/l", b"").unwrap();
    let wanted = other.open("/ls/c/l", Mode::WRITE).unwrap();
    let lock = LockMode::Exclusive;
    client.acquire(held, lock).unwrap();
    assert_eq!(refusal(other.try_acquire(wanted, lock)), Some(Refusal::Held(lock)));
    let sequencer = client.sequencer(held).unwrap();
    other.check_sequencer(&sequencer).unwrap();
    let under = other.open("/ls/c/l", BOTH).unwrap();
    other.set_sequencer(under, &sequencer).unwrap();
    other.set(under, b"under the lock", None).unwrap();
    std::thread::scope(|scope| {
        let waiting = scope.spawn(|| other.acquire(wanted, lock));
        std::thread::sleep(Duration::from_millis(300));
        assert!(!waiting.is_finished());
        client.release(held).unwrap();
        waiting.join().unwrap().unwrap();
    });
    assert_eq!(refusal(client.check_sequencer(&sequencer)), Some(Refusal::SequencerStale));
    assert_eq!(refusal(other.set(under, b"too late", None)), Some(Refusal::SequencerStale));
    other.release(wanted).unwrap();
    client.try_acquire(held, LockMode::Shared).unwrap();
    other.try_acquire(wanted, LockMode::Shared).unwrap();
}

#[test]
fn names_of_acls() {
    let cell = Cell::new("acls");
    let (client, eve) = (cell.client("ann"), cell.client("eve"));
    let for_eve = client.create("/ls/c/acl/eve", b"eve\n").unwrap();
    client.create("/ls/c/f", b"hers").unwrap();
    let file = client.open("/ls/c/f", Mode::CHANGE).unwrap();
    let names = ["eve", "base", "base"].map(str::to_owned);
    client.set_acl(file, &names, Some(1)).unwrap();
    assert_eq!(refusal(client.set_acl(file, &names, Some(1))), Some(Refusal::WrongGeneration(2)));
    assert_eq!(eve.read(eve.open("/ls/c/f", Mode::READ).unwrap()).unwrap().content, b"hers");
    assert_eq!(refusal(client.open("/ls/c/f", Mode::READ)), Some(Refusal::Denied(Right::Read)));
    client.close(for_eve).unwrap();
}

#[test]
fn events_are_told() {
    let cell = Cell::new("events");
    let (client, other) = (cell.client("ann"), cell.client("bob"));
    let root = client.watch("/ls/c", Events::CHILDREN).unwrap();
    let create = Create { must: true, content: Some(Vec::new()), life: Life::Ephemeral, acl: None };
    let file = other.open_with(&Opening { create: Some(create), ..Opening::new("/ls/c/f", BOTH) }).unwrap();
    let watch = client.watch("/ls/c/f", Events::CONTENTS.and(Events::LOCK)).unwrap();
    let instance = client.stat(watch.handle).unwrap().instance;
    other.set(file, b"new", None).unwrap();
    other.acquire(file, LockMode::Exclusive).unwrap();
    other.delete(file).unwrap();
    let wait = |events: &std::sync::mpsc::Receiver<Event>| events.recv_timeout(Duration::from_secs(20)).unwrap();
    for wanted in [Event::Contents { instance, generation: 2 }, Event::Locked, Event::Invalid] {
        assert_eq!(wait(&watch.events), wanted);
    }
    let name = || "/ls/c/f".to_owned();
    for wanted in [Event::ChildAdded(name()), Event::ChildModified(name()), Event::ChildRemoved(name())] {
        assert_eq!(wait(&root.events), wanted);
    }
    client.close(watch.handle).unwrap();
    assert!(watch.events.recv().is_err());
}
