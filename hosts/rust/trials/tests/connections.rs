//! To whom the server binds a connection, and what ends it: by bytes, without the client library.

use host_wire::{Hello, MasterAnswer, TurnedAway, Welcome};
use std::fs;
use std::path::Path;
use tillermoss::{Client, Mode, Options, Refusal};
use trials::{Kill, Master, Plain, Server, Start, again, answer, certificates, client_of, expired, folder, messages, new, start};

fn greeted(server: &Server, hello: &Hello) -> (Plain, Result<Welcome, TurnedAway>) {
    Plain::greet(server.place(), hello).unwrap()
}

fn server(test: &str) -> (Server, std::path::PathBuf) {
    let folder = folder(test);
    (Server::start(&folder.join("store.db")).unwrap(), folder)
}

#[test]
fn each_client_gets_a_number_of_its_own() {
    let (mut server, folder) = server("numbers");
    let mut numbers = Vec::new();
    for kill in [Kill::Server, Kill::InOrder, Kill::Server] {
        numbers.extend((0..3).map(|_| greeted(&server, &new("ann")).1.unwrap().client));
        server.kill(kill).unwrap();
        server = Server::start(&folder.join("store.db")).unwrap();
    }
    assert_eq!(numbers, [1, 2, 3, 101, 102, 103, 201, 202, 203]);
    std::fs::remove_dir_all(folder).unwrap();
}

#[test]
fn a_number_is_taken_up_again_with_its_token() {
    let (mut server, folder) = server("tokens");
    let welcome = greeted(&server, &new("ann")).1.unwrap();
    let wrong = Err(TurnedAway::WrongToken);
    let rows = [
        (again("ann", welcome), Ok(welcome)),
        (again("bob", welcome), wrong),
        (again("ann", Welcome { token: welcome.token ^ 1, ..welcome }), wrong),
        (again("ann", Welcome { client: welcome.client + 1, ..welcome }), wrong),
        (new("Ann"), Err(TurnedAway::BadPrincipal)),
    ];
    for kill in [Kill::Server, Kill::InOrder] {
        for (hello, wanted) in &rows {
            assert_eq!(greeted(&server, hello).1, *wanted, "{hello:?}");
        }
        server.kill(kill).unwrap();
        server = Server::start(&folder.join("store.db")).unwrap();
    }
    std::fs::remove_dir_all(folder).unwrap();
}

// A Set is done, and its reply is lost. Another client shrinks the file, and fills the room. The same bytes come again: they are answered
// as they were, whichever limit leaves no room for them now; a new call is refused by that.
#[test]
fn what_was_done_is_told_again_in_a_full_cell() {
    // (acl/base has 8 bytes)
    let rows = [("bytes = 28", Refusal::NoRoom(28).number()), ("bytes_of_a_principal = 20", Refusal::StoreRefused.number())];
    for (limit, refusal) in rows {
        let folder = folder("full");
        let server = Start::new(&folder.join("store.db")).settings(&format!("[limits]\n{limit}\n")).start().unwrap();
        let mut writer = Plain::begin(server.place(), "ann").unwrap();
        let file = writer.open("/ls/c/f", b"").unwrap();
        let set = writer.set_call(file, &[b'a'; 10]).unwrap();
        assert_eq!(writer.lose(&set), Some(MasterAnswer::Reply(None)), "{limit}");
        let other = Client::connect(&Options::new(&server.address, "ann")).unwrap();
        other.set(other.open("/ls/c/f", Mode::WRITE).unwrap(), b"", None).unwrap();
        other.create("/ls/c/g", &[b'b'; 20]).unwrap();
        assert!(other.create("/ls/c/h", b"c").is_err(), "{limit}");
        assert_eq!(writer.ask(Some(set)), Some(MasterAnswer::Reply(None)), "{limit}");
        let next = writer.set_call(file, &[b'a'; 10]);
        assert_eq!(writer.ask(next), Some(MasterAnswer::Reply(Some(refusal))), "{limit}");
        let present = other.read(other.open("/ls/c/f", Mode::READ).unwrap()).unwrap();
        assert_eq!((present.content.len(), present.stat.content_generation), (0, 3), "{limit}");
        fs::remove_dir_all(folder).unwrap();
    }
}

#[test]
fn a_connection_carries_its_own_client_alone() {
    let (server, folder) = server("bound");
    let (mut connection, welcome) = greeted(&server, &new("ann"));
    let client = welcome.unwrap().client;
    connection.send(&start(client, "ann")).unwrap();
    let started = connection.next_block().unwrap();
    assert!(matches!(host_wire::Said::read(&started).unwrap().answer, MasterAnswer::Started(_)));
    // (28: a Beat of no epoch)
    let beat = client_of(&mut Master::of_epoch(9).unwrap(), client, "ann").unwrap().beat(0).unwrap();
    connection.send(&beat).unwrap();
    assert_eq!(answer(&mut connection), Some(MasterAnswer::Refused(28)));

    let mut master = Master::start().unwrap();
    let [_, own, _] = messages(&mut master, client, "ann").unwrap();
    let [other_start, other_beat, other_call] = messages(&mut master, client + 1, "ann").unwrap();
    let own_start = start(client, "ann");
    let others = [
        other_start,
        start(client, "bob"),
        other_beat,
        other_call,
        // (what a master says)
        started,
        own_start[..own_start.len() - 1].to_vec(),
        own[..own.len() - 1].to_vec(),
        own[..2].to_vec(),
        [&own[..], b"a"].concat(),
        [&[1], &own[1..]].concat(),
        Vec::new(),
    ];
    for other in others {
        let (mut connection, welcome) = greeted(&server, &again("ann", welcome.unwrap()));
        assert!(welcome.is_ok());
        connection.send(&other).unwrap();
        assert_eq!(connection.next_block(), None, "{other:?}");
    }
    std::fs::remove_dir_all(folder).unwrap();
}

#[test]
fn a_later_connection_ends_an_earlier_one() {
    let (server, folder) = server("later");
    let (mut earlier, welcome) = greeted(&server, &new("ann"));
    let (mut later, _) = greeted(&server, &again("ann", welcome.unwrap()));
    assert_eq!(earlier.next_block(), None);
    later.send(&start(welcome.unwrap().client, "ann")).unwrap();
    assert!(matches!(answer(&mut later), Some(MasterAnswer::Started(_))));
    std::fs::remove_dir_all(folder).unwrap();
}

#[test]
fn other_first_blocks_are_turned_away() {
    let (server, folder) = server("first");
    for block in [&b"GET / HTTP/1.1"[..], b"", &[1; 200]] {
        let mut connection = Plain::new(server.place(), block).unwrap();
        assert_eq!(connection.next_block(), Some(Welcome::write(&Err(TurnedAway::NotUnderstood))), "{block:?}");
        assert_eq!(connection.next_block(), None);
    }
    assert_eq!(Plain::new(server.place(), &[1; 257]).unwrap().next_block(), None);
    std::fs::remove_dir_all(folder).unwrap();
}

#[test]
fn a_store_is_served_by_one_server() {
    let (mut server, folder) = server("one");
    let store: &Path = &folder.join("store.db");
    assert!(Server::start(store).is_err());
    assert!(server.kill(Kill::InOrder).unwrap().success());
    assert!(Server::start(store).is_ok());
    std::fs::remove_dir_all(folder).unwrap();
}

// Those that stood beside the store when the server before this one served: numbers that were given since would be given again.
#[test]
fn numbers_of_the_start_before_are_refused() {
    let (mut server, folder) = server("rolled-back");
    let (store, numbers) = (folder.join("store.db"), folder.join("store.db-numbers"));
    for (first, next) in [(Kill::InOrder, Kill::InOrder), (Kill::Server, Kill::InOrder), (Kill::InOrder, Kill::Server)] {
        let served = std::fs::read(&numbers).unwrap();
        server.kill(first).unwrap();
        let left = std::fs::read(&numbers).unwrap();
        server = Server::start(&store).unwrap();
        greeted(&server, &new("ann")).1.unwrap();
        server.kill(next).unwrap();
        let present = std::fs::read(&numbers).unwrap();
        for old in [served, left] {
            std::fs::write(&numbers, &old).unwrap();
            let error = Server::start(&store).map_or_else(|error| error.to_string(), |_| "started".to_owned());
            assert!(error.contains("they are an older copy"), "{first:?} {next:?}: {error}");
            assert_eq!(std::fs::read(&numbers).unwrap(), old);
        }
        std::fs::write(&numbers, present).unwrap();
        server = Server::start(&store).unwrap();
    }
    // (a master that the server has replaced leaves its numbers right)
    server.kill_master().unwrap();
    assert!(server.has_logged("another takes its place"));
    greeted(&server, &new("ann")).1.unwrap();
    server.kill(Kill::Server).unwrap();
    assert!(Server::start(&store).is_ok());
    std::fs::remove_dir_all(folder).unwrap();
}

// Whom a client shows at this address, and by which authority it knows the server.
fn shows(address: &str, own: &Path, name: &str, authority: &Path) -> Options {
    let file = |folder: &Path, name: String| Some(folder.join(name));
    let (certificate, key) = (file(own, format!("{name}.pem")), file(own, format!("{name}.key")));
    Options { certificate, key, authority: file(authority, "ca.pem".to_owned()), ..Options::new(address, "ann") }
}

#[test]
fn each_fault_of_tls_is_named_at_both_ends() {
    let folder = folder("tls-faults");
    let (own, other) = (certificates(&folder, &["ann"]), certificates(&folder.join("other"), &["ann"]));
    expired(&own, "ann").unwrap();
    let server = Start::new(&folder.join("store.db")).with(&["tcp:0"]).tls(&own).settings("principals = [\"ann\"]\n").start().unwrap();
    let port = |at: usize| server.addresses[at].rsplit_once(':').unwrap().1.to_owned();
    let (plain, tls) = (port(0), port(1));
    let by_tls = |port: &str| format!("tls:localhost:{port}");
    let rows = [
        (shows(&by_tls(&tls), &own, "ann", &own), "", ""),
        (shows(&by_tls(&tls), &own, "expired", &own), "what this one shows: certificate expired", "isn't taken: certificate has expired"),
        (shows(&by_tls(&tls), &other, "ann", &own), "what this one shows: unknown ca", "isn't taken: no authority that is trusted here"),
        (shows(&by_tls(&tls), &own, "ann", &other), "isn't taken: no authority that is trusted here", "what this one shows: unknown ca"),
        (Options::new(&format!("tcp:127.0.0.1:{tls}"), "ann"), "it gave no greeting", "the other end speaks no TLS"),
        (shows(&by_tls(&plain), &own, "ann", &own), "does it speak TLS?", "a block that is too long"),
    ];
    for (options, wanted, logged) in rows {
        let begun = server.logged().len();
        let told = Client::connect(&options).err().map_or(String::new(), |error| error.to_string());
        assert!(told.contains(wanted) && told.is_empty() == wanted.is_empty(), "{wanted}: {told}");
        assert!(server.has_logged(logged), "{logged}");
        let lines: Vec<String> = server.logged()[begun..].lines().map(str::to_owned).collect();
        let is_named = |line: &String| line.contains(logged) && line.contains("peer=\"127.0.0.1:");
        assert!(wanted.is_empty() || (lines.len() == 1 && is_named(&lines[0])), "{logged}: {lines:?}");
    }
    fs::copy(other.join("server.key"), own.join("server.key")).unwrap();
    let told = Start::new(&folder.join("next.db")).tls(&own).start().unwrap_err().to_string();
    assert!(told.contains("server.key isn't that of the certificate of"), "{told}");
    drop(server);
    fs::remove_dir_all(folder).unwrap();
}

// What a client of version 0.2.0 says to a new cell, and how the answers begin that it understands, in hexadecimal. A server that is one
// version newer or older goes by the same bytes: who changes them gives the next version both forms.
const OF_A_NEIGHBOUR: [(&str, &str); 3] = [
    ("01 00 00000003 616e6e", "01 00 0000000000000001"),
    ("02 00 0000000000000001 0000000000000001 00000003 616e6e", "02 00 0000000000000001 0000000000000001 0000000000000001"),
    (
        "02 02 0000000000000001 0000000000000001 0000000000000001 00 00000007 2f6c732f632f66 03 01 00 00 00000002 6869 00 00 \
         0000000000000000 00 00",
        "02 02 0000000000000001 0000000000000001 0000000000000001",
    ),
];

fn bytes(text: &str) -> Vec<u8> {
    let digits: Vec<u8> = text.bytes().filter(u8::is_ascii_hexdigit).collect();
    digits.chunks(2).map(|pair| u8::from_str_radix(std::str::from_utf8(pair).unwrap(), 16).unwrap()).collect()
}

#[test]
fn a_client_of_the_version_before_is_served() {
    let (server, folder) = server("versions");
    let mut connection = Plain::connect(server.place()).unwrap();
    for (said, wanted) in OF_A_NEIGHBOUR {
        connection.send(&bytes(said)).unwrap();
        let told = connection.next_block().unwrap();
        assert!(told.starts_with(&bytes(wanted)), "{said}: {told:?}");
    }
    // (one that greets by another version is told so)
    let mut other = Plain::new(server.place(), &bytes("02 00 00000003 616e6e")).unwrap();
    let told = Welcome::read(&other.next_block().unwrap());
    assert!(matches!(told, Ok(Err(TurnedAway::NotUnderstood))), "{told:?}");
    drop((connection, other, server));
    fs::remove_dir_all(folder).unwrap();
}
