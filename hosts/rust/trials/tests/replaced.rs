//! A server that was replaced while it was stopped, and one that doesn't know a client: neither ends a session of its successor.

use host_wire::{Blocks, GREETING_LIMIT, TurnedAway, Welcome, write_block};
use nix::sys::signal::Signal;
use std::net::{SocketAddr, TcpListener, TcpStream};
use std::path::Path;
use std::thread;
use std::time::{Duration, Instant};
use tillermoss::{Client, Error, Options, Refusal};
use trials::{Etcd, Kill, Member, Passing, Plain, Relay, Server, Start, again, folder, free, new};

/// How many clients come to a server as it goes on.
const CLIENTS: usize = 8;

fn server(folder: &Path, name: &str, rows: &str) -> Start {
    Start::new(&folder.join(name)).with(&[&format!("tcp:{}", free())]).rows(rows)
}

// Two servers of one cell: the first was stopped until the second became master, which gave this client its number.
fn replaced(folder: &Path, member: &Member) -> (Server, Server, Welcome) {
    member.make("c").unwrap();
    let first = server(folder, "first", &member.rows("c")).start().unwrap();
    let second = server(folder, "second", &member.rows("c")).stand_by().unwrap();
    first.signal(Signal::SIGSTOP).unwrap();
    let begun = Instant::now();
    loop {
        // (while it becomes master nobody is let in)
        match Plain::greet(second.place(), &new("ann")) {
            Ok((_, Ok(welcome))) => return (first, second, welcome),
            told => assert!(begun.elapsed() < Duration::from_secs(60), "{told:?}: {}", second.logged()),
        }
        thread::sleep(Duration::from_millis(200));
    }
}

#[test]
fn a_replaced_server_denies_nobody() {
    let folder = folder("replaced");
    let member = Member::start(&folder).unwrap();
    let (first, second, welcome) = replaced(&folder, &member);
    let hellos = [again("ann", welcome), new("ann")];
    let told: Vec<_> = thread::scope(|scope| {
        let greet = |number: usize| {
            let (place, hello) = (first.place(), &hellos[number % 2]);
            // (one that is cut off is told nothing)
            scope.spawn(move || Plain::greet(place, hello).map_or(Err(TurnedAway::NotMaster), |(_, told)| told))
        };
        let greeting: Vec<_> = (0..CLIENTS).map(greet).collect();
        thread::sleep(Duration::from_millis(500));
        first.signal(Signal::SIGCONT).unwrap();
        greeting.into_iter().map(|told| told.join().unwrap()).collect()
    });
    println!("replaced: what a server that was replaced says to clients of its successor: {told:?}");
    assert_eq!(told, [Err(TurnedAway::NotMaster); CLIENTS]);
    assert_eq!(Plain::greet(second.place(), &hellos[0]).unwrap().1, Ok(welcome));
    drop((first, second, member));
    std::fs::remove_dir_all(folder).unwrap();
}

// It knows the second server alone, which sends it to the first until it is master itself: that one is stopped, and answers nothing.
#[test]
fn a_new_client_waits_for_the_next_master() {
    let folder = folder("sent-to-one-that-is-stopped");
    let member = Member::start(&folder).unwrap();
    member.make("c").unwrap();
    let first = server(&folder, "first", &member.rows("c")).with(&["--mastership", "15"]).start().unwrap();
    let second = server(&folder, "second", &member.rows("c")).stand_by().unwrap();
    first.signal(Signal::SIGSTOP).unwrap();
    let client = Client::connect(&Options::new(&second.address, "ann")).unwrap();
    client.create("/ls/c/f", b"").unwrap();
    drop((client, first, second, member));
    std::fs::remove_dir_all(folder).unwrap();
}

// Where the master is, as a server says to a new client.
fn told_master(place: &str) -> Option<String> {
    let mut stream = TcpStream::connect(place).ok()?;
    write_block(&mut stream, &new("ann").write()).ok()?;
    Welcome::master(&Blocks::new(GREETING_LIMIT).next(&mut stream).ok()??)
}

// It knows the first server alone, which is cut off from etcd until its mastership is over: that one can't look who is master now, and
// tells of the one that was master before.
#[test]
fn a_server_that_is_cut_off_tells_of_another() {
    let etcd = Etcd::with_cell(&[]).unwrap();
    let relay = Relay::start(etcd.address).unwrap();
    let starts = [etcd.server("first", relay.address()), etcd.server("second", etcd.address)];
    let mut second = starts[1].start().unwrap();
    let first = starts[0].stand_by().unwrap();
    // (it tells of one that it has seen)
    let begun = Instant::now();
    while told_master(first.place()).as_deref() != Some(&second.address) {
        assert!(begun.elapsed() < Duration::from_secs(20), "{}", first.logged());
        thread::sleep(Duration::from_millis(20));
    }
    assert!(second.kill(Kill::InOrder).unwrap().success() && first.has_logged("a master is up"), "{}", first.logged());
    let client = Client::connect(&Options::new(&first.address, "ann")).unwrap();
    let file = client.create("/ls/c/f", b"").unwrap();
    let second = starts[1].stand_by().unwrap();
    relay.set(Passing::Nothing);
    assert!(first.has_logged("standing by again"), "{}", first.logged());
    let begun = Instant::now();
    set(&client, file, b"found").unwrap_or_else(|fault| panic!("{fault:?}: {}; the other: {}", first.logged(), second.logged()));
    println!("replaced: a client of a server that is cut off from etcd had written {} ms after that", begun.elapsed().as_millis());
    assert!(!client.is_lost() && begun.elapsed() < Duration::from_secs(40), "{}", second.logged());
    relay.set(Passing::All);
}

// A server that tells whoever comes that it doesn't know him.
fn denier() -> SocketAddr {
    let listener = TcpListener::bind("127.0.0.1:0").unwrap();
    let address = listener.local_addr().unwrap();
    thread::spawn(move || {
        for mut stream in listener.incoming().flatten() {
            // (who goes before that is told nothing)
            if Blocks::new(GREETING_LIMIT).next(&mut stream).is_ok_and(|hello| hello.is_some()) {
                let _ = write_block(&mut stream, &Welcome::write(&Err(TurnedAway::WrongToken)));
            }
        }
    });
    address
}

fn set(client: &Client, file: tillermoss::Handle, content: &[u8]) -> Result<(), Error> {
    loop {
        match client.set(file, content, None) {
            Err(Error::Refused(Refusal::Unknown)) => {}
            done => return done,
        }
    }
}

#[test]
fn one_of_several_servers_ends_no_session() {
    let folder = folder("denied");
    let start = Start::new(&folder.join("store.db"));
    let mut server = start.start().unwrap();
    let address = server.address.clone();
    let client = Client::connect(&Options::new(&format!("{address},tcp:{}", denier()), "ann")).unwrap();
    let file = client.create("/ls/c/f", b"").unwrap();
    server.kill(Kill::Server).unwrap();
    // (it goes to the other one now, again and again)
    thread::sleep(Duration::from_secs(2));
    let mut server = start.clone().with(&[&address]).start().unwrap();
    set(&client, file, b"known").unwrap();
    assert_eq!(client.read(file).unwrap().content, b"known");
    // (a new cell, whose server doesn't know the client either)
    server.kill(Kill::Server).unwrap();
    let _other = Start::new(&folder.join("other.db")).with(&[&address]).start().unwrap();
    let told = set(&client, file, b"lost");
    assert!(matches!(told, Err(Error::TurnedAway(TurnedAway::WrongToken))), "{told:?}");
    drop(client);
    std::fs::remove_dir_all(folder).unwrap();
}
