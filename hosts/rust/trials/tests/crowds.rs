//! What many clients do at the same moment, over a stock etcd of three members and a network that has a rate and takes its time: no master
//! goes, and nothing is refused. They want etcd (Debian: etcd-server).

use std::sync::Barrier;
use std::thread;
use std::time::{Duration, Instant};
use tillermoss::{Client, Error, LockMode, Mode, Options};
use trials::{Etcd, Kill, Network, Server};

/// 40 ms there and back, and 200 Mbit/s.
const NETWORK: Network = Network { one_way: Duration::from_millis(20), rate: Some(25_000_000) };

/// How long a call is tried again.
const PATIENCE: Duration = Duration::from_secs(120);

/// The largest file.
const LARGE: usize = 262_144;

/// How many locks one client takes: with the rows that go with them its end is one transaction, of which a stock etcd takes 128 operations.
const LOCKS: usize = 100;

/// Clients of which each does something, all at the same moment.
struct Crowd {
    what: &'static str,
    clients: usize,
    // What each does before that moment, and at it. A client has its place among them.
    before: fn(&Client, usize) -> Result<(), Error>,
    at_once: fn(Client, usize) -> Result<(), Error>,
}

const CROWDS: &[Crowd] = &[
    Crowd {
        what: "each creates a file",
        clients: 200,
        before: |_, _| Ok(()),
        at_once: |client, place| client.create(&format!("/ls/c/made{place}"), b"small").map(drop),
    },
    Crowd {
        what: "each sets a file of its own",
        clients: 180,
        before: |client, place| client.create(&format!("/ls/c/own{place}"), b"").map(drop),
        at_once: |client, place| client.set(client.open(&format!("/ls/c/own{place}"), Mode::WRITE)?, b"set", None),
    },
    Crowd {
        what: "all set one file",
        clients: 180,
        before: |client, place| if place == 0 { client.create("/ls/c/shared", b"").map(drop) } else { Ok(()) },
        at_once: |client, place| client.set(client.open("/ls/c/shared", Mode::WRITE)?, place.to_string().as_bytes(), None),
    },
    Crowd {
        what: "each creates a file of 256 KiB",
        clients: 40,
        before: |_, _| Ok(()),
        at_once: |client, place| client.create(&format!("/ls/c/large{place}"), &[0xff; LARGE]).map(drop),
    },
    Crowd {
        what: "one that holds 100 locks goes",
        clients: 1,
        before: |client, _| take_locks(client, LOCKS),
        at_once: |client, _| client.leave(),
    },
    Crowd { what: "each goes", clients: 100, before: |client, _| take_locks(client, 1), at_once: |client, _| client.leave() },
];

fn take_locks(client: &Client, count: usize) -> Result<(), Error> {
    (0..count).try_for_each(|number| {
        let file = client.create(&format!("/ls/c/lock{}-{number}", client.number()), b"")?;
        client.acquire(file, LockMode::Exclusive)
    })
}

fn connect(server: &Server) -> Client {
    Client::connect(&Options { patience: PATIENCE, ..Options::new(&server.address, "ann") }).unwrap()
}

// The epochs of the masters that came up, as the server told them.
fn epochs(server: &Server) -> usize {
    server.logged().lines().filter(|line| line.contains("a master is up")).count()
}

// How long it takes until all are done, from the moment at which they begin.
fn run(server: &Server, crowd: &Crowd) -> Duration {
    let clients: Vec<Client> = thread::scope(|scope| {
        let connecting: Vec<_> = (0..crowd.clients).map(|_| scope.spawn(|| connect(server))).collect();
        connecting.into_iter().map(|connecting| connecting.join().unwrap()).collect()
    });
    clients.iter().enumerate().for_each(|(place, client)| (crowd.before)(client, place).unwrap());
    let together = Barrier::new(clients.len() + 1);
    let (begun, done): (_, Vec<_>) = thread::scope(|scope| {
        let act = |(place, client): (usize, Client)| {
            together.wait();
            (crowd.at_once)(client, place)
        };
        let acting: Vec<_> = clients.into_iter().enumerate().map(|acting| scope.spawn(move || act(acting))).collect();
        together.wait();
        (Instant::now(), acting.into_iter().map(|acting| acting.join().unwrap()).collect())
    });
    let spent = begun.elapsed();
    let refused: Vec<_> = done.iter().filter_map(|done| done.as_ref().err()).collect();
    println!(
        "crowds: {} clients, {}: done within {spent:?}, {} refused, {} masters",
        crowd.clients,
        crowd.what,
        refused.len(),
        epochs(server)
    );
    assert!(refused.is_empty(), "{}: {:?}: {}", crowd.what, refused.first(), server.logged());
    assert_eq!(epochs(server), 1, "{}: {}", crowd.what, server.logged());
    spent
}

#[test]
fn crowds_are_served_by_one_master() {
    let etcd = Etcd::of_three(NETWORK).unwrap();
    let server = etcd.server_of_all("server").start().unwrap();
    for crowd in CROWDS {
        run(&server, crowd);
    }
    assert!(!server.logged().contains("etcd refuses a commit"), "{}", server.logged());
}

// All rows go over that network when a master comes up: of so many large files for longer than an answer of etcd may take.
#[test]
fn a_large_cell_comes_up_over_a_slow_network() {
    const FILES: usize = 260;
    let etcd = Etcd::of_three(NETWORK).unwrap();
    let mut server = etcd.server_of_all("server").start().unwrap();
    let writer = connect(&server);
    for place in 0..FILES {
        let made = writer.create(&format!("/ls/c/large{place}"), &[0xff; LARGE]);
        let file = made.unwrap_or_else(|fault| panic!("{fault:?}: {}", server.logged()));
        writer.close(file).unwrap();
    }
    assert_eq!(epochs(&server), 1, "{}", server.logged());
    writer.leave().unwrap();
    server.kill(Kill::InOrder).unwrap();
    let begun = Instant::now();
    let next = etcd.server_of_all("next").start().unwrap();
    let reader = connect(&next);
    let view = reader.read(reader.open(&format!("/ls/c/large{}", FILES - 1), Mode::READ).unwrap()).unwrap();
    println!("crowds: a cell of {FILES} files of 256 KiB answered {:?} after its server was started", begun.elapsed());
    assert_eq!(view.content, [0xff; LARGE]);
    assert_eq!(epochs(&next), 1, "{}", next.logged());
}
