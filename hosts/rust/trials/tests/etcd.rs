//! A cell whose rows stand in an etcd of one member, and a network that holds a transaction back. They want etcd (Debian: etcd-server).

use nix::sys::signal::Signal;
use serde_json::{Value, json};
use std::fs;
use std::os::unix::fs::PermissionsExt;
use std::process::Command;
use std::sync::Barrier;
use std::sync::atomic::{AtomicBool, Ordering};
use std::thread;
use std::time::{Duration, Instant};
use tillermoss::{Client, Create, Handle, LockMode, Mode, Opening, Options, Refusal};
use trials::{Etcd, Going, Holder, Kill, Passing, Plain, Relay, Server, fail_over_to_one_that_stands_by, free, new, program, rows};

/// A mastership that outlasts whatever is held back here.
const LONG: [&str; 2] = ["--mastership", "60"];

const BOTH: Mode = Mode::READ.and(Mode::WRITE);

/// How long a call is tried again.
const PATIENCE: Duration = Duration::from_secs(120);

/// How long a master takes to come up, and asks etcd for its epoch.
const COMING_UP: Duration = Duration::from_secs(2);

fn client(server: &Server, principal: &str) -> Client {
    Client::connect(&Options { patience: PATIENCE, ..Options::new(&server.address, principal) }).unwrap()
}

// The epochs of the masters that came up, as the server told them.
fn epochs(server: &Server) -> Vec<u64> {
    let logged = server.logged();
    let told = logged.lines().filter(|line| line.contains("a master is up"));
    told.filter_map(|line| line.split("epoch=").nth(1)?.split_whitespace().next()?.parse().ok()).collect()
}

// Waits until so many masters came up.
fn wait_for_masters(server: &Server, count: usize) {
    let begun = Instant::now();
    while epochs(server).len() < count {
        assert!(begun.elapsed() < PATIENCE, "{:?}: {}", epochs(server), server.logged());
        thread::sleep(Duration::from_millis(20));
    }
}

// A master's commit is held back until the server has replaced it, under the same mastership, and is done then. (A master of the same
// epoch as one before has clients believe that nothing has changed.)
#[test]
fn a_commit_of_a_replaced_master_is_not_taken_for_the_next_ones() {
    let etcd = Etcd::with_cell(&[]).unwrap();
    let holder = Holder::start(etcd.address, "c/meta").unwrap();
    let server = etcd.server("server", holder.address()).with(&LONG).start().unwrap();
    let (reader, writer) = (client(&server, "ann"), client(&server, "bob"));
    writer.create("/ls/c/f", b"old").unwrap();
    let seen = reader.open("/ls/c/f", Mode::READ).unwrap();
    assert_eq!(reader.read(seen).unwrap().content, b"old");
    let file = writer.open("/ls/c/f", BOTH).unwrap();
    holder.hold();
    let served = thread::scope(|scope| {
        let writing = scope.spawn(|| writer.set(file, b"new", None));
        assert!(holder.has_held(1) && server.has_logged("the master is gone; another takes its place"), "{}", server.logged());
        thread::sleep(COMING_UP);
        let done = holder.let_through().unwrap();
        println!("the commit that was held back was done late: {done}");
        wait_for_masters(&server, 2);
        // (what the reader has is as the second master knows it)
        let served = reader.read(seen).unwrap().content;
        server.kill_master().unwrap();
        wait_for_masters(&server, 3);
        println!("written: {:?}", writing.join().unwrap());
        served
    });
    let (told, fresh) = (epochs(&server), client(&server, "ann"));
    let cached = reader.read(seen).unwrap();
    let present = fresh.read(fresh.open("/ls/c/f", Mode::READ).unwrap()).unwrap().content;
    println!("etcd: epochs {told:?}; read under the second master {served:?}, then {cached:?}; it is {present:?}");
    assert!(told.windows(2).all(|pair| pair[0] < pair[1]), "{told:?}");
    assert_eq!(cached.content, present);
}

// The number that a new client of this principal gets.
fn number(server: &Server, principal: &str) -> Option<u64> {
    let (_, welcome) = Plain::greet(server.place(), &new(principal)).unwrap();
    welcome.ok().map(|welcome| welcome.client)
}

// What a server has written of the numbers that it gives is held back, and is done after others were given, and written.
#[test]
fn a_number_is_given_once() {
    let etcd = Etcd::with_cell(&[]).unwrap();
    let holder = Holder::start(etcd.address, "c/numbers").unwrap();
    let start = etcd.server("server", holder.address()).with(&LONG);
    let mut server = start.start().unwrap();
    holder.hold_one();
    assert_eq!(number(&server, "ann"), None, "a number was given that wasn't written");
    let mut given: Vec<u64> = (0..450).filter_map(|_| number(&server, "ann")).collect();
    let before = etcd.get("c/numbers").unwrap();
    let done = holder.let_through().unwrap();
    println!("numbers: the write that was held back was done late: {done}; before: {before:?}, then: {:?}", etcd.get("c/numbers").unwrap());
    assert!(server.kill(Kill::InOrder).unwrap().success());
    let server = start.start().unwrap();
    let last = number(&server, "bob").unwrap();
    println!("numbers: {} were given to ann, the last {:?}; bob got {last} from the next server", given.len(), given.last());
    assert!(!given.contains(&last));
    given.push(last);
    let all = given.len();
    given.sort_unstable();
    given.dedup();
    assert_eq!((given.len(), all), (451, 451));
}

// Writes until a moment, again and again; when each was done.
fn write_until(client: &Client, name: &str, until: Instant) -> Vec<Instant> {
    let file = client.create(name, b"").unwrap();
    let mut done = Vec::new();
    while Instant::now() < until {
        if client.set(file, b"written", None).is_ok() {
            done.push(Instant::now());
        }
    }
    done
}

#[test]
fn writes_go_on_soon_after_etcd_is_back() {
    const AWAY: Duration = Duration::from_secs(20);
    let etcd = Etcd::with_cell(&[]).unwrap();
    let server = etcd.server("server", etcd.address).start().unwrap();
    let writer = client(&server, "ann");
    let begun = Instant::now();
    thread::sleep(Duration::from_secs(1));
    let (back, done) = thread::scope(|scope| {
        let writing = scope.spawn(|| write_until(&writer, "/ls/c/f", begun + AWAY + Duration::from_secs(14)));
        thread::sleep(Duration::from_secs(2));
        etcd.signal(Signal::SIGSTOP).unwrap();
        thread::sleep(AWAY);
        etcd.signal(Signal::SIGCONT).unwrap();
        (Instant::now(), writing.join().unwrap())
    });
    let after = done.iter().find(|at| **at > back).map(|at| *at - back);
    println!("etcd: away for {AWAY:?}; the first write after its return was done within {after:?}");
    assert!(after.is_some_and(|after| after < Duration::from_secs(2)), "{}", server.logged());
    assert!(!writer.is_lost());
}

// Everybody's change comes at the same time: what is done together is more than one transaction of a stock etcd takes, in operations and
// in bytes.
#[test]
fn what_many_change_at_once_goes_to_a_stock_etcd() {
    const SMALL: usize = 200;
    const LARGE: usize = 10;
    let etcd = Etcd::with_cell(&[]).unwrap();
    let server = etcd.server("server", etcd.address).with(&LONG).start().unwrap();
    let clients: Vec<Client> = (0..SMALL + LARGE).map(|_| client(&server, "ann")).collect();
    let (large, together) = (vec![0xff; 262_144], Barrier::new(clients.len()));
    let begun = Instant::now();
    let done: Vec<_> = thread::scope(|scope| {
        let create = |(place, client): (usize, &Client)| {
            together.wait();
            client.create(&format!("/ls/c/{place}"), if place < LARGE { &large } else { b"small" })
        };
        let making: Vec<_> = clients.iter().enumerate().map(|made| scope.spawn(move || create(made))).collect();
        making.into_iter().map(|made| made.join().unwrap()).collect()
    });
    let refused: Vec<_> = done.iter().filter_map(|made| made.as_ref().err()).collect();
    println!("etcd: {} creates at once within {:?}, {} refused; epochs {:?}", done.len(), begun.elapsed(), refused.len(), epochs(&server));
    assert!(refused.is_empty(), "{refused:?}; {}", server.logged());
    assert_eq!(epochs(&server).len(), 1, "{}", server.logged());
    assert!(!server.logged().contains("etcd refuses a commit"));
}

// A client that opens these files of a cell, or makes them, for their locks.
fn with_files(address: &str, count: usize) -> (Client, Vec<Handle>) {
    let client = Client::connect(&Options { patience: PATIENCE, ..Options::new(address, "ann") }).unwrap();
    let open = |number| {
        let create = Some(Create { content: Some(Vec::new()), ..Create::default() });
        client.open_with(&Opening { create, lock_delay: 1, ..Opening::new(&format!("/ls/c/lock{number}"), Mode::WRITE) }).unwrap()
    };
    let files = (0..count).map(open).collect();
    (client, files)
}

// The lock's mode by its place: each second one is shared.
fn mode(place: usize) -> LockMode {
    if place.is_multiple_of(2) { LockMode::Exclusive } else { LockMode::Shared }
}

// How many calls wait for a lock.
fn waiting(server: &Server) -> usize {
    let told: Value = serde_json::from_str(&page(server, "locks")).unwrap();
    told.as_array().unwrap().iter().map(|lock| lock["waiters"].as_array().unwrap().len()).sum()
}

fn wait_for_waiting(server: &Server, count: usize) {
    let begun = Instant::now();
    while waiting(server) != count {
        assert!(begun.elapsed() < PATIENCE, "{}: {}", waiting(server), server.logged());
        thread::sleep(Duration::from_millis(50));
    }
}

// Who holds as many locks as a session may goes, in order or without a word, while others wait for each of them; and a lock goes from one
// to many who share it. Each is one transaction, of more operations than stand side by side in one of a stock etcd.
#[test]
fn many_locks_change_hands_over_a_stock_etcd() {
    const LOCKS: usize = 100;
    const SHARING: usize = 160;
    let etcd = Etcd::with_cell(&[]).unwrap();
    let server = etcd.server("server", etcd.address).with(&LONG).with(&["--admin", &format!("tcp:{}", free())]).start().unwrap();
    let others: Vec<(Client, Vec<Handle>)> = (0..SHARING).map(|_| with_files(&server.address, LOCKS)).collect();
    let relay = Relay::start(server.place().parse().unwrap()).unwrap();
    for is_told in [true, false] {
        let address = if is_told { server.address.clone() } else { format!("tcp:{}", relay.address()) };
        let (holder, files) = with_files(&address, LOCKS + 1);
        for (place, file) in files[..LOCKS].iter().enumerate() {
            holder.acquire(*file, mode(place)).unwrap();
        }
        assert_eq!(holder.acquire(files[LOCKS], LockMode::Shared).unwrap_err().refusal(), Some(Refusal::NoRoom(LOCKS as u64)));
        let begun = thread::scope(|scope| {
            for (place, (client, files)) in others[..LOCKS].iter().enumerate() {
                scope.spawn(move || client.acquire(files[place], LockMode::Exclusive).unwrap());
            }
            wait_for_waiting(&server, LOCKS);
            let begun = Instant::now();
            if is_told {
                holder.leave().unwrap();
            } else {
                relay.set(Passing::Nothing);
            }
            begun
        });
        println!("etcd: {LOCKS} locks of a client that goes, told: {is_told}: others had them within {:?}", begun.elapsed());
        others[..LOCKS].iter().enumerate().for_each(|(place, (client, files))| client.release(files[place]).unwrap());
    }
    let ((first, its), rest) = others.split_first().unwrap();
    first.acquire(its[0], LockMode::Exclusive).unwrap();
    let begun = thread::scope(|scope| {
        rest.iter().for_each(|(client, files)| drop(scope.spawn(|| client.acquire(files[0], LockMode::Shared).unwrap())));
        wait_for_waiting(&server, rest.len());
        first.release(its[0]).unwrap();
        Instant::now()
    });
    println!("etcd: a lock that {} share, who waited for it: within {:?}", rest.len(), begun.elapsed());
    assert_eq!(epochs(&server).len(), 1, "{}", server.logged());
    assert!(!server.logged().contains("etcd refuses a commit"));
}

#[test]
fn more_locks_than_one_transaction_may_end_are_refused_at_the_start() {
    let etcd = Etcd::with_cell(&[]).unwrap();
    let start = |locks: u64| etcd.server(&format!("locks{locks}"), etcd.address).settings(&format!("[limits]\nlocks = {locks}\n")).start();
    assert!(start(1_001).unwrap_err().to_string().contains("the limit locks = 1001 is too much: over etcd 1000 at most"));
    drop(start(1_000).unwrap());
}

#[test]
fn a_cell_that_is_served_is_not_copied() {
    let etcd = Etcd::with_cell(&[]).unwrap();
    let mut server = etcd.server("server", etcd.address).start().unwrap();
    let copy = |to: &str| {
        let mut copy = Command::new(program("tillermossd"));
        copy.args(["copy", "--from", &rows(etcd.address), "--master"]).arg(trials::master_program()).arg("--to").arg(etcd.path(to));
        copy.output().unwrap()
    };
    let begun = Instant::now();
    let told = copy("first.db");
    println!("etcd: a copy of a cell that is served: {} within {:?}", told.status, begun.elapsed());
    assert!(begun.elapsed() < Duration::from_secs(3));
    assert!(String::from_utf8_lossy(&told.stderr).contains("a server is master there") && !etcd.path("first.db").exists(), "{told:?}");
    assert!(server.kill(Kill::InOrder).unwrap().success());
    assert!(copy("second.db").status.success());
    for name in ["second.db", "second.db-numbers"] {
        let permissions = fs::metadata(etcd.path(name)).unwrap().permissions();
        assert_eq!(permissions.mode() & 0o777, 0o600, "{name}");
    }
}

// What a page of the operators' address says.
fn page(server: &Server, name: &str) -> String {
    let place = server.admin.as_deref().unwrap().strip_prefix("tcp:").unwrap();
    ureq::get(&format!("http://{place}/{name}")).call().unwrap().into_string().unwrap()
}

// The value of a metric.
fn metric(server: &Server, name: &str) -> f64 {
    let text = page(server, "metrics");
    let line = text.lines().find_map(|line| line.strip_prefix(&format!("tillermoss_{name} ")));
    line.unwrap_or_else(|| panic!("{name} in {text}")).parse().unwrap()
}

// A client reads out of its cache for longer than a lease lasts; meanwhile nothing can be written.
#[test]
fn caches_serve_while_etcd_has_no_room() {
    const READING: Duration = Duration::from_secs(30);
    let etcd = Etcd::with_cell(&["--quota-backend-bytes", "2000000"]).unwrap();
    let server = etcd.server("server", etcd.address).with(&["--admin", &format!("tcp:{}", free()), "--etcd-history", "0"]).start().unwrap();
    let (reader, writer) = (client(&server, "ann"), client(&server, "bob"));
    let seen = reader.create("/ls/c/seen", b"seen").unwrap();
    let file = writer.create("/ls/c/f", b"").unwrap();
    assert_eq!(metric(&server, "etcd_no_room"), 0.0);
    let is_full = AtomicBool::new(false);
    let done = thread::scope(|scope| {
        let is_on = |_: &usize| !is_full.load(Ordering::SeqCst) && writer.set(file, &[b'a'; 60_000], None).is_ok();
        let writing = scope.spawn(move || (0..100).take_while(is_on).count());
        assert!(server.has_logged("etcd has no room left"), "{}", server.logged());
        is_full.store(true, Ordering::SeqCst);
        let (begun, before) = (Instant::now(), server.logged().lines().count());
        let (mut reads, mut served) = (0, 0);
        while begun.elapsed() < READING {
            let view = reader.read(seen).unwrap();
            assert_eq!(view.content, b"seen");
            (reads, served) = (reads + 1, served + usize::from(view.is_served));
            thread::sleep(Duration::from_millis(10));
        }
        let lines = server.logged().lines().count() - before;
        println!(
            "etcd: no room for {READING:?}: {served} of {reads} reads out of the cache; {lines} lines were logged, {:?}",
            epochs(&server)
        );
        assert!(served + 10 > reads && lines <= 4 && metric(&server, "etcd_no_room") == 1.0);
        let revision = etcd.ask("kv/range", &json!({ "key": "AA==" })).unwrap()["header"]["revision"].clone();
        etcd.ask("kv/compaction", &json!({ "revision": revision, "physical": true })).unwrap();
        etcd.ask("maintenance/defragment", &json!({})).unwrap();
        let alarms = etcd.ask("maintenance/alarm", &json!({ "action": "GET" })).unwrap();
        let member = &alarms["alarms"][0]["memberID"];
        etcd.ask("maintenance/alarm", &json!({ "action": "DEACTIVATE", "alarm": "NOSPACE", "memberID": member })).unwrap();
        writing.join().unwrap()
    });
    println!("etcd: {done} writes before");
    assert!(server.has_logged("etcd has room again"));
    let again = Instant::now();
    while reader.set(seen, b"again", None).is_err() {
        assert!(again.elapsed() < Duration::from_secs(30), "{}", server.logged());
    }
    println!("etcd: a write was done {:?} after there was room", again.elapsed());
    assert!(!reader.is_lost() && !writer.is_lost());
}

#[test]
fn old_revisions_are_forgotten_and_etcd_is_shown() {
    let etcd = Etcd::with_cell(&[]).unwrap();
    let server = etcd.server("server", etcd.address).with(&["--admin", &format!("tcp:{}", free()), "--etcd-history", "1"]).start().unwrap();
    let writer = client(&server, "ann");
    write_until(&writer, "/ls/c/f", Instant::now() + Duration::from_secs(1));
    assert!(metric(&server, "etcd_seconds_count") > 10.0 && metric(&server, "mastership_seconds") > 1.0);
    let at_first = json!({ "key": base64::encode("c/meta"), "revision": "2" });
    assert!(etcd.ask("kv/range", &at_first).is_ok());
    let begun = Instant::now();
    while etcd.ask("kv/range", &at_first).is_ok() {
        assert!(begun.elapsed() < Duration::from_secs(60), "{}", server.logged());
        thread::sleep(Duration::from_millis(500));
    }
    println!("etcd: old revisions were forgotten after {:?}", begun.elapsed());
    assert_eq!(metric(&server, "etcd_failures_total"), 0.0);
}

// The user may read and write below the cell's prefix, and nothing else: that is enough, also to have old revisions forgotten.
#[test]
fn a_user_of_etcd_is_let_in_by_its_password() {
    let etcd = Etcd::with_cell(&[]).unwrap();
    let ask = |path: &str, asked: serde_json::Value| etcd.ask(&format!("auth/{path}"), &asked).unwrap();
    let below = json!({ "permType": "READWRITE", "key": base64::encode("c/"), "range_end": base64::encode("c0") });
    for (user, password) in [("root", "other"), ("cell", "right")] {
        ask("user/add", json!({ "name": user, "password": password }));
        ask("role/add", json!({ "name": user }));
        ask("user/grant", json!({ "user": user, "role": user }));
    }
    ask("role/grant", json!({ "name": "cell", "perm": below }));
    ask("enable", json!({}));
    let password = etcd.path("password").display().to_string();
    fs::write(&password, "right\n").unwrap();
    let as_user = ["--etcd-user", "cell", "--etcd-password", &password];
    let admin = ["--etcd-history", "1", "--admin", &format!("tcp:{}", free())];
    let server = etcd.server("server", etcd.address).with(&as_user).with(&admin).start().unwrap();
    let writer = client(&server, "ann");
    // (it is looked for old revisions every ten seconds)
    write_until(&writer, "/ls/c/f", Instant::now() + Duration::from_secs(25));
    assert!(!server.logged().contains("etcd doesn't forget old revisions"), "{}", server.logged());
    assert_eq!(metric(&server, "etcd_failures_total"), 0.0);
    drop(server);
    fs::write(&password, "wrong\n").unwrap();
    let copy = Command::new(program("tillermossd"))
        .args(["copy", "--from", &rows(etcd.address), "--to"])
        .arg(etcd.path("out.db"))
        .args(as_user)
        .output();
    let told = String::from_utf8_lossy(&copy.unwrap().stderr).into_owned();
    assert!(told.contains("authentication failed"), "{told}");
}

// A server that stands by has the rows, and takes the place of one that is gone: at once where the other one went in order, and where its
// guard gave the mastership back; else when that has run out, by which leases may end.
#[test]
fn a_server_that_stands_by_comes_up_soon() {
    const LOOKED_AT: Duration = Duration::from_secs(15);
    // A mastership of 5 s that is renewed four times has 3.75 s left at least.
    const AT_ONCE: Duration = Duration::from_millis(3500);
    // (how long that takes beside other work is told, and bounded where it would be lost: bench/runs has what was measured)
    for (files, going) in [(17_000, Going::InOrder), (17_000, Going::Killed), (17_000, Going::WithAll), (100_000, Going::Killed)] {
        let noticed = fail_over_to_one_that_stands_by(files, 8, going, LOOKED_AT).unwrap();
        println!(
            "etcd: {files} files, {going:?}: another was master {} ms after it; of 8 clients the first was answered {} ms after it, the last \
             {} ms; in jeopardy {}, lost {}",
            noticed.taken.as_millis(),
            noticed.answered.as_millis(),
            noticed.answered_since_the_end.as_millis(),
            noticed.jeopardies,
            noticed.lost
        );
        assert!(noticed.taken < AT_ONCE || going == Going::WithAll, "{noticed:?}");
        assert!(noticed.lost == 0 && noticed.answered_since_the_end < Duration::from_secs(45), "{noticed:?}");
    }
}
