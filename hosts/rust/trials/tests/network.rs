//! A server and eight clients over a bad network, and the server killed ten times: what was read was there, and the lock was held
//! by one at a time.

use std::path::Path;
use std::process::Command;
use std::sync::atomic::Ordering;
use std::thread;
use std::time::{Duration, Instant};
use tillermoss::{Admin, Options};
use trials::{Deeds, Kill, Proxy, Rules, Start, Worker, certificates, check_deeds, folder, master_program};

const SEED: u64 = 20_061_106;
const CLIENTS: u64 = 8;
const KILLS: usize = 10;

/// How long a server lives, but for its recovery.
const LIFE: Duration = Duration::from_secs(3);

/// How the clients reach their server, through the proxy.
struct Transport {
    test: &'static str,
    clients: u64,
    kills: usize,
    is_tls: bool,
}

// The options of a client that reaches a server at this port of loopback.
fn options(port: u16, certificates: Option<&Path>) -> Options {
    let Some(certificates) = certificates else {
        return Options::new(&format!("tcp:127.0.0.1:{port}"), "ann");
    };
    let file = |name: &str| Some(certificates.join(name));
    Options {
        certificate: file("ann.pem"),
        key: file("ann.key"),
        authority: file("ca.pem"),
        ..Options::new(&format!("tls:localhost:{port}"), "ann")
    }
}

#[test]
fn what_is_read_was_there() {
    run(&Transport { test: "network", clients: CLIENTS, kills: KILLS, is_tls: false });
}

#[test]
fn what_is_read_over_tls_was_there() {
    run(&Transport { test: "network-tls", clients: CLIENTS, kills: KILLS, is_tls: true });
}

fn run(transport: &Transport) {
    let folder = folder(transport.test);
    let store = folder.join("store.db");
    let certificates = transport.is_tls.then(|| certificates(&folder, &["ann"]));
    let begin = || match &certificates {
        Some(certificates) => Start::new(&store).tls(certificates).with(&["--admin", "tcp:0"]),
        None => Start::new(&store).with(&["tcp:0", "--admin", "tcp:0"]),
    };
    let mut server = begin().start().unwrap();
    let proxy = Proxy::start(server.place().parse().unwrap(), SEED).unwrap();
    let (begun, rules) = (Instant::now(), Rules::default());
    let options = options(proxy.address().port(), certificates.as_deref());
    let workers: Vec<Worker> = (0..transport.clients).map(|number| Worker::new(&options, SEED + number, begun).unwrap()).collect();

    let deeds: Vec<Deeds> = thread::scope(|scope| {
        let rules = &rules;
        let working: Vec<_> = workers.into_iter().map(|worker| scope.spawn(move || worker.work(rules))).collect();
        // (None: its master alone, which the server replaces)
        for kill in [Some(Kill::Server), Some(Kill::InOrder), None].into_iter().cycle().take(transport.kills) {
            thread::sleep(LIFE);
            let Some(kill) = kill else {
                server.kill_master().unwrap();
                continue;
            };
            let status = server.kill(kill).unwrap();
            assert_eq!(status.success(), kill == Kill::InOrder, "{kill:?}: {status}");
            server = begin().start().unwrap();
            proxy.lead_to(server.place().parse().unwrap());
        }
        thread::sleep(LIFE);
        rules.is_over.store(true, Ordering::Relaxed);
        working.into_iter().map(|worker| worker.join().unwrap().unwrap()).collect()
    });

    let status = Admin::new(server.admin.as_deref().unwrap()).unwrap().status().unwrap();
    assert!(server.kill(Kill::InOrder).unwrap().success());
    check(&deeds);
    tell(&deeds, &proxy, transport);
    let checked = Command::new(master_program()).arg("check").arg(&store).output().unwrap();
    // (what was shown at the end is what the store holds)
    let wanted = format!("sound epoch 11 nodes {} ", status.nodes);
    assert!(checked.stdout.starts_with(wanted.as_bytes()), "{checked:?} {status:?}");
    std::fs::remove_dir_all(folder).unwrap();
}

fn check(deeds: &[Deeds]) {
    check_deeds(deeds).unwrap();
    let sum = |count: fn(&Deeds) -> usize| deeds.iter().map(count).sum::<usize>();
    let [writes, reads, holds] = [sum(|deeds| deeds.writes.len()), sum(|deeds| deeds.reads.len()), sum(|deeds| deeds.holds.len())];
    assert!(writes > 100 && reads > 1000 && holds > 20, "too little was done");
}

fn tell(deeds: &[Deeds], proxy: &Proxy, transport: &Transport) {
    let sum = |count: fn(&Deeds) -> usize| deeds.iter().map(count).sum::<usize>();
    let lost = sum(|deeds| deeds.writes.iter().filter(|write| write.end.is_none()).count());
    let (reads, served, writes) = (sum(|deeds| deeds.reads.len()), sum(|deeds| deeds.served), sum(|deeds| deeds.writes.len()));
    let counts = proxy.counts();
    let [made, late, cut, repeated] =
        [&counts.made, &counts.late, &counts.cut, &counts.repeated].map(|count| count.load(Ordering::Relaxed));
    println!("{}:", transport.test);
    println!("reads {reads}, {served} of them served; writes {writes}, {lost} of them lost; holds {}", sum(|deeds| deeds.holds.len()));
    println!("kills {}; connections {made}, cut {cut}, repeated {repeated}; pieces late {late}", transport.kills);
    assert!(cut > 20 && repeated > 5 && late > 100, "the network was too good");
}
