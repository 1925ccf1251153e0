//! What a server does that is told to go, or to read its files again: beside a master that is stuck or comes up, and standing by.

use nix::sys::signal::{Signal, kill};
use nix::unistd::Pid;
use std::fs;
use std::os::unix::fs::PermissionsExt;
use std::path::Path;
use std::process::{Command, ExitStatus, Stdio};
use std::thread;
use std::time::{Duration, Instant};
use tillermoss::{Client, Mode, Options};
use trials::{Etcd, Kill, Member, Network, Server, Start, certificates, folder, free, program};

// Waits until it ends, and kills it where it doesn't.
fn end(server: &mut Server, most: Duration) -> Option<ExitStatus> {
    let begun = Instant::now();
    while begun.elapsed() < most {
        if let Some(status) = server.has_ended().unwrap() {
            return Some(status);
        }
        thread::sleep(Duration::from_millis(20));
    }
    None
}

// Whether this process is gone, or goes now. (One that was killed is there until the system has heard of it.)
fn is_gone(process: u32) -> bool {
    let begun = Instant::now();
    while kill(Pid::from_raw(process.cast_signed()), None).is_ok() && begun.elapsed() < Duration::from_secs(5) {
        thread::sleep(Duration::from_millis(20));
    }
    kill(Pid::from_raw(process.cast_signed()), None).is_err()
}

fn over_etcd(folder: &Path, name: &str, member: &Member) -> Start {
    Start::new(&folder.join(name)).with(&[&format!("tcp:{}", free())]).rows(&member.rows("c"))
}

// The status and the body of an answer to an operator.
fn get(server: &Server, path: &str) -> (u16, String) {
    let place = server.admin.as_deref().unwrap().strip_prefix("tcp:").unwrap();
    match ureq::get(&format!("http://{place}{path}")).call() {
        Ok(answer) | Err(ureq::Error::Status(_, answer)) => (answer.status(), answer.into_string().unwrap()),
        Err(error) => panic!("{path}: {error}"),
    }
}

fn stop_beside_a_stuck_master(server: &mut Server) {
    let client = Client::connect(&Options::new(&server.address, "ann")).unwrap();
    let file = client.create("/ls/c/f", b"kept").unwrap();
    let master = server.master().unwrap();
    server.signal_master(Signal::SIGSTOP).unwrap();
    server.signal(Signal::SIGTERM).unwrap();
    let begun = Instant::now();
    let status = end(server, Duration::from_secs(25));
    println!("signals: SIGTERM beside a stuck master: {status:?} in {:.1} s", begun.elapsed().as_secs_f64());
    assert_eq!(status.and_then(|status| status.code()), Some(1), "{}", server.logged());
    assert!(server.logged().contains("the master doesn't go"));
    assert!(is_gone(master), "its master is there");
    drop((client, file));
}

#[test]
fn a_server_goes_beside_a_stuck_master() {
    let folder = folder("stuck");
    let start = Start::new(&folder.join("store.db"));
    let mut server = start.start().unwrap();
    stop_beside_a_stuck_master(&mut server);
    assert!(start.start().is_ok());
    fs::remove_dir_all(folder).unwrap();
}

// (it gives its mastership back: the next one doesn't wait for the end of that)
#[test]
fn a_server_over_etcd_goes_beside_a_stuck_master() {
    let folder = folder("stuck-etcd");
    let member = Member::start(&folder).unwrap();
    member.make("c").unwrap();
    let mut server = over_etcd(&folder, "first", &member).with(&["--mastership", "60"]).start().unwrap();
    stop_beside_a_stuck_master(&mut server);
    let begun = Instant::now();
    let next = over_etcd(&folder, "second", &member).start().unwrap();
    assert!(begun.elapsed() < Duration::from_secs(20), "{:?}", begun.elapsed());
    drop((next, member));
    fs::remove_dir_all(folder).unwrap();
}

/// How long the end of a server may take, with what a busy machine adds.
const END: Duration = Duration::from_secs(17);

// Its master is stuck, and all members of etcd hang, so that it can't give its mastership back: that its guard does once they go on.
#[test]
fn a_server_goes_in_time_whatever_it_waits_for() {
    let etcd = Etcd::of_three(Network { one_way: Duration::ZERO, rate: None }).unwrap();
    let mut server = etcd.server_of_all("first").with(&["--mastership", "20"]).start().unwrap();
    let client = Client::connect(&Options::new(&server.address, "ann")).unwrap();
    client.create("/ls/c/f", b"kept").unwrap();
    let master = server.master().unwrap();
    server.signal_master(Signal::SIGSTOP).unwrap();
    etcd.signal(Signal::SIGSTOP).unwrap();
    server.signal(Signal::SIGTERM).unwrap();
    let begun = Instant::now();
    let status = end(&mut server, Duration::from_secs(90));
    println!("signals: SIGTERM beside a stuck master and an etcd that hangs: {status:?} in {:.1} s", begun.elapsed().as_secs_f64());
    assert_eq!(status.and_then(|status| status.code()), Some(1), "{}", server.logged());
    assert!(begun.elapsed() < END && server.logged().contains("the server ends at once"), "{}", server.logged());
    assert!(is_gone(master), "its master is there");
    etcd.signal(Signal::SIGCONT).unwrap();
    let begun = Instant::now();
    let next = etcd.server_of_all("next").start().unwrap();
    assert!(begun.elapsed() < Duration::from_secs(30), "{:?}: {}", begun.elapsed(), next.logged());
    drop(client);
}

#[test]
fn a_second_signal_ends_a_server_at_once() {
    let folder = folder("told-twice");
    let start = Start::new(&folder.join("store.db"));
    let mut server = start.start().unwrap();
    let client = Client::connect(&Options::new(&server.address, "ann")).unwrap();
    client.create("/ls/c/f", b"kept").unwrap();
    let master = server.master().unwrap();
    server.signal_master(Signal::SIGSTOP).unwrap();
    server.signal(Signal::SIGTERM).unwrap();
    assert!(server.has_logged("going"), "{}", server.logged());
    server.signal(Signal::SIGINT).unwrap();
    let begun = Instant::now();
    let status = end(&mut server, Duration::from_secs(25));
    println!("signals: told to go twice beside a stuck master: {status:?} in {:.1} s", begun.elapsed().as_secs_f64());
    assert_eq!(status.and_then(|status| status.code()), Some(1), "{}", server.logged());
    assert!(begun.elapsed() < Duration::from_secs(5) && server.logged().contains("it was told to go once more"), "{}", server.logged());
    assert!(is_gone(master), "its master is there");
    let next = start.with(&[&server.address]).start().unwrap();
    assert_eq!(client.read(client.open("/ls/c/f", Mode::READ).unwrap()).unwrap().content, b"kept");
    drop((client, next));
    fs::remove_dir_all(folder).unwrap();
}

// A program in the master's place that never comes up.
#[test]
fn a_server_goes_while_its_master_comes_up() {
    let folder = folder("coming-up");
    let (master, started) = (folder.join("master"), folder.join("started"));
    let version = format!("[ \"$1\" = serve ] || exec echo cellctl {}", env!("CARGO_PKG_VERSION"));
    fs::write(&master, format!("#!/bin/sh\n{version}\ntouch {}\nexec sleep 600\n", started.display())).unwrap();
    fs::set_permissions(&master, fs::Permissions::from_mode(0o700)).unwrap();
    let mut command = Command::new(program("tillermossd"));
    command.arg("0").arg("--store").arg(folder.join("store.db")).arg("--master").arg(&master);
    let mut child = command.stdout(Stdio::null()).stderr(Stdio::null()).spawn().unwrap();
    while !started.exists() {
        assert_eq!(child.try_wait().unwrap(), None, "it has ended");
        thread::sleep(Duration::from_millis(20));
    }
    kill(Pid::from_raw(child.id().cast_signed()), Signal::SIGTERM).unwrap();
    let begun = Instant::now();
    assert!(child.wait().unwrap().success());
    assert!(begun.elapsed() < Duration::from_secs(5));
    fs::remove_dir_all(folder).unwrap();
}

#[test]
fn a_server_that_stands_by_heeds_signals_and_operators() {
    let folder = folder("standing-by");
    let member = Member::start(&folder).unwrap();
    member.make("c").unwrap();
    let certificates = certificates(&folder, &["ann"]);
    let mut master = over_etcd(&folder, "first", &member).start().unwrap();
    let stand_by = |name: &str| {
        let start = Start::new(&folder.join(name)).rows(&member.rows("c")).with(&["--admin", &format!("tcp:{}", free())]);
        start.tls_at(&format!("tls:{}", free()), &certificates).stand_by().unwrap()
    };
    let (second, mut third) = (stand_by("second"), stand_by("third"));
    assert_eq!(get(&second, "/healthz"), (200, "ok\n".to_owned()));
    let told = (503, format!("this server stands by; the master is {}\n", master.address));
    for path in ["/readyz", "/status", "/metrics"] {
        assert_eq!(get(&second, path), told, "{path}");
    }
    for server in [&second, &third] {
        server.signal(Signal::SIGHUP).unwrap();
        assert!(server.has_logged("the certificates were read again"), "{}", server.logged());
    }
    third.signal(Signal::SIGTERM).unwrap();
    let status = end(&mut third, Duration::from_secs(5));
    assert!(status.is_some_and(|status| status.success()), "{status:?}: {}", third.logged());
    assert!(master.kill(Kill::InOrder).unwrap().success());
    let begun = Instant::now();
    while get(&second, "/readyz").0 != 200 {
        assert!(begun.elapsed() < Duration::from_secs(60), "{}", second.logged());
        thread::sleep(Duration::from_millis(50));
    }
    assert!(get(&second, "/metrics").1.contains("tillermoss_"));
    drop((second, third, member));
    fs::remove_dir_all(folder).unwrap();
}
