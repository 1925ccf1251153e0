//! What an operator sees of a server, and does with it.

use nix::sys::signal::Signal;
use std::fs;
use std::io::Write;
use std::os::unix::fs::PermissionsExt;
use std::os::unix::net::UnixDatagram;
use std::path::Path;
use std::process::{Command, Stdio};
use std::thread;
use std::time::{Duration, Instant};
use tillermoss::{Admin, Client, Error, LockMode, Mode, Options, Refusal};
use trials::{Kill, Server, Start, certificates, expired, folder, master_program, program, revoke};

fn begin(folder: &Path) -> Start {
    Start::new(&folder.join("store.db")).with(&["tcp:0", "--admin", "tcp:0"])
}

// The status and the body of an answer.
fn get(server: &Server, path: &str) -> (u16, String) {
    let place = server.admin.as_deref().unwrap().strip_prefix("tcp:").unwrap();
    match ureq::get(&format!("http://{place}{path}")).call() {
        Ok(answer) | Err(ureq::Error::Status(_, answer)) => (answer.status(), answer.into_string().unwrap()),
        Err(error) => panic!("{path}: {error}"),
    }
}

fn connect(server: &Server, principal: &str) -> Client {
    Client::connect(&Options::new(&server.address, principal)).unwrap()
}

// Waits until it is so, 20 s at most.
fn wait_until(mut is_so: impl FnMut() -> bool) {
    let begun = Instant::now();
    while !is_so() {
        assert!(begun.elapsed() < Duration::from_secs(20), "it isn't so");
        thread::sleep(Duration::from_millis(20));
    }
}

#[test]
fn what_is_held_and_waited_for_is_shown() {
    let folder = folder("shown");
    let server = begin(&folder).start().unwrap();
    let admin = Admin::new(server.admin.as_deref().unwrap()).unwrap();
    let (ann, bob) = (connect(&server, "ann"), connect(&server, "bob"));
    let (held, wanted) = (ann.create("/ls/c/l", b"").unwrap(), bob.open("/ls/c/l", Mode::READ.and(Mode::WRITE)).unwrap());
    ann.acquire(held, LockMode::Exclusive).unwrap();
    thread::scope(|scope| {
        let waiting = scope.spawn(|| bob.acquire(wanted, LockMode::Exclusive));
        wait_until(|| admin.locks().unwrap()[0].waiters == [bob.number()]);
        let locks = admin.locks().unwrap();
        assert_eq!((locks.len(), locks[0].name.as_str(), locks[0].holders.as_slice()), (1, "/ls/c/l", &[ann.number()][..]));
        wait_until(|| get(&server, "/all").1.contains("\"act\":\"acquire\",\"name\":\"/ls/c/l\""));
        ann.release(held).unwrap();
        waiting.join().unwrap().unwrap();
    });
    assert_eq!(admin.locks().unwrap()[0].holders, [bob.number()]);
    let sessions = admin.sessions().unwrap();
    let found: Vec<_> = sessions.iter().map(|session| (session.client, session.principal.as_str(), session.is_connected)).collect();
    assert_eq!(found, [(ann.number(), "ann", true), (bob.number(), "bob", true)]);
    assert!(sessions.iter().all(|session| session.lease_left.is_some_and(|left| left > 0 && left <= 60_000)));
    let status = admin.status().unwrap();
    assert_eq!((status.is_ready, status.epoch, status.nodes, status.sessions, status.connections), (true, 1, 4, 2, 2));
    assert_eq!(status.bytes, "ann\nbob\n".len() as u64);
    assert!(status.warnings[0].contains("acts for anybody"));
    fs::remove_dir_all(folder).unwrap();
}

// Until its lease has run out a client that is stopped lets a write wait for its cache.
#[test]
fn whom_a_write_waits_for_is_shown() {
    let folder = folder("waits");
    let server = begin(&folder).start().unwrap();
    let writer = connect(&server, "ann");
    let file = writer.create("/ls/c/f", b"first").unwrap();
    let mut reader = Command::new(program("tillermoss"));
    let mut reader =
        reader.args(["--server", &server.address, "watch", "/ls/c/f"]).stderr(Stdio::piped()).stdout(Stdio::null()).spawn().unwrap();
    let mut line = String::new();
    std::io::BufRead::read_line(&mut std::io::BufReader::new(reader.stderr.take().unwrap()), &mut line).unwrap();
    nix::sys::signal::kill(nix::unistd::Pid::from_raw(reader.id().cast_signed()), Signal::SIGSTOP).unwrap();
    thread::scope(|scope| {
        let written = scope.spawn(|| writer.set(file, b"second", None));
        wait_until(|| get(&server, "/all").1.contains("\"act\":\"set\",\"name\":\"/ls/c/f\""));
        let all = get(&server, "/all").1;
        assert!(all.contains(&format!("\"waits_for\":[{}]", writer.number() + 1)), "{all}");
        let metrics = get(&server, "/metrics").1;
        assert!(metrics.contains("tillermoss_changes_waiting 1\n"));
        let oldest = metrics.lines().find_map(|line| line.strip_prefix("tillermoss_oldest_change_seconds ")).unwrap();
        assert!(oldest.parse::<f64>().unwrap() > 0.0, "{oldest}");
        written.join().unwrap().unwrap();
    });
    reader.kill().unwrap();
    reader.wait().unwrap();
    fs::remove_dir_all(folder).unwrap();
}

// The parser is that of Prometheus' own library for Python (the package python3-prometheus-client).
const PARSER: &str = "
import sys
from prometheus_client.parser import text_string_to_metric_families
for family in text_string_to_metric_families(sys.stdin.read()):
    for sample in family.samples:
        print(family.type, sample.name, *sorted(sample.labels.items()), sample.value)
";

fn proof() -> &'static str {
    let told = Command::new(master_program()).arg("--version").output().unwrap().stdout;
    if String::from_utf8(told).unwrap().contains("without proof") { "without" } else { "proved" }
}

#[test]
fn metrics_are_read_by_a_parser_of_their_format() {
    let folder = folder("metrics");
    let server = begin(&folder).start().unwrap();
    let client = connect(&server, "ann");
    let file = client.create("/ls/c/f", b"abc").unwrap();
    (0..3_u8).for_each(|turn| client.set(file, &[turn], None).unwrap());
    client.read(file).unwrap();
    assert!(matches!(client.open("/ls/c/none", Mode::READ), Err(Error::Refused(Refusal::NotFound))));
    assert!(matches!(Client::connect(&Options::new(&server.address, "no principal")), Err(Error::TurnedAway(_))));
    let (status, text) = get(&server, "/metrics");
    assert_eq!(status, 200);
    let mut parser = Command::new("/usr/bin/python3").args(["-c", PARSER]).stdin(Stdio::piped()).stdout(Stdio::piped()).spawn().unwrap();
    parser.stdin.take().unwrap().write_all(text.as_bytes()).unwrap();
    let output = parser.wait_with_output().unwrap();
    assert!(output.status.success(), "this wants the package python3-prometheus-client");
    let read = String::from_utf8(output.stdout).unwrap();
    let wanted = [
        "counter tillermoss_events_total ('event', 'applied') 4.0",
        "counter tillermoss_events_total ('event', 'started') 1.0",
        "counter tillermoss_refusals_total ('number', '6') ('refusal', 'NotFound') 1.0",
        "histogram tillermoss_commit_seconds_count 5.0",
        "gauge tillermoss_sessions 1.0",
        "gauge tillermoss_rights 2.0",
        "gauge tillermoss_content_bytes 9.0",
        "gauge tillermoss_connections ('state', 'bound') 1.0",
        "gauge tillermoss_ready 1.0",
    ];
    for line in wanted {
        assert!(read.lines().any(|found| found == line), "{line} in\n{read}");
    }
    let build = format!("gauge tillermoss_build_info ('proof', '{}') ('version', '{}') 1.0", proof(), env!("CARGO_PKG_VERSION"));
    assert!(read.lines().any(|found| found == build), "{build} in\n{read}");
    for name in ["tillermoss_store_bytes", "tillermoss_master_resident_memory_bytes", "process_resident_memory_bytes", "process_open_fds"] {
        let value =
            read.lines().find_map(|line| line.strip_prefix(&format!("gauge {name} "))).unwrap_or_else(|| panic!("{name} in\n{read}"));
        assert!(value.parse::<f64>().unwrap() > 0.0, "{name} {value}");
    }
    // (each name that the board and the rules ask for is told)
    let told: Vec<&str> = text.lines().filter_map(|line| line.strip_prefix("# TYPE ")?.split(' ').next()).collect();
    for file in [include_str!("../../../operators/board.json"), include_str!("../../../operators/alerts.yaml")] {
        let words = file.split(|letter: char| !letter.is_ascii_lowercase() && letter != '_');
        let asked: Vec<&str> = words.filter(|word| word.starts_with("tillermoss_") || word.starts_with("process_")).collect();
        assert!(asked.len() > 3, "{asked:?}");
        for name in asked {
            let family = ["_bucket", "_sum", "_count"].iter().find_map(|end| name.strip_suffix(end)).unwrap_or(name);
            assert!(told.contains(&family), "{name} of {told:?}");
        }
    }
    fs::remove_dir_all(folder).unwrap();
}

#[test]
fn a_server_is_ready_once_its_master_has_recovered() {
    let folder = folder("ready");
    let mut server = begin(&folder).start().unwrap();
    let client = connect(&server, "ann");
    assert_eq!((get(&server, "/healthz").0, get(&server, "/readyz").0), (200, 200));
    server.kill(Kill::Server).unwrap();
    drop(client);
    server = begin(&folder).start().unwrap();
    assert_eq!((get(&server, "/healthz").0, get(&server, "/readyz").0), (200, 503));
    assert_eq!(get(&server, "/nowhere").0, 404);
    assert!(get(&server, "/").1.contains("<script src=\"/page.js\""));
    fs::remove_dir_all(folder).unwrap();
}

#[test]
fn a_copy_is_taken_of_a_running_server_and_restored() {
    let folder = folder("copies");
    let begin = || Start::new(&folder.join("store.db")).with(&["tcp:0", "--admin", &format!("unix:{}", folder.join("admin").display())]);
    let mut server = begin().start().unwrap();
    let admin = Admin::new(server.admin.as_deref().unwrap()).unwrap();
    let client = connect(&server, "ann");
    let file = client.create("/ls/c/f", b"copied").unwrap();
    client.acquire(file, LockMode::Exclusive).unwrap();
    let copy = folder.join("copy.db");
    let length = admin.backup(&copy).unwrap();
    assert_eq!((fs::metadata(&copy).unwrap().len(), fs::metadata(&copy).unwrap().permissions().mode() & 0o777), (length, 0o600));
    assert!(admin.backup(&copy).is_err());
    let check = |store: &Path| Command::new(master_program()).arg("check").arg(store).output().unwrap().stdout;
    assert_eq!(String::from_utf8(check(&copy)).unwrap(), "sound epoch 1 nodes 4 sessions 1 locks 1\n");
    client.set(file, b"later", None).unwrap();
    drop(client);
    server.kill(Kill::InOrder).unwrap();

    let store = folder.join("store.db");
    let restore = || Command::new(program("tillermossd")).arg("restore").arg(&copy).arg("--store").arg(&store).output().unwrap();
    assert_eq!(restore().status.code(), Some(1));
    fs::rename(&store, folder.join("aside.db")).unwrap();
    let restored = restore();
    assert!(restored.status.success(), "{restored:?}");
    let found = String::from_utf8(check(&store)).unwrap();
    assert_eq!(found, "sound epoch 2 nodes 4 sessions 0 locks 0\n");
    server = begin().start().unwrap();
    let client = connect(&server, "ann");
    let view = client.read(client.open("/ls/c/f", Mode::READ).unwrap()).unwrap();
    assert_eq!(view.content, b"copied");
    assert!(view.stat.content_generation > 1 << 32, "no generation of the lost time comes again");
    assert_eq!(admin.status().unwrap().epoch, 3);
    fs::remove_dir_all(folder).unwrap();
}

#[test]
fn what_a_server_makes_is_its_users_alone() {
    let folder = folder("modes");
    let server = begin(&folder).start().unwrap();
    connect(&server, "ann").create("/ls/c/f", b"").unwrap();
    for name in ["store.db", "store.db-wal", "store.db-numbers", "store.db-lock"] {
        assert_eq!(fs::metadata(folder.join(name)).unwrap().permissions().mode() & 0o777, 0o600, "{name}");
    }
    fs::remove_dir_all(folder).unwrap();
}

#[test]
fn a_copy_is_given_at_a_private_socket_alone() {
    let folder = folder("public");
    let server = begin(&folder).start().unwrap();
    let admin = Admin::new(server.admin.as_deref().unwrap()).unwrap();
    assert!(admin.status().unwrap().is_ready);
    let error = admin.backup(&folder.join("copy.db")).unwrap_err().to_string();
    assert!(error.contains("only at --admin unix:PATH"), "{error}");
    assert!(!folder.join("copy.db").exists());
    fs::remove_dir_all(folder).unwrap();
}

#[test]
fn settings_are_read_again() {
    let folder = folder("again");
    let start = begin(&folder);
    let settings = |limits: &str| start.clone().settings(&format!("[limits]\n{limits}"));
    let mut server = settings("nodes = 4\nbytes_of_a_principal = 2\n").start().unwrap();
    let client = connect(&server, "ann");
    let file = client.create("/ls/c/f", b"").unwrap();
    let is_limited = |content: &[u8]| matches!(client.set(file, content, None), Err(Error::Limited(_)));
    let is_full =
        |client: &Client, name: &str, limit| client.create(name, b"").is_err_and(|error| error.refusal() == Some(Refusal::NoRoom(limit)));
    let error = client.set(file, b"two", None).unwrap_err();
    assert_eq!(error.to_string(), "the limit bytes_of_a_principal = 2 leaves no room for 3 more");
    settings("bytes_of_a_principal = \n");
    server.signal(Signal::SIGHUP).unwrap();
    assert!(server.has_logged("the settings stay as they were"));
    assert!(is_limited(b"two"));
    settings("nodes = 4\nbytes_of_a_principal = 3\n");
    server.signal(Signal::SIGHUP).unwrap();
    assert!(server.has_logged("the limits were read again") && !server.logged().contains("nodes, bytes or locks"));
    client.set(file, b"two", None).unwrap();
    assert!(is_limited(b"four"));
    // (the limits of the cell are its master's: they hold from the next start on)
    settings("nodes = 5\nbytes_of_a_principal = 4\n");
    server.signal(Signal::SIGHUP).unwrap();
    assert!(server.has_logged("nodes, bytes or locks of the limits are others now"));
    client.set(file, b"four", None).unwrap();
    assert!(is_full(&client, "/ls/c/g", 4));
    server.kill(Kill::InOrder).unwrap();
    let server = settings("nodes = 5\n").start().unwrap();
    let client = connect(&server, "ann");
    client.create("/ls/c/g", b"").unwrap();
    assert!(is_full(&client, "/ls/c/h", 5));
    fs::remove_dir_all(folder).unwrap();
}

// By the words that a service manager gets.
#[test]
fn a_service_manager_is_told() {
    let folder = folder("service");
    let socket = UnixDatagram::bind(folder.join("notify")).unwrap();
    socket.set_read_timeout(Some(Duration::from_secs(20))).unwrap();
    let mut command = begin(&folder).command();
    let mut child = command.env("NOTIFY_SOCKET", folder.join("notify")).stdout(Stdio::null()).stderr(Stdio::null()).spawn().unwrap();
    let told = || {
        let mut room = [0; 100];
        let count = socket.recv(&mut room).unwrap();
        String::from_utf8_lossy(&room[..count]).trim().to_owned()
    };
    assert_eq!([told(), told()], ["READY=1", "WATCHDOG=1"]);
    nix::sys::signal::kill(nix::unistd::Pid::from_raw(child.id().cast_signed()), Signal::SIGTERM).unwrap();
    assert_eq!(told(), "STOPPING=1");
    assert!(child.wait().unwrap().success());
    fs::remove_dir_all(folder).unwrap();
}

#[test]
fn a_log_is_lines_of_json_where_that_is_asked_for() {
    let folder = folder("json");
    let mut server = begin(&folder).with(&["--log", "json"]).start().unwrap();
    drop(connect(&server, "ann"));
    server.kill(Kill::InOrder).unwrap();
    let lines: Vec<serde_json::Value> = server.logged().lines().map(|line| serde_json::from_str(line).unwrap()).collect();
    let up = lines.iter().find(|line| line["message"] == "a master is up").unwrap();
    assert_eq!((up["level"].as_str(), up["epoch"].as_str()), (Some("INFO"), Some("1")));
    fs::remove_dir_all(folder).unwrap();
}

// A socket for this machine's operators, and an address for those beyond it, who show a token. (It is heard at all addresses, of which one
// is loopback: what matters is what it was opened as.)
#[test]
fn operators_beyond_the_machine_show_a_token() {
    let folder = folder("token");
    let token = folder.join("token");
    let start = |words: &[&str]| Start::new(&folder.join("store.db")).with(&["tcp:0"]).with(words).start();
    assert!(start(&["--admin", "tcp:0.0.0.0:0"]).unwrap_err().to_string().contains("elsewhere with --admin-token"));
    fs::write(&token, "short\n").unwrap();
    let file = token.to_str().unwrap();
    assert!(start(&["--admin", "tcp:0.0.0.0:0", "--admin-token", file]).unwrap_err().to_string().contains("16 characters"));
    fs::write(&token, "0123456789abcdef\n").unwrap();
    let socket = format!("unix:{}", folder.join("admin").display());
    let server = start(&["--admin", &socket, "--admin", "tcp:0.0.0.0:0", "--admin-token", file]).unwrap();
    assert!(Admin::new(&socket).unwrap().status().unwrap().is_ready);
    let far = server.admins[1].replace("0.0.0.0", "127.0.0.1");
    let admin = Admin::new(&far).unwrap();
    assert!(admin.status().unwrap_err().to_string().contains("Bearer"));
    assert!(admin.clone().with_token("0123456789abcdee").sessions().is_err());
    let known = admin.with_token("0123456789abcdef");
    assert!(known.status().unwrap().is_ready);
    assert!(known.backup(&folder.join("copy")).unwrap_err().to_string().contains("only at --admin unix:"));
    let place = far.strip_prefix("tcp:").unwrap();
    assert_eq!(ureq::get(&format!("http://{place}/readyz")).call().unwrap().status(), 200);
    assert!(matches!(ureq::get(&format!("http://{place}/metrics")).call(), Err(ureq::Error::Status(401, _))));
    let line = ["--server", &server.address, "--admin", &far, "--admin-token", file, "status"];
    let told = Command::new(program("tillermoss")).args(line).output().unwrap();
    assert!(String::from_utf8(told.stdout).unwrap().contains("ready yes"));
    fs::remove_dir_all(folder).unwrap();
}

// One who shows himself at this address by this certificate of a folder, and trusts the authority of the server's.
fn operator(address: &str, server: &Path, own: &Path, name: &str) -> Admin {
    let (certificate, key) = (own.join(format!("{name}.pem")), own.join(format!("{name}.key")));
    Admin::new(address).unwrap().with_certificates(&server.join("ca.pem"), Some((&certificate, &key))).unwrap()
}

fn status_of_page(address: &str, authority: &Path, path: &str) -> String {
    let page = format!("https://{}{path}", address.strip_prefix("tls:").unwrap());
    let words = ["--silent", "--output", "/dev/null", "--write-out", "%{http_code}", "--cacert"];
    let told = Command::new("curl").args(words).arg(authority).arg(page).output().unwrap();
    String::from_utf8(told.stdout).unwrap()
}

// A server whose operators are ann and bob, of whom bob's certificate is revoked, and where they come.
fn for_operators(folder: &Path, own: &Path) -> (Server, String) {
    revoke(own, &["bob"]);
    let lists = own.join("revoked.pem").display().to_string();
    let words = ["--client-crl", &lists, "--admin", "tls:0", "--operator", "ann", "--operator", "bob"];
    let server = Start::new(&folder.join("store.db")).tls(own).with(&words).start().unwrap();
    let address = server.admin.as_deref().unwrap().replace("127.0.0.1", "localhost");
    (server, address)
}

#[test]
fn operators_beyond_the_machine_show_a_certificate() {
    let folder = folder("operators");
    let (own, other) = (certificates(&folder, &["ann", "bob", "eve"]), certificates(&folder.join("other"), &["ann"]));
    expired(&own, "ann").unwrap();
    let (server, address) = for_operators(&folder, &own);
    let rows = [
        (operator(&address, &own, &own, "ann"), ""),
        (operator(&address, &own, &own, "eve"), "eve is no operator"),
        (operator(&address, &own, &own, "bob"), "certificate revoked"),
        (operator(&address, &own, &own, "expired"), "certificate expired"),
        (operator(&address, &own, &other, "ann"), "unknown ca"),
        (operator(&address, &other, &own, "ann"), "no authority that is trusted here"),
        (Admin::new(&address).unwrap().with_certificates(&own.join("ca.pem"), None).unwrap(), "wants an operator's certificate"),
        (Admin::new(&address).unwrap(), "wants the server's authorities"),
        (Admin::new(&address.replace("tls:", "tcp:")).unwrap(), ""),
    ];
    for (at, (admin, wanted)) in rows.iter().enumerate() {
        let told = admin.sessions().err().map_or(String::new(), |error| error.to_string());
        let is_let_in = at == 0;
        assert!(told.contains(wanted) && told.is_empty() == is_let_in, "{at}: {wanted}: {told}");
    }
    // (whose certificate is revoked later is let in no more)
    revoke(&own, &["ann"]);
    server.signal(Signal::SIGHUP).unwrap();
    wait_until(|| rows[0].0.sessions().is_err_and(|error| error.to_string().contains("certificate revoked")));
    fs::remove_dir_all(folder).unwrap();
}

#[test]
fn an_operator_by_certificate_sees_and_changes_nothing() {
    let folder = folder("seeing");
    let own = certificates(&folder, &["ann", "bob"]);
    let (_server, address) = for_operators(&folder, &own);
    let known = operator(&address, &own, &own, "ann");
    assert!(known.status().unwrap().is_ready);
    assert!(known.backup(&folder.join("copy")).unwrap_err().to_string().contains("only at --admin unix:"));
    assert!(known.end(1).unwrap_err().to_string().contains("only at --admin unix:"));
    let pages = [("/healthz", "200"), ("/readyz", "200"), ("/", "200"), ("/status", "401"), ("/metrics", "401"), ("/all", "401")];
    for (path, wanted) in pages {
        assert_eq!(status_of_page(&address, &own.join("ca.pem"), path), wanted, "{path}");
    }
    let file = |name: &str| own.join(name).display().to_string();
    let shown = ["--cert", &file("ann.pem"), "--key", &file("ann.key"), "--ca", &file("ca.pem")];
    let told = Command::new(program("tillermoss")).args(["--admin", &address, "status"]).args(shown).output().unwrap();
    assert!(String::from_utf8(told.stdout).unwrap().contains("ready yes"));
    fs::remove_dir_all(folder).unwrap();
}

// If nobody's name is said a token is what lets somebody in, and it is encrypted.
#[test]
fn a_token_is_shown_by_tls_too() {
    let folder = folder("encrypted");
    let (own, token) = (certificates(&folder, &["ann"]), folder.join("token"));
    fs::write(&token, "0123456789abcdef\n").unwrap();
    let file = |name: &str| own.join(name).display().to_string();
    let start = |words: &[&str]| {
        let shown = ["tcp:0", "--cert", &file("server.pem"), "--key", &file("server.key"), "--admin", "tls:0"];
        Start::new(&folder.join("store.db")).with(&shown).with(words).start()
    };
    assert!(start(&[]).unwrap_err().to_string().contains("wants --operator, or --admin-token"));
    let server = start(&["--admin-token", token.to_str().unwrap()]).unwrap();
    let address = server.admin.as_deref().unwrap().replace("127.0.0.1", "localhost");
    let admin = Admin::new(&address).unwrap().with_certificates(&own.join("ca.pem"), None).unwrap();
    assert!(admin.sessions().unwrap_err().to_string().contains("Bearer"));
    assert!(admin.clone().with_token("0123456789abcdee").sessions().is_err());
    assert_eq!(admin.with_token("0123456789abcdef").sessions().unwrap(), []);
    assert!(!server.logged().contains("nothing is encrypted there, so who listens between"));
    // (what is shown there by a client that nobody asked for a certificate counts for nothing)
    assert!(operator(&address, &own, &own, "ann").sessions().unwrap_err().to_string().contains("Bearer"));
    fs::remove_dir_all(folder).unwrap();
}

#[test]
fn a_status_says_whom_a_recovery_waits_for() {
    let folder = folder("recovering");
    let mut server = begin(&folder).start().unwrap();
    let gone = connect(&server, "bob");
    let number = gone.number();
    server.kill(Kill::Server).unwrap();
    // (it goes on asking where no server is)
    std::mem::forget(gone);
    server = begin(&folder).start().unwrap();
    let admin = Admin::new(server.admin.as_deref().unwrap()).unwrap();
    let recovery = admin.status().unwrap().recovery.unwrap();
    assert_eq!((recovery.count, recovery.waits_for[0].client, recovery.waits_for[0].principal.as_str()), (1, number, "bob"));
    assert!((50_000..=60_002).contains(&recovery.left), "{}", recovery.left);
    let line = ["--server", &server.address, "--admin", server.admin.as_deref().unwrap(), "status"];
    let told = Command::new(program("tillermoss")).args(line).output().unwrap();
    let told = String::from_utf8(told.stdout).unwrap();
    assert!(told.contains(&format!("s at most, until it has heard of client {number} (bob)\n")), "{told}");
    fs::remove_dir_all(folder).unwrap();
}
