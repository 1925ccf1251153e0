//! What the server has to bear: a table of attacks, each with what is refused, and with what stands after it: a client that had
//! come before still has its session and its handle, its file what it wrote, and a new client gets in.

use host_wire::{Asked, Blocks, MasterAnswer, REQUEST_LIMIT, Said, TurnedAway, write_block};
use nix::sys::resource::{Resource, getrlimit, setrlimit};
use nix::sys::signal::Signal;
use nix::unistd::{SysconfVar, sysconf};
use rand::rngs::StdRng;
use rand::{Rng, SeedableRng};
use std::fs;
use std::io::Write;
use std::net::TcpStream;
use std::path::{Path, PathBuf};
use std::process::{Command, Stdio};
use std::sync::atomic::{AtomicBool, Ordering};
use std::thread;
use std::time::{Duration, Instant};
use tillermoss::{Admin, Client, Error, Handle, LockMode, Mode, Options, Refusal, Right, own_principal};
use trials::{
    Kill, Master, Member, Plain, Server, Start, Stranger, Talker, again, answer, certificates, folder, forged, free, messages, new, revoke,
    start,
};

const SEED: u64 = 20_061_106;

/// The witness' settings: a short silence, and few connections that haven't greeted.
const SETTINGS: &str = "principals = [\"ann\", \"bob\"]\n[limits]\nsilence = 30\ngreetings = 200\nconnections = 300\n\
                        connections_of_a_principal = 250\nnodes = 20\nbytes = 1200000\nbytes_of_a_principal = 1000000\nlocks = 3\n";

/// A client that isn't to notice, and its file.
struct Witness {
    client: Client,
    file: Handle,
    turn: u64,
}

/// A cell that is attacked, and its witness.
struct Stage {
    folder: PathBuf,
    store: PathBuf,
    certificates: PathBuf,
    server: Server,
    witness: Witness,
    /// The files of the store as they were when the server went down in order for the first time.
    old: Option<Files>,
}

/// What the files of a store hold, by the ends of their names; None where there is no such file.
type Files = [Option<Vec<u8>>; 3];
const ENDS: [&str; 3] = ["", "-wal", "-numbers"];

/// An attack: what is to be refused, as it is told, and what does it.
type Attack = (&'static str, &'static str, fn(&mut Stage) -> String);

fn begin(store: &Path, certificates: &Path) -> Start {
    let socket = format!("unix:{}", store.with_added_extension("socket").display());
    Start::new(store).with(&["tcp:0", &socket, "--admin", "tcp:0"]).tls(certificates).settings(SETTINGS)
}

impl Witness {
    fn new(address: &str) -> Witness {
        let client = Client::connect(&Options::new(address, "ann")).unwrap();
        let file = client.create("/ls/c/witness", b"0").unwrap();
        Witness { client, file, turn: 0 }
    }

    // It goes on, and another comes. (A write on whose way another master came up is written again.)
    fn check(&mut self, address: &str, what: &str) {
        self.turn += 1;
        let content = self.turn.to_string().into_bytes();
        while let Err(error) = self.client.set(self.file, &content, None) {
            assert_eq!(error.refusal(), Some(Refusal::Unknown), "{what}: the witness' write: {error}");
        }
        assert_eq!(self.client.read(self.file).unwrap().content, content, "{what}");
        let options = Options { patience: Duration::from_secs(20), ..Options::new(address, "bob") };
        let other = Client::connect(&options).unwrap_or_else(|error| panic!("{what}: another client: {error}"));
        assert_eq!(other.read(other.open("/ls/c/witness", Mode::READ).unwrap()).unwrap().content, content, "{what}");
    }
}

impl Stage {
    fn new(test: &str) -> Stage {
        let folder = folder(test);
        let (store, certificates) = (folder.join("store.db"), certificates(&folder, &["ann", "mallory", "Mallory"]));
        let server = begin(&store, &certificates).start().unwrap();
        let witness = Witness::new(&server.address);
        Stage { folder, store, certificates, server, witness, old: None }
    }

    fn place(&self) -> &str {
        self.server.place()
    }

    fn tls_place(&self) -> String {
        self.server.addresses[2].replace("tls:127.0.0.1", "localhost")
    }

    // What a client with this certificate is told that says it acts for this principal.
    fn over_tls(&self, certificate: &str, authority: &str, principal: &str) -> String {
        let file = |name: String| Some(self.certificates.join(name));
        told(Client::connect(&Options {
            certificate: file(format!("{certificate}.pem")),
            key: file(format!("{certificate}.key")),
            authority: file(format!("{authority}.pem")),
            ..Options::new(&format!("tls:{}", self.tls_place()), principal)
        }))
    }

    fn check(&mut self, what: &str) {
        self.witness.check(&self.server.address, what);
    }

    // How the server is started once more, at the addresses that it has.
    fn again(&self) -> Start {
        let file = |name: &str| self.certificates.join(name).display().to_string();
        let mut words: Vec<&str> = self.server.addresses.iter().map(String::as_str).collect();
        words.extend(["--admin", self.server.admin.as_deref().unwrap()]);
        let start = Start::new(&self.store).with(&words);
        start.with(&["--cert", &file("server.pem"), "--key", &file("server.key"), "--client-ca", &file("ca.pem")]).settings(SETTINGS)
    }

    // Waits until the sessions of all but the witness are over: a new master would wait for them.
    fn wait_until_alone(&self) {
        let admin = Admin::new(self.server.admin.as_deref().unwrap()).unwrap();
        let is_alone = (0..900).any(|_| {
            thread::sleep(Duration::from_millis(100));
            admin.status().unwrap().sessions == 1
        });
        assert!(is_alone, "{:?}", admin.sessions());
    }

    // The server goes in order.
    fn stop(&mut self) {
        self.wait_until_alone();
        assert!(self.server.kill(Kill::InOrder).unwrap().success());
        let files = files(&self.store);
        self.old.get_or_insert(files);
    }
}

impl Drop for Stage {
    fn drop(&mut self) {
        if !thread::panicking() {
            // (a folder that can't be removed stays in the folder of tests)
            let _ = fs::remove_dir_all(&self.folder);
        }
    }
}

fn told(connected: Result<Client, Error>) -> String {
    match connected {
        Ok(_) => "let in".to_owned(),
        Err(Error::TurnedAway(reason)) => format!("{reason:?}"),
        Err(Error::Io(_)) => "cut off".to_owned(),
        Err(error) => error.to_string(),
    }
}

fn said(answer: Option<MasterAnswer>) -> String {
    match answer {
        None => "cut off".to_owned(),
        Some(MasterAnswer::Reply(None)) => "done".to_owned(),
        Some(MasterAnswer::Reply(Some(number)) | MasterAnswer::Refused(number)) => format!("refused {number}"),
        Some(other) => format!("{other:?}"),
    }
}

fn other_authority(stage: &mut Stage) -> String {
    let other = certificates(&folder("other-authority"), &["ann"]);
    for name in ["ann.pem", "ann.key"] {
        fs::copy(other.join(name), stage.certificates.join(format!("other-{name}"))).unwrap();
    }
    fs::remove_dir_all(other.parent().unwrap()).unwrap();
    stage.over_tls("other-ann", "ca", "ann")
}

/// What an attack cost others: the server's time on a processor, the longest write of the witness, and the first that failed.
#[derive(Debug, Default)]
struct Cost {
    processor: Duration,
    write: Duration,
    fault: Option<Error>,
}

// The time that the server has had on a processor.
fn processor_time(server: &Server) -> Duration {
    let stat = fs::read_to_string(format!("/proc/{}/stat", server.process())).unwrap();
    let (_, fields) = stat.rsplit_once(") ").unwrap();
    let ticks: u64 = fields.split(' ').skip(11).take(2).map(|field| field.parse::<u64>().unwrap()).sum();
    let a_second = sysconf(SysconfVar::CLK_TCK).unwrap().unwrap();
    Duration::from_millis(ticks * 1000 / a_second.cast_unsigned())
}

// While this goes on the witness writes, fifty times a second.
fn meanwhile<T: Send>(stage: &Stage, attack: impl FnOnce() -> T + Send) -> (T, Cost) {
    let (before, mut cost) = (processor_time(&stage.server), Cost::default());
    let done = thread::scope(|scope| {
        let attack = scope.spawn(attack);
        while !attack.is_finished() {
            let begun = Instant::now();
            let written = stage.witness.client.set(stage.witness.file, b"meanwhile", None);
            cost.write = cost.write.max(begun.elapsed());
            cost.fault = cost.fault.take().or(written.err());
            thread::sleep(Duration::from_millis(20));
        }
        attack.join().unwrap()
    });
    cost.processor = processor_time(&stage.server).saturating_sub(before);
    (done, cost)
}

// Of such authorities there are as many ways up as there are orders of them. Nobody is known yet who shows them.
fn chains_of_one_name(stage: &mut Stage) -> String {
    let holder = Client::connect(&Options::new(&stage.server.address, "bob")).unwrap();
    let file = holder.create("/ls/c/held", b"").unwrap();
    holder.acquire(file, LockMode::Exclusive).unwrap();
    let place = stage.tls_place();
    for (count, at_once) in [(11, 1), (14, 1), (14, 8)] {
        for authority in ["An authority of nobody", "Tillermoss test authority"] {
            let stranger = Stranger::new("ann", authority, count).unwrap();
            let show = || {
                thread::scope(|scope| {
                    let shows: Vec<_> = (0..at_once).map(|_| scope.spawn(|| stranger.show(&place).unwrap())).collect();
                    shows.into_iter().any(|show| show.join().unwrap())
                })
            };
            let (is_let_in, cost) = meanwhile(stage, show);
            println!("{at_once} chains of {count} named {authority}: {cost:?}");
            if is_let_in || cost.fault.is_some() || cost.processor > Duration::from_millis(500) || cost.write > Duration::from_secs(5) {
                return format!("{at_once} of {count} named {authority}: let in: {is_let_in}, {cost:?}");
            }
        }
    }
    let locks = Admin::new(stage.server.admin.as_deref().unwrap()).unwrap().locks().unwrap();
    let is_held = locks.iter().any(|lock| lock.name == "/ls/c/held" && lock.holders == [holder.number()]);
    holder.delete(file).unwrap();
    if is_held { "cut off".to_owned() } else { format!("{locks:?}") }
}

// Four authorities may stand between, and 16 KiB are read.
fn chains_that_are_too_long(stage: &mut Stage) -> String {
    let place = stage.tls_place();
    // (on a busy machine a greeting may take too long)
    let is_let_in = |stranger: Stranger| (0..3).any(|_| stranger.show(&place).unwrap());
    let below = |count| Stranger::below(&stage.certificates, "ann", count).unwrap();
    let let_in = [below(4), below(5), Stranger::new("ann", "An authority of nobody", 60).unwrap()].map(is_let_in);
    let reasons = ["certificate chain too long", "excessive message size"].map(|reason| stage.server.has_logged(reason));
    if (let_in, reasons) == ([true, false, false], [true; 2]) { "cut off".to_owned() } else { format!("{let_in:?}, {reasons:?}") }
}

// (the client library sends nobody there without one)
fn no_certificate(stage: &mut Stage) -> String {
    let authority = stage.certificates.join("ca.pem");
    let mut child = Command::new("openssl")
        .args(["s_client", "-quiet", "-connect", &stage.tls_place(), "-CAfile"])
        .arg(authority)
        .stdin(Stdio::piped())
        .stdout(Stdio::piped())
        .stderr(Stdio::piped())
        .spawn()
        .unwrap();
    // (where the server has ended it already nothing can be written)
    let _ = write_block(child.stdin.as_mut().unwrap(), &new("ann").write());
    let output = child.wait_with_output().unwrap();
    let is_alerted = String::from_utf8_lossy(&output.stderr).contains("certificate required");
    if is_alerted && output.stdout.is_empty() { "certificate required".to_owned() } else { format!("{output:?}") }
}

fn own_certificate_of_another(stage: &mut Stage) -> String {
    assert_eq!(stage.over_tls("mallory", "ca", "mallory"), "let in");
    stage.over_tls("mallory", "ca", "ann")
}

fn name_outside_the_grammar(stage: &mut Stage) -> String {
    stage.over_tls("Mallory", "ca", "ann")
}

fn another_user(stage: &mut Stage) -> String {
    let socket = &stage.server.addresses[1];
    assert_eq!(told(Client::connect(&Options::new(socket, &own_principal(socket, None).unwrap()))), "let in");
    told(Client::connect(&Options::new(socket, "not-this-user")))
}

fn another_number(stage: &mut Stage) -> String {
    let hello = again("ann", host_wire::Welcome { client: stage.witness.client.number(), token: 7 });
    Plain::greet(stage.place(), &hello).unwrap().1.map_or_else(|reason| format!("{reason:?}"), |_| "let in".to_owned())
}

// What a client with a session sends over its own connection goes over that of another client.
fn another_client_in_a_message(stage: &mut Stage) -> String {
    let mut own = Plain::begin(stage.place(), "mallory").unwrap();
    let mut other = Plain::begin(stage.place(), "mallory").unwrap();
    own.connection.send(&other.beat().unwrap()).unwrap();
    said(answer(&mut own.connection))
}

fn another_principal_in_a_start(stage: &mut Stage) -> String {
    let (mut connection, welcome) = Plain::greet(stage.place(), &new("mallory")).unwrap();
    connection.send(&start(welcome.unwrap().client, "ann")).unwrap();
    said(answer(&mut connection))
}

// A handle as a master of the first epoch would have given it, had the store the secret that everybody knows.
fn forged_handle(stage: &mut Stage) -> String {
    stage.stop();
    stage.server = stage.again().start().unwrap();
    overwrite_by_forging(&stage.server)
}

fn overwrite_by_forging(server: &Server) -> String {
    // (no session begins before the master has heard of all clients)
    let begun = (0..300).find_map(|_| Plain::begin(server.place(), "mallory").map_err(|_| thread::sleep(Duration::from_millis(200))).ok());
    let mut talker = begun.unwrap();
    let epoch = Asked::read(&talker.beat().unwrap()).unwrap().epoch();
    assert!(epoch > 1);
    let set = forged(talker.client.number(), epoch, "/ls/c/acl/base", b"mallory\n").unwrap();
    loop {
        let said = said(talker.ask(Some(set.clone())));
        // (29: the master hasn't heard of all clients yet)
        if said != "refused 29" {
            return said;
        }
        thread::sleep(Duration::from_millis(100));
    }
}

// Far more than may be there at once, and they stay.
fn slow_greetings(stage: &mut Stage) -> String {
    let mut slow: Vec<Plain> = (0..600).map(|_| Plain::connect(stage.place()).unwrap()).collect();
    for connection in &mut slow {
        // (of one that is cut off already nothing is told)
        let _ = connection.send_bytes(b"\0\0\0\x08\x01");
    }
    stage.check("slow greetings");
    let begun = Instant::now();
    let are_ended = slow.iter_mut().all(Plain::is_ended);
    if are_ended && begun.elapsed() < Duration::from_secs(10) { "cut off".to_owned() } else { "not cut off".to_owned() }
}

fn half_open_connections(stage: &mut Stage) -> String {
    let mut half: Vec<Plain> = (0..20).map(|_| Plain::begin(stage.place(), "mallory").unwrap().connection).collect();
    for connection in &mut half {
        connection.stream.set_read_timeout(Some(Duration::from_secs(60))).unwrap();
        connection.send_bytes(b"\0\0\x01\0half").unwrap();
    }
    stage.check("half-open connections");
    let are_ended = half.iter_mut().all(Plain::is_ended);
    if are_ended && stage.server.has_logged("its client is silent") { "cut off".to_owned() } else { "not cut off".to_owned() }
}

// In kilobytes.
fn memory(server: &Server) -> u64 {
    let status = fs::read_to_string(format!("/proc/{}/status", server.process())).unwrap();
    let line = status.lines().find(|line| line.starts_with("VmRSS")).unwrap();
    line.split_whitespace().nth(1).unwrap().parse().unwrap()
}

fn replies_that_are_not_read(stage: &mut Stage) -> String {
    let before = memory(&stage.server);
    let mut greedy = Vec::new();
    for _ in 0..8 {
        let mut talker = Plain::begin(stage.place(), "ann").unwrap();
        let handle = talker.open("/ls/c/large", &vec![b'a'; 262_144]).unwrap();
        let asked = (2..200).try_for_each(|_| {
            let call = talker.read_call(handle).unwrap();
            talker.forget(&call);
            talker.connection.send(&call)
        });
        // (it may be cut off before the last)
        drop(asked);
        greedy.push(talker.connection);
    }
    let is_cut = stage.server.has_logged("it doesn't read what it is sent");
    stage.check("replies that aren't read");
    let more = memory(&stage.server).saturating_sub(before);
    if is_cut && more < 60_000 { "cut off".to_owned() } else { format!("{is_cut}, {more} kB more") }
}

// The median time of a write of the witness, in microseconds.
fn time_of_a_write(stage: &Stage) -> u128 {
    let mut times: Vec<u128> = (0..200_u32)
        .map(|turn| {
            let begun = Instant::now();
            stage.witness.client.set(stage.witness.file, &turn.to_be_bytes(), None).unwrap();
            begun.elapsed().as_micros()
        })
        .collect();
    times.sort_unstable();
    times[times.len() / 2]
}

fn flood(stage: &mut Stage) -> String {
    let before = time_of_a_write(stage);
    let is_over = AtomicBool::new(false);
    let during = thread::scope(|scope| {
        for _ in 0..2 {
            let mut talker = Plain::begin(stage.place(), "mallory").unwrap();
            let mut reader = talker.connection.stream.try_clone().unwrap();
            let is_over = &is_over;
            scope.spawn(move || {
                let mut blocks = Blocks::new(1 << 20);
                while !is_over.load(Ordering::Relaxed) && blocks.next(&mut reader).is_ok_and(|block| block.is_some()) {}
            });
            scope.spawn(move || {
                while !is_over.load(Ordering::Relaxed) {
                    let beat = talker.beat().unwrap();
                    if talker.connection.send(&beat).is_err() {
                        break;
                    }
                }
                talker.connection.stream.shutdown(std::net::Shutdown::Both).unwrap();
            });
        }
        thread::sleep(Duration::from_millis(500));
        let during = time_of_a_write(stage);
        is_over.store(true, Ordering::Relaxed);
        during
    });
    println!("a write took {before} us alone, {during} us beside a flood");
    if during <= 3 * before { "slowed down".to_owned() } else { format!("{before} us alone, {during} us beside it") }
}

// Reads by a handle, of the master each time: the client doesn't learn the answer, so its cache has none.
fn read_of_the_master(talker: &mut Talker, handle: u64) -> Option<()> {
    let call = talker.read_call(handle)?;
    let number = Asked::read(&call)?.number();
    talker.connection.send(&call).ok()?;
    while Said::read(&talker.connection.next_block()?).is_none_or(|said| said.number != number) {}
    talker.forget(&call);
    Some(())
}

// The longest read of a client, asked of the master fifty times a second until this is over, and how often it was read.
fn longest_read(talker: &mut Talker, handle: u64, is_over: impl Fn() -> bool) -> (Duration, u32) {
    let (mut longest, mut count) = (Duration::ZERO, 0);
    while !is_over() {
        let begun = Instant::now();
        // (one that isn't answered in 20 s is over)
        let answered = read_of_the_master(talker, handle);
        (longest, count) = (longest.max(begun.elapsed()), count + 1);
        if answered.is_none() {
            break;
        }
        thread::sleep(Duration::from_millis(20));
    }
    (longest, count)
}

// Greets, and sends so many bytes of the longest block there is, as far as they are read within three seconds.
fn send_large(place: &str, bytes: usize) -> Option<Plain> {
    let (mut connection, welcome) = Plain::greet(place, &new("mallory")).ok()?;
    welcome.ok()?;
    connection.stream.set_write_timeout(Some(Duration::from_secs(3))).unwrap();
    let mut block = (REQUEST_LIMIT as u32).to_be_bytes().to_vec();
    block.resize(4 + bytes, 0);
    // (what isn't read can't be sent)
    let _ = connection.send_bytes(&block);
    Some(connection)
}

// Of one principal: two hundred connections that don't end their blocks, and as many that send them whole, again and again.
fn large_blocks(stage: &mut Stage) -> String {
    let (place, before) = (stage.place().to_owned(), memory(&stage.server));
    let mut other = Plain::begin(&place, "bob").unwrap();
    let handle = other.open("/ls/c/read", b"").unwrap();
    let alone = Instant::now();
    let (read_alone, _) = longest_read(&mut other, handle, || alone.elapsed() > Duration::from_secs(1));
    let more = thread::scope(|scope| {
        let held: Vec<_> = (0..200).map(|_| scope.spawn(|| send_large(&place, REQUEST_LIMIT - 1))).collect();
        let held: Vec<_> = held.into_iter().map(|sent| sent.join().unwrap()).collect();
        assert!(held.iter().all(Option::is_some));
        memory(&stage.server).saturating_sub(before)
    });
    let begun = Instant::now();
    let is_over = || begun.elapsed() > Duration::from_secs(5);
    let (read, count) = thread::scope(|scope| {
        for _ in 0..200 {
            scope.spawn(|| {
                while !is_over() {
                    send_large(&place, REQUEST_LIMIT).as_mut().map(Plain::is_ended);
                }
            });
        }
        longest_read(&mut other, handle, is_over)
    });
    println!("large blocks: {more} kB more; the longest of {count} reads {read:?}, {read_alone:?} alone");
    let is_borne = more < 60_000 && read < Duration::from_secs(1).max(4 * read_alone);
    if is_borne { "they wait for each other".to_owned() } else { format!("{more} kB more; the longest of {count} reads {read:?}") }
}

// As many as may be there, and more.
fn idle_operators(stage: &mut Stage) -> String {
    let place = stage.server.admin.as_deref().unwrap().strip_prefix("tcp:").unwrap();
    let _idle: Vec<TcpStream> = (0..200).map(|_| TcpStream::connect(place).unwrap()).collect();
    let agent = ureq::AgentBuilder::new().timeout(Duration::from_secs(10)).build();
    match agent.get(&format!("http://{place}/healthz")).call() {
        Ok(answer) => answer.status().to_string(),
        Err(error) => error.to_string(),
    }
}

// Whole exchanges with some of their bytes changed, lost or doubled.
fn mutated_blocks(stage: &mut Stage) -> String {
    let mut random = StdRng::seed_from_u64(SEED);
    let mut answers = 0;
    let mut master = Master::start().unwrap();
    let said: Vec<[Vec<u8>; 3]> = (1..51).map(|client| messages(&mut master, client, "mallory").unwrap()).collect();
    for turn in 0..2000 {
        let mut bytes = Vec::new();
        write_block(&mut bytes, &new("mallory").write()).unwrap();
        said[turn % 50].iter().for_each(|block| write_block(&mut bytes, block).unwrap());
        for _ in 0..random.gen_range(1..6) {
            let at = random.gen_range(0..bytes.len());
            match random.gen_range(0..4) {
                0 => bytes[at] = random.r#gen(),
                1 => bytes[at] ^= 1 << random.gen_range(0..8),
                2 => _ = bytes.drain(at..(at + random.gen_range(1..8)).min(bytes.len())),
                _ => bytes.insert(at, random.r#gen()),
            }
        }
        let mut connection = Plain::connect(stage.place()).unwrap();
        // (the server may have ended it in the middle)
        let _ = connection.stream.write_all(&bytes);
        let _ = connection.stream.shutdown(std::net::Shutdown::Write);
        answers += u32::from(connection.next_block().is_some());
    }
    if answers > 100 { "refused or cut off".to_owned() } else { format!("only {answers} answers") }
}

fn too_many_connections(stage: &mut Stage) -> String {
    let mut held = Vec::new();
    for _ in 0..300 {
        match Plain::greet(stage.place(), &new("crowd")).unwrap() {
            (connection, Ok(_)) => held.push(connection),
            (_, Err(reason)) => {
                stage.check("too many connections");
                return format!("{reason:?} after {}", held.len());
            }
        }
    }
    "let in".to_owned()
}

// Files of this content are made, for these principals in turn, until one is refused; then they go. Why it was refused.
fn too_many_files(stage: &mut Stage, principals: &[&str], content: &[u8]) -> String {
    let connect = |principal: &&str| Client::connect(&Options::new(&stage.server.address, principal)).unwrap();
    let clients: Vec<Client> = principals.iter().map(connect).collect();
    let mut made = Vec::new();
    let refused =
        (0..30).zip(clients.iter().cycle()).find_map(|(number, client)| match client.create(&format!("/ls/c/n{number}"), content) {
            Ok(file) => {
                made.push((client, file));
                None
            }
            Err(error) => Some(error.to_string()),
        });
    for (client, file) in made {
        client.delete(file).unwrap();
    }
    refused.unwrap_or_else(|| "let in".to_owned())
}

fn too_many_nodes(stage: &mut Stage) -> String {
    too_many_files(stage, &["ann"], b"")
}

fn too_many_bytes(stage: &mut Stage) -> String {
    too_many_files(stage, &["bob", "ann"], &[0; 250_000])
}

fn too_many_bytes_of_one(stage: &mut Stage) -> String {
    too_many_files(stage, &["ann"], &[0; 250_000])
}

// A client that holds as many locks as it may asks for one more, by each way to ask; after it has released one it gets that.
fn too_many_locks(stage: &mut Stage) -> String {
    let client = Client::connect(&Options::new(&stage.server.address, "ann")).unwrap();
    let files: Vec<Handle> = (0..4).map(|number| client.create(&format!("/ls/c/l{number}"), b"").unwrap()).collect();
    for file in &files[..3] {
        client.acquire(*file, LockMode::Exclusive).unwrap();
    }
    let refused = [client.acquire(files[3], LockMode::Exclusive), client.try_acquire(files[3], LockMode::Shared)];
    client.release(files[0]).unwrap();
    client.acquire(files[3], LockMode::Exclusive).unwrap();
    for file in files {
        client.delete(file).unwrap();
    }
    match refused {
        [Err(waiting), Err(trying)] if waiting.to_string() == trying.to_string() => waiting.to_string(),
        other => format!("{other:?}"),
    }
}

fn a_second_server(stage: &mut Stage) -> String {
    let error = Start::new(&stage.store).start().unwrap_err().to_string();
    if error.contains("another server holds") { "another server holds the store".to_owned() } else { error }
}

// A stopped master answers nothing.
fn a_master_that_hangs(stage: &mut Stage) -> String {
    let master = stage.server.master().unwrap();
    nix::sys::signal::kill(nix::unistd::Pid::from_raw(master.cast_signed()), Signal::SIGSTOP).unwrap();
    if stage.server.has_logged("it doesn't answer") { "replaced".to_owned() } else { "nothing".to_owned() }
}

fn requests_of_other_sites(stage: &mut Stage) -> String {
    let place = stage.server.admin.as_deref().unwrap().strip_prefix("tcp:").unwrap();
    match ureq::get(&format!("http://{place}/all")).set("Host", "evil.example").call() {
        Err(ureq::Error::Status(status, _)) => status.to_string(),
        other => format!("{other:?}"),
    }
}

#[test]
fn attacks_are_refused_and_the_cell_stands() {
    let attacks: &[Attack] = &[
        ("a certificate of another authority", "cut off", other_authority),
        ("no certificate", "certificate required", no_certificate),
        ("chains of certificates of one name", "cut off", chains_of_one_name),
        ("chains of certificates that are too long", "cut off", chains_that_are_too_long),
        ("a certificate, and another's principal", "OtherPrincipal", own_certificate_of_another),
        ("a certificate whose name is no principal", "BadPrincipal", name_outside_the_grammar),
        ("a user, and another's principal", "OtherPrincipal", another_user),
        ("another's number", "WrongToken", another_number),
        ("a message that names another client", "cut off", another_client_in_a_message),
        ("a Start that names another principal", "cut off", another_principal_in_a_start),
        ("mutated blocks", "refused or cut off", mutated_blocks),
        ("slow greetings", "cut off", slow_greetings),
        ("half-open connections", "cut off", half_open_connections),
        ("replies that aren't read", "cut off", replies_that_are_not_read),
        ("floods of Beats", "slowed down", flood),
        ("large blocks", "they wait for each other", large_blocks),
        ("idle connections of operators", "200", idle_operators),
        ("too many connections", "FullForPrincipal after 250", too_many_connections),
        ("too many nodes", "NoRoom 20: this limit of the cell leaves no room", too_many_nodes),
        ("too many bytes", "NoRoom 1200000: this limit of the cell leaves no room", too_many_bytes),
        ("too many bytes of one", "the limit bytes_of_a_principal = 1000000 leaves no room for 250000 more", too_many_bytes_of_one),
        ("one lock more than a session may have", "NoRoom 3: this limit of the cell leaves no room", too_many_locks),
        ("a second server", "another server holds the store", a_second_server),
        ("a page of another site", "403", requests_of_other_sites),
        ("a forged handle of an earlier epoch", "refused 17", forged_handle),
        ("a master that doesn't answer", "replaced", a_master_that_hangs),
        ("a store that is taken away", "stopped, and nothing more is written: the store went away", store_taken_away),
        ("a store that is replaced", "stopped, and nothing more is written: the store was replaced by another file", store_replaced),
        ("a store that is rolled back", "not started, and nothing is written: the store is an older copy", store_rolled_back),
        ("a store that is gone", "not started, and nothing is written: the numbers are there, but not the store", store_gone),
        ("numbers that are gone", "not started, and nothing is written: the store has no numbers", numbers_gone),
        ("numbers that are rolled back", "not started, and nothing is written: they are an older copy", numbers_rolled_back),
        ("a full disk", "a write waits until there is room again", full_disk),
    ];
    // (ATTACK names some of them by what their names have in common)
    let named = std::env::var("ATTACK").unwrap_or_default();
    let attacks: Vec<&Attack> = attacks.iter().filter(|(what, ..)| what.contains(&named)).collect();
    assert!(!attacks.is_empty(), "no attack is named {named}");
    let mut stage = Stage::new("attacks");
    for (what, wanted, attack) in attacks {
        let refused = attack(&mut stage);
        assert_eq!(refused, *wanted, "{what}; the log: {}", tail(&stage.server.logged()));
        stage.check(what);
        println!("attack: {what}: {refused}; after it a session, its file and a new client stand");
    }
}

fn tail(log: &str) -> &str {
    log.get(log.len().saturating_sub(4000)..).unwrap_or(log)
}

// What forging comes to where the secret is known: so the attack above is one.
#[test]
fn a_store_with_a_known_secret_is_taken_with_a_warning() {
    let folder = folder("known-secret");
    let store = folder.join("store.db");
    let start = Start::new(&store).settings(&format!("secret = \"{}\"\n", "0".repeat(64)));
    let mut server = start.start().unwrap();
    server.kill(Kill::InOrder).unwrap();
    let server = start.start().unwrap();
    assert!(server.has_logged("the store's secret is all zeros"));
    assert_eq!(overwrite_by_forging(&server), "done");
    fs::remove_dir_all(folder).unwrap();
}

fn beside(store: &Path, end: &str) -> PathBuf {
    PathBuf::from(format!("{}{end}", store.display()))
}

fn files(store: &Path) -> Files {
    ENDS.map(|end| fs::read(beside(store, end)).ok())
}

fn put(store: &Path, files: &Files) {
    for (end, file) in ENDS.iter().zip(files) {
        match file {
            Some(bytes) => fs::write(beside(store, end), bytes).unwrap(),
            // (one that isn't there can't be removed)
            None => _ = fs::remove_file(beside(store, end)),
        }
    }
}

// The store is moved away while its server runs, and there is another in its place or none; then it is put back, and served again.
fn lost_while_served(stage: &mut Stage, lose: fn(&Path, &Path), wanted: &str) -> String {
    stage.wait_until_alone();
    let aside = stage.store.with_extension("aside");
    lose(&stage.store, &aside);
    let left = || (files(&stage.store), fs::read(&aside).ok());
    let before = left();
    let (has_failed, is_same) = (!stage.server.wait().unwrap().success(), left() == before);
    fs::rename(&aside, &stage.store).unwrap();
    let has_said = stage.server.logged().contains(wanted);
    stage.server = stage.again().start().unwrap();
    match (has_failed, is_same, has_said) {
        (true, true, true) => format!("stopped, and nothing more is written: the store {wanted}"),
        other => format!("failed, left as it was, said: {other:?}"),
    }
}

fn store_taken_away(stage: &mut Stage) -> String {
    lost_while_served(stage, |store, aside| fs::rename(store, aside).unwrap(), "went away")
}

fn store_replaced(stage: &mut Stage) -> String {
    let replace = |store: &Path, aside: &Path| {
        fs::rename(store, aside).unwrap();
        fs::copy(aside, store).map(|_| ()).unwrap();
    };
    lost_while_served(stage, replace, "was replaced by another file")
}

// Between two servers the files are made others; then they are put back, and served again.
fn lost_between(stage: &mut Stage, lose: fn(&Path, &Files), said: &str, wanted: &str) -> String {
    stage.stop();
    let present = files(&stage.store);
    let old = stage.old.as_ref().unwrap();
    assert!(present[0] != old[0] && present[2] != old[2]);
    lose(&stage.store, old);
    let before = files(&stage.store);
    let error = stage.again().start().map_or_else(|error| error.to_string(), |_| "started".to_owned());
    let is_same = files(&stage.store) == before;
    put(&stage.store, &present);
    stage.server = stage.again().start().unwrap();
    match (error.contains(said), is_same) {
        (true, true) => format!("not started, and nothing is written: {wanted}"),
        (_, is_same) => format!("left as it was: {is_same}; {error}"),
    }
}

fn store_rolled_back(stage: &mut Stage) -> String {
    let lose = |store: &Path, old: &Files| fs::write(store, old[0].as_ref().unwrap()).unwrap();
    lost_between(stage, lose, "the store is an older copy", "the store is an older copy")
}

fn store_gone(stage: &mut Stage) -> String {
    lost_between(stage, |store, _| fs::remove_file(store).unwrap(), "but not its store", "the numbers are there, but not the store")
}

fn numbers_gone(stage: &mut Stage) -> String {
    lost_between(stage, |store, _| fs::remove_file(beside(store, "-numbers")).unwrap(), "the store has no", "the store has no numbers")
}

fn numbers_rolled_back(stage: &mut Stage) -> String {
    let lose = |store: &Path, old: &Files| fs::write(beside(store, "-numbers"), old[2].as_ref().unwrap()).unwrap();
    lost_between(stage, lose, "they are an older copy", "they are an older copy")
}

// A cell of its own: a write waits while its disk is full, and is done when there is room again.
fn full_disk(_: &mut Stage) -> String {
    let folder = folder("full-disk");
    let disk = folder.join("disk");
    fs::create_dir(&disk).unwrap();
    let mut server = Start::new(&disk.join("store.db")).on_disk(2).start().unwrap();
    let mut witness = Witness::new(&server.address);
    let file = witness.client.create("/ls/c/f", b"first").unwrap();
    let filler = server.fill_disk().unwrap();
    let waited = thread::scope(|scope| {
        let (client, begun) = (&witness.client, Instant::now());
        let written = scope.spawn(move || client.set(file, &[b'a'; 200_000], None).map(|()| begun.elapsed()));
        assert!(server.has_logged("the store refuses"));
        thread::sleep(Duration::from_secs(2));
        assert!(!written.is_finished());
        fs::remove_file(filler).unwrap();
        written.join().unwrap().unwrap()
    });
    assert!(waited >= Duration::from_secs(2));
    assert_eq!(witness.client.read(file).unwrap().stat.length, 200_000);
    assert!(server.has_logged("the store takes writes again"));
    witness.check(&server.address, "a full disk");
    drop(witness);
    assert!(server.kill(Kill::InOrder).unwrap().success(), "{}", server.logged());
    fs::remove_dir_all(folder).unwrap();
    "a write waits until there is room again".to_owned()
}

// A client by TLS, as far as it is let in within five seconds.
fn by_tls(certificates: &Path, place: &str, principal: &str) -> Result<Client, Error> {
    let file = |name: String| Some(certificates.join(name));
    Client::connect(&Options {
        certificate: file(format!("{principal}.pem")),
        key: file(format!("{principal}.key")),
        authority: file("ca.pem".to_owned()),
        patience: Duration::from_secs(5),
        ..Options::new(&place.replace("127.0.0.1", "localhost"), principal)
    })
}

// Bob is taken out of the ACL, his certificate is revoked, and then he is ended.
#[test]
fn who_is_let_out_stays_out() {
    let folder = folder("out");
    let (store, certificates) = (folder.join("store.db"), certificates(&folder, &["ann", "bob"]));
    revoke(&certificates, &[]);
    let (admin, list) = (format!("unix:{}", folder.join("admin").display()), certificates.join("revoked.pem").display().to_string());
    let start = Start::new(&store).with(&["tcp:0", "--admin", &admin, "--client-crl", &list]).tls(&certificates);
    let server = start.settings("principals = [\"ann\", \"bob\"]\nlease = 1000\n").start().unwrap();
    let place = &server.addresses[1];
    let (ann, bob) = (by_tls(&certificates, place, "ann").unwrap(), by_tls(&certificates, place, "bob").unwrap());
    let of_ann = ann.create("/ls/c/f", b"first").unwrap();
    let of_bob = bob.open("/ls/c/f", Mode::READ.and(Mode::WRITE)).unwrap();
    bob.acquire(of_bob, LockMode::Exclusive).unwrap();
    let base = ann.open("/ls/c/acl/base", Mode::WRITE).unwrap();
    ann.set(base, b"ann\n", None).unwrap();
    // (rights are tested when a node is opened)
    bob.set(of_bob, b"by bob", None).unwrap();
    assert_eq!(bob.open("/ls/c/f", Mode::WRITE).unwrap_err().refusal(), Some(Refusal::Denied(Right::Write)));
    revoke(&certificates, &["bob"]);
    server.signal(Signal::SIGHUP).unwrap();
    assert!(server.has_logged("the certificates were read again"));
    assert!(by_tls(&certificates, place, "bob").is_err() && server.has_logged("certificate revoked"));
    assert!(by_tls(&certificates, place, "ann").is_ok());
    bob.set(of_bob, b"by bob still", None).unwrap();
    assert!(ann.try_acquire(of_ann, LockMode::Exclusive).is_err());
    let begun = Instant::now();
    assert_eq!(Admin::new(&admin).unwrap().end_all("bob").unwrap(), [bob.number()]);
    assert!(bob.set(of_bob, b"by bob after the end", None).is_err());
    ann.acquire(of_ann, LockMode::Exclusive).unwrap();
    println!("the lock of a client that was ended is free after {:?}", begun.elapsed());
    assert_eq!(ann.read(of_ann).unwrap().content, b"by bob still");
    drop((ann, bob, server));
    fs::remove_dir_all(folder).unwrap();
}

// (at tcp: too, where it isn't his certificate that keeps him out)
#[test]
fn who_was_ended_is_not_let_in_by_his_number() {
    let folder = folder("ended");
    let start = Start::new(&folder.join("store.db")).with(&["tcp:0", "--admin", &format!("unix:{}", folder.join("admin").display())]);
    let mut server = start.start().unwrap();
    let admin = Admin::new(server.admin.as_deref().unwrap()).unwrap();
    let (_connection, welcome) = Plain::greet(server.place(), &new("ann")).unwrap();
    let hello = again("ann", welcome.unwrap());
    let (_held, taken) = Plain::greet(server.place(), &hello).unwrap();
    assert!(taken.is_ok());
    let client = Client::connect(&Options { patience: Duration::from_secs(5), ..Options::new(&server.address, "ann") }).unwrap();
    assert_eq!(admin.end_all("ann").unwrap().len(), 2);
    assert_eq!(Plain::greet(server.place(), &hello).unwrap().1, Err(TurnedAway::WrongToken));
    assert!(client.create("/ls/c/f", b"").is_err());
    assert!(Plain::greet(server.place(), &new("ann")).unwrap().1.is_ok());
    assert!(admin.end_all("nobody").unwrap_err().to_string().contains("there is no such client"));
    // (nor by the next server)
    server.kill(Kill::Server).unwrap();
    let server = start.start().unwrap();
    assert_eq!(Plain::greet(server.place(), &hello).unwrap().1, Err(TurnedAway::WrongToken));
    assert!(Plain::greet(server.place(), &new("ann")).unwrap().1.is_ok());
    drop((client, server));
    std::fs::remove_dir_all(folder).unwrap();
}

// A server over an etcd that hangs, and eight that greet: the next number has to be written there. Who is connected reads meanwhile.
#[test]
fn who_waits_for_a_number_holds_up_nobody() {
    let folder = folder("hangs");
    let member = Member::start(&folder).unwrap();
    member.make("c").unwrap();
    let start = Start::new(&folder.join("server")).with(&[&format!("tcp:{}", free()), "--mastership", "30"]);
    let server = start.rows(&member.rows("c")).start().unwrap();
    let place = server.place();
    let mut other = Plain::begin(place, "bob").unwrap();
    let handle = other.open("/ls/c/read", b"").unwrap();
    // (a hundred are written down at once, and the next is the first of another hundred)
    let held = loop {
        let welcome = Plain::greet(place, &new("ann")).unwrap().1.unwrap();
        if welcome.client.is_multiple_of(100) {
            break welcome;
        }
    };
    let hung = member.hang(|| {
        thread::scope(|scope| {
            (0..8).for_each(|_| drop(scope.spawn(|| Plain::greet(place, &new("ann")))));
            thread::sleep(Duration::from_millis(200));
            let begun = Instant::now();
            let (read, count) = longest_read(&mut other, handle, || begun.elapsed() > Duration::from_secs(2));
            let again_at = Instant::now();
            let is_back = Plain::greet(place, &again("ann", held)).unwrap().1.is_ok();
            (read, count, is_back, again_at.elapsed())
        })
    });
    let (read, count, is_back, back) = hung.unwrap();
    println!("an etcd that hangs: the longest of {count} reads {read:?}; a client came back in {back:?}");
    assert!(is_back && count > 10 && read.max(back) < Duration::from_secs(1));
    assert!(Plain::greet(place, &new("ann")).unwrap().1.is_ok());
    drop((other, server, member));
    fs::remove_dir_all(folder).unwrap();
}

// What is put in the place of its program isn't started: it may be of another version.
#[test]
fn masters_are_of_the_version_of_their_server() {
    let folder = folder("program");
    let (program, next) = (folder.join("cellctl"), folder.join("next"));
    fs::copy(trials::master_program(), &program).unwrap();
    let server = Start::new(&folder.join("store.db")).with(&["--master", &program.display().to_string()]).start().unwrap();
    let mut witness = Witness::new(&server.address);
    fs::copy("/bin/false", &next).unwrap();
    fs::rename(&next, &program).unwrap();
    server.kill_master().unwrap();
    assert!(server.has_logged("another takes its place"));
    witness.check(&server.address, "another program");
    drop((witness, server));
    fs::remove_dir_all(folder).unwrap();
}

// The numbers beside the store are wound back by hand, so that the next new client gets the one that a live session has.
#[test]
fn who_gets_another_clients_number_does_not_act_for_it() {
    let mut stage = Stage::new("number-twice");
    let number = stage.witness.client.number();
    stage.stop();
    let path = beside(&stage.store, "-numbers");
    let lines = fs::read_to_string(&path).unwrap();
    let wound_back = lines.lines().map(|line| if line.starts_with("next ") { format!("next {number}\n") } else { format!("{line}\n") });
    fs::write(&path, wound_back.collect::<String>()).unwrap();
    // (at other ports: the witness, which would end the other one's connection, doesn't come back)
    stage.server = begin(&stage.store, &stage.certificates).start().unwrap();
    let (mut connection, welcome) = Plain::greet(stage.place(), &new("bob")).unwrap();
    assert_eq!(welcome.unwrap().client, number);
    let [_, beat, _] = messages(&mut Master::of_epoch(2).unwrap(), number, "bob").unwrap();
    connection.send(&beat).unwrap();
    let refused = said(answer(&mut connection));
    println!("attack: a number that is given twice, and a Beat in another's session: {refused}");
    assert_eq!(refused, "cut off", "the log: {}", tail(&stage.server.logged()));
    assert!(stage.server.has_logged("its session is another principal's"));
}

#[test]
fn an_address_that_is_not_safe_wants_a_word() {
    let folder = folder("insecure");
    let (store, settings) = (folder.join("store.db"), folder.join("settings.toml"));
    fs::write(&settings, "principals = [\"ann\"]\n").unwrap();
    let settings = settings.display().to_string();
    let rows: &[(&[&str], Option<&str>)] = &[
        (&["tcp:0.0.0.0:0"], Some("only with --insecure")),
        (&["tls:0"], Some("wants --cert, --key and --client-ca")),
        (&["tcp:0", "--admin", "tcp:0.0.0.0:0"], Some("only unix:PATH, tls:, or tcp: on loopback")),
        (&["tcp:0.0.0.0:0", "--insecure"], Some("trusts nobody")),
        (&["tcp:0.0.0.0:0", "--insecure", "--settings", &settings], None),
    ];
    for (words, wanted) in rows {
        let started = Start::new(&store).with(words).start();
        match wanted {
            Some(wanted) => assert!(started.unwrap_err().to_string().contains(wanted), "{words:?}"),
            None => assert!(started.unwrap().has_logged("acts for anybody, and nothing is encrypted"), "{words:?}"),
        }
    }
    fs::remove_dir_all(folder).unwrap();
}

// How many clients of bob, each with this file open to write.
fn writers(place: &str, name: &str, count: usize) -> Vec<(Talker, u64)> {
    const AT_ONCE: usize = 32;
    let coming = |of: usize| {
        (of..count).step_by(AT_ONCE).map(|_| {
            let mut talker = Plain::begin(place, "bob").unwrap();
            let opened = talker.open(name, b"").unwrap();
            (talker, opened)
        })
    };
    thread::scope(|scope| {
        let coming: Vec<_> = (0..AT_ONCE).map(|of| scope.spawn(move || coming(of).collect::<Vec<_>>())).collect();
        coming.into_iter().flat_map(|coming| coming.join().unwrap()).collect()
    })
}

// More clients of bob than a master has places for changes set one file, which a client of carol's caches that is silent until the others
// were looked at.
#[test]
fn changes_of_one_principal_hold_up_no_other() {
    const WRITERS: usize = 4200;
    const SOON: Duration = Duration::from_secs(3);
    let (_, most) = getrlimit(Resource::RLIMIT_NOFILE).unwrap();
    assert!(most > 4400, "this wants 4,400 descriptors: ulimit -Hn says {most}");
    setrlimit(Resource::RLIMIT_NOFILE, most, most).unwrap();
    let folder = folder("share");
    let settings = "lease = 60000\nprincipals = [\"ann\", \"bob\", \"carol\"]\n[limits]\nbytes_of_a_principal = 2000000000\n";
    let server = Start::new(&folder.join("store.db")).settings(settings).with(&["--admin", "tcp:0"]).start().unwrap();
    let witness = Client::connect(&Options::new(&server.address, "ann")).unwrap();
    let file = witness.create("/ls/c/f", b"before").unwrap();
    witness.create("/ls/c/cached", b"before").unwrap();
    let mut writers = writers(server.place(), "/ls/c/cached", WRITERS);
    let mut silent = Plain::begin(server.place(), "carol").unwrap();
    let seen = silent.open("/ls/c/cached", b"").unwrap();
    silent.read(seen).unwrap();
    for (writer, opened) in &mut writers {
        let set = writer.client.set(0, *opened, b"written").unwrap();
        writer.connection.send(&set).unwrap();
    }
    thread::sleep(Duration::from_secs(2));
    let timed = |act: &dyn Fn()| {
        let begun = Instant::now();
        act();
        begun.elapsed()
    };
    let write = timed(&|| witness.set(file, b"after", None).unwrap());
    let session = timed(&|| drop(Client::connect(&Options::new(&server.address, "dave")).unwrap().open("/ls/c", Mode::READ)));
    let metrics = ureq::get(&format!("http://{}/metrics", server.admin.as_deref().unwrap().trim_start_matches("tcp:"))).call().unwrap();
    let kept = metrics.into_string().unwrap().lines().find_map(|line| line.strip_prefix("tillermoss_changes_kept_total ")?.parse().ok());
    println!("attack: {WRITERS} changes of bob wait ({kept:?} kept): a write of ann took {write:?}, a new session of dave {session:?}");
    assert!(write < SOON && session < SOON, "{}", server.logged());
    assert_eq!(kept, Some((WRITERS - 1024) as u64));
    // (it hears of the change by an answer to a Beat, and lets go by the next one)
    let beat = silent.beat();
    silent.ask(beat);
    silent.connection.send(&silent.client.beat(0).unwrap()).unwrap();
    let begun = Instant::now();
    let answers = writers.iter_mut().map(|(writer, _)| said(answer(&mut writer.connection)));
    let others: Vec<_> = answers.filter(|answer| *answer != "done").collect();
    println!("attack: {WRITERS} changes of bob were done within {:?} once nobody cached the file", begun.elapsed());
    assert!(others.is_empty(), "{} of {WRITERS} weren't done: {:?}: {}", others.len(), others.first(), server.logged());
    drop(writers);
    fs::remove_dir_all(folder).unwrap();
}

#[test]
fn ten_thousand_connections_hold_in_little_memory() {
    let (_, most) = getrlimit(Resource::RLIMIT_NOFILE).unwrap();
    assert!(most > 10_200, "this wants 10,200 descriptors: ulimit -Hn says {most}");
    setrlimit(Resource::RLIMIT_NOFILE, most, most).unwrap();
    let folder = folder("many");
    let store = folder.join("store.db");
    let server = Start::new(&store).settings("[limits]\nconnections = 10000\nconnections_of_a_principal = 10000\n").start().unwrap();
    let mut held = Vec::new();
    for number in 0..10_000 {
        let (connection, welcome) = Plain::greet(server.place(), &new("ann")).unwrap();
        assert!(welcome.is_ok(), "{number}: {welcome:?}");
        held.push(connection);
    }
    let kilobytes = memory(&server);
    println!("10,000 connections hold {} MB", kilobytes / 1000);
    assert!(kilobytes < 200_000, "{kilobytes} kB");
    assert_eq!(Plain::greet(server.place(), &new("bob")).unwrap().1, Err(TurnedAway::Full));
    drop(held);
    fs::remove_dir_all(folder).unwrap();
}
