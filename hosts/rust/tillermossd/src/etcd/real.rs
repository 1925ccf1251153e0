//! What an etcd answers to each question that is asked of it here: Debian's etcd-server, of one member, as a process.

use crate::etcd::channels::{ChannelQuestion, Channels};
use crate::etcd::gateway::{Compare, Followed, Lost, Members, Operation};
use crate::etcd::messages::{MethodCall, WatchOfKeys, WatchWanted};
use crate::net::tls::client_config;
use nix::sys::signal::{Signal, kill};
use nix::unistd::Pid;
use std::net::TcpListener;
use std::path::PathBuf;
use std::process::{Child, Command, Stdio};
use std::slice::from_ref;
use std::thread;
use std::time::{Duration, Instant};
use tempfile::TempDir;

/// How long it may take to come up.
const COMING_UP: Duration = Duration::from_secs(60);

struct Real {
    folder: TempDir,
    place: String,
    child: Child,
}

fn free() -> String {
    TcpListener::bind("127.0.0.1:0").unwrap().local_addr().unwrap().to_string()
}

impl Real {
    // One that is reached so, with these options more. It may not be up yet.
    fn start(folder: TempDir, scheme: &str, options: &[&str]) -> Real {
        let (place, peer) = (free(), format!("http://{}", free()));
        let url = format!("{scheme}://{place}");
        let mut command = Command::new("etcd");
        command.arg("--data-dir").arg(folder.path().join("etcd")).args(["--name", "m", "--log-level", "error"]).args(options);
        command.args(["--listen-client-urls", &url, "--advertise-client-urls", &url, "--listen-peer-urls", &peer]);
        command.args(["--initial-advertise-peer-urls", &peer, "--initial-cluster", &format!("m={peer}")]);
        command.stdin(Stdio::null()).stdout(Stdio::null()).stderr(Stdio::null());
        Real { folder, place, child: command.spawn().expect("etcd is wanted (Debian: etcd-server)") }
    }

    fn members(&self) -> Members {
        Members::new(from_ref(&self.place), None, None).unwrap()
    }
}

impl Drop for Real {
    fn drop(&mut self) {
        let _ = self.child.kill();
        let _ = self.child.wait();
    }
}

// These members, once they answer.
fn up(members: Members) -> Members {
    let begun = Instant::now();
    while let Err(lost) = members.get("c/meta") {
        assert!(begun.elapsed() < COMING_UP, "{lost}");
        thread::sleep(Duration::from_millis(50));
    }
    members
}

fn put(key: &str, value: &[u8]) -> Operation {
    Operation::Put(key.to_owned(), value.to_vec())
}

fn new() -> (Real, Members) {
    let etcd = Real::start(tempfile::tempdir().unwrap(), "http", &[]);
    let members = up(etcd.members());
    (etcd, members)
}

#[test]
fn pairs_are_put_compared_and_read() {
    let (_etcd, members) = new();
    assert_eq!(members.get("c/a").unwrap(), None);
    let first = members.change(&[Compare::Created("c/a", 0)], &[put("c/a", b"\0one")]).unwrap().unwrap();
    assert_eq!(members.change(&[Compare::Created("c/a", 0)], &[put("c/a", b"two")]).unwrap(), None);
    let second = members.change(&[Compare::Changed("c/a", first)], &[put("c/a", b"two"), put("c/b", b"")]).unwrap().unwrap();
    let pair = members.get("c/a").unwrap().unwrap();
    assert_eq!((pair.value.as_slice(), pair.created, pair.changed, pair.lease), (&b"two"[..], first, second, 0));
    assert_eq!(members.revision("c/a").unwrap(), second);
    members.change(&[], &[put("c0", b"beside")]).unwrap().unwrap();
    let (page, at) = members.page("c/", "c/", 0, 1).unwrap();
    assert_eq!((page.len(), page[0].key.as_str(), at), (1, "c/a", second + 1));
    let (page, _) = members.page("c/", "c/a\0", at, 9).unwrap();
    assert_eq!(page.iter().map(|pair| (pair.key.as_str(), pair.value.len())).collect::<Vec<_>>(), [("c/b", 0)]);
    assert_eq!(members.page("c/", "c/", first, 9).unwrap().0[0].value, b"\0one");
    members.change(&[], &[Operation::DeleteAll("c/".to_owned()), Operation::Delete("c0".to_owned())]).unwrap().unwrap();
    assert!(members.page("c", "c", 0, 9).unwrap().0.is_empty());
}

#[test]
fn however_many_deeds_are_one_revision_and_what_is_too_long_is_refused() {
    let (_etcd, members) = new();
    let deeds: Vec<Operation> = (0..3000).map(|number| put(&format!("c/{number:04}"), b"v")).collect();
    let revision = members.change(&[], &deeds).unwrap().unwrap();
    let (page, at) = members.page("c/", "c/", 0, 5000).unwrap();
    assert_eq!((page.len(), at), (deeds.len(), revision));
    assert!(page.iter().all(|pair| pair.changed == revision));
    let megabyte = 1 << 20;
    // (up to 1.5 MB it is taken; up to 2 MB it is refused by etcd, and what is longer isn't read by it)
    assert!(members.change(&[], &[put("c/long", &vec![7; megabyte])]).unwrap().is_some());
    for length in [megabyte * 7 / 4, megabyte * 3] {
        let refused = members.change(&[], &[put("c/longer", &vec![7; length])]);
        assert!(matches!(refused, Err(Lost::Refused(_))), "{length} {refused:?}");
    }
    // (an answer may be longer than any question)
    let parts: Vec<Operation> = (0..8).map(|number| put(&format!("d/{number}"), &vec![7; megabyte])).collect();
    assert!(parts.iter().all(|part| members.change(&[], from_ref(part)).unwrap().is_some()));
    let (page, _) = members.page("d/", "d/", 0, 9).unwrap();
    assert_eq!(page.iter().map(|pair| pair.value.len()).sum::<usize>(), 8 * megabyte);
}

#[test]
fn leases_are_lent_kept_and_given_back() {
    let (_etcd, members) = new();
    let (lease, seconds) = members.lend(60).unwrap();
    assert!(lease != 0 && seconds == 60);
    members.change(&[], &[Operation::Lend("c/k".to_owned(), b"v".to_vec(), lease)]).unwrap().unwrap();
    let (kept, term) = members.keep_alive(lease).unwrap();
    let (pair, later) = members.get_of_term("c/k").unwrap();
    assert_eq!((kept, pair.unwrap().lease), (60, lease));
    assert!(term > 0 && term == later);
    members.give_back(lease).unwrap();
    assert_eq!(members.get("c/k").unwrap(), None);
    assert!(members.keep_alive(lease).unwrap_err().to_string().contains("no such lease"));
    assert!(members.give_back(lease).is_err());
}

// What is told from a revision on, up to another.
fn told(members: &Members, from: i64, to: i64) -> Vec<(String, Option<Vec<u8>>)> {
    let mut told = Vec::new();
    let followed = members.follow("c/", from, |some| match some {
        Followed::Changes(revision, changes) => {
            told.extend(changes.into_iter().map(|change| change.map_or_else(|gone| (gone, None), |pair| (pair.key, Some(pair.value)))));
            revision < to
        }
        Followed::Forgotten => panic!("{from} is forgotten"),
    });
    followed.unwrap();
    told
}

#[test]
fn changes_are_told_until_they_are_forgotten() {
    let (_etcd, members) = new();
    let first = members.change(&[], &[put("c/a", b"1"), put("c/b", b"2")]).unwrap().unwrap();
    let beside = members.clone();
    // (the second is done while the first is told)
    let late = thread::spawn(move || {
        thread::sleep(Duration::from_millis(300));
        beside.change(&[], &[Operation::Delete("c/b".to_owned()), put("c/c", b"3")]).unwrap().unwrap()
    });
    let seen = told(&members, first, first + 1);
    let second = late.join().unwrap();
    let pair = |key: &str, value: &[u8]| (key.to_owned(), Some(value.to_vec()));
    assert_eq!(seen, [pair("c/a", b"1"), pair("c/b", b"2"), ("c/b".to_owned(), None), pair("c/c", b"3")]);
    members.compact(second).unwrap();
    members.compact(second).unwrap();
    let mut is_forgotten = false;
    members
        .follow("c/", first, |some| {
            is_forgotten = matches!(some, Followed::Forgotten);
            false
        })
        .unwrap();
    assert!(is_forgotten);
    let page = members.page("c/", "c/", first, 9);
    assert!(matches!(&page, Err(Lost::Refused(error)) if error.to_string().contains("compacted")), "{page:?}");
    members.look_for_room().unwrap();
    assert!(members.health().has_room());
}

// (nothing is told for longer than this test takes)
#[test]
fn a_member_that_hangs_is_noticed_by_pings() {
    let (etcd, members) = new();
    let tell = |signal| kill(Pid::from_raw(etcd.child.id().cast_signed()), signal).unwrap();
    let channels = Channels::new(from_ref(&etcd.place), None).unwrap();
    let wanted = WatchWanted { key: b"c/".to_vec(), end: b"c0".to_vec(), from: 0 };
    let asked = ChannelQuestion::new(WatchOfKeys::METHOD, &WatchOfKeys { wanted: Some(wanted) }, None);
    let begun = Instant::now();
    let mut told = 0;
    let followed = channels.follow(0, asked, 2 * COMING_UP, |_| {
        told += 1;
        tell(Signal::SIGSTOP);
        Ok(true)
    });
    tell(Signal::SIGCONT);
    assert!(followed.is_err() && told == 1, "{followed:?} {told}");
    assert!(begun.elapsed() < COMING_UP, "{:?}", begun.elapsed());
    up(members);
}

// By openssl: a certificate that this authority signs, or one that signs itself.
fn certificate(folder: &TempDir, name: &str, authority: Option<&str>, usage: &str) -> [PathBuf; 2] {
    let [certificate, key] = ["pem", "key"].map(|end| folder.path().join(format!("{name}.{end}")));
    let mut command = Command::new("openssl");
    command.args(["req", "-x509", "-nodes", "-days", "2", "-newkey", "ec", "-pkeyopt", "ec_paramgen_curve:prime256v1"]);
    command.args(["-subj", &format!("/CN={name}")]).arg("-keyout").arg(&key).arg("-out").arg(&certificate);
    if let Some(authority) = authority {
        let [own, its_key] = ["pem", "key"].map(|end| folder.path().join(format!("{authority}.{end}")));
        command.arg("-CA").arg(own).arg("-CAkey").arg(its_key);
        command.args(["-addext", "subjectAltName=IP:127.0.0.1", "-addext", &format!("extendedKeyUsage={usage}")]);
    }
    let made = command.stdin(Stdio::null()).output().expect("openssl is wanted");
    assert!(made.status.success(), "{made:?}");
    [certificate, key]
}

// (its own certificate is none for clients)
#[test]
fn a_member_and_this_server_know_each_other_by_certificates() {
    let folder = tempfile::tempdir().unwrap();
    let [authority, _] = certificate(&folder, "authority", None, "");
    let [stranger, _] = certificate(&folder, "stranger", None, "");
    let [shown, key] = certificate(&folder, "member", Some("authority"), "serverAuth");
    let [own, own_key] = certificate(&folder, "server", Some("authority"), "clientAuth");
    let words = [&shown, &key, &authority].map(|path| path.display().to_string());
    let options = ["--cert-file", &words[0], "--key-file", &words[1], "--trusted-ca-file", &words[2], "--client-cert-auth"];
    let etcd = Real::start(folder, "https", &options);
    let members = |authority: &PathBuf, own: Option<(&PathBuf, &PathBuf)>| {
        let own = own.map(|(certificate, key)| (certificate.as_path(), key.as_path()));
        Members::new(from_ref(&etcd.place), Some(&client_config(authority, own).unwrap()), None).unwrap()
    };
    let known = up(members(&authority, Some((&own, &own_key))));
    known.change(&[], &[put("c/a", b"1")]).unwrap().unwrap();
    assert_eq!(known.get("c/a").unwrap().unwrap().value, b"1");
    for (authority, own) in [(&authority, None), (&stranger, Some((&own, &own_key)))] {
        let lost = members(authority, own).get("c/a").unwrap_err();
        assert!(matches!(lost, Lost::Unknown(_)), "{lost}");
    }
    assert!(matches!(etcd.members().get("c/a"), Err(Lost::Unknown(_))));
    assert!(etcd.folder.path().join("etcd").exists());
}
