//! A server, its master or both are stopped for a while and go on: no client is lost that comes back within its grace.

use std::sync::{Mutex, PoisonError};
use std::thread;
use std::time::Duration;
use trials::{Kind, Member, Noticed, Stopped, folder, stop_for};

/// For so many seconds. (A client is lost 45 s after the end of its lease, which has 12 s.)
const STOPS: [u64; 5] = [6, 9, 13, 20, 40];

/// Held by a test whose cells stand in etcd: the members of two would take each other's disk.
static ETCD: Mutex<()> = Mutex::new(());

// Those at once that are stopped alike; over a file all at once.
fn stop_all(kind: Kind, member: Option<&Member>) -> Vec<(Stopped, u64, Noticed)> {
    let all = [Stopped::Server, Stopped::Both, Stopped::Master];
    let groups = all.chunks(if kind.is_over_etcd { 1 } else { all.len() });
    let stopped = groups.flat_map(|group| {
        thread::scope(|scope| {
            let cases = STOPS.into_iter().flat_map(|stop| group.iter().map(move |what| (*what, stop)));
            let run = |(what, stop)| scope.spawn(move || (what, stop, stop_for(kind, member, what, Duration::from_secs(stop)).unwrap()));
            let running: Vec<_> = cases.map(run).collect();
            running.into_iter().map(|running| running.join().unwrap()).collect::<Vec<_>>()
        })
    });
    stopped.collect()
}

fn nobody_is_lost(kind: Kind) {
    let _alone = kind.is_over_etcd.then(|| ETCD.lock().unwrap_or_else(PoisonError::into_inner));
    let folder = folder("members");
    let member = kind.is_over_etcd.then(|| Member::start(&folder).unwrap());
    let all = stop_all(kind, member.as_ref());
    for (what, stop, noticed) in &all {
        println!(
            "stops: {} over {}: {what:?} stopped for {stop} s: of 8 clients {} lost, {} jeopardies, all answered {} ms after it",
            if kind.is_tls { "tls" } else { "tcp" },
            if kind.is_over_etcd { "etcd" } else { "a file" },
            noticed.lost,
            noticed.jeopardies,
            noticed.answered.as_millis()
        );
    }
    drop(member);
    std::fs::remove_dir_all(folder).unwrap();
    let lost: Vec<_> = all.iter().filter(|(_, _, noticed)| noticed.lost > 0).collect();
    assert!(lost.is_empty(), "{lost:?}");
}

#[test]
fn nobody_is_lost_over_tcp() {
    nobody_is_lost(Kind { is_tls: false, is_over_etcd: false });
}

#[test]
fn nobody_is_lost_over_tls() {
    nobody_is_lost(Kind { is_tls: true, is_over_etcd: false });
}

#[test]
fn nobody_is_lost_over_tcp_and_etcd() {
    nobody_is_lost(Kind { is_tls: false, is_over_etcd: true });
}

#[test]
fn nobody_is_lost_over_tls_and_etcd() {
    nobody_is_lost(Kind { is_tls: true, is_over_etcd: true });
}
