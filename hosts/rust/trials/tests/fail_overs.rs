//! What clients notice where their server goes and another comes, and how long one is waited for that never acknowledges.

use std::time::Duration;
use trials::{fail_over, fill, start_after_clients_that_left, write_beside_one_that_keeps, write_beside_one_that_starts};

/// How long an answer may take after the start of the next server.
const SOON: Duration = Duration::from_secs(3);

/// How long clients are looked at after a fail-over: as long as two leases of 12 s, in which one that isn't given again ends.
const LOOKED_AT: Duration = Duration::from_secs(26);

fn nobody_notices(clients: usize, one_way: Duration) {
    let noticed = fail_over(clients, one_way, LOOKED_AT).unwrap();
    println!(
        "fail-over: {clients} clients, {} ms away: a write of each was answered within {} ms of the start, {} ms of SIGTERM; \
         in jeopardy {}, lost {}",
        one_way.as_millis(),
        noticed.answered.as_millis(),
        noticed.answered_since_the_end.as_millis(),
        noticed.jeopardies,
        noticed.lost
    );
    assert_eq!((noticed.jeopardies, noticed.lost), (0, 0));
    assert!(noticed.answered < SOON, "{noticed:?}");
}

#[test]
fn five_clients_notice_no_fail_over() {
    nobody_notices(5, Duration::ZERO);
}

#[test]
fn twenty_clients_far_away_notice_no_fail_over() {
    nobody_notices(20, Duration::from_millis(120));
}

// (a session that didn't end would be waited for, up to 60 s)
#[test]
fn clients_that_left_are_not_waited_for() {
    let answered = start_after_clients_that_left(5).unwrap();
    println!("fail-over: after 5 clients that all left: the first call was answered within {} ms of the start", answered.as_millis());
    assert!(answered < Duration::from_secs(1), "{answered:?}");
}

// (who isn't answered for the 12 s of a lease and 45 more loses its session)
#[test]
fn a_disk_that_is_full_for_a_minute_ends_no_session() {
    let filled = fill(64, Duration::from_secs(60), 5, 4).unwrap();
    println!("fail-over: a disk that is full for 60 s, 5 clients that beat, 4 that write: {filled:?}");
    assert_eq!((filled.is_refused, filled.jeopardies, filled.lost), (true, 0, 0), "{filled:?}");
    assert!(filled.waited < SOON, "{filled:?}");
}

// Two leases and 48 s are the most that a master waits; and a lease and 48 s it does.
#[test]
fn a_client_that_never_acknowledges_is_given_up() {
    let waited = write_beside_one_that_keeps(1000).unwrap();
    println!("fail-over: a write beside a client that never acknowledges, lease 1 s: {:.1} s", waited.as_secs_f64());
    assert!((Duration::from_secs(49)..Duration::from_secs(51)).contains(&waited), "{waited:?}");
}

// Of each session a master gets eight Starts; the last of them lets it live for a lease.
#[test]
fn a_client_that_only_starts_is_given_up() {
    let waited = write_beside_one_that_starts(1000).unwrap();
    println!("fail-over: a write beside a client that sends Starts for good, lease 1 s: {:.1} s", waited.as_secs_f64());
    assert!(waited < Duration::from_secs(8), "{waited:?}");
}
