//! Measures what clients notice of a fail-over and of a full disk, and how long one is waited for that never acknowledges, under the
//! lease of 12 s: with servers of its own, in eight minutes.

use std::time::Duration;
use tillermoss::Error;
use trials::{fail_over, fill, start_after_clients_that_left, write_beside_one_that_keeps, write_beside_one_that_stays_behind};

/// The lease of a cell whose settings say none, in milliseconds.
const LEASE: u64 = 12_000;

/// Longer than a session lasts that no master hears of.
const LOOKED_AT: Duration = Duration::from_secs(75);

fn main() -> Result<(), Error> {
    for (clients, one_way) in [(5, Duration::ZERO), (20, Duration::from_millis(120))] {
        let noticed = fail_over(clients, one_way, LOOKED_AT)?;
        println!(
            "{clients} clients, {} ms away: a write of each answered {} ms after the start of the next server, {} ms after SIGTERM",
            one_way.as_millis(),
            noticed.answered.as_millis(),
            noticed.answered_since_the_end.as_millis()
        );
        println!("  for {} s from then on: {} in jeopardy, {} lost", LOOKED_AT.as_secs(), noticed.jeopardies, noticed.lost);
    }
    for seconds in [30, 60] {
        let filled = fill(64, Duration::from_secs(seconds), 5, 4)?;
        println!("5 clients that beat, 4 that write, a disk that is full for {seconds} s: {filled:?}");
    }
    let left = start_after_clients_that_left(5)?;
    println!("5 clients that all left: the first call of a new one answered {} ms after the start of the next server", left.as_millis());
    let kept = write_beside_one_that_keeps(LEASE)?;
    println!("a write beside a client that caches the file, beats and never acknowledges: {:.1} s", kept.as_secs_f64());
    let waited = write_beside_one_that_stays_behind(LEASE)?;
    println!("a write after a new master beside a client that beats and never acknowledges it: {:.1} s", waited.as_secs_f64());
    Ok(())
}
