//! What a server that is master does for its etcd beside commits: it has it forget what stood there before, because each commit leaves
//! old revisions that take room, and looks whether it has room left.

use crate::etcd::Rows;
use std::thread;
use std::time::{Duration, Instant};
use tracing::warn;

/// The time between two looks, and while there is no room.
const LOOKING: Duration = Duration::from_secs(10);
const LOOKING_FOR_ROOM: Duration = Duration::from_secs(2);

/// Begins it, for as long as the mastership lasts; what is older than so long is forgotten, at nothing nothing is.
pub fn begin(rows: Rows, history: Duration) {
    thread::spawn(move || {
        let mut forgetting = Forgetting { history, noted: None, is_refused: false };
        while rows.mastership.holds() {
            // (where no member answers the gateway says so)
            let _ = rows.gateway.look_for_room();
            forgetting.go_on(&rows);
            thread::sleep(if rows.gateway.health().has_room() { LOOKING } else { LOOKING_FOR_ROOM });
        }
    });
}

// The revision that was the present one when it was noted.
struct Forgetting {
    history: Duration,
    noted: Option<(Instant, i64)>,
    is_refused: bool,
}

impl Forgetting {
    fn go_on(&mut self, rows: &Rows) {
        let is_due = self.noted.is_none_or(|(since, _)| since.elapsed() >= self.history);
        if self.history.is_zero() || !is_due {
            return;
        }
        let Ok(revision) = rows.gateway.revision(&rows.prefix) else {
            return;
        };
        let Some((_, before)) = self.noted.replace((Instant::now(), revision)) else {
            return;
        };
        let forgotten = rows.gateway.compact(before);
        // (only the first of many faults is logged)
        if let (Err(lost), false) = (&forgotten, self.is_refused) {
            warn!(reason = %lost, "etcd doesn't forget old revisions");
        }
        self.is_refused = forgotten.is_err();
    }
}
