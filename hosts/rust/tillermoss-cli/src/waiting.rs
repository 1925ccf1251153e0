//! Whom a command waits for, where that takes long.

use crate::output::say;
use crate::words::Target;
use std::sync::Arc;
use std::sync::atomic::{AtomicU64, Ordering};
use std::sync::mpsc::{Receiver, RecvTimeoutError, Sender, TryRecvError, channel};
use std::thread;
use std::time::Duration;
use tillermoss::{Admin, Client, SessionShown, Shown};

/// How long a command waits before it says for whom, and until it looks again.
const AWHILE: Duration = Duration::from_secs(2);

/// As long as it lives, something is waited for: after two seconds it is said on the standard error for whom, and again whenever that
/// is another.
pub struct Waiting {
    client: Arc<AtomicU64>,
    _done: Sender<()>,
}

impl Waiting {
    /// From now on this verb waits for what it asks of these names.
    pub fn begin(reach: &Target, what: &str) -> Waiting {
        let (done, is_done) = channel();
        let client = Arc::new(AtomicU64::new(0));
        // (without an address for operators it says what it knows by itself)
        let (own, admin, what) = (client.clone(), reach.operators().ok().flatten(), what.to_owned());
        let server = reach.server();
        // (it asks an operators' address, which may take long itself: nobody waits for it)
        thread::spawn(move || follow(&is_done, &own, admin.as_ref(), &server, &what));
        Waiting { client, _done: done }
    }

    /// This client asks for it.
    pub fn by(&self, client: &Client) {
        self.client.store(client.number(), Ordering::SeqCst);
    }
}

/// How many of those that it waits for are named.
const NAMED: usize = 10;

fn follow(is_done: &Receiver<()>, client: &AtomicU64, admin: Option<&Admin>, server: &str, what: &str) {
    let mut told = String::new();
    while let Err(RecvTimeoutError::Timeout) = is_done.recv_timeout(AWHILE) {
        let client = client.load(Ordering::SeqCst);
        let shown = admin.and_then(|admin| admin.find(&client.to_string()).ok());
        let now = reason(shown.as_ref(), client, server);
        if matches!(is_done.try_recv(), Err(TryRecvError::Empty)) && now != told {
            say(&format!("{what} waits: {now}"));
            told = now;
        }
    }
}

// For whom the client of this number waits; 0: one that has no session yet.
fn reason(shown: Option<&Shown>, client: u64, server: &str) -> String {
    let Some(shown) = shown else {
        return match client {
            0 => format!("{server} has begun no session yet"),
            _ => "for others, who hold the lock or may have the node in their caches; --admin says for whom".to_owned(),
        };
    };
    if !shown.status.is_ready {
        let awaited = shown.status.recovery.as_ref().filter(|recovery| !recovery.waits_for.is_empty());
        return awaited.map_or("a master comes up, and waits for the clients of before".to_owned(), |recovery| {
            let clients: Vec<u64> = recovery.waits_for.iter().map(|session| session.client).collect();
            format!(
                "a master came up, which waits for {} s at most for {}",
                recovery.left.div_ceil(1000),
                named(&clients, &recovery.waits_for)
            )
        });
    }
    let found = shown.waits.iter().find(|wait| wait.client == client);
    match found {
        Some(wait) if !wait.waits_for.is_empty() => {
            let first = &wait.waits_for[..wait.waits_for.len().min(NAMED)];
            let others = wait.count.max(wait.waits_for.len()) - first.len();
            let more = if others > 0 { format!(" and {others} more") } else { String::new() };
            format!("for {}{more}", named(first, &shown.sessions))
        }
        Some(_) => "for a lock-delay, or for one whose session is over".to_owned(),
        None if client == 0 => format!("{server} has begun no session yet"),
        None => "for the master".to_owned(),
    }
}

fn named(clients: &[u64], sessions: &[SessionShown]) -> String {
    let name = |client: &u64| match sessions.iter().find(|session| session.client == *client) {
        Some(session) if session.is_connected => format!("client {client} ({})", session.principal),
        Some(session) => format!("client {client} ({}, away)", session.principal),
        None => format!("client {client}"),
    };
    clients.iter().map(name).collect::<Vec<_>>().join(", ")
}

#[cfg(test)]
mod tests {
    use super::*;
    use tillermoss::{Status, WaitShown};

    #[test]
    fn it_is_said_for_whom() {
        let session = |client, is_connected| SessionShown { client, principal: "bob".to_owned(), is_connected, lease_left: None };
        let wait = |client, waits_for: &[u64]| WaitShown {
            client,
            principal: "ann".to_owned(),
            act: "acquire".to_owned(),
            name: "/ls/c/l".to_owned(),
            waited: 2000,
            waits_for: waits_for.to_vec(),
            count: waits_for.len(),
        };
        let shown = Shown {
            status: Status { is_ready: true, ..Status::default() },
            sessions: vec![session(3, true), session(4, false)],
            waits: vec![wait(7, &[3, 4, 5]), wait(8, &[]), wait(6, &[3; 12])],
            ..Shown::default()
        };
        let rows = [
            (Some(&shown), 7, "for client 3 (bob), client 4 (bob, away), client 5"),
            (Some(&shown), 6, &format!("for {} and 2 more", ["client 3 (bob)"; 10].join(", "))),
            (Some(&shown), 8, "for a lock-delay, or for one whose session is over"),
            (Some(&shown), 9, "for the master"),
            (Some(&shown), 0, "h:7 has begun no session yet"),
            (Some(&Shown::default()), 7, "a master comes up, and waits for the clients of before"),
            (None, 0, "h:7 has begun no session yet"),
        ];
        for (shown, client, wanted) in rows {
            assert_eq!(reason(shown, client, "h:7"), wanted);
        }
        assert!(reason(None, 7, "h:7").contains("--admin"));
    }
}
