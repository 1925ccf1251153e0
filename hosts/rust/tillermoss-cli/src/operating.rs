//! What operators ask for.

use crate::commands::Asker;
use crate::faults::Fault;
use crate::output::{print, print_json, write};
use crate::words::Output;
use serde_json::json;
use std::path::Path;
use std::time::Instant;
use tillermoss::{Admin, LockShown, Mode, RecoveryShown, SessionShown, Status};

/// How long a session takes to begin, and an answer to come.
pub fn answers(asker: &Asker<'_>) -> Result<(), Fault> {
    let reach = asker.reach;
    let begun = Instant::now();
    let client = asker.connect()?;
    let session = u64::try_from(begun.elapsed().as_millis()).unwrap_or(u64::MAX);
    let begun = Instant::now();
    client.stat(client.open(&format!("/ls/{}", reach.cell), Mode::READ)?)?;
    let answer = u64::try_from(begun.elapsed().as_millis()).unwrap_or(u64::MAX);
    let (server, cell, principal, number) = (reach.server(), &reach.cell, reach.options().principal, client.number());
    let text =
        format!("server {server}\ncell {cell}\nprincipal {principal}\nclient {number}\nsession in {session} ms\nanswer in {answer} ms");
    match asker.output {
        Output::Text => print(text.as_bytes())?,
        Output::Json => print_json(&json!({
            "server": server, "cell": cell, "principal": principal, "client": number, "session_ms": session, "answer_ms": answer,
        }))?,
    }
    Ok(())
}

/// How the server stands.
pub fn status_of(admin: &Admin, output: Output) -> Result<(), Fault> {
    let status = admin.status()?;
    match output {
        Output::Text => print(status_text(&status).as_bytes())?,
        Output::Json => print_json(&json!(status))?,
    }
    Ok(())
}

fn status_text(status: &Status) -> String {
    let mut lines = vec![
        format!("version {}", status.version),
        format!("seconds {}", status.seconds),
        format!("ready {}", if status.is_ready { "yes" } else { "no" }),
        format!("epoch {}", status.epoch),
        format!("nodes {}", status.nodes),
        format!("bytes {}", status.bytes),
        format!("sessions {}", status.sessions),
        format!("connections {}", status.connections),
        format!("locks {}", status.locks),
        format!("rights {}", status.rights),
        format!("changes-waiting {}", status.changes_waiting),
    ];
    if let Some(recovery) = &status.recovery {
        lines.push(format!("recovering {}", recovering(recovery)));
    }
    lines.extend(status.listening.iter().map(|address| format!("listening {address}")));
    lines.extend(status.warnings.iter().map(|warning| format!("warning {warning}")));
    lines.join("\n")
}

// Whom a master that came up waits for, and until when at the latest.
fn recovering(recovery: &RecoveryShown) -> String {
    let named = recovery.waits_for.iter().map(|session| format!("client {} ({})", session.client, session.principal));
    let mut named: Vec<String> = named.collect();
    if recovery.count > named.len() {
        named.push(format!("{} more", recovery.count - named.len()));
    }
    let seconds = recovery.left.div_ceil(1000);
    format!(
        "for {} s at most, until it has heard of {}",
        seconds,
        if named.is_empty() { "nobody else".to_owned() } else { named.join(", ") }
    )
}

/// The live sessions, one a line.
pub fn sessions(admin: &Admin, output: Output) -> Result<(), Fault> {
    let sessions = admin.sessions()?;
    match output {
        Output::Text => write(sessions.iter().map(session_line).collect::<String>().as_bytes())?,
        Output::Json => print_json(&json!(sessions))?,
    }
    Ok(())
}

fn session_line(session: &SessionShown) -> String {
    let connected = if session.is_connected { "connected" } else { "away" };
    let lease = session.lease_left.map_or("-".to_owned(), |left| left.to_string());
    format!("{} {} {connected} {lease}\n", session.client, session.principal)
}

/// The locks that aren't free, one a line.
pub fn locks(admin: &Admin, output: Output) -> Result<(), Fault> {
    let locks = admin.locks()?;
    match output {
        Output::Text => write(locks.iter().map(lock_line).collect::<String>().as_bytes())?,
        Output::Json => print_json(&json!(locks))?,
    }
    Ok(())
}

fn lock_line(lock: &LockShown) -> String {
    let mode = if lock.is_shared { "shared" } else { "exclusive" };
    let (holders, waiters) = (listed(&lock.holders), listed(&lock.waiters));
    format!("{} {mode} generation {} held by {holders} waited for by {waiters}\n", lock.name, lock.generation)
}

fn listed(clients: &[u64]) -> String {
    if clients.is_empty() {
        return "nobody".to_owned();
    }
    clients.iter().map(u64::to_string).collect::<Vec<_>>().join(",")
}

/// Ends a client, or all of a principal.
pub fn end(admin: &Admin, output: Output, client: Option<u64>, principal: Option<&str>) -> Result<(), Fault> {
    let ended = match (client, principal) {
        (Some(client), _) => admin.end(client)?,
        (None, principal) => admin.end_all(principal.unwrap_or_default())?,
    };
    match output {
        Output::Text => print(ended.iter().map(|client| format!("ended {client}\n")).collect::<String>().as_bytes())?,
        Output::Json => print_json(&json!({ "ended": ended }))?,
    }
    Ok(())
}

/// Takes a copy of the store.
pub fn backup(admin: &Admin, output: Output, file: &Path) -> Result<(), Fault> {
    let folder = file.parent().filter(|folder| !folder.as_os_str().is_empty()).unwrap_or(Path::new("."));
    if file.symlink_metadata().is_ok() {
        return Err(Fault::Copy(file.to_owned(), "is there already"));
    }
    if !folder.is_dir() {
        return Err(Fault::Copy(file.to_owned(), "its folder isn't there"));
    }
    let bytes = admin.backup(file)?;
    match output {
        Output::Text => print(format!("{bytes} bytes").as_bytes())?,
        Output::Json => print_json(&json!({ "file": file.display().to_string(), "bytes": bytes }))?,
    }
    Ok(())
}

#[cfg(test)]
mod tests {
    use super::*;

    #[test]
    fn sessions_and_locks_are_lines() {
        let session = SessionShown { client: 3, principal: "ann".to_owned(), is_connected: true, lease_left: Some(900) };
        assert_eq!(session_line(&session), "3 ann connected 900\n");
        let gone = SessionShown { is_connected: false, lease_left: None, ..session };
        assert_eq!(session_line(&gone), "3 ann away -\n");
        let lock = LockShown { name: "/ls/c/l".to_owned(), is_shared: false, holders: vec![3], waiters: vec![4, 5], generation: 2 };
        assert_eq!(lock_line(&lock), "/ls/c/l exclusive generation 2 held by 3 waited for by 4,5\n");
        let closed = LockShown { holders: vec![], waiters: vec![], is_shared: true, ..lock };
        assert_eq!(lock_line(&closed), "/ls/c/l shared generation 2 held by nobody waited for by nobody\n");
    }

    #[test]
    fn a_recovery_names_whom_it_waits_for() {
        let session = |client| SessionShown { client, principal: "ann".to_owned(), is_connected: false, lease_left: None };
        let recovery = RecoveryShown { waits_for: vec![session(3), session(4)], count: 7, left: 12_001 };
        assert_eq!(recovering(&recovery), "for 13 s at most, until it has heard of client 3 (ann), client 4 (ann), 5 more");
    }
}
