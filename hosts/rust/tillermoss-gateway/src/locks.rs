//! Sessions, locks and sequencers.

use crate::answers;
use crate::desks::Desk;
use crate::faults::HttpFault;
use crate::routes::Query;
use crate::sessions::{HttpSession, Sessions, Wanted};
use crate::shown;
use bytes::Bytes;
use hyper::{Body, Response, StatusCode};
use serde_json::{Value, json};
use std::sync::Arc;
use std::time::Duration;
use tillermoss::{LockMode, Refusal, Sequencer};

/// How many seconds a session lives after the last request that names it, where nothing else is said; and at most.
const SPAN: (u64, u64) = (30, 3600);

/// How many seconds a lock is waited for at most.
const WAIT: u64 = 600;

/// Who asks for something of a session.
#[derive(Clone, Copy, Debug)]
pub struct SessionAsker<'a> {
    /// All of them.
    pub sessions: &'a Sessions,
    /// The clients of who asks.
    pub desk: &'a Desk,
    /// For whom.
    pub principal: &'a Arc<str>,
}

impl SessionAsker<'_> {
    fn named(&self, query: &Query) -> Result<Arc<HttpSession>, HttpFault> {
        let number = query.value("session").ok_or_else(|| HttpFault::BadRequest("session=ID is missing".to_owned()))?;
        self.sessions.find(number, self.principal)
    }

    /// Begins a session.
    pub async fn begin(&self, query: &Query) -> Result<Response<Body>, HttpFault> {
        let span = query.number("ttl", SPAN.1)?.unwrap_or(SPAN.0).max(1);
        self.sessions.check(self.principal)?;
        let client = self.desk.connect().await?;
        let (number, left) = (client.number(), client.lease_left());
        let session = self.sessions.add(HttpSession::new(self.principal.clone(), client, Duration::from_secs(span)))?;
        let shown = json!({ "session": session, "ttl": span, "client": number });
        Ok(answers::under_lease(answers::json(StatusCode::CREATED, &shown), left))
    }

    /// Says that somebody keeps it.
    pub async fn renew(&self, number: &str) -> Result<Response<Body>, HttpFault> {
        let session = self.sessions.find(number, self.principal)?;
        let span = session.span.as_secs();
        let left = self.desk.work(move || session.lease_left()).await?;
        if left.is_zero() {
            return Err(Refusal::InJeopardy.into());
        }
        let shown = json!({ "session": number, "ttl": span });
        Ok(answers::under_lease(answers::json(StatusCode::OK, &shown), left))
    }

    /// Takes a lock.
    pub async fn acquire(&self, name: &str, query: &Query) -> Result<Response<Body>, HttpFault> {
        let session = self.named(query)?;
        let mode = match query.value("mode") {
            None | Some("x") => LockMode::Exclusive,
            Some("s") => LockMode::Shared,
            Some(_) => return Err(HttpFault::BadRequest("mode is x or s".to_owned())),
        };
        let wait = Duration::from_secs(query.number("wait", WAIT)?.unwrap_or(0));
        let delay = query.number("delay", u64::MAX)?.unwrap_or(0);
        let wanted = Wanted { name: name.to_owned(), mode, wait, delay };
        let bytes = session.acquire(self.desk, &wanted).await?;
        let left = self.desk.work(move || session.lease_left()).await?;
        let sequencer = read(&bytes)?;
        Ok(answers::under_lease(answers::json(StatusCode::OK, &shown::sequencer(&bytes, &sequencer)), left))
    }

    /// Lets a lock go.
    pub async fn release(&self, name: &str, query: &Query) -> Result<Response<Body>, HttpFault> {
        self.named(query)?.release(self.desk, name).await?;
        Ok(answers::bare(StatusCode::NO_CONTENT))
    }

    /// Makes or writes an ephemeral file.
    pub async fn put(&self, name: &str, content: Bytes, query: &Query) -> Result<Response<Body>, HttpFault> {
        let (session, name) = (self.named(query)?, name.to_owned());
        let (is_new, instance, generation) = self.desk.work(move || session.write(&name, &content)).await?;
        let response = answers::bare(if is_new { StatusCode::CREATED } else { StatusCode::NO_CONTENT });
        Ok(answers::marked(response, instance, generation))
    }
}

fn read(bytes: &[u8]) -> Result<Sequencer, HttpFault> {
    Sequencer::read(bytes).ok_or_else(|| Refusal::BadSequencer.into())
}

/// Whether the lock of a sequencer is held still; the text of it, or an object that has it, as it was answered.
pub async fn check(desk: &Arc<Desk>, body: &Bytes) -> Result<Response<Body>, HttpFault> {
    let text = std::str::from_utf8(body).map_err(|_| Refusal::BadSequencer)?.trim();
    let object: Option<Value> = serde_json::from_str(text).ok().filter(Value::is_object);
    let text = object.as_ref().map_or(Some(text), |object| object["sequencer"].as_str()).ok_or(Refusal::BadSequencer)?;
    let bytes = hex::decode(text).map_err(|_| Refusal::BadSequencer)?;
    let shown = shown::sequencer(&bytes, &read(&bytes)?);
    let checked = desk.write(move |client, _| client.check_sequencer(&bytes)).await;
    checked.map_err(HttpFault::of_what_may_be_asked_again)?;
    Ok(answers::json(StatusCode::OK, &shown))
}
