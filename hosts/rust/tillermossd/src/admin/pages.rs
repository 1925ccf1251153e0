//! What operators look at and ask for, over HTTP.

use crate::admin::desks::Operators;
use crate::admin::showing::Showing;
use crate::etcd::standby::KnownMaster;
use crate::master::child::Order;
use crate::master::store;
use anyhow::{Context, Result};
use host_wire::Address;
use hyper::header::{CONTENT_SECURITY_POLICY, CONTENT_TYPE, HOST, HeaderValue};
use hyper::{Body, Method, Request, Response, StatusCode};
use std::collections::BTreeSet;
use std::convert::Infallible;
use std::sync::atomic::{AtomicBool, Ordering};
use std::sync::{Arc, PoisonError};
use tokio::io::AsyncReadExt;
use tokio::sync::{OwnedSemaphorePermit, Semaphore, mpsc, oneshot};
use tracing::{info, warn};

/// The page, which takes nothing from elsewhere.
const PAGE: &str = include_str!("page.html");
const STYLE: &str = include_str!("page.css");
const SCRIPT: &str = include_str!("page.js");
const POLICY: &str = "default-src 'none'; script-src 'self'; style-src 'self' 'unsafe-inline'; connect-src 'self'; img-src data:";

/// What is asked over a socket.
#[derive(Debug)]
pub struct Office {
    /// What is shown.
    pub showing: Arc<Showing>,
    /// Whom a copy is asked of.
    pub orders: mpsc::Sender<Order>,
    /// Only who may open the socket's file gets there, and so may have a copy of the store, with its secret.
    pub is_private: bool,
}

/// Of what kind of server something is asked.
#[derive(Debug, Default)]
pub enum ServerKind {
    /// One whose master comes up.
    #[default]
    ComesUp,
    /// One that stands by, and knows who is master, or doesn't.
    StandsBy(KnownMaster),
    /// One that is master.
    Master(Office),
}

/// What who asks for a copy has to have.
#[derive(Debug)]
pub struct Copies {
    // (of this connection)
    copying: Arc<AtomicBool>,
    // (of all)
    places: Arc<Semaphore>,
}

impl Copies {
    /// By what a connection says that it takes a copy, and the places of all who do.
    #[must_use]
    pub fn new(copying: Arc<AtomicBool>, places: Arc<Semaphore>) -> Copies {
        Copies { copying, places }
    }
}

/// Who asks.
#[derive(Debug)]
pub struct Visit {
    /// Who is let in; without them whoever is on this machine.
    pub operators: Option<Arc<Operators>>,
    /// The common name of the certificate that was shown.
    pub shown: Option<String>,
    /// What a copy wants.
    pub copies: Copies,
}

// A page of another site whose name leads to this machine has that name here.
fn is_own_host(request: &Request<Body>) -> bool {
    let host = request.headers().get(HOST).and_then(|host| host.to_str().ok());
    host.is_none_or(|host| format!("tcp:{host}").parse::<Address>().is_ok_and(|address| address.is_local()) || host == "localhost")
}

fn is_open_to_all(path: &str) -> bool {
    matches!(path, "/" | "/page.css" | "/page.js" | "/healthz" | "/readyz")
}

/// Answers a request.
pub async fn answer(asked: Arc<ServerKind>, visit: Visit, request: Request<Body>) -> Result<Response<Body>, Infallible> {
    // (probes show nothing, and are told nothing but that; the page asks for the rest with what it was given)
    let operators = visit.operators.as_ref().filter(|_| !is_open_to_all(request.uri().path()));
    if let Some((status, text)) = operators.and_then(|operators| operators.refusal(visit.shown.as_deref(), &request)) {
        return Ok(said(status, "text/plain", text));
    }
    if visit.operators.is_none() && !is_own_host(&request) {
        return Ok(said(StatusCode::FORBIDDEN, "text/plain", "only under a name of this machine\n"));
    }
    Ok(match &*asked {
        _ if (request.method(), request.uri().path()) == (&Method::GET, "/healthz") => said(StatusCode::OK, "text/plain", "ok\n"),
        ServerKind::ComesUp => said(StatusCode::SERVICE_UNAVAILABLE, "text/plain", "the master comes up\n"),
        ServerKind::StandsBy(known) => said(StatusCode::SERVICE_UNAVAILABLE, "text/plain", stands_by(known)),
        ServerKind::Master(admin) => shown(admin, &visit.copies, &request).await,
    })
}

fn stands_by(known: &KnownMaster) -> String {
    match &known.lock().unwrap_or_else(PoisonError::into_inner).master {
        Some(seat) => format!("this server stands by; the master is {}\n", seat.address),
        None => "this server stands by; no master is known\n".to_owned(),
    }
}

async fn shown(admin: &Office, copies: &Copies, request: &Request<Body>) -> Response<Body> {
    let showing = &admin.showing;
    let json = |shown: serde_json::Result<String>| match shown {
        Ok(text) => said(StatusCode::OK, "application/json", text),
        Err(error) => said(StatusCode::INTERNAL_SERVER_ERROR, "text/plain", error.to_string()),
    };
    match (request.method(), request.uri().path()) {
        (&Method::GET, "/") => said(StatusCode::OK, "text/html; charset=utf-8", PAGE),
        (&Method::GET, "/page.css") => said(StatusCode::OK, "text/css", STYLE),
        (&Method::GET, "/page.js") => said(StatusCode::OK, "text/javascript", SCRIPT),
        (&Method::GET, "/readyz") => ready(showing),
        (&Method::GET, "/metrics") => match showing.hall.metrics.text(&showing.levels()) {
            Ok(text) => said(StatusCode::OK, "text/plain; version=0.0.4", text),
            Err(error) => said(StatusCode::INTERNAL_SERVER_ERROR, "text/plain", error.to_string()),
        },
        (&Method::GET, "/all") => json(serde_json::to_string(&showing.all(find(request)))),
        (&Method::GET, "/status") => json(serde_json::to_string(&showing.status())),
        (&Method::GET, "/sessions") => json(serde_json::to_string(&showing.sessions(usize::MAX, find(request), &BTreeSet::new()))),
        (&Method::GET, "/locks") => json(serde_json::to_string(&showing.locks())),
        (&Method::POST, "/backup") => backup(admin, copies).await,
        (&Method::POST, path) if path.starts_with("/end/") => end(admin, path).await,
        (_, "/backup") => said(StatusCode::METHOD_NOT_ALLOWED, "text/plain", "only by POST\n"),
        _ => said(StatusCode::NOT_FOUND, "text/plain", "there is no such page\n"),
    }
}

// The text that is looked for, `?find=TEXT`: of characters of names, so none of it is written in another way.
fn find(request: &Request<Body>) -> &str {
    request.uri().query().and_then(|query| query.strip_prefix("find=")).unwrap_or_default()
}

fn said(status: StatusCode, kind: &'static str, body: impl Into<Body>) -> Response<Body> {
    let mut response = Response::new(body.into());
    *response.status_mut() = status;
    response.headers_mut().insert(CONTENT_TYPE, HeaderValue::from_static(kind));
    response.headers_mut().insert(CONTENT_SECURITY_POLICY, HeaderValue::from_static(POLICY));
    response
}

fn ready(showing: &Showing) -> Response<Body> {
    match showing.status().is_ready {
        true => said(StatusCode::OK, "text/plain", "ready\n"),
        false => said(StatusCode::SERVICE_UNAVAILABLE, "text/plain", "no master is up that has recovered and may write\n"),
    }
}

// `/end/client/NUMBER` ends one, `/end/principal/NAME` all of a principal.
async fn end(admin: &Office, path: &str) -> Response<Body> {
    if !admin.is_private {
        return said(StatusCode::FORBIDDEN, "text/plain", "only at --admin unix:PATH: who may open that ends clients\n");
    }
    let hall = &admin.showing.hall;
    let clients: BTreeSet<u64> = match path.strip_prefix("/end/").and_then(|whom| whom.split_once('/')) {
        Some(("client", number)) => number.parse().ok().filter(|client| hall.has(*client)).into_iter().collect(),
        Some(("principal", name)) => hall.picture().sessions_of(name).into_iter().chain(hall.routes.of(name)).collect(),
        _ => BTreeSet::new(),
    };
    if clients.is_empty() {
        return said(StatusCode::NOT_FOUND, "text/plain", "there is no such client\n");
    }
    clients.iter().for_each(|client| info!(client, "an operator has ended a client"));
    let told = serde_json::to_string(&clients);
    if let Err(fault) = hall.end(clients).await {
        warn!(reason = %format_args!("{fault:#}"), "who was ended isn't noted");
        return said(
            StatusCode::INTERNAL_SERVER_ERROR,
            "text/plain",
            format!("cut off, but after a new start they may come back: {fault:#}\n"),
        );
    }
    match told {
        Ok(text) => said(StatusCode::OK, "application/json", text),
        Err(error) => said(StatusCode::INTERNAL_SERVER_ERROR, "text/plain", error.to_string()),
    }
}

async fn backup(admin: &Office, copies: &Copies) -> Response<Body> {
    if !admin.is_private {
        return said(StatusCode::FORBIDDEN, "text/plain", "a copy has the cell's secret: only at --admin unix:PATH\n");
    }
    let Ok(place) = copies.places.clone().try_acquire_owned() else {
        return said(StatusCode::SERVICE_UNAVAILABLE, "text/plain", "too many copies are taken at once\n");
    };
    copies.copying.store(true, Ordering::Relaxed);
    match copied(admin, place).await {
        Ok(file) => {
            info!("a copy of the store was taken");
            said(StatusCode::OK, "application/vnd.sqlite3", file)
        }
        Err(error) => {
            warn!(reason = %format_args!("{error:#}"), "a copy of the store failed");
            said(StatusCode::INTERNAL_SERVER_ERROR, "text/plain", format!("{error:#}\n"))
        }
    }
}

// The copy, as it is read. Its folder goes when it was, or when nobody reads it any more.
async fn copied(admin: &Office, place: OwnedSemaphorePermit) -> Result<Body> {
    let (reply, copied) = oneshot::channel();
    admin.orders.send(Order::Copy(reply)).await.context("no master is up")?;
    let folder = copied.await.context("the master is gone")??;
    let path = store::copied(&folder);
    let copy = path.clone();
    tokio::task::spawn_blocking(move || store::make_whole(store::open(&copy)?)).await??;
    let mut file = tokio::fs::File::open(path).await?;
    let (mut sender, body) = Body::channel();
    tokio::spawn(async move {
        let mut room = vec![0; 1 << 16];
        loop {
            match file.read(&mut room).await {
                Ok(0) => break,
                Ok(count) if sender.send_data(room[..count].to_vec().into()).await.is_ok() => {}
                _ => {
                    sender.abort();
                    break;
                }
            }
        }
        drop((folder, place));
    });
    Ok(body)
}
