//! What a request is answered, and who asks.

use crate::answers;
use crate::desks::Desk;
use crate::doors::ShownName;
use crate::faults::HttpFault;
use crate::files::{self, Condition};
use crate::locks::{self, SessionAsker};
use crate::options::GatewayOptions;
use crate::routes::{Query, Route};
use crate::sessions::Sessions;
use crate::tokens::Tokens;
use anyhow::{Context, Result, bail};
use bytes::Bytes;
use host_wire::Address;
use hyper::body::HttpBody;
use hyper::header::{AUTHORIZATION, HOST, HeaderMap, HeaderValue, ORIGIN};
use hyper::{Body, Method, Request, Response, StatusCode};
use std::collections::HashMap;
use std::convert::Infallible;
use std::sync::{Arc, PoisonError, RwLock};
use std::time::Duration;
use tillermoss::Refusal;
use tokio::sync::Notify;
use tokio::time::timeout;

/// How many bytes the body of a request has at most: those of a file.
const BODY: usize = 262_144;

/// How long a body may be on its way.
const SLOWEST: Duration = Duration::from_secs(30);

/// The gateway, as all connections share it.
#[derive(Debug)]
pub struct Gateway {
    options: GatewayOptions,
    tokens: RwLock<Tokens>,
    desks: RwLock<HashMap<Arc<str>, Arc<Desk>>>,
    /// The sessions that HTTP clients keep.
    pub sessions: Sessions,
}

impl Gateway {
    /// One by these options, that has connected nothing yet.
    pub fn new(options: GatewayOptions) -> Result<Gateway> {
        check_server(&options)?;
        let tokens = Gateway::read(&options)?;
        let sessions = Sessions::new(options.sessions);
        Ok(Gateway { options, tokens: RwLock::new(tokens), desks: RwLock::default(), sessions })
    }

    fn read(options: &GatewayOptions) -> Result<Tokens> {
        options.tokens.as_deref().map_or(Ok(Tokens::default()), Tokens::read)
    }

    /// Reads the tokens again; where that fails the old ones stay.
    pub fn renew(&self) -> Result<()> {
        *self.tokens.write().unwrap_or_else(PoisonError::into_inner) = Gateway::read(&self.options)?;
        Ok(())
    }

    /// Ends what is connected to the cell; waits for that.
    pub fn leave(&self) {
        let desks: Vec<Arc<Desk>> = self.desks.read().unwrap_or_else(PoisonError::into_inner).values().cloned().collect();
        let leaving = self.sessions.leave().into_iter().chain(desks.iter().flat_map(|desk| desk.leave()));
        // (all begin before one is waited for; one that fails has told why)
        leaving.collect::<Vec<_>>().into_iter().for_each(|leaving| drop(leaving.join()));
    }

    fn desk(&self, principal: &Arc<str>) -> Arc<Desk> {
        if let Some(desk) = self.desks.read().unwrap_or_else(PoisonError::into_inner).get(principal) {
            return desk.clone();
        }
        let mut desks = self.desks.write().unwrap_or_else(PoisonError::into_inner);
        desks.entry(principal.clone()).or_insert_with(|| Arc::new(Desk::new(principal, &self.options))).clone()
    }

    // For whom a request is: whom its connection shows, or whose token it shows; where both stand there they are one.
    fn principal(&self, headers: &HeaderMap, shown: &ShownName) -> Result<Arc<str>, HttpFault> {
        let token = headers.get(AUTHORIZATION).map(|shown| bearer(shown).ok_or(HttpFault::NoPrincipal)).transpose()?;
        let tokens = || self.tokens.read().unwrap_or_else(PoisonError::into_inner);
        let by_token = token.map(|token| tokens().principal(token).ok_or(HttpFault::NoPrincipal)).transpose()?;
        match (shown, by_token, &self.options.everybody) {
            (ShownName::Other, ..) => Err(HttpFault::OtherPrincipal("the name that is shown is no principal")),
            (ShownName::Principal(one), Some(other), _) if *one != other => {
                Err(HttpFault::OtherPrincipal("the token is of another principal than the connection shows"))
            }
            (ShownName::Principal(principal), ..) => Ok(principal.clone()),
            (ShownName::Nobody { .. }, Some(principal), _) => Ok(principal),
            (ShownName::Nobody { is_local: true }, None, Some(everybody)) if is_own_site(headers) => Ok(everybody.as_str().into()),
            (ShownName::Nobody { is_local: true }, None, Some(_)) => {
                Err(HttpFault::OtherPrincipal("only under a name of this machine, and from no page of another site"))
            }
            (ShownName::Nobody { .. }, None, _) => Err(HttpFault::NoPrincipal),
        }
    }

    /// What a request is answered. Once it is known who asks, that is said.
    pub async fn answer(&self, request: Request<Body>, shown: &ShownName, known: &Notify) -> Result<Response<Body>, Infallible> {
        let is_head = request.method() == Method::HEAD;
        let answered = self.answered(request, shown, known).await;
        let response = answered.unwrap_or_else(|fault| answers::fault(&fault));
        Ok(if is_head { response.map(|_| Body::empty()) } else { response })
    }

    async fn answered(&self, request: Request<Body>, shown: &ShownName, known: &Notify) -> Result<Response<Body>, HttpFault> {
        let route = Route::of(request.uri().path(), &self.options.cell)?;
        if !route.takes(request.method()) {
            return Err(HttpFault::BadMethod(route.methods()));
        }
        if route == Route::Health {
            return Ok(answers::json(StatusCode::OK, &serde_json::json!({ "healthy": true })));
        }
        let principal = self.principal(request.headers(), shown)?;
        known.notify_one();
        let desk = self.desk(&principal);
        let asker = SessionAsker { sessions: &self.sessions, desk: &desk, principal: &principal };
        match route {
            Route::File(name) => on_file(&desk, asker, &name, request).await,
            Route::List(name) => on_list(&desk, &name, &request).await,
            Route::Lock(name) => on_lock(asker, &name, &request).await,
            Route::Watch(name) => watch(&desk, &name, &request).await,
            route => self.on_others(&desk, asker, route, request).await,
        }
    }

    async fn on_others(
        &self,
        desk: &Arc<Desk>,
        asker: SessionAsker<'_>,
        route: Route,
        request: Request<Body>,
    ) -> Result<Response<Body>, HttpFault> {
        let known: &[&str] = if route == Route::Sessions { &["ttl"] } else { &[] };
        let query = Query::of(request.uri(), known)?;
        match route {
            Route::Stat(name) => files::stat(desk, &name).await,
            Route::Sessions => asker.begin(&query).await,
            Route::Renew(number) => asker.renew(&number).await,
            Route::Session(number) => {
                self.sessions.end(&number, asker.principal).await?;
                Ok(answers::bare(StatusCode::NO_CONTENT))
            }
            Route::Check => locks::check(desk, &body(request).await?).await,
            _ => Err(HttpFault::NoRoute),
        }
    }
}

// A gateway that reaches no server by these words would say so with each request.
fn check_server(options: &GatewayOptions) -> Result<()> {
    for word in options.server.split(',') {
        let address: Address = word.parse().with_context(|| format!("--server {word}"))?;
        let is_known = options.credentials.is_some() && options.authority.is_some();
        if matches!(address, Address::Tls(_)) && !is_known {
            bail!("--server {word}: wants --credentials and --authority");
        }
    }
    Ok(())
}

async fn on_file(desk: &Arc<Desk>, asker: SessionAsker<'_>, name: &str, request: Request<Body>) -> Result<Response<Body>, HttpFault> {
    match *request.method() {
        Method::PUT => {
            let (query, condition) = (Query::of(request.uri(), &["session"])?, Condition::of(request.headers())?);
            let content = body(request).await?;
            match (query.has("session"), condition) {
                (false, condition) => files::put(desk, name, content, condition).await,
                (true, Condition::Any) => asker.put(name, content, &query).await,
                (true, _) => {
                    Err(HttpFault::BadRequest("an ephemeral file is written by its session alone, without a condition".to_owned()))
                }
            }
        }
        Method::DELETE => {
            Query::of(request.uri(), &[])?;
            files::delete(desk, name, request.headers()).await
        }
        _ => {
            let query = Query::of(request.uri(), &["json"])?;
            files::get(desk, name, &query, request.headers(), request.method() == Method::HEAD).await
        }
    }
}

async fn on_list(desk: &Arc<Desk>, name: &str, request: &Request<Body>) -> Result<Response<Body>, HttpFault> {
    if *request.method() == Method::PUT {
        Query::of(request.uri(), &[])?;
        return files::make_directory(desk, name).await;
    }
    files::list(desk, name, &Query::of(request.uri(), &["recursive"])?).await
}

async fn on_lock(asker: SessionAsker<'_>, name: &str, request: &Request<Body>) -> Result<Response<Body>, HttpFault> {
    let answered = if *request.method() == Method::DELETE {
        asker.release(name, &Query::of(request.uri(), &["session"])?).await
    } else {
        asker.acquire(name, &Query::of(request.uri(), &["session", "mode", "wait", "delay"])?).await
    };
    answered.map_err(HttpFault::of_what_may_be_asked_again)
}

async fn watch(desk: &Arc<Desk>, name: &str, request: &Request<Body>) -> Result<Response<Body>, HttpFault> {
    Query::of(request.uri(), &[])?;
    let last = request.headers().get("last-event-id").and_then(|last| last.to_str().ok()).map(str::to_owned);
    Ok(answers::events(desk.watch(name).await?.into_body(last)))
}

// The body of a request, where it isn't larger than a file.
async fn body(request: Request<Body>) -> Result<Bytes, HttpFault> {
    let mut body = request.into_body();
    if body.size_hint().lower() > BODY as u64 {
        return Err(Refusal::TooLarge.into());
    }
    let read = async {
        let mut bytes = Vec::new();
        while let Some(part) = body.data().await {
            bytes.extend_from_slice(&part.map_err(|_| HttpFault::BadRequest("the body broke off".to_owned()))?);
            if bytes.len() > BODY {
                return Err(Refusal::TooLarge.into());
            }
        }
        Ok(bytes.into())
    };
    timeout(SLOWEST, read).await.unwrap_or_else(|_| Err(HttpFault::BadRequest("the body took too long".to_owned())))
}

fn bearer(shown: &HeaderValue) -> Option<&str> {
    let (kind, token) = shown.to_str().ok()?.split_once(' ')?;
    kind.eq_ignore_ascii_case("bearer").then(|| token.trim())
}

// A page of another site whose name leads to this machine has that name here, and says where it is from.
fn is_own_site(headers: &HeaderMap) -> bool {
    let is_local = |host: &str| format!("tcp:{host}").parse::<Address>().is_ok_and(|address| address.is_local()) || is_localhost(host);
    let text = |value: &HeaderValue| value.to_str().map(str::to_owned).unwrap_or_default();
    let host = headers.get(HOST).map(text);
    let origin = headers.get(ORIGIN).map(text);
    host.as_deref().is_none_or(is_local) && origin.is_none_or(|origin| host.is_some_and(|host| origin == format!("http://{host}")))
}

fn is_localhost(host: &str) -> bool {
    host == "localhost" || host.strip_prefix("localhost:").is_some_and(|port| port.parse::<u16>().is_ok())
}

#[cfg(test)]
mod tests {
    use super::*;
    use clap::Parser;

    fn gateway(words: &str) -> Gateway {
        Gateway::new(GatewayOptions::parse_from(["tillermoss-gateway", "0"].into_iter().chain(words.split_whitespace()))).unwrap()
    }

    fn headers(rows: &[(&'static str, &'static str)]) -> HeaderMap {
        rows.iter().map(|(name, value)| (name.parse().unwrap(), HeaderValue::from_static(value))).collect()
    }

    // (the sum of `secret` is ann's)
    fn with_tokens() -> (Gateway, tempfile::NamedTempFile) {
        let file = tempfile::NamedTempFile::new().unwrap();
        std::fs::write(file.path(), "2bb80d537b1da3e38bd30361aa855686bde0eacd7162fef6a25fe97bf527a25b ann\n").unwrap();
        (gateway(&format!("--tokens {}", file.path().display())), file)
    }

    #[test]
    fn who_asks_is_shown() {
        let (gateway, _file) = with_tokens();
        let (nobody, ann, bob) =
            (ShownName::Nobody { is_local: true }, ShownName::Principal("ann".into()), ShownName::Principal("bob".into()));
        let rows: &[(&ShownName, &[(&str, &str)], Result<&str, u16>)] = &[
            (&nobody, &[("authorization", "Bearer secret")], Ok("ann")),
            (&nobody, &[("authorization", "bearer secret")], Ok("ann")),
            (&nobody, &[("authorization", "Bearer other")], Err(401)),
            (&nobody, &[("authorization", "Basic secret")], Err(401)),
            (&nobody, &[], Err(401)),
            (&nobody, &[("x-principal", "ann"), ("from", "ann")], Err(401)),
            (&bob, &[], Ok("bob")),
            (&bob, &[("authorization", "Bearer secret")], Err(403)),
            (&bob, &[("authorization", "Bearer other")], Err(401)),
            (&ann, &[("authorization", "Bearer secret")], Ok("ann")),
            (&ShownName::Other, &[("authorization", "Bearer secret")], Err(403)),
        ];
        for (shown, rows, wanted) in rows {
            let found = gateway.principal(&headers_of(rows), shown).map_err(|fault| fault.status().as_u16());
            assert_eq!(found.as_deref(), wanted.as_ref().map(|one| *one), "{shown:?} {rows:?}");
        }
    }

    fn headers_of(rows: &[(&str, &str)]) -> HeaderMap {
        rows.iter().map(|(name, value)| (name.parse().unwrap(), HeaderValue::from_str(value).unwrap())).collect()
    }

    #[test]
    fn who_shows_nothing_acts_for_one_on_this_machine_alone() {
        let gateway = gateway("--as ann");
        let rows: &[(bool, &[(&'static str, &'static str)], Result<&str, u16>)] = &[
            (true, &[("host", "127.0.0.1:80")], Ok("ann")),
            (true, &[("host", "localhost:8080")], Ok("ann")),
            (true, &[("host", "localhost:8080"), ("origin", "http://localhost:8080")], Ok("ann")),
            (true, &[("host", "[::1]:80")], Ok("ann")),
            (true, &[], Ok("ann")),
            (true, &[("host", "evil.example:80")], Err(403)),
            (true, &[("host", "localhost.evil.example")], Err(403)),
            (true, &[("host", "localhost:8080"), ("origin", "http://evil.example")], Err(403)),
            (true, &[("host", "localhost:8080"), ("origin", "null")], Err(403)),
            (false, &[("host", "127.0.0.1:80")], Err(401)),
        ];
        for (is_local, rows, wanted) in rows {
            let found =
                gateway.principal(&headers(rows), &ShownName::Nobody { is_local: *is_local }).map_err(|fault| fault.status().as_u16());
            assert_eq!(found.as_deref(), wanted.as_ref().map(|one| *one), "{rows:?}");
        }
    }
}
