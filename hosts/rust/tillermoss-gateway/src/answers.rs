//! What is answered.

use crate::faults::HttpFault;
use crate::shown;
use bytes::Bytes;
use hyper::header::{ALLOW, CACHE_CONTROL, CONTENT_LENGTH, CONTENT_TYPE, ETAG, HeaderName, HeaderValue, RETRY_AFTER, WWW_AUTHENTICATE};
use hyper::{Body, Response, StatusCode};
use serde_json::Value;
use std::time::Duration;
use tillermoss::{Sight, Stat};

/// How many milliseconds at most nobody changes what is answered unless the gateway hears of that first.
const LEASE: HeaderName = HeaderName::from_static("tillermoss-lease");

const SNIFF: HeaderName = HeaderName::from_static("x-content-type-options");

/// A bare one.
pub fn bare(status: StatusCode) -> Response<Body> {
    with(status, Body::empty())
}

fn with(status: StatusCode, body: Body) -> Response<Body> {
    let mut response = Response::new(body);
    *response.status_mut() = status;
    // (what was read may be kept, and has to be asked for anew; and it is never a page of this site)
    response.headers_mut().insert(CACHE_CONTROL, HeaderValue::from_static("no-cache"));
    response.headers_mut().insert(SNIFF, HeaderValue::from_static("nosniff"));
    response
}

fn typed(status: StatusCode, kind: &'static str, body: Body) -> Response<Body> {
    let mut response = with(status, body);
    response.headers_mut().insert(CONTENT_TYPE, HeaderValue::from_static(kind));
    response
}

/// One in JSON.
pub fn json(status: StatusCode, shown: &Value) -> Response<Body> {
    typed(status, "application/json", format!("{shown}\n").into())
}

/// A content, or its length alone.
pub fn content(content: &Bytes, is_head: bool) -> Response<Body> {
    if !is_head {
        return typed(StatusCode::OK, "application/octet-stream", content.clone().into());
    }
    let mut response = typed(StatusCode::OK, "application/octet-stream", Body::empty());
    response.headers_mut().insert(CONTENT_LENGTH, content.len().into());
    response
}

/// A stream of events.
pub fn events(body: Body) -> Response<Body> {
    typed(StatusCode::OK, "text/event-stream", body)
}

/// With the lease under which it was read.
pub fn under_lease(mut response: Response<Body>, left: Duration) -> Response<Body> {
    let left = u64::try_from(left.as_millis()).unwrap_or(u64::MAX);
    response.headers_mut().insert(LEASE, left.into());
    response
}

/// With the mark of the content.
pub fn marked(mut response: Response<Body>, instance: u64, generation: u64) -> Response<Body> {
    if let Ok(value) = HeaderValue::from_str(&format!("\"{instance}.{generation}\"")) {
        response.headers_mut().insert(ETAG, value);
    }
    response
}

/// With the lease and the mark of what was read.
pub fn of_sight(response: Response<Body>, sight: &Sight) -> Response<Body> {
    let Stat { instance, content_generation, .. } = sight.page.stat;
    under_lease(marked(response, instance, content_generation), sight.lease_left)
}

/// Whether a reader has this content already, by the marks that it names.
pub fn has_mark(named: Option<&HeaderValue>, stat: &Stat) -> bool {
    let mark = shown::mark(stat);
    let named = named.and_then(|named| named.to_str().ok()).unwrap_or_default();
    named.split(',').map(|one| one.trim().trim_start_matches("W/").trim_matches('"')).any(|one| one == "*" || one == mark)
}

/// Why nothing came of it.
pub fn fault(fault: &HttpFault) -> Response<Body> {
    let mut response = json(fault.status(), &fault.shown());
    let headers = response.headers_mut();
    match fault {
        HttpFault::BadMethod(allowed) => _ = headers.insert(ALLOW, HeaderValue::from_static(allowed)),
        HttpFault::NoPrincipal => _ = headers.insert(WWW_AUTHENTICATE, HeaderValue::from_static("Bearer")),
        fault if fault.is_for_now() => _ = headers.insert(RETRY_AFTER, HeaderValue::from_static("1")),
        _ => {}
    }
    response
}
