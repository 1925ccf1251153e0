//! Why a request came to nothing: with which status it is answered, and what to do.

use hyper::StatusCode;
use serde_json::{Value, json};
use tillermoss::{Error, Refusal, TurnedAway};

/// Why a request came to nothing.
#[derive(Debug)]
pub enum HttpFault {
    /// The cell, the server or the client library.
    Cell(Error),
    /// There is no such path.
    NoRoute,
    /// The path has these methods.
    BadMethod(&'static str),
    /// What is asked isn't understood.
    BadRequest(String),
    /// Nobody knows who asks.
    NoPrincipal,
    /// Who asks shows two names, or a name that is no principal, or comes from another site.
    OtherPrincipal(&'static str),
    /// A limit of the gateway stands against it.
    TooMany(&'static str),
    /// There is no such session.
    NoSuchSession,
    /// The session is lost.
    SessionLost,
    /// An ephemeral file would stay because it is watched.
    Ephemeral,
    /// It isn't known whether it was done.
    Unknown,
    /// No answer came in time.
    Late,
}

impl From<Error> for HttpFault {
    fn from(error: Error) -> HttpFault {
        HttpFault::Cell(error)
    }
}

impl From<Refusal> for HttpFault {
    fn from(refusal: Refusal) -> HttpFault {
        HttpFault::Cell(refusal.into())
    }
}

/// A refusal's number, its status, and what to do.
type Row = (u32, u16, &'static str);

const FAULT: &str = "this is an error of the gateway or the server: tell those who run them";
const AGAIN: &str = "ask again a little later";

/// Each refusal of the cell. `docs/OPERATING.md` says what each means.
const REFUSALS: &[Row] = &[
    (1, 503, AGAIN),
    (2, 400, "a name is parts of 1 to 64 of a-z 0-9 . _ - between slashes"),
    (3, 400, "--cell of the gateway names its cell"),
    (4, 400, "a principal is 1 to 64 of a-z 0-9 . _ -"),
    (5, 400, "the content of an ACL is a principal a line"),
    (6, 404, "PUT makes it; its directory has to be there: PUT /v1/list/NAME makes one"),
    (7, 409, "it is there: GET it, and write it with If-Match"),
    (8, 409, "/v1/file is for files, /v1/list for directories"),
    (9, 409, "delete its children first"),
    (10, 403, "who may is said by the ACLs that /v1/stat shows"),
    (11, 409, "it was written meanwhile: GET it again"),
    (12, 413, "a file has 262,144 bytes at most: what is larger stands elsewhere, and a file here says where"),
    (13, 500, FAULT),
    (14, 409, "it was deleted meanwhile: ask again"),
    (15, 503, "the cell's disk may be full: tell those who run it"),
    (16, 500, FAULT),
    (17, 500, FAULT),
    (18, 400, "a sequencer is the text that POST /v1/lock answered"),
    (19, 503, AGAIN),
    (20, 500, FAULT),
    (21, 500, FAULT),
    (22, 503, AGAIN),
    (23, 409, "another holds it: wait=SECONDS waits"),
    (24, 423, "its holder was lost, and may act still: wait=SECONDS waits"),
    (25, 409, "this session doesn't hold it"),
    (26, 409, "the lock isn't held any more: do nothing under it"),
    (27, 400, "delay is 60000 at most"),
    (28, 503, AGAIN),
    (29, 503, AGAIN),
    (30, 503, "the gateway doesn't reach the cell now: ask again, or ask another gateway"),
    (31, 503, AGAIN),
    (32, 500, FAULT),
    (33, 503, AGAIN),
    (34, 504, "it was done, or not: GET it"),
    (35, 502, FAULT),
    (36, 503, AGAIN),
    (37, 502, FAULT),
    (38, 503, AGAIN),
    (39, 500, FAULT),
    (43, 429, "delete or release what isn't needed, or ask those who run the cell for more room"),
];

const UNREACHED: &str = "the gateway doesn't reach the cell: ask again, or ask another gateway";

impl HttpFault {
    // The number of the refusal, else 0; the name; the status; and what to do.
    fn parts(&self) -> (u32, &'static str, u16, &'static str) {
        match self {
            HttpFault::Cell(Error::Refused(refusal)) => {
                let row = REFUSALS.iter().find(|(number, ..)| *number == refusal.number());
                let (number, status, cure) = row.copied().unwrap_or((refusal.number(), 500, FAULT));
                (number, refusal.name(), status, cure)
            }
            HttpFault::Cell(Error::Limited(_)) => (0, "Limited", 429, "a limit of the cell's server stands against it"),
            HttpFault::Cell(Error::TurnedAway(reason)) => turned_away(*reason),
            HttpFault::Cell(Error::Malformed(_)) => (0, "Malformed", 502, FAULT),
            HttpFault::Cell(_) => (0, "Unreached", 503, UNREACHED),
            HttpFault::NoRoute => (0, "NoRoute", 404, "docs/openapi.yaml lists what there is"),
            HttpFault::BadMethod(_) => (0, "BadMethod", 405, "the header Allow says which there are"),
            HttpFault::BadRequest(_) => (0, "BadRequest", 400, "docs/openapi.yaml says how it is asked"),
            HttpFault::NoPrincipal => (0, "NoPrincipal", 401, "show a certificate, or Authorization: Bearer TOKEN"),
            HttpFault::OtherPrincipal(_) => (0, "OtherPrincipal", 403, "act as the one that is shown"),
            HttpFault::TooMany(_) => (0, "TooMany", 429, "end some, or ask again later"),
            HttpFault::NoSuchSession => (0, "NoSuchSession", 404, "its time to live is over, or it is another's: POST /v1/session"),
            HttpFault::SessionLost => (0, "SessionLost", 410, "what it held is lost: POST /v1/session begins another"),
            HttpFault::Ephemeral => (0, "Ephemeral", 409, "to watch it would keep it there: watch its directory"),
            HttpFault::Unknown => (34, "Unknown", 504, "it was done, or not: GET it"),
            HttpFault::Late => (0, "Late", 503, AGAIN),
        }
    }

    /// The status of the answer.
    pub fn status(&self) -> StatusCode {
        StatusCode::from_u16(self.parts().2).unwrap_or(StatusCode::INTERNAL_SERVER_ERROR)
    }

    /// Whether it is for now.
    pub fn is_for_now(&self) -> bool {
        matches!(self.parts().2, 423 | 429 | 503)
    }

    /// Of what changes nothing, or may be asked for again, it doesn't matter whether it was done.
    pub fn of_what_may_be_asked_again(self) -> HttpFault {
        match self {
            HttpFault::Unknown | HttpFault::Cell(Error::Refused(Refusal::Unknown)) => HttpFault::Late,
            fault => fault,
        }
    }

    fn message(&self) -> String {
        match self {
            HttpFault::Cell(error) => error.to_string(),
            HttpFault::NoRoute => "there is no such path".to_owned(),
            HttpFault::BadMethod(allowed) => format!("this path has {allowed}"),
            HttpFault::BadRequest(what) => what.clone(),
            HttpFault::NoPrincipal => "nobody knows who asks".to_owned(),
            HttpFault::OtherPrincipal(what) | HttpFault::TooMany(what) => (*what).to_owned(),
            HttpFault::NoSuchSession => "there is no such session".to_owned(),
            HttpFault::SessionLost => "the session is lost".to_owned(),
            HttpFault::Ephemeral => "it is ephemeral".to_owned(),
            HttpFault::Unknown => "no answer came: it was done, or not".to_owned(),
            HttpFault::Late => "no answer came in time".to_owned(),
        }
    }

    /// What is answered.
    pub fn shown(&self) -> Value {
        let (number, name, _, cure) = self.parts();
        json!({ "number": number, "name": name, "message": self.message(), "cure": cure })
    }
}

fn turned_away(reason: TurnedAway) -> (u32, &'static str, u16, &'static str) {
    match reason {
        TurnedAway::OtherPrincipal => (0, "TurnedAway", 403, "the gateway can't show the cell that it acts for this principal"),
        TurnedAway::FullForPrincipal => (0, "TurnedAway", 429, "end some of the principal's clients"),
        _ => (0, "TurnedAway", 503, AGAIN),
    }
}

#[cfg(test)]
mod tests {
    use super::*;
    use tillermoss::LockMode;

    #[test]
    fn each_refusal_has_a_row() {
        let numbers: Vec<u32> = REFUSALS.iter().map(|(number, ..)| *number).collect();
        assert_eq!(numbers, (1..=39).chain([43]).collect::<Vec<_>>());
    }

    #[test]
    fn faults_have_their_statuses() {
        let rows: [(HttpFault, u16); 13] = [
            (Refusal::NotFound.into(), 404),
            (Refusal::Held(LockMode::Exclusive).into(), 409),
            (Refusal::WrongGeneration(3).into(), 409),
            (Refusal::Exists.into(), 409),
            (Refusal::TooLarge.into(), 413),
            (Refusal::Delayed(7).into(), 423),
            (Refusal::Recovering.into(), 503),
            (Refusal::InJeopardy.into(), 503),
            (Refusal::Unknown.into(), 504),
            (Refusal::NoRoom(4).into(), 429),
            (Error::Limited("bytes_of_a_principal".to_owned()).into(), 429),
            (Error::Unavailable.into(), 503),
            (HttpFault::NoPrincipal, 401),
        ];
        for (fault, status) in rows {
            assert_eq!(fault.status().as_u16(), status, "{fault:?}");
        }
        assert_eq!(HttpFault::from(Refusal::Unknown).of_what_may_be_asked_again().status().as_u16(), 503);
        assert_eq!(HttpFault::from(Refusal::NotFound).of_what_may_be_asked_again().status().as_u16(), 404);
        let shown = HttpFault::from(Refusal::WrongGeneration(3)).shown();
        assert_eq!((shown["number"].as_u64(), shown["name"].as_str()), (Some(11), Some("WrongGeneration")));
    }
}
