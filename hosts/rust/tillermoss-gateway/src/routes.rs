//! What a request asks for, by its method, its path and what stands after a `?`.

use crate::faults::HttpFault;
use host_wire::is_name;
use hyper::{Method, Uri};
use tillermoss::Refusal;

/// What a path leads to.
#[derive(Clone, Debug, PartialEq, Eq)]
pub enum Route {
    /// A file, by its whole name.
    File(String),
    /// A directory.
    List(String),
    /// The numbers of a node.
    Stat(String),
    /// What happens to a node.
    Watch(String),
    /// The lock of a file.
    Lock(String),
    /// Sessions.
    Sessions,
    /// The session of this number.
    Session(String),
    /// Its renewal.
    Renew(String),
    /// Sequencers.
    Check,
    /// Whether the gateway runs.
    Health,
}

impl Route {
    /// That of a path; names that don't begin with a slash are of this cell.
    pub fn of(path: &str, cell: &str) -> Result<Route, HttpFault> {
        let whole = |name: &str| whole_name(name, cell);
        if path == "/healthz" {
            return Ok(Route::Health);
        }
        let (kind, rest) = path.strip_prefix("/v1/").map(|rest| rest.split_once('/').unwrap_or((rest, ""))).ok_or(HttpFault::NoRoute)?;
        match (kind, rest) {
            ("file", name) => whole(name).map(Route::File),
            ("list", name) => whole(name).map(Route::List),
            ("stat", name) => whole(name).map(Route::Stat),
            ("watch", name) => whole(name).map(Route::Watch),
            ("lock", name) => whole(name).map(Route::Lock),
            ("check", "") => Ok(Route::Check),
            ("session", "") => Ok(Route::Sessions),
            ("session", rest) => match rest.split_once('/') {
                None => Ok(Route::Session(rest.to_owned())),
                Some((number, "renew")) => Ok(Route::Renew(number.to_owned())),
                Some(_) => Err(HttpFault::NoRoute),
            },
            _ => Err(HttpFault::NoRoute),
        }
    }

    /// The methods that the path has.
    pub fn methods(&self) -> &'static str {
        match self {
            Route::File(_) => "GET, HEAD, PUT, DELETE",
            Route::List(_) => "GET, PUT",
            Route::Stat(_) | Route::Watch(_) | Route::Health => "GET",
            Route::Lock(_) => "POST, DELETE",
            Route::Sessions | Route::Check => "POST",
            Route::Session(_) => "DELETE",
            Route::Renew(_) => "PUT",
        }
    }

    /// Whether the path has this method.
    pub fn takes(&self, method: &Method) -> bool {
        self.methods().split(", ").any(|other| other == method.as_str())
    }
}

fn whole_name(name: &str, cell: &str) -> Result<String, HttpFault> {
    let name = unescaped(name)?;
    let whole = match name.as_str() {
        "" => format!("/ls/{cell}"),
        whole if whole.starts_with('/') => whole.to_owned(),
        part => format!("/ls/{cell}/{part}"),
    };
    if is_name(&whole) { Ok(whole) } else { Err(Refusal::BadName.into()) }
}

// With each `%XX` as the byte that it stands for.
fn unescaped(text: &str) -> Result<String, HttpFault> {
    if !text.contains('%') {
        return Ok(text.to_owned());
    }
    let mut parts = text.split('%');
    let mut bytes = parts.next().unwrap_or_default().as_bytes().to_vec();
    for part in parts {
        let byte = part.get(..2).filter(|digits| digits.bytes().all(|digit| digit.is_ascii_hexdigit()));
        let byte = byte.and_then(|digits| u8::from_str_radix(digits, 16).ok());
        bytes.push(byte.ok_or_else(|| HttpFault::BadRequest("a % without two hexadecimal digits".to_owned()))?);
        bytes.extend(&part.as_bytes()[2..]);
    }
    String::from_utf8(bytes).map_err(|_| Refusal::BadName.into())
}

/// What stands after the `?` of a request: words, each with a value or without.
#[derive(Clone, Debug, Default, PartialEq, Eq)]
pub struct Query(Vec<(String, Option<String>)>);

impl Query {
    /// That of a request, which has none but these words.
    pub fn of(uri: &Uri, known: &[&str]) -> Result<Query, HttpFault> {
        let parts = uri.query().unwrap_or_default().split('&').filter(|part| !part.is_empty());
        let mut words: Vec<(String, Option<String>)> = Vec::new();
        for part in parts {
            let (word, value) = part.split_once('=').map_or((part, None), |(word, value)| (word, Some(value)));
            if !known.contains(&word) || words.iter().any(|(other, _)| other == word) {
                return Err(HttpFault::BadRequest(format!("{word}: there is no such word after the ?, or twice")));
            }
            words.push((word.to_owned(), value.map(unescaped).transpose()?));
        }
        Ok(Query(words))
    }

    /// Whether the word stands there.
    pub fn has(&self, word: &str) -> bool {
        self.0.iter().any(|(other, _)| other == word)
    }

    /// The value of a word.
    pub fn value(&self, word: &str) -> Option<&str> {
        self.0.iter().find(|(other, _)| other == word).and_then(|(_, value)| value.as_deref())
    }

    /// The number that a word has, at most so large.
    pub fn number(&self, word: &str, most: u64) -> Result<Option<u64>, HttpFault> {
        let read = |text: &str| text.parse().ok().filter(|number| *number <= most);
        let wrong = || HttpFault::BadRequest(format!("{word}: it is a number up to {most}"));
        self.value(word).map(|text| read(text).ok_or_else(wrong)).transpose()
    }
}

#[cfg(test)]
mod tests {
    use super::*;

    #[test]
    fn paths_lead_to_routes() {
        let name = |name: &str| name.to_owned();
        let rows = [
            ("/v1/file/motd", Some(Route::File(name("/ls/c/motd")))),
            ("/v1/file//ls/d/motd", Some(Route::File(name("/ls/d/motd")))),
            ("/v1/file/a%2Fb", Some(Route::File(name("/ls/c/a/b")))),
            ("/v1/file/a%2", None),
            ("/v1/file/a%+1", None),
            ("/v1/file/a%ff", None),
            ("/v1/file/A", None),
            ("/v1/file/a/", None),
            ("/v1/file/../a", None),
            ("/v1/list/", Some(Route::List(name("/ls/c")))),
            ("/v1/list", Some(Route::List(name("/ls/c")))),
            ("/v1/stat/f", Some(Route::Stat(name("/ls/c/f")))),
            ("/v1/watch/f", Some(Route::Watch(name("/ls/c/f")))),
            ("/v1/lock/f", Some(Route::Lock(name("/ls/c/f")))),
            ("/v1/session", Some(Route::Sessions)),
            ("/v1/session/7", Some(Route::Session(name("7")))),
            ("/v1/session/7/renew", Some(Route::Renew(name("7")))),
            ("/v1/session/7/other", None),
            ("/v1/check", Some(Route::Check)),
            ("/v1/check/f", None),
            ("/v2/file/f", None),
            ("/", None),
            ("/healthz", Some(Route::Health)),
        ];
        for (path, wanted) in rows {
            assert_eq!(Route::of(path, "c").ok(), wanted, "{path}");
        }
    }

    #[test]
    fn words_are_read() {
        let read = |uri: &str, known: &[&str]| Query::of(&uri.parse().unwrap(), known);
        let query = read("/v1/lock/f?session=a%62&wait=30&json", &["session", "wait", "json"]).unwrap();
        assert_eq!((query.value("session"), query.number("wait", 60).unwrap(), query.has("json")), (Some("ab"), Some(30), true));
        assert_eq!((query.value("mode"), query.number("delay", 60).unwrap()), (None, None));
        assert!(query.number("wait", 29).is_err());
        for uri in ["/v1/f?other", "/v1/f?json&json", "/v1/f?json=%"] {
            assert!(read(uri, &["json"]).is_err(), "{uri}");
        }
    }
}
