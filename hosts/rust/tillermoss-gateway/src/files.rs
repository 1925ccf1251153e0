//! Files and directories: what is read out of the cache, and what is written.

use crate::answers;
use crate::desks::Desk;
use crate::faults::HttpFault;
use crate::routes::Query;
use crate::shown;
use bytes::Bytes;
use hyper::header::{HeaderMap, HeaderValue, IF_MATCH, IF_NONE_MATCH};
use hyper::{Body, Response, StatusCode};
use std::sync::Arc;
use tillermoss::{Client, Create, Error, Handle, Kind, Mode, Opening, Refusal};

/// How often a file that comes, goes or is written meanwhile is tried to be written.
const TRIES: u32 = 10;

/// How many names are listed at once, with those below them.
const MOST: usize = 20_000;

/// A file's content, or what is shown of it.
pub async fn get(desk: &Desk, name: &str, query: &Query, headers: &HeaderMap, is_head: bool) -> Result<Response<Body>, HttpFault> {
    let sight = desk.sight(name).await?;
    let page = &sight.page;
    if page.stat.kind == Kind::Directory {
        return Err(Refusal::WrongKind(Kind::Directory).into());
    }
    let response = if headers.get(IF_NONE_MATCH).is_some_and(|named| answers::has_mark(Some(named), &page.stat)) {
        answers::bare(StatusCode::NOT_MODIFIED)
    } else if query.has("json") && !is_head {
        answers::json(StatusCode::OK, &shown::view(name, page))
    } else {
        answers::content(&page.content, is_head)
    };
    Ok(answers::of_sight(response, &sight))
}

/// The names in a directory; with those below them, where that is asked for.
pub async fn list(desk: &Desk, name: &str, query: &Query) -> Result<Response<Body>, HttpFault> {
    let sight = desk.sight(name).await?;
    if sight.page.stat.kind == Kind::File {
        return Err(Refusal::WrongKind(Kind::File).into());
    }
    if query.has("recursive") {
        let names = below(desk, name, &sight.page.children).await?;
        return Ok(answers::json(StatusCode::OK, &shown::children(name, &names)));
    }
    let response = answers::json(StatusCode::OK, &shown::children(name, &sight.page.children));
    Ok(answers::under_lease(response, sight.lease_left))
}

// The names of all that stands below a directory, each in front of what stands below it.
async fn below(desk: &Desk, directory: &str, children: &[String]) -> Result<Vec<String>, HttpFault> {
    let mut found = Vec::new();
    let mut left: Vec<String> = children.iter().rev().cloned().collect();
    while let Some(name) = left.pop() {
        match desk.sight(&format!("{directory}/{name}")).await {
            Ok(sight) => left.extend(sight.page.children.iter().rev().map(|child| format!("{name}/{child}"))),
            // (what is gone meanwhile is left out, and of what may not be read nothing is shown but its name)
            Err(HttpFault::Cell(Error::Refused(Refusal::NotFound | Refusal::StaleInstance))) => continue,
            Err(HttpFault::Cell(Error::Refused(Refusal::Denied(_)))) => {}
            Err(fault) => return Err(fault),
        }
        found.push(name);
        if found.len() > MOST {
            return Err(HttpFault::TooMany("too many names stand below it"));
        }
    }
    Ok(found)
}

/// The numbers of a node, which the master answers.
pub async fn stat(desk: &Desk, name: &str) -> Result<Response<Body>, HttpFault> {
    let wanted = name.to_owned();
    let stat = desk.read(move |reader| reader.stat(&wanted)).await?;
    Ok(answers::json(StatusCode::OK, &shown::stat(name, &stat)))
}

/// Under which condition a file is written.
#[derive(Clone, Copy, Debug, PartialEq, Eq)]
pub enum Condition {
    /// None.
    Any,
    /// It isn't there.
    Absent,
    /// Its content has this generation; its instance too, where that is named.
    Generation(Option<u64>, u64),
}

impl Condition {
    /// That of a request: `If-Match: "INSTANCE.GENERATION"` or `If-Match: GENERATION`, or `If-None-Match: *`.
    pub fn of(headers: &HeaderMap) -> Result<Condition, HttpFault> {
        let wrong = || HttpFault::BadRequest("If-Match is a generation or an ETag, or If-None-Match is *; one of them".to_owned());
        let text = |value: &HeaderValue| value.to_str().map(|text| text.trim().trim_matches('"').to_owned()).map_err(|_| wrong());
        match (headers.get(IF_MATCH), headers.get(IF_NONE_MATCH)) {
            (None, None) => Ok(Condition::Any),
            (None, Some(named)) if text(named)? == "*" => Ok(Condition::Absent),
            (Some(named), None) => {
                let named = text(named)?;
                let (instance, generation) = named.split_once('.').map_or((None, named.as_str()), |(one, other)| (Some(one), other));
                let number = |text: &str| text.parse::<u64>().map_err(|_| wrong());
                Ok(Condition::Generation(instance.map(number).transpose()?, number(generation)?))
            }
            _ => Err(wrong()),
        }
    }
}

/// What a write came to: whether the file was made, and the mark of what was written, where it is known.
type WrittenFile = (bool, Option<(u64, u64)>);

/// Writes a file's whole content, and makes it where there is none.
pub async fn put(desk: &Arc<Desk>, name: &str, content: Bytes, condition: Condition) -> Result<Response<Body>, HttpFault> {
    let name = name.to_owned();
    let (is_new, mark) = desk.write(move |client, opened| write_file(client, opened, &name, &content, condition)).await?;
    let response = answers::bare(if is_new { StatusCode::CREATED } else { StatusCode::NO_CONTENT });
    Ok(mark.into_iter().fold(response, |response, (instance, generation)| answers::marked(response, instance, generation)))
}

// Again and again where it comes, goes or is written meanwhile.
fn write_file(client: &Client, opened: &mut Vec<Handle>, name: &str, content: &[u8], condition: Condition) -> Result<WrittenFile, Error> {
    let mut last = Refusal::NotFound;
    for _ in 0..TRIES {
        let replaced = match condition {
            Condition::Absent => return create(client, opened, name, content),
            Condition::Generation(instance, generation) => return replace(client, opened, name, content, Some((instance, generation))),
            Condition::Any => replace(client, opened, name, content, None),
        };
        last = match replaced {
            Err(Error::Refused(Refusal::NotFound)) => match create(client, opened, name, content) {
                Err(Error::Refused(refusal @ Refusal::Exists)) => refusal,
                created => return created,
            },
            Err(Error::Refused(refusal @ (Refusal::StaleInstance | Refusal::WrongGeneration(_)))) => refusal,
            replaced => return replaced,
        };
    }
    // (others write it all the time: what comes of this write isn't told)
    if matches!(last, Refusal::WrongGeneration(_)) {
        let file = open(client, opened, name)?;
        return client.set(file, content, None).map(|()| (false, None));
    }
    Err(last.into())
}

fn open(client: &Client, opened: &mut Vec<Handle>, name: &str) -> Result<Handle, Error> {
    let handle = client.open(name, Mode::WRITE)?;
    opened.push(handle);
    Ok(handle)
}

fn create(client: &Client, opened: &mut Vec<Handle>, name: &str, content: &[u8]) -> Result<WrittenFile, Error> {
    let create = Create { must: true, content: Some(content.to_vec()), ..Create::default() };
    let made = client.open_with(&Opening { create: Some(create), ..Opening::new(name, Mode::WRITE) })?;
    opened.push(made);
    Ok((true, Some((client.stat(made)?.instance, 1))))
}

// The generation that is told is this write's: it is written only where the file still has the one that was looked at.
fn replace(
    client: &Client,
    opened: &mut Vec<Handle>,
    name: &str,
    content: &[u8],
    wanted: Option<(Option<u64>, u64)>,
) -> Result<WrittenFile, Error> {
    let file = open(client, opened, name)?;
    let stat = client.stat(file)?;
    if stat.kind == Kind::Directory {
        return Err(Refusal::WrongKind(Kind::Directory).into());
    }
    if wanted.and_then(|(instance, _)| instance).is_some_and(|instance| instance != stat.instance) {
        return Err(Refusal::WrongGeneration(stat.content_generation).into());
    }
    let present = wanted.map_or(stat.content_generation, |(_, generation)| generation);
    client.set(file, content, Some(present))?;
    Ok((false, Some((stat.instance, present + 1))))
}

/// Makes a directory.
pub async fn make_directory(desk: &Arc<Desk>, name: &str) -> Result<Response<Body>, HttpFault> {
    let opening = Opening { create: Some(Create { must: true, ..Create::default() }), ..Opening::new(name, Mode::READ) };
    let make = move |client: &Client, opened: &mut Vec<Handle>| {
        opened.push(client.open_with(&opening)?);
        Ok(())
    };
    desk.write(make).await?;
    Ok(answers::bare(StatusCode::CREATED))
}

/// Deletes a file, or a directory that has no children.
pub async fn delete(desk: &Arc<Desk>, name: &str, headers: &HeaderMap) -> Result<Response<Body>, HttpFault> {
    if headers.contains_key(IF_MATCH) || headers.contains_key(IF_NONE_MATCH) {
        return Err(HttpFault::BadRequest("a DELETE has no condition".to_owned()));
    }
    let name = name.to_owned();
    desk.write(move |client, opened| client.delete(open(client, opened, &name)?)).await?;
    Ok(answers::bare(StatusCode::NO_CONTENT))
}

#[cfg(test)]
mod tests {
    use super::*;

    #[test]
    fn conditions_are_read() {
        let rows = [
            (vec![], Some(Condition::Any)),
            (vec![(IF_MATCH, "7")], Some(Condition::Generation(None, 7))),
            (vec![(IF_MATCH, "\"7\"")], Some(Condition::Generation(None, 7))),
            (vec![(IF_MATCH, "\"4.7\"")], Some(Condition::Generation(Some(4), 7))),
            (vec![(IF_NONE_MATCH, "*")], Some(Condition::Absent)),
            (vec![(IF_MATCH, "*")], None),
            (vec![(IF_MATCH, "\"4.\"")], None),
            (vec![(IF_MATCH, "W/\"4.7\"")], None),
            (vec![(IF_NONE_MATCH, "\"4.7\"")], None),
            (vec![(IF_MATCH, "7"), (IF_NONE_MATCH, "*")], None),
        ];
        for (named, wanted) in rows {
            let headers: HeaderMap = named.iter().map(|(name, value)| (name.clone(), HeaderValue::from_static(value))).collect();
            assert_eq!(Condition::of(&headers).ok(), wanted, "{named:?}");
        }
    }
}
