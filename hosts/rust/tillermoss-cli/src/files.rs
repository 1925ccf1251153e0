//! The verbs of nodes: what is read, written, listed, made and deleted.

use crate::commands::Asker;
use crate::faults::{Fault, at_making};
use crate::input::read_input;
use crate::output::{print, print_acl, print_content, print_json, print_names, print_stat, shown, write};
use crate::words::{Acl, Output, PutWords};
use host_wire::is_component;
use serde_json::json;
use std::ffi::OsStr;
use std::fs;
use std::os::unix::ffi::OsStrExt;
use tillermoss::{Client, Create, Error, Handle, Kind, Mode, Opening, Refusal, Stat, View};

/// How often a file that comes, goes or is written meanwhile is tried to be written.
const TRIES: u32 = 10;

/// Prints the content of a file.
pub fn get(client: &Client, output: Output, name: &str, raw: bool) -> Result<(), Fault> {
    let view = client.read(client.open(name, Mode::READ)?)?;
    match view.stat.kind {
        Kind::Directory => Err(Refusal::WrongKind(Kind::Directory).into()),
        Kind::File if raw => Ok(write(&view.content)?),
        Kind::File => Ok(print_content(output, name, &view)?),
    }
}

/// Prints the numbers of a node.
pub fn stat(client: &Client, output: Output, name: &str) -> Result<(), Fault> {
    let stat = client.stat(client.open(name, Mode::READ)?)?;
    Ok(print_stat(output, name, &stat)?)
}

/// Prints the names in a directory; with those below them, where that is asked for.
pub fn list(client: &Client, output: Output, name: &str, recursive: bool, is_one_of_several: bool) -> Result<(), Fault> {
    let mut names = client.list(client.open(name, Mode::READ)?)?;
    if recursive {
        names = below(client, name, names)?;
    }
    if is_one_of_several && output == Output::Text {
        print(format!("{name}:").as_bytes())?;
    }
    Ok(print_names(output, name, &names)?)
}

// The names of all that stands below a directory, from that on, each in front of what stands below it.
fn below(client: &Client, directory: &str, children: Vec<String>) -> Result<Vec<String>, Fault> {
    let mut found = Vec::new();
    let mut left: Vec<String> = children.into_iter().rev().collect();
    while let Some(name) = left.pop() {
        left.extend(children_of(client, &format!("{directory}/{name}"))?.into_iter().rev().map(|child| format!("{name}/{child}")));
        found.push(name);
    }
    Ok(found)
}

// The names in a directory; none in a file, and in what is gone meanwhile.
fn children_of(client: &Client, name: &str) -> Result<Vec<String>, Error> {
    let handle = match client.open(name, Mode::READ) {
        Err(Error::Refused(Refusal::NotFound)) => return Ok(Vec::new()),
        opened => opened?,
    };
    let listed = match client.list(handle) {
        Err(Error::Refused(Refusal::WrongKind(Kind::File) | Refusal::StaleInstance)) => Ok(Vec::new()),
        listed => listed,
    };
    client.close(handle)?;
    listed
}

/// Makes a directory; with those above it that aren't there, where that is asked for.
pub fn make_directory(client: &Client, name: &str, parents: bool) -> Result<(), Fault> {
    if !parents {
        return make_one(client, name).map(|_| ());
    }
    // (the cell's root is there)
    let root = name.match_indices('/').nth(2).map_or(name.len(), |(at, _)| at);
    let ends = name.match_indices('/').map(|(at, _)| at).filter(|at| *at > root).chain([name.len()]);
    ends.into_iter().try_for_each(|end| make_where_there_is_none(client, &name[..end]))
}

fn make_where_there_is_none(client: &Client, name: &str) -> Result<(), Fault> {
    let opened = match client.open(name, Mode::READ) {
        Err(Error::Refused(Refusal::NotFound)) => match make_one(client, name) {
            Err(Fault::Cell(Error::Refused(Refusal::Exists))) => client.open(name, Mode::READ)?,
            made => made?,
        },
        opened => opened?,
    };
    match client.stat(opened)?.kind {
        Kind::Directory => Ok(client.close(opened)?),
        Kind::File => Err(Refusal::WrongKind(Kind::File).into()),
    }
}

fn make_one(client: &Client, name: &str) -> Result<Handle, Fault> {
    let create = Create { must: true, ..Create::default() };
    let opening = Opening { create: Some(create), ..Opening::new(name, Mode::READ) };
    client.open_with(&opening).map_err(|error| at_making(name, error))
}

/// Deletes a node; with all that stands below it, where that is asked for.
pub fn remove(client: &Client, name: &str, recursive: bool) -> Result<(), Fault> {
    if recursive {
        // (without the ACLs nobody could mend what is left)
        if matches!(name.split('/').collect::<Vec<_>>()[..], ["", "ls", _] | ["", "ls", _, "acl"]) {
            return Err(Fault::Kept);
        }
        let children = client.list(client.open(name, Mode::READ)?);
        let children = match children {
            Err(Error::Refused(Refusal::WrongKind(Kind::File))) => Vec::new(),
            children => children?,
        };
        for child in below(client, name, children)?.into_iter().rev() {
            remove_one(client, &format!("{name}/{child}")).or_else(where_gone)?;
        }
    }
    Ok(remove_one(client, name)?)
}

fn remove_one(client: &Client, name: &str) -> Result<(), Error> {
    let node = client.open(name, Mode::WRITE)?;
    client.delete(node)?;
    client.close(node)
}

fn where_gone(error: Error) -> Result<(), Error> {
    match error {
        Error::Refused(Refusal::NotFound | Refusal::StaleInstance) => Ok(()),
        error => Err(error),
    }
}

/// Prints or changes the ACLs of a node.
pub fn acl(asker: &Asker<'_>, act: &Acl) -> Result<(), Fault> {
    let client = asker.connect()?;
    let _waiting = asker.wait_by(&client);
    let name = asker.reach.whole(act.name());
    match act {
        Acl::Get { .. } => Ok(print_acl(asker.output, &name, &client.stat(client.open(&name, Mode::READ)?)?)?),
        Acl::Set { read, write, change, if_generation, .. } => {
            change_acl(&client, &name, &[read, write, change].map(Option::as_deref), *if_generation)
        }
    }
}

// An ACL that isn't there lets nobody in.
fn find_acl(client: &Client, file: String) -> Result<(), Fault> {
    match client.open(&file, Mode::READ) {
        Ok(found) => Ok(client.close(found)?),
        Err(Error::Refused(Refusal::NotFound)) => Err(Fault::NoAcl(file)),
        // (it is there, and others read it)
        Err(Error::Refused(Refusal::Denied(_))) => Ok(()),
        Err(error) => Err(error.into()),
    }
}

fn change_acl(client: &Client, name: &str, wanted: &[Option<&str>; 3], generation: Option<u64>) -> Result<(), Fault> {
    let cell = name.split('/').nth(2).unwrap_or_default();
    wanted.iter().flatten().try_for_each(|acl| find_acl(client, format!("/ls/{cell}/acl/{acl}")))?;
    let node = client.open(name, Mode::CHANGE)?;
    let mut last = Refusal::WrongGeneration(0);
    for _ in 0..TRIES {
        let stat = client.stat(node)?;
        let acl = std::array::from_fn(|at| wanted[at].map_or_else(|| stat.acl[at].clone(), str::to_owned));
        match client.set_acl(node, &acl, Some(generation.unwrap_or(stat.acl_generation))) {
            Err(Error::Refused(refusal @ Refusal::WrongGeneration(_))) if generation.is_none() => last = refusal,
            done => return Ok(done?),
        }
    }
    Err(last.into())
}

/// Writes the content of a file, and makes it where there is none.
pub fn put(asker: &Asker<'_>, asked: &PutWords) -> Result<(), Fault> {
    let content = content(asked)?;
    let name = asker.reach.whole(&asked.name);
    if let Some(line) = other_line(&name, &content) {
        return Err(Fault::AclLine(line));
    }
    let client = asker.connect()?;
    let _waiting = asker.wait_by(&client);
    let is_told = asker.output == Output::Json;
    let written = write_file(&client, &name, &content, &Wish { generation: asked.if_generation, prev: asked.prev, is_told })?;
    match (is_told, asked.prev, &written.before) {
        (true, ..) => {
            let mut line = json!({ "name": name, "instance": written.instance, "content_generation": written.generation });
            if asked.prev {
                line["previous"] = json!(written.before.as_ref().map(|view| shown(&name, view)));
            }
            Ok(print_json(&line)?)
        }
        (false, true, Some(view)) => Ok(print(&view.content)?),
        _ => Ok(()),
    }
}

// The first line of an ACL file's content that is no principal, by which the file would let nobody in, also nobody who could mend it.
fn other_line(name: &str, content: &[u8]) -> Option<String> {
    let is_acl_file = matches!(name.split('/').collect::<Vec<_>>()[..], ["", "ls", _, "acl", _]);
    let text = String::from_utf8_lossy(content);
    let mut lines = text.split_terminator('\n').filter(|_| is_acl_file);
    lines.find(|line| !is_component(line)).map(str::to_owned)
}

// The bytes that are to be written: those of the word, of the file that it names after an @, or of the standard input.
fn content(asked: &PutWords) -> Result<Vec<u8>, Fault> {
    match asked.content.as_deref().map(OsStr::as_bytes) {
        None | Some(b"-") => read_input(),
        Some([b'@', path @ ..]) => {
            let path = OsStr::from_bytes(path);
            fs::read(path).map_err(|error| Fault::File(path.into(), error))
        }
        Some(bytes) => Ok(bytes.to_vec()),
    }
}

/// How a file is to be written.
struct Wish {
    generation: Option<u64>,
    prev: bool,
    // The generation that comes of it is told.
    is_told: bool,
}

/// What a write came to, as far as that was to be told.
#[derive(Default)]
struct Written {
    before: Option<View>,
    instance: u64,
    generation: u64,
}

// Writes a file, or makes it; either way the whole content comes in one change.
fn write_file(client: &Client, name: &str, content: &[u8], wish: &Wish) -> Result<Written, Fault> {
    let mut last = Refusal::NotFound;
    for _ in 0..TRIES {
        let result = match wish.generation {
            Some(0) => return create(client, name, content, wish).map_err(|error| at_making(name, error)),
            Some(_) => return Ok(replace(client, name, content, wish)?),
            None => replace(client, name, content, wish),
        };
        last = match result {
            Err(Error::Refused(Refusal::NotFound)) => match create(client, name, content, wish) {
                Err(Error::Refused(refusal @ Refusal::Exists)) => refusal,
                result => return result.map_err(|error| at_making(name, error)),
            },
            Err(Error::Refused(refusal @ (Refusal::StaleInstance | Refusal::WrongGeneration(_)))) => refusal,
            result => return Ok(result?),
        };
    }
    Err(last.into())
}

fn create(client: &Client, name: &str, content: &[u8], wish: &Wish) -> Result<Written, Error> {
    let create = Create { must: true, content: Some(content.to_vec()), ..Create::default() };
    let made = client.open_with(&Opening { create: Some(create), ..Opening::new(name, Mode::WRITE) })?;
    let instance = if wish.is_told { client.stat(made)?.instance } else { 0 };
    Ok(Written { before: None, instance, generation: 1 })
}

// What is told to be replaced is what was, and the generation that is told is this write's: it is written only where it still has the
// generation that was looked at.
fn replace(client: &Client, name: &str, content: &[u8], wish: &Wish) -> Result<Written, Error> {
    if !wish.prev && !wish.is_told {
        client.set(client.open(name, Mode::WRITE)?, content, wish.generation)?;
        return Ok(Written::default());
    }
    let mode = if wish.prev { Mode::READ.and(Mode::WRITE) } else { Mode::WRITE };
    let file = client.open(name, mode)?;
    let before = if wish.prev { Some(client.read(file)?) } else { None };
    let Stat { instance, content_generation, .. } = match &before {
        Some(view) => view.stat.clone(),
        None => client.stat(file)?,
    };
    let present = wish.generation.unwrap_or(content_generation);
    client.set(file, content, Some(present))?;
    Ok(Written { before, instance, generation: present + 1 })
}

#[cfg(test)]
mod tests {
    use super::*;

    #[test]
    fn an_acl_file_has_principals_alone() {
        let rows: &[(&str, &[u8], Option<&str>)] = &[
            ("/ls/c/acl/base", b"ann\nbob\n", None),
            ("/ls/c/acl/base", b"ann\nbob", None),
            ("/ls/c/acl/base", b"", None),
            ("/ls/c/acl/base", b"ann bob\n", Some("ann bob")),
            ("/ls/c/acl/base", b"ann\n\nbob\n", Some("")),
            ("/ls/c/acl/base", b"ann\r\n", Some("ann\r")),
            ("/ls/c/acl/base", b"Ann", Some("Ann")),
            ("/ls/c/acl/base", b"ann\n\xff", Some("\u{fffd}")),
            ("/ls/c/f", b"Ann", None),
            ("/ls/c/d/acl/f", b"Ann", None),
            ("/ls/c/acl/d/f", b"Ann", None),
        ];
        for (name, content, wanted) in rows {
            assert_eq!(other_line(name, content).as_deref(), *wanted, "{name} {content:?}");
        }
    }
}
