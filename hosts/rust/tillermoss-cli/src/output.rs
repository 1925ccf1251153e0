//! What is printed.

use crate::words::Output;
use serde_json::{Map, Value, json};
use std::io::{self, Write};
use tillermoss::{LockMode, Sequencer, Stat, View};

/// Says what went wrong on the standard error; where that is closed, nobody is told.
pub fn say(words: &str) {
    note(&format!("tillermoss: {words}"));
}

/// Says something on the standard error.
pub fn note(words: &str) {
    let _ = writeln!(io::stderr(), "{words}");
}

/// Writes bytes as they are.
pub fn write(bytes: &[u8]) -> io::Result<()> {
    let mut out = io::stdout().lock();
    out.write_all(bytes)?;
    out.flush()
}

/// Writes bytes, and a line feed after them where their last is none.
pub fn print(bytes: &[u8]) -> io::Result<()> {
    let mut line = bytes.to_vec();
    if !line.ends_with(b"\n") {
        line.push(b'\n');
    }
    write(&line)
}

/// Writes a value as a line.
pub fn print_json(value: &Value) -> io::Result<()> {
    print(value.to_string().as_bytes())
}

/// A content: `content` where it is text, else `content_hex`.
pub fn content(into: &mut Map<String, Value>, bytes: &[u8]) {
    match std::str::from_utf8(bytes) {
        Ok(text) => into.insert("content".to_owned(), text.into()),
        Err(_) => into.insert("content_hex".to_owned(), hex::encode(bytes).into()),
    };
}

/// A content that was read, with its node's name.
pub fn print_content(output: Output, name: &str, view: &View) -> io::Result<()> {
    match output {
        Output::Text => print(&view.content),
        Output::Json => print_json(&shown(name, view)),
    }
}

/// What a read shows of a file.
pub fn shown(name: &str, view: &View) -> Value {
    let mut shown = Map::new();
    shown.insert("name".to_owned(), name.into());
    content(&mut shown, &view.content);
    shown.insert("instance".to_owned(), view.stat.instance.into());
    shown.insert("content_generation".to_owned(), view.stat.content_generation.into());
    Value::Object(shown)
}

/// The numbers of a node.
pub fn print_stat(output: Output, name: &str, stat: &Stat) -> io::Result<()> {
    let [read, write, change] = &stat.acl;
    let life = if stat.is_ephemeral { "ephemeral" } else { "permanent" };
    let lock = stat.lock_generation.unwrap_or_default();
    match output {
        Output::Text => {
            let lines = [
                format!("name {name}"),
                format!("kind {}", stat.kind),
                format!("life {life}"),
                format!("length {}", stat.length),
                format!("instance {}", stat.instance),
                format!("content-generation {}", stat.content_generation),
                format!("acl-generation {}", stat.acl_generation),
                format!("lock-generation {lock}"),
                format!("acl {read} {write} {change}"),
            ];
            print(lines.join("\n").as_bytes())
        }
        Output::Json => print_json(&json!({
            "name": name,
            "kind": stat.kind.to_string(),
            "life": life,
            "length": stat.length,
            "instance": stat.instance,
            "content_generation": stat.content_generation,
            "acl_generation": stat.acl_generation,
            "lock_generation": lock,
            "acl": { "read": read, "write": write, "change": change },
        })),
    }
}

/// By which ACLs a node is read, written, and its ACLs changed.
pub fn print_acl(output: Output, name: &str, stat: &Stat) -> io::Result<()> {
    let [read, write, change] = &stat.acl;
    match output {
        Output::Text => print(format!("read {read}\nwrite {write}\nchange {change}").as_bytes()),
        Output::Json => print_json(&json!({
            "name": name, "read": read, "write": write, "change": change, "acl_generation": stat.acl_generation,
        })),
    }
}

/// What a sequencer says.
pub fn print_sequencer(output: Output, sequencer: &Sequencer) -> io::Result<()> {
    let mode = match sequencer.mode {
        LockMode::Exclusive => "exclusive",
        LockMode::Shared => "shared",
    };
    let (name, instance, generation) = (&sequencer.name, sequencer.instance, sequencer.generation);
    // (a number of JSON has 53 bits in many a reader)
    let number = sequencer.fencing_number().to_string();
    match output {
        Output::Text => print(
            format!("name {name}\nmode {mode}\ninstance {instance}\nlock-generation {generation}\nfencing-number {number}").as_bytes(),
        ),
        Output::Json => print_json(&json!({
            "name": name, "mode": mode, "instance": instance, "lock_generation": generation, "fencing_number": number,
        })),
    }
}

/// The children of a directory.
pub fn print_names(output: Output, name: &str, names: &[String]) -> io::Result<()> {
    match output {
        Output::Text => write(names.iter().map(|name| format!("{name}\n")).collect::<String>().as_bytes()),
        Output::Json => print_json(&json!({ "name": name, "children": names })),
    }
}
