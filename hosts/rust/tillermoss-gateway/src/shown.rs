//! What is shown of nodes, as JSON and in headers.

use serde_json::{Map, Value, json};
use tillermoss::{LockMode, Page, Sequencer, Stat};

/// The mark of a content, which no other content of the name has or had: the instance of its file, and its generation there.
pub fn mark(stat: &Stat) -> String {
    format!("{}.{}", stat.instance, stat.content_generation)
}

/// A name alone.
pub fn named(name: &str) -> Value {
    json!({ "name": name })
}

/// A file, or a directory, with what it has.
pub fn view(name: &str, page: &Page) -> Value {
    let mut shown = Map::new();
    shown.insert("name".to_owned(), name.into());
    shown.insert("kind".to_owned(), page.stat.kind.to_string().into());
    match std::str::from_utf8(&page.content) {
        Ok(text) => shown.insert("content".to_owned(), text.into()),
        Err(_) => shown.insert("content_hex".to_owned(), hex::encode(&page.content).into()),
    };
    shown.insert("instance".to_owned(), page.stat.instance.into());
    shown.insert("content_generation".to_owned(), page.stat.content_generation.into());
    Value::Object(shown)
}

/// The names in a directory.
pub fn children(name: &str, children: &[String]) -> Value {
    json!({ "name": name, "children": children })
}

/// The numbers of a node.
pub fn stat(name: &str, stat: &Stat) -> Value {
    let [read, write, change] = &stat.acl;
    json!({
        "name": name,
        "kind": stat.kind.to_string(),
        "life": if stat.is_ephemeral { "ephemeral" } else { "permanent" },
        "length": stat.length,
        "instance": stat.instance,
        "content_generation": stat.content_generation,
        "acl_generation": stat.acl_generation,
        "lock_generation": stat.lock_generation,
        "acl": { "read": read, "write": write, "change": change },
    })
}

/// What a sequencer says, and its text. (A number of JSON has 53 bits in many a reader.)
pub fn sequencer(bytes: &[u8], sequencer: &Sequencer) -> Value {
    json!({
        "name": sequencer.name,
        "mode": if sequencer.mode == LockMode::Exclusive { "x" } else { "s" },
        "instance": sequencer.instance,
        "lock_generation": sequencer.generation,
        "fencing_number": sequencer.fencing_number().to_string(),
        "sequencer": hex::encode(bytes),
    })
}
