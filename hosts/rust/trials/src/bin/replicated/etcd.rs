//! What stands in etcd, and each commit that was ever done there.

use crate::Tried;
use serde_json::{Value, json};
use std::collections::{BTreeMap, BTreeSet};
use std::io::{BufRead, BufReader};
use std::time::Duration;
use ureq::{Agent, AgentBuilder};

/// One change of the cell's own row.
#[derive(Clone, Copy, Debug, PartialEq, Eq)]
pub struct Commit {
    /// The number of the last commit.
    pub number: u64,
    /// The mastership that did it.
    pub by: i64,
    /// The keeper that wrote it, and which of its transactions did.
    pub keeper: u64,
    pub turn: u64,
}

/// The members of an etcd, as a trial asks them.
#[derive(Clone)]
pub struct Etcd {
    agent: Agent,
    places: Vec<String>,
}

/// The key that ends the watch.
const END: &str = "c/zz-end";

fn text(word: &Value) -> Tried<String> {
    Ok(String::from_utf8(base64::decode(word.as_str().unwrap_or_default())?)?)
}

impl Etcd {
    /// That of members at these places.
    pub fn new(places: Vec<String>) -> Etcd {
        let agent = AgentBuilder::new().timeout_connect(Duration::from_secs(1)).timeout_read(Duration::from_secs(3)).build();
        Etcd { agent, places }
    }

    fn ask(&self, path: &str, asked: &Value) -> Tried<Value> {
        let mut fault = "there is no member".into();
        for place in &self.places {
            match self.agent.post(&format!("http://{place}/v3/{path}")).send_string(&asked.to_string()) {
                Ok(answer) => return Ok(serde_json::from_str(&answer.into_string()?)?),
                Err(error) => fault = error.into(),
            }
        }
        Err(fault)
    }

    /// The value of a key, where it is there.
    pub fn get(&self, key: &str) -> Tried<Option<String>> {
        let answer = self.ask("kv/range", &json!({ "key": base64::encode(key) }))?;
        answer.pointer("/kvs/0/value").map(text).transpose()
    }

    /// All pairs of a cell, without what stands in front of its keys.
    pub fn pairs(&self, prefix: &str) -> Tried<BTreeMap<String, String>> {
        let end = format!("{}0", prefix.trim_end_matches('/'));
        let answer = self.ask("kv/range", &json!({ "key": base64::encode(prefix), "range_end": base64::encode(end) }))?;
        let found = answer["kvs"].as_array().cloned().unwrap_or_default();
        found.iter().map(|pair| Ok((text(&pair["key"])?.replacen(prefix, "", 1), text(&pair["value"])?))).collect()
    }

    /// Ends the watch.
    pub fn end(&self) -> Tried<()> {
        self.ask("kv/put", &json!({ "key": base64::encode(END) })).map(drop)
    }

    /// Each change of the cell's own row from the first one on, in order, until the watch is ended.
    pub fn commits(&self) -> Tried<Vec<Commit>> {
        let (mut found, mut next) = (Vec::new(), 1);
        for place in self.places.iter().cycle() {
            // (a member that goes is asked no more, and the next one goes on where it ended)
            if let Ok(true) = self.watch(place, &mut next, &mut found) {
                return Ok(found);
            }
            std::thread::sleep(Duration::from_millis(100));
        }
        Err("there is no member".into())
    }

    // Whether the watch is ended.
    fn watch(&self, place: &str, next: &mut u64, found: &mut Vec<Commit>) -> Tried<bool> {
        let asked = json!({ "create_request": { "key": base64::encode("c/"), "range_end": base64::encode("c0"), "start_revision": next.to_string() } });
        let told = AgentBuilder::new().build().post(&format!("http://{place}/v3/watch")).send_string(&asked.to_string())?;
        for line in BufReader::new(told.into_reader()).lines() {
            let line: Value = serde_json::from_str(&line?)?;
            for event in line.pointer("/result/events").and_then(Value::as_array).into_iter().flatten() {
                let revision: u64 = event["kv"]["mod_revision"].as_str().unwrap_or_default().parse()?;
                match text(&event["kv"]["key"])?.as_str() {
                    END => return Ok(true),
                    "c/meta" => {
                        let meta: Value = serde_json::from_str(&text(&event["kv"]["value"])?)?;
                        found.push(Commit::of(&meta)?);
                    }
                    _ => {}
                }
                *next = revision + 1;
            }
        }
        Ok(false)
    }
}

impl Commit {
    fn of(meta: &Value) -> Tried<Commit> {
        let (number, by) = (meta["number"].as_u64(), meta["by"].as_i64());
        let (keeper, turn) = (meta["keeper"].as_u64(), meta["turn"].as_u64());
        Ok(Commit {
            number: number.ok_or("a row without a number")?,
            by: by.ok_or("a row without a mastership")?,
            keeper: keeper.ok_or("a row without a keeper")?,
            turn: turn.ok_or("a row without a turn")?,
        })
    }
}

/// Whether each commit is the next one, by the mastership of the one before or a later one; a keeper may write its row once more as it
/// stands. Each keeper writes in a row, in rising turns, and no more once another has written. So many keepers wrote.
pub fn check_commits(commits: &[Commit]) -> Tried<usize> {
    let mut keepers = BTreeSet::new();
    for pair in commits.windows(2) {
        let [before, now] = [pair[0], pair[1]];
        let is_next = (now.number == before.number || now.number == before.number + 1) && now.by >= before.by;
        let is_new = now.keeper != before.keeper && !keepers.contains(&now.keeper) && now.number == before.number;
        if !is_next || !(is_new || (now.keeper == before.keeper && now.turn > before.turn)) {
            return Err(format!("a replaced master committed: {now:?} after {before:?}").into());
        }
        keepers.insert(before.keeper);
    }
    if commits.len() < 100 { Err("too few commits were seen".into()) } else { Ok(keepers.len()) }
}
