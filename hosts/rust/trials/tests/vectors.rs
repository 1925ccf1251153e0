//! The bytes that all clients are tested by, hosts/conformance/vectors.txt, as the client and the server in Rust read and write them.

use host_wire::{Asked, Hello, MasterAnswer, Notice, Said, TurnedAway, Welcome};
use std::time::Duration;

const VECTORS: &str = include_str!("../../../conformance/vectors.txt");

/// A line: its kind, its words, and the bytes.
struct Vector<'a> {
    kind: &'a str,
    words: Vec<&'a str>,
    bytes: Vec<u8>,
}

fn vectors(kind: &str) -> Vec<Vector<'static>> {
    let lines = VECTORS.lines().filter(|line| !line.is_empty() && !line.starts_with('#'));
    let all = lines.map(|line| {
        let [kind, words, bytes] = line.split('|').map(str::trim).collect::<Vec<_>>()[..] else {
            panic!("{line}");
        };
        let digits: String = bytes.split_whitespace().collect();
        let bytes = (0..digits.len()).step_by(2).map(|at| u8::from_str_radix(&digits[at..at + 2], 16).unwrap()).collect();
        Vector { kind, words: words.split_whitespace().collect(), bytes }
    });
    let found: Vec<Vector> = all.filter(|vector| vector.kind == kind).collect();
    assert!(!found.is_empty(), "{kind}");
    found
}

impl Vector<'_> {
    // What stands after a word.
    fn after(&self, word: &str) -> Option<&str> {
        let at = self.words.iter().position(|other| *other == word)?;
        self.words.get(at + 1).copied()
    }

    fn number(&self, word: &str) -> u64 {
        self.after(word).and_then(|text| text.parse().ok()).unwrap_or_else(|| panic!("{word} of {:?}", self.words))
    }
}

#[test]
fn greetings_are_these_bytes() {
    for vector in vectors("greeting") {
        let principal = vector.after("principal").unwrap().to_owned();
        let hello = match vector.after("client") {
            None => Hello::New { principal },
            Some(_) => Hello::Again { principal, client: vector.number("client"), token: vector.number("token") },
        };
        assert_eq!(hello.write(), vector.bytes, "{:?}", vector.words);
        assert_eq!(Hello::read(&vector.bytes), Ok(hello), "{:?}", vector.words);
    }
}

#[test]
fn welcomes_are_read() {
    for vector in vectors("welcome") {
        let read = Welcome::read(&vector.bytes).unwrap();
        let wanted = match vector.after("reason") {
            None => Ok(Welcome { client: vector.number("client"), token: vector.number("token") }),
            Some("2") => Err(TurnedAway::WrongToken),
            Some("4") => Err(TurnedAway::Full),
            Some("7") => Err(TurnedAway::NotMaster),
            other => panic!("{other:?}"),
        };
        assert_eq!(read, wanted, "{:?}", vector.words);
    }
}

#[test]
fn requests_are_read() {
    for vector in vectors("request") {
        let asked = Asked::read(&vector.bytes).unwrap_or_else(|| panic!("{:?}", vector.words));
        let is_start = vector.words[0] == "Start";
        assert_eq!((asked.is_start(), asked.number()), (is_start, vector.number("number")), "{:?}", vector.words);
        assert_eq!(asked.epoch(), if is_start { 0 } else { vector.number("epoch") }, "{:?}", vector.words);
        assert!(asked.is_from(vector.number("client"), vector.after("principal").unwrap_or("ann")), "{:?}", vector.words);
    }
}

#[test]
fn messages_are_read() {
    for vector in vectors("message") {
        let (words, number) = (&vector.words, vector.number("number"));
        if words[0] == "Notice" {
            let reason = words[4..].join(" ").replace('-', "");
            assert_eq!(Notice::read(&vector.bytes), Some(Notice { number, reason }), "{words:?}");
            continue;
        }
        let span = || Duration::from_millis(vector.number("span"));
        // (a refusal's number stands before its name)
        let refusal = |at: usize| words[at].parse().unwrap();
        let answer = match words[0] {
            "Started" => MasterAnswer::Started(span()),
            "Alive" => MasterAnswer::Alive(span(), words.last() != Some(&"events")),
            "Reply" => MasterAnswer::Reply(words.iter().position(|word| *word == "refused").map(|at| refusal(at + 1))),
            "Refused" => MasterAnswer::Refused(refusal(7)),
            other => panic!("{other}"),
        };
        assert_eq!(Said::read(&vector.bytes), Some(Said { client: vector.number("client"), number, answer }), "{words:?}");
    }
}

#[test]
fn other_bytes_are_no_message() {
    for vector in vectors("wrong") {
        let is_read = Said::read(&vector.bytes).is_some() || Notice::read(&vector.bytes).is_some();
        assert!(!is_read, "{:?}", vector.words);
    }
}
