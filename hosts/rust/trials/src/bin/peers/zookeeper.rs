//! ZooKeeper, by its own messages, as its C and Java clients send them: each after its length in four bytes, big-endian.

use crate::{CONTENT, Measured, Session};
use std::io::{Read, Write};
use std::net::TcpStream;
use std::time::{Duration, Instant};

/// How many milliseconds a session lasts without being kept, and so often it is kept.
const LEASE: i32 = 12_000;
const KEPT: Duration = Duration::from_secs(4);

/// How long an answer may take.
const SILENCE: Duration = Duration::from_secs(10);

const CREATE: i32 = 1;
const DELETE: i32 = 2;
const EXISTS: i32 = 3;
const GET: i32 = 4;
const SET: i32 = 5;
const CHILDREN: i32 = 8;
const PING: i32 = 11;
const MULTI: i32 = 14;

const NO_NODE: i32 = -101;
const PERMANENT: i32 = 0;
const EPHEMERAL_IN_ORDER: i32 = 3;

/// A connection with its session.
pub struct ZooKeeper {
    stream: TcpStream,
    number: i32,
    kept: Instant,
    /// How many watches have told something that nobody waited for yet.
    told: u32,
    held: Option<String>,
}

/// Fields one after the other.
#[derive(Default)]
struct Fields(Vec<u8>);

impl Fields {
    fn word(mut self, word: i32) -> Fields {
        self.0.extend(word.to_be_bytes());
        self
    }

    fn flag(mut self, is_set: bool) -> Fields {
        self.0.push(u8::from(is_set));
        self
    }

    fn bytes(self, bytes: &[u8]) -> Fields {
        let mut out = self.word(i32::try_from(bytes.len()).unwrap_or(i32::MAX));
        out.0.extend(bytes);
        out
    }

    fn text(self, text: &str) -> Fields {
        self.bytes(text.as_bytes())
    }

    // (anybody may do anything with the node)
    fn node(self, path: &str, kind: i32) -> Fields {
        self.text(path).bytes(&CONTENT).word(1).word(31).text("world").text("anyone").word(kind)
    }
}

fn word(bytes: &[u8], at: usize) -> Measured<i32> {
    Ok(i32::from_be_bytes(bytes.get(at..at + 4).ok_or("a short answer")?.try_into()?))
}

fn texts(bytes: &[u8]) -> Measured<Vec<String>> {
    let (mut found, mut at) = (Vec::new(), 4);
    for _ in 0..word(bytes, 0)? {
        let length = usize::try_from(word(bytes, at)?)?;
        found.push(String::from_utf8(bytes.get(at + 4..at + 4 + length).ok_or("a short answer")?.to_vec())?);
        at += 4 + length;
    }
    Ok(found)
}

fn path(name: &str) -> String {
    format!("/{name}")
}

impl ZooKeeper {
    pub fn connect(address: &str) -> Measured<ZooKeeper> {
        let stream = TcpStream::connect(address)?;
        stream.set_nodelay(true)?;
        stream.set_read_timeout(Some(SILENCE))?;
        let mut zookeeper = ZooKeeper { stream, number: 0, kept: Instant::now(), told: 0, held: None };
        let hello = Fields::default().word(0).word(0).word(0).word(LEASE).word(0).word(0).bytes(&[0; 16]);
        zookeeper.send(&hello.0)?;
        let welcome = zookeeper.receive()?;
        if word(&welcome, 4)? != LEASE { Err("another time-out".into()) } else { Ok(zookeeper) }
    }

    fn send(&mut self, bytes: &[u8]) -> Measured<()> {
        Ok(self.stream.write_all(&Fields::default().bytes(bytes).0)?)
    }

    fn receive(&mut self) -> Measured<Vec<u8>> {
        let mut length = [0; 4];
        self.stream.read_exact(&mut length)?;
        let mut bytes = vec![0; usize::try_from(i32::from_be_bytes(length))?];
        self.stream.read_exact(&mut bytes)?;
        Ok(bytes)
    }

    // The next answer with its number: what a watch tells is counted on the way.
    fn answer(&mut self) -> Measured<(i32, Vec<u8>)> {
        loop {
            let bytes = self.receive()?;
            match word(&bytes, 0)? {
                -1 => self.told += 1,
                number => return Ok((number, bytes)),
            }
        }
    }

    // What it comes to, and the fields after.
    fn ask(&mut self, kind: i32, fields: Fields) -> Measured<(i32, Vec<u8>)> {
        self.number += 1;
        let head = Fields::default().word(self.number).word(kind);
        self.send(&[head.0, fields.0].concat())?;
        loop {
            let (number, mut bytes) = self.answer()?;
            if number == self.number {
                return Ok((word(&bytes, 12)?, bytes.split_off(16)));
            }
        }
    }

    fn done(&mut self, kind: i32, fields: Fields) -> Measured<Vec<u8>> {
        match self.ask(kind, fields)? {
            (0, answer) => Ok(answer),
            (error, _) => Err(format!("refused with {error}").into()),
        }
    }

    fn get(&mut self, name: &str, is_watched: bool) -> Measured<()> {
        let answer = self.done(GET, Fields::default().text(&path(name)).flag(is_watched))?;
        if answer.get(4..68) != Some(&CONTENT) { Err("another content is there".into()) } else { Ok(()) }
    }
}

impl Session for ZooKeeper {
    fn make_directory(&mut self, name: &str) -> Measured<()> {
        self.make(name)
    }

    fn make(&mut self, name: &str) -> Measured<()> {
        self.done(CREATE, Fields::default().node(&path(name), PERMANENT)).map(|_| ())
    }

    fn make_all(&mut self, names: &[String]) -> Measured<()> {
        let each = |out: Fields, name: &String| out.word(CREATE).flag(false).word(-1).node(&path(name), PERMANENT);
        let creates = names.iter().fold(Fields::default(), each);
        self.done(MULTI, creates.word(-1).flag(true).word(-1)).map(|_| ())
    }

    fn open(&mut self, _: &str) -> Measured<()> {
        Ok(())
    }

    fn set(&mut self, name: &str) -> Measured<()> {
        self.done(SET, Fields::default().text(&path(name)).bytes(&CONTENT).word(-1)).map(|_| ())
    }

    fn read(&mut self, name: &str) -> Measured<()> {
        self.get(name, false)
    }

    fn delete(&mut self, name: &str) -> Measured<()> {
        self.done(DELETE, Fields::default().text(&path(name)).word(-1)).map(|_| ())
    }

    fn list(&mut self, name: &str) -> Measured<usize> {
        Ok(texts(&self.done(CHILDREN, Fields::default().text(&path(name)).flag(false))?)?.len())
    }

    fn follow(&mut self, name: &str) -> Measured<()> {
        self.get(name, true)
    }

    fn wait_told(&mut self) -> Measured<()> {
        while self.told == 0 {
            if word(&self.receive()?, 0)? == -1 {
                self.told += 1;
            }
        }
        self.told -= 1;
        Ok(())
    }

    // The recipe of its documents: who comes first holds it, and each waits for the one before it to go.
    fn lock(&mut self, name: &str) -> Measured<()> {
        let own = self.done(CREATE, Fields::default().node(&format!("{}/n-", path(name)), EPHEMERAL_IN_ORDER))?;
        let own = String::from_utf8(own.get(4..).ok_or("a short answer")?.to_vec())?;
        loop {
            let mut waiting = texts(&self.done(CHILDREN, Fields::default().text(&path(name)).flag(false))?)?;
            waiting.sort();
            let at = waiting.iter().position(|child| own.ends_with(child)).ok_or("its own place is gone")?;
            if at == 0 {
                self.held = Some(own);
                return Ok(());
            }
            let before = format!("{}/{}", path(name), waiting[at - 1]);
            match self.ask(EXISTS, Fields::default().text(&before).flag(true))?.0 {
                0 => self.wait_told()?,
                NO_NODE => self.told = 0,
                error => return Err(format!("refused with {error}").into()),
            }
        }
    }

    fn unlock(&mut self, _: &str) -> Measured<()> {
        let own = self.held.take().ok_or("it isn't held")?;
        self.done(DELETE, Fields::default().text(&own).word(-1)).map(|_| ())
    }

    fn keep(&mut self) -> Measured<()> {
        if self.kept.elapsed() > KEPT {
            self.kept = Instant::now();
            self.send(&Fields::default().word(-2).word(PING).0)?;
            self.answer()?;
        }
        Ok(())
    }
}
