//! A master by itself, without a server: it is handed the messages of clients, and what it says to them is handed back.

use crate::servers::master_program;
use host_wire::{ANSWER_LIMIT, Blocks, Frame, Heard, Told};
use std::fs;
use std::io::{self, ErrorKind, Write};
use std::process::{Child, ChildStdin, ChildStdout, Command, Stdio};
use tempfile::TempDir;

/// The moment at which all of it happens, unless another is told.
pub const NOW: u64 = 1000;

/// A master over a new store of its own, whose secret everybody knows.
#[derive(Debug)]
pub struct Master {
    child: Child,
    input: ChildStdin,
    output: ChildStdout,
    blocks: Blocks,
    _folder: TempDir,
}

fn broken(what: &str) -> io::Error {
    io::Error::new(ErrorKind::InvalidData, what.to_owned())
}

impl Master {
    /// One that is up for the first time.
    ///
    /// # Errors
    ///
    /// If it can't be started.
    pub fn start() -> io::Result<Master> {
        let folder = tempfile::tempdir()?;
        let settings = folder.path().join("settings.toml");
        fs::write(&settings, format!("secret = \"{}\"\n", "0".repeat(64)))?;
        let mut command = Command::new(master_program());
        command.arg("serve").arg("--store").arg(folder.path().join("store.db")).arg("--settings").arg(&settings);
        let mut child = command.stdin(Stdio::piped()).stdout(Stdio::piped()).spawn()?;
        let (input, output) = (child.stdin.take(), child.stdout.take());
        let (input, output) = input.zip(output).ok_or_else(|| broken("the master's pipes"))?;
        let mut master = Master { child, input, output, blocks: Blocks::new(ANSWER_LIMIT), _folder: folder };
        master.say(Frame::Up(NOW))?;
        Ok(master)
    }

    /// One that is up so many times.
    ///
    /// # Errors
    ///
    /// As `start`.
    pub fn of_epoch(epoch: u64) -> io::Result<Master> {
        let mut master = Master::start()?;
        (1..epoch).try_for_each(|_| master.again())?;
        Ok(master)
    }

    /// It goes, and comes up again.
    ///
    /// # Errors
    ///
    /// If it is gone.
    pub fn again(&mut self) -> io::Result<()> {
        self.say(Frame::Down)?;
        self.say(Frame::Up(NOW))?;
        Ok(())
    }

    // What it says to clients by a frame, each with the client's number.
    fn say(&mut self, frame: Frame) -> io::Result<Vec<(u64, Vec<u8>)>> {
        self.input.write_all(&frame.write().ok_or_else(|| broken("a frame for the master"))?)?;
        self.input.flush()?;
        let mut said = Vec::new();
        loop {
            let block = self.blocks.next(&mut self.output)?.ok_or_else(|| io::Error::from(ErrorKind::UnexpectedEof))?;
            match Heard::read(&block).ok_or_else(|| broken("what the master tells"))?.told() {
                Told::Message(client, _, message) => said.push((client, message.to_vec())),
                Told::End(_) => return Ok(said),
                Told::Bad(reason) => return Err(broken(&format!("a frame for the master, as {reason}"))),
                _ => {}
            }
        }
    }

    /// What it says at this moment to these bytes of a client, to whom.
    ///
    /// # Errors
    ///
    /// If they are no message, or it is gone.
    pub fn ask(&mut self, now: u64, message: &[u8]) -> io::Result<Vec<(u64, Vec<u8>)>> {
        self.say(Frame::Message(now, message))
    }

    /// What it says by itself at this moment, to whom.
    ///
    /// # Errors
    ///
    /// If it is gone.
    pub fn tick(&mut self, now: u64) -> io::Result<Vec<(u64, Vec<u8>)>> {
        self.say(Frame::Tick(now))
    }
}

impl Drop for Master {
    fn drop(&mut self) {
        // (one that has ended is killed already)
        let _ = self.child.kill();
        let _ = self.child.wait();
    }
}
