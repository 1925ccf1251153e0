//! A cell, by the crate `tillermoss`.

use crate::{CONTENT, Measured, Session};
use std::collections::HashMap;
use std::hint::black_box;
use std::thread;
use std::time::{Duration, Instant};
use tillermoss::{Client, Create, Handle, LockMode, Mode, Opening, Options};

/// A client, and what it has open.
pub struct Cell {
    client: Client,
    open: HashMap<String, Handle>,
}

fn whole(name: &str) -> String {
    format!("/ls/c/{name}")
}

impl Cell {
    pub fn connect(address: &str) -> Measured<Cell> {
        Ok(Cell { client: Client::connect(&Options::new(address, "ann"))?, open: HashMap::new() })
    }

    fn handle(&self, name: &str) -> Measured<Handle> {
        Ok(*self.open.get(name).ok_or("it isn't open")?)
    }
}

impl Session for Cell {
    fn make_directory(&mut self, name: &str) -> Measured<()> {
        let directory = Opening { create: Some(Create::default()), ..Opening::new(&whole(name), Mode::READ) };
        Ok(self.client.close(self.client.open_with(&directory)?)?)
    }

    fn make(&mut self, name: &str) -> Measured<()> {
        Ok(self.client.close(self.client.create(&whole(name), &CONTENT)?)?)
    }

    fn open(&mut self, name: &str) -> Measured<()> {
        let handle = self.client.open(&whole(name), Mode::READ.and(Mode::WRITE))?;
        self.open.insert(name.to_owned(), handle);
        Ok(())
    }

    fn set(&mut self, name: &str) -> Measured<()> {
        Ok(self.client.set(self.handle(name)?, &CONTENT, None)?)
    }

    fn read(&mut self, name: &str) -> Measured<()> {
        let view = self.client.read(self.handle(name)?)?;
        if view.is_served || view.content != CONTENT {
            return Err("the cache answered, or another content is there".into());
        }
        Ok(())
    }

    fn delete(&mut self, name: &str) -> Measured<()> {
        Ok(self.client.delete(self.handle(name)?)?)
    }

    fn list(&mut self, name: &str) -> Measured<usize> {
        Ok(self.client.list(self.handle(name)?)?.len())
    }

    // (a read after a write is answered by the master, and grants the right to keep it)
    fn follow(&mut self, name: &str) -> Measured<()> {
        self.read(name)
    }

    // A write is done when each client has let go of what it kept.
    fn wait_told(&mut self) -> Measured<()> {
        Ok(())
    }

    fn lock(&mut self, name: &str) -> Measured<()> {
        Ok(self.client.acquire(self.handle(name)?, LockMode::Exclusive)?)
    }

    fn unlock(&mut self, name: &str) -> Measured<()> {
        Ok(self.client.release(self.handle(name)?)?)
    }

    // A thread of the client's own does it.
    fn keep(&mut self) -> Measured<()> {
        if self.client.is_lost() { Err("a session was lost".into()) } else { Ok(()) }
    }
}

/// Reads a second out of the cache of one client, by so many threads that share it.
pub fn cached(address: &str, threads: u32, lasting: Duration) -> Measured<f64> {
    let cell = Cell::connect(address)?;
    let file = cell.client.create(&whole(&format!("cached{threads}")), &CONTENT)?;
    cell.client.read(file)?;
    let begun = Instant::now();
    let served = thread::scope(|scope| {
        let reading: Vec<_> = (0..threads).map(|_| scope.spawn(|| served(&cell.client, file, begun, lasting))).collect();
        reading.into_iter().map(|reading| reading.join().map_err(|_| "a thread failed")?).sum::<Measured<u32>>()
    })?;
    Ok(f64::from(served) / begun.elapsed().as_secs_f64())
}

// By a viewer of its own.
fn served(client: &Client, file: Handle, begun: Instant, lasting: Duration) -> Measured<u32> {
    let (mut viewer, mut served) = (client.handle_reader(), 0);
    while begun.elapsed() < lasting {
        for _ in 0..1000 {
            served += u32::from(black_box(viewer.read(file)?).len() == CONTENT.len());
        }
    }
    Ok(served)
}
