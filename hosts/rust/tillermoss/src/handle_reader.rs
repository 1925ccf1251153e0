//! Reads out of a client's cache that take no lock.

use crate::client::{Client, Handle};
use crate::clock;
use crate::core::Mark;
use crate::errors::Error;
use rustc_hash::FxHashMap;
use std::ops::Deref;

/// What a handle reader knows of a file: its content, and for how long that is what the cache answers.
#[derive(Debug, Default)]
struct Kept {
    mark: Mark,
    content: Vec<u8>,
}

impl Kept {
    /// Reads the file again. Refused, what is known of it holds no more.
    fn read_again(&mut self, client: &Client, handle: Handle) -> Result<(), Error> {
        self.mark = Mark::NEVER;
        self.mark = client.read_marked(handle, &mut self.content)?;
        Ok(())
    }
}

/// Reads the files of a client for one thread, as [`Client::read_into`] does: what its cache answers without a lock and without a
/// copy, so threads that read don't wait for one another. Each thread has a handle reader of its own.
///
/// A handle reader keeps what the cache answered, until the client does anything at all: a client's next message leaves after that. So a
/// content that is written by anybody is written when no handle reader shows the former one any more, as with the cache itself. Where
/// the client has done something since, or the lease has ended, the handle reader asks the client again.
///
/// It keeps a content for each handle that it was asked for, until it is dropped.
///
/// ```
/// # programs::with_server(|address| -> Result<(), tillermoss::Error> {
/// # let client = &tillermoss::Client::connect(&tillermoss::Options::new(address, "ann"))?;
/// let file = client.create("/ls/c/f", b"hello")?;
/// std::thread::scope(|scope| {
///     for _ in 0..4 {
///         let mut reader = client.handle_reader();
///         scope.spawn(move || assert_eq!(reader.read(file).unwrap(), b"hello"));
///     }
/// });
/// # Ok(()) });
/// ```
#[derive(Debug)]
pub struct HandleReader<C: Deref<Target = Client>> {
    client: C,
    // (a client counts its handles itself, so nobody chooses numbers that hash alike)
    kept: FxHashMap<u64, Kept>,
}

impl<C: Deref<Target = Client>> HandleReader<C> {
    /// One of this client, which it holds: by an [`Arc`](std::sync::Arc) a thread may have it that outlives its maker.
    ///
    /// ```
    /// # use tillermoss::*;
    /// # use std::sync::Arc;
    /// # let server = programs::server_of_its_own();
    /// # let address = server.address.as_str();
    /// let client = Arc::new(Client::connect(&Options::new(address, "ann"))?);
    /// let file = client.create("/ls/c/f", b"hello")?;
    /// let mut reader = HandleReader::of(Arc::clone(&client));
    /// let reader = std::thread::spawn(move || reader.read(file).map(<[u8]>::to_vec));
    /// assert_eq!(reader.join().unwrap()?, b"hello");
    /// # Ok::<(), Error>(())
    /// ```
    #[must_use]
    pub fn of(client: C) -> HandleReader<C> {
        HandleReader { client, kept: FxHashMap::default() }
    }

    /// The content of a file, as [`Client::read_into`] reads it.
    ///
    /// ```
    /// # programs::with_server(|address| -> Result<(), tillermoss::Error> {
    /// # let client = &tillermoss::Client::connect(&tillermoss::Options::new(address, "ann"))?;
    /// let file = client.create("/ls/c/f", b"hello")?;
    /// let mut reader = client.handle_reader();
    /// assert_eq!(reader.read(file)?, b"hello");
    /// client.set(file, b"hi", None)?;
    /// assert_eq!(reader.read(file)?, b"hi");
    /// # Ok(()) });
    /// ```
    ///
    /// # Errors
    ///
    /// As `Client::read`.
    pub fn read(&mut self, handle: Handle) -> Result<&[u8], Error> {
        let number = self.client.own(handle)?;
        // (the clock first: at that moment the client stood as it does when its turns are read)
        let now = clock::now();
        let kept = self.kept.entry(number).or_default();
        if !self.client.stands_as(kept.mark, now) {
            kept.read_again(&self.client, handle)?;
        }
        Ok(&kept.content)
    }
}
