//! Blocks of bytes in a stream, each after its length.

use std::io::{self, ErrorKind, Read, Write};
use tokio::io::{AsyncRead, AsyncReadExt};

/// How many bytes are read at once, at least and at most.
const READ_SIZES: (usize, usize) = (512, 0x1_0000);

/// How much room is kept while nothing comes.
const KEPT: usize = 4096;

/// Writes one block, in one write where the stream takes it: its length in four bytes, big-endian, and then its bytes.
///
/// # Errors
///
/// What the stream answers; and `InvalidInput` for 2^32 bytes or more, of which nothing is written.
pub fn write_block(stream: &mut impl Write, block: &[u8]) -> io::Result<()> {
    stream.write_all(&framed(block)?)?;
    stream.flush()
}

/// A block after its length, as it goes over a stream.
///
/// # Errors
///
/// `InvalidInput` for 2^32 bytes or more.
pub fn framed(block: &[u8]) -> io::Result<Vec<u8>> {
    let mut bytes = Vec::with_capacity(block.len() + 4);
    put_block(&mut bytes, block)?;
    Ok(bytes)
}

/// Puts a block and its length after others.
///
/// # Errors
///
/// `InvalidInput` for 2^32 bytes or more, of which nothing is put there.
pub fn put_block(out: &mut Vec<u8>, block: &[u8]) -> io::Result<()> {
    let length = u32::try_from(block.len()).map_err(|_| io::Error::from(ErrorKind::InvalidInput))?;
    out.extend_from_slice(&length.to_be_bytes());
    out.extend_from_slice(block);
    Ok(())
}

/// The blocks that come in a stream. What was read of a block stays where a read times out, so that the next call goes on there.
#[derive(Debug)]
pub struct Blocks {
    limit: usize,
    least: usize,
    // (what was read and not yet taken stands from the begin to the end)
    bytes: Vec<u8>,
    begin: usize,
    end: usize,
}

impl Blocks {
    /// No byte yet; a block has at most so many.
    #[must_use]
    pub fn new(limit: usize) -> Blocks {
        Blocks { limit, least: READ_SIZES.0, bytes: Vec::new(), begin: 0, end: 0 }
    }

    /// As `new`, for a stream that carries much: as many bytes are read at once as may be, and room for these is kept.
    #[must_use]
    pub fn wide(limit: usize) -> Blocks {
        Blocks { least: READ_SIZES.1, ..Blocks::new(limit) }
    }

    /// From here on a block has at most so many bytes.
    pub fn set_limit(&mut self, limit: usize) {
        self.limit = limit;
    }

    /// The next block; None at the end of the stream. Memory is taken for what was read alone, whatever a length says.
    ///
    /// # Errors
    ///
    /// What a read answers: after `WouldBlock` and `TimedOut` nothing is lost. `InvalidData` for a block above the limit,
    /// `UnexpectedEof` where the stream ends within one.
    pub fn next(&mut self, stream: &mut impl Read) -> io::Result<Option<Vec<u8>>> {
        loop {
            if let Some(block) = self.take()? {
                return Ok(Some(block.to_vec()));
            }
            let read = loop {
                match stream.read(self.room()) {
                    Err(error) if error.kind() == ErrorKind::Interrupted => {}
                    read => break read?,
                }
            };
            if !self.came(read)? {
                return Ok(None);
            }
        }
    }

    /// As `next`, of a stream that is waited for. If that is given up nothing is lost.
    ///
    /// # Errors
    ///
    /// As of `next`.
    pub async fn next_of(&mut self, stream: &mut (impl AsyncRead + Unpin)) -> io::Result<Option<Vec<u8>>> {
        loop {
            if let Some(block) = self.take()? {
                return Ok(Some(block.to_vec()));
            }
            if !self.fill_of(stream).await? {
                return Ok(None);
            }
        }
    }

    /// Waits for one read of the stream, for `take`; whether the stream goes on. If that is given up nothing is lost.
    ///
    /// # Errors
    ///
    /// What the read answers; `UnexpectedEof` where the stream ends within a block.
    pub async fn fill_of(&mut self, stream: &mut (impl AsyncRead + Unpin)) -> io::Result<bool> {
        let read = stream.read(self.room()).await?;
        self.came(read)
    }

    /// How many bytes the next block has; None where that wasn't read yet.
    ///
    /// # Errors
    ///
    /// `InvalidData` for a block above the limit.
    pub fn length(&self) -> io::Result<Option<usize>> {
        let head = self.bytes[self.begin..self.end].first_chunk::<4>();
        match head.map(|head| u32::from_be_bytes(*head) as usize) {
            Some(length) if length > self.limit => Err(ErrorKind::InvalidData.into()),
            length => Ok(length),
        }
    }

    /// As `length`, of a stream that is waited for; None at its end. If that is given up nothing is lost.
    ///
    /// # Errors
    ///
    /// As of `length` and `fill_of`.
    pub async fn length_of(&mut self, stream: &mut (impl AsyncRead + Unpin)) -> io::Result<Option<usize>> {
        loop {
            if let Some(length) = self.length()? {
                return Ok(Some(length));
            }
            if !self.fill_of(stream).await? {
                return Ok(None);
            }
        }
    }

    /// The next block of what was read; None where it isn't whole yet.
    ///
    /// # Errors
    ///
    /// `InvalidData` for a block above the limit.
    pub fn take(&mut self) -> io::Result<Option<&[u8]>> {
        let Some(length) = self.length()? else {
            return Ok(None);
        };
        let begin = self.begin + 4;
        let block = self.bytes[..self.end].get(begin..begin + length);
        if block.is_some() {
            self.begin = begin + length;
        }
        Ok(block)
    }

    // How many bytes were read into the room; whether the stream goes on.
    fn came(&mut self, read: usize) -> io::Result<bool> {
        self.end += read;
        if read == 0 && self.begin != self.end {
            return Err(ErrorKind::UnexpectedEof.into());
        }
        Ok(read > 0)
    }

    // Lets go of what was taken, and has room for what is next to come: for more where more came. (Only new room is set to zero.)
    fn room(&mut self) -> &mut [u8] {
        self.bytes.copy_within(self.begin..self.end, 0);
        (self.begin, self.end) = (0, self.end - self.begin);
        if self.end == 0 && self.bytes.len() > self.least.max(KEPT) {
            self.bytes.truncate(self.least);
            self.bytes.shrink_to_fit();
        }
        let wanted = self.end + self.end.clamp(self.least, READ_SIZES.1);
        if self.bytes.len() < wanted {
            self.bytes.resize(wanted, 0);
        }
        &mut self.bytes[self.end..]
    }
}

#[cfg(test)]
mod tests {
    use super::*;

    /// A stream that gives so many bytes at a time, and times out before each.
    struct Slow<'a> {
        bytes: &'a [u8],
        step: usize,
        is_due: bool,
    }

    impl Read for Slow<'_> {
        fn read(&mut self, room: &mut [u8]) -> io::Result<usize> {
            self.is_due = !self.is_due;
            if self.is_due {
                return Err(ErrorKind::WouldBlock.into());
            }
            let count = self.step.min(self.bytes.len()).min(room.len());
            let (now, later) = self.bytes.split_at(count);
            room[..count].copy_from_slice(now);
            self.bytes = later;
            Ok(count)
        }
    }

    fn all_blocks(bytes: &[u8], step: usize, limit: usize) -> Result<Vec<Vec<u8>>, ErrorKind> {
        let mut stream = Slow { bytes, step, is_due: false };
        let mut blocks = Blocks::new(limit);
        let mut found = Vec::new();
        loop {
            match blocks.next(&mut stream) {
                Ok(Some(block)) => found.push(block),
                Ok(None) => return Ok(found),
                Err(error) if error.kind() == ErrorKind::WouldBlock => {}
                Err(error) => return Err(error.kind()),
            }
        }
    }

    #[test]
    fn blocks_are_read_in_any_pieces() {
        let two: &[u8] = b"\0\0\0\x03abc\0\0\0\0\0\0\0\x01d";
        let rows: &[(&[u8], usize, Result<Vec<Vec<u8>>, ErrorKind>)] = &[
            (b"", 3, Ok(vec![])),
            (two, 3, Ok(vec![b"abc".to_vec(), vec![], b"d".to_vec()])),
            (&two[..6], 3, Err(ErrorKind::UnexpectedEof)),
            (&two[..2], 3, Err(ErrorKind::UnexpectedEof)),
            (two, 2, Err(ErrorKind::InvalidData)),
            (b"\xff\xff\xff\xff", 3, Err(ErrorKind::InvalidData)),
        ];
        for (bytes, limit, wanted) in rows {
            for step in [1, 2, 5, 100] {
                assert_eq!(&all_blocks(bytes, step, *limit), wanted, "{bytes:?} by {step}");
            }
        }
    }

    #[test]
    fn a_block_is_written_behind_its_length() {
        let mut out = Vec::new();
        write_block(&mut out, b"abc").unwrap();
        write_block(&mut out, b"").unwrap();
        assert_eq!(out, b"\0\0\0\x03abc\0\0\0\0");
    }
}
