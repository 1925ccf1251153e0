//! The fields of a block, from the left.

/// Reads fields from the left of a block, each None where the block ends before it.
#[derive(Clone, Copy, Debug)]
pub struct Fields<'a>(pub &'a [u8]);

impl<'a> Fields<'a> {
    /// How many bytes.
    pub fn take(&mut self, count: usize) -> Option<&'a [u8]> {
        let (now, later) = self.0.split_at_checked(count)?;
        self.0 = later;
        Some(now)
    }

    /// One byte.
    pub fn byte(&mut self) -> Option<u8> {
        let (first, later) = self.0.split_first()?;
        self.0 = later;
        Some(*first)
    }

    /// A word: eight bytes, big-endian.
    pub fn word(&mut self) -> Option<u64> {
        let (now, later) = self.0.split_first_chunk::<8>()?;
        self.0 = later;
        Some(u64::from_be_bytes(*now))
    }

    /// Four bytes, big-endian, that say how many follow, and these.
    pub fn bytes(&mut self) -> Option<&'a [u8]> {
        let mut ahead = *self;
        let length = ahead.count()?;
        let bytes = ahead.take(length)?;
        *self = ahead;
        Some(bytes)
    }

    /// As `bytes`, of UTF-8.
    pub fn text(&mut self) -> Option<&'a str> {
        let mut ahead = *self;
        let text = std::str::from_utf8(ahead.bytes()?).ok()?;
        *self = ahead;
        Some(text)
    }

    /// A count: four bytes, big-endian.
    pub fn count(&mut self) -> Option<usize> {
        let (now, later) = self.0.split_first_chunk::<4>()?;
        self.0 = later;
        Some(u32::from_be_bytes(*now) as usize)
    }

    /// Nothing stands after what was read.
    #[must_use]
    pub fn is_done(&self) -> bool {
        self.0.is_empty()
    }
}

#[cfg(test)]
mod tests {
    use super::*;

    #[test]
    fn fields_are_read_from_the_left() {
        let mut fields = Fields(b"\x07\0\0\0\0\0\0\x01\x02\0\0\0\x02ab\0\0\0\x01\xff");
        assert_eq!(fields.byte(), Some(7));
        assert_eq!(fields.word(), Some(258));
        assert_eq!(fields.text(), Some("ab"));
        assert_eq!(fields.text(), None);
        assert!(!fields.is_done());
        assert_eq!(fields.bytes(), Some(&b"\xff"[..]));
        assert!(fields.is_done());
        assert_eq!((fields.byte(), fields.word(), fields.bytes()), (None, None, None));
    }

    #[test]
    fn a_count_beyond_the_block_is_no_field() {
        let mut fields = Fields(b"\0\0\0\x03ab");
        assert_eq!(fields.bytes(), None);
        assert_eq!(fields.take(7), None);
        assert_eq!(fields.0.len(), 6);
    }
}
