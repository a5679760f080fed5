//! A buffer by itself, with a length: what a clog is moved into, and where a file of another form is kept.
use crate::bytes::size;
use crate::refusal::Refusal;

/// A buffer and how much of it is used. What stands past the length is part of the buffer and no part of the file.
///
/// ```
/// use nyotmelang::Output;
/// let mut output = Output::filled(4, 0xEE);
/// output.append(&[1, 2]);
/// assert_eq!((output.len(), output.content(), output.buffer()), (2, &[1, 2][..], &[1, 2, 0xEE, 0xEE][..]));
/// ```
#[derive(Clone, Debug, Default, PartialEq, Eq)]
pub struct Output {
    bytes: Vec<u8>,
    len: usize,
}

impl Output {
    /// A buffer of so many bytes, every one of which is `byte`; the length is 0.
    pub fn filled(bytes: usize, byte: u8) -> Output {
        Output { bytes: vec![byte; bytes], len: 0 }
    }

    /// The whole buffer.
    pub fn buffer(&self) -> &[u8] {
        &self.bytes
    }

    pub fn buffer_mut(&mut self) -> &mut [u8] {
        &mut self.bytes
    }

    pub fn len(&self) -> usize {
        self.len
    }

    pub fn is_empty(&self) -> bool {
        self.len == 0
    }

    /// The bytes up to the length.
    pub fn content(&self) -> &[u8] {
        &self.bytes[..self.len.min(self.bytes.len())]
    }

    /// Bytes put after the last one. Those that do not fit are dropped, and the length says so by going over the buffer.
    pub fn append(&mut self, bytes: &[u8]) {
        if self.len < self.bytes.len() {
            let fits = bytes.len().min(self.bytes.len() - self.len);
            self.bytes[self.len..self.len + fits].copy_from_slice(&bytes[..fits]);
        }
        self.len = self.len.saturating_add(bytes.len());
    }

    // A call on the buffer and its length; where it is accepted the first value is the new length.
    pub(crate) fn changed(
        &mut self,
        call: impl FnOnce(&mut [u8], usize, &mut [u64; 4]) -> u8,
    ) -> Result<[u64; 4], Refusal> {
        let mut values = [0; 4];
        Refusal::check(call(&mut self.bytes, self.len, &mut values))?;
        self.len = size(values[0]);
        Ok(values)
    }

    // A call that writes over the front of the buffer and answers how many bytes; where it is accepted this is the new length.
    pub(crate) fn filled_by(
        &mut self,
        call: impl FnOnce(&mut [u8]) -> Result<usize, Refusal>,
    ) -> Result<usize, Refusal> {
        self.len = call(&mut self.bytes)?;
        Ok(self.len)
    }
}
