//! Numbers inside bytes, and numbers that count things in memory.

pub(crate) fn put_word(bytes: &mut [u8], at: usize, value: u64) {
    bytes[at..at + 8].copy_from_slice(&value.to_le_bytes());
}

pub(crate) fn put_half(bytes: &mut [u8], at: usize, value: u32) {
    bytes[at..at + 4].copy_from_slice(&value.to_le_bytes());
}

/// A number that counts bytes or things in memory.
pub(crate) fn size(value: u64) -> usize {
    usize::try_from(value).expect("the library stands on 64 bits")
}
