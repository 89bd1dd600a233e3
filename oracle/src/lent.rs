//! Buffers as a C program may lend them: at any address, with bytes around them that are not lent.
use std::ops::{Deref, DerefMut};

const AROUND: u8 = 0x5a;
const BEHIND: usize = 32;

/// A copy of bytes, 16 to 31 bytes into a buffer of its own.
pub struct Lent {
    bytes: Vec<u8>,
    from: usize,
    to: usize,
}

impl Lent {
    pub fn of(bytes: &[u8], shift: usize) -> Lent {
        let from = 16 + shift % 16;
        let to = from + bytes.len();
        let mut all = vec![AROUND; to + BEHIND];
        all[from..to].copy_from_slice(bytes);
        Lent { bytes: all, from, to }
    }

    /// Whether the bytes around it are as they were.
    pub fn alone(&self) -> bool {
        let around = self.bytes[..self.from].iter().chain(&self.bytes[self.to..]);
        around.copied().all(|byte| byte == AROUND)
    }
}

impl Deref for Lent {
    type Target = [u8];

    fn deref(&self) -> &[u8] {
        &self.bytes[self.from..self.to]
    }
}

impl DerefMut for Lent {
    fn deref_mut(&mut self) -> &mut [u8] {
        &mut self.bytes[self.from..self.to]
    }
}
