//! Memory for the archive's functions, with a margin on both sides that must stay as it is.

const MARGIN: usize = 64;

/// The margin's bytes: no two neighbours are equal.
fn margin_byte(i: usize) -> u8 {
    0xA5 ^ (i as u8).wrapping_mul(29)
}

pub struct Buffer {
    bytes: Vec<u8>,
}

impl Buffer {
    pub fn new(length: usize) -> Self {
        Buffer { bytes: (0..length + 2 * MARGIN).map(margin_byte).collect() }
    }

    pub fn pointer(&mut self) -> *mut u8 {
        self.bytes[MARGIN..].as_mut_ptr()
    }

    pub fn content(&self) -> &[u8] {
        &self.bytes[MARGIN..self.bytes.len() - MARGIN]
    }

    pub fn content_mut(&mut self) -> &mut [u8] {
        let end = self.bytes.len() - MARGIN;
        &mut self.bytes[MARGIN..end]
    }

    pub fn margins_intact(&self) -> bool {
        let end = self.bytes.len() - MARGIN;
        (0..MARGIN).chain(end..self.bytes.len()).all(|i| self.bytes[i] == margin_byte(i))
    }
}

/// What a result holds before the call.
const BEFORE: u64 = 0xA5C3_96F0_5A3C_690F;
const RESULTS: usize = 8;

/// The places of a call's results, a word of 64 bits each, between two words that must stay as they are.
#[derive(Clone, PartialEq, Eq)]
pub struct Results {
    words: [u64; RESULTS + 2],
}

impl Results {
    pub fn new() -> Self {
        Results { words: [BEFORE; RESULTS + 2] }
    }

    /// The first place; the others follow it.
    pub fn first(&mut self) -> *mut u64 {
        self.words[1..].as_mut_ptr()
    }

    /// As a result of so many bytes is written.
    pub fn set(&mut self, i: usize, bytes: usize, value: u64) {
        let word = &mut self.words[1 + i];
        let mut all = word.to_le_bytes();
        all[..bytes].copy_from_slice(&value.to_le_bytes()[..bytes]);
        *word = u64::from_le_bytes(all);
    }

    /// All words, those that were not written with their old bytes.
    pub fn words(&self) -> &[u64] {
        &self.words[1..RESULTS + 1]
    }
}
