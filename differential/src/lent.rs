//! Lent memory with guard bytes: a buffer stands inside a larger allocation of random bytes, of which
//! everything outside the results must be the same after a call.

use oracle::random::Random;

/// Guard bytes before and behind each buffer.
pub const GUARD: usize = 64;
/// The longest buffer.
pub const MOST: usize = 1 << 19;

/// Random bytes to fill buffers with, made once: each call takes another part of them.
pub struct Pattern {
    bytes: Vec<u8>,
}

impl Pattern {
    pub fn new(seed: u64) -> Self {
        let mut r = Random::new(seed, u64::MAX);
        let bytes = (0..(MOST + 2 * GUARD) / 4).flat_map(|_| r.bits().to_le_bytes());
        Self {
            bytes: bytes.collect(),
        }
    }

    fn part(&self, from: usize, len: usize) -> &[u8] {
        &self.bytes[from..from + len]
    }
}

/// An allocation for one buffer, used for many calls.
pub struct Lent {
    memory: Vec<u8>,
    from: usize,
    len: usize,
}

impl Default for Lent {
    fn default() -> Self {
        Self {
            memory: vec![0; MOST + 2 * GUARD],
            from: 0,
            len: 0,
        }
    }
}

impl Lent {
    /// Fill a buffer of `len` bytes and its guards with a part of the pattern.
    pub fn prepare(&mut self, pattern: &Pattern, r: &mut Random, len: usize) {
        let all = len + 2 * GUARD;
        self.from = r.below(pattern.bytes.len() - all);
        self.len = len;
        self.memory[..all].copy_from_slice(pattern.part(self.from, all));
    }

    pub fn buffer(&mut self) -> &mut [u8] {
        &mut self.memory[GUARD..GUARD + self.len]
    }

    /// The first bytes of the buffer.
    pub fn start(&self, len: usize) -> &[u8] {
        &self.memory[GUARD..GUARD + len]
    }

    /// Whether all but the first `changed` bytes of the buffer are as prepared, the guards too.
    pub fn untouched_but(&self, pattern: &Pattern, changed: usize) -> bool {
        let before = pattern.part(self.from, self.len + 2 * GUARD);
        let after = &self.memory[..self.len + 2 * GUARD];
        before[..GUARD] == after[..GUARD] && before[GUARD + changed..] == after[GUARD + changed..]
    }
}
