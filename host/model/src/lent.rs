//! A lent slice, with guard bytes around it and at any alignment.

use crate::random::Random;

const GUARD: usize = 32;

pub struct Lent {
    memory: Vec<u8>,
    from: usize,
    to: usize,
}

fn guard_byte(at: usize) -> u8 {
    0xa5 ^ (at as u8).wrapping_mul(29)
}

impl Lent {
    pub fn new(random: &mut Random, bytes: &[u8]) -> Lent {
        let from = GUARD + random.below(8);
        let to = from + bytes.len();
        let mut memory: Vec<u8> = (0..from).map(guard_byte).collect();
        memory.extend_from_slice(bytes);
        memory.extend((to..to + GUARD).map(guard_byte));
        Lent { memory, from, to }
    }

    /// Where the slice begins; never null. Writable, so that a wrong write is seen.
    pub fn pointer(&mut self) -> *mut u8 {
        self.memory[self.from..].as_mut_ptr()
    }

    pub fn length(&self) -> usize {
        self.to - self.from
    }

    pub fn bytes(&self) -> &[u8] {
        &self.memory[self.from..self.to]
    }

    pub fn bytes_mut(&mut self) -> &mut [u8] {
        &mut self.memory[self.from..self.to]
    }

    pub fn guards_intact(&self) -> bool {
        let intact = |at: usize| self.memory[at] == guard_byte(at);
        (0..self.from).all(intact) && (self.to..self.memory.len()).all(intact)
    }
}
