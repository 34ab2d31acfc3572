//! What is lent to a call between words that no call may touch.

use std::ops::Range;

const GUARD: [u64; 8] = [0x5aa5_c33c_0ff0_9669; 8];

/// A record.
#[repr(C)]
pub struct Guarded<T> {
    before: [u64; 8],
    pub lent: T,
    after: [u64; 8],
}

impl<T> Guarded<T> {
    pub fn new(lent: T) -> Self {
        Guarded { before: GUARD, lent, after: GUARD }
    }

    pub fn is_intact(&self) -> bool {
        self.before == GUARD && self.after == GUARD
    }
}

/// Bytes lent at a chosen place of every 16, between bytes that no call may touch.
pub struct GuardedBytes {
    room: Vec<u8>,
    lent: Range<usize>,
}

impl GuardedBytes {
    const GUARD: u8 = 0xa5;
    const REACH: usize = 64;

    pub fn new(contents: &[u8], place: usize) -> Self {
        let mut room = vec![Self::GUARD; contents.len() + 2 * Self::REACH + 16];
        let start = room.as_ptr().addr() + Self::REACH;
        let first = Self::REACH + (16 + place - start % 16) % 16;
        let lent = first..first + contents.len();
        room[lent.clone()].copy_from_slice(contents);
        GuardedBytes { room, lent }
    }

    pub fn lent(&self) -> &[u8] {
        &self.room[self.lent.clone()]
    }

    pub fn lent_mut(&mut self) -> &mut [u8] {
        &mut self.room[self.lent.clone()]
    }

    pub fn is_intact(&self) -> bool {
        let (before, after) = (&self.room[..self.lent.start], &self.room[self.lent.end..]);
        [before, after].concat().iter().all(|byte| *byte == Self::GUARD)
    }
}
