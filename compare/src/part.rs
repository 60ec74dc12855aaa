// A lent slice as a part of a larger buffer, with guard words before and after it that a call must leave as they are.
use std::sync::atomic::{AtomicU64, Ordering::Relaxed};

// What lent slices hold.
pub trait Word: Copy {
    fn of_bits(bits: u64) -> Self;
    fn bits(self) -> u64;
}

impl Word for f64 {
    fn of_bits(bits: u64) -> Self {
        f64::from_bits(bits)
    }
    fn bits(self) -> u64 {
        self.to_bits()
    }
}

impl Word for usize {
    fn of_bits(bits: u64) -> Self {
        bits as usize
    }
    fn bits(self) -> u64 {
        self as u64
    }
}

impl Word for u8 {
    fn of_bits(bits: u64) -> Self {
        bits as u8
    }
    fn bits(self) -> u64 {
        self as u64
    }
}

impl Word for bool {
    fn of_bits(bits: u64) -> Self {
        bits & 1 == 1
    }
    fn bits(self) -> u64 {
        self as u64
    }
}

// How many guard words stand on each side.
const GUARDS: usize = 8;

#[derive(Clone)]
pub struct Part<T> {
    buffer: Vec<T>,
    // which guard words: another for every part, so that no value that a call may write is theirs for long
    salt: u64,
}

// The guard word at this place of a buffer.
fn guard<T: Word>(salt: u64, at: usize) -> T {
    let z = (salt << 32 ^ at as u64).wrapping_add(1).wrapping_mul(0x9e37_79b9_7f4a_7c15);
    let z = (z ^ z >> 30).wrapping_mul(0xbf58_476d_1ce4_e5b9);
    T::of_bits(z ^ z >> 27)
}

impl<T: Word> Part<T> {
    // What is lent, between guard words.
    pub fn new(lent: Vec<T>) -> Self {
        static PARTS: AtomicU64 = AtomicU64::new(0);
        let salt = PARTS.fetch_add(1, Relaxed);
        let after = GUARDS + lent.len();
        let mut buffer = Vec::with_capacity(after + GUARDS);
        buffer.extend((0..GUARDS).map(|i| guard::<T>(salt, i)));
        buffer.extend(lent);
        buffer.extend((after..after + GUARDS).map(|i| guard::<T>(salt, i)));
        Part { buffer, salt }
    }
    pub fn lent(&mut self) -> &mut [T] {
        let after = self.buffer.len() - GUARDS;
        &mut self.buffer[GUARDS..after]
    }
    pub fn guards_stand(&self) -> bool {
        let after = self.buffer.len() - GUARDS;
        (0..GUARDS).chain(after..after + GUARDS).all(|i| self.buffer[i].bits() == guard::<T>(self.salt, i).bits())
    }
    // The last word before the lent slice or the first after it, for the stand-in to spoil.
    #[cfg(not(port))]
    pub fn beside(&mut self, after: bool) -> &mut T {
        let at = if after { self.buffer.len() - GUARDS } else { GUARDS - 1 };
        &mut self.buffer[at]
    }
}

impl<T> std::ops::Deref for Part<T> {
    type Target = [T];
    fn deref(&self) -> &[T] {
        &self.buffer[GUARDS..self.buffer.len() - GUARDS]
    }
}
