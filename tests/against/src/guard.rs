//! Buffers with guards on both sides.

use std::fmt::Debug;

/// A number that fills guards; no two neighbours are equal.
pub trait Fill: Copy + PartialEq + Debug {
    fn fill(i: usize) -> Self;
}

impl Fill for u8 {
    fn fill(i: usize) -> u8 {
        0xa5 ^ i as u8
    }
}

impl Fill for u16 {
    fn fill(i: usize) -> u16 {
        0xa55a ^ i as u16
    }
}

impl Fill for u32 {
    fn fill(i: usize) -> u32 {
        0xa55a_c33c ^ i as u32
    }
}

impl Fill for u64 {
    fn fill(i: usize) -> u64 {
        0xa55a_c33c_9669_f00f ^ i as u64
    }
}

/// A row to lend, with `before` guards in front of it and sixteen behind it.
#[derive(Clone, Debug, PartialEq, Eq)]
pub struct Guarded<T> {
    all: Vec<T>,
    before: usize,
    length: usize,
}

const BEHIND: usize = 16;

/// The places a row of bytes is lent from: at an even address and at an odd one.
pub const BEFORE: [usize; 2] = [16, 13];

impl<T: Fill> Guarded<T> {
    /// The guards in front decide the row's alignment: with an odd number of bytes it starts at an odd address.
    pub fn new(row: &[T], before: usize) -> Guarded<T> {
        let mut all = Vec::with_capacity(before + row.len() + BEHIND);
        all.extend((0..before).map(T::fill));
        all.extend_from_slice(row);
        all.extend((before + row.len()..before + row.len() + BEHIND).map(T::fill));
        Guarded { all, before, length: row.len() }
    }

    pub fn row(&self) -> &[T] {
        &self.all[self.before..self.before + self.length]
    }

    pub fn row_mut(&mut self) -> &mut [T] {
        &mut self.all[self.before..self.before + self.length]
    }

    /// Stops at a guard that was altered.
    pub fn check(&self) {
        let behind = self.before + self.length;
        for i in (0..self.before).chain(behind..self.all.len()) {
            assert!(self.all[i] == T::fill(i), "guard {i} of a row at {} of length {} was altered", self.before, self.length);
        }
    }
}
