//! The stores that our maps of every kind are lent, and how a slice is lent.

use crate::inputs::LIMIT;

pub const ENTRIES: usize = LIMIT + 2;

/// A slice: where it starts and how long it is. A call of ours takes these as two words; passed as one struct they go the same way
/// wherever the first six words end beside a slice and not within one, as in each call here.
#[repr(C)]
pub struct Lent<T> {
    start: *mut T,
    len: usize,
}

pub fn lent<T>(slice: &mut [T]) -> Lent<T> {
    Lent {
        start: slice.as_mut_ptr(),
        len: slice.len(),
    }
}

/// A slice that is only read.
pub fn shown<T>(slice: &[T]) -> Lent<T> {
    Lent {
        start: slice.as_ptr().cast_mut(),
        len: slice.len(),
    }
}

pub struct Directory {
    pub state: [u64; 3],
    pub sets: Vec<[u64; 9]>,
    pub entries: Vec<[u64; 3]>,
    pub order: Vec<u32>,
}

impl Directory {
    /// A fresh start: no named set, the empty set's entry cleared.
    pub fn new() -> Self {
        Directory {
            state: [0; 3],
            sets: vec![[0; 9]; ENTRIES],
            entries: vec![[0; 3]; ENTRIES],
            order: vec![0; ENTRIES],
        }
    }

    /// Binds slot x: its birth number is the handle. A binding is one word of the entry, so no call is needed here.
    pub fn bind(&mut self, x: usize) -> u64 {
        self.entries[x][1] += 1;
        self.entries[x][0]
    }
}
