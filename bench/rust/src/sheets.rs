//! Shift sheets of 64 points with full rows, written and read, over the crate sheet_exports. The Rust has none.

use std::hint::black_box;

use crate::cases::Side;
use crate::directory::{lent, shown, Lent};

extern "C" {
    fn sheet_write(
        start: u64,
        time: u64,
        delta: u64,
        points: usize,
        sets: Lent<[u64; 9]>,
        words: Lent<[u64; 12]>,
        pos: Lent<u64>,
        neg: Lent<u64>,
        bounds: Lent<f64>,
        out: Lent<u8>,
        size: *mut u64,
    ) -> u64;
    fn sheet_read(
        s: Lent<u8>,
        sets: Lent<[u64; 9]>,
        words: Lent<[u64; 12]>,
        pos: Lent<u64>,
        neg: Lent<u64>,
        bounds: Lent<f64>,
        header: *mut u64,
    ) -> u64;
}

pub const POINTS: usize = 64;

/// The most counts of a row, and the most bounds.
const SIZE: usize = 160;
const BOUNDS: usize = 159;

/// Bytes of a sheet of full rows: a header and, for each point, seven records of its head, then three words a record.
pub const EXPONENTIAL_BYTES: usize = 32 * (1 + POINTS * (7 + (2 * SIZE).div_ceil(3)));
pub const EXPLICIT_BYTES: usize = 32 * (1 + POINTS * (7 + BOUNDS.div_ceil(3) + SIZE.div_ceil(3)));

/// A list of points in the form of docs/LIST.md.
#[derive(Clone)]
struct List {
    sets: Vec<[u64; 9]>,
    words: Vec<[u64; 12]>,
    pos: Vec<u64>,
    neg: Vec<u64>,
    bounds: Vec<f64>,
}

impl List {
    fn empty() -> Self {
        List {
            sets: vec![[0; 9]; POINTS],
            words: vec![[0; 12]; POINTS],
            pos: vec![0; POINTS * SIZE],
            neg: vec![0; POINTS * SIZE],
            bounds: vec![0.0; POINTS * BOUNDS],
        }
    }

    fn of(word: fn(usize) -> [u64; 12]) -> Self {
        List {
            sets: (0..POINTS).map(row).collect(),
            words: (0..POINTS).map(word).collect(),
            pos: (0..POINTS * SIZE).map(|i| 1 + i as u64 % 7).collect(),
            neg: (0..POINTS * SIZE).map(|i| 1 + i as u64 % 5).collect(),
            bounds: (0..BOUNDS).map(|i| i as f64 / 8.0).collect(),
        }
    }

    fn write(&self, out: &mut [u8]) -> usize {
        let mut size = 0;
        let number = unsafe {
            sheet_write(
                100,
                200,
                1,
                POINTS,
                shown(&self.sets),
                shown(&self.words),
                shown(&self.pos),
                shown(&self.neg),
                shown(&self.bounds),
                lent(out),
                &mut size,
            )
        };
        assert_eq!(number, 0);
        size as usize
    }

    fn read(&mut self, sheet: &[u8]) {
        let mut header = [0; 4];
        let number = unsafe {
            sheet_read(
                shown(sheet),
                lent(&mut self.sets),
                lent(&mut self.words),
                lent(&mut self.pos),
                lent(&mut self.neg),
                lent(&mut self.bounds),
                header.as_mut_ptr(),
            )
        };
        assert_eq!((number, header), (0, [100, 200, 1, POINTS as u64]));
    }
}

/// The row of a set of one attribute, whose key is the point's number.
fn row(i: usize) -> [u64; 9] {
    [(i as u64) << 32 | 7, 0, 0, 0, 0, 0, 0, 0, 1]
}

/// Counts of the i-th row of a store: how many values they are.
fn total(i: usize, by: u64) -> u64 {
    (i * SIZE..(i + 1) * SIZE).map(|k| 1 + k as u64 % by).sum()
}

fn exponential_word(i: usize) -> [u64; 12] {
    let bin = (1 << 21) - 80;
    let low = (-1.0f64).to_bits();
    let size = SIZE as u64;
    [0, total(i, 7) + total(i, 5), 0, 20, bin, size, bin, size, 3, low, 1.0f64.to_bits(), 0.5f64.to_bits()]
}

fn explicit_word(i: usize) -> [u64; 12] {
    [1, total(i, 7), 0, 0, 0, BOUNDS as u64, 0, 0, 3, 0, 20.0f64.to_bits(), 0.5f64.to_bits()]
}

fn list(explicit: bool) -> List {
    if !explicit {
        return List::of(exponential_word);
    }
    let mut list = List::of(explicit_word);
    list.neg.clear();
    list
}

fn size(explicit: bool) -> usize {
    if explicit {
        EXPLICIT_BYTES
    } else {
        EXPONENTIAL_BYTES
    }
}

pub fn write(explicit: bool) -> Side {
    let list = list(explicit);
    let mut out = vec![0; size(explicit)];
    assert_eq!(list.write(&mut out), out.len());
    Side::of(move || {
        black_box(list.write(black_box(&mut out)));
    })
}

pub fn read(explicit: bool) -> Side {
    let mut sheet = vec![0; size(explicit)];
    list(explicit).write(&mut sheet);
    let mut into = List::empty();
    Side::of(move || into.read(black_box(&sheet)))
}
