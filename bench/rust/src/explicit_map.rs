//! Our map of the explicit kind, over the crate explicit_exports.

use crate::directory::{lent, shown, Directory, Lent, ENTRIES};
use crate::inputs::{BOUNDS, LIMIT};

extern "C" {
    fn explicit_measure(
        bounds: Lent<f64>,
        limit: u64,
        state: *mut [u64; 3],
        sets: Lent<[u64; 9]>,
        entries: Lent<[u64; 3]>,
        order: Lent<u32>,
        totals: Lent<u64>,
        extremes: Lent<[f64; 3]>,
        counts: Lent<u64>,
        v: f64,
        attrs: Lent<[u32; 2]>,
    ) -> u64;
}

pub struct Map {
    directory: Directory,
    totals: Vec<u64>,
    extremes: Vec<[f64; 3]>,
    counts: Vec<u64>,
}

impl Map {
    pub fn new() -> Self {
        Map {
            directory: Directory::new(),
            totals: vec![0; ENTRIES],
            extremes: vec![[0.0; 3]; ENTRIES],
            counts: vec![0; ENTRIES * (BOUNDS.len() + 1)],
        }
    }

    #[inline(always)]
    pub fn record(&mut self, v: f64, attrs: &[[u32; 2]]) {
        let d = &mut self.directory;
        let no = unsafe {
            explicit_measure(
                shown(&BOUNDS),
                LIMIT as u64,
                &mut d.state,
                lent(&mut d.sets),
                lent(&mut d.entries),
                lent(&mut d.order),
                lent(&mut self.totals),
                lent(&mut self.extremes),
                lent(&mut self.counts),
                v,
                shown(attrs),
            )
        };
        assert_eq!(no, 0);
    }
}
