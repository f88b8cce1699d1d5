//! Our map of sums, over the crates single_exports and single_handle_exports.

use crate::directory::{lent, shown, Directory, Lent, ENTRIES};
use crate::inputs::LIMIT;

extern "C" {
    fn sum_measure(
        limit: u64,
        state: *mut [u64; 3],
        sets: Lent<[u64; 9]>,
        entries: Lent<[u64; 3]>,
        order: Lent<u32>,
        values: Lent<f64>,
        v: f64,
        attrs: Lent<[u32; 2]>,
    ) -> u64;

    fn sum_measure_by(
        limit: u64,
        state: *mut [u64; 3],
        sets: Lent<[u64; 9]>,
        entries: Lent<[u64; 3]>,
        order: Lent<u32>,
        values: Lent<f64>,
        v: f64,
        handle: u64,
    ) -> u64;
}

pub struct Map {
    pub directory: Directory,
    values: Vec<f64>,
}

impl Map {
    pub fn new() -> Self {
        Map {
            directory: Directory::new(),
            values: vec![0.0; ENTRIES],
        }
    }

    #[inline(always)]
    pub fn record(&mut self, v: f64, attrs: &[[u32; 2]]) {
        let d = &mut self.directory;
        let no = unsafe {
            sum_measure(
                LIMIT as u64,
                &mut d.state,
                lent(&mut d.sets),
                lent(&mut d.entries),
                lent(&mut d.order),
                lent(&mut self.values),
                v,
                shown(attrs),
            )
        };
        assert_eq!(no, 0);
    }

    #[inline(always)]
    pub fn record_by(&mut self, v: f64, handle: u64) {
        let d = &mut self.directory;
        let no = unsafe {
            sum_measure_by(
                LIMIT as u64,
                &mut d.state,
                lent(&mut d.sets),
                lent(&mut d.entries),
                lent(&mut d.order),
                lent(&mut self.values),
                v,
                handle,
            )
        };
        assert_eq!(no, 0);
    }
}
