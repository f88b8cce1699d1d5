//! Our map of the exponential kind over i64, over the crates whole_exports and whole_handle_exports. The sum is on.

use crate::directory::{lent, shown, Lent};
use crate::exponential_map::{Entry, Figures, Map, Row, TOP};
use crate::inputs::{LIMIT, MAX_SIZE};

extern "C" {
    fn whole_measure(
        size: u32,
        top: u32,
        limit: u64,
        state: *mut [u64; 3],
        sets: Lent<Row>,
        entries: Lent<Entry>,
        order: Lent<u32>,
        figures: Lent<Figures>,
        extremes: Lent<[i64; 3]>,
        pos: Lent<u64>,
        neg: Lent<u64>,
        v: i64,
        attrs: Lent<[u32; 2]>,
    ) -> u64;

    fn whole_measure_by(
        size: u32,
        top: u32,
        limit: u64,
        state: *mut [u64; 3],
        sets: Lent<Row>,
        entries: Lent<Entry>,
        order: Lent<u32>,
        figures: Lent<Figures>,
        extremes: Lent<[i64; 3]>,
        pos: Lent<u64>,
        neg: Lent<u64>,
        v: i64,
        handle: u64,
    ) -> u64;
}

impl Map<i64> {
    #[inline(always)]
    pub fn record(&mut self, v: i64, attrs: &[[u32; 2]]) {
        let d = &mut self.directory;
        let no = unsafe {
            whole_measure(
                MAX_SIZE,
                TOP,
                LIMIT as u64,
                &mut d.state,
                lent(&mut d.sets),
                lent(&mut d.entries),
                lent(&mut d.order),
                lent(&mut self.figures),
                lent(&mut self.extremes),
                lent(&mut self.pos),
                lent(&mut self.neg),
                v,
                shown(attrs),
            )
        };
        assert_eq!(no, 0);
    }

    #[inline(always)]
    pub fn record_by(&mut self, v: i64, handle: u64) {
        let d = &mut self.directory;
        let no = unsafe {
            whole_measure_by(
                MAX_SIZE,
                TOP,
                LIMIT as u64,
                &mut d.state,
                lent(&mut d.sets),
                lent(&mut d.entries),
                lent(&mut d.order),
                lent(&mut self.figures),
                lent(&mut self.extremes),
                lent(&mut self.pos),
                lent(&mut self.neg),
                v,
                handle,
            )
        };
        assert_eq!(no, 0);
    }
}
