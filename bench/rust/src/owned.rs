//! Calls of ours that pay the checks once: batches, and calls in a map that agrees, which require it (crates batch_exports, set_batch_exports,
//! batch_agreed_exports, handle_agreed_exports, map_agreed_exports; over i64 whole_batch_exports, whole_handle_agreed_exports). The driver's
//! maps agree, for only these calls touch them.

use crate::directory::{lent, shown, Lent};
use crate::exponential_map::{Entry, Figures, Map, Row, TOP};
use crate::inputs::{LIMIT, MAX_SIZE};

/// A call over the stores of a map, of f64 or i64, and what else it is given.
macro_rules! calls {
    ($($name:ident of $number:ty, ($($given:ident: $type:ty),*);)*) => {
        extern "C" {
            $(fn $name(
                size: u32,
                top: u32,
                limit: u64,
                state: *mut [u64; 3],
                sets: Lent<Row>,
                entries: Lent<Entry>,
                order: Lent<u32>,
                figures: Lent<Figures>,
                extremes: Lent<[$number; 3]>,
                pos: Lent<u64>,
                neg: Lent<u64>,
                $($given: $type),*
            ) -> u64;)*
        }
    };
}

calls! {
    agreed_measure of f64, (v: f64, attrs: Lent<[u32; 2]>);
    agreed_measure_by of f64, (v: f64, handle: u64);
    map_measure_all of f64, (values: Lent<f64>, attrs: Lent<[u32; 2]>, taken: *mut [u64; 1]);
    map_measure_all_by of f64, (values: Lent<f64>, handle: u64, taken: *mut [u64; 1]);
    agreed_measure_all_by of f64, (values: Lent<f64>, handle: u64, taken: *mut [u64; 1]);
    agreed_whole_measure_by of i64, (v: i64, handle: u64);
    whole_measure_all_by of i64, (values: Lent<i64>, handle: u64, taken: *mut [u64; 1]);
}

/// A call over the map's stores: its number must be 0.
macro_rules! call {
    ($map:ident, $name:ident, $($given:expr),*) => {{
        let d = &mut $map.directory;
        let no = unsafe {
            $name(
                MAX_SIZE,
                TOP,
                LIMIT as u64,
                &mut d.state,
                lent(&mut d.sets),
                lent(&mut d.entries),
                lent(&mut d.order),
                lent(&mut $map.figures),
                lent(&mut $map.extremes),
                lent(&mut $map.pos),
                lent(&mut $map.neg),
                $($given),*
            )
        };
        assert_eq!(no, 0);
    }};
}

impl Map<f64> {
    #[inline(always)]
    pub fn record_agreed(&mut self, v: f64, attrs: &[[u32; 2]]) {
        call!(self, agreed_measure, v, shown(attrs));
    }

    #[inline(always)]
    pub fn record_by_agreed(&mut self, v: f64, handle: u64) {
        call!(self, agreed_measure_by, v, handle);
    }

    #[inline(always)]
    pub fn record_all(&mut self, values: &[f64], attrs: &[[u32; 2]]) {
        let mut taken = [0];
        call!(self, map_measure_all, shown(values), shown(attrs), &mut taken);
        assert_eq!(taken[0], values.len() as u64);
    }

    #[inline(always)]
    pub fn record_all_by(&mut self, values: &[f64], handle: u64) {
        let mut taken = [0];
        call!(self, map_measure_all_by, shown(values), handle, &mut taken);
        assert_eq!(taken[0], values.len() as u64);
    }

    #[inline(always)]
    pub fn record_all_by_agreed(&mut self, values: &[f64], handle: u64) {
        let mut taken = [0];
        call!(self, agreed_measure_all_by, shown(values), handle, &mut taken);
        assert_eq!(taken[0], values.len() as u64);
    }
}

impl Map<i64> {
    #[inline(always)]
    pub fn record_by_agreed(&mut self, v: i64, handle: u64) {
        call!(self, agreed_whole_measure_by, v, handle);
    }

    #[inline(always)]
    pub fn record_all_by(&mut self, values: &[i64], handle: u64) {
        let mut taken = [0];
        call!(self, whole_measure_all_by, shown(values), handle, &mut taken);
        assert_eq!(taken[0], values.len() as u64);
    }
}
