//! Our map of the exponential kind over f64, over the crates map_exports, handle_exports and collection_exports. A call returns document 01's
//! number. Its calls over i64 are in whole_map.

use crate::directory::{lent, shown, Directory, Lent, ENTRIES};
use crate::inputs::{LIMIT, MAX_SIZE};

pub type Row = [u64; 9];
pub type Entry = [u64; 3];
pub type Figures = [u64; 8];
type Extremes = [f64; 3];
type Words = [u64; 12];

extern "C" {
    fn map_measure(
        size: u32,
        top: u32,
        limit: u64,
        state: *mut [u64; 3],
        sets: Lent<Row>,
        entries: Lent<Entry>,
        order: Lent<u32>,
        figures: Lent<Figures>,
        extremes: Lent<Extremes>,
        pos: Lent<u64>,
        neg: Lent<u64>,
        v: f64,
        attrs: Lent<[u32; 2]>,
    ) -> u64;

    fn map_measure_by(
        size: u32,
        top: u32,
        limit: u64,
        state: *mut [u64; 3],
        sets: Lent<Row>,
        entries: Lent<Entry>,
        order: Lent<u32>,
        figures: Lent<Figures>,
        extremes: Lent<Extremes>,
        pos: Lent<u64>,
        neg: Lent<u64>,
        v: f64,
        handle: u64,
    ) -> u64;

    fn map_delta(
        size: u32,
        top: u32,
        limit: u64,
        state: *mut [u64; 3],
        sets: Lent<Row>,
        entries: Lent<Entry>,
        order: Lent<u32>,
        figures: Lent<Figures>,
        extremes: Lent<Extremes>,
        pos: Lent<u64>,
        neg: Lent<u64>,
        out_sets: Lent<Row>,
        out_words: Lent<Words>,
        out_pos: Lent<u64>,
        out_neg: Lent<u64>,
        points: *mut [u64; 1],
    ) -> u64;

    fn map_cumulative(
        size: u32,
        top: u32,
        limit: u64,
        state: *const [u64; 3],
        sets: Lent<Row>,
        entries: Lent<Entry>,
        order: Lent<u32>,
        figures: Lent<Figures>,
        extremes: Lent<Extremes>,
        pos: Lent<u64>,
        neg: Lent<u64>,
        out_sets: Lent<Row>,
        out_words: Lent<Words>,
        out_pos: Lent<u64>,
        out_neg: Lent<u64>,
        points: *mut [u64; 1],
    ) -> u64;
}

/// The level of scale 10.
pub const TOP: u32 = 20;

/// A map of T, f64 or i64.
pub struct Map<T> {
    pub directory: Directory,
    pub figures: Vec<Figures>,
    pub extremes: Vec<[T; 3]>,
    pub pos: Vec<u64>,
    pub neg: Vec<u64>,
}

/// Lent output (docs/LIST.md), with places for every slot.
pub struct Output {
    sets: Vec<Row>,
    words: Vec<Words>,
    pub pos: Vec<u64>,
    pub neg: Vec<u64>,
}

fn counts() -> Vec<u64> {
    vec![0; ENTRIES * MAX_SIZE as usize]
}

impl Output {
    pub fn new() -> Self {
        Output {
            sets: vec![[0; 9]; ENTRIES],
            words: vec![[0; 12]; ENTRIES],
            pos: counts(),
            neg: counts(),
        }
    }
}

impl<T: Copy + Default> Map<T> {
    pub fn new() -> Self {
        Map {
            directory: Directory::new(),
            figures: vec![[0; 8]; ENTRIES],
            extremes: vec![[T::default(); 3]; ENTRIES],
            pos: counts(),
            neg: counts(),
        }
    }
}

impl Map<f64> {
    #[inline(always)]
    pub fn record(&mut self, v: f64, attrs: &[[u32; 2]]) {
        let d = &mut self.directory;
        let no = unsafe {
            map_measure(
                MAX_SIZE,
                TOP,
                LIMIT as u64,
                &mut d.state,
                lent(&mut d.sets),
                lent(&mut d.entries),
                lent(&mut d.order),
                lent(&mut self.figures),
                lent(&mut self.extremes),
                lent(&mut self.pos),
                lent(&mut self.neg),
                v,
                shown(attrs),
            )
        };
        assert_eq!(no, 0);
    }

    #[inline(always)]
    pub fn record_by(&mut self, v: f64, handle: u64) {
        let d = &mut self.directory;
        let no = unsafe {
            map_measure_by(
                MAX_SIZE,
                TOP,
                LIMIT as u64,
                &mut d.state,
                lent(&mut d.sets),
                lent(&mut d.entries),
                lent(&mut d.order),
                lent(&mut self.figures),
                lent(&mut self.extremes),
                lent(&mut self.pos),
                lent(&mut self.neg),
                v,
                handle,
            )
        };
        assert_eq!(no, 0);
    }

    /// How many points a delta collection lists.
    pub fn delta(&mut self, out: &mut Output) -> u64 {
        let mut points = [0];
        let d = &mut self.directory;
        let no = unsafe {
            map_delta(
                MAX_SIZE,
                TOP,
                LIMIT as u64,
                &mut d.state,
                lent(&mut d.sets),
                lent(&mut d.entries),
                lent(&mut d.order),
                shown(&self.figures),
                shown(&self.extremes),
                shown(&self.pos),
                shown(&self.neg),
                lent(&mut out.sets),
                lent(&mut out.words),
                lent(&mut out.pos),
                lent(&mut out.neg),
                &mut points,
            )
        };
        assert_eq!(no, 0);
        points[0]
    }

    /// The same of a cumulative one.
    pub fn cumulative(&self, out: &mut Output) -> u64 {
        let mut points = [0];
        let d = &self.directory;
        let no = unsafe {
            map_cumulative(
                MAX_SIZE,
                TOP,
                LIMIT as u64,
                &d.state,
                shown(&d.sets),
                shown(&d.entries),
                shown(&d.order),
                shown(&self.figures),
                shown(&self.extremes),
                shown(&self.pos),
                shown(&self.neg),
                lent(&mut out.sets),
                lent(&mut out.words),
                lent(&mut out.pos),
                lent(&mut out.neg),
                &mut points,
            )
        };
        assert_eq!(no, 0);
        points[0]
    }
}
