//! Rows lowered by our two forms, over the crate lowering_exports: the walk from group to group, and the plain form, which halves.

use std::cell::RefCell;
use std::hint::black_box;
use std::rc::Rc;

use crate::cases::Side;
use crate::directory::{lent, Lent};
use crate::inputs::{full_row, FIRST_INDEX, ROWS};
use crate::rust;

extern "C" {
    fn lower_by_walk(counts: Lent<u64>, n: usize, start: u32, delta: u32) -> usize;
    fn lower_by_halves(counts: Lent<u64>, n: usize, start: u32, delta: u32) -> usize;
}

/// The bin of the rows' first count at the finest level, that of scale 10.
const FIRST_BIN: u32 = (FIRST_INDEX + (2 << 20)) as u32;

type Lower = unsafe extern "C" fn(Lent<u64>, usize, u32, u32) -> usize;

pub fn walk(levels: u32) -> Side {
    lowering(lower_by_walk, levels)
}

pub fn halves(levels: u32) -> Side {
    lowering(lower_by_halves, levels)
}

fn lowering(lower: Lower, levels: u32) -> Side {
    // such a row and so few levels meet what the calls require
    let lowered = move |row: &mut [u64]| unsafe { lower(lent(row), row.len(), FIRST_BIN, levels) };
    let mut row = full_row();
    let len = lowered(&mut row);
    assert_eq!(row[..len], *rust::lowered(levels).counts());
    let rows = Rc::new(RefCell::new(vec![full_row(); ROWS]));
    let fresh = rows.clone();
    Side {
        prepare: Box::new(move || fresh.borrow_mut().fill(full_row())),
        run: Box::new(move || {
            for row in rows.borrow_mut().iter_mut() {
                black_box(lowered(black_box(row)));
            }
        }),
    }
}
