//! The cases: what is measured, and how many operations a round has.

use crate::inputs::{first, grid, last, triples, unlike, Input, ROWS, VALUES};
use crate::{lowering, ours, rust, sheets};

/// One side of a case. `prepare` is not measured.
pub struct Side {
    pub prepare: Box<dyn FnMut()>,
    pub run: Box<dyn FnMut()>,
}

impl Side {
    /// A side that needs no preparing.
    pub fn of(run: impl FnMut() + 'static) -> Self {
        Side {
            prepare: Box::new(|| {}),
            run: Box::new(run),
        }
    }
}

type Make = Box<dyn Fn() -> Side>;

/// A case; where the Rust has no call like ours, its side is not there.
pub struct Case {
    pub name: &'static str,
    pub operations: usize,
    pub rust: Option<Make>,
    pub ours: Make,
}

/// Collections of a round that leave the map as it was.
pub const COLLECTIONS: usize = 16;

pub fn all() -> Vec<Case> {
    if cfg!(raised) {
        return raised();
    }
    let mut cases = vec![
        index("index, scale 10", 10),
        index("index, scale 3", 3),
        index("index, scale -2", -2),
        series("series alone, rows of 20", 20),
        series("series alone, rows of 160", 160),
    ];
    let few = || Input::of(last(4, 2));
    let many = || Input::of(last(62, 8));
    cases.extend([
        by_set("by set, 4 sets of 2, rows of 4", few().rows(4)),
        by_set("by set, 4 sets of 2, rows of 20", few().rows(20)),
        by_set("by set, 4 sets of 2, rows of 160", few().rows(160)),
        by_set("by set, 4 sets of 2", few()),
        by_set(
            "by set, 4 sets of 2, keys descending",
            few().attributes_reversed(),
        ),
        by_set("by set, 62 sets of 2", Input::of(last(62, 2))),
        by_set("by set, 62 of a grid 8 by 8", Input::of(grid())),
        by_set("by set, 62 sets of unlike keys", Input::of(unlike())),
        by_set("by set, 62 sets of 8, rows of 4", many().rows(4)),
        by_set("by set, 62 sets of 8, rows of 20", many().rows(20)),
        by_set("by set, 62 sets of 8, rows of 160", many().rows(160)),
        by_set("by set, 62 sets of 8", many()),
        by_set(
            "by set, 62 sets of 8 that differ first",
            Input::of(first(62, 8)),
        ),
        by_set(
            "by set, 62 sets of 8, keys descending",
            many().attributes_reversed(),
        ),
        by_set(
            "by set, 62 sets of 8, sets descending",
            many().sets_reversed(),
        ),
        by_handle("by handle, 4 sets of 2, rows of 20", few().rows(20)),
        by_handle("by handle, 4 sets of 2, rows of 160", few().rows(160)),
        by_handle("by handle, 4 sets of 2", few()),
        by_handle("by handle, 62 sets of 8", many()),
        whole_by_set("i64, by set, 4 sets of 2, rows of 20", few().rows(20)),
        whole_by_set("i64, by set, 4 sets of 2, rows of 160", few().rows(160)),
        whole_by_set("i64, by set, 4 sets of 2", few()),
        whole_by_set("i64, by set, 62 sets of 8, rows of 20", many().rows(20)),
        whole_by_set("i64, by set, 62 sets of 8", many()),
        whole_by_handle("i64, by handle, 4 sets of 2, rows of 20", few().rows(20)),
        whole_by_handle("i64, by handle, 4 sets of 2, rows of 160", few().rows(160)),
        whole_by_handle("i64, by handle, 4 sets of 2", few()),
        whole_by_handle("i64, by handle, 62 sets of 8", many()),
        explicit("explicit, by set, 4 sets of 2", few()),
        explicit("explicit, by set, 62 sets of 8", many()),
        sum("sum, by set, 4 sets of 2", few()),
        sum_by_handle("sum, by handle, 4 sets of 2", few()),
        agreed_by_set("agreed, by set, 4 sets of 2, rows of 20", few().rows(20)),
        agreed_by_set("agreed, by set, 4 sets of 2", few()),
        agreed_by_set("agreed, by set, 62 sets of 8", many()),
        agreed_by_handle("agreed, by handle, 4 sets of 2, rows of 20", few().rows(20)),
        agreed_by_handle("agreed, by handle, 4 sets of 2", few()),
        agreed_by_handle("agreed, by handle, 62 sets of 8", many()),
        batch_by_set("batch of 64, by set, 62 sets of 8", many().batches(64)),
        batch_by_set("batch of 1024, by set, 62 sets of 8", many().batches(1024)),
        batch_by_handle("batch of 64, by handle, 4 sets of 2", few().batches(64)),
        batch_by_handle("batch of 64, by handle, 62 sets of 8", many().batches(64)),
        batch_by_handle("batch of 1024, by handle, 4 sets of 2", few().batches(1024)),
        batch_by_handle("batch of 1024, by handle, 62 sets of 8", many().batches(1024)),
        batch_agreed("agreed batch of 64, by handle, 62 sets of 8", many().batches(64)),
        batch_agreed("agreed batch of 1024, by handle, 62 sets of 8", many().batches(1024)),
        whole_agreed("i64, agreed, by handle, 62 sets of 8", many()),
        whole_batch("i64, batch of 1024, by handle, 62 sets of 8", many().batches(1024)),
    ]);
    let full = || Input::of(last(62, 2)).rows(160);
    cases.extend([
        delta("delta collection, 4 sets, rows of 20", few().rows(20)),
        delta("delta collection, 62 full series", full()),
        delta_cold("delta collection, 62 full series, cold", full()),
        cumulative("cumulative collection, 4 sets, rows of 20", few().rows(20)),
        cumulative("cumulative collection, 62 full series", full()),
        rescale("rescaling, 1 level", 1),
        rescale("rescaling, 2 levels", 2),
        rescale("rescaling, 5 levels", 5),
        rescale("rescaling, 20 levels", 20),
        plain("rescaling, 1 level, plain form", 1),
        plain("rescaling, 2 levels, plain form", 2),
        plain("rescaling, 5 levels, plain form", 5),
        plain("rescaling, 20 levels, plain form", 20),
        sheet("sheet, exponential points, written", false, sheets::write),
        sheet("sheet, exponential points, read", false, sheets::read),
        sheet("sheet, explicit points, written", true, sheets::write),
        sheet("sheet, explicit points, read", true, sheets::read),
    ]);
    cases
}

/// Cases of more sets than document 01's limit allows, over the libraries of a copy in which it was raised.
fn raised() -> Vec<Case> {
    let three = || Input::of(triples(2000));
    let eight = || Input::of(last(2000, 8));
    vec![
        by_set("by set, 2000 sets of 3", three()),
        by_handle("by handle, 2000 sets of 3", three()),
        agreed_by_set("agreed, by set, 2000 sets of 3, rows of 20", three().rows(20)),
        agreed_by_set("agreed, by set, 2000 sets of 3", three()),
        agreed_by_set("agreed, by set, 2000 sets of 8", eight()),
        agreed_by_handle("agreed, by handle, 2000 sets of 3, rows of 20", three().rows(20)),
        agreed_by_handle("agreed, by handle, 2000 sets of 3", three()),
        agreed_by_handle("agreed, by handle, 2000 sets of 8", eight()),
        batch_by_handle("batch of 1024, by handle, 2000 sets of 3", three().batches(1024)),
        batch_agreed("agreed batch of 64, by handle, 2000 sets of 3", three().batches(64)),
        batch_agreed("agreed batch of 1024, by handle, 2000 sets of 3", three().batches(1024)),
    ]
}

fn rescale(name: &'static str, levels: u32) -> Case {
    Case {
        name,
        operations: ROWS,
        rust: Some(Box::new(move || rust::downscale(levels))),
        ours: Box::new(move || lowering::walk(levels)),
    }
}

/// Ours by halving, which the Rust does not do.
fn plain(name: &'static str, levels: u32) -> Case {
    Case {
        name,
        operations: ROWS,
        rust: None,
        ours: Box::new(move || lowering::halves(levels)),
    }
}

/// A byte is an operation. The Rust has no sheets.
fn sheet(name: &'static str, explicit: bool, side: fn(bool) -> Side) -> Case {
    Case {
        name,
        operations: if explicit { sheets::EXPLICIT_BYTES } else { sheets::EXPONENTIAL_BYTES },
        rust: None,
        ours: Box::new(move || side(explicit)),
    }
}

fn index(name: &'static str, scale: i8) -> Case {
    Case {
        name,
        operations: VALUES,
        rust: Some(Box::new(move || rust::index(scale))),
        ours: Box::new(move || ours::index(scale)),
    }
}

fn series(name: &'static str, width: u32) -> Case {
    Case {
        name,
        operations: VALUES,
        rust: None,
        ours: Box::new(move || ours::series(&Input::of(last(1, 1)).rows(width))),
    }
}

fn by_set(name: &'static str, input: Input) -> Case {
    both(name, VALUES, input, rust::by_set, ours::by_set)
}

fn by_handle(name: &'static str, input: Input) -> Case {
    both(name, VALUES, input, rust::by_handle, ours::by_handle)
}

fn whole_by_set(name: &'static str, input: Input) -> Case {
    both(name, VALUES, input, rust::whole_by_set, ours::whole_by_set)
}

fn whole_by_handle(name: &'static str, input: Input) -> Case {
    both(
        name,
        VALUES,
        input,
        rust::whole_by_handle,
        ours::whole_by_handle,
    )
}

/// Ours in a map that agrees, which asks nothing again; the Rust's calls are the same as without.
fn agreed_by_set(name: &'static str, input: Input) -> Case {
    both(name, VALUES, input, rust::by_set, ours::agreed_by_set)
}

fn agreed_by_handle(name: &'static str, input: Input) -> Case {
    both(name, VALUES, input, rust::by_handle, ours::agreed_by_handle)
}

/// Ours many values a call; the Rust, which has no such call, one by one. An operation is a value.
fn batch_by_set(name: &'static str, input: Input) -> Case {
    both(name, VALUES, input, rust::by_set, ours::batch_by_set)
}

fn batch_by_handle(name: &'static str, input: Input) -> Case {
    both(name, VALUES, input, rust::by_handle, ours::batch_by_handle)
}

fn batch_agreed(name: &'static str, input: Input) -> Case {
    both(name, VALUES, input, rust::by_handle, ours::batch_agreed)
}

fn whole_agreed(name: &'static str, input: Input) -> Case {
    both(name, VALUES, input, rust::whole_by_handle, ours::whole_agreed_by_handle)
}

fn whole_batch(name: &'static str, input: Input) -> Case {
    both(name, VALUES, input, rust::whole_by_handle, ours::whole_batch_by_handle)
}

fn explicit(name: &'static str, input: Input) -> Case {
    both(name, VALUES, input, rust::explicit, ours::explicit)
}

fn sum(name: &'static str, input: Input) -> Case {
    both(name, VALUES, input, rust::sum, ours::sum)
}

fn sum_by_handle(name: &'static str, input: Input) -> Case {
    both(
        name,
        VALUES,
        input,
        rust::sum_by_handle,
        ours::sum_by_handle,
    )
}

fn delta(name: &'static str, input: Input) -> Case {
    both(
        name,
        1,
        input,
        |i| rust::delta(i, true),
        |i| ours::delta(i, true),
    )
}

fn delta_cold(name: &'static str, input: Input) -> Case {
    both(
        name,
        1,
        input,
        |i| rust::delta(i, false),
        |i| ours::delta(i, false),
    )
}

fn cumulative(name: &'static str, input: Input) -> Case {
    both(name, COLLECTIONS, input, rust::cumulative, ours::cumulative)
}

fn both(
    name: &'static str,
    operations: usize,
    input: Input,
    rust: fn(Input) -> Side,
    ours: fn(Input) -> Side,
) -> Case {
    let same = input.clone();
    Case {
        name,
        operations,
        rust: Some(Box::new(move || rust(input.clone()))),
        ours: Box::new(move || ours(same.clone())),
    }
}
