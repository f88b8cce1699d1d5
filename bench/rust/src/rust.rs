//! The Rust's half.

use std::cell::RefCell;
use std::hint::black_box;
use std::rc::Rc;

use opentelemetry::KeyValue;
use opentelemetry_sdk::door::{Aggregate, Bins, Kind, Measurement, Row, Settings};
use opentelemetry_sdk::metrics::Temporality;

use crate::cases::{Side, COLLECTIONS};
use crate::inputs::{self, Input};

pub fn index(scale: i8) -> Side {
    let bins = Bins::new(scale);
    let magnitudes = inputs::magnitudes();
    Side::of(move || {
        for v in &magnitudes {
            black_box(bins.get_bin(black_box(*v)));
        }
    })
}

fn full_row() -> Row {
    Row::new(inputs::FIRST_INDEX, &inputs::full_row())
}

/// A full row so many levels lower.
pub fn lowered(levels: u32) -> Row {
    let mut row = full_row();
    row.downscale(levels);
    row
}

pub fn downscale(levels: u32) -> Side {
    let rows = Rc::new(RefCell::new(vec![]));
    let fresh = rows.clone();
    Side {
        prepare: Box::new(move || {
            *fresh.borrow_mut() = (0..inputs::ROWS).map(|_| full_row()).collect();
        }),
        run: Box::new(move || {
            for row in rows.borrow_mut().iter_mut() {
                black_box(&mut *row).downscale(black_box(levels));
            }
        }),
    }
}

pub fn by_set(input: Input) -> Side {
    let aggregate = exponential(Temporality::Delta);
    by_sets(aggregate, &input, &input.first, input.values.clone())
}

pub fn by_handle(input: Input) -> Side {
    let aggregate = exponential(Temporality::Delta);
    by_handles(aggregate, &input, &input.first, input.values.clone())
}

pub fn whole_by_set(input: Input) -> Side {
    let [first, values] = [&input.first, &input.values].map(|list| inputs::wholes(list));
    by_sets(exponential(Temporality::Delta), &input, &first, values)
}

pub fn whole_by_handle(input: Input) -> Side {
    let [first, values] = [&input.first, &input.values].map(|list| inputs::wholes(list));
    by_handles(exponential(Temporality::Delta), &input, &first, values)
}

pub fn explicit(input: Input) -> Side {
    let bounds = inputs::BOUNDS.to_vec();
    let aggregate = aggregate(Kind::Explicit { bounds }, Temporality::Delta);
    by_sets(aggregate, &input, &[], input.values.clone())
}

pub fn sum(input: Input) -> Side {
    let aggregate = aggregate(Kind::Sum, Temporality::Delta);
    by_sets(aggregate, &input, &input.first, input.values.clone())
}

pub fn sum_by_handle(input: Input) -> Side {
    let aggregate = aggregate(Kind::Sum, Temporality::Delta);
    by_handles(aggregate, &input, &input.first, input.values.clone())
}

/// What comes first under every set, and then every value by its set.
fn by_sets<T: Measurement>(aggregate: Aggregate<T>, input: &Input, first: &[T], values: Vec<T>) -> Side {
    let sets = key_values(input);
    fill(&aggregate, &sets, first);
    let order = input.order.clone();
    Side::of(move || {
        for (v, set) in values.iter().zip(&order) {
            aggregate.record(black_box(*v), black_box(&sets[*set]));
        }
    })
}

/// The same by its set's handle.
fn by_handles<T: Measurement>(aggregate: Aggregate<T>, input: &Input, first: &[T], values: Vec<T>) -> Side {
    let sets = key_values(input);
    fill(&aggregate, &sets, first);
    let bindings: Vec<_> = sets.iter().map(|set| aggregate.bind(set)).collect();
    let order = input.order.clone();
    Side::of(move || {
        for (v, set) in values.iter().zip(&order) {
            bindings[*set].record(black_box(*v));
        }
    })
}

/// The memory of the last collection is used again; warm: there was one just before.
pub fn delta(input: Input, warm: bool) -> Side {
    let aggregate = Rc::new(exponential::<f64>(Temporality::Delta));
    let sets = key_values(&input);
    let points = sets.len();
    let collected = Rc::new(RefCell::new(aggregate.collect()));
    let (collecting, last) = (aggregate.clone(), collected.clone());
    Side {
        prepare: Box::new(move || {
            if warm {
                fill(&aggregate, &sets, &input.first);
                aggregate.collect_into(&mut last.borrow_mut());
            }
            fill(&aggregate, &sets, &input.first);
        }),
        run: Box::new(move || {
            let made = collecting.collect_into(&mut collected.borrow_mut());
            assert_eq!(black_box(made), points);
        }),
    }
}

pub fn cumulative(input: Input) -> Side {
    let aggregate = exponential::<f64>(Temporality::Cumulative);
    let sets = key_values(&input);
    fill(&aggregate, &sets, &input.first);
    let mut collected = aggregate.collect();
    Side::of(move || {
        for _ in 0..COLLECTIONS {
            assert_eq!(
                black_box(aggregate.collect_into(&mut collected)),
                sets.len()
            );
        }
    })
}

fn fill<T: Measurement>(aggregate: &Aggregate<T>, sets: &[Vec<KeyValue>], first: &[T]) {
    for set in sets {
        for v in first {
            aggregate.record(*v, set);
        }
    }
}

fn exponential<T: Measurement>(temporality: Temporality) -> Aggregate<T> {
    let kind = Kind::Exponential {
        max_size: inputs::MAX_SIZE,
        max_scale: inputs::MAX_SCALE,
    };
    aggregate(kind, temporality)
}

fn aggregate<T: Measurement>(kind: Kind, temporality: Temporality) -> Aggregate<T> {
    Aggregate::new(Settings {
        kind,
        temporality,
        filter: None,
        limit: inputs::LIMIT,
        min_max: true,
        sum: true,
    })
}

/// Keys are static texts of ten digits, as document 01 writes them.
fn key_values(input: &Input) -> Vec<Vec<KeyValue>> {
    let pair = |(key, value): &(u32, u32)| KeyValue::new(text(*key), i64::from(*value));
    let set = |set: &inputs::Set| set.iter().map(pair).collect();
    input.sets.iter().map(set).collect()
}

fn text(key: u32) -> &'static str {
    Box::leak(format!("{key:010}").into_boxed_str())
}
