//! Our half: the static libraries that `rt staticlib` writes, called as C functions.

use std::cell::RefCell;
use std::hint::black_box;
use std::rc::Rc;

use crate::cases::{Side, COLLECTIONS};
use crate::directory::{lent, shown, Directory, Lent};
use crate::explicit_map;
use crate::exponential_map::{Map, Output};
use crate::inputs::{self, Input};
use crate::sum_map;

extern "C" {
    /// Crate index: the bin of a value at a level; see its contract.
    fn index_bin(v: f64, level: u32) -> u32;

    /// Crate exports: how many values a fresh series over these rows has counted after all of them.
    fn record_all(size: u32, top: u32, pos: Lent<u64>, neg: Lent<u64>, values: Lent<f64>) -> u64;
}

/// The level of a scale: 0 for scale -10.
fn level_of(scale: i8) -> u32 {
    (scale + 10) as u32
}

/// The signed index: the bin without its bias.
pub fn index_at(scale: i8) -> impl Fn(f64) -> i64 {
    let level = level_of(scale);
    move |v| i64::from(unsafe { index_bin(v, level) }) - (2 << level)
}

pub fn index(scale: i8) -> Side {
    let level = level_of(scale);
    let magnitudes = inputs::magnitudes();
    Side::of(move || {
        for v in &magnitudes {
            black_box(unsafe { index_bin(black_box(*v), level) });
        }
    })
}

pub fn series(input: &Input) -> Side {
    let values = input.values.clone();
    let mut rows = [[0; inputs::MAX_SIZE as usize]; 2];
    let level = level_of(inputs::MAX_SCALE);
    Side::of(move || {
        let [pos, neg] = &mut rows;
        let count = unsafe {
            record_all(
                inputs::MAX_SIZE,
                level,
                lent(pos),
                lent(neg),
                shown(&values),
            )
        };
        assert_eq!(count, values.len() as u64);
    })
}

/// Sets as our calls take them.
fn pairs(input: &Input) -> Vec<Vec<[u32; 2]>> {
    let set = |set: &inputs::Set| set.iter().map(|(key, value)| [*key, *value]).collect();
    input.sets.iter().map(set).collect()
}

/// A map with what comes first under every set, so that set i is in slot i + 1.
fn filled(input: &Input) -> Map<f64> {
    let mut map = Map::<f64>::new();
    // with thousands of sets, by the call that does not look at them all
    let record = if cfg!(raised) { Map::<f64>::record_agreed } else { Map::<f64>::record };
    fill(&pairs(input), &input.first, |v, set| record(&mut map, v, set));
    map
}

/// The same over i64.
fn filled_wholes(input: &Input) -> Map<i64> {
    let mut map = Map::<i64>::new();
    let first = inputs::wholes(&input.first);
    fill(&pairs(input), &first, |v, set| map.record(v, set));
    map
}

/// The same of sums.
fn sums(input: &Input) -> sum_map::Map {
    let mut map = sum_map::Map::new();
    fill(&pairs(input), &input.first, |v, set| map.record(v, set));
    map
}

fn fill<V: Copy>(sets: &[Vec<[u32; 2]>], first: &[V], mut record: impl FnMut(V, &[[u32; 2]])) {
    for set in sets {
        for v in first {
            record(*v, set);
        }
    }
}

/// Every value by its set.
fn by_sets<V: Copy + 'static>(
    input: &Input,
    values: Vec<V>,
    mut record: impl FnMut(V, &[[u32; 2]]) + 'static,
) -> Side {
    let sets = pairs(input);
    let order = input.order.clone();
    Side::of(move || {
        for (v, set) in values.iter().zip(&order) {
            record(black_box(*v), black_box(&sets[*set]));
        }
    })
}

/// Every value by its set's handle.
fn by_handles<V: Copy + 'static>(
    input: &Input,
    values: Vec<V>,
    handles: Vec<u64>,
    mut record: impl FnMut(V, u64) + 'static,
) -> Side {
    let order = input.order.clone();
    Side::of(move || {
        for (v, set) in values.iter().zip(&order) {
            record(black_box(*v), black_box(handles[*set]));
        }
    })
}

/// The handles of a filled map's sets.
fn bound(directory: &mut Directory, input: &Input) -> Vec<u64> {
    (1..=input.sets.len()).map(|x| directory.bind(x)).collect()
}

pub fn by_set(input: Input) -> Side {
    let mut map = filled(&input);
    by_sets(&input, input.values.clone(), move |v, set| map.record(v, set))
}

pub fn by_handle(input: Input) -> Side {
    let mut map = filled(&input);
    let handles = bound(&mut map.directory, &input);
    by_handles(&input, input.values.clone(), handles, move |v, h| map.record_by(v, h))
}

pub fn agreed_by_set(input: Input) -> Side {
    let mut map = filled(&input);
    by_sets(&input, input.values.clone(), move |v, set| map.record_agreed(v, set))
}

pub fn agreed_by_handle(input: Input) -> Side {
    let mut map = filled(&input);
    let handles = bound(&mut map.directory, &input);
    by_handles(&input, input.values.clone(), handles, move |v, h| map.record_by_agreed(v, h))
}

/// Every batch by its set.
pub fn batch_by_set(input: Input) -> Side {
    let mut map = filled(&input);
    let sets = pairs(&input);
    batches(&input, input.values.clone(), move |values, x| map.record_all(values, &sets[x]))
}

/// Every batch by its set's handle.
pub fn batch_by_handle(input: Input) -> Side {
    let mut map = filled(&input);
    let handles = bound(&mut map.directory, &input);
    batches(&input, input.values.clone(), move |values, x| map.record_all_by(values, handles[x]))
}

pub fn batch_agreed(input: Input) -> Side {
    let mut map = filled(&input);
    let handles = bound(&mut map.directory, &input);
    batches(&input, input.values.clone(), move |values, x| map.record_all_by_agreed(values, handles[x]))
}

pub fn whole_agreed_by_handle(input: Input) -> Side {
    let mut map = filled_wholes(&input);
    let handles = bound(&mut map.directory, &input);
    by_handles(&input, inputs::wholes(&input.values), handles, move |v, h| map.record_by_agreed(v, h))
}

pub fn whole_batch_by_handle(input: Input) -> Side {
    let mut map = filled_wholes(&input);
    let handles = bound(&mut map.directory, &input);
    batches(&input, inputs::wholes(&input.values), move |values, x| map.record_all_by(values, handles[x]))
}

/// Every batch by its place among the sets.
fn batches<V: 'static>(input: &Input, values: Vec<V>, mut record: impl FnMut(&[V], usize) + 'static) -> Side {
    let (order, many) = (input.order.clone(), input.batch);
    Side::of(move || {
        for (values, sets) in values.chunks(many).zip(order.chunks(many)) {
            record(black_box(values), black_box(sets[0]));
        }
    })
}

pub fn whole_by_set(input: Input) -> Side {
    let mut map = filled_wholes(&input);
    by_sets(&input, inputs::wholes(&input.values), move |v, set| map.record(v, set))
}

pub fn whole_by_handle(input: Input) -> Side {
    let mut map = filled_wholes(&input);
    let handles = bound(&mut map.directory, &input);
    by_handles(&input, inputs::wholes(&input.values), handles, move |v, h| map.record_by(v, h))
}

pub fn explicit(input: Input) -> Side {
    let mut map = explicit_map::Map::new();
    by_sets(&input, input.values.clone(), move |v, set| map.record(v, set))
}

pub fn sum(input: Input) -> Side {
    let mut map = sums(&input);
    by_sets(&input, input.values.clone(), move |v, set| map.record(v, set))
}

pub fn sum_by_handle(input: Input) -> Side {
    let mut map = sums(&input);
    let handles = bound(&mut map.directory, &input);
    by_handles(&input, input.values.clone(), handles, move |v, h| map.record_by(v, h))
}

/// The memory of the last collection is used again; warm: there was one just before.
pub fn delta(input: Input, warm: bool) -> Side {
    let sets = pairs(&input);
    let points = sets.len() as u64;
    let lent = Rc::new(RefCell::new((Map::<f64>::new(), Output::new())));
    let collecting = lent.clone();
    Side {
        prepare: Box::new(move || {
            let (map, out) = &mut *lent.borrow_mut();
            if warm {
                fill(&sets, &input.first, |v, set| map.record(v, set));
                map.delta(out);
            }
            fill(&sets, &input.first, |v, set| map.record(v, set));
        }),
        run: Box::new(move || {
            let (map, out) = &mut *collecting.borrow_mut();
            assert_eq!(black_box(map.delta(out)), points);
            black_box((&out.pos, &out.neg));
        }),
    }
}

pub fn cumulative(input: Input) -> Side {
    let map = filled(&input);
    let points = input.sets.len() as u64;
    let mut out = Output::new();
    Side::of(move || {
        for _ in 0..COLLECTIONS {
            assert_eq!(black_box(map.cumulative(&mut out)), points);
            black_box((&out.pos, &out.neg));
        }
    })
}
