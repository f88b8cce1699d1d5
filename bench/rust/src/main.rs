//! The Rust and ours on the same inputs, in one run.
//!
//!     bench time ROUNDS [TEXT]   of each case (whose name has TEXT): name, operations of a round, then the Rust's and our least and middle
//!                                time, in nanoseconds an operation, by tabs
//!     bench count NUMBER SIDE    one side (rust, ours) of a case, its third round for counting instructions in `bench_measured`
//!     bench sweep                our index against the exact one beside all bounds, see crate beside
//!
//! A side that is not there is `-`.

mod cases;
mod directory;
mod explicit_map;
mod exponential_map;
mod inputs;
mod lowering;
mod ours;
mod owned;
mod rust;
mod sheets;
mod sum_map;
mod whole_map;

use std::time::Instant;

use cases::Side;

fn main() {
    let words: Vec<String> = std::env::args().skip(1).collect();
    let words: Vec<&str> = words.iter().map(String::as_str).collect();
    match words[..] {
        ["time", rounds] => time_all(rounds.parse().expect("a number"), ""),
        ["time", rounds, text] => time_all(rounds.parse().expect("a number"), text),
        ["count", number, side] => count(number.parse().expect("a number"), side),
        ["sweep"] => beside::sweep(ours::index_at).expect("a place to write to"),
        _ => panic!("usage: bench time ROUNDS [TEXT] | count NUMBER SIDE | sweep"),
    }
}

/// The measured part, under a name that a counter of instructions can find.
#[no_mangle]
#[inline(never)]
pub extern "C" fn bench_measured(side: &mut Side) {
    (side.run)();
}

/// Each round goes through all cases and both sides, so that a busy moment of the machine meets all and a quiet one too.
fn time_all(rounds: usize, text: &str) {
    let mut cases = cases::all();
    cases.retain(|case| case.name.contains(text));
    let mut sides: Vec<_> = cases
        .iter()
        .map(|case| [case.rust.as_ref().map(|make| make()), Some((case.ours)())])
        .collect();
    let mut times = vec![[vec![], vec![]]; cases.len()];
    for _ in 0..rounds {
        for ((case, sides), times) in cases.iter().zip(&mut sides).zip(&mut times) {
            for (side, times) in sides.iter_mut().zip(times) {
                if let Some(side) = side {
                    times.push(nanoseconds(side) / case.operations as f64);
                }
            }
        }
    }
    for (case, [rust, ours]) in cases.iter().zip(times) {
        println!(
            "{}\t{}\t{}\t{}",
            case.name,
            case.operations,
            shown(rust),
            shown(ours)
        );
    }
}

fn nanoseconds(side: &mut Side) -> f64 {
    (side.prepare)();
    let began = Instant::now();
    bench_measured(side);
    began.elapsed().as_nanos() as f64
}

/// The least and the middle one.
fn shown(mut times: Vec<f64>) -> String {
    times.sort_by(f64::total_cmp);
    match times[..] {
        [] => "-\t-".to_string(),
        [least, ..] => format!("{least:.2}\t{:.2}", times[times.len() / 2]),
    }
}

fn count(number: usize, side: &str) {
    let case = &cases::all()[number];
    let mut side = match side {
        "rust" => case.rust.as_ref().expect("this side is there")(),
        _ => (case.ours)(),
    };
    for _ in 0..2 {
        (side.prepare)();
        (side.run)();
    }
    (side.prepare)();
    bench_measured(&mut side);
}
