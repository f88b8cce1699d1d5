//! A bucket index against the exact one over the neighbours of all bounds, in every octave of f64 at every scale from -10 to 10.
//!
//! The bounds come from the reference (bits.py), one a line in decimal; the index here is that of bits.py again, for speed.
//! Prints `SCALE FRACTION DIFFERENCE OCTAVES` for each fraction that differs, and last how many values were compared.

use std::collections::BTreeMap;
use std::io::{self, BufRead, Write};
use std::ops::RangeInclusive;

const NEIGHBOURS: RangeInclusive<i64> = -4..=5;
const FRACTION: u64 = (1 << 52) - 1;

/// (scale, fraction of the normalised mantissa, the index minus the exact one) to how many octaves.
type Differences = BTreeMap<(i8, u64, i64), u32>;

/// `at` gives the index to judge, at a scale. Bounds are read from standard input.
pub fn sweep<F: Fn(f64) -> i64>(at: impl Fn(i8) -> F) -> io::Result<()> {
    let bounds: Vec<u64> = io::stdin()
        .lock()
        .lines()
        .map(|line| line.expect("a line").parse().expect("a bound"))
        .collect();
    let mut differences = Differences::new();
    let mut compared: u64 = 0;
    for scale in -10..=10 {
        let index = at(scale);
        for bits in octaves().flat_map(|octave| bounds.iter().flat_map(move |b| beside(octave, *b)))
        {
            compared += 1;
            let (exact, fraction) = exact_index(&bounds, bits);
            let difference = index(f64::from_bits(bits)) - (exact >> (10 - scale));
            if difference != 0 {
                *differences
                    .entry((scale, fraction, difference))
                    .or_default() += 1;
            }
        }
        eprintln!("scale {scale}: {compared} values compared so far");
    }
    let mut out = io::stdout().lock();
    for ((scale, fraction, difference), octaves) in differences {
        writeln!(out, "{scale} {fraction:013X} {difference} {octaves}")?;
    }
    writeln!(out, "{compared}")
}

/// Normal octaves by their exponent field, subnormal ones as minus their bit length.
fn octaves() -> impl Iterator<Item = i64> {
    (-52..=-1).chain(1..=2046)
}

/// Bits of the values next to a bound in an octave.
fn beside(octave: i64, bound: u64) -> impl Iterator<Item = u64> {
    let place = if octave > 0 {
        ((octave as u64) << 52) + (bound & FRACTION)
    } else {
        bound >> (53 + octave)
    };
    NEIGHBOURS
        .map(move |d| place as i64 + d)
        .filter(|bits| (1..0x7FF0_0000_0000_0000).contains(bits))
        .map(|bits| bits as u64)
}

/// The index at scale 10, and the fraction of the mantissa brought up to a leading bit.
fn exact_index(bounds: &[u64], bits: u64) -> (i64, u64) {
    let field = bits >> 52;
    let (mantissa, exponent) = if field == 0 {
        let lift = bits.leading_zeros() - 11;
        (bits << lift, -1022 - i64::from(lift))
    } else {
        ((bits & FRACTION) | (1 << 52), field as i64 - 1023)
    };
    let rank = bounds.partition_point(|bound| *bound < mantissa) as i64;
    ((exponent << 10) + rank - 1, mantissa & FRACTION)
}
