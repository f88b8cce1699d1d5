//! Prints a collection: `c START TIME POINTS`, then a line for each point, ascending by set.

use std::io::{self, Write};

use opentelemetry::{KeyValue, Value};
use opentelemetry_sdk::metrics::data::{
    AggregatedMetrics, ExponentialBucket, ExponentialHistogramDataPoint, MetricData,
};

use crate::read::key_number;

/// A set as numbers, sorted: the order of points.
type Set = Vec<(u32, u32)>;

pub fn collection(
    start: u64,
    time: u64,
    metrics: &AggregatedMetrics,
    out: &mut impl Write,
) -> io::Result<()> {
    let AggregatedMetrics::F64(MetricData::ExponentialHistogram(histogram)) = metrics else {
        unreachable!("an exponential histogram of f64 was asked for");
    };
    let mut points: Vec<_> = histogram
        .data_points()
        .map(|p| (set(p.attributes()), p))
        .collect();
    points.sort_by(|(a, _), (b, _)| a.cmp(b));
    writeln!(out, "c {start} {time} {}", points.len())?;
    points.iter().try_for_each(|(set, p)| point(set, p, out))
}

fn point(
    set: &Set,
    p: &ExponentialHistogramDataPoint<f64>,
    out: &mut impl Write,
) -> io::Result<()> {
    write!(out, "p ")?;
    write_set(set, out)?;
    write!(
        out,
        " {} {} {} {:016X} {:016X} {:016X} ",
        p.count(),
        p.zero_count(),
        p.scale(),
        p.min().expect("it is kept").to_bits(),
        p.max().expect("it is kept").to_bits(),
        sum_bits(p.sum()),
    )?;
    row(p.positive_bucket(), out)?;
    write!(out, " ")?;
    row(p.negative_bucket(), out)?;
    writeln!(out)
}

/// Of equal keys the first given stays.
fn set<'a>(attributes: impl Iterator<Item = &'a KeyValue>) -> Set {
    let mut set: Set = attributes.map(pair).collect();
    set.sort_by_key(|(key, _)| *key);
    set.dedup_by_key(|(key, _)| *key);
    set
}

fn pair(attribute: &KeyValue) -> (u32, u32) {
    let value = match attribute.value {
        Value::Bool(b) => u32::from(b),
        Value::I64(i) => u32::try_from(i).expect("a value of a line"),
    };
    (key_number(attribute.key.as_str()), value)
}

fn write_set(set: &Set, out: &mut impl Write) -> io::Result<()> {
    if set.is_empty() {
        return write!(out, "-");
    }
    for (i, (key, value)) in set.iter().enumerate() {
        let comma = if i == 0 { "" } else { "," };
        write!(out, "{comma}{key}:{value}")?;
    }
    Ok(())
}

fn row(bucket: &ExponentialBucket, out: &mut impl Write) -> io::Result<()> {
    write!(out, "{}:", bucket.offset())?;
    for (i, count) in bucket.counts().enumerate() {
        let comma = if i == 0 { "" } else { "," };
        write!(out, "{comma}{count}")?;
    }
    Ok(())
}

/// Every NaN is printed as document 01 hands it out.
fn sum_bits(sum: f64) -> u64 {
    if sum.is_nan() {
        0x7FF8_0000_0000_0000
    } else {
        sum.to_bits()
    }
}
