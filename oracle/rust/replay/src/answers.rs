//! Prints a collection: points ascending by set, attributes ascending by key, as docs/REPLAY.md says.

use std::io::{self, Write};
use std::time::{SystemTime, UNIX_EPOCH};

use opentelemetry::{KeyValue, Value};
use opentelemetry_sdk::metrics::data::{
    AggregatedMetrics, ExponentialBucket, ExponentialHistogramDataPoint, HistogramDataPoint,
    MetricData,
};

use crate::read;
use crate::session::Written;

/// A set as numbers, sorted: the order of points.
type Set = Vec<(u32, u32)>;

pub fn collection(metrics: &AggregatedMetrics, out: &mut impl Write) -> io::Result<()> {
    match metrics {
        AggregatedMetrics::F64(data) => typed(data, out),
        AggregatedMetrics::I64(data) => typed(data, out),
        AggregatedMetrics::U64(_) => panic!("no script asks for u64"),
    }
}

fn typed<T: Written>(data: &MetricData<T>, out: &mut impl Write) -> io::Result<()> {
    let mut points: Vec<(Set, String)> = match data {
        MetricData::ExponentialHistogram(h) => h.data_points().map(exponential).collect(),
        MetricData::Histogram(h) => h.data_points().map(explicit).collect(),
        MetricData::Sum(s) => s
            .data_points()
            .map(|p| single(set(p.attributes()), p.value()))
            .collect(),
        MetricData::Gauge(g) => g
            .data_points()
            .map(|p| single(set(p.attributes()), p.value()))
            .collect(),
    };
    let (start, time) = match data {
        MetricData::ExponentialHistogram(h) => (h.start_time(), h.time()),
        MetricData::Histogram(h) => (h.start_time(), h.time()),
        MetricData::Sum(s) => (s.start_time(), s.time()),
        MetricData::Gauge(g) => (g.start_time().expect("always set"), g.time()),
    };
    points.sort();
    writeln!(out, "c {} {} {}", nanos(start), nanos(time), points.len())?;
    for (_, text) in points {
        writeln!(out, "{text}")?;
    }
    Ok(())
}

fn exponential<T: Written>(p: &ExponentialHistogramDataPoint<T>) -> (Set, String) {
    let set = set(p.attributes());
    assert!(p.zero_threshold() == 0.0);
    let text = format!(
        "p {} {} {} {} {} {} {} {} {}",
        set_text(&set),
        p.count(),
        p.zero_count(),
        p.scale(),
        extreme(p.min()),
        extreme(p.max()),
        p.sum().text(),
        row(p.positive_bucket()),
        row(p.negative_bucket()),
    );
    (set, text)
}

fn explicit<T: Written>(p: &HistogramDataPoint<T>) -> (Set, String) {
    let set = set(p.attributes());
    let text = format!(
        "q {} {} {} {} {} {} {}",
        set_text(&set),
        p.count(),
        extreme(p.min()),
        extreme(p.max()),
        p.sum().text(),
        joined(p.bucket_counts().map(|c| c.to_string()), "-"),
        joined(p.bounds().map(Written::text), "-"),
    );
    (set, text)
}

fn single<T: Written>(set: Set, value: T) -> (Set, String) {
    let text = format!("v {} {}", set_text(&set), value.text());
    (set, text)
}

/// A set given with one key twice is handed out either as it was given or without the repetition, by chance (whichever of the two
/// the hash map shows first). So of equal keys the first is printed.
fn set<'a>(attributes: impl Iterator<Item = &'a KeyValue>) -> Set {
    let mut set: Set = attributes.map(pair).collect();
    set.sort_by_key(|(key, _)| *key);
    set.dedup_by_key(|(key, _)| *key);
    set
}

fn pair(attribute: &KeyValue) -> (u32, u32) {
    let value = match attribute.value {
        Value::Bool(b) => u32::from(b),
        Value::I64(i) => u32::try_from(i).expect("a value of the script"),
    };
    (read::key_number(attribute.key.as_str()), value)
}

fn set_text(set: &Set) -> String {
    joined(set.iter().map(|(k, v)| format!("{k}:{v}")), "-")
}

fn row(bucket: &ExponentialBucket) -> String {
    let counts = bucket.counts().map(|c| c.to_string());
    format!("{}:{}", bucket.offset(), joined(counts, ""))
}

fn extreme<T: Written>(held: Option<T>) -> String {
    held.map_or("-".to_string(), Written::text)
}

/// Joined by commas; `none` if there is nothing.
fn joined(items: impl Iterator<Item = String>, none: &str) -> String {
    let items: Vec<String> = items.collect();
    if items.is_empty() {
        none.to_string()
    } else {
        items.join(",")
    }
}

fn nanos(time: SystemTime) -> u128 {
    time.duration_since(UNIX_EPOCH)
        .expect("after the epoch")
        .as_nanos()
}
