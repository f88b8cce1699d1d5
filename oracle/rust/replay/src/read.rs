//! Fields of a script's line, in the terms of the given files. A field that the language does not allow is a panic: the
//! comparer sends readable lines only.

use opentelemetry::KeyValue;
use opentelemetry_sdk::metrics::Temporality;

/// Document 01's key 4294967295.
const OVERFLOW_KEY: u32 = u32::MAX;
const OVERFLOW_NAME: &str = "otel.metric.overflow";

/// Key texts are made once each and live for ever, so that an attribute holds a static text.
#[derive(Default)]
pub struct Keys(std::collections::HashMap<u32, &'static str>);

impl Keys {
    fn text(&mut self, key: u32) -> &'static str {
        self.0.entry(key).or_insert_with(|| match key {
            OVERFLOW_KEY => OVERFLOW_NAME,
            _ => Box::leak(format!("{key:010}").into_boxed_str()),
        })
    }

    fn attribute(&mut self, key: u32, value: u32) -> KeyValue {
        if key == OVERFLOW_KEY && value == 1 {
            KeyValue::new(self.text(key), true)
        } else {
            KeyValue::new(self.text(key), i64::from(value))
        }
    }

    /// `-`, or KEY:VALUE joined by commas.
    pub fn set(&mut self, field: &str) -> Vec<KeyValue> {
        list(field, |item| {
            let (key, value) = item.split_once(':').expect("KEY:VALUE");
            self.attribute(number(key), number(value))
        })
    }
}

/// The key number of a key's text.
pub fn key_number(text: &str) -> u32 {
    match text {
        OVERFLOW_NAME => OVERFLOW_KEY,
        _ => number(text),
    }
}

/// `-`, or items joined by commas.
pub fn list<T>(field: &str, item: impl FnMut(&str) -> T) -> Vec<T> {
    match field {
        "-" => Vec::new(),
        _ => field.split(',').map(item).collect(),
    }
}

pub fn number<T: std::str::FromStr>(field: &str) -> T {
    field
        .parse()
        .unwrap_or_else(|_| panic!("not a number of this range: {field}"))
}

/// 16 hexadecimal digits.
pub fn float(field: &str) -> f64 {
    f64::from_bits(u64::from_str_radix(field, 16).expect("16 hexadecimal digits"))
}

pub fn temporality(field: &str) -> Temporality {
    match field {
        "d" => Temporality::Delta,
        "c" => Temporality::Cumulative,
        "l" => Temporality::LowMemory,
        _ => panic!("not a temporality: {field}"),
    }
}
