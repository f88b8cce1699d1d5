//! One script's state: the aggregate, its bindings, what waits for the next configuration.

use std::collections::{HashMap, HashSet};
use std::io::{self, Write};
use std::sync::Arc;

use opentelemetry::{time, KeyValue};
use opentelemetry_sdk::door::{validate, Aggregate, Binding, Kind, Measurement, Settings};

use crate::answers;
use crate::read::{self, Keys};

/// A measurement as the scripts write it and as the answers print it.
pub trait Written: Measurement {
    fn read(field: &str) -> Self;
    fn text(self) -> String;
}

impl Written for f64 {
    fn read(field: &str) -> Self {
        read::float(field)
    }

    /// Every NaN is printed as document 01 hands it out.
    fn text(self) -> String {
        let bits = if self.is_nan() {
            0x7FF8_0000_0000_0000
        } else {
            self.to_bits()
        };
        format!("{bits:016X}")
    }
}

impl Written for i64 {
    fn read(field: &str) -> Self {
        read::number(field)
    }

    fn text(self) -> String {
        self.to_string()
    }
}

/// An aggregate and its bindings by their number in the script.
struct Running<T: Measurement> {
    aggregate: Aggregate<T>,
    bindings: HashMap<u32, Binding<T>>,
}

enum Live {
    F64(Running<f64>),
    I64(Running<i64>),
}

#[derive(Default)]
pub struct Session {
    keys: Keys,
    bounds: Vec<f64>,
    filter: Option<HashSet<u32>>,
    live: Option<Live>,
}

impl Session {
    pub fn line(&mut self, number: u32, line: &str, out: &mut impl Write) -> io::Result<()> {
        let fields: Vec<&str> = line.split(' ').collect();
        match fields[0] {
            "g" => self.bounds.extend(read::list(fields[1], read::float)),
            "f" => self
                .filter
                .get_or_insert_with(HashSet::new)
                .extend(read::list(fields[1], read::number::<u32>)),
            "n" => return self.configure(number, &fields[1..], out),
            "r" | "b" | "h" | "u" | "c" => return self.call(&fields, out),
            // Comments, and the lines the Rust has no call for: stores, kept points, merges, new settings.
            _ => {}
        }
        Ok(())
    }

    /// n KIND NUMBER SIZE SCALE THRESHOLD LIMIT TEMPORALITY EXTREMES SUM START
    fn configure(&mut self, line: u32, fields: &[&str], out: &mut impl Write) -> io::Result<()> {
        let bounds = std::mem::take(&mut self.bounds);
        let filter = self.filter.take();
        let (kind, refusal) = match fields[0] {
            "e" => {
                let max_size = read::number(fields[2]);
                let max_scale = read::number(fields[3]);
                (
                    Kind::Exponential {
                        max_size,
                        max_scale,
                    },
                    2,
                )
            }
            "x" => (Kind::Explicit { bounds }, 3),
            "s" => (Kind::Sum, 0),
            "l" => (Kind::LastValue, 0),
            other => panic!("not a kind: {other}"),
        };
        let min_max = fields[7] == "1";
        if !validate(&kind, min_max) {
            return writeln!(out, "! {line} {refusal}");
        }
        time::set(read::number(fields[9]));
        let settings = Settings {
            kind,
            temporality: read::temporality(fields[6]),
            filter: filter.map(|keys| Arc::new(keeps(keys)) as _),
            limit: read::number(fields[5]),
            min_max,
            sum: fields[8] == "1",
        };
        self.live = Some(match fields[1] {
            "f" => Live::F64(Running::new(settings)),
            "i" => Live::I64(Running::new(settings)),
            other => panic!("not a number kind: {other}"),
        });
        Ok(())
    }

    fn call(&mut self, fields: &[&str], out: &mut impl Write) -> io::Result<()> {
        match self.live.as_mut().expect("configured before it is called") {
            Live::F64(running) => running.call(&mut self.keys, fields, out),
            Live::I64(running) => running.call(&mut self.keys, fields, out),
        }
    }
}

/// The filter that keeps the listed keys.
fn keeps(keys: HashSet<u32>) -> impl Fn(&KeyValue) -> bool + Send + Sync {
    move |attribute| keys.contains(&read::key_number(attribute.key.as_str()))
}

impl<T: Written> Running<T> {
    fn new(settings: Settings) -> Self {
        Running {
            aggregate: Aggregate::new(settings),
            bindings: HashMap::new(),
        }
    }

    fn call(&mut self, keys: &mut Keys, fields: &[&str], out: &mut impl Write) -> io::Result<()> {
        match fields[0] {
            "r" => self
                .aggregate
                .record(T::read(fields[1]), &keys.set(fields[2])),
            "b" => {
                let binding = self.aggregate.bind(&keys.set(fields[2]));
                if self
                    .bindings
                    .insert(read::number(fields[1]), binding)
                    .is_some()
                {
                    panic!("the Rust's bindings are released before their number is used again");
                }
            }
            "h" => self.binding(fields[1]).record(T::read(fields[2])),
            "u" => {
                let released = self.bindings.remove(&read::number(fields[1]));
                drop(released.expect("a live binding"));
            }
            "c" => {
                time::set(read::number(fields[1]));
                answers::collection(&self.aggregate.collect(), out)?;
            }
            _ => unreachable!("told apart by the session"),
        }
        Ok(())
    }

    fn binding(&self, field: &str) -> &Binding<T> {
        &self.bindings[&read::number(field)]
    }
}
