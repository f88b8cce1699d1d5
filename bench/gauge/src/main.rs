//! The gauge program (document 01, "A run of the gauge program") as one writes it in Rust over the given crate.

mod print;
mod read;

use std::io::{self, BufRead, BufReader, BufWriter, Write};

use opentelemetry::KeyValue;
use opentelemetry_sdk::door::{Aggregate, Kind, Settings};
use opentelemetry_sdk::metrics::data::AggregatedMetrics;
use opentelemetry_sdk::metrics::Temporality;

use read::{Keys, Start};

const BLOCK: usize = 65536;
const LONGEST_LINE: usize = 255;

fn main() -> io::Result<()> {
    let mut input = BufReader::with_capacity(BLOCK, io::stdin().lock());
    let mut out = BufWriter::with_capacity(BLOCK, io::stdout().lock());
    let mut session = Session::default();
    let mut line = Vec::new();
    let mut number: u64 = 0;
    while input.read_until(b'\n', &mut line)? > 0 {
        number += 1;
        let text = line.strip_suffix(b"\n").unwrap_or(&line);
        if !session.line(text, &mut out)? {
            writeln!(out, "? {number}")?;
        }
        line.clear();
    }
    out.flush()
}

/// A map that is running, and the start of what it holds.
struct Running {
    aggregate: Aggregate<f64>,
    start: u64,
}

#[derive(Default)]
struct Session {
    running: Option<Running>,
    keys: Keys,
    /// The set of the line at hand; its memory is used again.
    set: Vec<KeyValue>,
    /// The last collection; its memory is used again.
    collected: Option<AggregatedMetrics>,
}

impl Session {
    /// Follows a line. False: it is refused.
    fn line(&mut self, line: &[u8], out: &mut impl Write) -> io::Result<bool> {
        if line.len() > LONGEST_LINE {
            return Ok(false);
        }
        match line {
            [b'e', b' ', rest @ ..] => Ok(self.start(rest)),
            [b'r', b' ', rest @ ..] => Ok(self.record(rest)),
            [b'c', b' ', rest @ ..] => self.collect(rest, out),
            _ => Ok(false),
        }
    }

    fn start(&mut self, fields: &[u8]) -> bool {
        let Some(wanted) = Start::read(fields) else {
            return false;
        };
        self.running = Some(Running {
            aggregate: Aggregate::new(Settings {
                kind: Kind::Exponential {
                    max_size: wanted.max_size,
                    max_scale: wanted.max_scale,
                },
                temporality: Temporality::Delta,
                filter: None,
                limit: wanted.limit,
                min_max: true,
                sum: true,
            }),
            start: wanted.start,
        });
        true
    }

    fn record(&mut self, fields: &[u8]) -> bool {
        let Some(running) = &self.running else {
            return false;
        };
        let Some(value) = read::board(fields, &mut self.keys, &mut self.set) else {
            return false;
        };
        running.aggregate.record(value, &self.set);
        true
    }

    fn collect(&mut self, fields: &[u8], out: &mut impl Write) -> io::Result<bool> {
        let (Some(running), Some(time)) = (&mut self.running, read::decimal(fields)) else {
            return Ok(false);
        };
        let collected = match &mut self.collected {
            Some(earlier) => {
                running.aggregate.collect_into(earlier);
                earlier
            }
            none => none.insert(running.aggregate.collect()),
        };
        print::collection(running.start, time, collected, out)?;
        running.start = time;
        Ok(true)
    }
}
