//! Replays call scripts (docs/REPLAY.md) on the Rust and prints its answers; `replay index` answers `SCALE BITS` lines by
//! `get_bin`, `replay sweep` compares it with the exact index beside all bounds.

mod answers;
mod read;
mod session;

use std::io::{self, BufRead, BufWriter, Write};

use opentelemetry_sdk::door::Bins;
use session::Session;

fn main() -> io::Result<()> {
    match std::env::args().nth(1).as_deref() {
        None => replay(BufWriter::new(io::stdout().lock())),
        Some("index") => index(BufWriter::new(io::stdout().lock())),
        Some("sweep") => beside::sweep(|scale| {
            let bins = Bins::new(scale);
            move |v| i64::from(bins.get_bin(v))
        }),
        Some(other) => panic!("usage: replay [index | sweep], not {other}"),
    }
}

fn replay(mut out: impl Write) -> io::Result<()> {
    let mut session = Session::default();
    let mut number = 0;
    for line in io::stdin().lock().lines() {
        let line = line?;
        if let Some(name) = line.strip_prefix("= ") {
            session = Session::default();
            number = 0;
            writeln!(out, "= {name}")?;
            continue;
        }
        number += 1;
        session.line(number, &line, &mut out)?;
    }
    out.flush()
}

fn index(mut out: impl Write) -> io::Result<()> {
    let bins: Vec<Bins> = (-10..=20).map(Bins::new).collect();
    for line in io::stdin().lock().lines() {
        let line = line?;
        let (scale, bits) = line.split_once(' ').expect("SCALE BITS");
        let scale: i8 = scale.parse().expect("a scale");
        let bits = u64::from_str_radix(bits, 16).expect("16 hexadecimal digits");
        let bin = bins[(scale + 10) as usize].get_bin(f64::from_bits(bits).abs());
        writeln!(out, "{bin}")?;
    }
    out.flush()
}
