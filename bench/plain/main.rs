//! Window aggregation as one would write it by hand in plain Rust: the baseline of `bench/run`.
//!
//! `run DEFS SOURCE` prints the report of one source in one shard, as scotty does. `gen KIND ROWS KEYS` makes
//! records. It leaves out what the cases don't need: it says little of why definitions are refused, has no
//! limit on a journal, and ends where memory runs out.

mod defs;
mod fold;
mod records;
mod shard;
mod text;

use records::{Entries, RowFault};
use shard::Shard;
use std::fs;
use std::io::{self, Write};
use std::process::ExitCode;
use text::{put_i64, put_u64};

/// Why a run ends early: the status and the line without its first word.
struct Stop {
    status: u8,
    line: String,
}

impl Stop {
    fn new(status: u8, line: impl Into<String>) -> Stop {
        Stop { status, line: line.into() }
    }

    fn row(fault: RowFault) -> Stop {
        Stop::new(4, format!("row 0 {} {}", fault.number, fault.word))
    }
}

fn main() -> ExitCode {
    let words: Vec<String> = std::env::args().skip(1).collect();
    let words: Vec<&str> = words.iter().map(String::as_str).collect();
    let done = match words.as_slice() {
        ["run", defs, source] => run(defs, source),
        ["gen", kind, rows, keys] => generate(kind, rows, keys),
        _ => Err(Stop::new(1, "usage")),
    };
    match done {
        Ok(()) => ExitCode::SUCCESS,
        Err(stop) => {
            println!("fault {}", stop.line);
            ExitCode::from(stop.status)
        }
    }
}

fn send(parts: &[&[u8]]) -> Result<(), Stop> {
    let mut out = io::stdout().lock();
    for part in parts {
        out.write_all(part).map_err(|_| Stop::new(8, "write"))?;
    }
    out.flush().map_err(|_| Stop::new(8, "write"))
}

fn run(defs: &str, source: &str) -> Result<(), Stop> {
    let bytes = fs::read(defs).map_err(|_| Stop::new(3, "open defs"))?;
    let text = String::from_utf8(bytes).map_err(|_| Stop::new(2, "defs toml"))?;
    let defs = defs::read(&text).map_err(|why| Stop::new(2, format!("defs {why}")))?;
    let bytes = fs::read(source).map_err(|_| Stop::new(3, "open 0"))?;
    let mut shard = Shard::new(&defs);
    let mut entries = Entries::new(&bytes, defs.every, defs.disorder);
    while let Some(entry) = entries.next().map_err(Stop::row)? {
        shard.apply(entry);
    }
    send(&[b"shard 0\n", &shard.report, b"end\n"])
}

/// Writes made records of so many keys, one unit of time apart: `order`, `late` (one in ten is 1 to
/// 100 behind), `pauses` (200 units of rest after each 1000), or `dense`, a hundred in each unit.
/// The same words give the same bytes.
fn generate(kind: &str, rows: &str, keys: &str) -> Result<(), Stop> {
    let number = |word: &str| word.parse::<u64>().map_err(|_| Stop::new(1, "usage"));
    let (rows, keys) = (number(rows)?, number(keys)?.max(1));
    let mut out = Vec::new();
    let mut state = 1u64;
    let mut draw = || {
        state = state.wrapping_mul(6_364_136_223_846_793_005).wrapping_add(1_442_695_040_888_963_407);
        state >> 33
    };
    for i in 0..rows {
        let (behind, value, key) = (draw(), draw(), draw());
        let time = match kind {
            "order" => i,
            "late" if behind % 10 == 0 => i.saturating_sub(1 + behind / 10 % 100),
            "late" => i,
            "pauses" => i + i / 1000 * 200,
            "dense" => i / 100,
            _ => return Err(Stop::new(1, "usage")),
        };
        out.extend_from_slice(b"t,");
        put_u64(&mut out, time);
        out.push(b',');
        put_i64(&mut out, (value % 2001) as i64 - 1000);
        out.extend_from_slice(b",k");
        put_u64(&mut out, key % keys);
        out.push(b'\n');
    }
    send(&[&out])
}
