// The baseline of reading.sh: a plain loop over the same bytes. It splits lines and fields, with no quotes,
// and judges kind, time, value and key as a source's records are judged.
use std::{env, fs, process, str};

const TIME_MAX: u64 = 1_000_000_000_000_000;

#[derive(Clone, Copy)]
struct Key {
    cells: [u8; 64],
    len: usize,
}

#[derive(Clone, Copy)]
enum What {
    Tuple { key: Key, time: u64, value: i64 },
    Mark { key: Key, time: u64 },
    Water { time: u64 },
}

fn key_in(text: &[u8]) -> Option<Key> {
    let control = |byte: &u8| *byte < 0x20 || *byte == 0x7f;
    if text.is_empty() || text.len() > 64 || text.iter().any(control) {
        return None;
    }
    let mut cells = [0; 64];
    cells[..text.len()].copy_from_slice(text);
    Some(Key { cells, len: text.len() })
}

fn time_in(text: &[u8]) -> Option<u64> {
    let time = str::from_utf8(text).ok()?.parse().ok()?;
    (time <= TIME_MAX).then_some(time)
}

fn value_in(text: &[u8]) -> Option<i64> {
    str::from_utf8(text).ok()?.parse().ok()
}

fn what_of(line: &[u8]) -> Option<What> {
    let mut fields = line.split(|byte| *byte == b',');
    let kind = fields.next()?;
    let time = time_in(fields.next()?)?;
    match kind {
        b"t" => {
            let value = value_in(fields.next()?)?;
            let key = key_in(fields.next()?)?;
            Some(What::Tuple { key, time, value })
        }
        b"m" => {
            let _empty = fields.next()?;
            let key = key_in(fields.next()?)?;
            Some(What::Mark { key, time })
        }
        b"w" => Some(What::Water { time }),
        _ => None,
    }
}

fn main() {
    let path = env::args().nth(1).expect("the name of a source");
    let bytes = fs::read(path).expect("a source that can be read");
    let mut records = 0u64;
    let mut sum = 0u64;
    for line in bytes.split(|byte| *byte == b'\n').filter(|line| !line.is_empty()) {
        let Some(what) = what_of(line) else {
            println!("record {} is refused", records + 1);
            process::exit(4);
        };
        records += 1;
        sum = sum.wrapping_add(match what {
            What::Tuple { key, time, value } => time ^ value as u64 ^ u64::from(key.cells[key.len - 1]),
            What::Mark { key, time } => time ^ u64::from(key.cells[key.len - 1]),
            What::Water { time } => time,
        });
    }
    println!("{records} records, {sum}");
}
