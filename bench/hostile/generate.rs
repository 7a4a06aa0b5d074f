//! Writes an input that is made to be hostile to standard output.
//!
//!     generate NAME AMOUNT
//!
//! Logs of a number of bytes, or a record less:
//!
//! `zeros`, `ones`, `random`: bytes that are 0, FF, or drawn by lot. `firsts`: empty FIRST records. `middles`: a FIRST record, and
//! after it empty MIDDLE records. `joined`: one put, whose value stands in a FIRST, MIDDLEs and a LAST. `shorts`: batches that
//! delete the empty key. `empties`: batches of nothing. `deletes`: one batch that deletes the empty key again and again.
//!
//! Logs of a number of writes: `operands` merges of one key, `prefix` puts of keys that begin with the same 60 bytes, `neighbours`
//! range deletions, each of which overlaps the next, and `stairs` range deletions that all overlap. `long` puts keys of 1 MiB
//! that differ in the last bytes alone.
//!
//! Scripts: `picks` and `lookups` have as many short lines as fit a number of bytes, `operand_lines` merges one key that number of
//! times, and `many_runs` puts 64 keys and has a number of lookups with a pick after each. Heads of `ask` with a log after them:
//! `asked` has as many lookups as fit a number of bytes over an empty log, `gets` a number of lookups of a key in three writes,
//! `scans` a number of scans without a limit of 100 keys.

#[path = "../log_writer.rs"]
mod log_writer;

use log_writer::{
    BLOCK, DELETE, FIRST, HEADER, MERGE, MIDDLE, PUT, RANGE, head, push_payload, push_record, string,
};
use std::io::{self, Write};

/// The number of writes in a batch of several.
const BATCH: usize = 1_000;

/// The length of the common prefix of keys.
const PREFIX: usize = 60;

/// The length of a long key.
const LONG: usize = 1 << 20;

/// The number of keys of each scan.
const SCANNED: u64 = 100;

/// Bytes drawn by lot (Marsaglia's xorshift), the same in each run.
fn random(size: usize) -> Vec<u8> {
    let mut state = 0x2545_f491_4f6c_dd1d_u64;
    let mut bytes = Vec::with_capacity(size);
    while bytes.len() < size {
        state ^= state << 13;
        state ^= state >> 7;
        state ^= state << 17;
        bytes.push(state as u8);
    }
    bytes
}

/// Empty records of a kind, as many as fit.
fn push_empty_records(log: &mut Vec<u8>, size: usize, kind: u8) {
    loop {
        let room = BLOCK - log.len() % BLOCK;
        if room < HEADER {
            log.resize(log.len() + room, 0);
        }
        if log.len() + HEADER > size {
            return;
        }
        push_record(log, kind, &[]);
    }
}

/// The record of a write.
fn record(tag: u8, texts: &[&[u8]]) -> Vec<u8> {
    let mut record = vec![tag];
    for text in texts {
        record.extend(string(text));
    }
    record
}

/// A log of writes, a number in each batch.
fn log_of(writes: impl Iterator<Item = Vec<u8>>, batch: usize) -> Vec<u8> {
    let mut log = Vec::new();
    let mut seq = 1;
    let mut writes = writes.peekable();
    while writes.peek().is_some() {
        let (mut records, mut count) = (Vec::new(), 0_u32);
        for write in writes.by_ref().take(batch) {
            records.extend(write);
            count += 1;
        }
        push_payload(&mut log, &[head(seq, count), records].concat());
        seq += u64::from(count);
    }
    log
}

/// As many payloads as fit, each made by its number.
fn log_of_payloads(size: usize, payload: impl Fn(u64) -> Vec<u8>) -> Vec<u8> {
    let mut log = Vec::new();
    for number in 1.. {
        let before = log.len();
        push_payload(&mut log, &payload(number));
        if log.len() > size {
            log.truncate(before);
            break;
        }
    }
    log
}

/// A put of a long value, whose log has a number of bytes or a few less.
fn joined(size: usize) -> Vec<u8> {
    let blocks = size.div_ceil(BLOCK);
    let value = vec![b'v'; size - blocks * HEADER - 32];
    log_of([record(PUT, &[b"k", &value])].into_iter(), 1)
}

/// A batch of deletions of the empty key, whose log has a number of bytes or a few less.
fn deletes(size: usize) -> Vec<u8> {
    let deletion = record(DELETE, &[b""]);
    let count = (size - size.div_ceil(BLOCK) * HEADER - 32) / deletion.len();
    log_of((0..count).map(|_| deletion.clone()), count)
}

/// A key that begins like the others.
fn prefixed(number: usize) -> Vec<u8> {
    let mut key = vec![b'p'; PREFIX];
    key.extend(&(number as u32).to_be_bytes()[1..]);
    key
}

/// A long key.
fn long_key(number: usize) -> Vec<u8> {
    let mut key = vec![b'p'; LONG];
    key.extend((number as u32).to_be_bytes());
    key
}

/// A key of four bytes.
fn key(number: usize) -> [u8; 4] {
    (number as u32).to_be_bytes()
}

/// A number of range deletions, from each key to the one a number of keys after it.
fn ranges(count: usize, span: usize) -> Vec<u8> {
    let range = |number| record(RANGE, &[&key(number), &key(number + span)]);
    log_of((0..count).map(range), BATCH)
}

/// As many of a line as fit a number of bytes.
fn lines(line: &str, size: usize) -> Vec<u8> {
    line.as_bytes().repeat(size / line.len())
}

/// A head of a number of equal lines, in front of a log.
fn asked(line: &str, count: usize, log: &[u8]) -> Vec<u8> {
    [&line.as_bytes().repeat(count), b"log\n".as_slice(), log].concat()
}

/// A log of three merges of the key `k`.
fn three_merges() -> Vec<u8> {
    log_of((0..3).map(|_| record(MERGE, &[b"k", &1_u64.to_le_bytes()])), 1)
}

/// A log of puts of the keys that are scanned.
fn scanned() -> Vec<u8> {
    let put = |number: u64| record(PUT, &[&number.to_be_bytes(), &number.to_le_bytes()]);
    log_of((0..SCANNED).map(put), 10)
}

/// Puts of 64 keys, and a number of lookups with a pick after each.
fn many_runs(count: usize) -> Vec<u8> {
    let mut script = String::new();
    for number in 0..64 {
        script.push_str(&format!("put {number:02x} 0100000000000000\n"));
    }
    script.push_str("open\n");
    script.push_str(&"get 3f last\npick\n".repeat(count));
    script.into_bytes()
}

/// The input with a name.
fn input(name: &str, amount: usize) -> Option<Vec<u8>> {
    let mut records = Vec::new();
    Some(match name {
        "zeros" => vec![0; amount],
        "ones" => vec![0xff; amount],
        "random" => random(amount),
        "firsts" => {
            push_empty_records(&mut records, amount, FIRST);
            records
        }
        "middles" => {
            push_record(&mut records, FIRST, b"data");
            push_empty_records(&mut records, amount, MIDDLE);
            records
        }
        "joined" => joined(amount),
        "shorts" => log_of_payloads(amount, |seq| [head(seq, 1), record(DELETE, &[b""])].concat()),
        "empties" => log_of_payloads(amount, |seq| head(seq, 0)),
        "deletes" => deletes(amount),
        "operands" => {
            let operand = 1_u64.to_le_bytes();
            log_of((0..amount).map(|_| record(MERGE, &[b"k", &operand])), 1)
        }
        "prefix" => log_of((0..amount).map(|number| record(PUT, &[&prefixed(number), b""])), BATCH),
        "neighbours" => ranges(amount, 2),
        "stairs" => ranges(amount, amount),
        "long" => log_of((0..amount).map(|number| record(PUT, &[&long_key(number), b""])), 1),
        "picks" => [b"open\n".as_slice(), &lines("pick\n", amount - 5)].concat(),
        "lookups" => [b"open\n".as_slice(), &lines("get . 0\n", amount - 5)].concat(),
        "operand_lines" => [&b"merge 6b 0100000000000000\n".repeat(amount), b"open\nget 6b last\n".as_slice()].concat(),
        "many_runs" => many_runs(amount),
        "asked" => [lines("get . 0\n", amount - 4), b"log\n".to_vec()].concat(),
        "gets" => asked("get 6b last\n", amount, &three_merges()),
        "scans" => asked("scan . - 18446744073709551615 last\n", amount, &scanned()),
        _ => return None,
    })
}

fn main() -> io::Result<()> {
    let words: Vec<String> = std::env::args().skip(1).collect();
    let input = match words.as_slice() {
        [name, amount] => amount.parse().ok().and_then(|amount| input(name, amount)),
        _ => None,
    };
    let Some(input) = input else {
        eprintln!("usage: generate NAME AMOUNT");
        std::process::exit(2)
    };
    io::stdout().lock().write_all(&input)
}
