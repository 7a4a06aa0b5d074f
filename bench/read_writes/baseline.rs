//! Reads the writes of a log into a list, in plain Rust, to measure `uc_batch::read_writes` against.
//!
//! It reads standard input whole, makes a list of writes that own their bytes, and prints the nanoseconds
//! that this took, the number of writes, and a checksum of their sequences and their lengths.

#[path = "../log.rs"]
mod log;

use log::{Ended, LogReader, Op, read_batch};
use std::io::{self, Read};
use std::time::Instant;

/// A change that owns its bytes.
enum Owned {
    Put(Vec<u8>, Vec<u8>),
    Delete(Vec<u8>),
    Merge(Vec<u8>, Vec<u8>),
    DeleteRange(Vec<u8>, Vec<u8>),
}

struct Write {
    seq: u64,
    op: Owned,
}

fn owned(op: Op) -> Owned {
    match op {
        Op::Put(key, value) => Owned::Put(key.to_vec(), value.to_vec()),
        Op::Delete(key) => Owned::Delete(key.to_vec()),
        Op::Merge(key, operand) => Owned::Merge(key.to_vec(), operand.to_vec()),
        Op::Range(begin, end) => Owned::DeleteRange(begin.to_vec(), end.to_vec()),
    }
}

/// The writes of a log that ends cleanly or is torn.
fn read_writes(log: &[u8]) -> Result<Vec<Write>, String> {
    let mut reader = LogReader::new(log);
    let mut writes = Vec::new();
    let (mut last, mut number) = (0, 0);
    loop {
        let payload = match reader.payload() {
            Ok(payload) => payload,
            Err(Ended::Clean | Ended::Torn(_)) => return Ok(writes),
            Err(ended) => return Err(ended.to_string()),
        };
        number += 1;
        let mut ops = Vec::new();
        let seq = read_batch(payload, last, &mut ops)
            .map_err(|fault| Ended::Batch(number, fault).to_string())?;
        for (op, seq) in ops.iter().zip(seq..) {
            writes.push(Write { seq, op: owned(*op) });
            last = seq;
        }
    }
}

fn checksum(writes: &[Write]) -> u64 {
    let mut checksum = 0u64;
    for write in writes {
        let (first, second) = match &write.op {
            Owned::Put(first, second) => (first.len(), second.len()),
            Owned::Delete(first) => (first.len(), 0),
            Owned::Merge(first, second) => (first.len(), second.len()),
            Owned::DeleteRange(first, second) => (first.len(), second.len()),
        };
        for number in [write.seq, first as u64, second as u64] {
            checksum = checksum.wrapping_mul(31).wrapping_add(number);
        }
    }
    checksum
}

fn main() -> Result<(), Box<dyn std::error::Error>> {
    let mut log = Vec::new();
    io::stdin().lock().read_to_end(&mut log)?;
    let start = Instant::now();
    let writes = read_writes(&log)?;
    let nanoseconds = start.elapsed().as_nanos();
    println!("{nanoseconds} {} {:016x}", writes.len(), checksum(&writes));
    Ok(())
}
