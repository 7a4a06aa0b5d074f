//! The writes of a log of counters, with keys to look up and a checksum of what is found.

use crate::log::{read_batch, Ended, LogReader, Op};

/// The number of keys of a log of counters.
pub(crate) const KEYS: u64 = 300_000;

/// A write with its bytes.
pub(crate) enum Write {
    Put(Vec<u8>, Vec<u8>),
    Delete(Vec<u8>),
    Merge(Vec<u8>, Vec<u8>),
    Range(Vec<u8>, Vec<u8>),
}

impl Write {
    fn of(op: Op) -> Write {
        match op {
            Op::Put(key, value) => Write::Put(key.to_vec(), value.to_vec()),
            Op::Delete(key) => Write::Delete(key.to_vec()),
            Op::Merge(key, operand) => Write::Merge(key.to_vec(), operand.to_vec()),
            Op::Range(begin, end) => Write::Range(begin.to_vec(), end.to_vec()),
        }
    }

    /// A byte for its kind, and its byte strings.
    pub(crate) fn parts(&self) -> (u8, [&[u8]; 2]) {
        match self {
            Write::Put(key, value) => (b'p', [key, value]),
            Write::Delete(key) => (b'd', [key, &[]]),
            Write::Merge(key, operand) => (b'm', [key, operand]),
            Write::Range(begin, end) => (b'r', [begin, end]),
        }
    }
}

/// The writes of a log that has to end clean.
pub(crate) fn writes_of(log: &[u8]) -> Vec<Write> {
    let mut reader = LogReader::new(log);
    let mut writes = Vec::new();
    let mut last = 0;
    for number in 1.. {
        let payload = match reader.payload() {
            Ok(payload) => payload,
            Err(Ended::Clean) => break,
            Err(ended) => panic!("{ended}"),
        };
        let mut ops = Vec::new();
        match read_batch(payload, last, &mut ops) {
            Ok(seq) => last = seq + ops.len() as u64 - 1,
            Err(fault) => panic!("{}", Ended::Batch(number, fault)),
        }
        writes.extend(ops.into_iter().map(Write::of));
    }
    writes
}

/// The number that 8 bytes stand for, low byte first; 0 for any other bytes.
pub(crate) fn number(bytes: &[u8]) -> u64 {
    bytes.try_into().map_or(0, u64::from_le_bytes)
}

/// The key with a number, as `make_log` spells it.
pub(crate) fn key_of(number: u64) -> Vec<u8> {
    format!("account/{number:08}").into_bytes()
}

/// A checksum and then the value of a key.
pub(crate) fn with_value(sum: u64, value: &Option<Vec<u8>>) -> u64 {
    let bytes = value.as_deref().unwrap_or_default();
    let sum = bytes.iter().fold(sum, |sum, &byte| {
        sum.wrapping_mul(31).wrapping_add(u64::from(byte))
    });
    sum.wrapping_mul(31)
        .wrapping_add(u64::from(value.is_some()))
}
