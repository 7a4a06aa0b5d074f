//! The values of a log's keys in plain Rust: one thread folds its writes, as they come, into a `BTreeMap`.

use crate::log::{read_batch, Ended, LogReader, Op};
use std::collections::BTreeMap;
use std::ops::Bound;

pub(crate) type Values = BTreeMap<Vec<u8>, Vec<u8>>;

/// The number that 8 bytes stand for, low byte first; 0 for any other bytes.
fn number(bytes: &[u8]) -> u64 {
    bytes.try_into().map_or(0, u64::from_le_bytes)
}

/// Gives a key a value, in the memory of the one that it has.
fn put(values: &mut Values, key: &[u8], value: &[u8]) {
    match values.get_mut(key) {
        Some(old) => {
            old.clear();
            old.extend_from_slice(value);
        }
        None => {
            values.insert(key.to_vec(), value.to_vec());
        }
    }
}

/// Adds an operand to the value of a key, which is 0 if it has none.
fn merge(values: &mut Values, key: &[u8], operand: &[u8]) {
    match values.get_mut(key) {
        Some(value) => {
            let sum = number(value).wrapping_add(number(operand));
            value.clear();
            value.extend_from_slice(&sum.to_le_bytes());
        }
        None => {
            let sum = number(operand);
            values.insert(key.to_vec(), sum.to_le_bytes().to_vec());
        }
    }
}

/// Changes values as a write does.
fn apply(values: &mut Values, op: Op) {
    match op {
        Op::Put(key, value) => put(values, key, value),
        Op::Delete(key) => {
            values.remove(key);
        }
        Op::Merge(key, operand) => merge(values, key, operand),
        Op::Range(begin, end) => {
            if begin < end {
                let bounds = (Bound::Included(begin), Bound::Excluded(end));
                let range = values.range::<[u8], _>(bounds);
                let keys: Vec<Vec<u8>> = range.map(|(key, _)| key.clone()).collect();
                for key in keys {
                    values.remove(&key);
                }
            }
        }
    }
}

/// Goes through the writes of a log, and says how it ends.
fn each_write(log: &[u8], mut take: impl FnMut(Op)) -> Ended {
    let mut reader = LogReader::new(log);
    let mut last = 0;
    let mut batches = 0;
    loop {
        let payload = match reader.payload() {
            Ok(payload) => payload,
            Err(ended) => return ended,
        };
        batches += 1;
        let mut ops = Vec::new();
        match read_batch(payload, last, &mut ops) {
            Ok(seq) => last = seq + ops.len() as u64 - 1,
            Err(fault) => return Ended::Batch(batches, fault),
        }
        ops.into_iter().for_each(&mut take);
    }
}

/// Goes through the writes of a log that has to end clean.
pub(crate) fn each_clean_write(log: &[u8], take: impl FnMut(Op)) {
    match each_write(log, take) {
        Ended::Clean => {}
        ended => panic!("{ended}"),
    }
}

/// The values after all writes of a log, which is freed.
pub(crate) fn values_of(log: Vec<u8>) -> Values {
    let mut values = Values::new();
    each_clean_write(&log, |op| apply(&mut values, op));
    values
}
