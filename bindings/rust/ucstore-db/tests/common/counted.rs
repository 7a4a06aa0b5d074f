//! Batches that count, of which each reader can tell whether they are whole, and the first ones.

use std::sync::atomic::{AtomicBool, Ordering};
use ucstore_db::{Batch, Operator, Options, Snapshot};

/// The number of writers.
pub const WRITERS: u64 = 8;

/// The operations of a batch of a writer.
pub const OPERATIONS: u64 = 4;

/// The options of an owner that makes many flushes and checkpoints.
pub fn of_owner() -> Options {
    let mut options = Options {
        operator: Some(Operator::Counter),
        checkpoint_least: 200_000,
        checkpoint_ratio: 1,
        ..Default::default()
    };
    options.store.write_buffer_size = 20_000;
    options
}

/// The options of a reader beside it.
pub fn of_reader(compactors: usize) -> Options {
    Options {
        read_only: true,
        compactors,
        ..of_owner()
    }
}

/// The number that a value is; 0 without one.
pub fn number(value: Option<Vec<u8>>) -> u64 {
    value.map_or(0, |text| u64::from_le_bytes(text.try_into().unwrap()))
}

/// The batch with which a writer counts: its two counters, the one of all, and a value as long as another time.
pub fn batch_of(writer: u64, length: u64) -> Batch {
    let mut batch = Batch::new();
    let one = 1u64.to_le_bytes();
    for key in [&format!("a{writer}"), &format!("b{writer}"), "total"] {
        batch.merge(key, one).unwrap();
    }
    let value = vec![writer as u8; length as usize];
    batch.put(format!("value {writer}"), value).unwrap();
    batch
}

/// The counts of all writers. Checks that each batch is there whole or not, and that they are the first ones.
pub fn counts_of(snapshot: &Snapshot) -> Vec<u64> {
    let mut counts = vec![];
    for writer in 0..WRITERS {
        let keys = [format!("a{writer}"), format!("b{writer}")];
        let both: Vec<u64> = snapshot
            .get_many(keys)
            .unwrap()
            .into_iter()
            .map(number)
            .collect();
        assert_eq!(both[0], both[1], "half a batch is seen");
        counts.push(both[0]);
    }
    let total = number(snapshot.get("total").unwrap());
    assert_eq!(counts.iter().sum::<u64>(), total);
    assert_eq!(snapshot.sequence(), OPERATIONS * total);
    counts
}

/// Ends what waits for it, also after a panic.
pub struct Ends<'a>(pub &'a AtomicBool);

impl Drop for Ends<'_> {
    fn drop(&mut self) {
        self.0.store(true, Ordering::Relaxed);
    }
}
