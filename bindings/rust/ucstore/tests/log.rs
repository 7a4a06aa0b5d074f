//! Stores that are opened from a log, and logs that go on.

use std::time::{Duration, Instant};
use ucstore::{
    first_told, log_writes, mark_bytes, mark_of, Batch, BatchFault, Ended, LogFault, LogPlace,
    Operation, Operator, Options, Store,
};

/// A store, and a log of all that was written to it.
struct Logged {
    store: Store,
    log: Vec<u8>,
    ended: Ended,
}

impl Logged {
    fn open(log: Vec<u8>) -> Logged {
        let (store, ended) = Store::open(Operator::Append, &Options::default(), &log).unwrap();
        Logged { store, log, ended }
    }

    fn write(&mut self, batch: &Batch) {
        let record = self.store.prepare(self.log.len() as u64, batch).unwrap();
        self.log.extend(record);
        self.store.commit();
    }

    /// Truncates the log after its last whole batch, as an owner does before more is written.
    fn cut(mut self) -> Logged {
        let (offset, ended) = log_writes(&self.log).end().unwrap();
        assert_eq!(ended, self.ended);
        self.log.truncate(offset as usize);
        self
    }
}

fn put(key: &str, length: usize) -> Batch {
    let mut batch = Batch::new();
    batch.put(key, "x".repeat(length)).unwrap();
    batch
}

#[test]
fn a_log_opens_with_what_was_written() {
    let mut logged = Logged::open(Vec::new());
    for length in [0, 1, 32_700, 40_000, 100_000, 5] {
        logged.write(&put("k", length));
        let again = Logged::open(logged.log.clone());
        assert_eq!(again.ended, Ended::Clean);
        assert_eq!(again.store.last(), logged.store.last());
        assert_eq!(again.store.get("k").unwrap().unwrap().len(), length);
    }
}

#[test]
fn each_write_comes_back() {
    let mut logged = Logged::open(Vec::new());
    let mut batch = Batch::new();
    logged.write(batch.put("a", "1").unwrap().delete("b").unwrap());
    logged.write(&Batch::new());
    batch.clear();
    let batch = batch.merge("c", "2").unwrap();
    logged.write(batch.delete_range("d", "e").unwrap());
    let text = |text: &str| text.as_bytes().to_vec();
    let wanted = [
        (
            1,
            Operation::Put {
                key: text("a"),
                value: text("1"),
            },
        ),
        (2, Operation::Delete { key: text("b") }),
        (
            3,
            Operation::Merge {
                key: text("c"),
                operand: text("2"),
            },
        ),
        (
            4,
            Operation::DeleteRange {
                begin: text("d"),
                end: text("e"),
            },
        ),
    ];
    let mut writes = log_writes(&logged.log);
    let found: Vec<_> = writes
        .by_ref()
        .map(Result::unwrap)
        .map(|write| (write.sequence, write.operation))
        .collect();
    assert_eq!(found, wanted);
    assert_eq!(writes.ended(), Some(Ended::Clean));
    assert_eq!(writes.offset(), logged.log.len() as u64);
}

#[test]
fn a_log_has_the_sequences_that_were_given() {
    let mut logged = Logged::open(Vec::new());
    let mut bytes = put("a", 1).bytes();
    bytes[..8].copy_from_slice(&7u64.to_le_bytes());
    logged.log = logged.store.prepare_bytes(0, &bytes).unwrap();
    logged.store.commit();
    logged.write(&put("b", 1));
    let sequences: Vec<_> = log_writes(&logged.log)
        .map(|write| write.unwrap().sequence)
        .collect();
    assert_eq!(sequences, [7, 8]);
    assert_eq!(Logged::open(logged.log).store.last(), 8);
}

#[test]
fn a_torn_log_goes_on_where_it_is_cut() {
    let mut whole = Logged::open(Vec::new());
    whole.write(&put("a", 10));
    let first = whole.log.len();
    whole.write(&put("b", 50_000));
    for length in [first + 1, first + 7, 32_768, whole.log.len() - 1] {
        let torn = Logged::open(whole.log[..length].to_vec());
        assert!(matches!(torn.ended, Ended::Torn { .. }) && torn.ended.is_sound());
        let mut cut = torn.cut();
        assert_eq!(cut.log.len(), first);
        cut.write(&put("c", 3));
        let again = Logged::open(cut.log);
        assert_eq!(again.ended, Ended::Clean);
        assert_eq!(again.store.get("b").unwrap(), None);
        assert_eq!(again.store.get("c").unwrap().unwrap().len(), 3);
    }
}

#[test]
fn a_log_goes_on_before_zeros() {
    let mut logged = Logged::open(Vec::new());
    logged.write(&put("a", 10));
    let length = logged.log.len();
    logged.log.resize(100_000, 0);
    let mut cut = Logged::open(logged.log).cut();
    assert_eq!((cut.log.len(), cut.ended), (length, Ended::Clean));
    cut.write(&put("b", 10));
    assert_eq!(Logged::open(cut.log).store.last(), 2);
}

#[test]
fn faults_are_named() {
    let mut logged = Logged::open(Vec::new());
    logged.write(&put("a", 10));
    let end = logged.log.len();
    logged.write(&put("b", 10));
    let mut flipped = logged.log.clone();
    flipped[end + 20] ^= 1;
    let fault = Ended::LogFault {
        offset: end as u64,
        fault: LogFault::BadChecksum,
    };
    assert_eq!(Logged::open(flipped).cut().log.len(), end);
    let doubled = [&logged.log[..end], &logged.log[..end]].concat();
    let refused = Ended::BatchFault {
        payload: 2,
        fault: BatchFault::SequenceBack,
    };
    assert_eq!(Logged::open(doubled).cut().ended, refused);
    assert_eq!(
        fault.to_string(),
        format!("a fault at {end}: a checksum that doesn't match")
    );
    assert_eq!(
        refused.to_string(),
        "a fault in batch 2: a sequence that isn't above the last one"
    );
    assert!(!fault.is_sound() && !refused.is_sound());
}

#[test]
fn writes_are_lent_with_where_their_batches_end() {
    let mut logged = Logged::open(vec![]);
    let mut batch = put("a", 1);
    batch.merge("b", "2").unwrap().delete("c").unwrap();
    batch.delete_range("d", "e").unwrap();
    logged.write(&batch);
    let first = logged.log.len() as u64;
    logged.write(&put("f", 40_000));
    let (mut writes, mut found) = (log_writes(&logged.log), vec![]);
    loop {
        let place = (writes.offset(), writes.is_between_batches());
        let Some(write) = writes.next_write().unwrap() else {
            break;
        };
        found.push((place, write.sequence, format!("{:?}", write.operation)));
    }
    let places: Vec<_> = found.iter().map(|(place, ..)| *place).collect();
    let (begin, inside) = ((0, true), (first, false));
    assert_eq!(places, [begin, inside, inside, inside, (first, true)]);
    assert_eq!(writes.offset(), logged.log.len() as u64);
    assert_eq!(writes.next_write(), Ok(None));
    let copied = log_writes(&logged.log).map(Result::unwrap);
    assert!(copied
        .map(|it| (it.sequence, format!("{:?}", it.operation)))
        .eq(found
            .into_iter()
            .map(|(_, sequence, text)| (sequence, text))));
}

/// A batch with a mark.
fn marked(unsynced: u64) -> Vec<u8> {
    let mut batch = put("k", 5).bytes();
    batch.splice(12..12, mark_bytes(unsynced).unwrap());
    batch
}

#[test]
fn a_mark_is_read_as_it_was_written() {
    for unsynced in [0, 127, 128, 40_000, u64::MAX / 2] {
        assert_eq!(mark_of(&marked(unsynced)), Some(unsynced));
    }
    assert_eq!(mark_of(&put("k", 5).bytes()), None);
    assert_eq!(mark_of(&[]), None);
}

/// The first of two batches is damaged. The second one tells it, if its mark says that it was durable.
#[test]
fn damage_is_told_by_a_later_mark() {
    for (unsynced, is_told) in [(0, true), (1, true), (31, true), (32, false), (99, false)] {
        let store = Store::create(Operator::Append, &Options::default()).unwrap();
        let mut log = store.prepare_bytes(0, &marked(0)).unwrap();
        store.commit();
        let second = log.len() as u64;
        assert_eq!(second, 32);
        log.extend(store.prepare_bytes(second, &marked(unsynced)).unwrap());
        log[30] ^= 1;
        let place = is_told.then_some(second);
        assert_eq!(first_told(&log, LogPlace::default()).unwrap(), place);
        // One that isn't later tells nothing.
        let later = LogPlace { offset: 0, last: 2 };
        assert_eq!(first_told(&log, later).unwrap(), None);
    }
}

#[test]
#[should_panic(expected = "the place isn't in the log")]
fn damage_is_looked_for_in_the_log_alone() {
    let _ = first_told(
        &[0; 9],
        LogPlace {
            offset: 10,
            last: 0,
        },
    );
}

/// A look at all zeros from each block on would take a minute.
#[test]
fn zeros_are_passed_over_quickly() {
    let zeros = vec![0; 64 << 20];
    let begun = Instant::now();
    assert_eq!(first_told(&zeros, LogPlace::default()).unwrap(), None);
    assert!(begun.elapsed() < Duration::from_secs(15));
}
