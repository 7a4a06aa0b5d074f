//! Lookups beside writes: each has what was acknowledged before, and what any other has found.

mod common;

use common::{is_long, seed, Numbers};
use std::sync::atomic::{AtomicU64, Ordering};
use std::thread;
use ucstore_db::{Batch, Db, Operator, Options};

const THREADS: u64 = 8;

/// The number of a writer's keys.
const KEYS: usize = 40;

fn counters() -> Options {
    Options {
        operator: Some(Operator::Counter),
        ..Default::default()
    }
}

fn number(value: Option<Vec<u8>>) -> u64 {
    value.map_or(0, |text| u64::from_le_bytes(text.try_into().unwrap()))
}

fn one() -> [u8; 8] {
    1u64.to_le_bytes()
}

fn writes() -> u64 {
    if is_long() {
        20_000
    } else {
        1000
    }
}

#[test]
fn a_thread_sees_what_it_wrote() {
    let db = Db::in_memory(&counters()).unwrap();
    thread::scope(|scope| {
        for thread in 0..THREADS {
            let db = &db;
            scope.spawn(move || {
                let key = format!("k{thread}");
                for wanted in 1..=500 {
                    db.merge(&key, one()).unwrap();
                    assert_eq!(number(db.get(&key).unwrap()), wanted);
                }
            });
        }
    });
    let keys = (0..THREADS).map(|thread| format!("k{thread}"));
    let found = db.get_many(keys).unwrap();
    assert!(found.into_iter().all(|value| number(value) == 500));
}

#[test]
fn each_new_thread_sees_what_was_written() {
    let db = Db::in_memory(&counters()).unwrap();
    let get = || number(db.get("k").unwrap());
    // More threads than there are views: each finds one that an older thread has read.
    for wanted in 1..=100 {
        db.merge("k", one()).unwrap();
        let found = thread::scope(|scope| scope.spawn(get).join().unwrap());
        assert_eq!((found, get()), (wanted, wanted));
    }
    let lookups = db.stats().lookups;
    assert_eq!(lookups, 200);
}

/// Reads a counter again and again. It has what was acknowledged before, and what any thread has found before.
fn read_rising(db: &Db, acknowledged: &AtomicU64, found: &AtomicU64, last: u64) {
    let mut seen = 0;
    while seen < last {
        let least = acknowledged.load(Ordering::SeqCst);
        let least = least.max(found.load(Ordering::SeqCst));
        seen = number(db.get("k").unwrap());
        assert!(least <= seen && seen <= last, "{seen} behind {least}");
        found.fetch_max(seen, Ordering::SeqCst);
    }
}

#[test]
fn lookups_have_what_was_acknowledged_and_never_go_back() {
    let mut options = counters();
    options.store.write_buffer_size = 2000;
    let db = Db::in_memory(&options).unwrap();
    let [acknowledged, found] = [0, 0].map(AtomicU64::new);
    let last = 2 * writes();
    thread::scope(|scope| {
        for _ in 0..3 * THREADS {
            scope.spawn(|| read_rising(&db, &acknowledged, &found, last));
        }
        for _ in 0..2 {
            scope.spawn(|| {
                for _ in 0..writes() {
                    db.merge("k", one()).unwrap();
                    acknowledged.fetch_add(1, Ordering::SeqCst);
                }
            });
        }
    });
}

/// A key whose number rises, and what is known of it.
struct Rising {
    key: String,
    acknowledged: AtomicU64,
    found: AtomicU64,
}

impl Rising {
    /// The keys of a writer.
    fn all(writer: usize) -> Vec<Rising> {
        let rising = |number| Rising {
            key: format!("{writer} {number}"),
            acknowledged: AtomicU64::new(0),
            found: AtomicU64::new(0),
        };
        (0..KEYS).map(rising).collect()
    }

    /// Looks it up: it has what was acknowledged before, and what any thread has found before.
    fn check(&self, db: &Db) {
        let least = self.acknowledged.load(Ordering::SeqCst);
        let least = least.max(self.found.load(Ordering::SeqCst));
        let seen = number(db.get(&self.key).unwrap());
        assert!(least <= seen, "{} is {seen} behind {least}", self.key);
        self.found.fetch_max(seen, Ordering::SeqCst);
    }
}

/// Sets keys to a number, by batches of each kind: a single operation, many, and some after a deletion of the range.
fn set(db: &Db, keys: &[Rising], drawn: usize, number: u64) {
    let mut batch = Batch::new();
    let chosen = match number % 20 {
        0 | 10 => keys,
        _ => &keys[drawn..=drawn],
    };
    if number.is_multiple_of(20) {
        let [first, last] = [&keys[0].key, &keys[KEYS - 1].key].map(|key| &key[..2]);
        batch.delete_range(first, format!("{last}~")).unwrap();
    }
    for _ in 0..1 + number % 20 / 10 {
        for rising in chosen {
            batch.put(&rising.key, number.to_le_bytes()).unwrap();
        }
    }
    db.write(&batch).unwrap();
    for rising in chosen {
        rising.acknowledged.store(number, Ordering::SeqCst);
    }
}

#[test]
fn lookups_of_many_keys_never_go_back() {
    let mut options = Options::default();
    options.store.write_buffer_size = 20_000;
    let db = Db::in_memory(&options).unwrap();
    let writers: [_; 3] = std::array::from_fn(Rising::all);
    let left = AtomicU64::new(writers.len() as u64);
    thread::scope(|scope| {
        for (number, keys) in writers.iter().enumerate() {
            let (db, left) = (&db, &left);
            scope.spawn(move || {
                let mut numbers = Numbers(seed(number as u64));
                for step in 1..=5 * writes() {
                    let drawn = numbers.below(KEYS as u64) as usize;
                    set(db, keys, drawn, step);
                    keys[drawn].check(db);
                }
                left.fetch_sub(1, Ordering::SeqCst);
            });
        }
        for reader in 0..THREADS {
            let (db, left, writers) = (&db, &left, &writers);
            scope.spawn(move || {
                let mut numbers = Numbers(seed(100 + reader));
                while left.load(Ordering::SeqCst) > 0 {
                    let keys = &writers[numbers.below(3) as usize];
                    keys[numbers.below(KEYS as u64) as usize].check(db);
                }
            });
        }
    });
}
