//! The moment in which a transaction reads: it stays, whatever is written, flushed, compacted or refreshed between two reads.

mod common;

use common::{is_long, seed, Device, Ends, Numbers, Temporary};
use std::sync::atomic::{AtomicBool, AtomicU64, Ordering};
use std::sync::Arc;
use std::thread;
use std::time::{Duration, Instant};
use ucstore_db::{Batch, Conflict, Db, Error, Operator, Options, Transaction};

fn databases() -> [Db; 2] {
    let mut options = Options {
        operator: Some(Operator::Append),
        compactors: 0,
        ..Options::default()
    };
    options.store.write_buffer_size = 16;
    [
        Db::in_memory(&options).unwrap(),
        Db::open_on(Arc::new(Device::default()), &options).unwrap(),
    ]
}

fn get(transaction: &Transaction, key: &str) -> String {
    String::from_utf8(transaction.get(key).unwrap().unwrap_or_default()).unwrap()
}

fn rows(transaction: &Transaction) -> Vec<String> {
    let rows = transaction.range::<&str>(..).unwrap().map(Result::unwrap);
    let text = |bytes: Vec<u8>| String::from_utf8(bytes).unwrap();
    rows.map(|(key, value)| format!("{}={}", text(key), text(value)))
        .collect()
}

#[test]
fn reads_stay_at_the_beginning() {
    type Change = fn(&Db);
    let changes: [(&str, Change); 6] = [
        ("a put", |db| db.put("a", "2").unwrap()),
        ("a deletion", |db| db.delete("a").unwrap()),
        ("a range deletion", |db| db.delete_range("a", "c").unwrap()),
        ("a merge", |db| db.merge("a", "2").unwrap()),
        ("a transaction", |db| {
            db.transact(|t| t.put("a", "2")).unwrap();
        }),
        ("a flush and a put", |db| {
            db.flush().unwrap();
            db.put("a", "2").unwrap();
            db.flush().unwrap();
            db.compact().unwrap();
        }),
    ];
    for (name, change) in changes {
        for db in databases() {
            db.put("a", "1").unwrap();
            db.put("b", "1").unwrap();
            // One has read before the change, one reads after it, one reads a range, and one began in the same moment and ended.
            let [before, after, range, ended] = [(); 4].map(|()| db.transaction().unwrap());
            assert_eq!(get(&before, "a"), "1");
            assert_eq!(ended.sequence(), 2);
            drop(ended);
            change(&db);
            let late = db.transaction().unwrap();
            for transaction in [&before, &after] {
                assert_eq!(get(transaction, "a"), "1", "{name}");
                assert_eq!(get(transaction, "b"), "1", "{name}");
                assert_eq!(transaction.sequence(), 2, "{name}");
            }
            assert_eq!(rows(&range), ["a=1", "b=1"], "{name}");
            assert_ne!(get(&late, "a"), "1", "{name}");
            for mut transaction in [before, after, range] {
                transaction.put("c", "1").unwrap();
                let lost = transaction.commit();
                assert!(matches!(lost, Err(Error::Conflict(_))), "{name}: {lost:?}");
            }
        }
    }
}

#[test]
fn what_changes_no_write_moves_no_reads() {
    for db in databases() {
        for key in ["a", "b", "c"] {
            db.put(key, "1").unwrap();
        }
        let mut transaction = db.transaction().unwrap();
        assert_eq!(get(&transaction, "a"), "1");
        db.flush().unwrap();
        assert_eq!(get(&transaction, "b"), "1");
        db.compact().unwrap();
        assert_eq!(rows(&transaction), ["a=1", "b=1", "c=1"]);
        let _ = db.checkpoint();
        // A transaction without writes changes nothing.
        db.transaction().unwrap().commit().unwrap();
        transaction.put("d", "1").unwrap();
        transaction.commit().unwrap();
        assert_eq!(db.snapshot().unwrap().sequence(), 4);
    }
}

#[test]
fn a_write_of_another_key_is_judged() {
    for db in databases() {
        db.put("a", "1").unwrap();
        let mut transaction = db.transaction().unwrap();
        assert_eq!(get(&transaction, "a"), "1");
        db.put("b", "1").unwrap();
        assert_eq!(get(&transaction, "b"), "");
        db.delete("b").unwrap();
        transaction.put("a", "2").unwrap();
        // Both keys are as it has read them.
        transaction.commit().unwrap();
        assert_eq!(db.get("a").unwrap(), Some(b"2".to_vec()));
        let mut lost = db.transaction().unwrap();
        assert_eq!(get(&lost, "b"), "");
        db.put("b", "1").unwrap();
        lost.put("a", "3").unwrap();
        let key = b"b".to_vec();
        assert!(matches!(lost.commit(), Err(Error::Conflict(Conflict::Key(it))) if it == key));
    }
}

#[test]
fn a_transaction_of_a_reader_stays_over_a_refresh() {
    let folder = Temporary::new("moments");
    let owner = Db::open(folder.path(), &Options::default()).unwrap();
    owner.put("a", "1").unwrap();
    let options = Options {
        read_only: true,
        ..Options::default()
    };
    let reader = Db::open(folder.path(), &options).unwrap();
    for is_removed in [false, true] {
        let before = String::from_utf8(reader.get("a").unwrap().unwrap()).unwrap();
        let [read, other] = [(); 2].map(|()| reader.transaction().unwrap());
        assert_eq!(get(&read, "a"), before);
        owner.put("a", before.clone() + "+").unwrap();
        if is_removed {
            // The logs that it has read are gone: it reads all anew.
            owner.checkpoint().unwrap();
            owner.put("b", "1").unwrap();
            owner.checkpoint().unwrap();
        }
        reader.refresh().unwrap();
        assert_eq!(get(&read, "a"), before);
        assert_eq!(get(&other, "a"), before);
        assert_eq!(get(&other, "b"), "");
        assert_eq!(get(&reader.transaction().unwrap(), "a"), before + "+");
    }
}

/// Writes equal numbers to all keys, until it has to end.
fn count(db: &Db, is_over: &AtomicBool) {
    let mut number = 0u64;
    while !is_over.load(Ordering::Relaxed) {
        number += 1;
        let mut batch = Batch::new();
        for key in 0..4 {
            batch.put(format!("k{key}"), number.to_string()).unwrap();
        }
        db.write_with(&batch, false).unwrap();
        if number % 500 == 0 {
            db.flush().unwrap();
        }
    }
}

#[test]
fn threads_read_one_moment_each() {
    for db in databases() {
        let is_over = AtomicBool::new(false);
        let (read, committed) = (AtomicU64::new(0), AtomicU64::new(0));
        let begin = Instant::now();
        let most = Duration::from_secs(60);
        let least = Duration::from_secs(if is_long() { 20 } else { 1 });
        thread::scope(|scope| {
            let (db, is_over) = (&db, &is_over);
            scope.spawn(|| count(db, is_over));
            let readers = (0..4).map(|thread| {
                let (read, committed) = (&read, &committed);
                scope.spawn(move || {
                    let mut numbers = Numbers(seed(400 + thread));
                    let mut seen = 0;
                    while begin.elapsed() < least
                        || (read.load(Ordering::Relaxed) < 50 && begin.elapsed() < most)
                    {
                        let mut transaction = db.transaction().unwrap();
                        let mut values = Vec::new();
                        for key in 0..4 {
                            if numbers.below(3) == 0 {
                                thread::yield_now();
                            }
                            values.push(get(&transaction, &format!("k{key}")));
                        }
                        if numbers.below(4) == 0 {
                            let found = rows(&transaction);
                            let found = found.iter().filter(|row| row.starts_with('k'));
                            values.extend(found.map(|row| row[3..].to_string()));
                        }
                        values.dedup();
                        assert_eq!(values.len(), 1, "{values:?}");
                        let number = values[0].parse().unwrap_or(0);
                        assert!(number >= seen, "{number} after {seen}");
                        seen = number;
                        transaction.put(format!("own{thread}"), &values[0]).unwrap();
                        match transaction.commit_with(false) {
                            Ok(()) => drop(committed.fetch_add(1, Ordering::Relaxed)),
                            Err(Error::Conflict(_)) => {}
                            Err(error) => panic!("{error}"),
                        }
                        read.fetch_add(1, Ordering::Relaxed);
                    }
                })
            });
            let _ends = Ends(is_over);
            let readers: Vec<_> = readers.collect();
            for reader in readers {
                reader.join().unwrap();
            }
        });
        let (read, committed) = (read.into_inner(), committed.into_inner());
        assert!(
            read >= 50 && committed > 0,
            "{read} transactions, {committed} of them committed"
        );
    }
}
