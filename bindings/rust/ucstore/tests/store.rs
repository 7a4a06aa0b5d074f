//! Each method: its results, and its errors.

use std::error::Error as StdError;
use std::io::{self, Write};
use std::time::Instant;
use ucstore::{Batch, Ended, Error, Operator, Options, Store};

fn empty() -> Store {
    Store::create(Operator::Append, &Options::default()).unwrap()
}

fn text(bytes: &str) -> Option<Vec<u8>> {
    Some(bytes.as_bytes().to_vec())
}

#[test]
fn a_store_reads_what_was_written() {
    let store = empty();
    store.put("a", "1").unwrap();
    store.merge("a", "2").unwrap();
    store.put("b", "3").unwrap();
    store.delete("b").unwrap();
    store.put("c", "").unwrap();
    assert_eq!(store.get("a").unwrap(), text("1,2"));
    assert_eq!(store.get("b").unwrap(), None);
    assert_eq!(store.get("c").unwrap(), text(""));
    store.delete_range("a", "b").unwrap();
    assert_eq!(store.get("a").unwrap(), None);
    assert_eq!(store.last(), 6);
}

#[test]
fn a_long_value_comes_whole() {
    let store = empty();
    for length in [511, 512, 513, 100_000] {
        let value: Vec<u8> = (0..length).map(|place| place as u8).collect();
        store.put("k", &value).unwrap();
        assert_eq!(store.get("k").unwrap(), Some(value));
    }
}

#[test]
fn texts_of_zero_bytes_are_texts() {
    let store = empty();
    store.put("", "").unwrap();
    assert_eq!(store.get("").unwrap(), text(""));
    let snapshot = store.snapshot().unwrap();
    let rows: Vec<_> = snapshot.scan("", None).map(Result::unwrap).collect();
    assert_eq!(rows, [(vec![], vec![])]);
    assert_eq!(snapshot.scan("", Some(b"")).count(), 0);
}

#[test]
fn a_snapshot_stays_until_its_last_guard_is_dropped() {
    let store = empty();
    store.put("k", "old").unwrap();
    let first = store.snapshot().unwrap();
    let second = store.snapshot().unwrap();
    store.put("k", "new").unwrap();
    while store.compact().unwrap() {}
    let sequence = first.sequence();
    drop(first);
    assert_eq!(store.snapshots(), [sequence]);
    assert_eq!(second.get("k").unwrap(), text("old"));
    drop(second);
    assert_eq!(store.snapshots(), []);
    assert_eq!(store.get_at("k", sequence), Err(Error::NotProtected));
}

#[test]
fn snapshots_are_counted() {
    let store = empty();
    assert_eq!(store.release(0), Err(Error::NotProtected));
    let sequence = store.take_snapshot().unwrap();
    assert_eq!(store.take_snapshot(), Ok(sequence));
    store.release(sequence).unwrap();
    assert_eq!(store.get_at("k", sequence), Ok(None));
    store.release(sequence).unwrap();
    assert_eq!(store.release(sequence), Err(Error::NotProtected));
}

#[test]
fn a_scan_goes_over_many_pages() {
    let store = empty();
    let mut batch = Batch::new();
    let keys: Vec<String> = (0..1000).map(|number| format!("{number:04}")).collect();
    for (place, key) in keys.iter().enumerate() {
        let length = if place % 100 == 7 { 40_000 } else { place % 50 };
        batch.put(key, "x".repeat(length)).unwrap();
    }
    store.write(&batch).unwrap();
    let snapshot = store.snapshot().unwrap();
    store.delete_range("", "9").unwrap();
    let rows: Vec<_> = snapshot
        .scan("0005", Some(b"0995"))
        .map(Result::unwrap)
        .collect();
    assert_eq!(rows.len(), 990);
    for ((key, value), (place, wanted)) in rows.iter().zip(keys.iter().enumerate().skip(5)) {
        assert_eq!(key, wanted.as_bytes());
        assert_eq!(
            value.len(),
            if place % 100 == 7 { 40_000 } else { place % 50 }
        );
    }
}

#[test]
fn a_scan_ends_behind_an_error() {
    let store = empty();
    store.put("k", "v").unwrap();
    let mut scan = store.scan_at("", None, 0);
    assert_eq!(scan.next(), Some(Err(Error::NotProtected)));
    assert_eq!(scan.next(), None);
}

#[test]
fn a_scan_at_the_last_sequence_needs_no_snapshot() {
    let store = empty();
    for key in ["a", "b", "b1", "b\u{ff}", "c"] {
        store.put(key, "v").unwrap();
    }
    assert_eq!(store.scan("b", Some(b"c")).count(), 3);
    assert_eq!(store.prefix("b").count(), 3);
    let snapshot = store.snapshot().unwrap();
    store.delete_range("a", "c").unwrap();
    assert_eq!(store.prefix("").count(), 1);
    assert_eq!(snapshot.prefix("b").count(), 3);
    assert_eq!(store.prefix([0xff]).count(), 0);
}

#[test]
fn a_report_counts() {
    let store = empty();
    store.put("k", "v").unwrap();
    let _snapshot = store.snapshot().unwrap();
    let report = store.report();
    assert_eq!(
        (report.runs, report.snapshots, report.points, report.last),
        (1, 1, 1, 1)
    );
    store.put("k", "w").unwrap();
    assert_eq!((store.report().gathered, store.report().runs), (1, 1));
    assert!(format!("{store:?}").contains("runs: 1"));
}

#[test]
fn a_million_puts_need_no_other_call() {
    let (store, begun) = (empty(), Instant::now());
    for number in 0..1_000_000u32 {
        store
            .put((number % 300_000).to_be_bytes(), number.to_be_bytes())
            .unwrap();
    }
    // A test's `println` is held back.
    writeln!(io::stderr(), "a million puts in {:.2?}", begun.elapsed()).unwrap();
    assert_eq!(
        store.get(7u32.to_be_bytes()).unwrap(),
        Some(900_007u32.to_be_bytes().to_vec())
    );
    assert_eq!(store.scan("", None).count(), 300_000);
    assert_eq!(store.last(), 1_000_000);
}

#[test]
fn what_is_prepared_is_seen_once_it_is_committed() {
    let store = empty();
    let mut batch = Batch::new();
    batch.put("k", "v").unwrap();
    store.prepare(0, &batch).unwrap();
    assert_eq!(store.get("k").unwrap(), None);
    store.give_up();
    store.commit();
    assert_eq!(store.get("k").unwrap(), None);
    store.prepare(0, &batch).unwrap();
    store.commit();
    assert_eq!(store.get("k").unwrap(), text("v"));
    store.flush().unwrap();
    assert_eq!(store.report().runs, 1);
}

#[test]
fn a_batch_has_the_bytes_that_rocksdb_writes() {
    let mut batch = Batch::new();
    assert_eq!((batch.bytes(), batch.is_empty()), (vec![0; 12], true));
    batch.put("k", "v").unwrap().delete("d").unwrap();
    batch.merge("m", [7; 128]).unwrap();
    batch.delete_range("", "z").unwrap();
    let mut expected = vec![0, 0, 0, 0, 0, 0, 0, 0, 4, 0, 0, 0];
    expected.extend([1, 1, b'k', 1, b'v', 0, 1, b'd', 2, 1, b'm', 0x80, 1]);
    expected.extend([7; 128]);
    expected.extend([15, 0, 1, b'z']);
    assert_eq!((batch.bytes(), batch.len()), (expected, 4));
    assert_eq!(format!("{batch:?}"), "Batch { len: 4, .. }");
    batch.clear();
    assert_eq!(batch.bytes(), Batch::default().bytes());
}

#[test]
fn a_batch_is_written_as_often_as_it_is_asked() {
    let store = empty();
    let mut batch = Batch::new();
    batch.merge("k", "a").unwrap().merge("k", "b").unwrap();
    store.write(&batch).unwrap();
    let written = std::thread::spawn(move || {
        store.write(&batch).unwrap();
        store
    });
    let store = written.join().unwrap();
    assert_eq!(store.get("k").unwrap(), text("a,b,a,b"));
    store.write(&Batch::new()).unwrap();
    assert_eq!(store.last(), 4);
}

#[test]
fn a_batch_may_have_its_own_sequence() {
    let store = empty();
    let mut batch = Batch::new();
    batch.put("a", "1").unwrap().put("b", "2").unwrap();
    let at = |sequence: u64| [&sequence.to_le_bytes(), &batch.bytes()[8..]].concat();
    store.write_bytes(&at(10)).unwrap();
    assert_eq!(store.last(), 11);
    assert_eq!(store.write_bytes(&at(11)), Err(Error::SequenceBack));
    assert_eq!(store.prepare_bytes(0, &at(11)), Err(Error::SequenceBack));
    let last = at((1 << 56) - 1);
    assert_eq!(store.write_bytes(&last), Err(Error::SequencesSpent));
    assert_eq!(store.write_bytes(b"no batch"), Err(Error::NotABatch));
    store.write(&batch).unwrap();
    assert_eq!(store.last(), 13);
}

#[test]
fn many_keys_are_looked_up_at_once() {
    let store = empty();
    let long = vec![7; 100_000];
    store.put("a", "1").unwrap();
    store.put("b", &long).unwrap();
    store.put("", "").unwrap();
    let found = store.get_many(["b", "z", "", "b", "a"]).unwrap();
    let wanted = [Some(long.clone()), None, text(""), Some(long), text("1")];
    assert_eq!(found, wanted);
    assert_eq!(store.get_many(Vec::<String>::new()).unwrap(), []);
}

#[test]
fn rows_are_lent() {
    let store = empty();
    for number in 0..300 {
        store.put(format!("{number:03}"), [1, 2]).unwrap();
    }
    let (mut rows, mut count) = (store.scan("", None), 0);
    while let Some((key, value)) = rows.next_row().unwrap() {
        assert_eq!(
            (key, value),
            (format!("{count:03}").as_bytes(), &[1, 2][..])
        );
        count += 1;
    }
    assert_eq!((count, rows.next_row()), (300, Ok(None)));
}

#[test]
fn options_out_of_their_ranges_are_refused() {
    let options = Options {
        min_merge_width: 1,
        ..Default::default()
    };
    let error = Store::create(Operator::Tail, &options).unwrap_err();
    assert_eq!(error, Error::BadOption);
    let shown: Box<dyn StdError> = Box::new(error);
    assert_eq!(shown.to_string(), "option out of range");
}

#[test]
fn each_operator_merges() {
    let number = |value: u64| value.to_le_bytes().to_vec();
    for (operator, operands, wanted) in [
        (
            Operator::Append,
            [b"one".to_vec(), b"two".to_vec()],
            b"one,two".to_vec(),
        ),
        (Operator::Counter, [number(7), number(8)], number(15)),
        (
            Operator::Maximum,
            [b"one".to_vec(), b"two".to_vec()],
            b"two".to_vec(),
        ),
        (
            Operator::Tail,
            [b"one".to_vec(), b"two".to_vec()],
            b"etwo".to_vec(),
        ),
    ] {
        let store = Store::create(operator, &Options::default()).unwrap();
        let mut batch = Batch::new();
        batch.merge("k", &operands[0]).unwrap();
        batch.merge("k", &operands[1]).unwrap();
        store.write(&batch).unwrap();
        assert_eq!(store.get("k").unwrap(), Some(wanted));
    }
}

#[test]
fn a_store_goes_to_another_thread() {
    let store = empty();
    store.put("k", "v").unwrap();
    let store = std::thread::spawn(move || {
        store.put("l", "w").unwrap();
        store
    });
    assert_eq!(store.join().unwrap().get("l").unwrap(), text("w"));
}

#[test]
fn no_bytes_are_a_clean_log() {
    let (store, ended) = Store::open(Operator::Append, &Options::default(), &[]).unwrap();
    assert_eq!((store.last(), ended), (0, Ended::Clean));
    assert_eq!(store.snapshots(), []);
}
