//! Compactions of an idle database to one run.

mod common;

use common::{map_of, seed, Device, Numbers};
use std::collections::BTreeMap;
use std::sync::{Arc, Mutex};
use std::thread;
use std::time::{Duration, Instant};
use ucstore_db::{Batch, Db, Event, Listener, Operator, Options};

type Map = BTreeMap<Vec<u8>, Vec<u8>>;

/// Options with small memtables, whose runs the store never compacts by itself.
fn options(idle: Option<Duration>) -> Options {
    let mut options = Options {
        operator: Some(Operator::Append),
        compact_when_idle: idle,
        slow_trigger: 200,
        ..Default::default()
    };
    options.store.write_buffer_size = 16 << 10;
    options.store.compaction_trigger = 60;
    options.store.stop_trigger = 200;
    options
}

/// Writes five runs, and a memtable.
fn write_runs(db: &Db) -> Map {
    let mut map = Map::new();
    for run in 0..6 {
        for number in 0..40 {
            let (key, value) = (format!("k{:03}", 7 * number + run), vec![run as u8; 20]);
            db.put(&key, &value).unwrap();
            map.insert(key.into_bytes(), value);
        }
        if run < 5 {
            db.flush().unwrap();
        }
    }
    db.delete("k000").unwrap();
    map.remove(&b"k000"[..]);
    map
}

/// Waits until something is so, for a while.
fn wait_until(is_so: impl Fn() -> bool) {
    let begun = Instant::now();
    while !is_so() {
        assert!(begun.elapsed() < Duration::from_secs(20), "it never is");
        thread::sleep(Duration::from_millis(1));
    }
}

#[test]
fn an_idle_database_compacts_to_one_run() {
    let told = Arc::<Mutex<Vec<Event>>>::default();
    let seen = Arc::clone(&told);
    let events = Listener::new(move |event: &Event| seen.lock().unwrap().push(event.clone()));
    let device = Device::default();
    let with_events = Options {
        events: Some(events),
        // Long enough that this thread writes all before.
        ..options(Some(Duration::from_secs(1)))
    };
    let db = Db::open_on(Arc::new(device.clone()), &with_events).unwrap();
    let map = write_runs(&db);
    let (snapshot, before) = (db.snapshot().unwrap(), db.stats());
    wait_until(|| db.stats().compactions > 0);
    let after = db.stats();
    assert_eq!(
        (after.runs, after.gathered, after.last),
        (1, 0, before.last)
    );
    // The run has 240 keys: 239 puts and no deletion.
    assert_eq!(after.bytes, 239 * (4 + 20 + 8));
    assert_eq!(
        (after.compactions, after.compaction_read),
        (1, before.bytes)
    );
    assert_eq!(after.compaction_written, after.bytes);
    assert_eq!(
        (map_of(&db), snapshot.sequence()),
        (map.clone(), before.last)
    );
    let rows = snapshot.iter().unwrap().map(Result::unwrap);
    assert!(rows.eq(map.clone()));
    wait_until(|| {
        let told = told.lock().unwrap();
        told.iter()
            .any(|event| matches!(event, Event::Compacted { runs: 1, .. }))
    });
    // Nothing was written since: it doesn't compact again.
    thread::sleep(Duration::from_millis(2500));
    assert_eq!(db.stats().compactions, 1);
    // The next write has the next sequence number, and the folder keeps all of them.
    db.merge("k001", "more").unwrap();
    assert_eq!(db.stats().last, before.last + 1);
    let merged = [&map[&b"k001"[..]][..], b",more"].concat();
    assert_eq!(db.get("k001").unwrap(), Some(merged));
    let map = map_of(&db);
    db.close().unwrap();
    let again = Db::open_on(Arc::new(device), &options(None)).unwrap();
    assert_eq!(map_of(&again), map);
}

#[test]
fn a_database_larger_than_its_memtables_compacts_to_one_run() {
    let mut options = options(Some(Duration::from_millis(20)));
    options.store.compaction_trigger = 5;
    options.store.stop_trigger = 40;
    let db = Db::in_memory(&options).unwrap();
    let (mut numbers, mut map) = (Numbers(seed(81)), Map::new());
    for _ in 0..6000 {
        let key = format!("{:04}", numbers.below(4000)).into_bytes();
        let value = vec![numbers.below(256) as u8; numbers.below(150) as usize];
        db.put(&key, &value).unwrap();
        map.insert(key, value);
    }
    let last = db.stats().last;
    wait_until(|| db.stats().runs == 1 && db.stats().gathered == 0);
    assert_eq!((map_of(&db), db.stats().last), (map, last));
}

#[test]
fn a_database_whose_keys_are_deleted_has_no_row_left() {
    let db = Db::in_memory(&options(Some(Duration::from_millis(20)))).unwrap();
    write_runs(&db);
    db.delete_range("", "z").unwrap();
    let last = db.stats().last;
    wait_until(|| db.stats().runs == 1 && db.stats().gathered == 0);
    assert_eq!((map_of(&db).len(), db.stats().last), (0, last));
    db.put("k", "v").unwrap();
    assert_eq!(db.get("k").unwrap(), Some(b"v".to_vec()));
    assert_eq!(db.stats().last, last + 1);
}

#[test]
fn writes_at_shorter_intervals_put_it_off() {
    let after = Duration::from_millis(400);
    let db = Db::in_memory(&options(Some(after))).unwrap();
    write_runs(&db);
    let (begun, mut before, mut longest) = (Instant::now(), Instant::now(), Duration::ZERO);
    while begun.elapsed() < 4 * after {
        db.put("k", "v").unwrap();
        longest = longest.max(before.elapsed());
        before = Instant::now();
        thread::sleep(after / 20);
    }
    let stats = db.stats();
    // The machine may have stopped this thread for longer.
    assert!(stats.compactions == 0 || longest >= after, "{longest:?}");
    wait_until(|| db.stats().runs == 1);
}

#[test]
fn without_the_option_or_compactors_nothing_is_compacted() {
    let without = Options {
        compactors: 0,
        ..options(Some(Duration::from_millis(10)))
    };
    for options in [options(None), without] {
        let db = Db::in_memory(&options).unwrap();
        let map = write_runs(&db);
        thread::sleep(Duration::from_millis(300));
        let stats = db.stats();
        assert_eq!((stats.runs, stats.compactions), (5, 0));
        assert_eq!(map_of(&db), map);
    }
    // No time is a millisecond.
    let db = Db::in_memory(&options(Some(Duration::ZERO))).unwrap();
    db.put("k", "v").unwrap();
    db.flush().unwrap();
    db.put("l", "v").unwrap();
    db.flush().unwrap();
    wait_until(|| db.stats().runs == 1);
}

#[test]
fn a_small_memtable_alone_stays() {
    let db = Db::in_memory(&options(Some(Duration::from_millis(10)))).unwrap();
    for number in 0..100u8 {
        db.put([number], "v").unwrap();
    }
    thread::sleep(Duration::from_millis(200));
    let stats = db.stats();
    assert_eq!((stats.runs, stats.gathered, stats.compactions), (0, 100, 0));
}

#[test]
fn a_close_does_not_wait() {
    for idle in [Duration::MAX, Duration::from_millis(1)] {
        let mut options = options(Some(idle));
        options.store.write_buffer_size = 4 << 20;
        let db = Db::in_memory(&options).unwrap();
        let mut batch = Batch::new();
        for number in 0..100_000u32 {
            batch.put(number.to_be_bytes(), [7; 100]).unwrap();
            if number % 20_000 == 19_999 {
                db.write(&batch).unwrap();
                db.flush().unwrap();
                batch.clear();
            }
        }
        thread::sleep(Duration::from_millis(5));
        let begun = Instant::now();
        db.close().unwrap();
        assert!(begun.elapsed() < Duration::from_secs(10), "{idle:?}");
        assert_eq!(db.iter().unwrap().count(), 100_000);
    }
}

/// The value of a key after an operand.
fn merged(operator: Operator, old: Option<&Vec<u8>>, operand: &[u8]) -> Vec<u8> {
    let Some(old) = old else {
        return operand.to_vec();
    };
    match operator {
        Operator::Append => [&old[..], b",", operand].concat(),
        Operator::Maximum => old[..].to_vec().max(operand.to_vec()),
        Operator::Tail => {
            let both = [&old[..], operand].concat();
            both[both.len().saturating_sub(4)..].to_vec()
        }
        Operator::Counter => {
            let number = |bytes: &[u8]| bytes.try_into().map_or(0, u64::from_le_bytes);
            let sum = number(old).wrapping_add(number(operand));
            sum.to_le_bytes().to_vec()
        }
        Operator::Mixed => unreachable!("tests/mixed.rs merges by it"),
    }
}

/// A random operand. All values of counters have eight bytes, and those of tails four.
fn operand(operator: Operator, numbers: &mut Numbers) -> Vec<u8> {
    match operator {
        Operator::Counter => numbers.below(1000).to_le_bytes().to_vec(),
        Operator::Tail => (numbers.below(1000) as u32).to_le_bytes().to_vec(),
        _ => vec![b'a' + numbers.below(20) as u8; numbers.below(4) as usize],
    }
}

/// Writes something to a database and to a map.
fn write(db: &Db, map: &mut Map, operator: Operator, numbers: &mut Numbers) {
    let key = vec![b'a' + numbers.below(8) as u8; numbers.below(4) as usize];
    let value = operand(operator, numbers);
    match numbers.below(12) {
        0 => {
            let mut ends = [key, vec![b'a' + numbers.below(8) as u8]];
            ends.sort();
            db.delete_range(&ends[0], &ends[1]).unwrap();
            map.retain(|key, _| !(&ends[0]..&ends[1]).contains(&key));
        }
        1 | 2 => {
            db.delete(&key).unwrap();
            map.remove(&key);
        }
        3..=6 => {
            db.put(&key, &value).unwrap();
            map.insert(key, value);
        }
        _ => {
            db.merge(&key, &value).unwrap();
            let value = merged(operator, map.get(&key), &value);
            map.insert(key, value);
        }
    }
}

/// Compares each way to read a database with a map.
fn check(db: &Db, map: &Map, numbers: &mut Numbers) {
    assert_eq!(map_of(db), *map);
    let backwards = db.iter().unwrap().rev().map(Result::unwrap);
    assert!(backwards.eq(map.clone().into_iter().rev()));
    for _ in 0..4 {
        let key = vec![b'a' + numbers.below(8) as u8; numbers.below(4) as usize];
        assert_eq!(db.get(&key).unwrap().as_ref(), map.get(&key));
    }
}

#[test]
fn answers_stay_the_same_while_it_compacts() {
    for operator in [
        Operator::Append,
        Operator::Counter,
        Operator::Maximum,
        Operator::Tail,
    ] {
        let mut numbers = Numbers(seed(82 + operator as u64));
        let device = Device::default();
        let mut options = Options {
            operator: Some(operator),
            ..options(Some(Duration::from_millis(1)))
        };
        options.store.write_buffer_size = 200 + numbers.below(2000);
        options.store.compaction_trigger = 2 + numbers.below(8) as u32;
        let db = Db::open_on(Arc::new(device.clone()), &options).unwrap();
        let (mut map, mut snapshots) = (Map::new(), Vec::new());
        for round in 0..60 {
            for _ in 0..numbers.below(40) {
                write(&db, &mut map, operator, &mut numbers);
            }
            if numbers.below(3) == 0 {
                db.flush().unwrap();
            }
            if numbers.below(8) == 0 {
                snapshots.push((db.snapshot().unwrap(), map.clone()));
            }
            for _ in 0..numbers.below(6) {
                check(&db, &map, &mut numbers);
                thread::sleep(Duration::from_millis(numbers.below(3)));
            }
            if round == 30 {
                db.checkpoint().unwrap();
            }
        }
        // The last one is sure.
        db.put("", "").unwrap();
        map.insert(vec![], vec![]);
        db.flush().unwrap();
        wait_until(|| db.stats().runs == 1 && db.stats().compactions > 0);
        check(&db, &map, &mut numbers);
        for (snapshot, map) in &snapshots {
            assert!(snapshot.iter().unwrap().map(Result::unwrap).eq(map.clone()));
        }
        db.close().unwrap();
        let again = Db::open_on(Arc::new(device), &options).unwrap();
        check(&again, &map, &mut numbers);
    }
}

#[test]
fn writers_and_readers_work_while_it_compacts() {
    let mut options = options(Some(Duration::from_millis(1)));
    options.store.compaction_trigger = 4;
    options.operator = Some(Operator::Counter);
    let db = Db::in_memory(&options).unwrap();
    let one = 1u64.to_le_bytes();
    thread::scope(|scope| {
        for writer in 0..3u64 {
            let db = &db;
            scope.spawn(move || {
                let mut numbers = Numbers(seed(90 + writer));
                for round in 1..=300u64 {
                    for key in 0..20u8 {
                        db.merge([key], one).unwrap();
                        db.merge([100 + writer as u8, key], one).unwrap();
                    }
                    // Each thread sees all of its own writes.
                    let own = db.get([100 + writer as u8, 7]).unwrap().unwrap();
                    assert_eq!(own, round.to_le_bytes());
                    assert_eq!(db.prefix([100 + writer as u8]).unwrap().count(), 20);
                    thread::sleep(Duration::from_millis(numbers.below(8)));
                }
            });
        }
    });
    for key in 0..20u8 {
        assert_eq!(db.get([key]).unwrap().unwrap(), 900u64.to_le_bytes());
    }
}
