//! Checkpoints as lists of run files: what they write and keep, and what an opening has of them.

mod common;

use common::{is_long, map_of, seed, Device, Map, Numbers};
use std::collections::BTreeMap;
use std::sync::atomic::{AtomicBool, AtomicU64, Ordering};
use std::sync::Arc;
use std::thread;
use ucstore_db::{Batch, Db, Error, Event, Listener, Operator, Options, Snapshot, Sync};

const OPERATORS: [Operator; 5] = [
    Operator::Append,
    Operator::Counter,
    Operator::Maximum,
    Operator::Tail,
    Operator::Mixed,
];

/// Options without threads, and without checkpoints but those that are asked for. Runs stay apart until there are `trigger` of them.
fn options(trigger: u32) -> Options {
    let mut options = Options {
        operator: Some(Operator::Append),
        compactors: 0,
        sync: Sync::Never,
        checkpoint_least: u64::MAX,
        ..Default::default()
    };
    options.store.write_buffer_size = 10_000;
    options.store.compaction_trigger = trigger;
    options.store.stop_trigger = trigger.max(36);
    options
}

fn open_with(device: &Device, options: &Options) -> Result<Db, Error> {
    Db::open_on(Arc::new(device.clone()), options)
}

fn names(device: &Device) -> Vec<String> {
    let mut names = Vec::from_iter(device.files().into_keys());
    names.retain(|name| name != "OPERATOR");
    names
}

fn rows_of(snapshot: &Snapshot) -> Map {
    snapshot.iter().unwrap().map(Result::unwrap).collect()
}

/// Writes a drawn batch to some databases.
fn write_drawn(databases: &[&Db], numbers: &mut Numbers) {
    let mut batch = Batch::new();
    for _ in 0..1 + numbers.below(4) {
        let mut key = || vec![b'a' + numbers.below(8) as u8, b'a' + numbers.below(8) as u8];
        let (key, other) = (key(), key());
        let value = numbers.below(1 << 40).to_le_bytes();
        match numbers.below(10) {
            0..=3 => batch.put(key, value),
            4..=6 => batch.merge(key, value),
            7..=8 => batch.delete(key),
            _ => batch.delete_range(key, other),
        }
        .unwrap();
    }
    for db in databases {
        db.write(&batch).unwrap();
    }
}

#[test]
fn an_opening_has_what_was_written_under_each_operator() {
    let mut numbers = Numbers(seed(21));
    for operator in OPERATORS.into_iter().cycle().take(15) {
        let device = Device::default();
        let options = Options {
            operator: Some(operator),
            ..options(4)
        };
        let model = Db::in_memory(&options).unwrap();
        let mut db = open_with(&device, &options).unwrap();
        let mut held = vec![];
        for step in 0..200 {
            match numbers.below(20) {
                0..=1 => db.flush().unwrap(),
                2 => db.compact().unwrap(),
                3..=4 => {
                    db.checkpoint().unwrap();
                    let names = names(&device);
                    assert!(names.iter().any(|it| it.ends_with(".runs")), "{names:?}");
                }
                5 => held.push((db.snapshot().unwrap(), model.snapshot().unwrap())),
                6 => {
                    let snapshot = db.snapshot().unwrap();
                    write_drawn(&[&db, &model], &mut numbers);
                    db.checkpoint_to(&snapshot).unwrap();
                }
                7 => {
                    for (one, other) in held.drain(..) {
                        assert_eq!(rows_of(&one), rows_of(&other));
                    }
                    drop(db);
                    db = open_with(&device, &options).unwrap();
                    assert_eq!(map_of(&db), map_of(&model), "{operator:?}, step {step}");
                    let last = model.snapshot().unwrap().sequence();
                    assert_eq!(db.snapshot().unwrap().sequence(), last);
                }
                _ => write_drawn(&[&db, &model], &mut numbers),
            }
        }
    }
}

#[test]
fn only_new_runs_are_written() {
    let device = Device::default();
    let db = open_with(&device, &options(3)).unwrap();
    let write = |key: u8| db.put([key], vec![key; 1000]).unwrap();
    let size = |name: &str| device.files()[name].len() as u64;
    db.checkpoint().unwrap();
    assert_eq!(names(&device), ["000002-0.runs", "000002.log"]);
    write(1);
    db.checkpoint().unwrap();
    let first = ["000001.run", "000003-1.runs", "000003.log"];
    assert_eq!(names(&device), first);
    let run = size("000001.run");
    assert!((1000..1200).contains(&run), "{run}");
    write(2);
    db.checkpoint().unwrap();
    let second = ["000001.run", "000002.run", "000004-2.runs", "000004.log"];
    assert_eq!(names(&device), second);
    let stats = db.stats();
    assert_eq!((stats.run_files, stats.kept_bytes), (2, run));
    // A list is 36 bytes, and 36 for each run.
    let lists = 36 + 72 + 108;
    let written = lists + run + size("000002.run");
    assert_eq!((stats.base_bytes, stats.checkpoints), (written, 3));
    // Nothing is new.
    db.checkpoint().unwrap();
    assert_eq!(names(&device), second);
    assert_eq!(db.stats().checkpoints, 3);
    // The flush of a third one compacts all.
    write(3);
    db.flush().unwrap();
    assert_eq!(db.stats().runs, 1);
    db.checkpoint().unwrap();
    assert_eq!(
        names(&device),
        ["000003.run", "000005-3.runs", "000005.log"]
    );
    assert_eq!(db.stats().run_files, 3);
    let map = map_of(&db);
    drop(db);
    // An opening knows the files again, and their numbers.
    let db = open_with(&device, &options(3)).unwrap();
    db.put("k", "v").unwrap();
    db.checkpoint().unwrap();
    assert_eq!(db.stats().run_files, 1);
    let again = ["000003.run", "000004.run", "000006-4.runs", "000006.log"];
    assert_eq!(names(&device), again);
    assert_eq!(map_of(&db).len(), map.len() + 1);
}

/// A checkpoint of a snapshot is a list if no write of that is in a memtable, and a base otherwise.
#[test]
fn a_folder_with_a_base_becomes_one_of_run_files() {
    let device = Device::default();
    let db = open_with(&device, &options(9)).unwrap();
    for key in ["a", "b"] {
        db.put(key, "1").unwrap();
        db.checkpoint_to(&db.snapshot().unwrap()).unwrap();
    }
    assert_eq!(names(&device), ["000003-2.base", "000003.log"]);
    assert_eq!(db.stats().run_files, 0);
    db.put("c", "1").unwrap();
    drop(db);
    let db = open_with(&device, &options(9)).unwrap();
    let map = map_of(&db);
    assert_eq!(map.len(), 3);
    db.checkpoint().unwrap();
    assert_eq!(
        names(&device),
        ["000001.run", "000004-3.runs", "000004.log"]
    );
    // And back again.
    db.put("d", "1").unwrap();
    db.checkpoint_to(&db.snapshot().unwrap()).unwrap();
    assert_eq!(names(&device), ["000005-4.base", "000005.log"]);
    db.flush().unwrap();
    db.put("e", "1").unwrap();
    db.flush().unwrap();
    db.checkpoint_to(&db.snapshot().unwrap()).unwrap();
    let runs = ["000002.run", "000003.run", "000004.run"];
    let rest = ["000006-5.runs", "000006.log"];
    assert_eq!(names(&device), [&runs[..], &rest].concat());
    drop(db);
    let db = open_with(&device, &options(9)).unwrap();
    assert_eq!(map_of(&db).len(), map.len() + 2);
}

/// Of an old base and a list of one number the one that has more is read.
#[test]
fn a_list_and_a_base_of_one_number_may_stand_side_by_side() {
    let device = Device::default();
    let db = open_with(&device, &options(9)).unwrap();
    db.next_log().unwrap();
    db.put("0", "0").unwrap();
    db.next_log().unwrap();
    db.put("a", "1").unwrap();
    db.flush().unwrap();
    let first = db.snapshot().unwrap();
    db.put("b", "2").unwrap();
    let second = db.snapshot().unwrap();
    db.put("c", "3").unwrap();
    db.checkpoint_to(&first).unwrap();
    let listed = device.files();
    let list = ["000001.run", "000002-2.runs", "000002.log", "000003.log"];
    assert_eq!(names(&device), list);
    db.checkpoint_to(&second).unwrap();
    let base = ["000002-3.base", "000002.log", "000003.log"];
    assert_eq!(names(&device), base);
    let mut both = device.files();
    drop(db);
    both.extend(listed.clone());
    both.insert("000002-2.base".into(), vec![7]);
    let check = |files: &BTreeMap<_, _>, left: &[&str]| {
        let device = Device::of(files);
        let db = open_with(&device, &options(9)).unwrap();
        assert_eq!(map_of(&db).len(), 4);
        assert_eq!(names(&device), left);
    };
    // A later log without a batch is removed.
    check(&both, &base[..2]);
    both.remove("000002-3.base");
    check(&both, &list[..3]);
}

#[test]
fn checkpoints_at_once_are_made_one_after_the_other() {
    let device = Device::default();
    let db = open_with(
        &device,
        &Options {
            compactors: 2,
            ..options(4)
        },
    )
    .unwrap();
    thread::scope(|scope| {
        for thread in 0..4u8 {
            let db = &db;
            scope.spawn(move || {
                for number in 0..30u8 {
                    db.put([thread, number], vec![number; 700]).unwrap();
                    match number % 3 {
                        0 => db.checkpoint().unwrap(),
                        1 => db.checkpoint_to(&db.snapshot().unwrap()).unwrap(),
                        _ => db.flush().unwrap(),
                    }
                }
            });
        }
    });
    db.checkpoint().unwrap();
    let map = map_of(&db);
    assert_eq!((map.len(), db.stats().log_bytes), (120, 0));
    drop(db);
    let again = open_with(&device, &options(4)).unwrap();
    assert_eq!(map_of(&again), map);
    let names = names(&device);
    let runs = names.iter().filter(|name| name.ends_with(".run"));
    assert_eq!(runs.count() as u64, again.stats().runs);
}

/// A checkpoint that the database makes by itself flushes nothing, if there are runs: its list ends where a batch ends, within a log.
#[test]
fn checkpoints_beside_writers_end_with_a_batch() {
    let device = Device::default();
    let made = Arc::new(AtomicU64::new(0));
    let counted = Arc::clone(&made);
    let mut options = Options {
        compactors: 2,
        checkpoint_least: 6000,
        events: Some(Listener::new(move |event: &Event| {
            if let Event::Checkpointed { file, .. } = event {
                counted.fetch_add(u64::from(file.ends_with(".runs")), Ordering::SeqCst);
            }
        })),
        ..options(4)
    };
    options.store.write_buffer_size = 2000;
    let db = open_with(&device, &options).unwrap();
    let is_over = AtomicBool::new(false);
    let acknowledged = [const { AtomicU64::new(0) }; 4];
    thread::scope(|scope| {
        let writers = Vec::from_iter((0..4u8).map(|thread| {
            let (db, acknowledged) = (&db, &acknowledged[usize::from(thread)]);
            scope.spawn(move || write_numbers(db, thread, acknowledged))
        }));
        scope.spawn(|| {
            let mut numbers = Numbers(seed(23));
            while !is_over.load(Ordering::SeqCst) {
                let least = acknowledged.each_ref().map(|it| it.load(Ordering::SeqCst));
                check_numbers(&device.restarted(), &least);
                // No write is synced, so a crash may lose the last ones.
                check_numbers(&device.crash(&mut numbers), &[0; 4]);
            }
        });
        for writer in writers {
            writer.join().unwrap();
        }
        is_over.store(true, Ordering::SeqCst);
    });
    db.close().unwrap();
    check_numbers(&device, &acknowledged.map(AtomicU64::into_inner));
    assert!(made.load(Ordering::SeqCst) > 5, "{made:?}");
}

/// Writes numbers, each to two keys of a thread: by small batches, by one that is larger than a memtable, and by transactions.
fn write_numbers(db: &Db, thread: u8, acknowledged: &AtomicU64) {
    for number in 1..=if is_long() { 5000 } else { 500u64 } {
        let bytes = number.to_le_bytes();
        let (one, other) = ([thread, b'a'], [thread, b'b']);
        if number % 5 == 0 {
            let mut transaction = db.transaction().unwrap();
            assert!(transaction.get(one).unwrap().is_some());
            transaction.put(one, bytes).unwrap();
            transaction.put(other, bytes).unwrap();
            transaction.commit().unwrap();
        } else {
            let mut batch = Batch::new();
            batch.put(one, bytes).unwrap();
            for place in 0..if number % 7 == 0 { 100 } else { 3 } {
                let key = [thread, b'c', place];
                match number % 4 {
                    0 => batch.delete(key),
                    1 => batch.merge(key, [b'v'; 40]),
                    2 => batch.delete_range(key, [thread, b'd']),
                    _ => batch.put(key, [b'v'; 40]),
                }
                .unwrap();
            }
            batch.put(other, bytes).unwrap();
            db.write(&batch).unwrap();
        }
        acknowledged.store(number, Ordering::SeqCst);
    }
}

/// Opens a device: each thread's two keys have the same number, which isn't below one that was acknowledged.
fn check_numbers(device: &Device, least: &[u64; 4]) {
    let db = open_with(device, &options(4)).unwrap();
    for (thread, least) in least.iter().enumerate() {
        let number = |key: u8| {
            let found = db.get([thread as u8, key]).unwrap();
            found.map_or(0, |bytes| {
                u64::from_le_bytes(bytes.try_into().expect("8 bytes"))
            })
        };
        let (one, other) = (number(b'a'), number(b'b'));
        assert_eq!(one, other);
        assert!(one >= *least, "{one} of {least}");
    }
}

/// A database that is compacted when it is idle has another store then, whose runs have the IDs of others.
#[test]
fn an_idle_database_writes_its_runs_anew() {
    let device = Device::default();
    let mut options = Options {
        compactors: 1,
        compact_when_idle: Some(std::time::Duration::from_millis(5)),
        ..options(9)
    };
    options.store.write_buffer_size = 1000;
    let db = open_with(&device, &options).unwrap();
    for round in 0..4u8 {
        for key in 0..20u8 {
            db.put([key], [round; 100]).unwrap();
            db.put([round, key], [key; 10]).unwrap();
        }
        let before = db.snapshot().unwrap();
        db.checkpoint().unwrap();
        for _ in 0..400 {
            if db.stats().runs == 1 && db.stats().gathered == 0 {
                break;
            }
            thread::sleep(std::time::Duration::from_millis(5));
        }
        db.put([100 + round], "v").unwrap();
        db.checkpoint().unwrap();
        db.checkpoint_to(&before).unwrap();
        let again = open_with(&device.restarted(), &options).unwrap();
        assert_eq!(map_of(&again), map_of(&db), "round {round}");
    }
}

#[test]
fn a_slow_checkpoint_ends_when_the_database_closes() {
    let device = Device::default();
    let options = Options {
        checkpoint_bytes_per_second: Some(1 << 20),
        ..options(4)
    };
    let db = open_with(&device, &options).unwrap();
    for key in 0..60u8 {
        db.put([key], vec![key; 10_000]).unwrap();
    }
    let begun = std::time::Instant::now();
    db.checkpoint().unwrap();
    assert!(begun.elapsed() >= std::time::Duration::from_millis(200));
    db.put("long", vec![7; 20_000_000]).unwrap();
    db.flush().unwrap();
    db.sync().unwrap();
    let begun = std::time::Instant::now();
    thread::scope(|scope| {
        let checkpoint = scope.spawn(|| db.checkpoint());
        thread::sleep(std::time::Duration::from_millis(300));
        db.close().unwrap();
        let refused = checkpoint.join().unwrap().unwrap_err();
        assert!(matches!(refused, Error::Closed), "{refused}");
    });
    assert!(begun.elapsed() < std::time::Duration::from_secs(15));
    assert_eq!(map_of(&open_with(&device, &options).unwrap()).len(), 61);
}
