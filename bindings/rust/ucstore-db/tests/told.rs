//! Reports of a database: events, the progress of an opening, its operator and its statistics.

mod common;

use common::{map_of, open, Call, Device, Numbers};
use std::mem::MaybeUninit;
use std::sync::{Arc, Mutex, OnceLock};
use std::thread;
use std::time::{Duration, Instant};
use ucstore_db::{Db, Error, Event, Listener, Operator, Options, Progress};

/// The events that a listener was told.
struct Told<T>(Arc<Mutex<Vec<T>>>);

impl<T: Clone + Send + 'static> Told<T> {
    fn listener() -> (Told<T>, Option<Listener<T>>) {
        let told = Arc::<Mutex<Vec<T>>>::default();
        let listener = {
            let told = Arc::clone(&told);
            Listener::new(move |it: &T| told.lock().unwrap().push(it.clone()))
        };
        (Told(told), Some(listener))
    }

    fn take(&self) -> Vec<T> {
        std::mem::take(&mut self.0.lock().unwrap())
    }

    /// Waits until something was told of which that is so.
    fn wait_for(&self, is_so: impl Fn(&T) -> bool) -> T {
        let begun = Instant::now();
        loop {
            if let Some(it) = self.0.lock().unwrap().iter().find(|it| is_so(it)) {
                return it.clone();
            }
            assert!(begun.elapsed() < Duration::from_secs(20), "it isn't told");
            thread::sleep(Duration::from_millis(1));
        }
    }
}

fn open_with(device: &Device, options: &Options) -> Result<Db, Error> {
    Db::open_on(Arc::new(device.clone()), options)
}

#[test]
fn flushes_compactions_and_checkpoints_are_told() {
    let (told, events) = Told::listener();
    let options = Options {
        events,
        ..Default::default()
    };
    let db = open_with(&Device::default(), &options).unwrap();
    for round in 0..4 {
        db.put("k", "v").unwrap();
        db.flush().unwrap();
        if round == 0 {
            assert!(matches!(
                told.take()[..],
                [Event::Flushed {
                    runs: 1,
                    bytes: 10..=64,
                    ..
                }]
            ));
        }
    }
    db.compact().unwrap();
    told.wait_for(|event| matches!(event, Event::Compacted { runs: 1, .. }));
    // Each run has a key of a byte with a value of a byte, and 8 bytes for the sequence.
    let stats = db.stats();
    assert_eq!((stats.flushes, stats.flush_bytes), (4, 40));
    assert_eq!((stats.compaction_read, stats.compaction_written), (40, 10));
    assert_eq!(stats.run_amplification(), 1.25);
    db.checkpoint().unwrap();
    let made = told.wait_for(|event| matches!(event, Event::Checkpointed { .. }));
    let Event::Checkpointed { file, bytes, .. } = made else {
        unreachable!();
    };
    assert_eq!((&*file, bytes), ("000002-4.runs", db.stats().base_bytes));
    // Nothing is gathered: no run is made.
    told.take();
    db.flush().unwrap();
    assert!(told.take().is_empty());
}

#[test]
fn a_stall_is_told_when_it_begins() {
    let (told, events) = Told::listener();
    let mut options = Options {
        events,
        slow_trigger: 1,
        ..Default::default()
    };
    options.store.compaction_trigger = 100;
    options.store.stop_trigger = 100;
    let db = Db::in_memory(&options).unwrap();
    db.put("k", "v").unwrap();
    db.flush().unwrap();
    told.take();
    for _ in 0..3 {
        db.put("k", "v").unwrap();
    }
    told.wait_for(|event| matches!(event, Event::Stalled { .. }));
    assert!(matches!(told.take()[..], [Event::Stalled { runs: 1 }]));
    let stats = db.stats();
    assert_eq!((stats.stalls, stats.slowed, stats.flushes), (1, 3, 1));
    assert!(stats.stalled >= Duration::from_millis(3));
}

#[test]
fn faults_are_told() {
    let (told, events) = Told::listener();
    let options = Options {
        events,
        checkpoint_least: 1,
        checkpoint_ratio: 0,
        ..Default::default()
    };
    let device = Device::default();
    let db = open_with(&device, &options).unwrap();
    device.fail(Some(Call::Rename), 0, true);
    db.put("k", "v").unwrap();
    // A checkpoint in the background fails, and writes go on.
    let failed = told.wait_for(|event| matches!(event, Event::Failed { .. }));
    assert!(matches!(
        failed,
        Event::Failed {
            error: Error::File { .. }
        }
    ));
    assert!(db.failure().is_none());
    device.fail(Some(Call::Append), 0, true);
    db.put("k", "v").unwrap_err();
    told.wait_for(|event| {
        let Event::Failed { error } = event else {
            return false;
        };
        error.to_string().contains(".log: Append fails")
    });
    // It is told once, and the close isn't one.
    told.take();
    db.put("k", "v").unwrap_err();
    db.close().unwrap_err();
    assert!(told.take().is_empty());
}

#[test]
fn a_listener_may_call_the_database() {
    static DB: OnceLock<Db> = OnceLock::new();
    let (told, _) = Told::listener();
    let seen = Arc::clone(&told.0);
    let events = Listener::new(move |_: &Event| {
        let db = DB.get().unwrap();
        let value = db.get("k").unwrap().unwrap();
        seen.lock().unwrap().push((db.stats().flushes, value));
    });
    let options = Options {
        events: Some(events),
        ..Default::default()
    };
    let db = DB.get_or_init(|| open_with(&Device::default(), &options).unwrap());
    db.put("k", "v").unwrap();
    db.flush().unwrap();
    db.checkpoint().unwrap();
    assert_eq!(told.take(), [(1, b"v".to_vec()), (1, b"v".to_vec())]);
}

#[test]
fn a_listener_may_close_the_database() {
    static DB: OnceLock<Db> = OnceLock::new();
    let (told, _) = Told::listener();
    let seen = Arc::clone(&told.0);
    let events = Listener::new(move |event: &Event| {
        // A thread of the database's own tells of a compaction.
        if matches!(event, Event::Compacted { .. }) {
            let outcome = DB.get().unwrap().close();
            seen.lock().unwrap().push(outcome.is_ok());
        }
    });
    let mut options = Options {
        events: Some(events),
        ..Default::default()
    };
    options.store.compaction_trigger = 2;
    let device = Device::default();
    let db = DB.get_or_init(|| open_with(&device, &options).unwrap());
    for _ in 0..2 {
        db.put("k", "v").unwrap();
        db.flush().unwrap();
    }
    told.wait_for(|is_closed| *is_closed);
    assert!(matches!(db.put("k", "v"), Err(Error::Closed)));
    assert_eq!(map_of(&open(&device).unwrap()).len(), 1);
}

#[test]
fn the_progress_of_an_opening_is_told() {
    let device = Device::default();
    let db = open(&device).unwrap();
    for row in 0..40u8 {
        db.put([row], vec![row; 100_000]).unwrap();
    }
    db.checkpoint().unwrap();
    for row in 0..20u8 {
        db.put([row], vec![row; 100_000]).unwrap();
    }
    drop(db);
    let (told, progress) = Told::<Progress>::listener();
    let options = Options {
        progress,
        ..Default::default()
    };
    let db = open_with(&device, &options).unwrap();
    assert_eq!(map_of(&db).len(), 40);
    let (told, logs) = (told.take(), device.logs());
    let whole = logs.values().map(Vec::len).sum::<usize>() as u64;
    assert!(told.len() >= 5 && told.iter().all(|it| it.whole == whole));
    assert!(told.windows(2).all(|pair| pair[0].read < pair[1].read));
    assert_eq!(told.last().unwrap().read, whole);
    let mut names: Vec<_> = told.iter().map(|it| &*it.file).collect();
    names.dedup();
    let (first, last) = (names[0], names[names.len() - 1]);
    assert_eq!((first, last), ("000002-40.runs", "000002.log"));
    let runs = &names[1..names.len() - 1];
    assert!(!runs.is_empty() && runs.iter().all(|name| name.ends_with(".run")));
}

#[test]
fn a_folder_keeps_its_operator() {
    let counters = Options {
        operator: Some(Operator::Counter),
        ..Default::default()
    };
    let device = Device::default();
    drop(open_with(&device, &counters).unwrap());
    let files = device.files();
    assert_eq!(files["OPERATOR"], b"counter\n");
    for recover_to_fault in [false, true] {
        let others = Options {
            operator: Some(Operator::Append),
            recover_to_fault,
            ..Default::default()
        };
        let refused = open_with(&device, &others).unwrap_err();
        assert_eq!(
            refused.to_string(),
            "OPERATOR names counter: the folder can't be opened with append"
        );
        assert!(device.files() == files);
    }
    drop(open_with(&device, &counters).unwrap());
}

#[test]
fn a_folder_without_an_operator_gets_one() {
    let device = Device::default();
    open(&device).unwrap().put("k", "v").unwrap();
    let logs = device.logs();
    let older = Device::of(&logs);
    let maximum = Options {
        operator: Some(Operator::Maximum),
        ..Default::default()
    };
    assert_eq!(map_of(&open_with(&older, &maximum).unwrap()).len(), 1);
    assert_eq!(older.files()["OPERATOR"], b"maximum\n");
    let append = Options {
        operator: Some(Operator::Append),
        ..Default::default()
    };
    assert!(matches!(
        open_with(&older, &append),
        Err(Error::OtherOperator {
            made: Operator::Maximum,
            asked: Operator::Append
        })
    ));
}

#[test]
fn an_operator_is_kept_before_the_first_log() {
    for call in 0.. {
        let device = Device::default();
        device.fail(None, call, true);
        let is_opened = open(&device).is_ok();
        for seed in 0..8 {
            let files = device.crash(&mut Numbers(seed)).files();
            let has_log = files.keys().any(|name| name.ends_with(".log"));
            assert!(!has_log || files["OPERATOR"] == b"append\n");
        }
        if is_opened {
            break;
        }
    }
}

#[test]
fn numbers_of_work_are_counted() {
    let device = Device::default();
    let db = open_with(&device, &Options::default()).unwrap();
    for _ in 0..10 {
        db.put("key", "value").unwrap();
    }
    assert_eq!(db.get("key").unwrap().unwrap(), b"value");
    let snapshot = db.snapshot().unwrap();
    assert_eq!(snapshot.get_many(["key", "other"]).unwrap()[1], None);
    snapshot.get("key").unwrap();
    let (mut value, mut room) = (vec![], [MaybeUninit::uninit(); 2]);
    assert!(snapshot.get_into("key", &mut value).unwrap() && value == b"value");
    assert!(!db.get_into("other", &mut value).unwrap() && value.is_empty());
    assert_eq!(snapshot.get_to_room("other", &mut room).unwrap(), None);
    assert_eq!(db.get_to_room("key", &mut room).unwrap(), Some(5));
    let stats = db.stats();
    assert_eq!((stats.batches, stats.groups, stats.lookups), (10, 10, 8));
    // Each batch has a header of 12 bytes, and a put has a tag and two lengths.
    assert_eq!(stats.user_bytes, 10 * (12 + 3 + 8));
    let logged = device.files()["000001.log"].len() as u64;
    assert_eq!((stats.logged_bytes, stats.log_bytes), (logged, logged));
    assert!(stats.syncs == 10 && stats.sync_p50 <= stats.sync_p99);
    db.checkpoint().unwrap();
    let stats = db.stats();
    let files = device.files();
    let base = (files["000002-10.runs"].len() + files["000001.run"].len()) as u64;
    assert_eq!((stats.base_bytes, stats.log_bytes), (base, 0));
    assert_eq!((stats.run_files, stats.kept_bytes), (1, 0));
    let wanted = (logged + base) as f64 / stats.user_bytes as f64;
    assert_eq!(stats.write_amplification(), wanted);
}

/// Whether an estimate of how many lookups were answered somewhere is near the number: each that was asked counts for 64.
fn is_near(estimate: u64, count: u64) -> bool {
    estimate.abs_diff(count) <= 3 * 64
}

#[test]
fn lookups_are_counted_by_where_they_are_answered() {
    let db = Db::in_memory(&Options::default()).unwrap();
    db.put("run", "v").unwrap();
    db.flush().unwrap();
    db.put("memtable", "v").unwrap();
    let snapshot = db.snapshot().unwrap();
    let mut value = Vec::new();
    for _ in 0..3200 {
        db.get("memtable").unwrap();
        snapshot.get("run").unwrap();
        db.get_into("run", &mut value).unwrap();
    }
    for _ in 0..100 {
        snapshot.get_many(["nowhere"; 96]).unwrap();
        db.get_many(["memtable"; 32]).unwrap();
    }
    let stats = db.stats();
    assert_eq!(stats.lookups, 3 * 3200 + 100 * 128);
    assert!(is_near(stats.lookups_by_memtable, 6400), "{stats}");
    assert!(is_near(stats.lookups_by_filters, 9600), "{stats}");
    assert!(is_near(stats.lookups_by_runs, 6400), "{stats}");
}
