//! Threads that share a database, and the threads of its own.

mod common;

use common::{is_long, map_of, seed, Call, Device, Numbers};
use std::io;
use std::sync::atomic::{AtomicU64, Ordering};
use std::sync::{Arc, Condvar, Mutex};
use std::thread;
use std::time::{Duration, Instant};
use ucstore_db::{Batch, Db, Error, File, Folder, Operator, Options, Snapshot, Sync};

const THREADS: u64 = 8;

fn counters() -> Options {
    Options {
        operator: Some(Operator::Counter),
        ..Default::default()
    }
}

fn number(value: Option<Vec<u8>>) -> u64 {
    value.map_or(0, |text| u64::from_le_bytes(text.try_into().unwrap()))
}

fn one() -> [u8; 8] {
    1u64.to_le_bytes()
}

/// Waits until something is so.
fn wait_for(mut is_so: impl FnMut() -> bool) {
    let begun = Instant::now();
    while !is_so() {
        assert!(begun.elapsed() < Duration::from_secs(20), "it never is so");
        thread::sleep(Duration::from_millis(1));
    }
}

/// Lets threads do something with a number of their own.
fn with_threads(work: impl Fn(u64) + std::marker::Sync) {
    thread::scope(|scope| {
        for thread in 0..THREADS {
            let work = &work;
            scope.spawn(move || work(thread));
        }
    });
}

#[test]
fn a_database_is_shared_and_sent() {
    fn check<T: Clone + Send + std::marker::Sync>() {}
    check::<Db>();
    fn check_sent<T: Clone + Send>() {}
    check_sent::<Snapshot>();
}

/// The sum of all counters but the whole, and the whole.
fn sums(db: &Db) -> (u64, u64) {
    let (mut sum, mut whole) = (0, 0);
    let mut rows = db.iter().unwrap();
    while let Some((key, value)) = rows.next_row().unwrap() {
        let value = number(Some(value.to_vec()));
        match key {
            b"whole" => whole = value,
            _ => sum += value,
        }
    }
    (sum, whole)
}

/// Counts in batches, so that the whole is the sum at each moment, and reads, flushes, compacts and makes checkpoints.
fn count_together(db: &Db, writes: u64) {
    let (begun, acknowledged) = (AtomicU64::new(0), AtomicU64::new(0));
    with_threads(|thread| {
        let mut numbers = Numbers(seed(thread));
        for _ in 0..writes {
            match numbers.below(40) {
                0 => db.flush().unwrap(),
                1 => db.compact().unwrap(),
                2 => db.checkpoint().unwrap(),
                3..=12 => {
                    let least = acknowledged.load(Ordering::SeqCst);
                    let (sum, whole) = sums(db);
                    assert_eq!(sum, whole);
                    assert!(least <= whole && whole <= begun.load(Ordering::SeqCst));
                }
                _ => {
                    begun.fetch_add(1, Ordering::SeqCst);
                    let mut batch = Batch::new();
                    batch.merge("whole", one()).unwrap();
                    let key = format!("k{}", numbers.below(50));
                    batch.merge(key, one()).unwrap();
                    db.write(&batch).unwrap();
                    acknowledged.fetch_add(1, Ordering::SeqCst);
                }
            }
        }
    });
    let whole = acknowledged.into_inner();
    assert_eq!(sums(db), (whole, whole));
    assert_eq!(db.stats().batches, whole);
}

fn writes() -> u64 {
    if is_long() {
        20_000
    } else {
        1000
    }
}

#[test]
fn counters_agree_at_each_moment_in_memory() {
    let mut options = counters();
    options.store.write_buffer_size = 2000;
    count_together(&Db::in_memory(&options).unwrap(), writes());
}

#[test]
fn counters_agree_at_each_moment_on_a_device() {
    let mut options = counters();
    options.store.write_buffer_size = 2000;
    options.checkpoint_least = 5000;
    let device = Device::default();
    let db = Db::open_on(Arc::new(device.clone()), &options).unwrap();
    count_together(&db, writes());
    let (map, numbers) = (map_of(&db), &mut Numbers(1));
    let crashed = device.crash(numbers);
    db.close().unwrap();
    for device in [device, crashed] {
        let again = Db::open_on(Arc::new(device), &options).unwrap();
        assert_eq!(map_of(&again), map);
    }
}

#[test]
fn a_snapshot_is_read_by_clones() {
    let db = Db::in_memory(&counters()).unwrap();
    db.merge("k", one()).unwrap();
    let snapshot = db.snapshot().unwrap();
    thread::scope(|scope| {
        for _ in 0..THREADS {
            let snapshot = snapshot.clone();
            scope.spawn(move || {
                for _ in 0..100 {
                    assert_eq!(number(snapshot.get("k").unwrap()), 1);
                    assert_eq!(snapshot.prefix("k").unwrap().count(), 1);
                }
            });
        }
        for _ in 0..100 {
            db.merge("k", one()).unwrap();
        }
    });
    assert_eq!(snapshot.sequence(), 1);
    assert_eq!(snapshot.get_many(["k", "l"]).unwrap()[1], None);
}

#[test]
fn runs_stay_few_by_themselves() {
    let mut options = counters();
    options.store.write_buffer_size = 100;
    let db = Db::in_memory(&options).unwrap();
    for write in 0..5000u64 {
        db.merge((write % 97).to_le_bytes(), one()).unwrap();
        assert!(db.stats().runs <= options.store.stop_trigger.into());
    }
    wait_for(|| db.stats().runs <= options.store.compaction_trigger.into());
    assert!(db.stats().compactions > 0);
    assert_eq!(map_of(&db).len(), 97);
}

#[test]
fn writes_wait_for_jobs_that_have_all_runs() {
    let mut options = counters();
    // Each write makes a run, and all runs that there may be are compacted at once.
    options.store.write_buffer_size = 1;
    options.store.compaction_trigger = 255;
    options.store.stop_trigger = 255;
    options.slow_trigger = u32::MAX;
    let db = Db::in_memory(&options).unwrap();
    let writers = AtomicU64::new(THREADS / 2);
    with_threads(|thread| {
        if thread % 2 == 0 {
            for write in 0..5000u64 {
                db.merge((write % 97).to_le_bytes(), one()).unwrap();
            }
            writers.fetch_sub(1, Ordering::SeqCst);
        }
        while writers.load(Ordering::SeqCst) > 0 {
            db.compact().unwrap();
        }
    });
    let values = db.iter().unwrap().map(|row| number(Some(row.unwrap().1)));
    assert_eq!(values.sum::<u64>(), 5000 * THREADS / 2);
}

#[test]
fn writes_are_slowed_while_there_are_many_runs() {
    let mut options = counters();
    options.slow_trigger = 1;
    let db = Db::in_memory(&options).unwrap();
    db.merge("k", one()).unwrap();
    assert_eq!(db.stats().slowed, 0);
    db.flush().unwrap();
    for _ in 0..3 {
        db.merge("k", one()).unwrap();
    }
    assert_eq!(db.stats().slowed, 3);
}

#[test]
fn checkpoints_are_made_by_themselves() {
    let mut options = counters();
    options.checkpoint_least = 10_000;
    options.checkpoint_ratio = 0;
    let device = Device::default();
    let db = Db::open_on(Arc::new(device.clone()), &options).unwrap();
    for _ in 0..2000 {
        db.merge("k", one()).unwrap();
    }
    wait_for(|| db.stats().checkpoints > 0 && db.stats().log_bytes < 10_000);
    db.close().unwrap();
    let files = device.files();
    let logs = files.iter().filter(|(name, _)| name.ends_with(".log"));
    assert!(logs.map(|(_, log)| log.len()).sum::<usize>() < 20_000);
    // The runs have the operands until they are compacted, each in 14 bytes.
    let all = files.values().map(Vec::len).sum::<usize>();
    assert!(all < 20_000 + 2000 * 15, "{:?}", files.keys());
    let again = Db::open_on(Arc::new(device), &options).unwrap();
    assert_eq!(number(again.get("k").unwrap()), 2000);
}

#[test]
fn writes_are_synced_every_so_often() {
    let mut options = counters();
    options.sync = Sync::EveryMs(5);
    let device = Device::default();
    let db = Db::open_on(Arc::new(device.clone()), &options).unwrap();
    db.merge("k", one()).unwrap();
    wait_for(|| db.stats().syncs > 0);
    // A crash now keeps it.
    let crashed = device.crash(&mut Numbers(1));
    let again = Db::open_on(Arc::new(crashed), &options).unwrap();
    assert_eq!(number(again.get("k").unwrap()), 1);
    // A sync that fails is told to later writes, and never tried again.
    device.fail(Some(Call::Sync), 0, false);
    db.merge("k", one()).unwrap();
    wait_for(|| db.failure().is_some());
    assert!(matches!(db.merge("k", one()), Err(Error::ReadOnly { .. })));
    assert!(matches!(db.close(), Err(Error::ReadOnly { .. })));
}

#[test]
fn a_closed_database_refuses_writes() {
    let device = Device::default();
    let db = Db::open_on(Arc::new(device.clone()), &counters()).unwrap();
    let clone = db.clone();
    db.merge("k", one()).unwrap();
    db.close().unwrap();
    assert!(matches!(clone.merge("k", one()), Err(Error::Closed)));
    assert!(matches!(clone.checkpoint(), Err(Error::Closed)));
    assert!(matches!(clone.write(&Batch::new()), Err(Error::Closed)));
    assert!(matches!(clone.close(), Err(Error::Closed)));
    assert_eq!(number(clone.get("k").unwrap()), 1);
    assert!(clone.stats().is_read_only);
    assert!(clone.stats().to_string().ends_with(" true"));
}

/// A device whose syncs wait while it is shut.
#[derive(Clone, Default)]
struct Gate {
    device: Device,
    is_shut: Arc<(Mutex<bool>, Condvar)>,
    /// The number of syncs that wait.
    waiting: Arc<AtomicU64>,
    /// The number of syncs before one that panics, if one does.
    panics_behind: Arc<Mutex<Option<u64>>>,
}

/// A file of it.
struct GatedFile {
    gate: Gate,
    file: Box<dyn File>,
}

impl Gate {
    fn shut(&self, is_shut: bool) {
        *self.is_shut.0.lock().unwrap() = is_shut;
        self.is_shut.1.notify_all();
    }

    fn pass(&self) {
        self.waiting.fetch_add(1, Ordering::SeqCst);
        let is_shut = self.is_shut.0.lock().unwrap();
        drop(
            self.is_shut
                .1
                .wait_while(is_shut, |is_shut| *is_shut)
                .unwrap(),
        );
        self.waiting.fetch_sub(1, Ordering::SeqCst);
        let panics_behind = self.panics_behind.lock().unwrap().take();
        assert!(panics_behind != Some(0), "the device panics");
        *self.panics_behind.lock().unwrap() = panics_behind.map(|count| count - 1);
    }

    fn waits(&self) -> bool {
        self.waiting.load(Ordering::SeqCst) > 0
    }

    fn gated(&self, file: Box<dyn File>) -> Box<dyn File> {
        let gate = self.clone();
        Box::new(GatedFile { gate, file })
    }
}

impl Folder for Gate {
    fn names(&self) -> io::Result<Vec<String>> {
        self.device.names()
    }
    fn length(&self, name: &str) -> io::Result<u64> {
        self.device.length(name)
    }
    fn read(&self, name: &str) -> io::Result<Vec<u8>> {
        self.device.read(name)
    }
    fn create(&self, name: &str) -> io::Result<Box<dyn File>> {
        Ok(self.gated(self.device.create(name)?))
    }
    fn open(&self, name: &str) -> io::Result<Box<dyn File>> {
        Ok(self.gated(Folder::open(&self.device, name)?))
    }
    fn rename(&self, from: &str, to: &str) -> io::Result<()> {
        self.device.rename(from, to)
    }
    fn remove(&self, name: &str) -> io::Result<()> {
        self.device.remove(name)
    }
    fn sync(&self) -> io::Result<()> {
        self.device.sync()
    }
}

impl File for GatedFile {
    fn append(&mut self, bytes: &[u8]) -> io::Result<()> {
        self.file.append(bytes)
    }
    fn cut(&mut self, length: u64) -> io::Result<()> {
        self.file.cut(length)
    }
    fn sync(&mut self) -> io::Result<()> {
        self.gate.pass();
        self.file.sync()
    }
}

#[test]
fn writers_that_come_together_share_a_sync() {
    let gate = Gate::default();
    let db = Db::open_on(Arc::new(gate.clone()), &counters()).unwrap();
    gate.shut(true);
    thread::scope(|scope| {
        let db = &db;
        let writer = |key: u64| move || db.merge(key.to_le_bytes(), one()).unwrap();
        scope.spawn(writer(0));
        wait_for(|| gate.waits());
        // These come while the first one is synced. Reads don't wait for any of them.
        let others: Vec<_> = (1..THREADS).map(|key| scope.spawn(writer(key))).collect();
        thread::sleep(Duration::from_millis(50));
        assert_eq!(db.get(0u64.to_le_bytes()).unwrap(), None);
        assert!(others.iter().all(|other| !other.is_finished()));
        gate.shut(false);
    });
    let stats = db.stats();
    assert_eq!((stats.batches, map_of(&db).len()), (THREADS, 8));
    assert!(
        stats.groups < THREADS && stats.syncs == stats.groups,
        "{stats}"
    );
}

#[test]
fn writers_whose_device_panics_are_told() {
    let gate = Gate::default();
    let db = Db::open_on(Arc::new(gate.clone()), &counters()).unwrap();
    gate.shut(true);
    *gate.panics_behind.lock().unwrap() = Some(1);
    thread::scope(|scope| {
        let db = &db;
        let writer = |key: u64| move || db.merge(key.to_le_bytes(), one());
        let first = scope.spawn(writer(0));
        wait_for(|| gate.waits());
        let others: Vec<_> = (1..THREADS).map(|key| scope.spawn(writer(key))).collect();
        thread::sleep(Duration::from_millis(50));
        gate.shut(false);
        first.join().unwrap().unwrap();
        for other in others {
            let error = other.join().unwrap().unwrap_err();
            assert!(matches!(error, Error::ReadOnly { .. }));
            assert!(error
                .to_string()
                .ends_with("000001.log: the device panicked"));
        }
    });
    assert_eq!(map_of(&db).len(), 1);
    assert!(db.failure().is_some() && db.close().is_err());
    let again = Db::open_on(Arc::new(gate.clone()), &counters()).unwrap();
    assert_eq!(number(again.get(0u64.to_le_bytes()).unwrap()), 1);
}

#[test]
fn reads_and_writes_go_on_beside_a_checkpoint() {
    let mut options = counters();
    options.sync = Sync::Never;
    let gate = Gate::default();
    let db = Db::open_on(Arc::new(gate.clone()), &options).unwrap();
    db.merge("k", one()).unwrap();
    db.sync().unwrap();
    gate.shut(true);
    thread::scope(|scope| {
        let checkpoint = scope.spawn(|| db.checkpoint().unwrap());
        wait_for(|| gate.waits());
        for wanted in 2..100 {
            db.merge("k", one()).unwrap();
            assert_eq!(number(db.get("k").unwrap()), wanted);
        }
        db.flush().unwrap();
        assert!(!checkpoint.is_finished());
        gate.shut(false);
    });
    assert_eq!(db.stats().checkpoints, 1);
    drop(db);
    let again = Db::open_on(Arc::new(gate), &options).unwrap();
    assert_eq!(number(again.get("k").unwrap()), 99);
}

#[test]
fn a_synced_write_keeps_those_before_it() {
    let mut options = counters();
    options.sync = Sync::Never;
    let device = Device::default();
    let db = Db::open_on(Arc::new(device.clone()), &options).unwrap();
    let mut batch = Batch::new();
    batch.merge("k", one()).unwrap();
    db.write_with(&batch, false).unwrap();
    db.write_with(&batch, true).unwrap();
    let again = Db::open_on(Arc::new(device.crash(&mut Numbers(3))), &options).unwrap();
    assert_eq!(number(again.get("k").unwrap()), 2);
}
