//! Writes on a slow device: none waits for the sync of what was written before it, unless it is to be synced itself.

mod common;

use common::{map_of, Around, Device, Numbers, Over};
use std::collections::BTreeMap;
use std::io;
use std::sync::{Arc, Condvar, Mutex};
use std::thread;
use std::time::Duration;
use ucstore_db::{Db, File, Folder, Options, Sync};

/// The least number of writes to be acknowledged while a sync is held.
const ENOUGH: u64 = 3;

/// The longest time for which a sync is held.
const MOST: Duration = Duration::from_secs(5);

/// Which syncs are held, and what became of them.
#[derive(Default)]
struct Holds {
    /// From how many bytes on the sync of a file is held, and whether that of the directory is.
    least: Option<usize>,
    of_directory: bool,
    /// The number of writes that were acknowledged.
    acknowledged: u64,
    passed: u64,
    timed_out: u64,
}

/// A device that holds a sync until some writes were acknowledged since it began.
#[derive(Clone, Default)]
struct Slow {
    device: Device,
    waiting: Arc<Mutex<BTreeMap<String, usize>>>,
    holds: Arc<(Mutex<Holds>, Condvar)>,
}

struct SlowFile {
    slow: Slow,
    file: Box<dyn File>,
    name: String,
}

impl Slow {
    fn file(&self, name: &str, file: Box<dyn File>) -> Box<dyn File> {
        Box::new(SlowFile {
            slow: self.clone(),
            file,
            name: name.into(),
        })
    }

    /// Holds syncs of files with at least as many bytes to write, or none, and those of the directory.
    fn hold(&self, least: Option<usize>, of_directory: bool) {
        let mut holds = self.holds.0.lock().unwrap();
        (holds.least, holds.of_directory) = (least, of_directory);
    }

    fn passed(&self) -> u64 {
        self.holds.0.lock().unwrap().passed
    }

    fn timed_out(&self) -> u64 {
        self.holds.0.lock().unwrap().timed_out
    }

    fn acknowledge(&self) {
        self.holds.0.lock().unwrap().acknowledged += 1;
        self.holds.1.notify_all();
    }

    fn wait_if(&self, is_held: impl Fn(&Holds) -> bool) {
        let holds = self.holds.0.lock().unwrap();
        if !is_held(&holds) {
            return;
        }
        let enough = holds.acknowledged + ENOUGH;
        let waits = |holds: &mut Holds| holds.acknowledged < enough;
        let (mut holds, timeout) = self.holds.1.wait_timeout_while(holds, MOST, waits).unwrap();
        holds.passed += 1;
        holds.timed_out += u64::from(timeout.timed_out());
    }
}

impl Around for Slow {
    fn device(&self) -> &Device {
        &self.device
    }

    fn create(&self, name: &str) -> io::Result<Box<dyn File>> {
        Ok(self.file(name, self.device.create(name)?))
    }

    fn open(&self, name: &str) -> io::Result<Box<dyn File>> {
        Ok(self.file(name, self.device.open(name)?))
    }

    fn sync(&self) -> io::Result<()> {
        self.wait_if(|holds| holds.of_directory);
        self.device.sync()
    }
}

impl File for SlowFile {
    fn append(&mut self, bytes: &[u8]) -> io::Result<()> {
        let mut waiting = self.slow.waiting.lock().unwrap();
        *waiting.entry(self.name.clone()).or_default() += bytes.len();
        self.file.append(bytes)
    }

    fn cut(&mut self, length: u64) -> io::Result<()> {
        self.file.cut(length)
    }

    fn sync(&mut self) -> io::Result<()> {
        let waiting = self.slow.waiting.lock().unwrap().remove(&self.name);
        let bytes = waiting.unwrap_or(0);
        self.slow
            .wait_if(|holds| holds.least.is_some_and(|least| bytes >= least));
        self.file.sync()
    }
}

fn open(sync: Sync) -> (Slow, Db) {
    let options = Options {
        sync,
        checkpoint_least: u64::MAX,
        ..Default::default()
    };
    let slow = Slow::default();
    let db = Db::open_on(Arc::new(Over(slow.clone())), &options).unwrap();
    (slow, db)
}

/// Writes once each millisecond while something else is done.
fn write_beside(slow: &Slow, db: &Db, other: impl FnOnce() + Send) {
    thread::scope(|scope| {
        let other = scope.spawn(other);
        let mut number = 0u64;
        while !other.is_finished() {
            db.put(number.to_be_bytes(), [7; 100]).unwrap();
            slow.acknowledge();
            number += 1;
            thread::sleep(Duration::from_millis(1));
        }
    });
}

/// Fills the log with a MiB that isn't synced, and does something then, whose syncs of half a MiB or more are held, and those of the
/// directory. Returns how many were.
fn holds_of(slow: &Slow, db: &Db, other: impl FnOnce() + Send) -> u64 {
    for number in 0..100u64 {
        db.put(number.to_be_bytes(), vec![7; 10 << 10]).unwrap();
    }
    let before = slow.passed();
    slow.hold(Some(512 << 10), true);
    write_beside(slow, db, other);
    slow.hold(None, false);
    slow.passed() - before
}

#[test]
fn a_write_does_not_wait_for_the_sync_of_a_checkpoint() {
    let (slow, db) = open(Sync::Never);
    assert!(holds_of(&slow, &db, || db.checkpoint().unwrap()) > 1);
    assert!(holds_of(&slow, &db, || db.next_log().unwrap()) > 1);
    assert_eq!(slow.timed_out(), 0);
}

#[test]
fn a_write_does_not_wait_for_a_sync_that_another_thread_asks_for() {
    let (slow, db) = open(Sync::Never);
    assert_eq!(holds_of(&slow, &db, || db.sync().unwrap()), 1);
    assert_eq!((db.stats().syncs, slow.timed_out()), (1, 0));
}

#[test]
fn a_write_does_not_wait_for_the_sync_by_time() {
    let (slow, db) = open(Sync::EveryMs(20));
    write_beside(&slow, &db, || {
        for rounds in 1..=5 {
            slow.hold(Some(1), false);
            while slow.passed() < rounds {
                thread::sleep(Duration::from_millis(1));
            }
            slow.hold(None, false);
        }
    });
    assert_eq!(slow.timed_out(), 0);
    assert!(db.stats().syncs > 1);
}

/// A batch that is acknowledged as synced is so, while another thread syncs.
#[test]
fn a_sync_beside_others_keeps_what_it_is_for() {
    let device = Device::default();
    let options = Options {
        sync: Sync::Never,
        compactors: 0,
        checkpoint_least: u64::MAX,
        ..Default::default()
    };
    let db = Db::open_on(Arc::new(device.clone()), &options).unwrap();
    for round in 0..50u64 {
        thread::scope(|scope| {
            for key in 0..4u64 {
                let db = &db;
                scope.spawn(move || {
                    db.put((4 * round + key).to_be_bytes(), [7; 300]).unwrap();
                    db.sync().unwrap();
                });
            }
        });
        let crashed = device.crash(&mut Numbers(round));
        let again = Db::open_on(Arc::new(crashed), &options).unwrap();
        assert_eq!(map_of(&again).len() as u64, 4 * (round + 1));
    }
}
