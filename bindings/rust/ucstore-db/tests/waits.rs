//! Threads that wait for each other: slow devices, panics of event functions, closes, and rejected options.

mod common;

use common::{Call, Device, Temporary};
use std::io;
use std::sync::Arc;
use std::thread;
use std::time::{Duration, Instant};
use ucstore_db::{ucstore, Db, Error, Event, File, Folder, Listener, Options, Sync, WeakDb};

/// The duration of a sync of a slow device.
const SLOW: Duration = Duration::from_secs(2);

/// A device whose files take long to sync, or whose run files take long to be appended to.
struct Slow {
    device: Device,
    sync: Duration,
    append: Duration,
}

struct SlowFile {
    file: Box<dyn File>,
    sync: Duration,
    append: Duration,
}

impl Slow {
    fn file(&self, name: &str, file: Box<dyn File>) -> Box<dyn File> {
        let append = match name.ends_with(".run") {
            true => self.append,
            false => Duration::ZERO,
        };
        Box::new(SlowFile {
            file,
            sync: self.sync,
            append,
        })
    }
}

impl Folder for Slow {
    fn names(&self) -> io::Result<Vec<String>> {
        self.device.names()
    }

    fn length(&self, name: &str) -> io::Result<u64> {
        Folder::length(&self.device, name)
    }

    fn read(&self, name: &str) -> io::Result<Vec<u8>> {
        Folder::read(&self.device, name)
    }

    fn create(&self, name: &str) -> io::Result<Box<dyn File>> {
        Ok(self.file(name, self.device.create(name)?))
    }

    fn open(&self, name: &str) -> io::Result<Box<dyn File>> {
        Ok(self.file(name, Folder::open(&self.device, name)?))
    }

    fn rename(&self, from: &str, to: &str) -> io::Result<()> {
        self.device.rename(from, to)
    }

    fn remove(&self, name: &str) -> io::Result<()> {
        self.device.remove(name)
    }

    fn sync(&self) -> io::Result<()> {
        Folder::sync(&self.device)
    }
}

impl File for SlowFile {
    fn append(&mut self, bytes: &[u8]) -> io::Result<()> {
        thread::sleep(self.append);
        self.file.append(bytes)
    }

    fn cut(&mut self, length: u64) -> io::Result<()> {
        self.file.cut(length)
    }

    fn sync(&mut self) -> io::Result<()> {
        thread::sleep(self.sync);
        self.file.sync()
    }
}

fn slow(sync: Sync) -> Db {
    let options = Options {
        sync,
        ..Default::default()
    };
    let folder = Slow {
        device: Device::default(),
        sync: SLOW,
        append: Duration::ZERO,
    };
    Db::open_on(Arc::new(folder), &options).unwrap()
}

fn time_of<T>(work: impl FnOnce() -> T) -> (T, Duration) {
    let begun = Instant::now();
    (work(), begun.elapsed())
}

/// Waits until something is so.
fn wait_for(mut is_so: impl FnMut() -> bool) {
    let begun = Instant::now();
    while !is_so() {
        assert!(begun.elapsed() < Duration::from_secs(20), "it never is so");
        thread::sleep(Duration::from_millis(1));
    }
}

#[test]
fn stats_do_not_wait_for_a_device() {
    let db = slow(Sync::Always);
    thread::scope(|scope| {
        scope.spawn(|| db.put("a", "1").unwrap());
        thread::sleep(SLOW / 4);
        let (_, took) = time_of(|| db.stats());
        assert!(took < SLOW / 4, "{took:?}");
    });
}

#[test]
fn a_second_close_waits_for_the_first() {
    let db = slow(Sync::Never);
    db.put("a", "1").unwrap();
    thread::scope(|scope| {
        scope.spawn(|| db.close().unwrap());
        thread::sleep(SLOW / 8);
        let (second, took) = time_of(|| db.close());
        assert!(matches!(second, Err(Error::Closed)));
        assert!(took > SLOW / 2, "{took:?}");
    });
}

#[test]
fn a_directory_may_be_opened_again_after_a_close() {
    let folder = Temporary::new("again");
    let options = Options::default();
    for _ in 0..20 {
        let db = Db::open(folder.path(), &options).unwrap();
        for number in 0..200u32 {
            db.put(number.to_be_bytes(), [7; 1000]).unwrap();
        }
        thread::scope(|scope| {
            scope.spawn(|| db.checkpoint());
            thread::sleep(Duration::from_millis(1));
            db.close().unwrap();
            drop(Db::open(folder.path(), &options).unwrap());
        });
    }
}

#[test]
fn a_panic_of_an_event_function_ends_no_checkpointer() {
    let events = Listener::new(|event: &Event| {
        assert!(!matches!(event, Event::Checkpointed { .. }), "planted");
    });
    let options = Options {
        checkpoint_least: 1000,
        checkpoint_ratio: 0,
        events: Some(events),
        ..Default::default()
    };
    let db = Db::open_on(Arc::new(Device::default()), &options).unwrap();
    for checkpoints in 1..4 {
        for number in 0..10u32 {
            db.put(number.to_be_bytes(), [7; 200]).unwrap();
        }
        wait_for(|| db.stats().checkpoints >= checkpoints);
    }
    db.close().unwrap();
}

#[test]
fn a_panic_of_an_event_function_ends_no_syncer() {
    let events = Listener::new(|_: &Event| panic!("planted"));
    let options = Options {
        sync: Sync::EveryMs(1),
        events: Some(events),
        ..Default::default()
    };
    let db = Db::open_on(Arc::new(Device::default()), &options).unwrap();
    for round in 0..50u32 {
        let before = db.stats().syncs;
        db.put(round.to_be_bytes(), "v").unwrap();
        db.flush().unwrap();
        wait_for(|| db.stats().syncs > before);
    }
    db.close().unwrap();
}

#[test]
fn a_refused_option_makes_no_directory() {
    let folder = Temporary::new("refused");
    let mut options = Options::default();
    options.store.write_buffer_size = 0;
    let every = Options {
        sync: Sync::EveryMs(0),
        ..Default::default()
    };
    for options in [options, every] {
        let refused = Db::open(folder.path().join("new"), &options).unwrap_err();
        assert!(
            matches!(refused, Error::Store(ucstore::Error::BadOption)),
            "{refused}"
        );
        assert!(!folder.path().join("new").exists());
    }
}

#[test]
fn an_empty_batch_has_nothing_after_its_header() {
    let db = Db::in_memory(&Options::default()).unwrap();
    db.write_bytes(&[0; 12], true).unwrap();
    for bytes in [&[0; 13][..], &[0; 11]] {
        let refused = db.write_bytes(bytes, true).unwrap_err();
        assert!(
            matches!(refused, Error::Store(ucstore::Error::NotABatch)),
            "{refused}"
        );
    }
}

#[test]
fn a_weak_database_is_one_until_the_last_clone_is_dropped() {
    let db = Db::in_memory(&Options::default()).unwrap();
    let weak: WeakDb = db.downgrade();
    db.put("a", "1").unwrap();
    assert_eq!(weak.upgrade().unwrap().get("a").unwrap().unwrap(), b"1");
    drop(db);
    assert!(weak.upgrade().is_none());
}

#[test]
fn a_close_ends_a_checkpoint_of_the_database_itself() {
    // A base takes 20 seconds at least.
    let folder = Slow {
        device: Device::default(),
        sync: Duration::ZERO,
        append: Duration::from_millis(500),
    };
    let options = Options {
        checkpoint_least: 1 << 20,
        checkpoint_ratio: 0,
        sync: Sync::Never,
        ..Default::default()
    };
    let db = Db::open_on(Arc::new(folder), &options).unwrap();
    for number in 0..2000u32 {
        db.put(number.to_be_bytes(), [7; 1000]).unwrap();
    }
    thread::sleep(Duration::from_millis(100));
    let (closed, took) = time_of(|| db.close());
    closed.unwrap();
    assert!(took < Duration::from_secs(2), "{took:?}");
}

#[test]
fn a_salvaged_directory_is_closed_without_an_error() {
    let device = Device::default();
    let db = Db::open_on(Arc::new(device.clone()), &Options::default()).unwrap();
    for _ in 0..3 {
        db.put("a", "1").unwrap();
    }
    drop(db);
    let mut files = device.files();
    files.get_mut("000001.log").unwrap()[20] ^= 1;
    let options = Options {
        recover_to_fault: true,
        ..Default::default()
    };
    let db = Db::open_on(Arc::new(Device::of(&files)), &options).unwrap();
    assert!(matches!(db.put("b", "2"), Err(Error::ReadOnly { .. })));
    db.close().unwrap();
}

#[test]
fn a_later_checkpoint_makes_up_for_one_that_failed() {
    let device = Device::default();
    let options = Options {
        checkpoint_least: 1000,
        checkpoint_ratio: 0,
        ..Default::default()
    };
    let db = Db::open_on(Arc::new(device.clone()), &options).unwrap();
    device.fail(Some(Call::Rename), 0, false);
    let mut number = 0u32;
    while db.stats().checkpoints == 0 {
        db.put(number.to_be_bytes(), [7; 200]).unwrap();
        number += 1;
        thread::sleep(Duration::from_millis(1));
        assert!(number < 10_000);
    }
    assert_eq!(device.calls().1, 1);
    db.close().unwrap();
}
