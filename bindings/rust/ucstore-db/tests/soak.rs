//! A database in use for long: what it holds is right all the time, and its memory and files stay within bounds.

mod common;

use common::{is_long, map_of, seed, Map, Numbers, Temporary};
use std::fs;
use std::path::Path;
use std::sync::atomic::{AtomicBool, Ordering};
use std::thread;
use std::time::{Duration, Instant};
use ucstore_db::{Batch, Db, Operator, Options, Rows, Sync};

const WRITERS: u64 = 4;
const READERS: u64 = 2;

/// The number of counters, and of strings, of a writer.
const COUNTERS: u64 = 50;
const TEXTS: u64 = 500;

/// The most bytes of a string.
const LONGEST: u64 = 400;

/// Bounds of files, their bytes, and the process. What is held has 1 MiB at most, and logs that are longer than
/// 64 MiB ask for a checkpoint by themselves.
/// Of the files there is one for each run, of which there are `stop_trigger` at most, also while others replace them.
const MOST_FILES: usize = 8 + 2 * 36;
const MOST_BYTES: u64 = 128 << 20;
const MOST_MEMORY: u64 = 128 << 20;

/// The most bytes of files after a checkpoint.
const MOST_LEFT: u64 = 4 << 20;

/// The most bytes that the process may grow by after the first round.
const MOST_GROWTH: u64 = 32 << 20;

fn options() -> Options {
    let mut options = Options {
        operator: Some(Operator::Counter),
        sync: Sync::EveryMs(20),
        ..Default::default()
    };
    options.store.write_buffer_size = 256 << 10;
    options
}

/// A writer, whose keys no other writes, and what they hold.
struct Writer {
    number: u64,
    numbers: Numbers,
    model: Map,
}

impl Writer {
    fn new(number: u64) -> Writer {
        Writer {
            number,
            numbers: Numbers(seed(number)),
            model: Map::new(),
        }
    }

    /// A key of a kind: `a` and `b` are counters, `t` are strings.
    fn key(&self, kind: char, number: u64) -> String {
        format!("{}{kind}{number:03}", self.number)
    }

    /// The key of a random string.
    fn draw_text(&mut self) -> String {
        let number = self.numbers.below(TEXTS);
        self.key('t', number)
    }

    /// Writes something, or looks whether what it wrote is there.
    fn work(&mut self, db: &Db) {
        match self.numbers.below(200) {
            0 => self.check_all(db),
            1..=2 => self.delete_range(db),
            3..=20 => self.delete_text(db),
            21..=70 => self.count(db),
            71..=150 => self.set_text(db),
            _ => self.check_text(db),
        }
    }

    fn set_text(&mut self, db: &Db) {
        let key = self.draw_text();
        let value = vec![self.numbers.below(256) as u8; self.numbers.below(LONGEST) as usize];
        db.put(&key, &value).unwrap();
        self.model.insert(key.into(), value);
    }

    fn delete_text(&mut self, db: &Db) {
        let key = self.draw_text();
        db.delete(&key).unwrap();
        self.model.remove(key.as_bytes());
    }

    /// Adds to a counter of each kind, so that both are equal at each moment.
    fn count(&mut self, db: &Db) {
        let (number, more) = (self.numbers.below(COUNTERS), self.numbers.below(1000));
        let mut batch = Batch::new();
        for kind in ['a', 'b'] {
            let key = self.key(kind, number);
            batch.merge(&key, more.to_le_bytes()).unwrap();
            let value = self.model.entry(key.into()).or_insert(vec![0; 8]);
            let sum = u64::from_le_bytes(value[..].try_into().unwrap()) + more;
            *value = sum.to_le_bytes().to_vec();
        }
        db.write(&batch).unwrap();
    }

    /// Removes counters of both kinds, and strings.
    fn delete_range(&mut self, db: &Db) {
        let mut batch = Batch::new();
        let first = self.numbers.below(COUNTERS);
        for (kind, count) in [('a', 5), ('b', 5), ('t', 50)] {
            let (begin, end) = (self.key(kind, first), self.key(kind, first + count));
            batch.delete_range(&begin, &end).unwrap();
            let is_left = |key: &[u8]| key < begin.as_bytes() || key >= end.as_bytes();
            self.model.retain(|key, _| is_left(key));
        }
        db.write(&batch).unwrap();
    }

    fn check_text(&mut self, db: &Db) {
        let key = self.draw_text();
        assert_eq!(
            db.get(&key).unwrap().as_ref(),
            self.model.get(key.as_bytes())
        );
    }

    fn check_all(&self, db: &Db) {
        let rows = db.prefix(self.number.to_string()).unwrap();
        assert!(rows.map(Result::unwrap).eq(self.model.clone()));
    }
}

/// Reads while others write: both kinds of counters are equal at a moment.
fn read(db: &Db, number: u64) {
    let snapshot = db.snapshot_to_scan().unwrap();
    let values = |kind| {
        let rows: Rows = snapshot.prefix(format!("{number}{kind}")).unwrap();
        rows.map(|row| row.unwrap().1).collect::<Vec<_>>()
    };
    assert_eq!(values('a'), values('b'));
    assert_eq!(
        values('t').len(),
        snapshot.prefix(format!("{number}t")).unwrap().count()
    );
}

/// The number of a folder's files, and of their bytes.
fn files(folder: &Path) -> (usize, u64) {
    let entries = fs::read_dir(folder).unwrap();
    // One that is removed meanwhile has none.
    let lengths = entries.map(|entry| entry.unwrap().metadata().map_or(0, |it| it.len()));
    lengths.fold((0, 0), |(count, sum), length| (count + 1, sum + length))
}

/// The memory of the process, in bytes.
fn memory() -> u64 {
    let text = fs::read_to_string("/proc/self/statm").unwrap();
    let pages = text.split(' ').nth(1).unwrap();
    pages.parse::<u64>().unwrap() * 4096
}

/// Makes a checkpoint each second, and looks at the bounds ten times a second.
fn watch(db: &Db, folder: &Path, time: Duration) {
    let begun = Instant::now();
    let mut checkpoints = 0;
    while begun.elapsed() < time {
        thread::sleep(Duration::from_millis(100));
        let (count, bytes) = files(folder);
        assert!(count <= MOST_FILES, "there are {count} files");
        assert!(bytes <= MOST_BYTES, "files have {bytes} bytes");
        assert!(
            memory() <= MOST_MEMORY,
            "the process has {} bytes",
            memory()
        );
        if begun.elapsed().as_secs() > checkpoints {
            db.checkpoint().unwrap();
            checkpoints += 1;
        }
    }
    assert!(checkpoints > 0);
}

/// Lets all threads work on a database for a time.
fn work_together(db: &Db, folder: &Path, writers: &mut [Writer], time: Duration) {
    let is_over = &AtomicBool::new(false);
    thread::scope(|scope| {
        for writer in writers {
            scope.spawn(move || {
                while !is_over.load(Ordering::Relaxed) {
                    writer.work(db);
                }
            });
        }
        for reader in 0..READERS {
            let mut numbers = Numbers(seed(100 + reader));
            scope.spawn(move || {
                while !is_over.load(Ordering::Relaxed) {
                    read(db, numbers.below(WRITERS));
                }
            });
        }
        let watcher = scope.spawn(move || watch(db, folder, time));
        let outcome = watcher.join();
        is_over.store(true, Ordering::Relaxed);
        outcome.unwrap();
    });
}

/// Opens a database, which has what its writers wrote.
fn open(folder: &Path, writers: &[Writer]) -> Db {
    let db = Db::open(folder, &options()).unwrap();
    let model: Map = writers.iter().flat_map(|it| it.model.clone()).collect();
    assert!(map_of(&db) == model, "it isn't as it was closed");
    db
}

#[test]
fn memory_and_files_stay_within_bounds() {
    let folder = Temporary::new("soak");
    let (rounds, time) = if is_long() { (12, 10_000) } else { (4, 2500) };
    let mut writers: Vec<Writer> = (0..WRITERS).map(Writer::new).collect();
    let mut first = None;
    let mut logged = 0;
    for _ in 0..rounds {
        let db = open(folder.path(), &writers);
        work_together(
            &db,
            folder.path(),
            &mut writers,
            Duration::from_millis(time),
        );
        logged += db.stats().logged_bytes;
        db.close().unwrap();
        let memory = memory();
        let first = *first.get_or_insert(memory);
        assert!(
            memory <= first + MOST_GROWTH,
            "{memory} bytes after {first}"
        );
    }
    let db = open(folder.path(), &writers);
    db.checkpoint().unwrap();
    db.close().unwrap();
    // A checkpoint leaves about the rows, however much was written.
    let left = files(folder.path()).1;
    assert!(left <= MOST_LEFT, "{left} bytes are left of {logged}");
}
