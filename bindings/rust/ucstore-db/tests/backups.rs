//! Backups: whole, durable, and of one moment, while others write and whatever fails.

mod common;

use common::{
    is_long, map_of, open, seed, Around, Call, Device, Extent, Histories, History, Map, Numbers,
    Over, Temporary,
};
use std::collections::BTreeMap;
use std::env;
use std::fs;
use std::io::{self, ErrorKind};
use std::os::unix::fs::{MetadataExt, PermissionsExt};
use std::path::Path;
use std::process::{Command, Stdio};
use std::sync::atomic::{AtomicBool, Ordering};
use std::sync::Mutex;
use std::thread::{self, JoinHandle};
use std::time::Duration;
use ucstore_db::{Batch, Db, Error, File, Folder, Operator, Options};

/// The variable that names the folder to the process that is killed.
const FOLDER: &str = "UCSTORE_DB_BACKUPS";

/// The files of a folder, with their bytes.
fn files(path: &Path) -> BTreeMap<String, Vec<u8>> {
    let entries = fs::read_dir(path).unwrap().map(Result::unwrap);
    let file = |entry: fs::DirEntry| {
        let name = entry.file_name().to_str().unwrap().to_string();
        (name, fs::read(entry.path()).unwrap())
    };
    entries.map(file).collect()
}

/// The names of files that two folders share, by the device.
fn shared(one: &Path, other: &Path) -> Vec<String> {
    let number = |path: &Path, name: &str| fs::metadata(path.join(name)).ok().map(|it| it.ino());
    let names = files(one).into_keys();
    names
        .filter(|name| number(one, name) == number(other, name))
        .collect()
}

fn history(number: u64, batches: usize) -> History {
    let numbers = Numbers(seed(number));
    Histories { batches, numbers }.next()
}

/// Checks that a database takes writes, and keeps them.
fn check_going_on(device: &Device, map: &Map) {
    let db = open(device).unwrap();
    assert_eq!(map_of(&db), *map);
    db.put("zz", "later").unwrap();
    db.close().unwrap();
    let mut later = map.clone();
    later.insert(b"zz".to_vec(), b"later".to_vec());
    assert_eq!(map_of(&open(device).unwrap()), later);
}

#[test]
fn a_backup_is_durable_once_it_is_made() {
    let mut numbers = Numbers(seed(31));
    for round in 0..if is_long() { 300 } else { 30 } {
        let history = history(100 + round, 1 + numbers.below(12) as usize);
        let (device, target) = (Device::default(), Device::default());
        let db = history.run(&device).db.unwrap();
        let map = map_of(&db);
        let last = db.backup_on(&target).unwrap();
        assert_eq!(last, db.snapshot().unwrap().sequence());
        // A later write isn't in it.
        db.put("later", "more").unwrap();
        drop(db);
        for _ in 0..4 {
            check_going_on(&target.crash(&mut numbers), &map);
        }
        check_going_on(&target, &map);
    }
}

#[test]
fn a_call_that_fails_leaves_the_database_as_it_was() {
    let mut numbers = Numbers(seed(32));
    for round in 0..if is_long() { 60 } else { 6 } {
        let history = history(500 + round, 8);
        for is_source in [true, false] {
            for does in [Extent::Part, Extent::Whole] {
                for call in 0.. {
                    let (device, target) = (Device::default(), Device::default());
                    let db = history.run(&device).db.unwrap();
                    let map = map_of(&db);
                    let failing = if is_source { &device } else { &target };
                    failing.fail_having_done(does, None, call, false);
                    let made = db.backup_on(&target);
                    let is_failed = failing.calls().1 > 0;
                    failing.fail(None, u64::MAX, false);
                    // A log that can't be opened once more is synced by its own handle.
                    assert!(!is_failed || made.is_err() || is_source || does == Extent::Whole);
                    assert_eq!(map_of(&db), map);
                    if made.is_ok() {
                        check_going_on(&target.crash(&mut numbers), &map);
                    }
                    let is_writable = db.failure().is_none();
                    assert!(is_writable || is_source);
                    if is_writable {
                        db.put("again", "more").unwrap();
                        let next = Device::default();
                        db.backup_on(&next).unwrap();
                        let now = map_of(&db);
                        drop(db);
                        check_going_on(&next.crash(&mut numbers), &now);
                        check_going_on(&device.restarted(), &now);
                    }
                    if !is_failed {
                        break;
                    }
                }
            }
        }
    }
}

#[test]
fn a_crash_of_the_source_loses_nothing() {
    let mut numbers = Numbers(seed(33));
    for round in 0..if is_long() { 60 } else { 6 } {
        let history = history(700 + round, 8);
        for call in 0.. {
            let device = Device::default();
            let run = history.run(&device);
            let db = run.db.unwrap();
            db.sync().unwrap();
            let map = map_of(&db);
            device.fail(None, call, true);
            let made = db.backup_on(&Device::default());
            drop(db);
            for _ in 0..3 {
                check_going_on(&device.crash(&mut numbers), &map);
            }
            if made.is_ok() {
                break;
            }
        }
    }
}

/// A device on which the first file is made while another thread makes a checkpoint of a database.
struct Checkpointing {
    device: Device,
    db: Db,
    made: Mutex<Option<JoinHandle<()>>>,
}

impl Around for Checkpointing {
    fn device(&self) -> &Device {
        &self.device
    }

    fn create(&self, name: &str) -> io::Result<Box<dyn File>> {
        let mut made = self.made.lock().unwrap();
        if made.is_none() {
            let db = self.db.clone();
            *made = Some(thread::spawn(move || db.checkpoint().unwrap()));
            // It removes the files that it replaces by then, unless it waits.
            thread::sleep(Duration::from_millis(200));
        }
        self.device.create(name)
    }
}

#[test]
fn a_checkpoint_waits_for_a_backup() {
    let device = Device::default();
    let db = open(&device).unwrap();
    for key in ["a", "b", "c"] {
        db.put(key, "1").unwrap();
        db.next_log().unwrap();
    }
    let map = map_of(&db);
    let target = Over(Checkpointing {
        device: Device::default(),
        db: db.clone(),
        made: Mutex::default(),
    });
    db.backup_on(&target).unwrap();
    target
        .0
        .made
        .lock()
        .unwrap()
        .take()
        .unwrap()
        .join()
        .unwrap();
    assert_eq!(db.stats().checkpoints, 1);
    check_going_on(&target.0.device, &map);
}

#[test]
fn a_database_without_writes_has_a_backup_too() {
    let (device, target) = (Device::default(), Device::default());
    let db = open(&device).unwrap();
    assert_eq!(db.backup_on(&target).unwrap(), 0);
    check_going_on(&target, &Map::new());
    let again = db.backup_on(&target).unwrap_err();
    assert!(matches!(again, Error::File { error, .. } if error.kind() == ErrorKind::AlreadyExists));
}

#[test]
fn files_that_stay_are_linked_and_never_changed() {
    let folder = Temporary::new("linked");
    let (own, one, other) = (
        folder.path().join("own"),
        folder.path().join("deep/one"),
        folder.path().join("other"),
    );
    let options = Options {
        operator: Some(Operator::Append),
        ..Options::default()
    };
    let db = Db::open(&own, &options).unwrap();
    for number in 0..100u32 {
        db.merge(format!("key {}", number % 7), "some text")
            .unwrap();
    }
    db.checkpoint().unwrap();
    db.merge("key 1", "more").unwrap();
    let map = map_of(&db);
    assert_eq!(db.backup(&one).unwrap(), 101);
    let linked = shared(&own, &one);
    assert_eq!(linked, ["000001.run", "000002-100.runs", "000002.log"]);
    let kept = files(&one);
    db.merge("key 2", "more").unwrap();
    assert_eq!(db.backup(&other).unwrap(), 102);
    assert_eq!(shared(&one, &other), linked);
    let (later, kept_later) = (map_of(&db), files(&other));
    // All that may be done to the source: writes, a close, an opening, checkpoints.
    db.close().unwrap();
    for _ in 0..3 {
        let db = Db::open(&own, &options).unwrap();
        db.merge("key 3", "more").unwrap();
        db.next_log().unwrap();
        drop(db);
    }
    assert_eq!(files(&one), kept);
    let db = Db::open(&own, &options).unwrap();
    db.checkpoint().unwrap();
    db.put("key 4", "more").unwrap();
    db.close().unwrap();
    let source = files(&own);
    assert_eq!((files(&one), files(&other)), (kept, kept_later));
    // And to the backups.
    for (path, map) in [(&one, map), (&other, later)] {
        for _ in 0..2 {
            let backup = Db::open(path, &options).unwrap();
            assert!(map
                .iter()
                .all(|(key, value)| backup.get(key).unwrap().as_ref() == Some(value)));
            backup.merge("new", "text").unwrap();
            backup.checkpoint().unwrap();
            backup.close().unwrap();
        }
        assert_eq!(
            map_of(&Db::open(path, &options).unwrap()).len(),
            map.len() + 1
        );
    }
    assert_eq!(files(&own), source);
}

#[test]
fn a_backup_that_is_opened_leaves_the_source_as_it_is() {
    let folder = Temporary::new("opened");
    let (own, backup) = (folder.path().join("own"), folder.path().join("backup"));
    let db = Db::open(&own, &Options::default()).unwrap();
    db.put("a", "1").unwrap();
    db.backup(&backup).unwrap();
    assert_eq!(shared(&own, &backup), ["000001.log"]);
    let before = files(&own);
    for number in 0..3u8 {
        let copy = Db::open(&backup, &Options::default()).unwrap();
        copy.put("b", [number]).unwrap();
        copy.close().unwrap();
    }
    assert_eq!(files(&own), before);
}

#[test]
fn names_that_are_taken_are_refused() {
    let folder = Temporary::new("taken");
    let db = Db::open(folder.path().join("own"), &Options::default()).unwrap();
    db.put("a", "1").unwrap();
    let (file, full) = (folder.path().join("file"), folder.path().join("full"));
    fs::write(&file, "text").unwrap();
    fs::create_dir(&full).unwrap();
    for path in [&file, &full, &folder.path().join("own")] {
        let error = db.backup(path).unwrap_err();
        assert!(
            error.to_string().starts_with(&path.display().to_string()),
            "{error}"
        );
    }
    db.backup(file.join("below")).unwrap_err();
    db.backup(Path::new("/")).unwrap_err();
    let names: Vec<String> = fs::read_dir(folder.path())
        .unwrap()
        .map(|entry| entry.unwrap().file_name().into_string().unwrap())
        .collect();
    assert_eq!(names.len(), 3, "{names:?}");
    db.close().unwrap();
    assert!(matches!(
        db.backup(folder.path().join("late")),
        Err(Error::Closed)
    ));
    assert!(!folder.path().join("late").exists());
}

#[test]
fn a_database_in_memory_is_written_as_a_checkpoint() {
    let folder = Temporary::new("memory");
    let options = Options {
        operator: Some(Operator::Counter),
        ..Default::default()
    };
    let db = Db::in_memory(&options).unwrap();
    for number in 0..50u64 {
        db.merge(format!("key {}", number % 5), number.to_le_bytes())
            .unwrap();
    }
    assert_eq!(db.backup(folder.path()).unwrap(), 50);
    let backup = Db::open(folder.path(), &options).unwrap();
    assert_eq!(map_of(&backup), map_of(&db));
    assert_eq!(backup.snapshot().unwrap().sequence(), 50);
}

#[test]
fn a_database_that_takes_no_writes_has_a_backup() {
    let (device, target) = (Device::default(), Device::default());
    let db = open(&device).unwrap();
    db.put("a", "1").unwrap();
    device.fail(Some(Call::Sync), 0, true);
    db.sync().unwrap_err();
    assert!(db.failure().is_some());
    assert_eq!(db.backup_on(&target).unwrap(), 1);
    check_going_on(&target, &map_of(&db));
}

/// Writes equal numbers to two keys of a thread, until it has to end.
fn count(db: &Db, thread: u64, is_over: &AtomicBool) {
    let mut number = 0u64;
    while !is_over.load(Ordering::Relaxed) {
        number += 1;
        let mut batch = Batch::new();
        batch
            .put(format!("a{thread}"), number.to_le_bytes())
            .unwrap();
        batch
            .put(format!("b{thread}"), number.to_le_bytes())
            .unwrap();
        db.write_with(&batch, false).unwrap();
    }
}

/// The numbers of all threads, which are the same under both keys.
fn numbers(db: &Db) -> Vec<u64> {
    let snapshot = db.snapshot().unwrap();
    let number = |kind: &str, thread: u64| {
        let value = snapshot.get(format!("{kind}{thread}")).unwrap();
        value.map_or(0, |text| u64::from_le_bytes(text.try_into().unwrap()))
    };
    let threads = 0..8;
    threads
        .map(|thread| {
            assert_eq!(number("a", thread), number("b", thread));
            number("a", thread)
        })
        .collect()
}

fn counting() -> Options {
    let mut options = Options {
        checkpoint_least: 100_000,
        ..Default::default()
    };
    options.store.write_buffer_size = 20_000;
    options
}

#[test]
fn a_backup_is_of_one_moment_while_eight_threads_write() {
    let folder = Temporary::new("beside");
    let db = Db::open(folder.path().join("own"), &counting()).unwrap();
    let is_over = AtomicBool::new(false);
    thread::scope(|scope| {
        for thread in 0..8 {
            let (db, is_over) = (&db, &is_over);
            scope.spawn(move || count(db, thread, is_over));
        }
        let mut lasts = vec![];
        for round in 0..if is_long() { 200 } else { 20 } {
            let path = folder.path().join(format!("{round}"));
            let before = numbers(&db);
            let last = db.backup(&path).unwrap();
            let after = numbers(&db);
            let backup = Db::open(&path, &counting()).unwrap();
            assert_eq!(backup.snapshot().unwrap().sequence(), last);
            for (thread, number) in numbers(&backup).into_iter().enumerate() {
                assert!((before[thread]..=after[thread]).contains(&number));
            }
            lasts.push(last);
            if round % 5 == 0 {
                db.checkpoint().unwrap();
            }
            drop(backup);
            fs::remove_dir_all(path).unwrap();
        }
        assert!(lasts.is_sorted() && lasts[0] < *lasts.last().unwrap());
        is_over.store(true, Ordering::Relaxed);
    });
}

/// The work of the process that is killed. On its own it does nothing.
#[test]
#[ignore]
fn child() {
    let Some(folder) = env::var_os(FOLDER) else {
        return;
    };
    let folder = Path::new(&folder);
    let db = Db::open(folder.join("own"), &counting()).unwrap();
    let is_over = AtomicBool::new(false);
    thread::scope(|scope| {
        for thread in 0..8 {
            let (db, is_over) = (&db, &is_over);
            scope.spawn(move || count(db, thread, is_over));
        }
        for round in 0..100 {
            db.backup(folder.join(format!("backup {round}"))).unwrap();
        }
        is_over.store(true, Ordering::Relaxed);
    });
}

#[test]
fn a_backup_of_a_process_that_is_killed_is_absent_or_whole() {
    let folder = Temporary::new("killed");
    let mut drawn = Numbers(seed(34));
    let (mut whole, mut left) = (0u32, 0);
    let least = if is_long() { 300 } else { 30 };
    // On a loaded machine a process takes its time to make the first one.
    let mut round = 0u64;
    while round < least || whole == 0 {
        round += 1;
        let _ = fs::remove_dir_all(folder.path());
        fs::create_dir(folder.path()).unwrap();
        let mut child = Command::new(env::current_exe().unwrap())
            .args(["--exact", "child", "--ignored"])
            .env(FOLDER, folder.path())
            .stdout(Stdio::null())
            .stderr(Stdio::null())
            .spawn()
            .unwrap();
        let later = 100 * u64::saturating_sub(round, least);
        thread::sleep(Duration::from_millis(10 + drawn.below(150) + later));
        child.kill().unwrap();
        child.wait().unwrap();
        let (mut kept, mut opened) = (vec![], vec![]);
        for entry in fs::read_dir(folder.path()).unwrap() {
            let path = entry.unwrap().path();
            let name = path.file_name().unwrap().to_str().unwrap().to_string();
            if name == "own" {
                continue;
            }
            if name.contains(".new-") {
                left += 1;
                continue;
            }
            whole += 1;
            let options = Options {
                must_exist: true,
                ..counting()
            };
            kept.push((path.clone(), files(&path)));
            opened.push((path, options));
        }
        // The database that was killed goes on, and changes no file that it shares.
        let own = Db::open(folder.path().join("own"), &counting()).unwrap();
        own.put("later", "more").unwrap();
        own.close().unwrap();
        for (path, bytes) in kept {
            assert_eq!(files(&path), bytes);
        }
        for (path, options) in opened {
            let backup = Db::open(&path, &options).unwrap();
            assert_eq!(backup.stats().set_aside_bytes, 0);
            numbers(&backup);
        }
    }
    println!("{whole} backups were whole, and {left} under another name");
}

#[test]
fn others_may_do_no_more_with_a_backup() {
    let folder = Temporary::new("modes");
    let own = folder.path().join("own");
    let db = Db::open(&own, &Options::default()).unwrap();
    db.put("a", "1").unwrap();
    db.checkpoint().unwrap();
    for file in fs::read_dir(&own).unwrap() {
        let mode = file.unwrap().metadata().unwrap().permissions().mode() & 0o777;
        assert_eq!(mode & !0o666, 0, "{mode:o}");
    }
    fs::set_permissions(&own, fs::Permissions::from_mode(0o700)).unwrap();
    let backup = folder.path().join("backup");
    db.backup(&backup).unwrap();
    assert_eq!(
        fs::metadata(&backup).unwrap().permissions().mode() & 0o777,
        0o700
    );
}

#[test]
fn a_folder_of_another_device_is_copied() {
    let folder = Temporary::new("copied");
    let device = Device::default();
    let db = open(&device).unwrap();
    db.put("a", vec![7; 3 << 20]).unwrap();
    db.checkpoint().unwrap();
    db.put("b", "1").unwrap();
    db.backup(folder.path()).unwrap();
    let bytes = files(folder.path());
    assert!(device
        .names()
        .unwrap()
        .iter()
        .all(|name| bytes.contains_key(name) || name == "LOCK"));
    let backup = Db::open(folder.path(), &Options::default()).unwrap();
    assert_eq!(map_of(&backup), map_of(&db));
}
