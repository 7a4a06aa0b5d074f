//! Refreshes of databases that are opened to be read, step by step.

mod common;

use common::{
    batch_of, counts_of, is_long, map_of, number, of_owner, of_reader, seed, Device, Ends, Numbers,
    Temporary, OPERATIONS, WRITERS,
};
use std::collections::BTreeMap;
use std::fs;
use std::io::{self, ErrorKind};
use std::sync::atomic::{AtomicBool, Ordering};
use std::sync::{Arc, Mutex};
use std::thread;
use ucstore_db::{Db, Error, File, Folder, Options};

/// An owner that makes no checkpoint by itself.
fn without_checkpoints() -> Options {
    Options {
        checkpoint_least: u64::MAX,
        ..of_owner()
    }
}

/// The files of a database with `count` batches, each of one record.
fn files_of(count: u64) -> BTreeMap<String, Vec<u8>> {
    let device = Device::default();
    let db = Db::open_on(Arc::new(device.clone()), &without_checkpoints()).unwrap();
    for number in 0..count {
        db.write(&batch_of(number % WRITERS, number * 900)).unwrap();
    }
    device.files()
}

/// A device with a file that has its first bytes alone.
fn cut(files: &BTreeMap<String, Vec<u8>>, name: &str, length: usize) -> Device {
    let mut files = files.clone();
    files.get_mut(name).unwrap().truncate(length);
    Device::of(&files)
}

#[test]
fn a_record_is_seen_once_all_of_it_is_there() {
    let files = files_of(60);
    let bytes = &files["000001.log"];
    let device = cut(&files, "000001.log", 0);
    let reader = Db::open_on(Arc::new(device.clone()), &of_reader(0)).unwrap();
    let mut log = device.open("000001.log").unwrap();
    let mut numbers = Numbers(seed(91));
    let mut length = 0;
    while length < bytes.len() {
        let most = [3, 40, 5000, 50_000][numbers.below(4) as usize];
        let next = bytes.len().min(length + 1 + numbers.below(most) as usize);
        log.append(&bytes[length..next]).unwrap();
        length = next;
        let last = reader.refresh().unwrap();
        let fresh =
            Db::open_on(Arc::new(cut(&files, "000001.log", length)), &of_reader(0)).unwrap();
        assert_eq!(last, fresh.snapshot().unwrap().sequence());
        assert_eq!(
            counts_of(&reader.snapshot().unwrap()),
            counts_of(&fresh.snapshot().unwrap())
        );
        assert!(map_of(&reader) == map_of(&fresh));
    }
    assert_eq!(reader.refresh().unwrap(), 60 * OPERATIONS);
}

/// An owner of a device, and a reader of it.
fn pair(device: &Device) -> (Db, Db) {
    let folder: Arc<dyn Folder> = Arc::new(device.clone());
    let owner = Db::open_on(Arc::clone(&folder), &without_checkpoints()).unwrap();
    owner.write(&batch_of(0, 10)).unwrap();
    let reader = Db::open_on(folder, &of_reader(2)).unwrap();
    (owner, reader)
}

/// Checks that a refresh gives the reader what the owner has.
fn catches_up(owner: &Db, reader: &Db) {
    assert_eq!(reader.refresh().unwrap(), owner.stats().last);
    assert!(map_of(owner) == map_of(reader));
}

#[test]
fn logs_may_be_removed_meanwhile() {
    let device = Device::default();
    let (owner, reader) = pair(&device);
    // Nothing is missing: the next log goes on.
    owner.checkpoint().unwrap();
    catches_up(&owner, &reader);
    owner.write(&batch_of(1, 10)).unwrap();
    catches_up(&owner, &reader);
    owner.checkpoint().unwrap();
    owner.write(&batch_of(1, 10)).unwrap();
    catches_up(&owner, &reader);
    // The checkpoint has those that are missing.
    let before = reader.snapshot().unwrap();
    for writer in 0..WRITERS {
        owner.write(&batch_of(writer, 5000)).unwrap();
        owner.next_log().unwrap();
    }
    owner.delete_range("value 2", "value 4").unwrap();
    owner.checkpoint().unwrap();
    catches_up(&owner, &reader);
    owner.put("other", 7u64.to_le_bytes()).unwrap();
    catches_up(&owner, &reader);
    assert_eq!(counts_of(&before).iter().sum::<u64>(), 3);
}

#[test]
fn several_logs_are_read_on() {
    let device = Device::default();
    let (owner, reader) = pair(&device);
    for writer in 0..WRITERS {
        owner.write(&batch_of(writer, 40_000)).unwrap();
        owner.next_log().unwrap();
    }
    catches_up(&owner, &reader);
    owner.write(&batch_of(0, 1)).unwrap();
    // A checkpoint of a snapshot leaves logs that go on after it.
    let snapshot = owner.snapshot().unwrap();
    owner.write(&batch_of(3, 1)).unwrap();
    owner.checkpoint_to(&snapshot).unwrap();
    catches_up(&owner, &reader);
    let other = Db::open_on(Arc::new(device.clone()), &of_reader(0)).unwrap();
    catches_up(&owner, &other);
    // A batch's record has the last sequence before a jump.
    let mut bytes = batch_of(1, 1).bytes();
    bytes[..8].copy_from_slice(&1000u64.to_le_bytes());
    owner.write_bytes(&bytes, true).unwrap();
    catches_up(&owner, &reader);
    catches_up(&owner, &other);
}

/// A step of an owner.
type Step = fn(&Db);

/// A device on which an owner does something between two calls of a reader.
struct Between {
    device: Device,
    /// The number of calls before that, and the step.
    planned: Mutex<Option<(u64, Db, Step)>>,
}

impl Between {
    fn of(device: &Device) -> Arc<Between> {
        Arc::new(Between {
            device: device.clone(),
            planned: Mutex::default(),
        })
    }

    fn plan(&self, calls: u64, owner: &Db, step: Step) {
        *self.planned.lock().unwrap() = Some((calls, owner.clone(), step));
    }

    /// Whether the step was done. It is forgotten if not.
    fn is_done(&self) -> bool {
        self.planned.lock().unwrap().take().is_none()
    }

    /// The device of a call, before which the step may be due.
    fn call(&self) -> &Device {
        let mut planned = self.planned.lock().unwrap();
        match planned.take() {
            Some((0, owner, step)) => step(&owner),
            Some((calls, owner, step)) => *planned = Some((calls - 1, owner, step)),
            None => {}
        }
        &self.device
    }
}

impl Folder for Between {
    fn names(&self) -> io::Result<Vec<String>> {
        self.call().names()
    }

    fn length(&self, name: &str) -> io::Result<u64> {
        self.call().length(name)
    }

    fn read(&self, name: &str) -> io::Result<Vec<u8>> {
        self.call().read(name)
    }

    fn read_at(&self, name: &str, offset: u64, length: usize) -> io::Result<Vec<u8>> {
        self.call().read_at(name, offset, length)
    }

    fn create(&self, _: &str) -> io::Result<Box<dyn File>> {
        Err(ErrorKind::ReadOnlyFilesystem.into())
    }

    fn open(&self, _: &str) -> io::Result<Box<dyn File>> {
        Err(ErrorKind::ReadOnlyFilesystem.into())
    }

    fn rename(&self, _: &str, _: &str) -> io::Result<()> {
        Err(ErrorKind::ReadOnlyFilesystem.into())
    }

    fn remove(&self, _: &str) -> io::Result<()> {
        Err(ErrorKind::ReadOnlyFilesystem.into())
    }

    fn sync(&self) -> io::Result<()> {
        Err(ErrorKind::ReadOnlyFilesystem.into())
    }
}

fn writes(owner: &Db) {
    owner.write(&batch_of(3, 50)).unwrap();
}

/// The steps of an owner, which are done before and within a refresh.
const STEPS: [Step; 7] = [
    |_| {},
    writes,
    |owner| {
        writes(owner);
        owner.next_log().unwrap();
    },
    |owner| {
        writes(owner);
        owner.next_log().unwrap();
        writes(owner);
    },
    |owner| owner.checkpoint().unwrap(),
    |owner| {
        writes(owner);
        owner.checkpoint().unwrap();
        writes(owner);
    },
    |owner| {
        owner.checkpoint().unwrap();
        writes(owner);
        owner.checkpoint().unwrap();
        owner.checkpoint().unwrap();
        writes(owner);
    },
];

/// Checks what a reader has, and that it has all of the owner's once it is refreshed.
fn check_between(owner: &Db, reader: &Db, least: u64) {
    let snapshot = reader.snapshot().unwrap();
    assert!(
        snapshot.sequence() >= least,
        "an acknowledged write isn't seen"
    );
    counts_of(&snapshot);
    catches_up(owner, reader);
}

#[test]
fn anything_may_be_done_between_two_calls() {
    let mut done = 0;
    let befores = STEPS.iter().step_by(if is_long() { 1 } else { 3 });
    for (before, within) in befores.flat_map(|step| STEPS.map(|other| (step, other))) {
        for calls in 0.. {
            let device = Device::default();
            let folder = Between::of(&device);
            let (owner, _) = pair(&device);
            let reader = Db::open_on(folder.clone(), &of_reader(0)).unwrap();
            before(&owner);
            let least = owner.stats().last;
            folder.plan(calls, &owner, within);
            assert!(
                reader.refresh().unwrap() >= least,
                "an acknowledged write isn't seen"
            );
            let was_done = folder.is_done();
            check_between(&owner, &reader, least);
            let least = owner.stats().last;
            folder.plan(calls, &owner, within);
            let opened = Db::open_on(folder.clone(), &of_reader(0)).unwrap();
            let was_opened = folder.is_done();
            check_between(&owner, &opened, least);
            if !was_done && !was_opened {
                break;
            }
            done += 1;
        }
    }
    assert!(done > 100, "{done}");
}

#[test]
fn checkpoints_may_be_made_meanwhile() {
    let folder: Arc<dyn Folder> = Arc::new(Device::default());
    let owner = Db::open_on(Arc::clone(&folder), &of_owner()).unwrap();
    let reader = Db::open_on(folder, &of_reader(2)).unwrap();
    let is_over = AtomicBool::new(false);
    thread::scope(|scope| {
        scope.spawn(|| {
            while !is_over.load(Ordering::Relaxed) {
                owner.checkpoint().unwrap();
            }
        });
        let _ends = Ends(&is_over);
        for number in 0..if is_long() { 4000 } else { 400 } {
            owner
                .write(&batch_of(number % WRITERS, number * 10))
                .unwrap();
            owner.next_log().unwrap();
            // Whatever was removed, it has each write.
            assert_eq!(reader.refresh().unwrap(), (number + 1) * OPERATIONS);
            counts_of(&reader.snapshot().unwrap());
        }
    });
}

#[test]
fn lookups_have_what_a_refresh_returned() {
    let device = Device::default();
    let (owner, reader) = pair(&device);
    for round in 1..60u64 {
        owner.put("k", round.to_le_bytes()).unwrap();
        if round.is_multiple_of(5) {
            // It is read anew then.
            owner.next_log().unwrap();
            owner.put("l", round.to_le_bytes()).unwrap();
            owner.checkpoint().unwrap();
        }
        assert_eq!(reader.refresh().unwrap(), owner.stats().last);
        // A thread that looks up often has a view of its own.
        for _ in 0..10 {
            assert_eq!(number(reader.get("k").unwrap()), round);
        }
    }
}

#[test]
fn a_closed_log_goes_on() {
    let folder = Temporary::new("closed");
    let owner = Db::open(folder.path(), &of_owner()).unwrap();
    owner.write(&batch_of(0, 100)).unwrap();
    let reader = Db::open(folder.path(), &of_reader(2)).unwrap();
    for round in 0..4 {
        let owner = match round {
            0 => owner.clone(),
            _ => Db::open(folder.path(), &of_owner()).unwrap(),
        };
        owner.write(&batch_of(round, 100)).unwrap();
        catches_up(&owner, &reader);
        owner.close().unwrap();
        assert_eq!(reader.refresh().unwrap(), owner.stats().last);
    }
}

#[test]
fn a_log_that_is_copied_goes_on() {
    let folder = Temporary::new("copied");
    let owner = Db::open(folder.path(), &of_owner()).unwrap();
    owner.write(&batch_of(0, 100)).unwrap();
    let reader = Db::open(folder.path(), &of_reader(0)).unwrap();
    owner.write(&batch_of(1, 100)).unwrap();
    owner.close().unwrap();
    reader.refresh().unwrap();
    // As a crash leaves it: the record of the close is torn.
    let log = folder.path().join("000001.log");
    let bytes = fs::read(&log).unwrap();
    fs::write(&log, &bytes[..bytes.len() - 1]).unwrap();
    assert_eq!(reader.refresh().unwrap(), 2 * OPERATIONS);
    let again = Db::open(folder.path(), &of_owner()).unwrap();
    catches_up(&again, &reader);
    again.write(&batch_of(2, 40_000)).unwrap();
    catches_up(&again, &reader);
}

#[test]
fn what_was_read_does_not_go_back() {
    let files = files_of(5);
    let device = Device::of(&files);
    let reader = Db::open_on(Arc::new(device.clone()), &of_reader(0)).unwrap();
    reader.refresh().unwrap();
    let mut log = device.open("000001.log").unwrap();
    log.cut(2000).unwrap();
    let before = map_of(&reader);
    for _ in 0..2 {
        let refused = reader.refresh().unwrap_err();
        assert!(matches!(refused, Error::Damaged { .. }), "{refused}");
        assert!(refused.to_string().contains("before 20, which was read"));
        assert!(map_of(&reader) == before);
    }
    log.append(&files["000001.log"][2000..]).unwrap();
    assert_eq!(reader.refresh().unwrap(), 5 * OPERATIONS);
}

#[test]
fn damage_is_told() {
    let files = files_of(9);
    let device = cut(&files, "000001.log", 1500);
    let reader = Db::open_on(Arc::new(device.clone()), &of_reader(0)).unwrap();
    let before = reader.refresh().unwrap();
    let mut rest = files["000001.log"][1500..].to_vec();
    rest[9000] ^= 1;
    device.open("000001.log").unwrap().append(&rest).unwrap();
    for _ in 0..2 {
        let refused = reader.refresh().unwrap_err();
        assert!(
            matches!(refused, Error::Damaged { ref file, .. } if file == "000001.log"),
            "{refused}"
        );
        // The batches before it are read.
        assert!(reader.snapshot().unwrap().sequence() > before);
        counts_of(&reader.snapshot().unwrap());
    }
}

#[test]
fn a_folder_may_vanish() {
    let folder = Temporary::new("vanishes");
    let owner = Db::open(folder.path(), &of_owner()).unwrap();
    owner.write(&batch_of(0, 100)).unwrap();
    let reader = Db::open(folder.path(), &of_reader(0)).unwrap();
    drop(owner);
    for file in fs::read_dir(folder.path()).unwrap() {
        fs::remove_file(file.unwrap().path()).unwrap();
    }
    assert!(matches!(reader.refresh(), Err(Error::Missing { .. })));
    fs::remove_dir(folder.path()).unwrap();
    assert!(matches!(reader.refresh(), Err(Error::File { .. })));
    assert_eq!(reader.snapshot().unwrap().sequence(), OPERATIONS);
    assert!(matches!(
        Db::open(folder.path(), &of_reader(0)),
        Err(Error::Missing { .. })
    ));
}

#[test]
fn others_are_not_refreshed() {
    let is_unsupported = |outcome: Result<u64, Error>| matches!(outcome, Err(Error::File { error, .. }) if error.kind() == ErrorKind::Unsupported);
    assert!(is_unsupported(
        Db::in_memory(&of_owner()).unwrap().refresh()
    ));
    let device = Device::default();
    let (owner, reader) = pair(&device);
    assert!(is_unsupported(owner.refresh()));
    let options = Options {
        recover_to: Some(OPERATIONS),
        ..of_reader(0)
    };
    let ends = Db::open_on(Arc::new(device), &options).unwrap();
    assert!(is_unsupported(ends.refresh()));
    reader.close().unwrap();
    assert!(matches!(reader.refresh(), Err(Error::Closed)));
    assert_eq!(reader.snapshot().unwrap().sequence(), OPERATIONS);
}
