//! Devices that are full, and processes without descriptors: what is refused then, and that all goes on later.

mod common;

use common::{map_of, open, Around, Call, Device, Extent, Numbers, Over};
use std::collections::BTreeMap;
use std::io;
use std::sync::atomic::{AtomicBool, AtomicU64, Ordering};
use std::sync::{Arc, Mutex};
use ucstore_db::{Db, Error, File, Folder, Options};

/// A device of a given size in bytes.
#[derive(Clone)]
struct Small {
    device: Device,
    room: Arc<AtomicU64>,
    sizes: Arc<Mutex<BTreeMap<String, u64>>>,
}

struct SmallFile {
    small: Small,
    file: Box<dyn File>,
    name: String,
}

impl Small {
    fn new(room: u64) -> Small {
        Small {
            device: Device::default(),
            room: Arc::new(AtomicU64::new(room)),
            sizes: Arc::default(),
        }
    }

    fn file(&self, name: &str, file: Box<dyn File>) -> Box<dyn File> {
        Box::new(SmallFile {
            small: self.clone(),
            file,
            name: name.into(),
        })
    }

    /// Gives a file another size. What it takes is there, or none is taken.
    fn resize(&self, name: &str, size: u64) -> io::Result<()> {
        let mut sizes = self.sizes.lock().unwrap();
        let before = sizes.get(name).copied().unwrap_or(0);
        let room = self.room.load(Ordering::SeqCst) + before;
        let left = room.checked_sub(size).ok_or_else(full)?;
        self.room.store(left, Ordering::SeqCst);
        sizes.insert(name.into(), size);
        Ok(())
    }

    fn size(&self, name: &str) -> u64 {
        self.sizes.lock().unwrap().get(name).copied().unwrap_or(0)
    }
}

/// The error of a full device.
fn full() -> io::Error {
    io::Error::from(io::ErrorKind::StorageFull)
}

impl Around for Small {
    fn device(&self) -> &Device {
        &self.device
    }

    fn create(&self, name: &str) -> io::Result<Box<dyn File>> {
        self.resize(name, 0)?;
        Ok(self.file(name, self.device.create(name)?))
    }

    fn open(&self, name: &str) -> io::Result<Box<dyn File>> {
        Ok(self.file(name, self.device.open(name)?))
    }

    fn rename(&self, from: &str, to: &str) -> io::Result<()> {
        let size = self.size(from);
        self.resize(from, 0)?;
        self.resize(to, size)?;
        self.device.rename(from, to)
    }

    fn remove(&self, name: &str) -> io::Result<()> {
        self.resize(name, 0)?;
        self.device.remove(name)
    }
}

impl File for SmallFile {
    fn append(&mut self, bytes: &[u8]) -> io::Result<()> {
        let size = self.small.size(&self.name);
        let fitting = (bytes.len() as u64).min(self.small.room.load(Ordering::SeqCst));
        self.small.resize(&self.name, size + fitting)?;
        self.file.append(&bytes[..fitting as usize])?;
        match fitting == bytes.len() as u64 {
            true => Ok(()),
            false => Err(full()),
        }
    }

    fn cut(&mut self, length: u64) -> io::Result<()> {
        self.small.resize(&self.name, length)?;
        self.file.cut(length)
    }

    fn sync(&mut self) -> io::Result<()> {
        self.file.sync()
    }
}

fn by_hand() -> Options {
    Options {
        checkpoint_least: u64::MAX,
        ..Default::default()
    }
}

#[test]
fn a_checkpoint_without_room_gives_back_what_it_took() {
    let small = Small::new(3 << 20);
    let db = Db::open_on(Arc::new(Over(small.clone())), &by_hand()).unwrap();
    for row in 0..200u32 {
        db.put(row.to_be_bytes(), vec![7; 10_000]).unwrap();
    }
    for _ in 0..3 {
        let before = small.room.load(Ordering::SeqCst);
        let refused = db.checkpoint().unwrap_err();
        assert!(matches!(refused, Error::File { .. }), "{refused}");
        assert_eq!(small.room.load(Ordering::SeqCst), before);
        assert!(!small
            .device
            .files()
            .keys()
            .any(|name| name.contains(".run")));
        db.put("small", "write").unwrap();
    }
    drop(db);
    assert_eq!(map_of(&open(&small.device.restarted()).unwrap()).len(), 201);
}

#[test]
fn a_write_without_room_is_refused_and_later_ones_go_on() {
    let small = Small::new(1 << 20);
    let db = Db::open_on(Arc::new(Over(small.clone())), &by_hand()).unwrap();
    let mut rows = 0u32;
    while db.put(rows.to_be_bytes(), vec![7; 10_000]).is_ok() {
        rows += 1;
    }
    for _ in 0..3 {
        let refused = db.put("large", vec![7; 10_000]).unwrap_err();
        assert!(matches!(refused, Error::File { .. }), "{refused}");
        assert!(db.failure().is_none() && db.get("large").unwrap().is_none());
        db.put("small", "write").unwrap();
    }
    // Somebody frees space.
    small.room.fetch_add(1 << 20, Ordering::SeqCst);
    db.put("large", vec![8; 10_000]).unwrap();
    let map = map_of(&db);
    assert_eq!(map.len() as u32, rows + 2);
    for seed in 0..20 {
        let crashed = small.device.crash(&mut Numbers(seed));
        assert_eq!(map_of(&open(&crashed).unwrap()), map);
    }
    db.close().unwrap();
    assert_eq!(map_of(&open(&small.device.restarted()).unwrap()), map);
}

/// A refused batch that was cut off is never there again, in place of one that was acknowledged.
#[test]
fn a_refused_batch_stays_gone() {
    for seed in 0..100 {
        let device = Device::default();
        let db = open(&device).unwrap();
        db.put("a", [1; 600]).unwrap();
        device.fail_having_done(Extent::Whole, Some(Call::Append), 0, false);
        let refused = db.put("b", [2; 600]).unwrap_err();
        assert!(matches!(refused, Error::File { .. }), "{refused}");
        db.put("c", [3; 600]).unwrap();
        db.put("d", [4; 600]).unwrap();
        let found = map_of(&open(&device.crash(&mut Numbers(seed))).unwrap());
        let keys: Vec<u8> = found.keys().map(|key| key[0]).collect();
        assert!(b"acd".starts_with(&keys), "{keys:?}");
    }
}

#[test]
fn a_log_that_cannot_be_cut_back_ends_writing() {
    let device = Device::default();
    let db = open(&device).unwrap();
    db.put("a", "1").unwrap();
    for call in [Call::Cut, Call::Sync] {
        let device = device.restarted();
        let db = open(&device).unwrap();
        // The append fails first, and then the truncation that would mend it.
        let failing = FailingBoth(device.clone(), call);
        drop(db);
        let db = Db::open_on(Arc::new(Over(failing)), &by_hand()).unwrap();
        let refused = db.put("b", "2").unwrap_err();
        assert!(matches!(refused, Error::ReadOnly { .. }), "{refused}");
        assert!(db.failure().is_some());
        assert_eq!(map_of(&db).len(), 1);
    }
}

/// A device that lets all appends to logs fail, and another call after each.
struct FailingBoth(Device, Call);

struct FailingFile(Box<dyn File>, Device, Call);

impl Around for FailingBoth {
    fn device(&self) -> &Device {
        &self.0
    }

    fn open(&self, name: &str) -> io::Result<Box<dyn File>> {
        let file = self.0.open(name)?;
        Ok(Box::new(FailingFile(file, self.0.clone(), self.1)))
    }
}

impl File for FailingFile {
    fn append(&mut self, bytes: &[u8]) -> io::Result<()> {
        self.0.append(&bytes[..bytes.len() / 2])?;
        self.1.fail(Some(self.2), 0, true);
        Err(full())
    }

    fn cut(&mut self, length: u64) -> io::Result<()> {
        self.0.cut(length)
    }

    fn sync(&mut self) -> io::Result<()> {
        self.0.sync()
    }
}

/// A folder of a process that has no descriptors for a while.
struct NoDescriptors {
    device: Device,
    are_spent: Arc<AtomicBool>,
}

impl NoDescriptors {
    fn check(&self) -> io::Result<()> {
        match self.are_spent.load(Ordering::SeqCst) {
            false => Ok(()),
            true => Err(io::Error::from_raw_os_error(24)),
        }
    }
}

impl Around for NoDescriptors {
    fn device(&self) -> &Device {
        &self.device
    }

    fn names(&self) -> io::Result<Vec<String>> {
        self.check()?;
        self.device.names()
    }

    fn read(&self, name: &str) -> io::Result<Vec<u8>> {
        self.check()?;
        self.device.read(name)
    }

    fn read_at(&self, name: &str, offset: u64, length: usize) -> io::Result<Vec<u8>> {
        self.check()?;
        self.device.read_at(name, offset, length)
    }

    fn create(&self, name: &str) -> io::Result<Box<dyn File>> {
        self.check()?;
        self.device.create(name)
    }

    fn open(&self, name: &str) -> io::Result<Box<dyn File>> {
        self.check()?;
        self.device.open(name)
    }
}

#[test]
fn a_process_without_descriptors_for_a_while_goes_on() {
    let are_spent = Arc::new(AtomicBool::new(false));
    let device = Device::default();
    let folder = NoDescriptors {
        device: device.clone(),
        are_spent: are_spent.clone(),
    };
    let db = Db::open_on(Arc::new(Over(folder)), &by_hand()).unwrap();
    db.put("a", "1").unwrap();
    are_spent.store(true, Ordering::SeqCst);
    let now = db.snapshot().unwrap();
    let refusals = [db.next_log(), db.checkpoint(), db.checkpoint_to(&now)];
    for refused in refusals {
        let refused = refused.unwrap_err();
        assert!(matches!(refused, Error::File { .. }), "{refused}");
    }
    db.put("b", "2").unwrap();
    db.sync().unwrap();
    are_spent.store(false, Ordering::SeqCst);
    db.put("c", "3").unwrap();
    db.checkpoint().unwrap();
    db.close().unwrap();
    assert_eq!(map_of(&open(&device).unwrap()).len(), 3);
}

/// Names that can't be synced are no end of writing either: the log goes on as it was.
#[test]
fn a_log_goes_on_if_the_name_of_the_next_one_is_not_synced() {
    for seed in 0..20 {
        let device = Device::default();
        let db = open(&device).unwrap();
        db.put("a", "1").unwrap();
        device.fail(Some(Call::SyncNames), 0, false);
        assert!(matches!(db.checkpoint(), Err(Error::File { .. })));
        db.put("b", "2").unwrap();
        db.checkpoint().unwrap();
        db.put("c", "3").unwrap();
        db.sync().unwrap();
        let crashed = device.crash(&mut Numbers(seed));
        assert_eq!(map_of(&open(&crashed).unwrap()).len(), 3);
    }
}

/// A base, a run file or a list that isn't read as it was written takes nothing away.
#[test]
fn a_checkpoint_that_is_read_otherwise_is_refused() {
    for kind in [".base.new", ".run", ".runs.new"] {
        let device = Device::default();
        let misread = Misread(device.clone(), kind);
        let db = Db::open_on(Arc::new(Over(misread)), &by_hand()).unwrap();
        for row in 0..100u32 {
            db.put(row.to_be_bytes(), [7; 30]).unwrap();
        }
        let before = device.files();
        let refused = match kind {
            ".base.new" => db.checkpoint_to(&db.snapshot().unwrap()),
            _ => db.checkpoint(),
        };
        let refused = refused.unwrap_err();
        assert!(matches!(refused, Error::Damaged { .. }), "{refused}");
        let after = device.files();
        assert_eq!(after["000001.log"], before["000001.log"]);
        let is_checkpoint = |name: &String| name.contains(".base") || name.contains(".run");
        assert!(!after.keys().any(is_checkpoint), "{:?}", after.keys());
        db.put("more", "value").unwrap();
        drop(db);
        assert_eq!(map_of(&open(&device).unwrap()).len(), 101);
    }
}

/// A device on which a bit of each file of a kind goes bad.
struct Misread(Device, &'static str);

impl Around for Misread {
    fn device(&self) -> &Device {
        &self.0
    }

    fn read_at(&self, name: &str, offset: u64, length: usize) -> io::Result<Vec<u8>> {
        let mut bytes = self.0.read_at(name, offset, length)?;
        if name.ends_with(self.1) {
            bytes[60] ^= 1;
        }
        Ok(bytes)
    }
}
