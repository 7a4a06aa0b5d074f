//! [`Device`]: a directory as disks keep one. It fails where it is told to.
//!
//! What was synced is there after a crash. Of what wasn't, any pages are, of 512 bytes or of 4 KiB, and the others have what they had
//! before, or zeros, or what another file had elsewhere; a file may have its length without its contents. Names are there in any subset
//! unless the directory was synced. After a sync that failed the pages count as clean, as on Linux: no later sync writes them, while a
//! process still reads them.

use super::Numbers;
use std::collections::{BTreeMap, BTreeSet};
use std::io;
use std::sync::{Arc, Mutex, MutexGuard};
use ucstore_db::{File, Folder};

/// The unit in which a device writes at least.
const SECTOR: usize = 512;
const PAGE: usize = 4096;

/// A call of a device.
#[derive(Clone, Copy, Debug, PartialEq, Eq)]
pub enum Call {
    Names,
    Length,
    Read,
    Create,
    Open,
    Rename,
    Remove,
    SyncNames,
    Append,
    Cut,
    Sync,
}

impl Call {
    pub const ALL: [Call; 11] = [
        Call::Names,
        Call::Length,
        Call::Read,
        Call::Create,
        Call::Open,
        Call::Rename,
        Call::Remove,
        Call::SyncNames,
        Call::Append,
        Call::Cut,
        Call::Sync,
    ];
}

/// A file.
#[derive(Clone, Default, PartialEq, Eq)]
struct Content {
    /// The bytes that a process reads.
    bytes: Vec<u8>,
    /// The bytes that the device has for certain.
    disk: Vec<u8>,
    /// The sectors that the next sync writes.
    dirty: BTreeSet<usize>,
    /// The number of syncs that failed. Each handle reports it once.
    errors: u64,
}

/// A change of the names that isn't on the device.
#[derive(Clone, PartialEq, Eq)]
enum Change {
    Insert(String, usize),
    Rename(String, String, usize),
    Remove(String),
}

/// The part of a failing call that is done.
#[derive(Clone, Copy, Debug, PartialEq, Eq)]
pub enum Extent {
    /// Nothing; of an append and of a sync, some of it.
    Part,
    /// All of it.
    Whole,
}

/// Which call fails.
#[derive(Clone, Copy)]
struct Fault {
    /// None if all calls count.
    call: Option<Call>,
    /// The number of them that come before it.
    left: u64,
    /// Whether the later ones fail too.
    lasts: bool,
    does: Extent,
}

/// The outcome of a call.
struct Outcome {
    /// The part of it that is done; all if it doesn't fail.
    done: Extent,
    told: io::Result<()>,
}

#[derive(Clone, Default)]
struct Disk {
    contents: Vec<Content>,
    names: BTreeMap<String, usize>,
    synced: BTreeMap<String, usize>,
    changes: Vec<Change>,
    fault: Option<Fault>,
    calls: u64,
    failed: u64,
}

/// A directory in memory.
#[derive(Clone, Default)]
pub struct Device {
    disk: Arc<Mutex<Disk>>,
}

/// A file of it.
struct Opened {
    device: Device,
    number: usize,
    /// The number of the file's errors that it was told.
    seen: u64,
}

impl Device {
    /// A directory with files, which are on the device.
    pub fn of(files: &BTreeMap<String, Vec<u8>>) -> Device {
        let mut disk = Disk::default();
        for (name, bytes) in files {
            disk.names.insert(name.clone(), disk.contents.len());
            disk.contents.push(Content {
                bytes: bytes.clone(),
                disk: bytes.clone(),
                ..Default::default()
            });
        }
        disk.synced = disk.names.clone();
        Device::with(disk)
    }

    fn with(disk: Disk) -> Device {
        Device {
            disk: Arc::new(Mutex::new(disk)),
        }
    }

    /// The files as a process sees them.
    pub fn files(&self) -> BTreeMap<String, Vec<u8>> {
        let disk = self.lock();
        let file = |(name, number): (&String, &usize)| {
            (name.clone(), disk.contents[*number].bytes.clone())
        };
        disk.names.iter().map(file).collect()
    }

    /// Its logs and bases.
    pub fn logs(&self) -> BTreeMap<String, Vec<u8>> {
        let mut files = self.files();
        files.retain(|name, _| name.starts_with('0'));
        files
    }

    /// The number of calls, and of those that failed.
    pub fn calls(&self) -> (u64, u64) {
        let disk = self.lock();
        (disk.calls, disk.failed)
    }

    /// Lets a call fail, once or from there on; of all calls, or of one kind.
    pub fn fail(&self, call: Option<Call>, left: u64, lasts: bool) {
        self.fail_having_done(Extent::Part, call, left, lasts);
    }

    /// Lets a call fail that has done its work, or a part of it.
    pub fn fail_having_done(&self, does: Extent, call: Option<Call>, left: u64, lasts: bool) {
        let fault = Fault {
            call,
            left,
            lasts,
            does,
        };
        self.lock().fault = Some(fault);
    }

    /// The same device, without faults, as the next process finds it: what wasn't synced is still in memory, and pages of a sync that
    /// failed aren't on the device.
    pub fn restarted(&self) -> Device {
        let disk = self.lock().clone();
        Device::with(Disk {
            fault: None,
            calls: 0,
            failed: 0,
            ..disk
        })
    }

    /// The directory after a crash: the first changes of names or any of them, and of each file what may be left of it.
    pub fn crash(&self, numbers: &mut Numbers) -> Device {
        let disk = self.lock();
        let mut names = disk.synced.clone();
        let first = numbers.below(disk.changes.len() as u64 + 1) as usize;
        let in_order = numbers.below(2) == 0;
        for (place, change) in disk.changes.iter().enumerate() {
            let is_kept = match in_order {
                true => place < first,
                false => numbers.below(2) == 0,
            };
            if is_kept {
                change.apply(&mut names);
            }
        }
        let mut files = BTreeMap::new();
        for (name, number) in names {
            let mut left = disk.contents[number].survivor(numbers);
            if numbers.below(4) == 0 {
                let other = numbers.below(disk.contents.len() as u64) as usize;
                disk.contents[number].show_stale(&mut left, &disk.contents[other]);
            }
            files.insert(name, left);
        }
        Device::of(&files)
    }

    fn lock(&self) -> MutexGuard<'_, Disk> {
        self.disk.lock().unwrap()
    }

    /// Begins a call, which may fail.
    fn begin(&self, call: Call) -> (MutexGuard<'_, Disk>, Outcome) {
        let mut disk = self.lock();
        disk.calls += 1;
        let outcome = disk.judge(call);
        disk.failed += u64::from(outcome.told.is_err());
        (disk, outcome)
    }

    /// Begins a call that only reads.
    fn reading(&self, call: Call) -> io::Result<MutexGuard<'_, Disk>> {
        let (disk, outcome) = self.begin(call);
        outcome.told.map(|()| disk)
    }

    /// Makes a change that is done whole or not at all.
    fn change<T>(
        &self,
        call: Call,
        change: impl FnOnce(&mut Disk) -> io::Result<T>,
    ) -> io::Result<T> {
        let (mut disk, outcome) = self.begin(call);
        if outcome.done == Extent::Part {
            outcome.told?;
            unreachable!("a call that doesn't fail is done whole");
        }
        let changed = change(&mut disk)?;
        outcome.told.map(|()| changed)
    }

    fn file(&self, number: usize) -> Box<dyn File> {
        let seen = self.lock().contents[number].errors;
        Box::new(Opened {
            device: self.clone(),
            number,
            seen,
        })
    }
}

impl Disk {
    fn judge(&mut self, call: Call) -> Outcome {
        let fine = Outcome {
            done: Extent::Whole,
            told: Ok(()),
        };
        let Some(fault) = &mut self.fault else {
            return fine;
        };
        if fault.call.is_some_and(|kind| kind != call) {
            return fine;
        }
        if fault.left > 0 {
            fault.left -= 1;
            return fine;
        }
        let done = fault.does;
        if !fault.lasts {
            self.fault = None;
        }
        Outcome {
            done,
            told: Err(io::Error::other(format!("{call:?} fails"))),
        }
    }

    fn apply(&mut self, change: Change) {
        change.apply(&mut self.names);
        self.changes.push(change);
    }

    fn number(&self, name: &str) -> io::Result<usize> {
        let number = self.names.get(name).copied();
        number.ok_or_else(|| io::Error::from(io::ErrorKind::NotFound))
    }
}

impl Change {
    fn apply(&self, names: &mut BTreeMap<String, usize>) {
        match self {
            Change::Insert(name, number) => drop(names.insert(name.clone(), *number)),
            Change::Rename(from, to, number) => {
                names.remove(from);
                names.insert(to.clone(), *number);
            }
            Change::Remove(name) => drop(names.remove(name)),
        }
    }
}

impl Content {
    fn append(&mut self, bytes: &[u8]) {
        let begin = self.bytes.len();
        self.bytes.extend_from_slice(bytes);
        let sectors = begin / SECTOR..self.bytes.len().div_ceil(SECTOR);
        self.dirty.extend(sectors);
    }

    fn cut(&mut self, length: usize) {
        self.bytes.truncate(length);
        self.dirty.retain(|sector| sector * SECTOR < length);
    }

    /// Writes what is dirty: all of it, or some if that fails.
    fn sync(&mut self, is_written: impl Fn(usize) -> bool) {
        self.disk.resize(self.bytes.len(), 0);
        for sector in std::mem::take(&mut self.dirty) {
            if is_written(sector) {
                let begin = sector * SECTOR;
                let end = self.bytes.len().min(begin + SECTOR);
                self.disk[begin..end].copy_from_slice(&self.bytes[begin..end]);
            }
        }
    }

    /// The contents after a crash: the first bytes of what wasn't synced, or any pages of it.
    fn survivor(&self, numbers: &mut Numbers) -> Vec<u8> {
        let length = self.length_left(numbers);
        let mut left = self.disk.clone();
        left.resize(length, 0);
        let unit = if numbers.below(2) == 0 { SECTOR } else { PAGE };
        let first = numbers.below((self.bytes.len() / SECTOR + 2) as u64) as usize;
        let in_order = numbers.below(4) == 0;
        let mut kept = BTreeMap::new();
        for sector in &self.dirty {
            let is_kept = match in_order {
                true => *sector < first,
                false => *kept
                    .entry(sector * SECTOR / unit)
                    .or_insert_with(|| numbers.below(2) == 0),
            };
            let (begin, end) = (sector * SECTOR, (sector + 1) * SECTOR);
            let end = end.min(self.bytes.len()).min(length);
            if is_kept && begin < end {
                left[begin..end].copy_from_slice(&self.bytes[begin..end]);
            }
        }
        left
    }

    /// Puts what another file has elsewhere where nothing was written.
    fn show_stale(&self, left: &mut [u8], other: &Content) {
        for begin in self.dirty.iter().map(|sector| sector * SECTOR) {
            let end = left.len().min(begin + SECTOR);
            let is_unwritten = begin >= self.disk.len() && begin < end;
            let stale = other.bytes.get(begin + SECTOR..end + SECTOR);
            if let Some(stale) = stale.filter(|_| is_unwritten) {
                if left[begin..end].iter().all(|byte| *byte == 0) {
                    left[begin..end].copy_from_slice(stale);
                }
            }
        }
    }

    /// Its possible lengths after a crash: as it was on the device, or is now, or between.
    fn length_left(&self, numbers: &mut Numbers) -> usize {
        let (disk, bytes) = (self.disk.len(), self.bytes.len());
        let (least, most) = (disk.min(bytes), disk.max(bytes));
        match numbers.below(4) {
            0 => disk,
            1 => bytes,
            _ => least + numbers.below((most - least) as u64 + 1) as usize,
        }
    }
}

impl Folder for Device {
    fn names(&self) -> io::Result<Vec<String>> {
        Ok(self.reading(Call::Names)?.names.keys().cloned().collect())
    }

    fn length(&self, name: &str) -> io::Result<u64> {
        let disk = self.reading(Call::Length)?;
        let number = disk.number(name)?;
        Ok(disk.contents[number].bytes.len() as u64)
    }

    fn read(&self, name: &str) -> io::Result<Vec<u8>> {
        let disk = self.reading(Call::Read)?;
        let number = disk.number(name)?;
        Ok(disk.contents[number].bytes.clone())
    }

    fn create(&self, name: &str) -> io::Result<Box<dyn File>> {
        let number = self.change(Call::Create, |disk| {
            let number = disk.contents.len();
            disk.contents.push(Content::default());
            disk.apply(Change::Insert(name.into(), number));
            Ok(number)
        })?;
        Ok(self.file(number))
    }

    fn open(&self, name: &str) -> io::Result<Box<dyn File>> {
        let number = self.reading(Call::Open)?.number(name)?;
        Ok(self.file(number))
    }

    fn rename(&self, from: &str, to: &str) -> io::Result<()> {
        self.change(Call::Rename, |disk| {
            let number = disk.number(from)?;
            disk.apply(Change::Rename(from.into(), to.into(), number));
            Ok(())
        })
    }

    fn remove(&self, name: &str) -> io::Result<()> {
        self.change(Call::Remove, |disk| {
            disk.number(name)?;
            disk.apply(Change::Remove(name.into()));
            Ok(())
        })
    }

    fn sync(&self) -> io::Result<()> {
        self.change(Call::SyncNames, |disk| {
            disk.synced = disk.names.clone();
            disk.changes.clear();
            Ok(())
        })
    }
}

impl File for Opened {
    fn append(&mut self, bytes: &[u8]) -> io::Result<()> {
        let (mut disk, outcome) = self.device.begin(Call::Append);
        let count = match outcome.done {
            Extent::Whole => bytes.len(),
            Extent::Part => disk.calls as usize * 7 % (bytes.len() + 1),
        };
        disk.contents[self.number].append(&bytes[..count]);
        outcome.told
    }

    fn cut(&mut self, length: u64) -> io::Result<()> {
        let number = self.number;
        self.device.change(Call::Cut, |disk| {
            disk.contents[number].cut(length as usize);
            Ok(())
        })
    }

    fn sync(&mut self) -> io::Result<()> {
        let (mut disk, outcome) = self.device.begin(Call::Sync);
        let calls = disk.calls as usize;
        let content = &mut disk.contents[self.number];
        content.errors += u64::from(outcome.told.is_err());
        match outcome.done {
            Extent::Whole => content.sync(|_| true),
            Extent::Part => content.sync(|sector| (calls + sector).is_multiple_of(3)),
        }
        if std::mem::replace(&mut self.seen, content.errors) < content.errors {
            return Err(io::Error::other("Sync fails"));
        }
        outcome.told
    }
}
