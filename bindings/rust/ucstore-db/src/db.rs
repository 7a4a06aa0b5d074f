//! [`Db`]: a database that threads share.

use crate::disk_folder::DiskFolder;
use crate::error::Error;
use crate::folder::Folder;
use crate::lock;
use crate::options::Options;
use crate::read_source::ReadSource;
use crate::shared::Shared;
use crate::snapshot::{Rows, Snapshot};
use crate::stats::Stats;
use crate::workers::Workers;
use std::cell::Cell;
use std::fmt;
use std::mem::MaybeUninit;
use std::ops::RangeBounds;
use std::path::Path;
use std::sync::{Arc, Weak};
use ucstore::{Batch, KeyValue};

/// The most bytes of a buffer that a thread keeps for its next operation.
const MOST_KEPT: usize = 64 << 10;

thread_local! {
    /// The batch in which a thread gathers a single operation. Its memory is used again.
    static SINGLE: Cell<Batch> = Cell::default();
}

/// A database that threads share: a clone is the same one. It is closed where the last clone is dropped.
#[derive(Clone)]
pub struct Db {
    workers: Arc<Workers>,
}

/// A database that this doesn't keep open, as for a [`Listener`](crate::Listener) that calls it.
///
/// ```
/// # use std::sync::{Arc, OnceLock};
/// # use ucstore_db::{Db, Event, Listener, Options, WeakDb};
/// # fn main() -> Result<(), ucstore_db::Error> {
/// let cell = Arc::new(OnceLock::<WeakDb>::new());
/// let seen = Arc::clone(&cell);
/// let events = Some(Listener::new(move |event: &Event| {
///     if let Some(db) = seen.get().and_then(WeakDb::upgrade) {
///         println!("{event:?} at {} runs", db.stats().runs);
///     }
/// }));
/// let db = Db::in_memory(&Options { events, ..Default::default() })?;
/// cell.set(db.downgrade()).unwrap();
/// # Ok(())
/// # }
/// ```
#[derive(Clone)]
pub struct WeakDb {
    workers: Weak<Workers>,
}

impl WeakDb {
    /// Returns the database, unless its last clone was dropped.
    pub fn upgrade(&self) -> Option<Db> {
        let workers = self.workers.upgrade()?;
        Some(Db { workers })
    }
}

impl fmt::Debug for WeakDb {
    fn fmt(&self, formatter: &mut fmt::Formatter<'_>) -> fmt::Result {
        formatter.debug_struct("WeakDb").finish_non_exhaustive()
    }
}

impl Db {
    /// The database of a folder, which is made if it isn't there.
    ///
    /// # Errors
    ///
    /// [`Error::Locked`], [`Error::OtherOperator`], [`Error::Damaged`], [`Error::Missing`] and [`Error::NotRecoverable`], which change
    /// nothing; [`Error::File`], [`Error::Store`].
    pub fn open(folder: impl AsRef<Path>, options: &Options) -> Result<Db, Error> {
        options.check()?;
        let folder = match options {
            Options {
                read_only: true, ..
            } => DiskFolder::open_beside(folder),
            Options {
                must_exist: true, ..
            } => DiskFolder::open_existing(folder),
            _ => DiskFolder::open(folder),
        }?;
        Db::open_on(Arc::new(folder), options)
    }

    /// The database of a folder on another device. Nothing else opens it meanwhile.
    ///
    /// # Errors
    ///
    /// As [`open`](Db::open).
    pub fn open_on(folder: Arc<dyn Folder>, options: &Options) -> Result<Db, Error> {
        let must_exist = options.must_exist || options.read_only;
        let options = Options {
            must_exist,
            ..options.clone()
        };
        Db::of(Some(folder), &options)
    }

    /// An empty database that ends with its process.
    ///
    /// # Errors
    ///
    /// [`Error::Store`], [`Error::File`] if no thread can be started.
    pub fn in_memory(options: &Options) -> Result<Db, Error> {
        Db::of(None, options)
    }

    /// Sets a key to a value.
    ///
    /// # Errors
    ///
    /// As [`write`](Db::write).
    pub fn put(&self, key: impl AsRef<[u8]>, value: impl AsRef<[u8]>) -> Result<(), Error> {
        let (key, value) = (key.as_ref(), value.as_ref());
        self.write_one(|batch| batch.put(key, value).map(|_| ()))
    }

    /// Removes a key.
    ///
    /// # Errors
    ///
    /// As [`write`](Db::write).
    pub fn delete(&self, key: impl AsRef<[u8]>) -> Result<(), Error> {
        self.write_one(|batch| batch.delete(key).map(|_| ()))
    }

    /// Removes each key from `begin` to below `end`: none if `begin` isn't below `end`.
    ///
    /// # Errors
    ///
    /// As [`write`](Db::write).
    pub fn delete_range(
        &self,
        begin: impl AsRef<[u8]>,
        end: impl AsRef<[u8]>,
    ) -> Result<(), Error> {
        let (begin, end) = (begin.as_ref(), end.as_ref());
        self.write_one(|batch| batch.delete_range(begin, end).map(|_| ()))
    }

    /// Takes a batch: all of it, or nothing. It is acknowledged as [`Options::sync`] says.
    ///
    /// # Errors
    ///
    /// [`Error::Store`] if it is refused before it is logged, and [`Error::File`] if the disk of its log is full. Then it, and what came
    /// with it, isn't taken, and later writes may be.
    ///
    /// [`Error::ReadOnly`] if its log fails, or has failed: it isn't taken. The one that failed may be there again, or
    /// not, when the folder is opened the next time. [`Error::Closed`].
    pub fn write(&self, batch: &Batch) -> Result<(), Error> {
        self.write_with(batch, self.shared().is_synced())
    }

    /// Takes a batch, as [`write`](Db::write) does, and says whether it is to be on the device when this returns.
    ///
    /// # Errors
    ///
    /// As [`write`](Db::write).
    pub fn write_with(&self, batch: &Batch, is_synced: bool) -> Result<(), Error> {
        if batch.is_empty() {
            return self.shared().check();
        }
        self.shared().write(batch.try_bytes()?, is_synced)
    }

    /// Takes a batch that [`Batch::bytes`] or RocksDB wrote, as [`write_with`](Db::write_with) does, alone in its record. Its operations
    /// get its sequence and those after it, or the ones after the last one if it is 0. If there is a gap before it, its record tells
    /// that: so writes that are missing in a log are still told from it.
    ///
    /// ```
    /// # use ucstore_db::{Batch, Db, Options};
    /// # fn main() -> Result<(), ucstore_db::Error> {
    /// let db = Db::in_memory(&Options::default())?;
    /// let mut bytes = Batch::new().put("colour", "blue")?.bytes();
    /// bytes[..8].copy_from_slice(&7u64.to_le_bytes());
    /// db.write_bytes(&bytes, true)?;
    /// assert_eq!(db.snapshot()?.sequence(), 7);
    /// # Ok(())
    /// # }
    /// ```
    ///
    /// # Errors
    ///
    /// [`Error::Store`] if it is no batch, or its sequence is neither 0 nor above the last one; and those of
    /// [`write`](Db::write).
    pub fn write_bytes(&self, batch: &[u8], is_synced: bool) -> Result<(), Error> {
        self.shared().write_alone(batch, is_synced)
    }

    /// Waits until all acknowledged writes are on the device.
    ///
    /// # Errors
    ///
    /// [`Error::ReadOnly`], [`Error::Closed`].
    pub fn sync(&self) -> Result<(), Error> {
        self.shared().sync()
    }

    /// The value under a key, if there is one.
    ///
    /// # Errors
    ///
    /// [`Error::Store`] if memory is refused, as for each read.
    pub fn get(&self, key: impl AsRef<[u8]>) -> Result<Option<Vec<u8>>, Error> {
        let key = key.as_ref();
        self.look_up(key, |source| source.get(key))
    }

    /// Puts the value under a key into a vector, instead of what that has, and tells whether there is one. The vector is empty
    /// without one, and its memory is used again.
    ///
    /// ```
    /// # use ucstore_db::{Db, Options};
    /// # fn main() -> Result<(), ucstore_db::Error> {
    /// let db = Db::in_memory(&Options::default())?;
    /// db.put("colour", "blue")?;
    /// let mut value = Vec::new();
    /// assert!(db.get_into("colour", &mut value)?);
    /// assert_eq!(value, b"blue");
    /// # Ok(())
    /// # }
    /// ```
    ///
    /// # Errors
    ///
    /// As [`get`](Db::get).
    pub fn get_into(&self, key: impl AsRef<[u8]>, value: &mut Vec<u8>) -> Result<bool, Error> {
        let key = key.as_ref();
        self.look_up(key, |source| source.get_into(key, value))
    }

    /// Copies the value of a key into a buffer, as much of it as fits. Returns the size of all of it, if there is
    /// one: the part of the buffer below it is initialized then.
    ///
    /// # Errors
    ///
    /// As [`get`](Db::get).
    pub fn get_to_room(
        &self,
        key: impl AsRef<[u8]>,
        buf: &mut [MaybeUninit<u8>],
    ) -> Result<Option<usize>, Error> {
        let key = key.as_ref();
        self.look_up(key, |source| source.get_to_room(key, buf))
    }

    /// For each key its value, if there is one, at one moment. The keys come in any order.
    ///
    /// # Errors
    ///
    /// As [`get`](Db::get).
    pub fn get_many<K: AsRef<[u8]>>(
        &self,
        keys: impl IntoIterator<Item = K>,
    ) -> Result<Vec<Option<Vec<u8>>>, Error> {
        self.snapshot()?.get_many(keys)
    }

    /// A snapshot of its contents now.
    ///
    /// # Errors
    ///
    /// As [`get`](Db::get).
    pub fn snapshot(&self) -> Result<Snapshot, Error> {
        let shared = self.shared();
        Ok(Snapshot::of(shared.view()?, &shared.counts))
    }

    /// A snapshot of its contents now, for scans: the writes that no run has yet are sorted, once for all that scan it before the next write.
    ///
    /// # Errors
    ///
    /// As [`get`](Db::get).
    pub fn snapshot_to_scan(&self) -> Result<Snapshot, Error> {
        let shared = self.shared();
        Ok(Snapshot::sorted(shared.sorted_view()?, &shared.counts))
    }

    /// All keys, with their values, at one moment.
    ///
    /// # Errors
    ///
    /// As [`get`](Db::get), also for each row.
    pub fn iter(&self) -> Result<Rows, Error> {
        self.snapshot_to_scan()?.iter()
    }

    /// The least key that has a value, with it.
    ///
    /// # Errors
    ///
    /// As [`get`](Db::get).
    pub fn first_key_value(&self) -> Result<Option<KeyValue>, Error> {
        self.snapshot_to_scan()?.first_key_value()
    }

    /// The greatest key that has a value, with it.
    ///
    /// # Errors
    ///
    /// As [`get`](Db::get).
    pub fn last_key_value(&self) -> Result<Option<KeyValue>, Error> {
        self.snapshot_to_scan()?.last_key_value()
    }

    /// The keys of a range, with their values, at one moment. All keys are those of [`iter`](Db::iter).
    ///
    /// ```
    /// # use ucstore_db::{Db, Options};
    /// # fn main() -> Result<(), ucstore_db::Error> {
    /// let db = Db::in_memory(&Options::default())?;
    /// for key in ["a", "b", "c"] {
    ///     db.put(key, "1")?;
    /// }
    /// for row in db.range("b"..)?.rev() {
    ///     let (key, value) = row?;
    ///     println!("{}: {}", key.escape_ascii(), value.escape_ascii());
    /// }
    /// assert_eq!(db.range("a"..="b")?.count(), 2);
    /// # Ok(())
    /// # }
    /// ```
    ///
    /// # Errors
    ///
    /// As [`iter`](Db::iter).
    pub fn range<K: AsRef<[u8]>>(&self, range: impl RangeBounds<K>) -> Result<Rows, Error> {
        self.snapshot_to_scan()?.range(range)
    }

    /// The keys that begin with these bytes, with their values, at one moment.
    ///
    /// # Errors
    ///
    /// As [`iter`](Db::iter).
    pub fn prefix(&self, prefix: impl AsRef<[u8]>) -> Result<Rows, Error> {
        self.snapshot_to_scan()?.prefix(prefix)
    }

    /// Makes a run of what is gathered in memory. Nothing has to call this.
    ///
    /// # Errors
    ///
    /// [`Error::Store`].
    pub fn flush(&self) -> Result<(), Error> {
        self.shared().flush()
    }

    /// Compacts until nothing is picked, beside the database's own threads. Nothing has to call this.
    ///
    /// # Errors
    ///
    /// [`Error::Store`].
    pub fn compact(&self) -> Result<(), Error> {
        while self.shared().compact()? {}
        Ok(())
    }

    /// Writes the runs that no checkpoint has, and a list of all, and removes the logs before it. Others write meanwhile, and wait for a
    /// flush of the memtables. It does nothing in memory, or if a list of runs has all writes.
    ///
    /// # Errors
    ///
    /// [`Error::File`] and [`Error::Store`] if it isn't written, or no new log can be made, and [`Error::Damaged`] or [`Error::Missing`]
    /// if it isn't read as it was written: then the logs stay, and the database goes on.
    /// [`Error::ReadOnly`] if the log can't be synced. [`Error::Closed`].
    pub fn checkpoint(&self) -> Result<(), Error> {
        self.shared().checkpoint()
    }

    /// Writes the runs of a snapshot, or a base of its rows if it has writes that no run has, and removes the logs that have nothing after
    /// it. Later writes stay in logs, so that it may be made again as a [mark](Options::marks). Others write meanwhile. In memory, or if a
    /// checkpoint has as much, it does nothing. It ends if the database is closed, which waits for that.
    ///
    /// # Errors
    ///
    /// [`Error::File`] and [`Error::Store`] if it isn't written, or no new log can be made: then the logs stay, and the database
    /// goes on. [`Error::ReadOnly`] if the log can't be ended. [`Error::OtherDatabase`], [`Error::Closed`].
    pub fn checkpoint_to(&self, snapshot: &Snapshot) -> Result<(), Error> {
        let (shared, (view, counts)) = (self.shared(), snapshot.parts());
        if !Arc::ptr_eq(counts, &shared.counts) {
            return Err(Error::OtherDatabase);
        }
        shared.checkpoint_to(view)
    }

    /// Goes on in a new log, unless nothing is in this one: so a checkpoint of now will let the ones before it go, whatever is
    /// written until then. Nothing has to call this. In memory it does nothing.
    ///
    /// # Errors
    ///
    /// [`Error::File`] if it can't be made: then this one goes on. [`Error::ReadOnly`] if this one can't be ended.
    /// [`Error::Closed`].
    pub fn next_log(&self) -> Result<(), Error> {
        self.shared().next_log()
    }

    /// Gives out the snapshot that was made at a [mark](Options::marks), once.
    pub fn take_mark(&self, sequence: u64) -> Option<Snapshot> {
        let shared = self.shared();
        let mut marks = lock(&shared.marks);
        let place = marks.iter().position(|view| view.last() == sequence)?;
        Some(Snapshot::of(marks.swap_remove(place), &shared.counts))
    }

    /// Figures of what it holds and did.
    pub fn stats(&self) -> Stats {
        Stats::of(self.shared())
    }

    /// Why nothing can be written any more, if that is so.
    pub fn failure(&self) -> Option<Error> {
        self.shared().failure()
    }

    /// Returns a reference that doesn't keep it open.
    pub fn downgrade(&self) -> WeakDb {
        WeakDb {
            workers: Arc::downgrade(&self.workers),
        }
    }

    /// Closes it, for all clones. What was acknowledged is on the device then, and its folder may be opened again. Reads still
    /// answer, from memory.
    ///
    /// # Errors
    ///
    /// The earlier failure: [`Error::ReadOnly`], or an error of a checkpoint in the background. [`Error::Closed`] if it
    /// was closed, once that is done.
    pub fn close(&self) -> Result<(), Error> {
        self.workers.close()
    }

    /// The database of a folder, or one in memory.
    fn of(folder: Option<Arc<dyn Folder>>, options: &Options) -> Result<Db, Error> {
        let workers = Workers::start(Shared::open(folder, options)?)?;
        Ok(Db {
            workers: Arc::new(workers),
        })
    }

    /// Looks a key up, and counts that.
    fn look_up<T>(
        &self,
        key: &[u8],
        read: impl FnOnce(ReadSource<'_>) -> Result<T, ucstore::Error>,
    ) -> Result<T, Error> {
        let shared = self.shared();
        shared.read(key, |source| {
            shared.counts.lookups.add(|| source.source(key));
            read(source)
        })
    }

    /// Takes a batch of one operation.
    pub(crate) fn write_one(
        &self,
        add: impl FnOnce(&mut Batch) -> Result<(), ucstore::Error>,
    ) -> Result<(), Error> {
        let shared = self.shared();
        shared.write(bytes_of_one(add)?, shared.is_synced())
    }

    /// The state that its threads share.
    pub(crate) fn shared(&self) -> &Shared {
        &self.workers.shared
    }
}

/// The bytes of a batch of one operation.
fn bytes_of_one(
    add: impl FnOnce(&mut Batch) -> Result<(), ucstore::Error>,
) -> Result<Vec<u8>, ucstore::Error> {
    // A thread that ends may have none any more.
    let mut batch = SINGLE.try_with(Cell::take).unwrap_or_default();
    add(&mut batch)?;
    let bytes = batch.try_bytes()?;
    if bytes.len() <= MOST_KEPT {
        batch.clear();
        let _ = SINGLE.try_with(|single| single.set(batch));
    }
    Ok(bytes)
}

impl fmt::Debug for Db {
    fn fmt(&self, formatter: &mut fmt::Formatter<'_>) -> fmt::Result {
        formatter
            .debug_struct("Db")
            .field("stats", &self.stats())
            .finish_non_exhaustive()
    }
}
