//! [`Store`]: a store with one owner.

use crate::batch::Batch;
use crate::ended::Ended;
use crate::error::{check, Error};
use crate::job::{EndedJob, Job};
use crate::log::log_writes;
use crate::log_end::MOST_MARK;
use crate::lookup_source::LookupSource;
use crate::options::{Operator, Options};
use crate::reads::{Functions, Reads};
use crate::record::record_by;
use crate::replay::Replay;
use crate::report::Report;
use crate::scan::{end_of_prefix, Scan};
use crate::snapshot::Snapshot;
use crate::sys;
use crate::view::View;
use std::cell::UnsafeCell;
use std::fmt;
use std::mem::MaybeUninit;
use std::ptr;

/// The functions that read a store.
const READS: Functions<sys::ucstore> = Functions {
    get: sys::ucstore_get,
    source: sys::ucstore_source,
    get_at: sys::ucstore_get_at,
    get_many: sys::ucstore_get_many,
    scan: sys::ucstore_scan,
    scan_at: sys::ucstore_scan_at,
};

/// An LSM tree in memory.
///
/// Its methods take `&self`, so that snapshots may be held while it is written. It takes one call at a time: a store may move
/// between threads (`Send`), but threads can't share it (`!Sync`).
///
/// ```compile_fail
/// fn share<T: Sync>() {}
/// share::<ucstore::Store>();
/// ```
///
/// Writes go to a memtable, which is flushed to a run when it is full. Runs are then compacted. A store opens without
/// snapshots. Snapshots are counted: each [`take_snapshot`](Store::take_snapshot) needs its own [`release`](Store::release).
pub struct Store {
    handle: UnsafeCell<sys::ucstore>,
}

// The library lets handles go from thread to thread. Its store is reached through it alone.
unsafe impl Send for Store {}

impl Store {
    /// Creates an empty store.
    ///
    /// # Errors
    ///
    /// [`Error::BadOption`], [`Error::OutOfMemory`].
    pub fn create(operator: Operator, options: &Options) -> Result<Store, Error> {
        let store = Store::closed();
        check(unsafe { sys::ucstore_create(store.handle(), operator as u32, &options.to_c()) })?;
        Ok(store)
    }

    /// Opens a store from the bytes of a write-ahead log, and returns how the log ends. The store has all writes before the log's
    /// first fault.
    ///
    /// # Errors
    ///
    /// [`Error::BadOption`], [`Error::IdsSpent`], [`Error::OutOfMemory`].
    pub fn open(
        operator: Operator,
        options: &Options,
        log: &[u8],
    ) -> Result<(Store, Ended), Error> {
        let store = Store::closed();
        let mut ended = sys::ucstore_ended::default();
        check(unsafe {
            sys::ucstore_open(
                store.handle(),
                operator as u32,
                &options.to_c(),
                log.as_ptr(),
                log.len(),
                &mut ended,
            )
        })?;
        Ok((store, Ended::of(ended)))
    }

    /// Replays the batches of a log to the store, one with each call of [`Replay::write_next`]. Use it for a log of several files,
    /// or one that follows a checkpoint; [`open`](Store::open) reads a whole log.
    ///
    /// ```
    /// # use ucstore::{Batch, Operator, Options, Replayed, Store};
    /// # fn main() -> Result<(), ucstore::Error> {
    /// # let store = Store::create(Operator::Append, &Options::default())?;
    /// # let log = store.prepare(0, Batch::new().put("colour", "blue")?)?;
    /// let again = Store::create(Operator::Append, &Options::default())?;
    /// let mut replay = again.replay(&log);
    /// while replay.write_next(false)? == Replayed::Batch {}
    /// assert_eq!(again.get("colour")?, Some(b"blue".to_vec()));
    /// # Ok(())
    /// # }
    /// ```
    pub fn replay<'a>(&'a self, log: &'a [u8]) -> Replay<'a> {
        log_writes(log).replay(self)
    }

    /// Writes the operations of a batch atomically, with the sequence numbers after the last one.
    ///
    /// # Errors
    ///
    /// [`Error::SequencesSpent`], [`Error::IdsSpent`], [`Error::OutOfMemory`], and [`Error::RunsClaimed`] while jobs
    /// are out.
    pub fn write(&self, batch: &Batch) -> Result<(), Error> {
        check(unsafe { sys::ucstore_write(self.handle(), batch.handle()) })
    }

    /// Writes a batch that [`Batch::bytes`] or RocksDB has encoded. The operations get the sequence number of the batch and those
    /// that follow it, or, if it is 0, the ones after the last write. Gaps are allowed.
    ///
    /// # Errors
    ///
    /// [`Error::NotABatch`], [`Error::SequenceBack`], and those of [`write`](Store::write).
    pub fn write_bytes(&self, batch: &[u8]) -> Result<(), Error> {
        check(unsafe { sys::ucstore_write_bytes(self.handle(), batch.as_ptr(), batch.len()) })
    }

    /// Sets a key to a value.
    ///
    /// # Errors
    ///
    /// [`Error::TooLong`] if the key or the value has 2^32 bytes or more, [`Error::SequencesSpent`], [`Error::IdsSpent`],
    /// [`Error::OutOfMemory`], and [`Error::RunsClaimed`] while jobs are out.
    pub fn put(&self, key: impl AsRef<[u8]>, value: impl AsRef<[u8]>) -> Result<(), Error> {
        let (key, value) = (key.as_ref(), value.as_ref());
        check(unsafe {
            sys::ucstore_put(
                self.handle(),
                key.as_ptr(),
                key.len(),
                value.as_ptr(),
                value.len(),
            )
        })
    }

    /// Deletes a key.
    ///
    /// # Errors
    ///
    /// Those of [`put`](Store::put).
    pub fn delete(&self, key: impl AsRef<[u8]>) -> Result<(), Error> {
        let key = key.as_ref();
        check(unsafe { sys::ucstore_delete(self.handle(), key.as_ptr(), key.len()) })
    }

    /// Merges an operand into a key's value.
    ///
    /// Under [`Operator::Mixed`](crate::Operator::Mixed), bytes that are not an [`Operand`](crate::Operand) replace the value.
    ///
    /// # Errors
    ///
    /// Those of [`put`](Store::put).
    pub fn merge(&self, key: impl AsRef<[u8]>, operand: impl AsRef<[u8]>) -> Result<(), Error> {
        let (key, operand) = (key.as_ref(), operand.as_ref());
        check(unsafe {
            sys::ucstore_merge(
                self.handle(),
                key.as_ptr(),
                key.len(),
                operand.as_ptr(),
                operand.len(),
            )
        })
    }

    /// Deletes all keys from `begin` (inclusive) to `end` (exclusive). The range may be empty.
    ///
    /// # Errors
    ///
    /// Those of [`put`](Store::put).
    pub fn delete_range(
        &self,
        begin: impl AsRef<[u8]>,
        end: impl AsRef<[u8]>,
    ) -> Result<(), Error> {
        let (begin, end) = (begin.as_ref(), end.as_ref());
        check(unsafe {
            sys::ucstore_delete_range(
                self.handle(),
                begin.as_ptr(),
                begin.len(),
                end.as_ptr(),
                end.len(),
            )
        })
    }

    /// Returns the last sequence number: 0 if nothing was written.
    pub fn last(&self) -> u64 {
        let mut sequence = 0;
        self.certain(unsafe { sys::ucstore_last(self.handle(), &mut sequence) });
        sequence
    }

    /// Takes a snapshot at the last sequence number, and returns that. It lasts until [`release`](Store::release) was called as
    /// often as this.
    ///
    /// # Errors
    ///
    /// [`Error::IdsSpent`], [`Error::OutOfMemory`].
    pub fn take_snapshot(&self) -> Result<u64, Error> {
        let mut sequence = 0;
        check(unsafe { sys::ucstore_snapshot(self.handle(), &mut sequence) })?;
        Ok(sequence)
    }

    /// Releases a snapshot at a sequence number.
    ///
    /// # Errors
    ///
    /// [`Error::NotProtected`].
    pub fn release(&self, sequence: u64) -> Result<(), Error> {
        check(unsafe { sys::ucstore_release(self.handle(), sequence) })
    }

    /// Takes a snapshot at the last sequence number, which is released when the guard is dropped.
    ///
    /// # Errors
    ///
    /// [`Error::OutOfMemory`].
    pub fn snapshot(&self) -> Result<Snapshot<'_>, Error> {
        Snapshot::of(self)
    }

    /// Takes a view of the store as it is now, for other threads to read. A prepared batch is not in it, and stays prepared. Unlike
    /// a snapshot a view needs no release, but it keeps the memory of runs that the store has since compacted.
    ///
    /// # Errors
    ///
    /// [`Error::OutOfMemory`].
    pub fn view(&self) -> Result<View, Error> {
        let view = View::closed();
        check(unsafe { sys::ucstore_view(self.handle(), view.handle()) })?;
        Ok(view)
    }

    /// Returns the sequence numbers of the snapshots, in ascending order.
    pub fn snapshots(&self) -> Vec<u64> {
        let mut count = 0;
        self.certain(unsafe {
            sys::ucstore_snapshots(
                self.handle(),
                ptr::NonNull::dangling().as_ptr(),
                0,
                &mut count,
            )
        });
        let mut sequences = vec![0; count];
        self.certain(unsafe {
            sys::ucstore_snapshots(
                self.handle(),
                sequences.as_mut_ptr(),
                sequences.len(),
                &mut count,
            )
        });
        sequences
    }

    /// Returns the part of the store that answers [`get`](Store::get) for a key. Costs at most a lookup, and copies no value.
    ///
    /// ```
    /// # use ucstore::{LookupSource, Operator, Options, Store};
    /// # fn main() -> Result<(), ucstore::Error> {
    /// let store = Store::create(Operator::Append, &Options::default())?;
    /// store.put("colour", "blue")?;
    /// assert_eq!(store.source("colour")?, LookupSource::Memtable);
    /// assert_eq!(store.source("size")?, LookupSource::Filters);
    /// # Ok(())
    /// # }
    /// ```
    ///
    /// # Errors
    ///
    /// [`Error::OutOfMemory`].
    pub fn source(&self, key: impl AsRef<[u8]>) -> Result<LookupSource, Error> {
        self.reads().source(key.as_ref())
    }

    /// Returns the value of a key at a snapshot, or `None`.
    ///
    /// # Errors
    ///
    /// [`Error::NotProtected`], [`Error::OutOfMemory`].
    pub fn get_at(&self, key: impl AsRef<[u8]>, at: u64) -> Result<Option<Vec<u8>>, Error> {
        self.reads().get_at(key.as_ref(), at)
    }

    /// Returns the value of a key, or `None`.
    ///
    /// # Errors
    ///
    /// [`Error::OutOfMemory`].
    pub fn get(&self, key: impl AsRef<[u8]>) -> Result<Option<Vec<u8>>, Error> {
        self.reads().get(key.as_ref())
    }

    /// Replaces the contents of a vector by the value of a key, and returns true if it has one. Without a value the vector is empty.
    /// Reuses the vector's memory.
    ///
    /// # Errors
    ///
    /// [`Error::OutOfMemory`].
    pub fn get_into(&self, key: impl AsRef<[u8]>, value: &mut Vec<u8>) -> Result<bool, Error> {
        self.reads().get_into(key.as_ref(), value)
    }

    /// Copies as much of the value of a key as fits a buffer, and returns the length of the value, or `None`. The buffer is
    /// initialized up to that length.
    ///
    /// # Errors
    ///
    /// [`Error::OutOfMemory`].
    pub fn get_to_room(
        &self,
        key: impl AsRef<[u8]>,
        room: &mut [MaybeUninit<u8>],
    ) -> Result<Option<usize>, Error> {
        self.reads().get_to_room(key.as_ref(), room)
    }

    /// Returns the value of each key, or `None`. Keys may be in any order.
    ///
    /// ```
    /// # use ucstore::{Operator, Options, Store};
    /// # fn main() -> Result<(), ucstore::Error> {
    /// let store = Store::create(Operator::Append, &Options::default())?;
    /// store.put("colour", "blue")?;
    /// assert_eq!(store.get_many(["size", "colour"])?, [None, Some(b"blue".to_vec())]);
    /// # Ok(())
    /// # }
    /// ```
    ///
    /// # Errors
    ///
    /// [`Error::OutOfMemory`].
    pub fn get_many<K: AsRef<[u8]>>(
        &self,
        keys: impl IntoIterator<Item = K>,
    ) -> Result<Vec<Option<Vec<u8>>>, Error> {
        self.reads().get_many(keys)
    }

    /// Returns the keys from `low` to below `high`, or to the last one, with their values. They are in byte order of the keys, and
    /// fetched in pages.
    ///
    /// # Errors
    ///
    /// A row may be [`Error::OutOfMemory`], after which there are no more rows.
    pub fn scan(&self, low: impl AsRef<[u8]>, high: Option<&[u8]>) -> Scan<&Store> {
        Scan::of(self, low.as_ref(), high, None)
    }

    /// Returns the keys that begin with `prefix`, with their values, as [`scan`](Store::scan) does.
    ///
    /// ```
    /// # use ucstore::{Operator, Options, Store};
    /// # fn main() -> Result<(), ucstore::Error> {
    /// let store = Store::create(Operator::Append, &Options::default())?;
    /// store.put("user/1", "Ada")?;
    /// store.put("visit/1", "home")?;
    /// assert_eq!(store.prefix("user/").count(), 1);
    /// # Ok(())
    /// # }
    /// ```
    pub fn prefix(&self, prefix: impl AsRef<[u8]>) -> Scan<&Store> {
        let prefix = prefix.as_ref();
        self.scan(prefix, end_of_prefix(prefix).as_deref())
    }

    /// Returns the keys from `low` to below `high`, or to the last one, with their values at a snapshot, as
    /// [`scan`](Store::scan) does.
    ///
    /// # Errors
    ///
    /// A row may be [`Error::NotProtected`] or [`Error::OutOfMemory`], after which there are no more rows.
    pub fn scan_at(&self, low: impl AsRef<[u8]>, high: Option<&[u8]>, at: u64) -> Scan<&Store> {
        Scan::of(self, low.as_ref(), high, Some(at))
    }

    /// Flushes the memtables.
    ///
    /// # Errors
    ///
    /// [`Error::IdsSpent`], [`Error::OutOfMemory`].
    pub fn flush(&self) -> Result<(), Error> {
        check(unsafe { sys::ucstore_flush(self.handle()) })
    }

    /// Does the next compaction that is due, and returns true if there was one. Optional if the store compacts automatically.
    ///
    /// # Errors
    ///
    /// [`Error::IdsSpent`], [`Error::OutOfMemory`].
    pub fn compact(&self) -> Result<bool, Error> {
        let mut compacted = false;
        check(unsafe { sys::ucstore_compact(self.handle(), &mut compacted) })?;
        Ok(compacted)
    }

    /// Takes out a job, or returns `None`: the flush of the memtables, if a memtable is full, no flush is out, and
    /// [`max_write_buffer_number`](crate::Options::max_write_buffer_number) is above 1, or else the next compaction that is due
    /// among the runs that no other job has.
    ///
    /// # Errors
    ///
    /// [`Error::OutOfMemory`].
    pub fn take_job(&self) -> Result<Option<Job>, Error> {
        let (mut job, mut taken) = (Job::closed(), false);
        check(unsafe { sys::ucstore_job(self.handle(), job.handle(), &mut taken) })?;
        Ok(taken.then_some(job))
    }

    /// Ends a job, and installs its run in place of its runs or memtables. If it was not run, they are free for other jobs. Frees no
    /// run and no memtable: dropping the ended job does.
    ///
    /// # Errors
    ///
    /// The job itself, if it belongs to another store.
    pub fn end_job(&self, mut job: Job) -> Result<EndedJob, Job> {
        let mut installed = false;
        match unsafe { sys::ucstore_job_end(self.handle(), job.handle(), &mut installed) } {
            sys::UCSTORE_NOT_OF_STORE => Err(job),
            status => {
                self.certain(status);
                Ok(EndedJob::new(job, installed))
            }
        }
    }

    /// Returns statistics.
    pub fn report(&self) -> Report {
        Report::by(|report| unsafe { sys::ucstore_report(self.handle(), report) })
    }

    /// Prepares a batch for [`commit`](Store::commit), and returns the bytes to append to a log of `length` bytes. No read sees the
    /// batch before the commit. A batch prepared earlier is discarded.
    ///
    /// Append the bytes to the log's file, sync it, and call [`commit`](Store::commit): then [`open`](Store::open) recovers the
    /// batch after a crash. If the file fails, truncate it to its old length, and call [`give_up`](Store::give_up). Before you
    /// append to a file that was read, truncate it as [`LogWrites::end`](crate::LogWrites::end) says. A write, a flush or a
    /// snapshot before the commit discards the batch.
    ///
    /// # Errors
    ///
    /// Those that [`write`](Store::write) would return for the batch.
    pub fn prepare(&self, length: u64, batch: &Batch) -> Result<Vec<u8>, Error> {
        record_by(batch.size(), |room, size| unsafe {
            sys::ucstore_prepare(
                self.handle(),
                batch.handle(),
                length,
                room.as_mut_ptr().cast(),
                room.len(),
                size,
            )
        })
    }

    /// Prepares a batch that [`Batch::bytes`] or RocksDB has encoded, as [`prepare`](Store::prepare) does.
    ///
    /// # Errors
    ///
    /// Those that [`write_bytes`](Store::write_bytes) would return for the batch.
    pub fn prepare_bytes(&self, length: u64, batch: &[u8]) -> Result<Vec<u8>, Error> {
        record_by(batch.len(), |room, size| unsafe {
            sys::ucstore_prepare_bytes(
                self.handle(),
                batch.as_ptr(),
                batch.len(),
                length,
                room.as_mut_ptr().cast(),
                room.len(),
                size,
            )
        })
    }

    /// Prepares a batch, given as bytes, with a mark: `unsynced` bytes of the log before the batch's record are not durable for certain.
    /// [`mark_of`](crate::mark_of) reads it. Otherwise like [`prepare_bytes`](Store::prepare_bytes).
    ///
    /// # Errors
    ///
    /// The errors of [`write_bytes`](Store::write_bytes).
    ///
    /// # Panics
    ///
    /// If `unsynced` is 2^63 or more.
    pub fn prepare_marked(
        &self,
        length: u64,
        batch: &[u8],
        unsynced: u64,
    ) -> Result<Vec<u8>, Error> {
        assert!(unsynced < 1 << 63, "no log is so long");
        record_by(batch.len() + MOST_MARK, |room, size| unsafe {
            sys::ucstore_prepare_marked(
                self.handle(),
                batch.as_ptr(),
                batch.len(),
                unsynced,
                length,
                room.as_mut_ptr().cast(),
                room.len(),
                size,
            )
        })
    }

    /// Makes the prepared batch visible, if there is one.
    pub fn commit(&self) {
        self.certain(unsafe { sys::ucstore_commit(self.handle()) });
    }

    /// Makes the prepared batch visible, if there is one, and returns the statistics of the store after it.
    pub fn commit_report(&self) -> Report {
        Report::by(|report| unsafe { sys::ucstore_commit_report(self.handle(), report) })
    }

    /// Discards the prepared batch, if there is one.
    pub fn give_up(&self) {
        self.certain(unsafe { sys::ucstore_give_up(self.handle()) });
    }

    /// The store, with the functions that read it.
    pub(crate) fn reads(&self) -> Reads<sys::ucstore> {
        Reads {
            handle: self.handle(),
            functions: &READS,
        }
    }

    /// No store yet.
    fn closed() -> Store {
        Store {
            handle: UnsafeCell::new(sys::ucstore {
                at: ptr::null_mut(),
            }),
        }
    }

    /// The handle for a call. No call calls back, so there is only one at a time.
    pub(crate) fn handle(&self) -> *mut sys::ucstore {
        self.handle.get()
    }

    /// Takes the status of a call that is refused only without a store.
    fn certain(&self, status: i32) {
        assert_eq!(status, sys::UCSTORE_OK, "the store answers");
    }
}

impl Drop for Store {
    fn drop(&mut self) {
        // A store that wasn't opened answers that it isn't there.
        unsafe { sys::ucstore_close(self.handle()) };
    }
}

impl fmt::Debug for Store {
    fn fmt(&self, formatter: &mut fmt::Formatter<'_>) -> fmt::Result {
        formatter
            .debug_struct("Store")
            .field("report", &self.report())
            .finish_non_exhaustive()
    }
}
