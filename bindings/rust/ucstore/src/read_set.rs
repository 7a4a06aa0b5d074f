//! [`ReadSet`]: the reads of a transaction, and batches that are prepared only if these are unchanged.

use crate::error::{check, Error};
use crate::record::record_by;
use crate::store::Store;
use crate::sys;
use crate::view::View;
use std::cell::UnsafeCell;
use std::fmt;
use std::ptr;

/// The reads of a transaction: keys, and ranges as far as they were scanned.
///
/// A transaction reads in a [`View`], notes its reads, and prepares its batch with [`Store::prepare_if`], which fails if a read is changed:
///
/// ```
/// # use ucstore::{Batch, Error, Operator, Options, ReadSet, Store};
/// # fn main() -> Result<(), Error> {
/// let store = Store::create(Operator::Append, &Options::default())?;
/// let (view, mut reads) = (store.view()?, ReadSet::new());
/// assert_eq!(view.get("colour")?, None);
/// reads.push_key("colour")?;
/// store.put("colour", "red")?;
/// let batch = Batch::new().put("colour", "blue")?.bytes();
/// assert_eq!(store.prepare_if(&view, &reads, 0, &batch), Err(Error::ReadChanged { read: 0 }));
/// # Ok(())
/// # }
/// ```
///
/// A read set may move between threads (`Send`), but threads can't share it (`!Sync`).
pub struct ReadSet {
    handle: UnsafeCell<sys::ucstore_reads>,
}

// The library lets handles go from thread to thread. Its reads are reached through it alone.
unsafe impl Send for ReadSet {}

impl ReadSet {
    /// Creates an empty read set.
    pub fn new() -> ReadSet {
        ReadSet {
            handle: UnsafeCell::new(sys::ucstore_reads {
                at: ptr::null_mut(),
            }),
        }
    }

    /// Adds the read of a key, found or not.
    ///
    /// # Errors
    ///
    /// [`Error::OutOfMemory`]. The read set is unchanged then.
    pub fn push_key(&mut self, key: impl AsRef<[u8]>) -> Result<(), Error> {
        let key = key.as_ref();
        check(unsafe { sys::ucstore_reads_key(self.handle(), key.as_ptr(), key.len()) })
    }

    /// Adds the scan of the keys from `low` to below `high`, or to the last key if `high` is `None`. A scan that stopped early has read
    /// the keys up to its last row: `high` is then that row's key with a zero byte after it.
    ///
    /// # Errors
    ///
    /// The errors of [`push_key`](ReadSet::push_key).
    pub fn push_range(&mut self, low: impl AsRef<[u8]>, high: Option<&[u8]>) -> Result<(), Error> {
        let (low, end) = (low.as_ref(), high.unwrap_or_default());
        check(unsafe {
            sys::ucstore_reads_range(
                self.handle(),
                low.as_ptr(),
                low.len(),
                end.as_ptr(),
                end.len(),
                high.is_some(),
            )
        })
    }

    /// Returns the number of reads.
    pub fn len(&self) -> usize {
        let mut count = 0;
        // It always answers that it did, as the other call without a check does.
        unsafe { sys::ucstore_reads_count(self.handle(), &mut count) };
        count
    }

    /// Returns true if there are no reads.
    pub fn is_empty(&self) -> bool {
        self.len() == 0
    }

    /// Removes all reads, and keeps the memory of their list for new ones.
    pub fn clear(&mut self) {
        unsafe { sys::ucstore_reads_clear(self.handle()) };
    }

    /// The handle for a call. No call calls back, so there is only one at a time.
    fn handle(&self) -> *mut sys::ucstore_reads {
        self.handle.get()
    }
}

impl Default for ReadSet {
    fn default() -> ReadSet {
        ReadSet::new()
    }
}

impl Drop for ReadSet {
    fn drop(&mut self) {
        unsafe { sys::ucstore_reads_close(self.handle()) };
    }
}

impl fmt::Debug for ReadSet {
    fn fmt(&self, formatter: &mut fmt::Formatter<'_>) -> fmt::Result {
        formatter
            .debug_struct("ReadSet")
            .field("len", &self.len())
            .finish_non_exhaustive()
    }
}

impl Store {
    /// Prepares a batch that [`Batch::bytes`](crate::Batch::bytes) or RocksDB has encoded, as
    /// [`prepare_bytes`](Store::prepare_bytes) does, if each key that was read has the value that it has in a view of this store. So a
    /// transaction that reads in a view, and commits by this, is serial: it reads as right before its own writes.
    ///
    /// # Errors
    ///
    /// [`Error::ReadChanged`] if a read is changed: nothing happens then. Otherwise those of [`prepare_bytes`](Store::prepare_bytes).
    pub fn prepare_if(
        &self,
        view: &View,
        reads: &ReadSet,
        length: u64,
        batch: &[u8],
    ) -> Result<Vec<u8>, Error> {
        let mut read = None;
        record_by(batch.len(), |room, size| {
            let mut changed = 0;
            let status = unsafe {
                sys::ucstore_prepare_if(
                    self.handle(),
                    view.handle(),
                    reads.handle(),
                    batch.as_ptr(),
                    batch.len(),
                    length,
                    room.as_mut_ptr().cast(),
                    room.len(),
                    size,
                    &mut changed,
                )
            };
            read = (status == sys::UCSTORE_READ_CHANGED).then_some(changed);
            status
        })
        .map_err(|error| read.map_or(error, |read| Error::ReadChanged { read }))
    }

    /// Returns the place of the first read, counted from 0, that has another value than in a view of this store, or `None`. It judges as
    /// [`prepare_if`](Store::prepare_if) does, and prepares nothing.
    ///
    /// # Errors
    ///
    /// [`Error::OutOfMemory`].
    pub fn first_changed(&self, view: &View, reads: &ReadSet) -> Result<Option<usize>, Error> {
        let mut changed = 0;
        let status = unsafe {
            sys::ucstore_first_changed(self.handle(), view.handle(), reads.handle(), &mut changed)
        };
        if status == sys::UCSTORE_READ_CHANGED {
            return Ok(Some(changed));
        }
        check(status)?;
        Ok(None)
    }
}
