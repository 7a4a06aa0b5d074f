//! [`View`]: a read-only view of a store at one point in time.

use crate::checkpoint::Checkpoint;
use crate::error::{check, Error};
use crate::lookup_source::LookupSource;
use crate::reads::{Functions, Reads};
use crate::report::Report;
use crate::runs::Runs;
use crate::scan::{end_of_prefix, ends_of, Scan};
use crate::sys;
use std::cell::UnsafeCell;
use std::fmt;
use std::mem::MaybeUninit;
use std::ops::RangeBounds;
use std::ptr;

/// The functions that read a view.
const READS: Functions<sys::ucstore_view> = Functions {
    get: sys::ucstore_view_get,
    source: sys::ucstore_view_source,
    get_at: sys::ucstore_view_get_at,
    get_many: sys::ucstore_view_get_many,
    scan: sys::ucstore_view_scan,
    scan_at: sys::ucstore_view_scan_at,
};

/// A read-only view of a store at one point in time, from [`Store::view`](crate::Store::view). No write, flush or compaction
/// changes it, nor does dropping the store.
///
/// A view takes one call at a time (`!Sync`). Each thread reads its own clone (`Send`), while the store is in use. It keeps the
/// memory of its runs.
///
/// ```
/// # use ucstore::{Operator, Options, Store};
/// # fn main() -> Result<(), ucstore::Error> {
/// let store = Store::create(Operator::Append, &Options::default())?;
/// store.put("colour", "blue")?;
/// let view = store.view()?;
/// let reader = std::thread::spawn(move || view.get("colour"));
/// store.delete("colour")?;
/// assert_eq!(reader.join().unwrap()?, Some(b"blue".to_vec()));
/// # Ok(())
/// # }
/// ```
///
/// ```compile_fail
/// fn share<T: Sync>() {}
/// share::<ucstore::View>();
/// ```
pub struct View {
    handle: UnsafeCell<sys::ucstore_view>,
}

// The library lets handles go from thread to thread, and views be read beside their store.
unsafe impl Send for View {}

impl View {
    /// No view yet.
    pub(crate) fn closed() -> View {
        View {
            handle: UnsafeCell::new(sys::ucstore_view {
                at: ptr::null_mut(),
            }),
        }
    }

    /// Returns another handle to the view, for another thread. Copies no data.
    ///
    /// # Errors
    ///
    /// [`Error::OutOfMemory`].
    pub fn again(&self) -> Result<View, Error> {
        let again = View::closed();
        check(unsafe { sys::ucstore_view_again(self.handle(), again.handle()) })?;
        Ok(again)
    }

    /// Returns the value of a key, or `None`.
    ///
    /// # Errors
    ///
    /// [`Error::OutOfMemory`].
    pub fn get(&self, key: impl AsRef<[u8]>) -> Result<Option<Vec<u8>>, Error> {
        self.reads().get(key.as_ref())
    }

    /// Replaces the contents of a vector by the value of a key, and returns true if it has one. Without a value the vector is empty.
    /// Reuses the vector's memory.
    ///
    /// # Errors
    ///
    /// [`Error::OutOfMemory`].
    pub fn get_into(&self, key: impl AsRef<[u8]>, value: &mut Vec<u8>) -> Result<bool, Error> {
        self.reads().get_into(key.as_ref(), value)
    }

    /// Copies as much of the value of a key as fits a buffer, and returns the length of the value, or `None`. The buffer is
    /// initialized up to that length.
    ///
    /// # Errors
    ///
    /// [`Error::OutOfMemory`].
    pub fn get_to_room(
        &self,
        key: impl AsRef<[u8]>,
        room: &mut [MaybeUninit<u8>],
    ) -> Result<Option<usize>, Error> {
        self.reads().get_to_room(key.as_ref(), room)
    }

    /// Returns the part of the view that answers [`get`](View::get) for a key. Costs at most a lookup, and copies no value.
    ///
    /// ```
    /// # use ucstore::{LookupSource, Operator, Options, Store};
    /// # fn main() -> Result<(), ucstore::Error> {
    /// let store = Store::create(Operator::Append, &Options::default())?;
    /// store.put("colour", "blue")?;
    /// assert_eq!(store.view()?.source("colour")?, LookupSource::Memtable);
    /// assert_eq!(store.view()?.source("size")?, LookupSource::Filters);
    /// # Ok(())
    /// # }
    /// ```
    ///
    /// # Errors
    ///
    /// [`Error::OutOfMemory`].
    pub fn source(&self, key: impl AsRef<[u8]>) -> Result<LookupSource, Error> {
        self.reads().source(key.as_ref())
    }

    /// Returns the value of a key at a snapshot that the store had when the view was taken, or `None`.
    ///
    /// # Errors
    ///
    /// [`Error::NotProtected`], [`Error::OutOfMemory`].
    pub fn get_at(&self, key: impl AsRef<[u8]>, at: u64) -> Result<Option<Vec<u8>>, Error> {
        self.reads().get_at(key.as_ref(), at)
    }

    /// Returns the value of each key, or `None`. Keys may be in any order.
    ///
    /// # Errors
    ///
    /// [`Error::OutOfMemory`].
    pub fn get_many<K: AsRef<[u8]>>(
        &self,
        keys: impl IntoIterator<Item = K>,
    ) -> Result<Vec<Option<Vec<u8>>>, Error> {
        self.reads().get_many(keys)
    }

    /// Returns the keys from `low` to below `high`, or to the last one, with their values, in byte order of the keys.
    ///
    /// # Errors
    ///
    /// A row may be [`Error::OutOfMemory`], after which there are no more rows.
    pub fn scan(&self, low: impl AsRef<[u8]>, high: Option<&[u8]>) -> Scan<&View> {
        Scan::of(self, low.as_ref(), high, None)
    }

    /// Returns the keys of a range, with their values, as [`scan`](View::scan) does.
    ///
    /// ```
    /// # use ucstore::{Operator, Options, Store};
    /// # fn main() -> Result<(), ucstore::Error> {
    /// let store = Store::create(Operator::Append, &Options::default())?;
    /// for key in ["a", "b", "c"] {
    ///     store.put(key, "1")?;
    /// }
    /// let view = store.view()?;
    /// assert_eq!(view.range("a"..="b").count(), 2);
    /// let last = view.range("b"..).next_back().transpose()?;
    /// assert_eq!(last, Some((b"c".to_vec(), b"1".to_vec())));
    /// # Ok(())
    /// # }
    /// ```
    pub fn range<K: AsRef<[u8]>>(&self, range: impl RangeBounds<K>) -> Scan<&View> {
        let (low, high) = ends_of(&range);
        self.scan(low, high.as_deref())
    }

    /// Returns the rows of a [`range`](View::range), which own the view.
    pub fn into_range<K: AsRef<[u8]>>(self, range: impl RangeBounds<K>) -> Scan<View> {
        let (low, high) = ends_of(&range);
        Scan::of(self, &low, high.as_deref(), None)
    }

    /// Returns the keys that begin with `prefix`, with their values, as [`scan`](View::scan) does.
    pub fn prefix(&self, prefix: impl AsRef<[u8]>) -> Scan<&View> {
        let prefix = prefix.as_ref();
        self.scan(prefix, end_of_prefix(prefix).as_deref())
    }

    /// Returns the rows of a [`prefix`](View::prefix), which own the view.
    pub fn into_prefix(self, prefix: impl AsRef<[u8]>) -> Scan<View> {
        let prefix = prefix.as_ref();
        Scan::of(self, prefix, end_of_prefix(prefix).as_deref(), None)
    }

    /// Returns the rows of a [`scan`](View::scan) at a snapshot that the store had when the view was taken.
    ///
    /// # Errors
    ///
    /// A row may be [`Error::NotProtected`] or [`Error::OutOfMemory`], after which there are no more rows.
    pub fn scan_at(&self, low: impl AsRef<[u8]>, high: Option<&[u8]>, at: u64) -> Scan<&View> {
        Scan::of(self, low.as_ref(), high, Some(at))
    }

    /// Starts a checkpoint: the rows at the last sequence number as a write-ahead log, piece by piece. The view stays open. Its
    /// memtables are sorted, once.
    ///
    /// # Errors
    ///
    /// [`Error::OutOfMemory`].
    pub fn checkpoint(&self) -> Result<Checkpoint, Error> {
        Checkpoint::of(self)
    }

    /// Returns the runs, the newest first. Writes in memtables are in no run: flush the store before taking the view, until
    /// [`gathered`](Report::gathered) of [`report`](View::report) is 0.
    pub fn runs(&self) -> Runs<'_> {
        Runs::of(self)
    }

    /// Returns the last sequence number of the view: 0 if nothing was written.
    pub fn last(&self) -> u64 {
        let mut sequence = 0;
        let status = unsafe { sys::ucstore_view_last(self.handle(), &mut sequence) };
        assert_eq!(status, sys::UCSTORE_OK, "the view answers");
        sequence
    }

    /// Returns statistics of the view.
    pub fn report(&self) -> Report {
        Report::by(|report| unsafe { sys::ucstore_view_report(self.handle(), report) })
    }

    /// The view, with the functions that read it.
    pub(crate) fn reads(&self) -> Reads<sys::ucstore_view> {
        Reads {
            handle: self.handle(),
            functions: &READS,
        }
    }

    /// The handle for a call. No call calls back, so there is only one at a time.
    pub(crate) fn handle(&self) -> *mut sys::ucstore_view {
        self.handle.get()
    }
}

/// [`View::again`], which panics if an allocation fails.
impl Clone for View {
    fn clone(&self) -> View {
        self.again().expect("memory for a view")
    }
}

impl Drop for View {
    fn drop(&mut self) {
        // One that wasn't taken answers that it isn't there.
        unsafe { sys::ucstore_view_close(self.handle()) };
    }
}

impl fmt::Debug for View {
    fn fmt(&self, formatter: &mut fmt::Formatter<'_>) -> fmt::Result {
        formatter
            .debug_struct("View")
            .field("report", &self.report())
            .finish_non_exhaustive()
    }
}
