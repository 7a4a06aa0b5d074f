//! [`Snapshot`]: a snapshot that is released when it is dropped.

use crate::error::Error;
use crate::scan::{end_of_prefix, Scan};
use crate::store::Store;

/// A snapshot of a store. It reads what was written before it was taken, whatever is written and compacted later. Dropping it
/// releases it.
///
/// ```
/// # use ucstore::{Operator, Options, Store};
/// # fn main() -> Result<(), ucstore::Error> {
/// let store = Store::create(Operator::Append, &Options::default())?;
/// store.put("colour", "blue")?;
/// let before = store.snapshot()?;
/// store.delete("colour")?;
/// assert_eq!(before.get("colour")?, Some(b"blue".to_vec()));
/// assert_eq!(store.get("colour")?, None);
/// # Ok(())
/// # }
/// ```
#[derive(Debug)]
#[must_use = "a snapshot ends where its guard is dropped"]
pub struct Snapshot<'a> {
    store: &'a Store,
    sequence: u64,
}

impl<'a> Snapshot<'a> {
    pub(crate) fn of(store: &'a Store) -> Result<Snapshot<'a>, Error> {
        Ok(Snapshot {
            store,
            sequence: store.take_snapshot()?,
        })
    }

    /// Returns its sequence number.
    pub fn sequence(&self) -> u64 {
        self.sequence
    }

    /// Returns the value of a key, or `None`.
    ///
    /// # Errors
    ///
    /// [`Error::OutOfMemory`].
    pub fn get(&self, key: impl AsRef<[u8]>) -> Result<Option<Vec<u8>>, Error> {
        self.store.get_at(key, self.sequence)
    }

    /// Returns the keys from `low` to below `high`, or to the last one, with their values.
    ///
    /// # Errors
    ///
    /// A row may be [`Error::OutOfMemory`], after which there are no more rows.
    pub fn scan(&self, low: impl AsRef<[u8]>, high: Option<&[u8]>) -> Scan<&Store> {
        self.store.scan_at(low, high, self.sequence)
    }

    /// Returns the keys that begin with `prefix`, with their values, as [`scan`](Snapshot::scan) does.
    pub fn prefix(&self, prefix: impl AsRef<[u8]>) -> Scan<&Store> {
        let prefix = prefix.as_ref();
        self.scan(prefix, end_of_prefix(prefix).as_deref())
    }
}

impl Drop for Snapshot<'_> {
    fn drop(&mut self) {
        // Only a call of `release` for this very sequence can have released it before.
        let _ = self.store.release(self.sequence);
    }
}
