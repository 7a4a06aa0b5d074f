//! [`Snapshot`] and [`Rows`]: what a database held at a moment.

use crate::counts::Counts;
use crate::error::Error;
use crate::read_views::sort;
use std::cell::Cell;
use std::fmt;
use std::mem::MaybeUninit;
use std::ops::RangeBounds;
use std::sync::Arc;
use ucstore::{KeyValue, Scan, View};

/// The rows of a range, in the order of their keys' bytes, as they were when it was made. They are fetched in pages, from both ends.
///
/// [`next_row`](Scan::next_row) and [`next_row_back`](Scan::next_row_back) lend each row; as an iterator it copies them.
pub type Rows = Scan<View>;

/// The contents of a database at a moment. They stay so, whatever is written, and it ends where it is dropped. Each thread reads
/// a clone of its own.
///
/// ```
/// # use ucstore_db::{Db, Options};
/// # fn main() -> Result<(), ucstore_db::Error> {
/// let db = Db::in_memory(&Options::default())?;
/// db.put("colour", "blue")?;
/// let before = db.snapshot()?;
/// db.delete("colour")?;
/// assert_eq!(before.get("colour")?, Some(b"blue".to_vec()));
/// # Ok(())
/// # }
/// ```
#[derive(Clone)]
pub struct Snapshot {
    view: View,
    /// Whether what no run has yet is sorted in it, for scans.
    is_sorted: Cell<bool>,
    /// The counts of its database.
    counts: Arc<Counts>,
}

impl Snapshot {
    /// The snapshot of a view.
    pub(crate) fn of(view: View, counts: &Arc<Counts>) -> Snapshot {
        Snapshot {
            view,
            is_sorted: Cell::new(false),
            counts: Arc::clone(counts),
        }
    }

    /// The snapshot of a view in which scans have nothing to sort.
    pub(crate) fn sorted(view: View, counts: &Arc<Counts>) -> Snapshot {
        let snapshot = Snapshot::of(view, counts);
        snapshot.is_sorted.set(true);
        snapshot
    }

    /// The view that it shows, and the counts that it has.
    pub(crate) fn parts(&self) -> (&View, &Arc<Counts>) {
        (&self.view, &self.counts)
    }

    /// The snapshot once more, for another thread. Nothing is copied.
    ///
    /// # Errors
    ///
    /// [`Error::Store`] if memory is refused.
    pub fn again(&self) -> Result<Snapshot, Error> {
        Ok(Snapshot {
            view: self.view.again()?,
            is_sorted: self.is_sorted.clone(),
            counts: Arc::clone(&self.counts),
        })
    }

    /// The sequence of the last write that it has.
    pub fn sequence(&self) -> u64 {
        self.view.last()
    }

    /// The value under a key, if there is one.
    ///
    /// # Errors
    ///
    /// [`Error::Store`] if memory is refused, as for each read.
    pub fn get(&self, key: impl AsRef<[u8]>) -> Result<Option<Vec<u8>>, Error> {
        Ok(self.view_to_read(&key).get(key)?)
    }

    /// Puts the value under a key into a vector, instead of what that has, and tells whether there is one. The vector is empty
    /// without one, and its memory is used again.
    ///
    /// # Errors
    ///
    /// As [`get`](Snapshot::get).
    pub fn get_into(&self, key: impl AsRef<[u8]>, value: &mut Vec<u8>) -> Result<bool, Error> {
        Ok(self.view_to_read(&key).get_into(key, value)?)
    }

    /// Copies the value of a key into a buffer, as much of it as fits. Returns the size of all of it, if there is
    /// one: the part of the buffer below it is initialized then.
    ///
    /// # Errors
    ///
    /// As [`get`](Snapshot::get).
    pub fn get_to_room(
        &self,
        key: impl AsRef<[u8]>,
        buf: &mut [MaybeUninit<u8>],
    ) -> Result<Option<usize>, Error> {
        Ok(self.view_to_read(&key).get_to_room(key, buf)?)
    }

    /// For each key its value, if there is one. The keys come in any order.
    ///
    /// # Errors
    ///
    /// As [`get`](Snapshot::get).
    pub fn get_many<K: AsRef<[u8]>>(
        &self,
        keys: impl IntoIterator<Item = K>,
    ) -> Result<Vec<Option<Vec<u8>>>, Error> {
        let lookups = &self.counts.lookups;
        let mut number = lookups.next();
        let keys = keys.into_iter().inspect(|key| {
            lookups.ask(number, || self.view.source(key));
            number += 1;
        });
        let values = self.view.get_many(keys)?;
        lookups.add_many(values.len() as u64);
        Ok(values)
    }

    /// All keys, with their values.
    ///
    /// # Errors
    ///
    /// As [`get`](Snapshot::get), also for each row.
    pub fn iter(&self) -> Result<Rows, Error> {
        self.range::<&[u8]>(..)
    }

    /// The least key that has a value, with it.
    ///
    /// # Errors
    ///
    /// As [`get`](Snapshot::get).
    pub fn first_key_value(&self) -> Result<Option<KeyValue>, Error> {
        Ok(self.iter()?.next().transpose()?)
    }

    /// The greatest key that has a value, with it.
    ///
    /// # Errors
    ///
    /// As [`get`](Snapshot::get).
    pub fn last_key_value(&self) -> Result<Option<KeyValue>, Error> {
        Ok(self.iter()?.next_back().transpose()?)
    }

    /// The keys of a range, with their values.
    ///
    /// # Errors
    ///
    /// As [`iter`](Snapshot::iter).
    pub fn range<K: AsRef<[u8]>>(&self, range: impl RangeBounds<K>) -> Result<Rows, Error> {
        Ok(self.view_to_scan()?.into_range(range))
    }

    /// The keys that begin with these bytes, with their values.
    ///
    /// # Errors
    ///
    /// As [`iter`](Snapshot::iter).
    pub fn prefix(&self, prefix: impl AsRef<[u8]>) -> Result<Rows, Error> {
        Ok(self.view_to_scan()?.into_prefix(prefix))
    }

    /// The view, for a lookup of a key, which it counts.
    fn view_to_read(&self, key: impl AsRef<[u8]>) -> &View {
        self.counts.lookups.add(|| self.view.source(key));
        &self.view
    }

    /// The view once more, for a scan. The first one sorts it for all.
    fn view_to_scan(&self) -> Result<View, Error> {
        if !self.is_sorted.replace(true) {
            sort(&self.view).inspect_err(|_| self.is_sorted.set(false))?;
        }
        Ok(self.view.again()?)
    }
}

impl fmt::Debug for Snapshot {
    fn fmt(&self, formatter: &mut fmt::Formatter<'_>) -> fmt::Result {
        formatter
            .debug_struct("Snapshot")
            .field("sequence", &self.sequence())
            .finish_non_exhaustive()
    }
}
