//! [`Transaction`]: reads at one moment and writes at its end, in one step.

use crate::conflict::{Condition, Conflict};
use crate::db::Db;
use crate::error::Error;
use crate::member::Candidate;
use crate::moment::MomentReader;
use crate::noted_reads::NotedReads;
use crate::own_writes::{Found, OwnWrites};
use crate::read_views::MOST_ASKED;
use crate::snapshot::Snapshot;
use crate::spin_wait::SpinWait;
use crate::transaction_rows::TransactionRows;
use crate::try_lock;
use std::cell::{Cell, OnceCell, RefCell};
use std::fmt;
use std::ops::{Bound, RangeBounds};
use ucstore::{end_of_prefix, Batch};

/// A transaction: it reads what the database held when it began, with its own writes, and [`commit`](Transaction::commit) writes them
/// all, if nothing that it read has changed meanwhile. So transactions that commit are serial: each one could have run alone, at the
/// moment of its commit.
///
/// ```
/// # use ucstore_db::{Db, Error, Options};
/// # fn main() -> Result<(), Error> {
/// let db = Db::in_memory(&Options::default())?;
/// let mut transaction = db.transaction()?;
/// if transaction.get("ticket")?.is_none() {
///     transaction.put("ticket", "taken")?;
/// }
/// db.put("ticket", "mine")?;
/// assert!(matches!(transaction.commit(), Err(Error::Conflict(_))));
/// # Ok(())
/// # }
/// ```
///
/// Values are compared: a key that was written and has its value again hasn't changed. A lookup that finds nothing is a read too, and so
/// is each part of a range that was walked over, with the keys that aren't there. What its own writes decide isn't read.
///
/// A transaction that is dropped writes nothing. Once something was written after it
/// began, it keeps the memory of the earlier contents. It waits for nobody.
pub struct Transaction {
    db: Db,
    moment: MomentReader,
    /// The snapshot of the moment, if the transaction has needed one.
    snapshot: OnceCell<Snapshot>,
    /// The number of lookups that asked the store itself.
    asked: Cell<u32>,
    reads: RefCell<NotedReads>,
    writes: OwnWrites,
}

impl Transaction {
    /// A transaction that begins now.
    pub(crate) fn begin(db: &Db) -> Result<Transaction, Error> {
        let shared = db.shared();
        if let Some(Error::Closed) = shared.failure() {
            return Err(Error::Closed);
        }
        Ok(Transaction {
            db: db.clone(),
            moment: shared.newest.moment(&shared.store)?,
            snapshot: OnceCell::new(),
            asked: Cell::new(0),
            reads: RefCell::default(),
            writes: OwnWrites::new(shared.options.operator()),
        })
    }

    /// The value under a key, if there is one.
    ///
    /// # Errors
    ///
    /// [`Error::Store`] if memory is refused, as for each read.
    pub fn get(&self, key: impl AsRef<[u8]>) -> Result<Option<Vec<u8>>, Error> {
        let key = key.as_ref();
        self.value(key, || {
            self.reads.borrow_mut().push_key(key)?;
            self.look_up(key)
        })
    }

    /// For each key its value, if there is one. The keys come in any order.
    ///
    /// # Errors
    ///
    /// As [`get`](Transaction::get).
    pub fn get_many<K: AsRef<[u8]>>(
        &self,
        keys: impl IntoIterator<Item = K>,
    ) -> Result<Vec<Option<Vec<u8>>>, Error> {
        keys.into_iter().map(|key| self.get(key)).collect()
    }

    /// The value under a key, if there is one, as [`get`](Transaction::get) finds it. It may change before the commit: for what the writes
    /// don't depend on.
    ///
    /// # Errors
    ///
    /// As [`get`](Transaction::get).
    pub fn get_unchecked(&self, key: impl AsRef<[u8]>) -> Result<Option<Vec<u8>>, Error> {
        let key = key.as_ref();
        self.value(key, || self.look_up(key))
    }

    /// The keys of a range, with their values. It is read as far as its rows are taken, from both ends.
    ///
    /// # Errors
    ///
    /// As [`get`](Transaction::get), also for each row.
    pub fn range<K: AsRef<[u8]>>(
        &self,
        range: impl RangeBounds<K>,
    ) -> Result<TransactionRows<'_>, Error> {
        let low = match range.start_bound() {
            Bound::Included(key) => key.as_ref().to_vec(),
            Bound::Excluded(key) => above(key.as_ref()),
            Bound::Unbounded => Vec::new(),
        };
        let high = match range.end_bound() {
            Bound::Included(key) => Some(above(key.as_ref())),
            Bound::Excluded(key) => Some(key.as_ref().to_vec()),
            Bound::Unbounded => None,
        };
        self.rows(&low, high.as_deref())
    }

    /// The keys that begin with these bytes, with their values, as [`range`](Transaction::range) has them.
    ///
    /// # Errors
    ///
    /// As [`range`](Transaction::range).
    pub fn prefix(&self, prefix: impl AsRef<[u8]>) -> Result<TransactionRows<'_>, Error> {
        let prefix = prefix.as_ref();
        self.rows(prefix, end_of_prefix(prefix).as_deref())
    }

    /// Sets a key to a value.
    ///
    /// # Errors
    ///
    /// [`Error::Store`] if the key or the value is too long, or memory is refused, as for each write. The transaction is as before then.
    pub fn put(&mut self, key: impl AsRef<[u8]>, value: impl AsRef<[u8]>) -> Result<(), Error> {
        self.writes.put(key.as_ref(), value.as_ref())
    }

    /// Combines a key with an operand. The key isn't read by that.
    ///
    /// # Errors
    ///
    /// As [`put`](Transaction::put), and [`ucstore::Error::BadOperand`] as for [`Db::merge`].
    pub fn merge(&mut self, key: impl AsRef<[u8]>, operand: impl AsRef<[u8]>) -> Result<(), Error> {
        let operand = operand.as_ref();
        self.db.check_operand(operand)?;
        self.merge_checked(key.as_ref(), operand)
    }

    /// Combines a key with an operand that was checked.
    pub(crate) fn merge_checked(&mut self, key: &[u8], operand: &[u8]) -> Result<(), Error> {
        self.writes.merge(key, operand)
    }

    /// Removes a key.
    ///
    /// # Errors
    ///
    /// As [`put`](Transaction::put).
    pub fn delete(&mut self, key: impl AsRef<[u8]>) -> Result<(), Error> {
        self.writes.delete(key.as_ref())
    }

    /// Removes each key from `begin` to below `end`: none if `begin` isn't below `end`. The range isn't read by that.
    ///
    /// # Errors
    ///
    /// As [`put`](Transaction::put).
    pub fn delete_range(
        &mut self,
        begin: impl AsRef<[u8]>,
        end: impl AsRef<[u8]>,
    ) -> Result<(), Error> {
        self.writes.delete_range(begin.as_ref(), end.as_ref())
    }

    /// The batch of its writes so far.
    pub fn batch(&self) -> &Batch {
        self.writes.batch()
    }

    /// The sequence of the last write that it reads.
    pub fn sequence(&self) -> u64 {
        self.moment.last()
    }

    /// Writes all of its writes, or nothing. They are acknowledged as [`Options::sync`](crate::Options::sync) says. A transaction without
    /// writes always commits: it read at one moment.
    ///
    /// # Errors
    ///
    /// [`Error::Conflict`] if something that it read has changed, and those of [`Db::write`].
    pub fn commit(self) -> Result<(), Error> {
        let is_synced = self.db.shared().is_synced();
        self.commit_with(is_synced)
    }

    /// Commits as [`commit`](Transaction::commit) does, and says whether the writes are to be on the device when this returns.
    ///
    /// # Errors
    ///
    /// As [`commit`](Transaction::commit).
    pub fn commit_with(self, is_synced: bool) -> Result<(), Error> {
        let shared = self.db.shared();
        if self.writes.is_empty() {
            return match shared.failure() {
                Some(Error::Closed) => Err(Error::Closed),
                _ => Ok(()),
            };
        }
        let candidate = Candidate {
            batch: self.writes.batch().try_bytes()?,
            condition: Condition::of(self.moment, self.reads.into_inner())?,
        };
        shared.write_if(candidate, is_synced)
    }

    /// Ends it without a write, as a drop does.
    pub fn rollback(self) {}

    /// The value of a key: that of its own writes, over the snapshot's where they depend on it.
    fn value(
        &self,
        key: &[u8],
        in_snapshot: impl FnOnce() -> Result<Option<Vec<u8>>, Error>,
    ) -> Result<Option<Vec<u8>>, Error> {
        match self.writes.find(key) {
            Found::Snapshot => in_snapshot(),
            Found::Deleted => Ok(None),
            Found::Own(own) => self.writes.value(own, in_snapshot),
        }
    }

    /// The value that a key had at the moment: the store's own, if that is free soon and nothing was written since. After a few lookups
    /// there it is a view's, for which no lock is held that threads share.
    fn look_up(&self, key: &[u8]) -> Result<Option<Vec<u8>>, Error> {
        let asked = self.asked.get();
        if self.snapshot.get().is_none() && asked < MOST_ASKED {
            self.asked.set(asked + 1);
            let shared = self.db.shared();
            let store = SpinWait::Short.spin_until(|| try_lock(&shared.store));
            if let Some(store) = store.filter(|store| self.moment.is_now(store)) {
                shared.counts.lookups.add(|| store.source(key));
                return Ok(store.get(key)?);
            }
        }
        self.snapshot()?.get(key)
    }

    /// The snapshot of the moment.
    fn snapshot(&self) -> Result<&Snapshot, Error> {
        if self.snapshot.get().is_none() {
            let shared = self.db.shared();
            let view = self.moment.view(|| shared.view())?;
            let _ = self.snapshot.set(Snapshot::of(view, &shared.counts));
        }
        Ok(self.snapshot.get().expect("it was set"))
    }

    /// The rows from `low` on, and below `high` if there is one.
    fn rows(&self, low: &[u8], high: Option<&[u8]>) -> Result<TransactionRows<'_>, Error> {
        let end = high.map_or(Bound::Unbounded, Bound::Excluded);
        let rows = self
            .snapshot()?
            .range::<&[u8]>((Bound::Included(low), end))?;
        let walk = self.reads.borrow_mut().begin_walk(low, high);
        let own = self.writes.range(low, high);
        Ok(TransactionRows::of(
            rows,
            own,
            &self.writes,
            &self.reads,
            walk,
        ))
    }
}

/// The least key above a key.
fn above(key: &[u8]) -> Vec<u8> {
    [key, &[0]].concat()
}

impl From<Conflict> for Error {
    fn from(conflict: Conflict) -> Error {
        Error::Conflict(conflict)
    }
}

impl fmt::Debug for Transaction {
    fn fmt(&self, formatter: &mut fmt::Formatter<'_>) -> fmt::Result {
        formatter
            .debug_struct("Transaction")
            .field("sequence", &self.sequence())
            .field("writes", &self.writes.batch().len())
            .finish_non_exhaustive()
    }
}
