//! Transactions of a database: [`Db::transaction`], and calls that try again on a conflict.

use crate::db::Db;
use crate::error::Error;
use crate::group::{Group, Turn};
use crate::lock;
use crate::member::Candidate;
use crate::shared::Shared;
use crate::spin_wait::SpinWait;
use crate::transaction::Transaction;
use std::collections::hash_map::RandomState;
use std::hash::{BuildHasher, Hasher};
use std::thread;
use std::time::Duration;

/// The most times that [`Db::transact`] tries.
const MOST_TRIES: u32 = 100;

/// The number of tries after which a thread waits no longer than to let others run.
const YIELDS: u32 = 3;

/// The longest wait before a try is below 2 to this number of microseconds.
const LONGEST_WAIT: u32 = 12;

/// The most groups for which a transaction waits that it can't join. Then it is written alone, before others that come all the time.
const MOST_WAITS: u32 = 3;

impl Db {
    /// Begins a transaction: it reads what the database holds now, and writes at its [`commit`](Transaction::commit).
    ///
    /// # Errors
    ///
    /// [`Error::Store`] if memory is refused. [`Error::Closed`].
    pub fn transaction(&self) -> Result<Transaction, Error> {
        Transaction::begin(self)
    }

    /// Runs a function in a transaction, and commits. On a conflict it runs the function again, in a new transaction, at most 100 times,
    /// and waits longer each time. An error of the function ends it without a write.
    ///
    /// ```
    /// # use ucstore_db::{Db, Error, Options};
    /// # fn main() -> Result<(), Error> {
    /// let db = Db::in_memory(&Options::default())?;
    /// let number = db.transact(|t| {
    ///     let last = t.get("last ticket")?.unwrap_or_default();
    ///     let next = last.len() + 1;
    ///     t.put("last ticket", vec![b'|'; next])?;
    ///     Ok::<_, Error>(next)
    /// })?;
    /// assert_eq!(number, 1);
    /// # Ok(())
    /// # }
    /// ```
    ///
    /// # Errors
    ///
    /// The errors of the function and of [`Transaction::commit`]: [`Error::Conflict`] after the last try.
    pub fn transact<T, E: From<Error>>(
        &self,
        mut body: impl FnMut(&mut Transaction) -> Result<T, E>,
    ) -> Result<T, E> {
        let mut tries = 1;
        loop {
            let mut transaction = self.transaction()?;
            let value = body(&mut transaction)?;
            match transaction.commit() {
                Err(Error::Conflict(_)) if tries < MOST_TRIES => wait_after(tries),
                outcome => return Ok(outcome.map(|()| value)?),
            }
            tries += 1;
        }
    }

    /// Sets a key to a value, if it has the expected one, `None` for none. Returns whether it had.
    ///
    /// # Errors
    ///
    /// As [`transact`](Db::transact).
    pub fn compare_and_put(
        &self,
        key: impl AsRef<[u8]>,
        expected: Option<&[u8]>,
        new: impl AsRef<[u8]>,
    ) -> Result<bool, Error> {
        let (key, new) = (key.as_ref(), new.as_ref());
        self.transact(|transaction| {
            let is_expected = transaction.get(key)?.as_deref() == expected;
            if is_expected {
                transaction.put(key, new)?;
            }
            Ok(is_expected)
        })
    }

    /// Sets a key to a value, if it has none. Returns whether it had none.
    ///
    /// # Errors
    ///
    /// As [`transact`](Db::transact).
    pub fn insert_if_absent(
        &self,
        key: impl AsRef<[u8]>,
        value: impl AsRef<[u8]>,
    ) -> Result<bool, Error> {
        self.compare_and_put(key, None, value)
    }
}

impl Shared {
    /// Writes the batch of a transaction, with those of the writers that come meanwhile, if what it read is unchanged after all groups
    /// before.
    pub(crate) fn write_if(&self, mut candidate: Candidate, is_synced: bool) -> Result<(), Error> {
        let wait = SpinWait::of(self.options.sync);
        for waits in 0..MOST_WAITS {
            if !candidate.may_join() {
                break;
            }
            candidate = match self.groups.join_if(candidate, is_synced, waits > 0) {
                Turn::Leads(outcome) => {
                    // The outcome of the group is that of its others.
                    let _ = self.lead(wait);
                    return outcome.wait(wait);
                }
                Turn::Follows(outcome) => return outcome.wait(wait),
                Turn::Waits(outcome, candidate) => {
                    // Errors of others are theirs.
                    let _ = outcome.wait(wait);
                    self.judge_early(&candidate)?;
                    candidate
                }
            }
        }
        self.write_apart(candidate, is_synced, wait)
    }

    /// Writes the batch of a transaction in a record of its own.
    fn write_apart(
        &self,
        candidate: Candidate,
        is_synced: bool,
        wait: SpinWait,
    ) -> Result<(), Error> {
        let mut log = wait.lock(&self.log);
        let (mut group, outcome) = Group::of_transaction(candidate, is_synced);
        let result = self.take(&mut log, &mut group);
        drop(log);
        group.publish(&result);
        self.events.tell();
        outcome.wait(wait)
    }

    /// Judges a transaction that the last group kept from joining, so that it doesn't wait for the next ones if it can't be written.
    fn judge_early(&self, candidate: &Candidate) -> Result<(), Error> {
        let condition = &candidate.condition;
        if condition.noted().has_ranges() {
            return Ok(());
        }
        let changed = self.call(|store| condition.first_changed(store))?;
        changed.map_or(Ok(()), |place| Err(condition.conflict(place)))
    }

    /// Leaves out the transactions of a group that have a conflict. One before which nothing was written since it began has none, and one
    /// that is alone is judged by the call that prepares it. Requires `log` held.
    pub(crate) fn judge(&self, group: &mut Group) -> Result<(), Error> {
        if group.members.is_empty() {
            return Ok(());
        }
        // It stays the last one until the group is taken.
        group.note_unchanged(lock(&self.store).last());
        if group.has_ranges() {
            self.flush_to_judge()?;
        }
        if group.is_to_judge() && group.lone_condition().is_none() {
            let lost = self.call(|store| group.judge(store))?;
            group.leave_out(&lost);
        }
        Ok(())
    }
}

/// Waits after a number of tries, longer each time on average, so that transactions that conflict don't meet again.
fn wait_after(tries: u32) {
    if tries <= YIELDS {
        return thread::yield_now();
    }
    let most = 1 << (tries - YIELDS).min(LONGEST_WAIT);
    let drawn = RandomState::new().build_hasher().finish() % most;
    thread::sleep(Duration::from_micros(drawn));
}
