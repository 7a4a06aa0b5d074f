//! Stalls: writes that are slowed, or wait, until flushes and compactions have caught up.
//!
//! A write that is slowed waits for a millisecond at most. It is slowed while there are many runs, and while a flush is under way and the
//! memtables are nearly full: so writers come to a stop little by little, and none of them waits for a whole flush.

use crate::error::Error;
use crate::event::Event;
use crate::lock;
use crate::shared::Shared;
use std::sync::atomic::Ordering;
use std::sync::{MutexGuard, PoisonError};
use std::thread;
use std::time::{Duration, Instant};
use ucstore::Store;

/// By how much a write is slowed.
const SLOW: Duration = Duration::from_millis(1);

/// For how long a write that finds all memtables full leaves the flush to the database's own threads, and for how long these wait after
/// a job that came to nothing.
pub(crate) const HANDOVER: Duration = Duration::from_millis(10);

/// Why a write is slowed.
#[derive(Clone, Copy)]
enum Cause {
    /// There are many runs.
    Runs,
    /// The memtables are nearly full, and a flush is under way.
    Memtables,
}

impl Shared {
    /// Slows a write while flushes or compactions lag. Requires `log` held.
    pub(crate) fn slow_down(&self) {
        let cause = self.cause_to_slow();
        let was_slow = self.is_slowed.swap(cause.is_some(), Ordering::Relaxed);
        let Some(cause) = cause else {
            return;
        };
        let begun = if was_slow {
            Instant::now()
        } else {
            self.begin_stall()
        };
        match cause {
            Cause::Runs => thread::sleep(SLOW),
            Cause::Memtables => drop(self.wait_for_work_until(lock(&self.store), SLOW)),
        }
        self.counts.slowed.add(1);
        self.counts.add_stalled(begun);
    }

    fn cause_to_slow(&self) -> Option<Cause> {
        if self.options.compactors == 0 {
            None
        } else if self.runs.load(Ordering::Relaxed) >= self.options.slow_trigger.into() {
            Some(Cause::Runs)
        } else if self.gathered.load(Ordering::Relaxed) >= self.options.much_gathered()
            && self.jobs.is_flushing()
        {
            Some(Cause::Memtables)
        } else {
            None
        }
    }

    /// Waits until the memtables aren't all full. The database's own threads flush meanwhile; a flush by this thread would make the
    /// one that is under way useless. Requires `log` held.
    pub(crate) fn wait_for_flush(&self) -> Result<(), Error> {
        let begun = self.begin_stall();
        let outcome = self.wait_while_full(lock(&self.store));
        self.counts.add_stalled(begun);
        outcome
    }

    fn wait_while_full<'a>(&'a self, mut store: MutexGuard<'a, Store>) -> Result<(), Error> {
        while self.gathered.load(Ordering::Relaxed) >= self.options.most_gathered() {
            self.work.notify_all();
            store = self.wait_for_work_until(store, HANDOVER);
            let is_full = self.gathered.load(Ordering::Relaxed) >= self.options.most_gathered();
            if self.jobs.is_flushing() || !is_full {
                continue;
            }
            // No thread has taken a flush: they are closed, or memory was refused to them.
            match self.take_flush(&store)? {
                Some(flush) => {
                    drop(store);
                    if !self.run(flush)? {
                        // No run more may be: the store compacts before it flushes.
                        return self.flush_gathered();
                    }
                    store = lock(&self.store);
                }
                // The store counts more closely, and has no full memtable.
                None => {
                    let size = self.options.store.write_buffer_size;
                    self.gathered.fetch_min(size, Ordering::Relaxed);
                }
            }
        }
        Ok(())
    }

    /// The outcome of a call of the store. If jobs have all runs that would be compacted for it, it waits until one has ended.
    pub(crate) fn call<T>(
        &self,
        call: impl Fn(&Store) -> Result<T, ucstore::Error>,
    ) -> Result<T, Error> {
        let mut store = lock(&self.store);
        let mut begun = None;
        loop {
            match call(&store) {
                Err(ucstore::Error::RunsClaimed) => {
                    begun.get_or_insert_with(|| self.begin_stall());
                    store = self.wait_for_work(store);
                }
                outcome => {
                    if let Some(begun) = begun {
                        self.counts.add_stalled(begun);
                    }
                    return Ok(outcome?);
                }
            }
        }
    }

    /// Counts a stall. One of the database's own threads reports it, if there are any: this one holds locks.
    fn begin_stall(&self) -> Instant {
        self.counts.stalls.add(1);
        self.events.push(Event::Stalled {
            runs: self.runs.load(Ordering::Relaxed),
        });
        self.work.notify_all();
        Instant::now()
    }

    /// Waits until there may be a job, or one has ended, or the database closes. A close wakes those that wait once: whoever comes after
    /// that doesn't wait.
    pub(crate) fn wait_for_work<'a>(&self, store: MutexGuard<'a, Store>) -> MutexGuard<'a, Store> {
        if self.is_closing.load(Ordering::Acquire) {
            return store;
        }
        self.work
            .wait(store)
            .unwrap_or_else(PoisonError::into_inner)
    }

    /// Begins to close the database, and wakes the threads that wait for work. Returns whether it was closing before.
    pub(crate) fn begin_close(&self) -> bool {
        let was_closing = self.is_closing.swap(true, Ordering::AcqRel);
        // With the lock: a thread that has seen that it wasn't closing waits by now.
        let store = lock(&self.store);
        self.work.notify_all();
        drop(store);
        was_closing
    }

    /// Waits as [`wait_for_work`](Shared::wait_for_work) does, for a while at most.
    pub(crate) fn wait_for_work_until<'a>(
        &self,
        store: MutexGuard<'a, Store>,
        most: Duration,
    ) -> MutexGuard<'a, Store> {
        let (store, _) = self
            .work
            .wait_timeout(store, most)
            .unwrap_or_else(PoisonError::into_inner);
        store
    }
}
