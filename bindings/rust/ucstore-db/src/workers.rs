//! [`Workers`]: the threads of a database's own.

use crate::error::Error;
use crate::lock;
use crate::options::Sync;
use crate::shared::Shared;
use std::cell::Cell;
use std::mem;
use std::panic::{catch_unwind, AssertUnwindSafe};
use std::process;
use std::sync::{Arc, Mutex, PoisonError};
use std::thread::{self, JoinHandle, Thread, ThreadId};
use std::time::Duration;

thread_local! {
    /// The number of a thread of a database's own. Others aren't asked for theirs, which takes memory.
    static WORKER: Cell<Option<ThreadId>> = const { Cell::new(None) };
}

/// The threads that flush, compact, make checkpoints, and sync. They end where this is dropped.
pub(crate) struct Workers {
    pub(crate) shared: Arc<Shared>,
    /// Locked by the first close until all of them have ended.
    threads: Mutex<Vec<JoinHandle<()>>>,
    /// The process that has started them. A forked child has none of them.
    process: u32,
}

impl Workers {
    /// Starts them.
    pub(crate) fn start(shared: Shared) -> Result<Workers, Error> {
        let workers = Workers {
            shared: Arc::new(shared),
            threads: Mutex::default(),
            process: process::id(),
        };
        let shared = &workers.shared;
        // Of one thread more than there may be compactions at once, one is always free for a flush.
        let compactors = shared.options.compactors;
        for _ in 0..compactors.saturating_add(compactors.min(1)) {
            workers.spawn("compactor", Shared::compact_until_closed)?;
        }
        if let Some(after) = shared.options.compact_when_idle.filter(|_| compactors > 0) {
            workers.spawn("idle", move |shared| {
                shared.compact_idle_until_closed(after)
            })?;
        }
        if lock(&shared.log).is_some() {
            let thread = workers.spawn("checkpointer", Shared::checkpoint_until_closed)?;
            shared.checkpointer.get_or_init(|| thread);
            if let Sync::EveryMs(period) = shared.options.sync {
                let period = Duration::from_millis(period);
                workers.spawn("syncer", move |shared| shared.sync_until_closed(period))?;
            }
        }
        Ok(workers)
    }

    /// Starts a thread.
    fn spawn(
        &self,
        name: &'static str,
        work: impl FnOnce(&Shared) + Send + 'static,
    ) -> Result<Thread, Error> {
        let shared = Arc::clone(&self.shared);
        let handle = thread::Builder::new()
            .name(format!("ucstore-{name}"))
            .spawn(move || {
                WORKER.set(Some(thread::current().id()));
                let outcome = catch_unwind(AssertUnwindSafe(|| work(&shared)));
                if outcome.is_err() {
                    // Without the thread the database can't keep its promises.
                    shared.fail(Error::Internal {
                        thread: name.into(),
                    });
                    shared.events.tell();
                }
            })
            .map_err(Error::of_file(""))?;
        let thread = handle.thread().clone();
        lock(&self.threads).push(handle);
        Ok(thread)
    }

    /// Ends the threads, the checkpoint that is under way, and the log. Returns what failed before. A later call waits for the first
    /// one, unless it is made by one of the threads, for which the first one waits.
    pub(crate) fn close(&self) -> Result<(), Error> {
        if self.process != process::id() {
            // A forked child has neither the threads nor the folder.
            return Err(Error::Closed);
        }
        let worker = WORKER.get();
        if self.shared.begin_close() {
            if worker.is_none() {
                drop(lock(&self.threads));
            }
            return Err(Error::Closed);
        }
        let mut threads = lock(&self.threads);
        for thread in threads.drain(..) {
            thread.thread().unpark();
            // One that reports an event may close the database, and ends after that.
            if worker != Some(thread.thread().id()) {
                // A panic was caught in it.
                let _ = thread.join();
            }
        }
        let outcome = self.shared.close_log();
        if worker.is_none() {
            // A checkpoint of another thread finds that the database is closed, and gives the folder up.
            drop(lock(&self.shared.checkpointing));
        }
        outcome
    }
}

impl Drop for Workers {
    fn drop(&mut self) {
        if self.process == process::id() {
            // An error is reported by `close` alone.
            let _ = self.close();
        } else {
            // The handles of threads that the child doesn't have.
            mem::forget(mem::take(
                self.threads
                    .get_mut()
                    .unwrap_or_else(PoisonError::into_inner),
            ));
        }
    }
}
