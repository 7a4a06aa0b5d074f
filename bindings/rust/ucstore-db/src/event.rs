//! [`Event`], [`Progress`] and [`Listener`]: what a database tells while it works.

use crate::error::Error;
use crate::lock;
use std::fmt;
use std::mem;
use std::panic::{catch_unwind, AssertUnwindSafe};
use std::sync::{Arc, Mutex};
use std::time::Duration;

/// Something that a database did, or that happened to it.
#[derive(Clone, Debug)]
#[non_exhaustive]
pub enum Event {
    /// Gathered writes became a run.
    Flushed {
        /// The number of runs now.
        runs: u64,
        /// About how many bytes were gathered.
        bytes: u64,
        /// The time that it took.
        took: Duration,
    },
    /// Runs were compacted to one, also by a database that was [idle](crate::Options::compact_when_idle).
    Compacted {
        /// The number of runs now.
        runs: u64,
        /// The time that it took.
        took: Duration,
    },
    /// A checkpoint was written, and the logs before it are about to go.
    Checkpointed {
        /// The name of the list of runs, or of the base.
        file: String,
        /// The number of bytes that were written: of that file, and of the runs that no older checkpoint has.
        bytes: u64,
        /// The time that it took.
        took: Duration,
    },
    /// Writes are slowed, or wait, from now on: there are too many runs.
    Stalled {
        /// The number of runs.
        runs: u64,
    },
    /// A log or a checkpoint in the background failed.
    Failed {
        /// The reason. After [`Error::ReadOnly`] nothing can be written any more. A log that refuses records, as on a full device, is reported
        /// once, until it takes one.
        error: Error,
    },
    /// The opening cut bytes off the end of the last log, which a crash had left there and which are no whole batch, and set them aside.
    /// It is told before the opening returns.
    SetAside {
        /// The name of the file in which they are. It is never read again.
        file: String,
        /// Their length in bytes.
        bytes: u64,
    },
}

/// The progress of an opening.
#[derive(Clone, Debug, PartialEq, Eq)]
pub struct Progress {
    /// The name of the file that is read.
    pub file: String,
    /// The number of bytes read, of all files.
    pub read: u64,
    /// The size of all files in bytes.
    pub whole: u64,
}

/// A function of the owner's that is told things. A clone is the same one.
///
/// It is called by the thread that did something, or by one of the database's own, which holds no lock: the function may call the
/// database, even to close it. What the thread does next waits for it. A panic of the function ends there.
///
/// A function that owns a [`Db`](crate::Db) keeps it open for ever: it takes a [`WeakDb`](crate::WeakDb).
///
/// ```
/// # use ucstore_db::{Db, Event, Listener, Options};
/// # fn main() -> Result<(), ucstore_db::Error> {
/// let events = Some(Listener::new(|event: &Event| println!("{event:?}")));
/// let db = Db::in_memory(&Options { events, ..Default::default() })?;
/// # Ok(())
/// # }
/// ```
pub struct Listener<T>(Arc<dyn Fn(&T) + Send + Sync>);

impl<T> Listener<T> {
    /// One that calls a function.
    pub fn new(function: impl Fn(&T) + Send + Sync + 'static) -> Listener<T> {
        Listener(Arc::new(function))
    }

    /// Calls the function. A panic ends there: the threads that call it keep the database's promises.
    pub(crate) fn tell(&self, told: &T) {
        let _ = catch_unwind(AssertUnwindSafe(|| (self.0)(told)));
    }
}

impl<T> Clone for Listener<T> {
    fn clone(&self) -> Listener<T> {
        Listener(Arc::clone(&self.0))
    }
}

/// Two are equal if they are the same one.
impl<T> PartialEq for Listener<T> {
    fn eq(&self, other: &Listener<T>) -> bool {
        Arc::ptr_eq(&self.0, &other.0)
    }
}

impl<T> Eq for Listener<T> {}

impl<T> fmt::Debug for Listener<T> {
    fn fmt(&self, formatter: &mut fmt::Formatter<'_>) -> fmt::Result {
        formatter.debug_tuple("Listener").finish_non_exhaustive()
    }
}

/// The events that are told once no lock is held.
#[derive(Default)]
pub(crate) struct Events {
    listener: Option<Listener<Event>>,
    waiting: Mutex<Vec<Event>>,
}

impl Events {
    /// The events for a listener, if there is one.
    pub(crate) fn of(listener: Option<Listener<Event>>) -> Events {
        Events {
            listener,
            waiting: Mutex::default(),
        }
    }

    /// Adds an event, which waits until the thread holds no lock.
    pub(crate) fn push(&self, event: Event) {
        if self.listener.is_some() {
            lock(&self.waiting).push(event);
        }
    }

    /// Whether there are any that wait.
    pub(crate) fn are_waiting(&self) -> bool {
        self.listener.is_some() && !lock(&self.waiting).is_empty()
    }

    /// Tells what waits. The thread holds no lock.
    pub(crate) fn tell(&self) {
        if let Some(listener) = &self.listener {
            let waiting = mem::take(&mut *lock(&self.waiting));
            for event in &waiting {
                listener.tell(event);
            }
        }
    }
}
