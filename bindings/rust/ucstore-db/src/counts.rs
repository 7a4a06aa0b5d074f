//! [`Counts`]: what a database counts.

use crate::lookups::Lookups;
use crate::sync_times::SyncTimes;
use std::sync::atomic::{AtomicU64, Ordering};
use std::time::{Duration, Instant};

/// Counts of what was done since the database was opened.
pub(crate) struct Counts {
    pub(crate) opened: Instant,
    pub(crate) batches: Count,
    pub(crate) groups: Count,
    pub(crate) syncs: Count,
    pub(crate) sync_times: SyncTimes,
    pub(crate) slowed: Count,
    pub(crate) stalls: Count,
    /// For how many microseconds writes were slowed or waited.
    pub(crate) stalled: Count,
    pub(crate) flushes: Count,
    pub(crate) compactions: Count,
    /// The bytes of the runs that were flushed.
    pub(crate) flush_bytes: Count,
    /// The bytes of the runs that were compacted, and of those that came of it.
    pub(crate) compaction_read: Count,
    pub(crate) compaction_written: Count,
    pub(crate) checkpoints: Count,
    pub(crate) lookups: Lookups,
    /// The bytes of the batches that were taken.
    pub(crate) user_bytes: Count,
    /// The bytes that were appended to logs.
    pub(crate) logged_bytes: Count,
    /// The bytes that the logs have now and no checkpoint holds.
    pub(crate) log_bytes: Count,
    /// The bytes of the lists, the run files and the bases that were written.
    pub(crate) base_bytes: Count,
    /// The number of run files that were written.
    pub(crate) run_files: Count,
    /// The bytes of the run files that lists name which were written before.
    pub(crate) kept_bytes: Count,
    /// The bytes that the opening cut off a log and set aside.
    pub(crate) set_aside_bytes: Count,
}

/// A number that threads raise.
#[derive(Default)]
pub(crate) struct Count(AtomicU64);

impl Counts {
    /// Counts a sync.
    pub(crate) fn add_sync(&self, took: Duration) {
        self.syncs.add(1);
        self.sync_times.add(took);
    }

    /// Counts for how long a write was slowed or waited.
    pub(crate) fn add_stalled(&self, begun: Instant) {
        self.stalled.add(begun.elapsed().as_micros() as u64);
    }
}

impl Default for Counts {
    fn default() -> Counts {
        Counts {
            opened: Instant::now(),
            batches: Count::default(),
            groups: Count::default(),
            syncs: Count::default(),
            sync_times: SyncTimes::default(),
            slowed: Count::default(),
            stalls: Count::default(),
            stalled: Count::default(),
            flushes: Count::default(),
            compactions: Count::default(),
            flush_bytes: Count::default(),
            compaction_read: Count::default(),
            compaction_written: Count::default(),
            checkpoints: Count::default(),
            lookups: Lookups::default(),
            user_bytes: Count::default(),
            logged_bytes: Count::default(),
            log_bytes: Count::default(),
            base_bytes: Count::default(),
            run_files: Count::default(),
            kept_bytes: Count::default(),
            set_aside_bytes: Count::default(),
        }
    }
}

impl Count {
    /// Raises it, and tells what it was.
    pub(crate) fn add(&self, more: u64) -> u64 {
        self.0.fetch_add(more, Ordering::Relaxed)
    }

    /// Sets it.
    pub(crate) fn set(&self, number: u64) {
        self.0.store(number, Ordering::Relaxed);
    }

    /// Its value now.
    pub(crate) fn get(&self) -> u64 {
        self.0.load(Ordering::Relaxed)
    }
}
