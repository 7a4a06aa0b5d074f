//! Compaction of an idle database to one run.
//!
//! The store picks its own compactions, by options that are fixed when it is made, and leaves several runs of different sizes. None of its
//! functions compacts all of them. So a thread copies the rows of a view to a new store, which replaces the old one if nothing
//! was written meanwhile. The copy has the rows and the last sequence number of the view, as a store has that is read from a checkpoint.

use crate::error::Error;
use crate::flushes::MOST_SORTED;
use crate::lock;
use crate::options::Options;
use crate::shared::Shared;
use std::mem;
use std::sync::atomic::Ordering;
use std::thread;
use std::time::{Duration, Instant};
use ucstore::{Batch, Store, View};

/// The shortest time after which a database is idle.
const SHORTEST: Duration = Duration::from_millis(1);

/// Compactions of an idle database take at most one in this many parts of the time.
const SHARE: u32 = 10;

/// The most bytes of rows in a batch of the copy.
const BATCH_BYTES: u64 = 64 << 10;

/// The memory that the copy's store counts for a row, besides its key and its value.
const ROW_BYTES: u64 = 8;

/// The flushes of a copy: first some of a single batch each, so that the oldest run is small and there are enough runs; then the others.
/// Then the store picks all of its runs at once, since the newer ones are too large for the oldest one.
#[derive(Clone, Copy, Debug, PartialEq, Eq)]
struct Plan {
    /// The number of flushes of a single batch.
    small: u64,
    /// The bytes of each other flush.
    bytes: u64,
}

/// A store to which rows are copied in batches.
struct Copier {
    store: Store,
    plan: Plan,
    batch: Batch,
    /// The bytes at which the batch is full.
    batch_bytes: u64,
    /// The bytes of the batch, and of what wasn't flushed before it.
    batched: u64,
    written: u64,
    /// The number of flushes.
    flushes: u64,
}

impl Shared {
    /// Compacts the database to one run each time that nothing was written for a while, until the database closes.
    pub(crate) fn compact_idle_until_closed(&self, after: Duration) {
        let after = after.max(SHORTEST);
        let mut groups = self.counts.groups.get();
        let mut looked = Instant::now();
        let mut rested = looked;
        let mut compacted = 0;
        while !self.is_closing.load(Ordering::Acquire) {
            thread::park_timeout(after);
            // It may have been woken too early.
            if looked.elapsed() < after {
                continue;
            }
            looked = Instant::now();
            let before = mem::replace(&mut groups, self.counts.groups.get());
            if before != groups || looked < rested {
                continue;
            }
            if let Some(last) = self.last_to_compact(compacted) {
                // If an allocation failed, the next write is the occasion for another try.
                if self.compact_all(groups).unwrap_or(true) {
                    compacted = last;
                }
                rested = looked + SHARE * looked.elapsed();
            }
        }
    }

    /// The last sequence number of the store if it is idle, something was written after `compacted`, and it isn't one run already.
    fn last_to_compact(&self, compacted: u64) -> Option<u64> {
        let store = lock(&self.store);
        let report = store.report();
        let is_split = report.runs > 1 || self.gathered.load(Ordering::Relaxed) >= MOST_SORTED;
        let is_idle = !self.is_writing() && !self.jobs.is_any();
        (is_split && is_idle && report.last > compacted).then_some(report.last)
    }

    /// Compacts the database to one run. Returns false if it gave up, since a write came or the database closes. `groups` is the number
    /// of groups that were written before.
    fn compact_all(&self, groups: u64) -> Result<bool, Error> {
        let begun = Instant::now();
        let view = lock(&self.store).view()?;
        let before = view.report();
        let is_idle = || {
            self.counts.groups.get() == groups
                && !self.is_writing()
                && !self.is_closing.load(Ordering::Acquire)
        };
        let size = before
            .bytes
            .saturating_add(self.gathered.load(Ordering::Relaxed));
        let Some(plan) = Plan::of(&self.options, size) else {
            return Ok(true);
        };
        let Some(copy) = self.copy(&view, plan, is_idle)? else {
            return Ok(false);
        };
        let parts = before.runs + u64::from(before.gathered > 0);
        let report = copy.report();
        if report.runs >= parts.max(2) {
            return Ok(true);
        }
        let Some(old) = self.replace(copy, view.last()) else {
            return Ok(false);
        };
        self.newest.let_go();
        drop((old, view));
        self.counts.compaction_read.add(before.bytes);
        self.counts.compaction_written.add(report.bytes);
        self.tell_compacted(begun);
        self.events.tell();
        Ok(true)
    }

    /// A store of the rows of a view, in one run if that is possible. Returns none once the database isn't idle.
    fn copy(
        &self,
        view: &View,
        plan: Plan,
        is_idle: impl Fn() -> bool,
    ) -> Result<Option<Store>, Error> {
        let options = &self.options;
        let Some(copy) = copy_rows(view, Copier::new(options, plan)?, &is_idle)? else {
            return Ok(None);
        };
        let report = copy.report();
        match Plan::of(options, report.bytes) {
            // Most of the bytes were older values: another plan suits what is left.
            Some(better) if report.runs > 1 && better != plan => {
                drop(copy);
                copy_rows(view, Copier::new(options, better)?, &is_idle)
            }
            _ => Ok(Some(copy)),
        }
    }

    /// Replaces the store by a copy, and returns the old one. Returns none if the old one has a later write than `last`, or a job is out.
    fn replace(&self, copy: Store, last: u64) -> Option<Store> {
        // With the log, no batch is prepared in the old store.
        let log = lock(&self.log);
        let mut store = lock(&self.store);
        if store.last() != last || self.jobs.is_any() {
            return None;
        }
        self.newest.leave_moment(&store);
        let old = mem::replace(&mut *store, copy);
        self.stores.fetch_add(1, Ordering::AcqRel);
        self.newest.change(&store);
        self.gathered.store(0, Ordering::Relaxed);
        self.tell_runs(store.report().runs);
        drop(store);
        drop(log);
        Some(old)
    }
}

impl Plan {
    /// The flushes for about as many bytes of rows. There is none if they don't lead to one run: they would be more than `stop_trigger`.
    fn of(options: &Options, size: u64) -> Option<Plan> {
        // A write flushes by itself only if it finds more.
        let most = (options.most_gathered() / 4 * 3).max(1);
        if size <= most {
            return Some(Plan {
                small: 0,
                bytes: u64::MAX,
            });
        }
        let store = &options.store;
        let small = u64::from(store.compaction_trigger).saturating_sub(1).max(1);
        let flushes = small + size.div_ceil(most);
        (flushes <= store.stop_trigger.into()).then_some(Plan { small, bytes: most })
    }
}

impl Copier {
    fn new(options: &Options, plan: Plan) -> Result<Copier, Error> {
        Ok(Copier {
            store: Store::create(options.operator(), &options.to_store())?,
            plan,
            batch: Batch::new(),
            batch_bytes: BATCH_BYTES.min(options.most_gathered() / 32),
            batched: 0,
            written: 0,
            flushes: 0,
        })
    }

    /// Whether the next row begins another batch.
    fn is_full(&self) -> bool {
        self.batched >= self.batch_bytes && !self.batch.is_empty()
    }

    fn put(&mut self, key: &[u8], value: &[u8]) -> Result<(), Error> {
        self.batch.put(key, value)?;
        self.batched += (key.len() + value.len()) as u64 + ROW_BYTES;
        Ok(())
    }

    /// Writes the batch, and flushes if the plan says so.
    fn write(&mut self) -> Result<(), Error> {
        self.store.write(&self.batch)?;
        self.batch.clear();
        self.written += mem::take(&mut self.batched);
        if self.flushes < self.plan.small || self.written >= self.plan.bytes {
            self.store.flush()?;
            self.flushes += 1;
            self.written = 0;
        }
        Ok(())
    }

    /// Writes the last batch so that it ends at a sequence number, and compacts all to one run.
    fn end(mut self, last: u64) -> Result<Store, Error> {
        if self.batch.is_empty() {
            // There is no row. A deletion takes the sequence number.
            self.batch.delete("")?;
        }
        let first = last + 1 - self.batch.len() as u64;
        let mut bytes = self.batch.try_bytes()?;
        bytes[..8].copy_from_slice(&first.to_le_bytes());
        self.store.write_bytes(&bytes)?;
        self.store.flush()?;
        while let Some(mut job) = self.store.take_job()? {
            job.run()?;
            let ended = self.store.end_job(job).expect("a job of this store");
            if !ended.is_installed() {
                break;
            }
        }
        Ok(self.store)
    }
}

/// Copies the rows of a view. Returns none once the database isn't idle.
fn copy_rows(
    view: &View,
    mut copier: Copier,
    is_idle: impl Fn() -> bool,
) -> Result<Option<Store>, Error> {
    let mut rows = view.scan("", None);
    while let Some((key, value)) = rows.next_row()? {
        if copier.is_full() {
            if !is_idle() {
                return Ok(None);
            }
            copier.write()?;
        }
        copier.put(key, value)?;
    }
    let is_idle = is_idle();
    is_idle.then(|| copier.end(view.last())).transpose()
}

#[cfg(test)]
mod tests {
    use super::*;

    /// Options with memtables of 1,000 bytes, of which there are two.
    fn options() -> Options {
        let mut options = Options::default();
        options.store.write_buffer_size = 1000;
        options
    }

    /// A database in memory of some runs, without threads of its own.
    fn shared_of(options: &Options, runs: u8) -> Shared {
        let shared = Shared::open(None, options).unwrap();
        for run in 0..runs {
            put(&shared, &[run, 1], 50);
            put(&shared, b"k", 50);
            shared.flush().unwrap();
        }
        shared
    }

    fn put(shared: &Shared, key: &[u8], length: usize) {
        let bytes = Batch::new().put(key, vec![7; length]).unwrap().bytes();
        shared.write(bytes, false).unwrap();
    }

    fn runs(shared: &Shared) -> u64 {
        lock(&shared.store).report().runs
    }

    #[test]
    fn a_plan_leads_to_one_run() {
        let options = options();
        let small = |size| Plan::of(&options, size).map(|plan| plan.small);
        assert_eq!(
            [small(0), small(1500), small(1501)],
            [Some(0), Some(0), Some(3)]
        );
        // With 3 of a single batch, 33 others are as many as `stop_trigger` allows.
        assert_eq!([small(33 * 1500), small(33 * 1500 + 1)], [Some(3), None]);
        assert_eq!(small(u64::MAX), None);
        for count in (1..28).step_by(3) {
            let shared = Shared::open(None, &options).unwrap();
            for number in 0..count * count {
                put(&shared, &number.to_string().into_bytes(), number % 90);
            }
            let report = lock(&shared.store).report();
            let size = report.bytes + shared.gathered.load(Ordering::Relaxed);
            if report.runs < 2 || Plan::of(&options, size).is_none() {
                continue;
            }
            assert!(shared.compact_all(shared.counts.groups.get()).unwrap());
            let after = lock(&shared.store).report();
            assert_eq!((after.runs, after.gathered), (1, 0), "{count}: {report:?}");
            assert_eq!((after.points, after.last), (report.last, report.last));
        }
    }

    #[test]
    fn a_write_or_a_close_ends_it() {
        let shared = shared_of(&options(), 3);
        // A write came before it has begun.
        let groups = shared.counts.groups.get();
        put(&shared, b"later", 9);
        assert!(!shared.compact_all(groups).unwrap());
        assert_eq!(runs(&shared), 3);
        shared.begin_close();
        assert!(!shared.compact_all(groups + 1).unwrap());
        assert_eq!(runs(&shared), 3);
        assert_eq!(shared.view().unwrap().last(), 7);
    }

    #[test]
    fn a_later_write_or_a_job_keeps_the_old_store() {
        let shared = shared_of(&options(), 4);
        let copy = |shared: &Shared| {
            let view = lock(&shared.store).view().unwrap();
            let plan = Plan::of(&shared.options, 1).unwrap();
            let copier = Copier::new(&shared.options, plan).unwrap();
            let copy = copy_rows(&view, copier, || true).unwrap().unwrap();
            assert_eq!((copy.last(), copy.report().runs), (view.last(), 1));
            (copy, view.last())
        };
        let (first, last) = copy(&shared);
        put(&shared, b"later", 9);
        assert!(shared.replace(first, last).is_none());
        let (second, last) = copy(&shared);
        let job = shared.take_job(&lock(&shared.store), 1).unwrap().unwrap();
        assert!(shared.replace(second, last).is_none());
        assert_eq!(shared.last_to_compact(0), None);
        // The job ends on the store from which it was taken.
        assert!(shared.run(job).unwrap());
        let (third, last) = copy(&shared);
        let old = shared.replace(third, last).unwrap();
        assert_eq!((runs(&shared), old.last()), (1, last));
        let view = shared.view().unwrap();
        assert_eq!(view.get("later").unwrap(), Some(vec![7; 9]));
        assert_eq!((view.last(), view.scan("", None).count()), (9, 6));
    }

    #[test]
    fn it_is_due_only_after_a_write() {
        let shared = shared_of(&options(), 2);
        assert_eq!(shared.last_to_compact(0), Some(4));
        assert_eq!(shared.last_to_compact(4), None);
        put(&shared, b"later", 9);
        assert_eq!(shared.last_to_compact(4), Some(5));
        assert!(shared.compact_all(shared.counts.groups.get()).unwrap());
        assert_eq!((runs(&shared), shared.last_to_compact(0)), (1, None));
        // A little that is gathered stays.
        put(&shared, b"later", 9);
        assert_eq!(shared.last_to_compact(0), None);
    }
}
