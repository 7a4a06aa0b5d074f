//! Flushes and compactions as jobs, which threads run beside reads and writes.

use crate::error::Error;
use crate::event::Event;
use crate::lock;
use crate::shared::Shared;
use crate::stalls::HANDOVER;
use std::sync::atomic::{AtomicUsize, Ordering};
use std::time::Instant;
use ucstore::{Job, Store};

/// The number of jobs that are out of the store. Raised with `store` locked.
#[derive(Default)]
pub(crate) struct JobsOut {
    flushes: AtomicUsize,
    compactions: AtomicUsize,
}

/// A job that is counted as one that is out, until this is dropped.
struct Ticket<'a>(&'a AtomicUsize);

/// A job that is out of the store.
pub(crate) struct Taken<'a> {
    job: Job,
    /// About how many bytes were gathered when it was taken out.
    gathered: u64,
    ticket: Ticket<'a>,
}

impl JobsOut {
    /// Whether a flush is out.
    pub(crate) fn is_flushing(&self) -> bool {
        self.flushes.load(Ordering::Acquire) > 0
    }

    /// Whether any job is out.
    pub(crate) fn is_any(&self) -> bool {
        self.is_flushing() || self.compactions() > 0
    }

    /// The number of compactions that are out.
    fn compactions(&self) -> usize {
        self.compactions.load(Ordering::Acquire)
    }
}

impl<'a> Ticket<'a> {
    fn new(count: &'a AtomicUsize) -> Ticket<'a> {
        count.fetch_add(1, Ordering::AcqRel);
        Ticket(count)
    }
}

impl Drop for Ticket<'_> {
    fn drop(&mut self) {
        self.0.fetch_sub(1, Ordering::AcqRel);
    }
}

impl Shared {
    /// Flushes a full memtable, or compacts the runs that are picked next, and returns whether there was any such job.
    pub(crate) fn compact(&self) -> Result<bool, Error> {
        let taken = self.take_job(&lock(&self.store), usize::MAX)?;
        taken.map_or(Ok(false), |taken| self.run(taken))
    }

    /// Flushes and compacts whenever there is a job, until the database closes.
    pub(crate) fn compact_until_closed(&self) {
        while let Some(taken) = self.next_job() {
            match self.run(taken) {
                Ok(true) => {}
                // No run more may be until a compaction has ended.
                Ok(false) => drop(self.wait_for_work_until(lock(&self.store), HANDOVER)),
                // Allocation failed: the next write wakes this thread for another try, or a close for its end.
                Err(_) => drop(self.wait_for_work(lock(&self.store))),
            }
        }
    }

    /// Waits for a job; returns none once the database closes. Reports what writers couldn't while they hold locks.
    fn next_job(&self) -> Option<Taken<'_>> {
        let mut store = lock(&self.store);
        loop {
            if self.events.are_waiting() {
                drop(store);
                self.events.tell();
                store = lock(&self.store);
            }
            // After the lock was taken again: a close in between would wake nobody.
            if self.is_closing.load(Ordering::Acquire) {
                return None;
            }
            match self.take_job(&store, self.options.compactors) {
                Ok(Some(taken)) => return Some(taken),
                _ => store = self.wait_for_work(store),
            }
        }
    }

    /// Takes a flush out of the store, if a memtable is full, or else a compaction, if fewer than `most` are out. So one of the
    /// database's own threads is always free for a flush.
    pub(crate) fn take_job(&self, store: &Store, most: usize) -> Result<Option<Taken<'_>>, Error> {
        if self.jobs.compactions() < most {
            return self.take_any(store);
        }
        let is_full = self.gathered.load(Ordering::Relaxed) >= self.options.store.write_buffer_size;
        match is_full && !self.jobs.is_flushing() {
            true => self.take_flush(store),
            false => Ok(None),
        }
    }

    /// Takes a flush out of the store, if a memtable is full.
    pub(crate) fn take_flush(&self, store: &Store) -> Result<Option<Taken<'_>>, Error> {
        let Some(mut taken) = self.take_any(store)? else {
            return Ok(None);
        };
        if taken.is_flush() {
            return Ok(Some(taken));
        }
        // It hasn't run: the store has its runs for other jobs again.
        drop(store.end_job(taken.job));
        Ok(None)
    }

    fn take_any(&self, store: &Store) -> Result<Option<Taken<'_>>, Error> {
        let Some(mut job) = store.take_job()? else {
            return Ok(None);
        };
        let count = match is_flush(&mut job) {
            true => &self.jobs.flushes,
            false => &self.jobs.compactions,
        };
        Ok(Some(Taken {
            job,
            gathered: self.gathered.load(Ordering::Relaxed),
            ticket: Ticket::new(count),
        }))
    }

    /// Runs a job, and puts its result into the store. If that fails, the store has its runs or writes for other jobs.
    pub(crate) fn run(&self, mut taken: Taken) -> Result<bool, Error> {
        let begun = Instant::now();
        let outcome = taken.job.run();
        let store = lock(&self.store);
        let before = store.report();
        let read = taken.job.input_bytes();
        let ended = store.end_job(taken.job).expect("a job of this store");
        drop(taken.ticket);
        self.newest.change(&store);
        let report = store.report();
        let is_flushed = report.gathered < before.gathered;
        if is_flushed {
            self.subtract_gathered(taken.gathered);
        }
        self.runs.store(report.runs, Ordering::Relaxed);
        self.work.notify_all();
        drop(store);
        let is_done = ended.is_installed();
        // Its memtables or runs are freed without the store's lock.
        drop(ended);
        self.newest.let_go();
        let written = (read + report.bytes).saturating_sub(before.bytes);
        if is_flushed {
            self.counts.flush_bytes.add(written);
            self.tell_flushed(taken.gathered, begun);
        } else if is_done {
            self.counts.compaction_read.add(read);
            self.counts.compaction_written.add(written);
            self.tell_compacted(begun);
        }
        self.events.tell();
        outcome?;
        Ok(is_done)
    }

    /// Counts a compaction, and reports it.
    pub(crate) fn tell_compacted(&self, begun: Instant) {
        self.counts.compactions.add(1);
        self.events.push(Event::Compacted {
            runs: self.runs.load(Ordering::Relaxed),
            took: begun.elapsed(),
        });
    }
}

impl Taken<'_> {
    fn is_flush(&mut self) -> bool {
        is_flush(&mut self.job)
    }
}

/// Whether a job is a flush: it reads no runs.
fn is_flush(job: &mut Job) -> bool {
    job.input_bytes() == 0
}
#[cfg(test)]
mod tests {
    use super::*;
    use crate::event::Listener;
    use crate::options::Options;
    use std::sync::{mpsc, Arc, Barrier};
    use std::thread;
    use std::time::Duration;
    use ucstore::Batch;

    /// Panics unless the threads that compact end soon once the database closes.
    fn ends_soon(shared: Arc<Shared>, work: impl FnOnce(&Shared) + Send + 'static) {
        let (sender, ended) = mpsc::channel();
        thread::spawn(move || {
            work(&shared);
            let _ = sender.send(());
        });
        ended
            .recv_timeout(Duration::from_secs(20))
            .expect("a thread waits for work although the database closes");
    }

    #[test]
    fn a_close_beside_an_event_ends_the_compactor() {
        let told = Arc::new(Barrier::new(2));
        let closed = Arc::new(Barrier::new(2));
        let (at_event, after_close) = (Arc::clone(&told), Arc::clone(&closed));
        let options = Options {
            events: Some(Listener::new(move |_: &Event| {
                at_event.wait();
                after_close.wait();
            })),
            ..Options::default()
        };
        let shared = Arc::new(Shared::open(None, &options).unwrap());
        shared.events.push(Event::Stalled { runs: 0 });
        let closing = Arc::clone(&shared);
        let closer = thread::spawn(move || {
            told.wait();
            // The compactor holds no lock here, and waits for no work yet.
            assert!(!closing.begin_close());
            closed.wait();
        });
        ends_soon(shared, Shared::compact_until_closed);
        closer.join().unwrap();
    }

    #[test]
    fn nobody_waits_for_work_after_a_close() {
        let shared = Arc::new(Shared::open(None, &Options::default()).unwrap());
        assert!(!shared.begin_close());
        assert!(shared.begin_close());
        ends_soon(shared, |shared| {
            drop(shared.wait_for_work(lock(&shared.store)));
        });
    }

    #[test]
    fn a_write_waits_until_a_job_has_ended() {
        let mut options = Options::default();
        // Each write makes a run of the one before, and all runs that there may be are compacted at once.
        options.store.write_buffer_size = 1;
        options.store.compaction_trigger = 255;
        options.store.stop_trigger = 255;
        options.slow_trigger = u32::MAX;
        let shared = Shared::open(None, &options).unwrap();
        let mut batch = Batch::new();
        let bytes = batch.put("k", "v").unwrap().bytes();
        for _ in 0..256 {
            shared.write(bytes.clone(), false).unwrap();
        }
        let next_job = || shared.take_job(&lock(&shared.store), 1).unwrap().unwrap();
        let (flush, job) = (next_job(), next_job());
        assert!(shared.run(flush).unwrap());
        shared.write(bytes.clone(), false).unwrap();
        thread::scope(|scope| {
            let writer = scope.spawn(|| shared.write(bytes.clone(), false).unwrap());
            thread::sleep(Duration::from_millis(50));
            assert!(!writer.is_finished());
            assert!(shared.run(job).unwrap());
        });
        assert_eq!(shared.view().unwrap().last(), 258);
    }

    #[test]
    fn a_full_memtable_is_flushed_beside_writes() {
        let mut options = Options::default();
        options.store.write_buffer_size = 1000;
        let shared = Shared::open(None, &options).unwrap();
        let bytes = Batch::new().put("k", [b'v'; 600]).unwrap().bytes();
        let next_job = || shared.take_job(&lock(&shared.store), 1).unwrap();
        shared.write(bytes.clone(), false).unwrap();
        assert!(next_job().is_none());
        shared.write(bytes.clone(), false).unwrap();
        let flush = next_job().unwrap();
        assert!(next_job().is_none());
        shared.write(bytes.clone(), false).unwrap();
        assert!(shared.run(flush).unwrap());
        // The writes of meanwhile are still gathered, and the writer has flushed nothing.
        let report = lock(&shared.store).report();
        assert_eq!((report.runs, report.gathered, report.last), (1, 1, 3));
        assert!((600..700).contains(&shared.gathered.load(Ordering::Relaxed)));
        assert_eq!(shared.counts.flushes.get(), 1);
    }
}
