//! Flushes by the threads that read and write, and how much is gathered for them.

use crate::error::Error;
use crate::event::Event;
use crate::shared::Shared;
use crate::{lock, try_lock};
use std::sync::atomic::Ordering;
use std::time::Instant;

/// From how many bytes on scans, and writes among them, make a run of what is gathered.
pub(crate) const MOST_SORTED: u64 = 32 << 10;

/// In how many steps threads are woken for what is gathered beyond a full memtable, which the store measures more closely.
const STEPS: u64 = 16;

impl Shared {
    /// Makes space in the memtables for a group. Requires `log` held.
    pub(crate) fn make_space(&self) -> Result<(), Error> {
        if self.gathered.load(Ordering::Relaxed) >= self.options.most_gathered() {
            return match self.options.compactors {
                0 => self.flush_gathered(),
                _ => self.wait_for_flush(),
            };
        }
        if self.newest.is_scanned() && self.is_much_to_sort() {
            // Writes that aren't flushed are sorted by each scan.
            let _ = self.flush_gathered();
        }
        Ok(())
    }

    /// Flushes what was recovered, if that fills a memtable: else the first write would wait for it.
    pub(crate) fn flush_recovered(&self) -> Result<(), Error> {
        if self.options.compactors == 0 {
            return Ok(());
        }
        let flush = self.take_flush(&lock(&self.store))?;
        if let Some(flush) = flush {
            self.run(flush)?;
        }
        let size = self.options.store.write_buffer_size;
        self.gathered.fetch_min(size, Ordering::Relaxed);
        Ok(())
    }

    /// Counts gathered bytes. A full memtable is work for the database's own threads.
    pub(crate) fn add_gathered(&self, bytes: u64) {
        let size = self.options.store.write_buffer_size;
        let step = (size / STEPS).max(1);
        let before = self.gathered.fetch_add(bytes, Ordering::Relaxed);
        let after = before + bytes;
        if after >= size && before / step != after / step {
            self.work.notify_all();
        }
    }

    /// Subtracts the bytes that a job has flushed.
    pub(crate) fn subtract_gathered(&self, bytes: u64) {
        let left = |gathered: u64| Some(gathered.saturating_sub(bytes));
        let _ = self
            .gathered
            .fetch_update(Ordering::Relaxed, Ordering::Relaxed, left);
    }

    /// Makes a run of what is gathered, if that is much, so that scans don't sort it anew after each write. It waits for no writer and
    /// no job: what isn't flushed is sorted, and an error here comes again with the next write.
    pub(crate) fn flush_for_scans(&self) {
        if !self.is_much_to_sort() {
            return;
        }
        if let Some(log) = try_lock(&self.log) {
            let _ = self.flush_gathered();
            drop(log);
            self.events.tell();
        }
    }

    /// Makes a run of what is gathered, as [`flush_for_scans`](Shared::flush_for_scans) does, for a transaction's ranges. Requires `log`
    /// held.
    pub(crate) fn flush_to_judge(&self) -> Result<(), Error> {
        match self.is_much_to_sort() {
            true => self.flush_gathered(),
            false => Ok(()),
        }
    }

    /// Whether a scan has much to sort, no flush is under way, and one run more slows no write.
    fn is_much_to_sort(&self) -> bool {
        self.gathered.load(Ordering::Relaxed) >= MOST_SORTED
            && self.runs.load(Ordering::Relaxed) < self.options.slow_trigger.into()
            && !self.jobs.is_flushing()
    }

    /// Makes a run of what is gathered.
    pub(crate) fn flush(&self) -> Result<(), Error> {
        let log = lock(&self.log);
        let outcome = self.flush_gathered();
        drop(log);
        self.events.tell();
        outcome
    }

    /// Makes a run of what is gathered: the store would do so within a write. Readers have a view of it before, so none of them waits.
    /// Requires `log` held.
    pub(crate) fn flush_gathered(&self) -> Result<(), Error> {
        let begun = Instant::now();
        self.newest.renew(&self.store)?;
        let (before, report) = self.call(|store| {
            let before = store.report();
            store.flush()?;
            self.newest.change(store);
            Ok((before, store.report()))
        })?;
        self.newest.let_go();
        let bytes = self.gathered.swap(0, Ordering::Relaxed);
        self.tell_runs(report.runs);
        if before.gathered > 0 {
            // Where the store compacted before, so that it may flush, it has fewer.
            let flushed = report.bytes.saturating_sub(before.bytes);
            self.counts.flush_bytes.add(flushed);
            self.tell_flushed(bytes, begun);
        }
        Ok(())
    }

    /// Counts a flush of about as many bytes, and reports it.
    pub(crate) fn tell_flushed(&self, bytes: u64, begun: Instant) {
        self.counts.flushes.add(1);
        self.events.push(Event::Flushed {
            runs: self.runs.load(Ordering::Relaxed),
            bytes,
            took: begun.elapsed(),
        });
    }
}

#[cfg(test)]
mod tests {
    use super::*;
    use crate::event::Listener;
    use crate::options::Options;
    use std::sync::mpsc;
    use std::thread;
    use std::time::Duration;
    use ucstore::Batch;

    /// A batch of 600 bytes.
    fn batch() -> Vec<u8> {
        let mut batch = Batch::new();
        batch.put("k", [b'v'; 591]).unwrap().bytes()
    }

    /// Of a memtable of 1,000 bytes.
    fn options() -> Options {
        let mut options = Options::default();
        options.store.write_buffer_size = 1000;
        options
    }

    /// A database in memory, without threads of its own.
    fn shared() -> Shared {
        Shared::open(None, &options()).unwrap()
    }

    #[test]
    fn a_write_waits_for_the_flush_that_is_under_way() {
        let shared = shared();
        for _ in 0..2 {
            shared.write(batch(), false).unwrap();
        }
        let flush = shared.take_flush(&lock(&shared.store)).unwrap().unwrap();
        assert!(shared.jobs.is_flushing());
        // 2,408 of 2,000 bytes are gathered then.
        for _ in 0..2 {
            shared.write(batch(), false).unwrap();
        }
        thread::scope(|scope| {
            let writer = scope.spawn(|| shared.write(batch(), false).unwrap());
            thread::sleep(Duration::from_millis(100));
            assert!(!writer.is_finished());
            // The writer hasn't flushed what the job has: its run is installed.
            assert!(shared.run(flush).unwrap());
        });
        assert!(!shared.jobs.is_flushing());
        assert_eq!(lock(&shared.store).report().gathered, 3);
        assert!(shared.counts.stalls.get() >= 1);
        assert!(shared.counts.stalled.get() >= 50_000);
    }

    #[test]
    fn a_stall_is_told_before_it_ends() {
        let (sender, told) = mpsc::channel();
        let mut options = options();
        options.events = Some(Listener::new(move |event: &Event| {
            let _ = sender.send(event.clone());
        }));
        let shared = Shared::open(None, &options).unwrap();
        for _ in 0..2 {
            shared.write(batch(), false).unwrap();
        }
        let flush = shared.take_flush(&lock(&shared.store)).unwrap().unwrap();
        shared.gathered.store(u64::MAX / 2, Ordering::Relaxed);
        thread::scope(|scope| {
            scope.spawn(|| shared.compact_until_closed());
            let writer = scope.spawn(|| shared.write(batch(), false).unwrap());
            let event = told.recv_timeout(Duration::from_secs(20)).unwrap();
            assert!(matches!(event, Event::Stalled { runs: 0 }), "{event:?}");
            assert!(!writer.is_finished());
            shared.gathered.store(0, Ordering::Relaxed);
            assert!(shared.run(flush).unwrap());
            writer.join().unwrap();
            shared.begin_close();
        });
    }

    #[test]
    fn a_write_flushes_if_no_thread_does() {
        let shared = shared();
        for round in 0..20 {
            shared.write(batch(), false).unwrap();
            let report = lock(&shared.store).report();
            assert!(report.gathered <= 4, "{round}: {report:?}");
        }
        assert!(shared.counts.flushes.get() >= 4);
    }

    #[test]
    fn writes_are_slowed_before_they_wait() {
        let shared = shared();
        for _ in 0..2 {
            shared.write(batch(), false).unwrap();
        }
        let flush = shared.take_flush(&lock(&shared.store)).unwrap().unwrap();
        shared.write(batch(), false).unwrap();
        assert_eq!(shared.counts.slowed.get(), 0);
        // 1,806 of 2,000 bytes are gathered, and nobody runs the flush.
        shared.write(batch(), false).unwrap();
        assert_eq!(shared.counts.slowed.get(), 1);
        assert_eq!(shared.counts.stalls.get(), 1);
        assert!(shared.run(flush).unwrap());
    }

    #[test]
    fn what_was_recovered_is_no_wait_for_the_first_write() {
        let shared = shared();
        shared.write(batch(), false).unwrap();
        shared.gathered.store(u64::MAX, Ordering::Relaxed);
        shared.flush_recovered().unwrap();
        shared.write(batch(), false).unwrap();
        assert_eq!(shared.counts.stalls.get(), 0);
    }
}
