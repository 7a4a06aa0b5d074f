//! [`Shared`]: what the threads of a database share.

use crate::cache_padded::CachePadded;
use crate::compactor::JobsOut;
use crate::counts::Counts;
use crate::error::Error;
use crate::event::{Event, Events};
use crate::folder::Folder;
use crate::follower::Follower;
use crate::group::{Group, Groups, Role};
use crate::kept::SetAside;
use crate::lock;
use crate::log::{Log, Refusal};
use crate::mark;
use crate::operator_file;
use crate::options::{Options, Sync};
use crate::read_source::ReadSource;
use crate::read_views::ReadViews;
use crate::recovery::Recovery;
use crate::run_files::RunFiles;
use crate::spin_wait::SpinWait;
use std::sync::atomic::{AtomicBool, AtomicU64, Ordering};
use std::sync::{Arc, Condvar, Mutex, OnceLock};
use std::thread::Thread;
use ucstore::{Report, Store, View};

/// From how many bytes on a group has the store for so long that what there is before it is shown.
const LONG_GROUP: usize = 64 << 10;

/// The state that the threads of a database share.
///
/// Locks are taken in the order of these fields, but for the last one of `newest`, which says so. Who writes holds `log` from before
/// the batch is prepared until it is committed; the store is locked for each call alone, so that views and jobs are taken meanwhile.
pub(crate) struct Shared {
    pub(crate) options: Options,
    /// Held by a checkpoint, with the run files of the newest one.
    pub(crate) checkpointing: Mutex<RunFiles>,
    /// Held while the next log is made.
    pub(crate) switching: Mutex<()>,
    /// The place in the logs of the owner, if the database was opened to be read beside it.
    pub(crate) follower: Option<Follower>,
    /// The log; none in memory, and once the database is closed.
    pub(crate) log: CachePadded<Mutex<Option<Log>>>,
    pub(crate) newest: ReadViews,
    pub(crate) store: CachePadded<Mutex<Store>>,
    /// The number of times that the store was replaced by another one, whose runs have other IDs. Changed while `store` is locked.
    pub(crate) stores: AtomicU64,
    /// Notified when there may be a job, or one has ended.
    pub(crate) work: Condvar,
    /// Whether a group is written now, as far as who waits for the log has to know.
    is_writing: CachePadded<AtomicBool>,
    /// The writers that come together.
    pub(crate) groups: CachePadded<Groups>,
    /// Why nothing can be written any more.
    failure: OnceLock<Error>,
    /// Whether the directory was opened to be read alone, or is damaged.
    pub(crate) is_salvaged: bool,
    /// The first failure in a thread of the database's own.
    pub(crate) noted: Mutex<Option<Error>>,
    /// Whether the log has refused what it was asked for last.
    is_refused: AtomicBool,
    pub(crate) counts: Arc<Counts>,
    pub(crate) events: Events,
    /// Whether the last write was slowed.
    pub(crate) is_slowed: AtomicBool,
    pub(crate) jobs: JobsOut,
    /// The most bytes of the writes that no run has yet. It is changed while the store is locked, or the log.
    pub(crate) gathered: AtomicU64,
    /// The number of runs after the last write or compaction.
    pub(crate) runs: AtomicU64,
    pub(crate) is_closing: AtomicBool,
    /// The thread that makes checkpoints, and whether it should.
    pub(crate) checkpointer: OnceLock<Thread>,
    pub(crate) is_checkpoint_due: AtomicBool,
    /// From how many bytes of logs on the next one is made.
    pub(crate) checkpoint_due: AtomicU64,
    /// The views at the marks that weren't given out.
    pub(crate) marks: Mutex<Vec<View>>,
}

impl Shared {
    /// A database as its folder has it, or an empty one in memory.
    pub(crate) fn open(
        folder: Option<Arc<dyn Folder>>,
        options: &Options,
    ) -> Result<Shared, Error> {
        let Some(folder) = folder else {
            let store = Store::create(options.operator(), &options.to_store())?;
            return Shared::of(store, None, None, options, Arc::default());
        };
        let options = &Options {
            operator: Some(operator_file::chosen(&*folder, options.operator)?),
            ..options.clone()
        };
        let counts = Arc::default();
        let mut recovery = match options.read_only {
            true => Recovery::read_beside(&*folder, options)?,
            false => Recovery::read(&*folder, options)?,
        };
        let fault = recovery.fault.take();
        let is_followed = options.read_only && fault.is_none() && options.recover_to.is_none();
        if let Some(fault) = fault.or_else(|| options.read_only.then(Error::opened_to_read)) {
            let follower = is_followed.then(|| Follower::of(folder, recovery.place()));
            let (store, marks) = recovery.into_store();
            return Ok(Shared {
                follower,
                marks: Mutex::new(marks),
                ..Shared::of(store, None, Some(fault), options, counts)?
            });
        }
        let (opened, log) = recovery.into_log(folder, options.recover_to.is_some(), &counts)?;
        let shared = Shared {
            marks: Mutex::new(opened.marks),
            checkpointing: Mutex::new(opened.run_files),
            ..Shared::of(opened.store, Some(log), None, options, counts)?
        };
        if let Some(SetAside { file, bytes }) = opened.set_aside {
            shared.counts.set_aside_bytes.add(bytes);
            shared.events.push(Event::SetAside { file, bytes });
            shared.events.tell();
        }
        Ok(shared)
    }

    /// The shared state of a store and its log.
    fn of(
        store: Store,
        log: Option<Log>,
        fault: Option<Error>,
        options: &Options,
        counts: Arc<Counts>,
    ) -> Result<Shared, Error> {
        let report = store.report();
        // The writes that were recovered aren't measured.
        let gathered = u64::from(report.gathered > 0) * options.most_gathered();
        let shared = Shared {
            options: options.clone(),
            checkpointing: Mutex::default(),
            switching: Mutex::default(),
            follower: None,
            log: CachePadded(Mutex::new(log)),
            newest: ReadViews::default(),
            gathered: AtomicU64::new(gathered),
            runs: AtomicU64::new(report.runs),
            store: CachePadded(Mutex::new(store)),
            stores: AtomicU64::new(0),
            work: Condvar::new(),
            is_writing: CachePadded::default(),
            groups: CachePadded::default(),
            is_salvaged: fault.is_some(),
            failure: fault.map_or_else(OnceLock::new, |fault| fault.into_cause().into()),
            noted: Mutex::new(None),
            is_refused: AtomicBool::new(false),
            counts,
            events: Events::of(options.events.clone()),
            is_slowed: AtomicBool::new(false),
            jobs: JobsOut::default(),
            is_closing: AtomicBool::new(false),
            checkpointer: OnceLock::new(),
            is_checkpoint_due: AtomicBool::new(false),
            checkpoint_due: AtomicU64::new(options.checkpoint_least),
            marks: Mutex::default(),
        };
        shared.flush_recovered()?;
        Ok(shared)
    }

    /// Writes a batch, with those of the writers that come meanwhile.
    pub(crate) fn write(&self, mut batch: Vec<u8>, is_synced: bool) -> Result<(), Error> {
        let wait = SpinWait::of(self.options.sync);
        let mut has_waited = false;
        loop {
            batch = match self.groups.join(batch, is_synced, has_waited) {
                Role::Leads => return self.lead(wait),
                Role::Follows(outcome) => return outcome.wait(wait),
                Role::Waits(outcome, batch) => {
                    // Errors of others are theirs.
                    let _ = outcome.wait(wait);
                    has_waited = true;
                    batch
                }
            }
        }
    }

    /// Writes the open group after those before it.
    pub(crate) fn lead(&self, wait: SpinWait) -> Result<(), Error> {
        // A thread that looks at the lock takes its cache line from the thread that has it.
        wait.spin_until(|| (!self.is_writing.load(Ordering::Relaxed)).then_some(()));
        let mut log = wait.lock(&self.log);
        self.is_writing.store(true, Ordering::Relaxed);
        let mut group = self.groups.close();
        let result = self.take(&mut log, &mut group);
        self.is_writing.store(false, Ordering::Relaxed);
        drop(log);
        group.publish(&result);
        self.events.tell();
        result
    }

    /// Whether a group is being written.
    pub(crate) fn is_writing(&self) -> bool {
        self.is_writing.load(Ordering::Relaxed)
    }

    /// Takes a group, after its record in the log if there is one. `log` is held since before: so its transactions are judged by what each
    /// group before it has left.
    pub(crate) fn take(&self, log: &mut Option<Log>, group: &mut Group) -> Result<(), Error> {
        self.check()?;
        self.slow_down();
        self.make_space()?;
        self.judge(group)?;
        if group.batches == 0 {
            return Ok(());
        }
        if group.batch.len() >= LONG_GROUP {
            self.newest.renew(&self.store)?;
        }
        self.newest.note(&group.batch);
        let is_flushed = match log {
            Some(log) => self.take_logged(log, group)?,
            None => self.call(|store| {
                match group.lone_condition() {
                    Some(condition) => {
                        condition.prepare(store, 0, &group.batch)?;
                        self.leave_moments(store, group);
                        store.commit();
                    }
                    None => {
                        self.leave_moments(store, group);
                        store.write_bytes(&group.batch)?;
                    }
                }
                Ok(self.tell_taken(store, group, &store.report()))
            })?,
        };
        if is_flushed {
            self.newest.let_go();
        }
        self.counts.groups.add(1);
        self.counts.batches.add(group.batches);
        self.counts.user_bytes.add(group.batch.len() as u64);
        Ok(())
    }

    /// Logs a group, and takes it. Views and jobs are taken while it is logged. Returns whether the store has flushed by itself.
    fn take_logged(&self, log: &mut Log, group: &Group) -> Result<bool, Error> {
        let (length, unsynced) = (log.length, log.unsynced());
        let record = self.call(|store| match group.lone_condition() {
            Some(condition) => {
                let batch = mark::with_mark(&group.batch, unsynced)?;
                condition.prepare(store, length, &batch)
            }
            None => store.prepare_marked(length, &group.batch, unsynced),
        })?;
        if let Err(refusal) = log.append(&record, group.is_synced) {
            lock(&self.store).give_up();
            return Err(self.refuse(refusal));
        }
        self.is_refused.store(false, Ordering::Relaxed);
        let store = lock(&self.store);
        self.leave_moments(&store, group);
        let report = store.commit_report();
        let is_flushed = self.tell_taken(&store, group, &report);
        drop(store);
        self.ask_checkpoint(log, report.bytes);
        Ok(is_flushed)
    }

    /// The error where the log refuses something. Of refusals that pass, the first one in a row is reported by an event.
    pub(crate) fn refuse(&self, refusal: Refusal) -> Error {
        match refusal {
            Refusal::Lasts(error) => self.fail(error),
            Refusal::Passes(error) => {
                if !self.is_refused.swap(true, Ordering::Relaxed) {
                    self.tell_failure(&error);
                }
                error
            }
        }
    }

    /// Leaves the moment before a group, whose transactions are judged.
    fn leave_moments(&self, store: &Store, group: &Group) {
        group.release_moments();
        self.newest.leave_moment(store);
    }

    /// Tells that the store has taken a group, and returns whether it has flushed by itself.
    fn tell_taken(&self, store: &Store, group: &Group, report: &Report) -> bool {
        self.newest.raise(store);
        self.add_gathered(group.memory());
        self.tell_runs(report.runs)
    }

    /// Tells how many runs there are, and returns whether that is another number than before, which may give work.
    pub(crate) fn tell_runs(&self, runs: u64) -> bool {
        let is_other = self.runs.swap(runs, Ordering::Relaxed) != runs;
        if is_other {
            self.work.notify_all();
        }
        is_other
    }

    /// Looks a key up, in what has each write that was acknowledged before.
    pub(crate) fn read<T>(
        &self,
        key: &[u8],
        read: impl FnOnce(ReadSource<'_>) -> Result<T, ucstore::Error>,
    ) -> Result<T, Error> {
        self.newest.read(key, &self.store, read)
    }

    /// A view that has each write that was acknowledged before.
    pub(crate) fn view(&self) -> Result<View, Error> {
        self.newest.view(&self.store)
    }

    /// A view for scans, in which what no run has yet is sorted.
    pub(crate) fn sorted_view(&self) -> Result<View, Error> {
        self.flush_for_scans();
        self.newest.sorted_view(&self.store)
    }

    /// Whether writes are on the device when they are acknowledged.
    pub(crate) fn is_synced(&self) -> bool {
        self.options.sync == Sync::Always
    }

    /// Refuses all writes from now on, for the first reason that there is. Returns what they are told.
    pub(crate) fn fail(&self, error: Error) -> Error {
        let is_first = self.failure.set(error.into_cause()).is_ok();
        let failure = self.failure.get().expect("it was set");
        if is_first {
            self.tell_failure(failure);
        }
        failure.clone()
    }

    /// Notes what failed in a thread of the database's own.
    pub(crate) fn note(&self, error: Error) {
        if !matches!(error, Error::ReadOnly { .. }) {
            self.tell_failure(&error);
            self.events.tell();
        }
        lock(&self.noted).get_or_insert(error);
    }

    /// Forgets the failure of a checkpoint, once another one has succeeded.
    pub(crate) fn forget_noted(&self) {
        lock(&self.noted).take_if(|error| !matches!(error, Error::ReadOnly { .. }));
    }

    /// Tells that a log or a checkpoint failed. An end that was asked for is no failure.
    fn tell_failure(&self, error: &Error) {
        if !matches!(error, Error::Closed) {
            self.events.push(Event::Failed {
                error: error.clone(),
            });
        }
    }

    /// Why nothing can be written, if that is so.
    pub(crate) fn failure(&self) -> Option<Error> {
        self.failure.get().cloned()
    }

    /// Checks that something can be written.
    pub(crate) fn check(&self) -> Result<(), Error> {
        self.failure().map_or(Ok(()), Err)
    }
}
