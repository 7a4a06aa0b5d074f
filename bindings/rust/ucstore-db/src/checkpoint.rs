//! Checkpoints, which let logs go: when one is made, and of what.
//!
//! A checkpoint is a list of run files, or a base, which has the rows of a view. It is a list if the runs of the view end at its last
//! sequence number: flushes take whole memtables and compactions whole runs, so that is the end of a batch. Where a view has a write in
//! its memtables for each sequence number after its newest run's, the runs have all others: `newest_run_ends_below_memtables` of `uc_live`.

use crate::error::Error;
use crate::folder::{File, Folder};
use crate::lock;
use crate::log::{Log, Machine};
use crate::name::Name;
use crate::run_files::{PlannedRun, RunFiles};
use crate::shared::Shared;
use std::io::ErrorKind;
use std::sync::atomic::Ordering;
use std::sync::{Arc, MutexGuard};
use std::thread;
use std::time::Instant;
use ucstore::{FolderAction, RunFolderAction, RunFolderMachine, View};

/// From how many bytes on a log is synced again before it is locked for that, and how often at most.
const FEW_BYTES: u64 = 64 << 10;
const MOST_SYNCS: usize = 3;

/// A checkpoint that the machine was asked for.
pub(crate) struct Begun {
    pub(crate) folder: Arc<dyn Folder>,
    pub(crate) machine: Machine,
    /// The number of the log that goes on after its last sequence.
    pub(crate) number: u64,
    /// The last sequence.
    pub(crate) last: u64,
    pub(crate) view: View,
    /// The runs that a list names; none for a base of the view's rows.
    pub(crate) runs: Option<Vec<PlannedRun>>,
    /// The store that the view is of, by the number of times that it was replaced; none if that isn't known.
    pub(crate) store: Option<u64>,
}

/// A view, and what a checkpoint of it is up to.
struct Wanted {
    view: View,
    store: Option<u64>,
    last: u64,
    /// The number of the log that goes on after it, and a number in the order of the batches that it has of that.
    place: (u64, u64),
}

impl Shared {
    /// Writes all that is there to runs, and to a list of these, while writes go to a new log. Then older files are removed. In memory
    /// it does nothing.
    ///
    /// If it fails, what was logged is where it was: a crash at any step loses nothing.
    pub(crate) fn checkpoint(&self) -> Result<(), Error> {
        self.checkpoint_by(|run_files| self.begin_checkpoint(run_files))
            .map(drop)
    }

    /// Writes what a view of this database has. Removes the logs that have nothing after it.
    pub(crate) fn checkpoint_to(&self, view: &View) -> Result<(), Error> {
        self.checkpoint_by(|run_files| self.begin_checkpoint_to(run_files, view))
            .map(drop)
    }

    /// Writes the runs that there are, while writes go on. Writes in memtables stay in logs. Returns whether a checkpoint was made.
    fn checkpoint_runs(&self) -> Result<bool, Error> {
        self.checkpoint_by(|run_files| self.begin_checkpoint_of_runs(run_files))
    }

    /// Makes a checkpoint that a function begins, unless it says that there is none. Returns whether one was made.
    fn checkpoint_by(
        &self,
        begin: impl FnOnce(&RunFiles) -> Result<Option<Begun>, Error>,
    ) -> Result<bool, Error> {
        let outcome = self.make_checkpoint(begin);
        self.events.tell();
        outcome
    }

    /// Makes a checkpoint, which is reported after its locks are given back.
    fn make_checkpoint(
        &self,
        begin: impl FnOnce(&RunFiles) -> Result<Option<Begun>, Error>,
    ) -> Result<bool, Error> {
        let begun_at = Instant::now();
        let mut run_files = lock(&self.checkpointing);
        let Some(begun) = begin(&run_files)? else {
            return Ok(false);
        };
        // After a failure it isn't tried again before as much more was logged.
        let due = self
            .log_bytes()
            .saturating_add(self.options.checkpoint_least);
        self.checkpoint_due.store(due, Ordering::Relaxed);
        self.write_checkpoint(&mut run_files, begun, begun_at)?;
        Ok(true)
    }

    /// Goes on in a new log, flushes what was logged before, and takes a view of that. Writes wait for the flush, so that the new log has
    /// nothing of it.
    fn begin_checkpoint(&self, run_files: &RunFiles) -> Result<Option<Begun>, Error> {
        // Without a write since the newest list all stays as it is, also for those who read the directory meanwhile.
        let is_covered =
            |log: &Log| !run_files.named.is_empty() && log.is_covered(lock(&self.store).last());
        let log = self.switch_if(|log| !is_covered(log))?;
        let Some(log) = (*log).as_ref().filter(|log| !is_covered(log)) else {
            return Ok(None);
        };
        if lock(&self.store).report().gathered > 0 {
            self.flush_gathered()?;
        }
        let (view, store) = self.view_of_store()?;
        let wanted = Wanted {
            last: view.last(),
            view,
            store,
            place: (log.number(), 0),
        };
        Ok(ask(log, run_files, wanted))
    }

    /// Goes on in a new log, unless this one begins after the view: so a checkpoint lets it go. There is nothing to do if one has
    /// all of the view.
    fn begin_checkpoint_to(
        &self,
        run_files: &RunFiles,
        view: &View,
    ) -> Result<Option<Begun>, Error> {
        // A view may be of a store that was replaced, and its runs have IDs that others have now.
        let store = Some(self.stores.load(Ordering::Acquire)).filter(|number| *number == 0);
        let last = view.last();
        let log = self.switch_behind(last)?;
        let Some((log, place)) = log.as_ref().and_then(|log| log.place_and_log(last)) else {
            return Ok(None);
        };
        let wanted = Wanted {
            view: view.again()?,
            store,
            last,
            place,
        };
        Ok(ask(log, run_files, wanted))
    }

    /// Takes a view, and goes on in a new log if its runs have writes of this one. If the newest checkpoint has all of the runs, the
    /// memtables have as much as the options let logs have: then they are flushed before.
    fn begin_checkpoint_of_runs(&self, run_files: &RunFiles) -> Result<Option<Begun>, Error> {
        let (view, store) = self.view_of_store()?;
        let last = last_of_runs(&view);
        if last + view.report().gathered != view.last() {
            // A gap in the sequence numbers hides where the runs end.
            return self.begin_checkpoint(run_files);
        }
        let log = self.switch_behind(last)?;
        if let Some((log, place)) = log.as_ref().and_then(|log| log.place_and_log(last)) {
            let wanted = Wanted {
                view,
                store,
                last,
                place,
            };
            if let Some(begun) = ask(log, run_files, wanted) {
                return Ok(Some(begun));
            }
            // No list has the number of another one. The next flush has writes of the next log, and comes soon if memtables are small.
            let most = self.options.most_gathered();
            if most <= self.options.checkpoint_least {
                let due = log.bytes().saturating_add(most);
                self.checkpoint_due.store(due, Ordering::Relaxed);
                return Ok(None);
            }
        }
        drop(log);
        self.begin_checkpoint(run_files)
    }

    /// A view of the store, and the number of times that this was replaced.
    fn view_of_store(&self) -> Result<(View, Option<u64>), Error> {
        let store = lock(&self.store);
        Ok((store.view()?, Some(self.stores.load(Ordering::Acquire))))
    }

    /// Goes on in a new log if this one has a part of what is logged up to a sequence, and no checkpoint has that.
    fn switch_behind(&self, last: u64) -> Result<MutexGuard<'_, Option<Log>>, Error> {
        self.switch_if(|log| log.place_behind(last).is_some() && log.before < last)
    }

    /// Goes on in a new log, unless nothing is in this one. In memory it does nothing.
    pub(crate) fn next_log(&self) -> Result<(), Error> {
        let outcome = self.switch_if(|log| log.length > 0).map(drop);
        self.events.tell();
        outcome
    }

    /// Goes on in a new log, if that is needed. Returns the log that goes on, locked.
    ///
    /// It isn't locked while the next one's file is made, as long as most of its bytes are synced. If that file can't be made, as on a
    /// full device, the log goes on as it was.
    fn switch_if(
        &self,
        is_needed: impl Fn(&Log) -> bool,
    ) -> Result<MutexGuard<'_, Option<Log>>, Error> {
        let _switching = lock(&self.switching);
        let mut guard = lock(&self.log);
        self.check()?;
        let (folder, machine) = match &mut *guard {
            Some(log) if is_needed(log) => {
                log.finish_cleanup()?;
                (Arc::clone(&log.folder), Arc::clone(&log.machine))
            }
            _ => return Ok(guard),
        };
        drop(guard);
        let next = make_next(&*folder, &machine)?;
        let mut guard = self.sync_most()?;
        if let Some(log) = &mut *guard {
            let last = lock(&self.store).last();
            log.switch(next, last)
                .map_err(|refusal| self.refuse(refusal))?;
        }
        Ok(guard)
    }

    /// Syncs the log until few bytes are left, which came meanwhile. Returns it locked.
    fn sync_most(&self) -> Result<MutexGuard<'_, Option<Log>>, Error> {
        let mut guard = self.sync_log()?;
        for _ in 0..MOST_SYNCS {
            if guard.as_ref().is_none_or(|log| log.unsynced() < FEW_BYTES) {
                break;
            }
            drop(guard);
            guard = self.sync_log()?;
        }
        Ok(guard)
    }

    /// The size of the logs that no checkpoint holds in bytes.
    pub(crate) fn log_bytes(&self) -> u64 {
        self.counts.log_bytes.get()
    }

    /// Asks for a checkpoint if the logs exceed the data by as much as the options say.
    pub(crate) fn ask_checkpoint(&self, log: &Log, data: u64) {
        let Some(thread) = self.checkpointer.get() else {
            return;
        };
        if log.bytes() >= self.long_log(data)
            && !self.is_checkpoint_due.swap(true, Ordering::AcqRel)
        {
            thread.unpark();
        }
    }

    /// Makes checkpoints when they are due, until the database closes.
    pub(crate) fn checkpoint_until_closed(&self) {
        while !self.is_closing.load(Ordering::Acquire) {
            if !self.is_checkpoint_due.swap(false, Ordering::AcqRel) {
                thread::park();
            } else if self.is_log_long() {
                match self.checkpoint_runs() {
                    Ok(true) => self.forget_noted(),
                    Ok(false) => {}
                    // The close doesn't wait for the rest of it.
                    Err(Error::Closed) => {}
                    Err(error) => self.note(error),
                }
            }
        }
    }

    /// Whether the logs are still as long as those who asked found them.
    fn is_log_long(&self) -> bool {
        self.log_bytes() >= self.long_log(lock(&self.store).report().bytes)
    }

    /// The least size of the logs in bytes at which a checkpoint is made.
    fn long_log(&self, data: u64) -> u64 {
        let least = self.checkpoint_due.load(Ordering::Relaxed);
        least.max(data.saturating_mul(self.options.checkpoint_ratio))
    }
}

/// Asks the machine for a checkpoint of a view: a list of its runs, or else a base of its rows. Returns none if there is nothing to do.
fn ask(log: &Log, run_files: &RunFiles, wanted: Wanted) -> Option<Begun> {
    let Wanted {
        view,
        store,
        last,
        place: (number, past),
    } = wanted;
    let mut machine = lock(&log.machine);
    let mut runs = None;
    if last_of_runs(&view) == last {
        // A list that couldn't be read back lends none of its files.
        let store = store.filter(|_| machine.is_read_back());
        let planned = run_files.plan(&view, store);
        let files = planned.iter().filter_map(|run| run.file);
        let kept = Vec::from_iter(files.map(|file| file.number));
        let count = (planned.len() - kept.len()) as u64;
        machine.ask_checkpoint(number, past, &kept, &run_files.named, count);
        runs = Some(planned).filter(|_| is_asked(&machine));
    }
    if runs.is_none() && last == view.last() {
        machine.ask_checkpoint(number, past, &[], &run_files.named, 0);
        if !is_asked(&machine) && machine.is_read_back() {
            // No list has the number of another one. A base may, which names no runs: it is one of the folder's machine alone.
            machine.folder_mut().ask_checkpoint(number, past);
        }
    }
    let begun = is_asked(&machine).then(|| Begun {
        folder: Arc::clone(&log.folder),
        machine: Arc::clone(&log.machine),
        number,
        last,
        view,
        runs,
        store,
    });
    drop(machine);
    begun
}

/// Whether a machine makes a checkpoint.
fn is_asked(machine: &RunFolderMachine) -> bool {
    machine.next_checkpoint() != RunFolderAction::OfFolder(FolderAction::Nothing)
}

/// The last sequence number of a view's runs: 0 if there are none.
fn last_of_runs(view: &View) -> u64 {
    view.runs().next().map_or(0, |run| *run.sequences().end())
}

/// Makes the file of the next log, whose name is on the device then. The log isn't locked meanwhile.
fn make_next(folder: &dyn Folder, machine: &Machine) -> Result<Box<dyn File>, Error> {
    lock(machine).folder_mut().ask_next();
    let name = Name::Log(lock(machine).folder().log() + 1).text();
    let mut made = None;
    loop {
        let action = lock(machine).folder().next_make();
        let outcome = match action {
            FolderAction::CreateLog(_) => folder
                .create(&name)
                .map(|file| made = Some(file))
                .map_err(Error::of_file(&name)),
            FolderAction::SyncNames => folder.sync().map_err(Error::of_file("")),
            _ => break,
        };
        lock(machine).folder_mut().told_make(outcome.is_ok());
        outcome?;
    }
    match made {
        Some(file) => Ok(file),
        // It was made before, and the log couldn't go on in it.
        None => folder.open(&name).map_err(Error::of_file(&name)),
    }
}

/// Does an operation that removes the files of a number; none if it is another one.
pub(crate) fn remove_for(
    folder: &dyn Folder,
    listed: &mut Option<Vec<Name>>,
    action: FolderAction,
) -> Option<Result<(), Error>> {
    match action {
        FolderAction::RemoveLog(number) => {
            Some(remove(folder, listed, |it| it == Name::Log(number)))
        }
        FolderAction::RemoveBase(number) => Some(remove(folder, listed, |it| {
            it.checkpoint().is_some_and(|(it, ..)| it == number)
        })),
        _ => None,
    }
}

/// Removes the run files that a machine says may go.
pub(crate) fn remove_runs(
    folder: &dyn Folder,
    next_removal: impl Fn(u64) -> RunFolderAction,
    listed: &mut Option<Vec<Name>>,
) -> Result<(), Error> {
    remove(folder, listed, |name| match name {
        Name::Run(number) => next_removal(number) == RunFolderAction::RemoveRun(number),
        _ => false,
    })
}

/// Removes files that are listed, if they are there yet. The names are read once.
pub(crate) fn remove(
    folder: &dyn Folder,
    listed: &mut Option<Vec<Name>>,
    is_asked: impl Fn(Name) -> bool,
) -> Result<(), Error> {
    let names = match listed {
        Some(names) => names,
        None => {
            let texts = folder.names().map_err(Error::of_file(""))?;
            listed.insert(texts.iter().filter_map(|text| Name::of(text)).collect())
        }
    };
    while let Some(place) = names.iter().position(|name| is_asked(*name)) {
        let text = names[place].text();
        match folder.remove(&text) {
            Err(error) if error.kind() == ErrorKind::NotFound => {}
            outcome => outcome.map_err(Error::of_file(&text))?,
        }
        names.swap_remove(place);
    }
    Ok(())
}
