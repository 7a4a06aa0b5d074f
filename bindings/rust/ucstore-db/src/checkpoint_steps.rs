//! The steps of a checkpoint: what the machine asks for, done to files.

use crate::base_file::Base;
use crate::checkpoint::{remove, remove_for, remove_runs, Begun};
use crate::error::Error;
use crate::event::Event;
use crate::folder::Folder;
use crate::lock;
use crate::name::Name;
use crate::partial::Partial;
use crate::recovery::damaged;
use crate::run_files::{check_length, PlannedRun, RunFiles, RunWriter};
use crate::run_list::RunList;
use crate::shared::Shared;
use crate::throttle::Throttle;
use std::sync::atomic::Ordering;
use std::time::Instant;
use ucstore::{FolderAction, Operator, RunFolderAction, View};

/// A checkpoint that is being written.
struct Steps<'a, C> {
    folder: &'a dyn Folder,
    view: &'a View,
    number: u64,
    /// The name that it gets.
    name: Name,
    operator: Operator,
    /// The runs of a list; none for a base.
    runs: Option<Vec<PlannedRun>>,
    throttle: Throttle,
    /// Fails once the database closes.
    check: C,
    /// The run that is written.
    run: Option<RunWriter<'a>>,
    /// The list, and its file until that has its name.
    list: Option<(RunList, Option<Partial<'a>>)>,
    base: Option<Base<'a>>,
    is_renamed: bool,
    /// The names of files, once some are removed.
    removal: Option<Vec<Name>>,
    /// The number of run files that were written, and the bytes of all files.
    written: u64,
    bytes: u64,
    /// The bytes of the run files that are kept.
    kept: u64,
}

impl Shared {
    /// Does what the machine asks for until a checkpoint is there, and what it has is removed elsewhere.
    pub(crate) fn write_checkpoint(
        &self,
        run_files: &mut RunFiles,
        begun: Begun,
        begun_at: Instant,
    ) -> Result<(), Error> {
        let outcome = self.write_steps(run_files, &begun, begun_at);
        if outcome.is_err() {
            // Runs that no list names take space. The next checkpoint removes those that can't be removed now.
            let _ = begun.remove_runs(run_files, &mut None);
        }
        outcome
    }

    fn write_steps(
        &self,
        run_files: &mut RunFiles,
        begun: &Begun,
        begun_at: Instant,
    ) -> Result<(), Error> {
        let mut steps = Steps::of(self, begun);
        let (mut is_there, mut is_told) = (false, false);
        loop {
            let action = lock(&begun.machine).next_checkpoint();
            let Some(outcome) = steps.act(action) else {
                break;
            };
            let are_named = action == RunFolderAction::OfFolder(FolderAction::SyncNames);
            // The machine begins no list while the writer cuts back or ends the log, which it does with `log` held.
            let log = (are_named && !steps.is_renamed).then(|| lock(&self.log));
            lock(&begun.machine).told_checkpoint(outcome.is_ok());
            drop(log);
            outcome?;
            if are_named && steps.is_renamed {
                is_there = true;
                *run_files = steps.run_files(begun.store);
            }
            if is_there && !is_told && lock(&begun.machine).is_read_back() {
                is_told = true;
                self.tell_checkpoint(begun, &steps, begun_at);
            }
        }
        if !is_told {
            // The log failed meanwhile.
            self.check()?;
            return Err(Error::Closed);
        }
        steps.clean_up()?;
        begun.remove_runs(run_files, &mut steps.removal)
    }

    /// Counts a checkpoint, from which on the logs before it aren't needed, and reports it.
    fn tell_checkpoint<C>(&self, begun: &Begun, steps: &Steps<'_, C>, begun_at: Instant) {
        let mut held = 0;
        if let Some(log) = &mut *lock(&self.log) {
            held = log.forget_before(begun.number, begun.last);
        }
        // A log of which it has a part stays, and counts for the next one without that part, at most.
        let due = held.saturating_add(self.options.checkpoint_least);
        self.checkpoint_due.store(due, Ordering::Relaxed);
        self.counts.checkpoints.add(1);
        self.counts.base_bytes.add(steps.bytes);
        self.counts.run_files.add(steps.written);
        self.counts.kept_bytes.add(steps.kept);
        self.events.push(Event::Checkpointed {
            file: steps.name.text(),
            bytes: steps.bytes,
            took: begun_at.elapsed(),
        });
    }
}

impl Begun {
    /// Removes the run files that the newest checkpoint doesn't name.
    fn remove_runs(
        &self,
        run_files: &RunFiles,
        listed: &mut Option<Vec<Name>>,
    ) -> Result<(), Error> {
        let next_removal = |run| lock(&self.machine).next_removal(run, &run_files.named);
        remove_runs(&*self.folder, next_removal, listed)
    }
}

impl<'a> Steps<'a, ()> {
    /// The steps of a checkpoint that the machine was asked for.
    fn of(
        shared: &'a Shared,
        begun: &'a Begun,
    ) -> Steps<'a, impl Fn() -> Result<(), Error> + use<'a>> {
        let kept = begun.runs.iter().flatten().filter_map(|run| run.file);
        Steps {
            folder: &*begun.folder,
            view: &begun.view,
            number: begun.number,
            name: match begun.runs {
                Some(_) => Name::List(begun.number, begun.last),
                None => Name::Base(begun.number, Some(begun.last)),
            },
            operator: shared.options.operator(),
            kept: kept.map(|file| file.size).sum(),
            runs: begun.runs.clone(),
            throttle: Throttle::new(shared.options.checkpoint_bytes_per_second),
            check: || match shared.is_closing.load(Ordering::Acquire) {
                true => Err(Error::Closed),
                false => Ok(()),
            },
            run: None,
            list: None,
            base: None,
            is_renamed: false,
            removal: None,
            written: 0,
            bytes: 0,
        }
    }
}

impl<C: Fn() -> Result<(), Error>> Steps<'_, C> {
    /// Does an operation; none if there is nothing to do.
    fn act(&mut self, action: RunFolderAction) -> Option<Result<(), Error>> {
        Some(match action {
            RunFolderAction::WriteRun(number) => self.write_run(number),
            RunFolderAction::SyncRun(_) => self.sync_run(),
            RunFolderAction::ReadBack => self.read_back(),
            RunFolderAction::OfFolder(action) => match action {
                FolderAction::WriteBase(..) => self.write_file(),
                FolderAction::SyncBase => self.sync_file(),
                FolderAction::NameBase(..) => self.rename(),
                FolderAction::SyncNames => self.folder.sync().map_err(Error::of_file("")),
                _ => return remove_for(self.folder, &mut self.removal, action),
            },
            RunFolderAction::RemoveRun(_) => return None,
        })
    }

    /// Writes the next run that has no file.
    fn write_run(&mut self, number: u64) -> Result<(), Error> {
        let mut runs = self.runs.iter().flatten();
        let run = runs.find(|run| run.file.is_none()).expect("a run is left");
        let run = run.of(self.view);
        let throttle = &mut self.throttle;
        self.run = Some(RunWriter::write(
            self.folder,
            number,
            &run,
            throttle,
            &self.check,
        )?);
        Ok(())
    }

    /// Syncs the run that was written, and reads it again: so no list names one that can't be read.
    fn sync_run(&mut self) -> Result<(), Error> {
        let run = self.run.take().expect("a run was written");
        let file = run.sync(&self.check)?;
        let mut runs = self.runs.iter_mut().flatten();
        let run = runs.find(|run| run.file.is_none()).expect("a run is left");
        run.file = Some(file);
        self.written += 1;
        self.bytes += file.size;
        Ok(())
    }

    /// Writes the list or the base under a temporary name.
    fn write_file(&mut self) -> Result<(), Error> {
        let Some(runs) = &self.runs else {
            let base = Base::write(self.folder, self.number, self.view, &self.check)?;
            self.bytes = base.length();
            self.base = Some(base);
            return Ok(());
        };
        let list = RunList {
            operator: self.operator,
            runs: runs.iter().filter_map(|run| run.file).collect(),
        };
        let mut file = Partial::create(self.folder, Name::NewList(self.number).text())?;
        let bytes = list.bytes();
        file.append(&bytes)?;
        self.bytes += bytes.len() as u64;
        self.list = Some((list, Some(file)));
        Ok(())
    }

    /// Syncs that file, and reads it again.
    fn sync_file(&mut self) -> Result<(), Error> {
        (self.check)()?;
        if let Some(base) = &mut self.base {
            base.sync(&self.check)?;
        }
        if let Some((list, Some(file))) = &mut self.list {
            file.sync()?;
            check_list(self.folder, Name::NewList(self.number), list)?;
        }
        Ok(())
    }

    /// Gives that file its name.
    fn rename(&mut self) -> Result<(), Error> {
        self.is_renamed = true;
        if let Some(base) = self.base.take() {
            base.rename()?;
        }
        if let Some(file) = self.list.as_mut().and_then(|(_, file)| file.take()) {
            file.rename(&self.name.text())?;
        }
        Ok(())
    }

    /// Checks that the list is read under its name as it was written, and that each run file is there. New files were read when they were
    /// synced, and kept ones by the checkpoint that wrote them, or by the opening.
    fn read_back(&self) -> Result<(), Error> {
        match &self.list {
            Some((list, _)) => {
                check_list(self.folder, self.name, list)?;
                let mut runs = list.runs.iter();
                runs.try_for_each(|run| check_length(self.folder, run))
            }
            None => {
                let text = self.name.text();
                let length = self.folder.length(&text).map_err(Error::of_file(&text))?;
                match length == self.bytes {
                    true => Ok(()),
                    false => Err(misread(self.name)),
                }
            }
        }
    }

    /// The run files that it names.
    fn run_files(&self, store: Option<u64>) -> RunFiles {
        RunFiles::written(self.runs.as_deref().unwrap_or_default(), store)
    }

    /// Removes files with temporary names, and checkpoints of the same number that have less.
    fn clean_up(&mut self) -> Result<(), Error> {
        let (number, place) = (self.number, self.name.checkpoint());
        remove(self.folder, &mut self.removal, |it| match it {
            Name::Partial(it) | Name::NewList(it) => it < number,
            it => it.checkpoint().is_some() && it.checkpoint() < place,
        })
    }
}

/// Checks that a list is read as it was written.
fn check_list(folder: &dyn Folder, name: Name, list: &RunList) -> Result<(), Error> {
    match RunList::read(folder, name)? == *list {
        true => Ok(()),
        false => Err(misread(name)),
    }
}

/// The error of a file that isn't read as it was written.
fn misread(name: Name) -> Error {
    damaged(name, 0, "what is read isn't what was written".into())
}
