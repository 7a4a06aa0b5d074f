//! [`Recovery`]: a database as its folder has it.

use crate::counts::Counts;
use crate::ending::{ending_of, is_batch, Ending};
use crate::error::Error;
use crate::folder::Folder;
use crate::follower::Place;
use crate::kept::SetAside;
use crate::log::{Log, Older};
use crate::name::Name;
use crate::operator_file;
use crate::options::Options;
use crate::pending_cleanup::PendingCleanup;
use crate::reading::Reading;
use crate::recovery_target::RecoveryTarget;
use crate::replay::{Begin, Replay};
use crate::run_files::{self, RunFiles};
use crate::run_list::{ListedRun, RunList};
use crate::run_loading::add_runs;
use crate::settle::settle;
use crate::windows::Windows;
use std::mem;
use std::sync::Arc;
use ucstore::{
    next_run, FolderFiles, ListedBase, ListedLog, MissingLog, Operator, RunFolderFault, Store, View,
};

/// The files of a folder.
struct Files {
    /// In their order.
    names: Vec<Name>,
    bases: Vec<ListedBase>,
    /// In the order of their numbers.
    logs: Vec<ListedLog>,
    /// The files that an opening reads, given the logs that are known to be used.
    found: FolderFiles,
    /// The newest one.
    base: Option<Name>,
    /// Whether one names the operator.
    has_operator: bool,
}

/// A store as its folder has it. Nothing is changed there before [`Recovery::into_log`].
pub(crate) struct Recovery {
    store: Store,
    /// The damage after which nothing was read.
    pub(crate) fault: Option<Error>,
    operator: Operator,
    files: Files,
    target: RecoveryTarget,
    /// Whether what wasn't read is given up.
    is_enough: bool,
    /// The last log that has batches.
    number: u64,
    /// The sequence before its first one.
    before: u64,
    /// The number of its batches, and where they end.
    batches: u64,
    length: u64,
    /// The end after them.
    ending: Ending,
    /// A log after it that has no batch, but part of one.
    torn: Option<u64>,
    /// The logs before it.
    older: Vec<Older>,
    /// The last sequence of the checkpoint.
    based: u64,
    /// Where the next log begins.
    begin: Begin,
    /// The list that the newest checkpoint is.
    list: Option<RunList>,
    /// The number of the next run file.
    next_run: u64,
    /// The run files that were read, with the IDs of their runs.
    run_files: Vec<(u64, ListedRun)>,
}

/// The result of an opening.
pub(crate) struct Opened {
    pub(crate) store: Store,
    /// The snapshots at the marks.
    pub(crate) marks: Vec<View>,
    pub(crate) set_aside: Option<SetAside>,
    pub(crate) run_files: RunFiles,
}

impl Files {
    /// Finds the newest checkpoint, by the names alone. Of no log it is known that it is used.
    fn of(folder: &dyn Folder) -> Result<Files, Error> {
        let texts = folder.names().map_err(Error::of_file(""))?;
        let has_operator = texts.iter().any(|text| text == operator_file::OPERATOR);
        let mut names = Vec::from_iter(texts.iter().filter_map(|text| Name::of(text)));
        names.sort();
        let bases = Vec::from_iter(names.iter().filter_map(listed_base));
        let logs = Vec::from_iter(names.iter().filter_map(|name| match *name {
            Name::Log(number) => Some(ListedLog {
                number,
                is_used: false,
            }),
            _ => None,
        }));
        let found = find(&bases, &logs)?;
        let newest = ListedBase {
            number: found.base,
            past: found.past,
        };
        let are_newest = names
            .iter()
            .filter(|name| listed_base(name) == Some(newest));
        let base = Name::newest(are_newest.copied());
        if base.is_some() && !found.is_there {
            // A log is made before the checkpoint of its number.
            return Err(missing(found.log));
        }
        Ok(Files {
            names,
            bases,
            logs,
            found,
            base,
            has_operator,
        })
    }

    /// The numbers of the logs that aren't older than the checkpoint.
    fn logs(&self) -> Vec<u64> {
        let numbers = self.logs.iter().map(|log| log.number);
        numbers
            .filter(|number| *number >= self.found.base)
            .collect()
    }

    /// The names of those that may be read, if the newest checkpoint names some runs.
    fn names<'a>(&'a self, list: Option<&'a RunList>) -> impl Iterator<Item = Name> + 'a {
        let runs = list.into_iter().flat_map(|list| &list.runs);
        let runs = runs.map(|run| Name::Run(run.number));
        let logs = self.logs().into_iter().map(Name::Log);
        self.base.into_iter().chain(runs).chain(logs)
    }

    /// The numbers of all run files.
    fn runs(&self) -> Vec<u64> {
        let runs = self.names.iter().filter_map(|name| match *name {
            Name::Run(number) => Some(number),
            _ => None,
        });
        runs.collect()
    }

    /// Notes that a log is used.
    fn use_log(&mut self, number: u64) {
        for log in self.logs.iter_mut().filter(|log| log.number == number) {
            log.is_used = true;
        }
    }
}

/// A checkpoint as it is listed. One of an older version, whose name has no sequence, comes before the others of its number.
fn listed_base(name: &Name) -> Option<ListedBase> {
    let (number, sequence, _) = name.checkpoint()?;
    Some(ListedBase {
        number,
        past: sequence.map_or(0, |sequence| sequence.saturating_add(1)),
    })
}

/// The files that are read of those that are listed.
fn find(bases: &[ListedBase], logs: &[ListedLog]) -> Result<FolderFiles, Error> {
    FolderFiles::find(bases, logs).map_err(|MissingLog(number)| missing(number))
}

impl Recovery {
    /// Reads a folder.
    pub(crate) fn read(folder: &dyn Folder, options: &Options) -> Result<Recovery, Error> {
        let files = Files::of(folder)?;
        if options.must_exist && files.base.is_none() && files.logs.is_empty() {
            return Err(missing(1));
        }
        let mut recovery = Recovery {
            store: Store::create(options.operator(), &options.to_store())?,
            fault: None,
            operator: options.operator(),
            target: RecoveryTarget::of(options),
            is_enough: false,
            number: files.found.base,
            files,
            before: 0,
            batches: 0,
            length: 0,
            ending: Ending::Whole,
            torn: None,
            older: vec![],
            based: 0,
            begin: Begin::Behind,
            list: None,
            next_run: 1,
            run_files: vec![],
        };
        recovery.judge(recovery.check_operator(folder), options)?;
        let outcome = recovery.read_all(folder, options);
        recovery.judge(outcome, options)?;
        Ok(recovery)
    }

    /// Reads a folder that an owner may change meanwhile.
    pub(crate) fn read_beside(folder: &dyn Folder, options: &Options) -> Result<Recovery, Error> {
        let whole = Options {
            recover_to_fault: false,
            ..options.clone()
        };
        match settle(folder, || Recovery::read(folder, &whole)) {
            Err(Error::Damaged { .. }) if options.recover_to_fault => {
                Recovery::read(folder, options)
            }
            outcome => outcome,
        }
    }

    /// Takes damage for the end of what is read, if the options say so.
    fn judge(&mut self, outcome: Result<(), Error>, options: &Options) -> Result<(), Error> {
        match outcome {
            Err(fault @ Error::Damaged { .. }) if options.recover_to_fault => {
                self.fault.get_or_insert(fault);
                Ok(())
            }
            outcome => outcome,
        }
    }

    /// Checks that the folder was made with the operator, if it names one.
    fn check_operator(&self, folder: &dyn Folder) -> Result<(), Error> {
        if !self.files.has_operator {
            return Ok(());
        }
        operator_file::check(folder, self.operator)
    }

    /// Reads the list if the newest checkpoint is one, and then all files.
    fn read_all(&mut self, folder: &dyn Folder, options: &Options) -> Result<(), Error> {
        if let Some(name @ Name::List(..)) = self.files.base {
            let list = RunList::read(folder, name)?;
            if list.operator != self.operator {
                return Err(Error::OtherOperator {
                    made: list.operator,
                    asked: self.operator,
                });
            }
            self.list = Some(list);
        }
        let named = self.list.as_ref().map(RunList::numbers);
        let next = next_run(&named.unwrap_or_default(), &self.files.runs());
        self.next_run = next.map_err(|fault| match fault {
            RunFolderFault::Missing(number) => run_files::missing(number),
            RunFolderFault::Spent => ucstore::Error::IdsSpent.into(),
        })?;
        let names = self.files.names(self.list.as_ref());
        let mut reading = Reading::of(folder, names, &options.progress)?;
        self.replay_all(folder, &mut reading)
    }

    /// Writes what the files have to the store, up to the first fault, or to where the options say. The checkpoint and all logs but the
    /// last one that has bytes have to be whole.
    fn replay_all(&mut self, folder: &dyn Folder, reading: &mut Reading) -> Result<(), Error> {
        let mut name = Name::Log(self.number);
        if let Some(base @ Name::Base(_, sequence)) = self.files.base {
            name = base;
            self.replay_base(name, &mut Windows::of(folder, name)?, sequence, reading)?;
        } else if let (Some(base), Some(list)) = (self.files.base, self.list.take()) {
            name = base;
            self.add_runs(folder, name, &list, reading)?;
            self.list = Some(list);
        }
        self.target.begin(Name::Log(self.number));
        for (number, wanted) in self.files.logs().into_iter().zip(self.number..) {
            let mut windows = Windows::of(folder, Name::Log(number))?;
            if self.is_enough {
                self.target
                    .check_given_up(Name::Log(number), &mut windows)?;
            } else if number != wanted {
                // One is missing. That matters if one after it has a batch.
                if is_batch(&mut windows, 0)? {
                    self.files.use_log(number);
                }
            } else if windows.length() > 0 {
                self.check_whole(name)?;
                name = Name::Log(number);
                self.go_on(number);
                self.replay(name, &mut windows, reading)?;
                if self.length > 0 {
                    self.files.use_log(number);
                }
                if self.is_enough {
                    self.target.check_given_up(name, &mut windows)?;
                }
            }
        }
        self.files.found = find(&self.files.bases, &self.files.logs)?;
        self.target.finish(&self.store, self.length)?;
        self.go_back();
        Ok(())
    }

    /// Goes back from logs without a batch to the log that goes on.
    fn go_back(&mut self) {
        while self.number > self.files.found.log {
            if let Ending::Left(..) = self.ending {
                self.torn = Some(self.number);
            }
            let Some(log) = self.older.pop() else {
                break;
            };
            (self.number, self.before) = (log.number, log.before);
            (self.batches, self.length) = (log.batches, log.length);
            self.ending = Ending::Whole;
        }
    }

    /// Writes what a base has to the store. Its last sequence is the one that its name has.
    fn replay_base(
        &mut self,
        name: Name,
        base: &mut Windows,
        sequence: Option<u64>,
        reading: &mut Reading,
    ) -> Result<(), Error> {
        let target = mem::replace(&mut self.target, RecoveryTarget::none());
        self.replay(name, base, reading)?;
        self.target = target;
        self.check_whole(name)?;
        self.based = self.store.last();
        if let Some(sequence) = sequence.filter(|sequence| *sequence != self.based) {
            return Err(Error::Damaged {
                file: name.text(),
                offset: self.length,
                fault: format!("it ends at sequence {}, and not at {sequence}", self.based),
            });
        }
        let begin = match sequence {
            Some(_) => Begin::InBase,
            None => Begin::Anywhere,
        };
        self.begin_logs(name, self.length, begin)
    }

    /// Adds the runs of a list to the store, which ends where its name says then.
    fn add_runs(
        &mut self,
        folder: &dyn Folder,
        name: Name,
        list: &RunList,
        reading: &mut Reading,
    ) -> Result<(), Error> {
        let length = list.bytes().len() as u64;
        reading.end(name, length);
        let tell = |run: &ListedRun| reading.end(Name::Run(run.number), run.size);
        self.run_files = add_runs(folder, list, &self.store, tell)?;
        self.based = self.store.last();
        if self.based != list.last() {
            let fault = format!("its runs end at sequence {}", self.based);
            return Err(damaged(name, 0, fault));
        }
        self.begin_logs(name, length, Begin::InBase)
    }

    /// Goes on to the logs after a checkpoint of a length.
    fn begin_logs(&mut self, name: Name, length: u64, begin: Begin) -> Result<(), Error> {
        self.target.begin(name);
        // Where the log goes on is found there, also if nothing of it is read.
        self.target.reach(&self.store, length)?;
        self.before = self.based;
        (self.batches, self.length) = (0, 0);
        self.begin = begin;
        Ok(())
    }

    /// Goes on with a log that has bytes.
    fn go_on(&mut self, number: u64) {
        if number != self.number {
            self.older.push(Older {
                number: self.number,
                before: self.before,
                batches: self.batches,
                length: self.length,
            });
            self.number = number;
            self.before = self.store.last();
        }
    }

    /// Writes what a file has to the store, up to its first fault.
    fn replay(
        &mut self,
        name: Name,
        windows: &mut Windows,
        reading: &mut Reading,
    ) -> Result<(), Error> {
        let begin = mem::replace(&mut self.begin, Begin::Behind);
        self.target.begin(name);
        let tell = |offset| reading.tell(name, offset);
        let replay = Replay::of(&self.store, windows, begin, &mut self.target, tell)?;
        reading.end(name, windows.length());
        (self.batches, self.length) = (replay.batches, replay.end);
        self.is_enough = replay.is_enough();
        self.ending = ending_of(name, windows, &replay, self.store.last())?;
        match self.ending.clone() {
            Ending::Damaged(offset, fault) => Err(damaged(name, offset, fault)),
            _ => Ok(()),
        }
    }

    /// Checks that nothing was left after the batches of the file that was read last.
    fn check_whole(&self, name: Name) -> Result<(), Error> {
        match self.ending.clone() {
            Ending::Left(offset, fault) => Err(damaged(name, offset, fault)),
            _ => Ok(()),
        }
    }

    /// The place after the last batch.
    pub(crate) fn place(&self) -> Place {
        Place::of(self.number, self.length)
    }

    /// The store, and its snapshots at the marks.
    pub(crate) fn into_store(self) -> (Store, Vec<View>) {
        (self.store, self.target.marks)
    }

    /// The store, its snapshots at the marks, the log that goes on, and what was set aside. The folder is made ready for writes: what a
    /// crash left is cut off, and what isn't needed removed. For a part of something greater that waits for the first write.
    pub(crate) fn into_log(
        self,
        folder: Arc<dyn Folder>,
        is_part: bool,
        counts: &Arc<Counts>,
    ) -> Result<(Opened, Log), Error> {
        let is_new = !self.files.found.is_there;
        let cleanup = PendingCleanup {
            operator: (!self.files.has_operator).then_some(self.operator),
            found: self.files.found,
            batches: self.batches,
            length: self.length,
            ending: self.ending,
            torn: self.torn,
            gives_up: self.is_enough,
            names: self.files.names,
            runs: self.list.as_ref().map_or(vec![], RunList::numbers),
            next_run: self.next_run,
        };
        let last = Older {
            number: self.number,
            before: self.before,
            batches: self.batches,
            length: self.length,
        };
        let (older, based) = (self.older, self.based);
        let mut log = Log::of(folder, last, older, based, cleanup, is_part, counts);
        let mut set_aside = None;
        if is_new || !is_part {
            set_aside = log.finish_cleanup()?;
        }
        let opened = Opened {
            store: self.store,
            marks: self.target.marks,
            set_aside,
            run_files: RunFiles::opened(self.run_files),
        };
        Ok((opened, log))
    }
}

/// The error of a log that is missing.
fn missing(number: u64) -> Error {
    Error::Missing {
        file: Name::Log(number).text(),
    }
}

/// The error of a damaged file.
pub(crate) fn damaged(name: Name, offset: u64, fault: String) -> Error {
    Error::Damaged {
        file: name.text(),
        offset,
        fault,
    }
}
