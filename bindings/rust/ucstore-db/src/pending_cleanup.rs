//! [`PendingCleanup`]: the work that an opening leaves on a directory, before it is written to.

use crate::checkpoint::{remove, remove_for, remove_runs};
use crate::ending::{is_batch, Ending};
use crate::error::Error;
use crate::folder::Folder;
use crate::kept::{self, SetAside};
use crate::name::Name;
use crate::operator_file;
use crate::partial::Partial;
use crate::windows::Windows;
use ucstore::{
    FolderAction, FolderFiles, FolderMachine, Operator, RunFolderAction, RunFolderMachine,
};

/// The work that is done on a directory before it is written to: what the machine asks for of the files that were found.
pub(crate) struct PendingCleanup {
    /// The one to be named in a file.
    pub(crate) operator: Option<Operator>,
    /// The log that goes on, and the logs around it.
    pub(crate) found: FolderFiles,
    /// The number of batches of that log that are kept, and their size in bytes.
    pub(crate) batches: u64,
    pub(crate) length: u64,
    /// The end after that.
    pub(crate) ending: Ending,
    /// A log after it of which what is there is set aside.
    pub(crate) torn: Option<u64>,
    /// Whether what comes after is given up, whole batches too.
    pub(crate) gives_up: bool,
    /// The names of all files.
    pub(crate) names: Vec<Name>,
    /// The numbers of the run files that the newest checkpoint names.
    pub(crate) runs: Vec<u64>,
    /// The number of the next run file.
    pub(crate) next_run: u64,
}

impl PendingCleanup {
    /// The machine of the files that were found.
    pub(crate) fn machine(&self) -> RunFolderMachine {
        // Nothing is in an empty log that could be lost.
        let is_sealed =
            self.ending == Ending::Closed || self.ending == Ending::Whole && self.length == 0;
        let folder = FolderMachine::open(&self.found, self.batches, is_sealed);
        RunFolderMachine::open(folder, self.next_run)
    }

    /// Does what the machine asks for until batches may be appended. Returns what was set aside. If it fails it may be done again, with a
    /// new machine.
    pub(crate) fn finish(
        &self,
        folder: &dyn Folder,
        machine: &mut RunFolderMachine,
    ) -> Result<Option<SetAside>, Error> {
        if let Some(operator) = self.operator {
            operator_file::write(folder, operator)?;
        }
        if self.gives_up {
            self.give_up(folder)?;
        }
        let set_aside = self.write_all(folder, machine.folder_mut())?;
        let mut names = Some(self.names.clone());
        while let RunFolderAction::OfFolder(action) = machine.next_checkpoint() {
            let Some(outcome) = remove_for(folder, &mut names, action) else {
                break;
            };
            machine.told_checkpoint(outcome.is_ok());
            outcome?;
        }
        // Files with temporary names, and checkpoints of the newest one's number that have less.
        let newest = Name::newest(self.names.iter().copied()).and_then(Name::checkpoint);
        let number = self.found.base;
        remove(folder, &mut names, |name| match name {
            Name::Log(_) | Name::Lost(..) | Name::Run(_) => false,
            Name::Base(..) | Name::List(..) => {
                let place = name.checkpoint();
                place.is_some_and(|(it, ..)| it == number) && place < newest
            }
            _ => true,
        })?;
        let next_removal = |run| machine.next_removal(run, &self.runs);
        remove_runs(folder, next_removal, &mut names)?;
        Ok(set_aside)
    }

    /// Gives up the batches of the logs after the one that goes on, the last first: for each a machine keeps none of them. A log that
    /// has none is left to the next machine.
    fn give_up(&self, folder: &dyn Folder) -> Result<(), Error> {
        // Another attempt may have removed some.
        let texts = folder.names().map_err(Error::of_file(""))?;
        let numbers = texts.iter().filter_map(|text| match Name::of(text) {
            Some(Name::Log(number)) if number > self.found.log => Some(number),
            _ => None,
        });
        let mut later = Vec::from_iter(numbers);
        later.sort_unstable();
        for number in later.into_iter().rev() {
            if is_batch(&mut Windows::of(folder, Name::Log(number))?, 0)? {
                let files = FolderFiles {
                    log: number,
                    is_there: true,
                    ..self.found
                };
                self.write_all(folder, &mut FolderMachine::open(&files, 0, false))?;
            }
        }
        Ok(())
    }

    /// Does the operations of a machine's writer, until batches may be appended. Returns what was set aside.
    fn write_all(
        &self,
        folder: &dyn Folder,
        machine: &mut FolderMachine,
    ) -> Result<Option<SetAside>, Error> {
        let (mut set_aside, mut copy) = (None, None);
        loop {
            let action = machine.next_write();
            if action == FolderAction::Nothing {
                return Ok(set_aside);
            }
            let outcome = self.write(folder, action, &mut set_aside, &mut copy);
            machine.told_write(outcome.is_ok());
            outcome?;
        }
    }

    /// Does an operation of the writer.
    fn write<'a>(
        &self,
        folder: &'a dyn Folder,
        action: FolderAction,
        set_aside: &mut Option<SetAside>,
        copy: &mut Option<Partial<'a>>,
    ) -> Result<(), Error> {
        match action {
            FolderAction::CreateLog(number) => {
                let name = Name::Log(number).text();
                folder.create(&name).map_err(Error::of_file(&name))?;
            }
            FolderAction::SyncNames => folder.sync().map_err(Error::of_file(""))?,
            FolderAction::RemoveLog(number) => {
                if self.torn == Some(number) {
                    *set_aside = kept::set_aside(folder, number, 0)?;
                }
                let mut names = Some(self.names.clone());
                remove(folder, &mut names, |name| name == Name::Log(number))?;
            }
            FolderAction::SetAside(number) if matches!(self.ending, Ending::Left(..)) => {
                *set_aside = kept::set_aside(folder, number, self.length)?;
            }
            FolderAction::CopyLog(number, _) => {
                let is_kept = number == self.found.log;
                let length = if is_kept { self.length } else { 0 };
                *copy = Some(kept::copy_of(folder, number, length)?);
            }
            FolderAction::SyncCopy => {
                if let Some(copy) = copy {
                    copy.sync()?;
                }
            }
            FolderAction::NameCopy(number) => {
                if let Some(copy) = copy.take() {
                    copy.rename(&Name::Log(number).text())?;
                }
            }
            _ => {}
        }
        Ok(())
    }
}
