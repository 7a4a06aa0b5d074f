//! [`RunFolderMachine`]: what is done next to the files of a folder whose checkpoints are lists of run files; and [`next_run`].

use crate::folder::{action_of, expect, FolderAction, FolderMachine};
use crate::sys;

/// A file operation that a machine of run files asks for.
#[derive(Clone, Copy, Debug, PartialEq, Eq)]
pub enum RunFolderAction {
    /// An operation of the folder's machine. A base is a list there: the file that names its runs.
    OfFolder(FolderAction),
    /// Writes the run of a number to a new file.
    WriteRun(u64),
    /// Syncs the file of that run.
    SyncRun(u64),
    /// Reads the newest list and its runs, and compares their checksums.
    ReadBack,
    /// Removes the run of a number, if it is there.
    RemoveRun(u64),
}

/// The reason why a folder's runs can't be continued.
#[derive(Clone, Copy, Debug, PartialEq, Eq)]
pub enum RunFolderFault {
    /// A run of the list, with this number, isn't in the folder.
    Missing(u64),
    /// A run has the greatest number, so that none is left for the next one.
    Spent,
}

/// Returns the number of the next run of a folder that lists some run files, in any order, and whose newest list names some runs.
///
/// # Errors
///
/// [`RunFolderFault`].
pub fn next_run(named: &[u64], listed: &[u64]) -> Result<u64, RunFolderFault> {
    let (mut next, mut missing) = (0, 0);
    expect(unsafe {
        sys::ucstore_run_folder_find(
            named.as_ptr(),
            named.len(),
            listed.as_ptr(),
            listed.len(),
            &mut next,
            &mut missing,
        )
    });
    match (next, missing) {
        (0, 0) => Err(RunFolderFault::Spent),
        (0, number) => Err(RunFolderFault::Missing(number)),
        (next, _) => Ok(next),
    }
}

/// The machine of a folder whose checkpoints are lists of run files, around the folder's own machine. Runs are written once, each to a file
/// of its number; a list names those of a checkpoint. Its caller does each operation, and reports whether it was done.
#[derive(Debug)]
pub struct RunFolderMachine {
    folder: FolderMachine,
    runs: sys::ucstore_run_folder_state,
}

impl RunFolderMachine {
    /// The machine of a folder whose own machine was opened, and whose next run has a number from [`next_run`].
    pub fn open(folder: FolderMachine, next: u64) -> RunFolderMachine {
        let mut runs = sys::ucstore_run_folder_state::default();
        expect(unsafe { sys::ucstore_run_folder_open(folder.state(), next, &mut runs) });
        RunFolderMachine { folder, runs }
    }

    /// Returns the folder's machine, for its numbers.
    pub fn folder(&self) -> &FolderMachine {
        &self.folder
    }

    /// Returns the folder's machine, for the writer, the next log and the sync. Its checkpointer is asked by this machine alone.
    pub fn folder_mut(&mut self) -> &mut FolderMachine {
        &mut self.folder
    }

    /// Returns the number of the next run.
    pub fn next_run(&self) -> u64 {
        self.runs.next
    }

    /// Returns whether the newest list was read back with its runs.
    pub fn is_read_back(&self) -> bool {
        self.runs.is_read
    }

    /// Returns the checkpointer's next operation. Nothing is removed before [`ReadBack`](RunFolderAction::ReadBack) is reported as done.
    pub fn next_checkpoint(&self) -> RunFolderAction {
        let mut step = sys::ucstore_folder_step::default();
        expect(unsafe {
            sys::ucstore_run_folder_next_checkpoint(self.folder.state(), &self.runs, &mut step)
        });
        run_action_of(step)
    }

    /// Reports whether it was done. The number of a run that failed isn't used again.
    pub fn told_checkpoint(&mut self, is_done: bool) {
        expect(unsafe {
            sys::ucstore_run_folder_told_checkpoint(
                self.folder.state_mut(),
                &mut self.runs,
                is_done,
            )
        });
    }

    /// Asks for a list of the logs before a number, and of the first `past` batches of the log of that number. It names the runs `kept`, each
    /// of which is one of the newest list's (`named`), and `count` new ones, with the numbers from [`next_run`](Self::next_run) on.
    /// Nothing changes if this isn't possible now.
    pub fn ask_checkpoint(
        &mut self,
        number: u64,
        past: u64,
        kept: &[u64],
        named: &[u64],
        count: u64,
    ) {
        expect(unsafe {
            sys::ucstore_run_folder_ask_checkpoint(
                self.folder.state(),
                &mut self.runs,
                number,
                past,
                kept.as_ptr(),
                kept.len(),
                named.as_ptr(),
                named.len(),
                count,
            )
        });
    }

    /// Returns the operation that removes a run, if the newest list, which names the runs `named`, was read back, is the only one that can be
    /// read, and doesn't name it. Otherwise there is nothing to do.
    pub fn next_removal(&self, run: u64, named: &[u64]) -> RunFolderAction {
        let mut step = sys::ucstore_folder_step::default();
        expect(unsafe {
            sys::ucstore_run_folder_next_removal(
                self.folder.state(),
                &self.runs,
                run,
                named.as_ptr(),
                named.len(),
                &mut step,
            )
        });
        run_action_of(step)
    }
}

/// The operation of a step.
fn run_action_of(step: sys::ucstore_folder_step) -> RunFolderAction {
    match step.kind {
        15 => RunFolderAction::WriteRun(step.number),
        16 => RunFolderAction::SyncRun(step.number),
        17 => RunFolderAction::ReadBack,
        18 => RunFolderAction::RemoveRun(step.number),
        _ => RunFolderAction::OfFolder(action_of(step)),
    }
}
