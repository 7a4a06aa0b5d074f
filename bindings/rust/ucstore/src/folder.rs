//! [`FolderFiles`]: the files of a database's folder that an opening reads; and [`FolderMachine`], which says what is done to them next.

use crate::sys;

/// A base that a folder lists.
#[derive(Clone, Copy, Debug, PartialEq, Eq)]
pub struct ListedBase {
    /// Its number.
    pub number: u64,
    /// The number of batches that it has of the log of that number. Any numbers serve that are in the same order.
    pub past: u64,
}

/// A log that a folder lists.
#[derive(Clone, Copy, Debug, PartialEq, Eq)]
pub struct ListedLog {
    /// Its number.
    pub number: u64,
    /// Whether a whole batch is at its start.
    pub is_used: bool,
}

/// The files that an opening reads: the newest base, and the logs from its number to the one that goes on.
#[derive(Clone, Copy, Debug, PartialEq, Eq)]
pub struct FolderFiles {
    /// The number of the newest base; 1 if there is none.
    pub base: u64,
    /// The number of batches that it has of the log of that number; 0 if there is none.
    pub past: u64,
    /// The least number of a log or a base. Those below the newest base may be removed.
    pub least: u64,
    /// The number of the log that goes on: the last one that is used, and not below the base.
    pub log: u64,
    /// The greatest number of a log. Those after the one that goes on may be removed.
    pub top: u64,
    /// Whether the log that goes on is listed.
    pub is_there: bool,
}

/// The number of a log that is missing between the newest base and the last log.
#[derive(Clone, Copy, Debug, PartialEq, Eq)]
pub struct MissingLog(pub u64);

/// A file operation that a machine asks for.
#[derive(Clone, Copy, Debug, PartialEq, Eq)]
pub enum FolderAction {
    /// There is nothing to do.
    Nothing,
    /// Creates the log of a number, without bytes.
    CreateLog(u64),
    /// Appends the batch to the log of a number, with a mark of the number of its batches that are durable.
    Append(u64, u64),
    /// Syncs the log of a number, which had a number of batches when this was asked for.
    SyncLog(u64, u64),
    /// Truncates the log of a number after its first `batches`, and syncs it.
    CutLog(u64, u64),
    /// Syncs the directory.
    SyncNames,
    /// Keeps the bytes after the batches of a log in a file that nothing reads.
    SetAside(u64),
    /// Writes the first batches of a log, as many as given, to a new file with a temporary name.
    CopyLog(u64, u64),
    /// Syncs that file.
    SyncCopy,
    /// Renames it to the log of a number.
    NameCopy(u64),
    /// Writes the rows of the logs before a number, and of the first batches of the log of that number, to a new file.
    WriteBase(u64, u64),
    /// Syncs that file.
    SyncBase,
    /// Renames it to such a base.
    NameBase(u64, u64),
    /// Removes the log of a number, if it is there.
    RemoveLog(u64),
    /// Removes the bases of a number, if there are any.
    RemoveBase(u64),
}

/// The machine of a folder: it says which file operation comes next, so that a crash at any moment loses nothing that was acknowledged.
/// Its caller does the operation, and tells whether it was done. One that failed in any way is told as not done.
#[derive(Debug)]
pub struct FolderMachine(sys::ucstore_folder_state);

impl FolderMachine {
    /// The machine of a folder in which some files were found. Of the log that goes on it keeps a number of batches, no fewer than a base
    /// has, and gives up those after them. That log is sealed if all of it is kept and durable: then it isn't copied.
    pub fn open(files: &FolderFiles, count: u64, is_sealed: bool) -> FolderMachine {
        let found = sys::ucstore_folder_found {
            base: files.base,
            past: files.past,
            least: files.least,
            log: files.log,
            top: files.top,
            is_there: files.is_there,
        };
        let mut state = sys::ucstore_folder_state::default();
        expect(unsafe { sys::ucstore_folder_open(&found, count, is_sealed, &mut state) });
        FolderMachine(state)
    }

    /// Returns the number of the log that is written.
    pub fn log(&self) -> u64 {
        self.0.log
    }

    /// Returns the number of batches that it has.
    pub fn count(&self) -> u64 {
        self.0.count
    }

    /// Returns how many of these may be acknowledged as synced. All batches of older logs may.
    pub fn synced(&self) -> u64 {
        self.0.synced
    }

    /// Returns the writer's next operation.
    pub fn next_write(&self) -> FolderAction {
        self.next(sys::ucstore_folder_next_write)
    }

    /// Tells whether it was done.
    pub fn told_write(&mut self, is_done: bool) {
        expect(unsafe { sys::ucstore_folder_told_write(&mut self.0, is_done) });
    }

    /// Returns the operation by which the next log is made, while batches are appended to this one.
    pub fn next_make(&self) -> FolderAction {
        self.next(sys::ucstore_folder_next_make)
    }

    /// Tells whether it was done.
    pub fn told_make(&mut self, is_done: bool) {
        expect(unsafe { sys::ucstore_folder_told_make(&mut self.0, is_done) });
    }

    /// Returns the sync of the log that is under way. A batch may be appended beside it.
    pub fn next_sync(&self) -> FolderAction {
        self.next(sys::ucstore_folder_next_sync)
    }

    /// Tells whether it was done.
    pub fn told_sync(&mut self, is_done: bool) {
        expect(unsafe { sys::ucstore_folder_told_sync(&mut self.0, is_done) });
    }

    /// Returns the checkpointer's next operation.
    pub fn next_checkpoint(&self) -> FolderAction {
        self.next(sys::ucstore_folder_next_checkpoint)
    }

    /// Tells whether it was done.
    pub fn told_checkpoint(&mut self, is_done: bool) {
        expect(unsafe { sys::ucstore_folder_told_checkpoint(&mut self.0, is_done) });
    }

    /// Asks for an append of a batch.
    pub fn submit(&mut self) {
        expect(unsafe { sys::ucstore_folder_submit(&mut self.0) });
    }

    /// Asks for an append of a batch, and returns the writer's next operation.
    pub fn append(&mut self) -> FolderAction {
        let mut step = sys::ucstore_folder_step::default();
        expect(unsafe { sys::ucstore_folder_append(&mut self.0, &mut step) });
        action_of(step)
    }

    /// Asks for a sync of all that was appended. Nothing changes while a sync is under way.
    pub fn ask_sync(&mut self) {
        expect(unsafe { sys::ucstore_folder_ask_sync(&mut self.0) });
    }

    /// Asks for the next log.
    pub fn ask_next(&mut self) {
        expect(unsafe { sys::ucstore_folder_ask_next(&mut self.0) });
    }

    /// Asks to go on in the next log, once it is there.
    pub fn ask_switch(&mut self) {
        expect(unsafe { sys::ucstore_folder_ask_switch(&mut self.0) });
    }

    /// Asks for a base of the logs before a number, and of the first batches of the log of that number. Nothing changes if another base
    /// has as much.
    pub fn ask_checkpoint(&mut self, number: u64, past: u64) {
        expect(unsafe { sys::ucstore_folder_ask_checkpoint(&mut self.0, number, past) });
    }

    /// The numbers of the machine, for a call.
    pub(crate) fn state(&self) -> *const sys::ucstore_folder_state {
        &self.0
    }

    /// The numbers of the machine, for a call that changes them.
    pub(crate) fn state_mut(&mut self) -> *mut sys::ucstore_folder_state {
        &mut self.0
    }

    /// The operation that a function of the library tells.
    fn next(
        &self,
        of: unsafe extern "C" fn(
            *const sys::ucstore_folder_state,
            *mut sys::ucstore_folder_step,
        ) -> i32,
    ) -> FolderAction {
        let mut step = sys::ucstore_folder_step::default();
        expect(unsafe { of(&self.0, &mut step) });
        action_of(step)
    }
}

/// The operation of a step.
pub(crate) fn action_of(step: sys::ucstore_folder_step) -> FolderAction {
    let (number, count) = (step.number, step.count);
    match step.kind {
        0 => FolderAction::Nothing,
        1 => FolderAction::CreateLog(number),
        2 => FolderAction::Append(number, count),
        3 => FolderAction::SyncLog(number, count),
        4 => FolderAction::CutLog(number, count),
        5 => FolderAction::SyncNames,
        6 => FolderAction::SetAside(number),
        7 => FolderAction::CopyLog(number, count),
        8 => FolderAction::SyncCopy,
        9 => FolderAction::NameCopy(number),
        10 => FolderAction::WriteBase(number, count),
        11 => FolderAction::SyncBase,
        12 => FolderAction::NameBase(number, count),
        13 => FolderAction::RemoveLog(number),
        14 => FolderAction::RemoveBase(number),
        kind => panic!("the library has another version: it asks for operation {kind}"),
    }
}

/// Checks the status of a function of machines: theirs are always numbers of one.
pub(crate) fn expect(status: i32) {
    assert_eq!(status, sys::UCSTORE_OK, "the library has another version");
}

impl FolderFiles {
    /// Finds the files that an opening reads of a folder that lists some bases and logs.
    ///
    /// # Errors
    ///
    /// [`MissingLog`]: a log isn't listed, and a later one is used. It is the first one.
    pub fn find(bases: &[ListedBase], logs: &[ListedLog]) -> Result<FolderFiles, MissingLog> {
        let bases = Vec::from_iter(bases.iter().map(|base| sys::ucstore_folder_base {
            number: base.number,
            past: base.past,
        }));
        let logs = Vec::from_iter(logs.iter().map(|log| sys::ucstore_folder_listed {
            number: log.number,
            is_used: log.is_used,
        }));
        let mut found = sys::ucstore_folder_found::default();
        let mut missing = 0;
        let status = unsafe {
            sys::ucstore_folder_find(
                bases.as_ptr(),
                bases.len(),
                logs.as_ptr(),
                logs.len(),
                &mut found,
                &mut missing,
            )
        };
        match status {
            sys::UCSTORE_OK => Ok(FolderFiles {
                base: found.base,
                past: found.past,
                least: found.least,
                log: found.log,
                top: found.top,
                is_there: found.is_there,
            }),
            _ => Err(MissingLog(missing)),
        }
    }
}
