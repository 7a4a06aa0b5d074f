//! [`Log`]: the log that a database writes.

use crate::counts::Counts;
use crate::ending::Ending;
use crate::error::Error;
use crate::folder::{File, Folder};
use crate::kept::SetAside;
use crate::lock;
use crate::mark;
use crate::name::Name;
use crate::pending_cleanup::PendingCleanup;
use std::io;
use std::panic::{catch_unwind, AssertUnwindSafe};
use std::sync::{Arc, Mutex};
use std::time::Instant;
use ucstore::{FolderAction, RunFolderMachine};

/// A handle by which a log is synced while another one appends to it.
pub(crate) type SyncHandle = Arc<Mutex<Box<dyn File>>>;

/// The machine of a folder, which says what is done next. It outlives the log, for a checkpoint that is under way at a close.
pub(crate) type Machine = Arc<Mutex<RunFolderMachine>>;

/// The log that a database writes, and the folder that it is in. Its machine says what is done next, and what may be acknowledged.
pub(crate) struct Log {
    pub(crate) folder: Arc<dyn Folder>,
    pub(crate) machine: Machine,
    writer: Writer,
    /// There is one once it was needed.
    sync_handle: Option<SyncHandle>,
    /// The sequence before its first one.
    pub(crate) before: u64,
    /// Its size in bytes.
    pub(crate) length: u64,
    /// The number of them that are on the device for certain: those of the batches that the machine counts as synced.
    synced: u64,
    /// The number of bytes when the sync was asked for that is under way.
    asked: u64,
    /// The number of syncs that the machine was told of.
    told: u64,
    /// Whether a closing record stands after them, which goes before the next one is written.
    is_closed: bool,
    /// Whether another log says what was acknowledged. Then a close writes nothing: who was taken for dead may be closed late.
    is_part: bool,
    /// The logs before it that no checkpoint holds whole.
    older: Vec<Older>,
    /// The last sequence of the newest checkpoint.
    based: u64,
    counts: Arc<Counts>,
}

/// A log that isn't written any more.
pub(crate) struct Older {
    pub(crate) number: u64,
    /// The sequence before its first one.
    pub(crate) before: u64,
    /// The number of its batches.
    pub(crate) batches: u64,
    /// Its size in bytes.
    pub(crate) length: u64,
}

/// The writer of a log.
enum Writer {
    /// Nothing was written yet: this is done before.
    Pending(PendingCleanup),
    Ready(Box<dyn File>),
}

/// Why a record isn't in a log.
pub(crate) enum Refusal {
    /// The log is as it was, and goes on.
    Passes(Error),
    /// The contents of its file aren't known.
    Lasts(Error),
}

/// A sync of a log that is under way in a thread that doesn't lock it.
pub(crate) struct SyncApart {
    begun: Instant,
    number: u64,
    /// The number of syncs that the machine was told of before.
    told: u64,
}

impl Log {
    /// The last one of logs that are there, after a checkpoint that goes up to a sequence.
    pub(crate) fn of(
        folder: Arc<dyn Folder>,
        last: Older,
        older: Vec<Older>,
        based: u64,
        cleanup: PendingCleanup,
        is_part: bool,
        counts: &Arc<Counts>,
    ) -> Log {
        let log = Log {
            folder,
            machine: Arc::new(Mutex::new(cleanup.machine())),
            is_closed: cleanup.ending == Ending::Closed,
            is_part,
            writer: Writer::Pending(cleanup),
            sync_handle: None,
            before: last.before,
            length: last.length,
            // All is written anew before something is appended, unless it is on the device.
            synced: last.length,
            asked: last.length,
            told: 0,
            older,
            based,
            counts: Arc::clone(counts),
        };
        log.count_bytes();
        log
    }

    /// Its number.
    pub(crate) fn number(&self) -> u64 {
        lock(&self.machine).folder().log()
    }

    /// Counts the bytes of the logs for those who ask without the lock.
    fn count_bytes(&self) {
        self.counts.log_bytes.set(self.bytes());
    }

    /// Makes the folder ready for what is written next. Returns what is set aside.
    pub(crate) fn finish_cleanup(&mut self) -> Result<Option<SetAside>, Error> {
        let Writer::Pending(cleanup) = &self.writer else {
            return Ok(None);
        };
        // An attempt that failed before begins again.
        let mut machine = lock(&self.machine);
        *machine = cleanup.machine();
        let set_aside = cleanup.finish(&*self.folder, &mut machine)?;
        drop(machine);
        let name = Name::Log(self.number()).text();
        let file = self.folder.open(&name).map_err(Error::of_file(&name))?;
        self.writer = Writer::Ready(file);
        Ok(set_aside)
    }

    /// Appends a record, and waits until it is on the device if that is asked.
    pub(crate) fn append(&mut self, record: &[u8], is_synced: bool) -> Result<(), Refusal> {
        self.finish_cleanup().map_err(Refusal::Passes)?;
        self.reopen()?;
        self.append_whole(record)?;
        self.counts.logged_bytes.add(record.len() as u64);
        match is_synced {
            true => self.sync().map_err(Refusal::Lasts),
            false => Ok(()),
        }
    }

    /// Waits until all bytes are on the device.
    pub(crate) fn sync(&mut self) -> Result<(), Error> {
        while !self.is_synced() {
            if !self.is_syncing() {
                self.ask_sync();
            }
            if !self.is_syncing() {
                return Err(self.failed());
            }
            self.finish_sync()?;
        }
        Ok(())
    }

    /// Whether all of its batches may be acknowledged as synced. What an opening has read is answered as it was.
    fn is_synced(&self) -> bool {
        let machine = lock(&self.machine);
        matches!(self.writer, Writer::Pending(_))
            || machine.folder().synced() == machine.folder().count()
    }

    /// Whether a sync is under way.
    fn is_syncing(&self) -> bool {
        lock(&self.machine).folder().next_sync() != FolderAction::Nothing
    }

    /// The error that the machine does nothing any more.
    fn failed(&self) -> Error {
        refusal(self.number())(io::Error::other("an operation failed before"))
    }

    /// Asks the machine for a sync of all bytes.
    fn ask_sync(&mut self) {
        lock(&self.machine).folder_mut().ask_sync();
        self.asked = self.length;
    }

    /// Does the sync that is under way, if there is one, and tells the machine.
    fn finish_sync(&mut self) -> Result<(), Error> {
        if !self.is_syncing() {
            return Ok(());
        }
        let begun = Instant::now();
        let outcome = self.ask(|file| file.sync());
        self.tell_sync(begun, outcome)
    }

    /// Tells the machine how a sync went.
    fn tell_sync(&mut self, begun: Instant, outcome: Result<(), Error>) -> Result<(), Error> {
        lock(&self.machine).folder_mut().told_sync(outcome.is_ok());
        self.told += 1;
        outcome?;
        self.counts.add_sync(begun.elapsed());
        self.synced = self.asked;
        Ok(())
    }

    /// A handle of the log by which it is synced while it is appended to, if there is something to sync, and one can be had.
    pub(crate) fn sync_handle(&mut self) -> Option<SyncHandle> {
        if self.is_synced() {
            return None;
        }
        if self.sync_handle.is_none() {
            let opened = self.folder.open(&Name::Log(self.number()).text());
            self.sync_handle = opened.ok().map(|file| Arc::new(Mutex::new(file)));
        }
        self.sync_handle.clone()
    }

    /// Begins a sync of all bytes by a handle, which needs the log no more. There is none if the handle is of an older log, or nothing is
    /// left to sync.
    pub(crate) fn begin_sync(&mut self, handle: &SyncHandle) -> Option<SyncApart> {
        let own = self.sync_handle.as_ref();
        if self.is_synced() || !own.is_some_and(|own| Arc::ptr_eq(own, handle)) {
            return None;
        }
        self.ask_sync();
        self.is_syncing().then(|| SyncApart {
            begun: Instant::now(),
            number: self.number(),
            told: self.told,
        })
    }

    /// Notes how a sync went that was begun before. Another thread may have done it meanwhile.
    pub(crate) fn end_sync(
        &mut self,
        apart: &SyncApart,
        outcome: io::Result<()>,
    ) -> Result<(), Error> {
        let outcome = outcome.map_err(refusal(apart.number));
        match apart.told == self.told {
            true => self.tell_sync(apart.begun, outcome),
            false => outcome,
        }
    }

    /// The number of bytes that aren't known to be on the device.
    pub(crate) fn unsynced(&self) -> u64 {
        self.length - self.synced
    }

    /// Ends the log after a last sequence: a record says that all before it is on the device. So damage there is told from what a crash
    /// leaves, and the next opening needn't write the log anew.
    pub(crate) fn close(&mut self, last: u64) -> Result<(), Error> {
        self.sync()?;
        let is_written = matches!(self.writer, Writer::Ready(_)) && self.length > 0;
        if !is_written || self.is_closed || self.is_part {
            return Ok(());
        }
        let length = self.length;
        let record = mark::closing_record(length, last)?;
        if self.ask(|file| file.append(&record)).is_err() {
            // All that was acknowledged is there without it, as on a full device.
            return self.ask(|file| file.cut(length).and_then(|()| file.sync()));
        }
        self.ask(|file| file.sync())?;
        self.is_closed = true;
        Ok(())
    }

    /// The size of the logs that no checkpoint holds in bytes.
    pub(crate) fn bytes(&self) -> u64 {
        let older: u64 = self.older.iter().map(|log| log.length).sum();
        older + self.length
    }

    /// The place of a checkpoint that goes up to a sequence, if none does: the number of the log that goes on after it, and a number in
    /// the order of the batches that it has of that.
    pub(crate) fn place_behind(&self, sequence: u64) -> Option<(u64, u64)> {
        let older = self.older.iter().map(|log| (log.number, log.before));
        let mut all = older.chain([(self.number(), self.before)]);
        let (number, before) = all.rfind(|(_, before)| *before <= sequence)?;
        let past = match before == sequence {
            true => 0,
            false => sequence + 1,
        };
        (self.based < sequence).then_some((number, past))
    }

    /// The log itself, with the [place](Log::place_behind) of a checkpoint.
    pub(crate) fn place_and_log(&self, sequence: u64) -> Option<(&Log, (u64, u64))> {
        self.place_behind(sequence).map(|place| (self, place))
    }

    /// Whether the newest checkpoint has all up to a sequence, and no log has a byte.
    pub(crate) fn is_covered(&self, last: u64) -> bool {
        self.based == last && self.bytes() == 0
    }

    /// Forgets the logs before one, which a checkpoint holds up to a sequence. Returns the size of the log of which it has a part in bytes.
    pub(crate) fn forget_before(&mut self, number: u64, based: u64) -> u64 {
        self.older.retain(|log| log.number >= number);
        self.based = self.based.max(based);
        self.count_bytes();
        let held = self.older.iter().filter(|log| log.before < based);
        held.map(|log| log.length).sum()
    }

    /// Goes on in the next log after a sequence, whose name is on the device, once all bytes of this one are.
    pub(crate) fn switch(&mut self, next: Box<dyn File>, last: u64) -> Result<(), Refusal> {
        // A closing record that its process didn't sync may be torn by a crash, and an older log has to be whole.
        self.reopen()?;
        self.finish_sync().map_err(Refusal::Lasts)?;
        let ended = Older {
            number: self.number(),
            before: self.before,
            batches: lock(&self.machine).folder().count(),
            length: self.length,
        };
        lock(&self.machine).folder_mut().ask_switch();
        let action = lock(&self.machine).folder().next_write();
        if action == FolderAction::Nothing {
            return Err(Refusal::Passes(self.failed()));
        }
        // A sync that changes nothing is left out.
        let is_synced = self.is_synced();
        let begun = Instant::now();
        let outcome = match is_synced {
            true => Ok(()),
            false => self.ask(|file| file.sync()),
        };
        lock(&self.machine).folder_mut().told_write(outcome.is_ok());
        outcome.map_err(Refusal::Lasts)?;
        if !is_synced {
            self.counts.add_sync(begun.elapsed());
        }
        self.writer = Writer::Ready(next);
        self.sync_handle = None;
        self.told += 1;
        self.older.push(ended);
        self.before = last;
        (self.length, self.synced, self.asked) = (0, 0, 0);
        Ok(())
    }

    /// Cuts the closing record off. The device has no part of it any more then, which another record could be taken to go on.
    fn reopen(&mut self) -> Result<(), Refusal> {
        if self.is_closed {
            let length = self.length;
            self.ask(|file| file.cut(length)).map_err(Refusal::Passes)?;
            self.ask(|file| file.sync()).map_err(Refusal::Lasts)?;
            self.is_closed = false;
        }
        Ok(())
    }

    /// Appends a record, or nothing: what a failure leaves of it is cut off.
    fn append_whole(&mut self, record: &[u8]) -> Result<(), Refusal> {
        let length = self.length;
        let (mut refused, mut is_mended) = (None, false);
        let mut machine = lock(&self.machine);
        let mut action = machine.folder_mut().append();
        drop(machine);
        loop {
            match action {
                FolderAction::Append(..) => {
                    let outcome = self.ask(|file| file.append(record));
                    lock(&self.machine).folder_mut().told_write(outcome.is_ok());
                    match outcome {
                        Ok(()) => {
                            self.length += record.len() as u64;
                            break;
                        }
                        Err(error) => refused = Some(error),
                    }
                }
                FolderAction::CutLog(..) => {
                    let outcome = self.ask(|file| file.cut(length).and_then(|()| file.sync()));
                    is_mended = outcome.is_ok();
                    lock(&self.machine).folder_mut().told_write(is_mended);
                }
                // It is cut off once the sync beside it is done.
                _ if refused.is_some() && self.is_syncing() => {
                    let _ = self.finish_sync();
                }
                _ => break,
            }
            action = lock(&self.machine).folder().next_write();
        }
        self.count_bytes();
        match refused {
            None => Ok(()),
            Some(error) if is_mended => Err(Refusal::Passes(error)),
            Some(error) => Err(Refusal::Lasts(error)),
        }
    }

    /// Asks the log's file for something.
    fn ask(&mut self, work: impl FnOnce(&mut dyn File) -> io::Result<()>) -> Result<(), Error> {
        let outcome = match &mut self.writer {
            Writer::Ready(file) => ask_device(|| work(&mut **file)),
            Writer::Pending(_) => Ok(()),
        };
        outcome.map_err(|error| refusal(self.number())(error))
    }
}

/// Waits until the bytes of a log are on the device.
pub(crate) fn sync_apart(file: &mut dyn File) -> io::Result<()> {
    ask_device(|| file.sync())
}

/// The error of a log's file. Its name isn't needed before.
fn refusal(number: u64) -> impl FnOnce(io::Error) -> Error {
    move |error| Error::of_file(&Name::Log(number).text())(error)
}

/// Asks a device for something. A panic of its own is an error too: what the file holds then isn't known either, and writers
/// wait to be told.
fn ask_device(work: impl FnOnce() -> io::Result<()>) -> io::Result<()> {
    catch_unwind(AssertUnwindSafe(work))
        .unwrap_or_else(|_| Err(io::Error::other("the device panicked")))
}
