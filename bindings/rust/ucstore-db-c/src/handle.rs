//! [`Handle`]: an address that C holds, and the value there.

use crate::call::Refusal;
use crate::cursor::Cursor;
use crate::process::Process;
use crate::status::Status;
use db::{Batch, Db, Snapshot, Transaction};
use std::sync::{Mutex, MutexGuard, PoisonError};

/// Something that C holds the address of, and the process that has it.
pub struct Handle<T> {
    held: T,
    process: Process,
}

/// `struct ucstore_db`.
pub type DbHandle = Handle<Db>;
/// `struct ucstore_db_batch`.
pub type BatchHandle = Handle<Batch>;
/// `struct ucstore_db_snapshot`, whose calls wait for one another.
pub type SnapshotHandle = Handle<Mutex<Snapshot>>;
/// `struct ucstore_db_cursor`.
pub type CursorHandle = Handle<Cursor>;
/// `struct ucstore_db_transaction`: none once it has ended.
pub type TransactionHandle = Handle<Option<Transaction>>;

// The header lets any thread use a database and a snapshot, and the others go from thread to thread.
const _: () = {
    const fn is_shared<T: Send + Sync>() {}
    const fn is_sent<T: Send>() {}
    is_shared::<Db>();
    is_shared::<Mutex<Snapshot>>();
    is_sent::<Batch>();
    is_sent::<Cursor>();
    is_sent::<Transaction>();
};

impl SnapshotHandle {
    /// The address of a snapshot.
    pub(crate) fn begin_snapshot(snapshot: Snapshot) -> *mut SnapshotHandle {
        Handle::begin(Mutex::new(snapshot))
    }

    /// The snapshot at an address, when no other thread uses it.
    ///
    /// # Safety
    ///
    /// As for [`get`](Handle::get).
    pub(crate) unsafe fn lock<'a>(
        at: *const SnapshotHandle,
    ) -> Result<MutexGuard<'a, Snapshot>, Refusal> {
        // SAFETY: The caller guarantees this.
        let snapshot = unsafe { Handle::get(at) }?;
        // One that a panic left is whole: reads change nothing.
        Ok(snapshot.lock().unwrap_or_else(PoisonError::into_inner))
    }
}

impl<T> Handle<T> {
    /// The address of something, which C gives back to [`end`](Handle::end).
    pub(crate) fn begin(held: T) -> *mut Handle<T> {
        let process = Process::current();
        Box::into_raw(Box::new(Handle { held, process }))
    }

    /// The value at an address.
    ///
    /// # Safety
    ///
    /// The address is null, or [`begin`](Handle::begin) gave it and it hasn't ended. Nothing else changes it meanwhile.
    pub(crate) unsafe fn get<'a>(at: *const Handle<T>) -> Result<&'a T, Refusal> {
        // SAFETY: The caller guarantees this.
        let handle = unsafe { at.as_ref() }.ok_or(Status::Null)?;
        handle.process.check()?;
        Ok(&handle.held)
    }

    /// The value at an address, to change it.
    ///
    /// # Safety
    ///
    /// As for [`get`](Handle::get). Nothing else reads it meanwhile.
    pub(crate) unsafe fn get_mut<'a>(at: *mut Handle<T>) -> Result<&'a mut T, Refusal> {
        // SAFETY: The caller guarantees this.
        let handle = unsafe { at.as_mut() }.ok_or(Status::Null)?;
        handle.process.check()?;
        Ok(&mut handle.held)
    }

    /// Takes the value at an address, which ends. None if it is null. A forked child leaves it where it is.
    ///
    /// # Safety
    ///
    /// As for [`get_mut`](Handle::get_mut).
    pub(crate) unsafe fn end(at: *mut Handle<T>) -> Result<Option<T>, Refusal> {
        if at.is_null() {
            return Ok(None);
        }
        // SAFETY: The caller guarantees this.
        unsafe { Handle::get(at) }?;
        // SAFETY: It came from a box, and C doesn't use it any more.
        let handle = unsafe { Box::from_raw(at) };
        Ok(Some(handle.held))
    }
}
