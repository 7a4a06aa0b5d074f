//! The functions of `struct ucstore_db`.

use crate::call::{call, Refusal};
use crate::handle::{BatchHandle, DbHandle, Handle, SnapshotHandle};
use crate::memory::{text, Place};
use crate::options::COptions;
use crate::snapshot::{Keys, Value, Values};
use crate::status::Status;
use db::Db;
use std::ffi::{c_char, c_void, CStr, OsStr};
use std::os::unix::ffi::OsStrExt;

/// Opens a database and puts its address where C wants it.
///
/// # Safety
///
/// The caller guarantees the options and the place.
unsafe fn open_by(
    options: *const COptions,
    place: *mut *mut DbHandle,
    open: impl FnOnce(&db::Options) -> Result<Db, db::Error>,
) -> Result<(), Refusal> {
    // SAFETY: The caller guarantees the memory.
    let place = unsafe { Place::of(place) }?;
    // SAFETY: The caller guarantees the struct, and what it leads to.
    let options = unsafe { COptions::at(options)?.read() }?;
    place.put(Handle::begin(open(&options)?));
    Ok(())
}

/// Opens the database in a directory.
#[no_mangle]
pub unsafe extern "C" fn ucstore_db_open(
    folder: *const c_char,
    options: *const COptions,
    db: *mut *mut DbHandle,
) -> i32 {
    call(|| {
        if folder.is_null() {
            return Err(Status::Null.into());
        }
        // SAFETY: The caller guarantees a string that ends with a zero byte.
        let folder = OsStr::from_bytes(unsafe { CStr::from_ptr(folder) }.to_bytes());
        // SAFETY: The caller guarantees this.
        unsafe { open_by(options, db, |options| Db::open(folder, options)) }
    })
}

/// Creates an empty database in memory.
#[no_mangle]
pub unsafe extern "C" fn ucstore_db_in_memory(
    options: *const COptions,
    db: *mut *mut DbHandle,
) -> i32 {
    // SAFETY: The caller guarantees this.
    call(|| unsafe { open_by(options, db, Db::in_memory) })
}

/// Shuts a database down, and keeps its handle.
#[no_mangle]
pub unsafe extern "C" fn ucstore_db_end(db: *const DbHandle) -> i32 {
    // SAFETY: The caller guarantees the handle.
    call(|| Ok(unsafe { Handle::get(db) }?.close()?))
}

/// Closes a database, and frees its handle.
#[no_mangle]
pub unsafe extern "C" fn ucstore_db_close(db: *mut DbHandle) -> i32 {
    call(|| {
        if db.is_null() {
            return Ok(());
        }
        // SAFETY: The caller guarantees a handle that only functions of the database's own threads use.
        let outcome = unsafe { Handle::get(db) }?.close();
        // SAFETY: They have ended, and C uses it no more.
        drop(unsafe { Handle::end(db) }?);
        match outcome {
            // It was ended before.
            Err(db::Error::Closed) => Ok(()),
            outcome => Ok(outcome?),
        }
    })
}

/// Sets a key to a value.
#[no_mangle]
pub unsafe extern "C" fn ucstore_db_put(
    db: *const DbHandle,
    key: *const c_void,
    key_length: usize,
    value: *const c_void,
    value_length: usize,
) -> i32 {
    call(|| {
        // SAFETY: The caller guarantees the handle and both byte strings.
        let (db, key, value) = unsafe {
            (
                Handle::get(db)?,
                text(key, key_length)?,
                text(value, value_length)?,
            )
        };
        Ok(db.put(key, value)?)
    })
}

/// Merges an operand into a key's value.
#[no_mangle]
pub unsafe extern "C" fn ucstore_db_merge(
    db: *const DbHandle,
    key: *const c_void,
    key_length: usize,
    operand: *const c_void,
    operand_length: usize,
) -> i32 {
    call(|| {
        // SAFETY: The caller guarantees the handle and both byte strings.
        let (db, key, operand) = unsafe {
            (
                Handle::get(db)?,
                text(key, key_length)?,
                text(operand, operand_length)?,
            )
        };
        Ok(db.merge(key, operand)?)
    })
}

/// Deletes a key.
#[no_mangle]
pub unsafe extern "C" fn ucstore_db_delete(
    db: *const DbHandle,
    key: *const c_void,
    key_length: usize,
) -> i32 {
    call(|| {
        // SAFETY: The caller guarantees the handle and the bytes.
        let (db, key) = unsafe { (Handle::get(db)?, text(key, key_length)?) };
        Ok(db.delete(key)?)
    })
}

/// Deletes a range of keys.
#[no_mangle]
pub unsafe extern "C" fn ucstore_db_delete_range(
    db: *const DbHandle,
    begin: *const c_void,
    begin_length: usize,
    end: *const c_void,
    end_length: usize,
) -> i32 {
    call(|| {
        // SAFETY: The caller guarantees the handle and both byte strings.
        let (db, begin, end) = unsafe {
            (
                Handle::get(db)?,
                text(begin, begin_length)?,
                text(end, end_length)?,
            )
        };
        Ok(db.delete_range(begin, end)?)
    })
}

/// Writes a batch, durable as the options say.
#[no_mangle]
pub unsafe extern "C" fn ucstore_db_write(db: *const DbHandle, batch: *const BatchHandle) -> i32 {
    call(|| {
        // SAFETY: The caller guarantees both handles, and no other call uses the batch.
        let (db, batch) = unsafe { (Handle::get(db)?, Handle::get(batch)?) };
        Ok(db.write(batch)?)
    })
}

/// Writes a batch, durable on return if `synced` is true.
#[no_mangle]
pub unsafe extern "C" fn ucstore_db_write_with(
    db: *const DbHandle,
    batch: *const BatchHandle,
    synced: bool,
) -> i32 {
    call(|| {
        // SAFETY: The caller guarantees both handles, and no other call uses the batch.
        let (db, batch) = unsafe { (Handle::get(db)?, Handle::get(batch)?) };
        Ok(db.write_with(batch, synced)?)
    })
}

/// Writes a batch in RocksDB's format, with its own sequence number.
#[no_mangle]
pub unsafe extern "C" fn ucstore_db_write_bytes(
    db: *const DbHandle,
    batch: *const c_void,
    batch_length: usize,
    synced: bool,
) -> i32 {
    call(|| {
        // SAFETY: The caller guarantees the handle and the bytes.
        let (db, batch) = unsafe { (Handle::get(db)?, text(batch, batch_length)?) };
        Ok(db.write_bytes(batch, synced)?)
    })
}

/// Waits until all acknowledged writes are durable.
#[no_mangle]
pub unsafe extern "C" fn ucstore_db_sync(db: *const DbHandle) -> i32 {
    // SAFETY: The caller guarantees the handle.
    call(|| Ok(unsafe { Handle::get(db) }?.sync()?))
}

/// Copies the value of a key.
#[no_mangle]
pub unsafe extern "C" fn ucstore_db_get(
    db: *const DbHandle,
    key: *const c_void,
    key_length: usize,
    room: *mut c_void,
    room_length: usize,
    size: *mut usize,
) -> i32 {
    call(|| {
        // SAFETY: The caller guarantees the handle, the bytes and the memory.
        let (db, key, value) = unsafe {
            let value = Value::of(room, room_length, size)?;
            (Handle::get(db)?, text(key, key_length)?, value)
        };
        value.put_by(|room| db.get_to_room(key, room))
    })
}

/// Copies the values of several keys, at one point in time.
#[no_mangle]
pub unsafe extern "C" fn ucstore_db_get_many(
    db: *const DbHandle,
    keys: *const c_void,
    keys_length: usize,
    key_lengths: *const u64,
    count: usize,
    value_lengths: *mut u64,
    room: *mut c_void,
    room_length: usize,
    size: *mut usize,
) -> i32 {
    call(|| {
        // SAFETY: The caller guarantees the handle, the byte strings and the memory.
        let (db, keys, values) = unsafe {
            let keys = Keys::of(keys, keys_length, key_lengths, count)?;
            let values = Values::of(value_lengths, count, room, room_length, size)?;
            (Handle::get(db)?, keys, values)
        };
        values.put(db.get_many(keys.iter())?)
    })
}

/// Takes a snapshot.
#[no_mangle]
pub unsafe extern "C" fn ucstore_db_snapshot(
    db: *const DbHandle,
    snapshot: *mut *mut SnapshotHandle,
) -> i32 {
    call(|| {
        // SAFETY: The caller guarantees the handle and the memory.
        let (db, place) = unsafe { (Handle::get(db)?, Place::of(snapshot)?) };
        place.put(SnapshotHandle::begin_snapshot(db.snapshot()?));
        Ok(())
    })
}

/// Returns the snapshot of a mark.
#[no_mangle]
pub unsafe extern "C" fn ucstore_db_take_mark(
    db: *const DbHandle,
    sequence: u64,
    snapshot: *mut *mut SnapshotHandle,
) -> i32 {
    call(|| {
        // SAFETY: The caller guarantees the handle and the memory.
        let (db, place) = unsafe { (Handle::get(db)?, Place::of(snapshot)?) };
        let mark = db.take_mark(sequence).ok_or(Status::NotProtected)?;
        place.put(SnapshotHandle::begin_snapshot(mark));
        Ok(())
    })
}

/// Flushes the memtables.
#[no_mangle]
pub unsafe extern "C" fn ucstore_db_flush(db: *const DbHandle) -> i32 {
    // SAFETY: The caller guarantees the handle.
    call(|| Ok(unsafe { Handle::get(db) }?.flush()?))
}

/// Compacts until no compaction is due.
#[no_mangle]
pub unsafe extern "C" fn ucstore_db_compact(db: *const DbHandle) -> i32 {
    // SAFETY: The caller guarantees the handle.
    call(|| Ok(unsafe { Handle::get(db) }?.compact()?))
}

/// Writes a checkpoint.
#[no_mangle]
pub unsafe extern "C" fn ucstore_db_checkpoint(db: *const DbHandle) -> i32 {
    // SAFETY: The caller guarantees the handle.
    call(|| Ok(unsafe { Handle::get(db) }?.checkpoint()?))
}

/// Writes a checkpoint of a snapshot.
#[no_mangle]
pub unsafe extern "C" fn ucstore_db_checkpoint_to(
    db: *const DbHandle,
    snapshot: *const SnapshotHandle,
) -> i32 {
    call(|| {
        // SAFETY: The caller guarantees both handles.
        let (db, snapshot) = unsafe { (Handle::get(db)?, SnapshotHandle::lock(snapshot)?) };
        // A thread that reads it meanwhile doesn't wait.
        let again = snapshot.again()?;
        drop(snapshot);
        Ok(db.checkpoint_to(&again)?)
    })
}

/// Writes what a database has now to another directory.
#[no_mangle]
pub unsafe extern "C" fn ucstore_db_backup(
    db: *const DbHandle,
    folder: *const c_char,
    sequence: *mut u64,
) -> i32 {
    call(|| {
        // SAFETY: The caller guarantees the handle and the memory.
        let (db, place) = unsafe { (Handle::get(db)?, Place::of(sequence)?) };
        if folder.is_null() {
            return Err(Status::Null.into());
        }
        // SAFETY: The caller guarantees a string that ends with a zero byte.
        let folder = OsStr::from_bytes(unsafe { CStr::from_ptr(folder) }.to_bytes());
        place.put(db.backup(folder)?);
        Ok(())
    })
}

/// Catches up with the owner of a database that was opened to be read.
#[no_mangle]
pub unsafe extern "C" fn ucstore_db_refresh(db: *const DbHandle, sequence: *mut u64) -> i32 {
    call(|| {
        // SAFETY: The caller guarantees the handle and the memory.
        let (db, place) = unsafe { (Handle::get(db)?, Place::of(sequence)?) };
        place.put(db.refresh()?);
        Ok(())
    })
}

/// Switches to a new log.
#[no_mangle]
pub unsafe extern "C" fn ucstore_db_next_log(db: *const DbHandle) -> i32 {
    // SAFETY: The caller guarantees the handle.
    call(|| Ok(unsafe { Handle::get(db) }?.next_log()?))
}

/// Returns the error after which the database takes no more writes, if there is one.
#[no_mangle]
pub unsafe extern "C" fn ucstore_db_failure(db: *const DbHandle) -> i32 {
    call(|| {
        // SAFETY: The caller guarantees the handle.
        match unsafe { Handle::get(db) }?.failure() {
            Some(error) => Err(error.into()),
            None => Ok(()),
        }
    })
}
