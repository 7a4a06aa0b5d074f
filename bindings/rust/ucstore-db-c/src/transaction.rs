//! The functions of `struct ucstore_db_transaction`.

use crate::call::{call, Refusal};
use crate::cursor::{below, bounds, Page};
use crate::handle::{DbHandle, Handle, TransactionHandle};
use crate::memory::{text, Place, Room};
use crate::snapshot::Value;
use crate::status::Status;
use db::Transaction;
use std::ffi::c_void;
use std::mem::MaybeUninit;
use std::ops::Bound;

/// The transaction at an address, unless it has ended.
///
/// # Safety
///
/// As for [`Handle::get_mut`].
unsafe fn begun<'a>(at: *mut TransactionHandle) -> Result<&'a mut Transaction, Refusal> {
    // SAFETY: The caller guarantees this.
    let held = unsafe { Handle::get_mut(at) }?;
    Ok(held.as_mut().ok_or(Status::Closed)?)
}

/// Copies a value into a buffer, as much of it as fits, and returns the size of all of it.
fn copy_value(value: Option<Vec<u8>>, room: &mut [MaybeUninit<u8>]) -> Option<usize> {
    let value = value?;
    for (place, byte) in room.iter_mut().zip(&value) {
        place.write(*byte);
    }
    Some(value.len())
}

/// Begins a transaction.
#[no_mangle]
pub unsafe extern "C" fn ucstore_db_transaction_begin(
    db: *const DbHandle,
    transaction: *mut *mut TransactionHandle,
) -> i32 {
    call(|| {
        // SAFETY: The caller guarantees the handle and the memory.
        let (db, place) = unsafe { (Handle::get(db)?, Place::of(transaction)?) };
        place.put(Handle::begin(Some(db.transaction()?)));
        Ok(())
    })
}

/// Copies the value of a key, and notes the read.
#[no_mangle]
pub unsafe extern "C" fn ucstore_db_transaction_get(
    transaction: *mut TransactionHandle,
    key: *const c_void,
    key_length: usize,
    room: *mut c_void,
    room_length: usize,
    size: *mut usize,
) -> i32 {
    call(|| {
        // SAFETY: The caller guarantees the handle, which no other call uses, the bytes and the memory.
        let (transaction, key, value) = unsafe {
            let value = Value::of(room, room_length, size)?;
            (begun(transaction)?, text(key, key_length)?, value)
        };
        let found = transaction.get(key)?;
        value.put_by(|room| Ok(copy_value(found, room)))
    })
}

/// Copies the value of a key, and notes nothing.
#[no_mangle]
pub unsafe extern "C" fn ucstore_db_transaction_get_unchecked(
    transaction: *mut TransactionHandle,
    key: *const c_void,
    key_length: usize,
    room: *mut c_void,
    room_length: usize,
    size: *mut usize,
) -> i32 {
    call(|| {
        // SAFETY: The caller guarantees the handle, which no other call uses, the bytes and the memory.
        let (transaction, key, value) = unsafe {
            let value = Value::of(room, room_length, size)?;
            (begun(transaction)?, text(key, key_length)?, value)
        };
        let found = transaction.get_unchecked(key)?;
        value.put_by(|room| Ok(copy_value(found, room)))
    })
}

/// Copies the first rows of a range, and notes how far they went.
#[no_mangle]
pub unsafe extern "C" fn ucstore_db_transaction_page(
    transaction: *mut TransactionHandle,
    low: *const c_void,
    low_length: usize,
    high: *const c_void,
    high_length: usize,
    bounded: bool,
    lengths: *mut u64,
    lengths_count: usize,
    room: *mut c_void,
    room_length: usize,
    rows: *mut usize,
    size: *mut usize,
) -> i32 {
    call(|| {
        // SAFETY: The caller guarantees the handle, which no other call uses, the byte strings and the memory.
        let (transaction, (low, high), mut page, rows, size) = unsafe {
            let page = Page {
                lengths: Room::of(lengths, lengths_count)?,
                bytes: Room::of(room.cast(), room_length)?,
            };
            let bounds = bounds(low, low_length, high, high_length, bounded)?;
            let (rows, size) = (Place::of(rows)?, Place::of(size)?);
            (begun(transaction)?, bounds, page, rows, size)
        };
        let found = transaction.range::<&[u8]>((Bound::Included(low), below(high)))?;
        for row in found {
            let (key, value) = row?;
            if page.add(&key, &value) {
                continue;
            }
            if page.rows() == 0 {
                size.put(key.len() + value.len());
                return Err(Status::Room.into());
            }
            break;
        }
        rows.put(page.rows());
        size.put(page.bytes.filled());
        Ok(())
    })
}

/// Sets a key to a value at the commit.
#[no_mangle]
pub unsafe extern "C" fn ucstore_db_transaction_put(
    transaction: *mut TransactionHandle,
    key: *const c_void,
    key_length: usize,
    value: *const c_void,
    value_length: usize,
) -> i32 {
    call(|| {
        // SAFETY: The caller guarantees the handle, which no other call uses, and both byte strings.
        let (transaction, key, value) = unsafe {
            let texts = (text(key, key_length)?, text(value, value_length)?);
            (begun(transaction)?, texts.0, texts.1)
        };
        Ok(transaction.put(key, value)?)
    })
}

/// Combines a key with an operand at the commit.
#[no_mangle]
pub unsafe extern "C" fn ucstore_db_transaction_merge(
    transaction: *mut TransactionHandle,
    key: *const c_void,
    key_length: usize,
    operand: *const c_void,
    operand_length: usize,
) -> i32 {
    call(|| {
        // SAFETY: The caller guarantees the handle, which no other call uses, and both byte strings.
        let (transaction, key, operand) = unsafe {
            let texts = (text(key, key_length)?, text(operand, operand_length)?);
            (begun(transaction)?, texts.0, texts.1)
        };
        Ok(transaction.merge(key, operand)?)
    })
}

/// Deletes a key at the commit.
#[no_mangle]
pub unsafe extern "C" fn ucstore_db_transaction_delete(
    transaction: *mut TransactionHandle,
    key: *const c_void,
    key_length: usize,
) -> i32 {
    call(|| {
        // SAFETY: The caller guarantees the handle, which no other call uses, and the bytes.
        let (transaction, key) = unsafe { (begun(transaction)?, text(key, key_length)?) };
        Ok(transaction.delete(key)?)
    })
}

/// Deletes a range of keys at the commit.
#[no_mangle]
pub unsafe extern "C" fn ucstore_db_transaction_delete_range(
    transaction: *mut TransactionHandle,
    begin: *const c_void,
    begin_length: usize,
    end: *const c_void,
    end_length: usize,
) -> i32 {
    call(|| {
        // SAFETY: The caller guarantees the handle, which no other call uses, and both byte strings.
        let (transaction, begin, end) = unsafe {
            let texts = (text(begin, begin_length)?, text(end, end_length)?);
            (begun(transaction)?, texts.0, texts.1)
        };
        Ok(transaction.delete_range(begin, end)?)
    })
}

/// Commits a transaction, and ends it.
#[no_mangle]
pub unsafe extern "C" fn ucstore_db_transaction_commit(transaction: *mut TransactionHandle) -> i32 {
    call(|| {
        // SAFETY: The caller guarantees the handle, which no other call uses.
        let held = unsafe { Handle::get_mut(transaction) }?;
        let transaction = held.take().ok_or(Status::Closed)?;
        Ok(transaction.commit()?)
    })
}

/// Ends a transaction without a write.
#[no_mangle]
pub unsafe extern "C" fn ucstore_db_transaction_rollback(
    transaction: *mut TransactionHandle,
) -> i32 {
    call(|| {
        // SAFETY: The caller guarantees the handle, which no other call uses.
        let held = unsafe { Handle::get_mut(transaction) }?;
        held.take().ok_or(Status::Closed)?.rollback();
        Ok(())
    })
}

/// Frees a transaction.
#[no_mangle]
pub unsafe extern "C" fn ucstore_db_transaction_close(transaction: *mut TransactionHandle) -> i32 {
    call(|| {
        // SAFETY: The caller guarantees the handle, which no other call uses.
        drop(unsafe { Handle::end(transaction) }?);
        Ok(())
    })
}
