//! The functions of `struct ucstore_db_batch`.

use crate::call::call;
use crate::handle::{BatchHandle, Handle};
use crate::memory::{text, Place};
use db::Batch;
use std::ffi::c_void;

/// Creates an empty batch.
#[no_mangle]
pub unsafe extern "C" fn ucstore_db_batch_create(batch: *mut *mut BatchHandle) -> i32 {
    call(|| {
        // SAFETY: The caller guarantees the memory.
        let place = unsafe { Place::of(batch) }?;
        place.put(Handle::begin(Batch::new()));
        Ok(())
    })
}

/// Adds a put.
#[no_mangle]
pub unsafe extern "C" fn ucstore_db_batch_put(
    batch: *mut BatchHandle,
    key: *const c_void,
    key_length: usize,
    value: *const c_void,
    value_length: usize,
) -> i32 {
    call(|| {
        // SAFETY: The caller guarantees the handle, which no other call uses, and both byte strings.
        let (batch, key, value) = unsafe {
            let texts = (text(key, key_length)?, text(value, value_length)?);
            (Handle::get_mut(batch)?, texts.0, texts.1)
        };
        batch.put(key, value)?;
        Ok(())
    })
}

/// Adds a merge.
#[no_mangle]
pub unsafe extern "C" fn ucstore_db_batch_merge(
    batch: *mut BatchHandle,
    key: *const c_void,
    key_length: usize,
    operand: *const c_void,
    operand_length: usize,
) -> i32 {
    call(|| {
        // SAFETY: The caller guarantees the handle, which no other call uses, and both byte strings.
        let (batch, key, operand) = unsafe {
            let texts = (text(key, key_length)?, text(operand, operand_length)?);
            (Handle::get_mut(batch)?, texts.0, texts.1)
        };
        batch.merge(key, operand)?;
        Ok(())
    })
}

/// Adds a deletion.
#[no_mangle]
pub unsafe extern "C" fn ucstore_db_batch_delete(
    batch: *mut BatchHandle,
    key: *const c_void,
    key_length: usize,
) -> i32 {
    call(|| {
        // SAFETY: The caller guarantees the handle, which no other call uses, and the bytes.
        let (batch, key) = unsafe { (Handle::get_mut(batch)?, text(key, key_length)?) };
        batch.delete(key)?;
        Ok(())
    })
}

/// Adds a deletion of a range of keys.
#[no_mangle]
pub unsafe extern "C" fn ucstore_db_batch_delete_range(
    batch: *mut BatchHandle,
    begin: *const c_void,
    begin_length: usize,
    end: *const c_void,
    end_length: usize,
) -> i32 {
    call(|| {
        // SAFETY: The caller guarantees the handle, which no other call uses, and both byte strings.
        let (batch, begin, end) = unsafe {
            let texts = (text(begin, begin_length)?, text(end, end_length)?);
            (Handle::get_mut(batch)?, texts.0, texts.1)
        };
        batch.delete_range(begin, end)?;
        Ok(())
    })
}

/// Removes all operations.
#[no_mangle]
pub unsafe extern "C" fn ucstore_db_batch_clear(batch: *mut BatchHandle) -> i32 {
    call(|| {
        // SAFETY: The caller guarantees the handle, which no other call uses.
        unsafe { Handle::get_mut(batch) }?.clear();
        Ok(())
    })
}

/// Stores the number of operations.
#[no_mangle]
pub unsafe extern "C" fn ucstore_db_batch_count(batch: *const BatchHandle, count: *mut u64) -> i32 {
    call(|| {
        // SAFETY: The caller guarantees the handle, which no other call uses, and the memory.
        let (batch, place) = unsafe { (Handle::get(batch)?, Place::of(count)?) };
        place.put(batch.len() as u64);
        Ok(())
    })
}

/// Frees a batch.
#[no_mangle]
pub unsafe extern "C" fn ucstore_db_batch_close(batch: *mut BatchHandle) -> i32 {
    call(|| {
        // SAFETY: The caller guarantees the handle, which no other call uses.
        drop(unsafe { Handle::end(batch) }?);
        Ok(())
    })
}
