//! [`record_by`]: the bytes that a batch adds to a log.

use crate::error::{check, Error};
use crate::sys;
use std::mem::MaybeUninit;

/// The bytes of a record's header in a log, and the most that follow it.
const HEADER_SIZE: usize = 7;
const MOST_FRAGMENT: usize = 32_768 - HEADER_SIZE;

/// The bytes that a batch of some size adds to a log.
pub(crate) fn record_by(
    size: usize,
    mut prepare: impl FnMut(&mut [MaybeUninit<u8>], &mut usize) -> i32,
) -> Result<Vec<u8>, Error> {
    // Room for a header in each block, and for the end of the block before.
    let mut record = Vec::new();
    record.try_reserve_exact(size + HEADER_SIZE * (size / MOST_FRAGMENT + 3))?;
    loop {
        let mut size = 0;
        let status = prepare(record.spare_capacity_mut(), &mut size);
        if status != sys::UCSTORE_ROOM {
            check(status)?;
            // SAFETY: The library has copied that number of bytes there.
            unsafe { record.set_len(size) };
            return Ok(record);
        }
        record.try_reserve_exact(size)?;
    }
}
