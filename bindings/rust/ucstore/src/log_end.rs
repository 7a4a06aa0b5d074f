//! The end of a log: [`first_told`] finds the batch that tells damage, by the marks that [`mark_of`] reads and [`mark_bytes`] writes.

use crate::error::{check, Error};
use crate::log::LogPlace;
use crate::sys;

/// The most bytes of a mark.
pub(crate) const MOST_MARK: usize = 12;

/// Returns the offset of the first batch after the last whole one of a log whose mark says that the log was durable beyond that. Such a
/// batch tells damage: one that was durable isn't whole, which no crash leaves.
///
/// `end` is where the whole batches end. `log` may start at any block of the log, of 32,768 bytes; the offsets are then relative to
/// that block.
///
/// ```
/// # use ucstore::{first_told, mark_bytes, Batch, LogPlace, Operator, Options, Store};
/// # fn main() -> Result<(), ucstore::Error> {
/// let store = Store::create(Operator::Append, &Options::default())?;
/// let mut batch = Batch::new().put("colour", "blue")?.bytes();
/// batch.splice(12..12, mark_bytes(0)?);
/// let mut log = store.prepare_bytes(0, &batch)?;
/// store.commit();
/// let second = log.len();
/// log.extend(store.prepare_bytes(second as u64, &batch)?);
/// log[second / 2] ^= 1;
/// assert_eq!(first_told(&log, LogPlace::default())?, Some(second as u64));
/// assert_eq!(first_told(&log[..second], LogPlace::default())?, None);
/// # Ok(())
/// # }
/// ```
///
/// # Errors
///
/// [`Error::OutOfMemory`].
///
/// # Panics
///
/// If `end` is past the end of the log.
pub fn first_told(log: &[u8], end: LogPlace) -> Result<Option<u64>, Error> {
    let (mut is_told, mut place) = (false, 0);
    let status = unsafe {
        sys::ucstore_log_first_told(
            log.as_ptr(),
            log.len(),
            end.offset,
            end.last,
            &mut is_told,
            &mut place,
        )
    };
    assert_ne!(status, sys::UCSTORE_BAD_PLACE, "the place isn't in the log");
    check(status)?;
    Ok(is_told.then_some(place))
}

/// Returns the mark of a batch: the number of bytes of its log before its record that weren't durable for certain when it was written.
/// Returns `None` if it has none.
///
/// ```
/// # use ucstore::{mark_bytes, mark_of, Batch};
/// # fn main() -> Result<(), ucstore::Error> {
/// let mut batch = Batch::new().put("colour", "blue")?.bytes();
/// assert_eq!(mark_of(&batch), None);
/// batch.splice(12..12, mark_bytes(300)?);
/// assert_eq!(mark_of(&batch), Some(300));
/// # Ok(())
/// # }
/// ```
pub fn mark_of(batch: &[u8]) -> Option<u64> {
    let (mut is_marked, mut unsynced) = (false, 0);
    let status = unsafe {
        sys::ucstore_log_mark(batch.as_ptr(), batch.len(), &mut is_marked, &mut unsynced)
    };
    assert_eq!(status, sys::UCSTORE_OK, "the library has another version");
    is_marked.then_some(unsynced)
}

/// Returns the bytes of a mark, at most 12, which belong right after the 12 bytes of a batch's header.
///
/// # Errors
///
/// [`Error::OutOfMemory`].
///
/// # Panics
///
/// If the number is 2^63 or more.
pub fn mark_bytes(unsynced: u64) -> Result<Vec<u8>, Error> {
    let (mut room, mut size) = ([0; MOST_MARK], 0);
    let status =
        unsafe { sys::ucstore_log_mark_bytes(unsynced, room.as_mut_ptr(), room.len(), &mut size) };
    assert_ne!(status, sys::UCSTORE_BAD_PLACE, "no log is so long");
    check(status)?;
    let mut bytes = Vec::new();
    bytes.try_reserve_exact(size)?;
    bytes.extend_from_slice(&room[..size]);
    Ok(bytes)
}
