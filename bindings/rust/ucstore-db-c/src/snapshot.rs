//! The functions of `struct ucstore_db_snapshot`, and where values are copied to.

use crate::call::{call, Refusal};
use crate::handle::{Handle, SnapshotHandle};
use crate::memory::{items, text, Place, Room};
use crate::status::Status;
use std::ffi::c_void;
use std::mem::MaybeUninit;

/// The length that says that a key has no value.
const NO_VALUE: u64 = u64::MAX;

/// Where a value is copied to, and its size.
pub(crate) struct Value {
    room: Room<u8>,
    size: Place<usize>,
}

impl Value {
    /// The bytes at an address of C's.
    ///
    /// # Safety
    ///
    /// As for [`Room::of`] and [`Place::of`].
    pub(crate) unsafe fn of(
        room: *mut c_void,
        room_length: usize,
        size: *mut usize,
    ) -> Result<Value, Refusal> {
        // SAFETY: The caller guarantees this.
        let (room, size) = unsafe { (Room::of(room.cast(), room_length)?, Place::of(size)?) };
        Ok(Value { room, size })
    }

    /// Lets a lookup copy a value there, as much of it as fits, which returns the size of all of it.
    pub(crate) fn put_by(
        mut self,
        lookup: impl FnOnce(&mut [MaybeUninit<u8>]) -> Result<Option<usize>, db::Error>,
    ) -> Result<(), Refusal> {
        let size = lookup(self.room.whole())?.ok_or(Status::NotFound)?;
        self.size.put(size);
        Ok(())
    }
}

/// Keys that stand one after the other.
pub(crate) struct Keys<'a> {
    bytes: &'a [u8],
    lengths: &'a [u64],
}

impl<'a> Keys<'a> {
    /// The keys at an address of C's.
    ///
    /// # Safety
    ///
    /// As for [`items`].
    pub(crate) unsafe fn of(
        keys: *const c_void,
        keys_length: usize,
        key_lengths: *const u64,
        count: usize,
    ) -> Result<Keys<'a>, Refusal> {
        // SAFETY: The caller guarantees this.
        let (bytes, lengths) = unsafe { (text(keys, keys_length)?, items(key_lengths, count)?) };
        let whole = lengths
            .iter()
            .try_fold(0, |sum: u64, it| sum.checked_add(*it));
        if whole != Some(bytes.len() as u64) {
            return Err(Status::BadKeys.into());
        }
        Ok(Keys { bytes, lengths })
    }

    /// Each key in turn.
    pub(crate) fn iter(&self) -> impl Iterator<Item = &'a [u8]> {
        let mut rest = self.bytes;
        self.lengths.iter().map(move |length| {
            let (key, behind) = rest.split_at(*length as usize);
            rest = behind;
            key
        })
    }
}

/// Where the values of keys are copied to, with their lengths and the size of all.
pub(crate) struct Values {
    lengths: Room<u64>,
    room: Room<u8>,
    size: Place<usize>,
}

impl Values {
    /// The buffer at an address of C's.
    ///
    /// # Safety
    ///
    /// As for [`Room::of`] and [`Place::of`].
    pub(crate) unsafe fn of(
        value_lengths: *mut u64,
        count: usize,
        room: *mut c_void,
        room_length: usize,
        size: *mut usize,
    ) -> Result<Values, Refusal> {
        // SAFETY: The caller guarantees this.
        unsafe {
            Ok(Values {
                lengths: Room::of(value_lengths, count)?,
                room: Room::of(room.cast(), room_length)?,
                size: Place::of(size)?,
            })
        }
    }

    /// Copies the values one after the other, as much of them as fits.
    pub(crate) fn put(mut self, values: Vec<Option<Vec<u8>>>) -> Result<(), Refusal> {
        let mut size = 0;
        for value in &values {
            let length = value.as_ref().map_or(NO_VALUE, |value| value.len() as u64);
            self.lengths.push(&[length]);
            let value = value.as_deref().unwrap_or_default();
            self.room.push(value);
            size += value.len();
        }
        self.size.put(size);
        Ok(())
    }
}

/// Creates another handle to a snapshot.
#[no_mangle]
pub unsafe extern "C" fn ucstore_db_snapshot_again(
    snapshot: *const SnapshotHandle,
    again: *mut *mut SnapshotHandle,
) -> i32 {
    call(|| {
        // SAFETY: The caller guarantees the handle and the memory.
        let (snapshot, place) = unsafe { (SnapshotHandle::lock(snapshot)?, Place::of(again)?) };
        place.put(SnapshotHandle::begin_snapshot(snapshot.again()?));
        Ok(())
    })
}

/// Stores the sequence number of the last write in a snapshot.
#[no_mangle]
pub unsafe extern "C" fn ucstore_db_snapshot_sequence(
    snapshot: *const SnapshotHandle,
    sequence: *mut u64,
) -> i32 {
    call(|| {
        // SAFETY: The caller guarantees the handle and the memory.
        let (snapshot, place) = unsafe { (SnapshotHandle::lock(snapshot)?, Place::of(sequence)?) };
        place.put(snapshot.sequence());
        Ok(())
    })
}

/// Copies the value of a key.
#[no_mangle]
pub unsafe extern "C" fn ucstore_db_snapshot_get(
    snapshot: *const SnapshotHandle,
    key: *const c_void,
    key_length: usize,
    room: *mut c_void,
    room_length: usize,
    size: *mut usize,
) -> i32 {
    call(|| {
        // SAFETY: The caller guarantees the handle, the bytes and the memory.
        let (snapshot, key, value) = unsafe {
            let value = Value::of(room, room_length, size)?;
            (
                SnapshotHandle::lock(snapshot)?,
                text(key, key_length)?,
                value,
            )
        };
        value.put_by(|room| snapshot.get_to_room(key, room))
    })
}

/// Copies the values of several keys.
#[no_mangle]
pub unsafe extern "C" fn ucstore_db_snapshot_get_many(
    snapshot: *const SnapshotHandle,
    keys: *const c_void,
    keys_length: usize,
    key_lengths: *const u64,
    count: usize,
    value_lengths: *mut u64,
    room: *mut c_void,
    room_length: usize,
    size: *mut usize,
) -> i32 {
    call(|| {
        // SAFETY: The caller guarantees the handle, the byte strings and the memory.
        let (snapshot, keys, values) = unsafe {
            let keys = Keys::of(keys, keys_length, key_lengths, count)?;
            let values = Values::of(value_lengths, count, room, room_length, size)?;
            (SnapshotHandle::lock(snapshot)?, keys, values)
        };
        values.put(snapshot.get_many(keys.iter())?)
    })
}

/// Frees a snapshot.
#[no_mangle]
pub unsafe extern "C" fn ucstore_db_snapshot_close(snapshot: *mut SnapshotHandle) -> i32 {
    call(|| {
        // SAFETY: The caller guarantees the handle, which no other call uses.
        drop(unsafe { Handle::end(snapshot) }?);
        Ok(())
    })
}
