//! [`text`], [`Place`] and [`Room`]: memory of C's that is read and written.

use crate::call::Refusal;
use crate::status::Status;
use std::ffi::c_void;
use std::mem::MaybeUninit;
use std::ptr::NonNull;
use std::slice;

/// The greatest size of a struct that a later header may have.
const MOST_SIZE: usize = 4096;

/// Items at an address. If there are none, the address isn't looked at.
///
/// # Safety
///
/// If the address isn't null, as many items stand there, and nothing changes them while they are used.
pub(crate) unsafe fn items<'a, T>(at: *const T, count: usize) -> Result<&'a [T], Refusal> {
    match count.checked_mul(size_of::<T>()) {
        Some(0) => Ok(&[]),
        Some(size) if size <= isize::MAX as usize => {
            let at = NonNull::new(at.cast_mut()).ok_or(Status::Null)?;
            // SAFETY: The caller guarantees this, and the size is one that there may be.
            Ok(unsafe { slice::from_raw_parts(at.as_ptr(), count) })
        }
        _ => Err(Status::TooLong.into()),
    }
}

/// The bytes at an address of C's.
///
/// # Safety
///
/// As for [`items`].
pub(crate) unsafe fn text<'a>(at: *const c_void, length: usize) -> Result<&'a [u8], Refusal> {
    // SAFETY: The caller guarantees this.
    unsafe { items(at.cast(), length) }
}

/// Reads a struct that begins with its size, as the caller's version of the header has it. Fields that it doesn't have keep their
/// defaults. Bytes that this library doesn't know must be 0.
///
/// # Safety
///
/// If the address isn't null, a size stands there, and as many bytes from there on.
pub(crate) unsafe fn read_sized<T: Copy>(
    at: *const T,
    least: usize,
    default: T,
) -> Result<T, Refusal> {
    let at = NonNull::new(at.cast_mut()).ok_or(Status::Null)?;
    // SAFETY: The caller guarantees the size.
    let size = unsafe { at.cast::<usize>().read() };
    if size < least || size > MOST_SIZE {
        return Err(Status::BadSize.into());
    }
    // SAFETY: The caller guarantees as many bytes.
    let given = unsafe { slice::from_raw_parts(at.cast::<MaybeUninit<u8>>().as_ptr(), size) };
    let known = size.min(size_of::<T>());
    let mut unknown = given[known..].iter();
    // SAFETY: After the fields that this library knows the header's struct has whole fields without gaps.
    if unknown.any(|byte| unsafe { byte.assume_init() } != 0) {
        return Err(Status::BadSize.into());
    }
    let mut read = default;
    // SAFETY: Both have as many bytes, and any bytes of C's are a `T`.
    unsafe {
        at.cast::<u8>()
            .copy_to_nonoverlapping(NonNull::from(&mut read).cast(), known)
    };
    Ok(read)
}

/// Writes a struct, as much of it as the caller has memory for. Bytes that this library doesn't know become 0.
///
/// # Safety
///
/// If the address isn't null, there is memory for as many bytes.
pub(crate) unsafe fn write_sized<T: Copy>(
    at: *mut T,
    value: &T,
    size: usize,
) -> Result<(), Refusal> {
    if size > MOST_SIZE {
        return Err(Status::BadSize.into());
    }
    let at = NonNull::new(at).ok_or(Status::Null)?.cast::<u8>();
    let known = size.min(size_of::<T>());
    // SAFETY: The caller guarantees the memory.
    unsafe {
        NonNull::from(value)
            .cast()
            .copy_to_nonoverlapping(at, known);
        at.add(known).write_bytes(0, size - known);
    }
    Ok(())
}

/// Where C wants something written, which may have no value before.
pub(crate) struct Place<T>(NonNull<T>);

impl<T> Place<T> {
    /// The memory at an address.
    ///
    /// # Safety
    ///
    /// If the address isn't null, there is memory for a `T` as long as the place is used.
    pub(crate) unsafe fn of(at: *mut T) -> Result<Place<T>, Refusal> {
        Ok(Place(NonNull::new(at).ok_or(Status::Null)?))
    }

    /// Writes it.
    pub(crate) fn put(&self, value: T) {
        // SAFETY: Who made the place owes the memory.
        unsafe { self.0.write(value) }
    }
}

/// Room of C's for many items, which may have no values before.
pub(crate) struct Room<T> {
    at: *mut T,
    count: usize,
    /// The number of items written.
    filled: usize,
}

impl<T: Copy> Room<T> {
    /// The memory at an address.
    ///
    /// # Safety
    ///
    /// If the address isn't null, there is memory for that number of items as long as this is used.
    pub(crate) unsafe fn of(at: *mut T, count: usize) -> Result<Room<T>, Refusal> {
        if at.is_null() && count > 0 {
            return Err(Status::Null.into());
        }
        // No memory is larger than that.
        let count = count.min(isize::MAX as usize / size_of::<T>());
        Ok(Room {
            at,
            count,
            filled: 0,
        })
    }

    /// The number of items written.
    pub(crate) fn filled(&self) -> usize {
        self.filled
    }

    /// The number of items that still fit.
    pub(crate) fn left(&self) -> usize {
        self.count - self.filled
    }

    /// All of it, to be written by others.
    pub(crate) fn whole(&mut self) -> &mut [MaybeUninit<T>] {
        if self.count == 0 {
            return &mut [];
        }
        // SAFETY: Whoever made this owes the memory, which overlaps nothing else that is used meanwhile.
        unsafe { slice::from_raw_parts_mut(self.at.cast(), self.count) }
    }

    /// Writes items after the others, as many as fit.
    pub(crate) fn push(&mut self, items: &[T]) {
        let count = items.len().min(self.left());
        if count > 0 {
            // SAFETY: Whoever made this owes the memory, and it is C's own: no borrow of the library's lies there.
            unsafe {
                let place = self.at.add(self.filled);
                place.copy_from_nonoverlapping(items.as_ptr(), count);
            }
            self.filled += count;
        }
    }
}

#[cfg(test)]
mod tests {
    use super::*;
    use std::ptr;

    #[test]
    fn null_is_refused_where_something_is_read_or_written() {
        // SAFETY: No memory is looked at.
        unsafe {
            assert!(text(ptr::null(), 0).is_ok_and(<[u8]>::is_empty));
            let refused = [
                text(ptr::null(), 1).map(drop),
                text(ptr::null(), usize::MAX).map(drop),
                items::<u64>(ptr::null(), usize::MAX / 4).map(drop),
                Place::<u64>::of(ptr::null_mut()).map(drop),
                Room::<u8>::of(ptr::null_mut(), 1).map(drop),
                Room::<u8>::of(ptr::null_mut(), 0).map(drop),
            ];
            let statuses = refused.map(|it| it.err().map(|refusal| refusal.status));
            let (null, long) = (Some(Status::Null), Some(Status::TooLong));
            assert_eq!(statuses, [null, long, long, null, null, None]);
        }
    }

    #[test]
    fn a_room_takes_what_fits() {
        let mut memory = [7u8; 4];
        // SAFETY: It is as large as is said, but for its last byte.
        let mut room = unsafe { Room::of(memory.as_mut_ptr(), 3) }.ok().unwrap();
        room.push(b"ab");
        room.push(b"");
        assert_eq!((room.filled(), room.left()), (2, 1));
        room.push(b"cd");
        assert_eq!((room.filled(), room.left()), (3, 0));
        assert_eq!(&memory, b"abc\x07");
    }
}
