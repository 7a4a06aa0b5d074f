//! [`Batch`]: operations that a store writes atomically.

use crate::error::{check, Error};
use crate::sys;
use std::cell::UnsafeCell;
use std::fmt;
use std::ptr;

/// Operations that a store writes atomically. A batch may be written more than once.
///
/// ```
/// # fn main() -> Result<(), ucstore::Error> {
/// let mut batch = ucstore::Batch::new();
/// batch.put("colour", "blue")?.delete("size")?.merge("tags", "new")?.delete_range("a", "b")?;
/// assert_eq!(batch.len(), 4);
/// # Ok(())
/// # }
/// ```
///
/// A batch may move between threads (`Send`), but threads can't share it (`!Sync`).
pub struct Batch {
    handle: UnsafeCell<sys::ucstore_batch>,
}

// The library lets handles go from thread to thread. Its batch is reached through it alone.
unsafe impl Send for Batch {}

impl Batch {
    /// Creates an empty batch.
    pub fn new() -> Batch {
        Batch {
            handle: UnsafeCell::new(sys::ucstore_batch {
                at: ptr::null_mut(),
            }),
        }
    }

    /// Adds a put.
    ///
    /// # Errors
    ///
    /// [`Error::TooLong`] if the key or the value has 2^32 bytes or more, [`Error::BatchFull`] after 2^32 - 1 operations,
    /// [`Error::OutOfMemory`]. On an error the batch is unchanged.
    pub fn put(
        &mut self,
        key: impl AsRef<[u8]>,
        value: impl AsRef<[u8]>,
    ) -> Result<&mut Batch, Error> {
        self.push(sys::ucstore_batch_put, key.as_ref(), value.as_ref())
    }

    /// Adds a merge.
    ///
    /// Under [`Operator::Mixed`](crate::Operator::Mixed), bytes that are not an [`Operand`](crate::Operand) replace the value.
    ///
    /// # Errors
    ///
    /// Those of [`put`](Batch::put).
    pub fn merge(
        &mut self,
        key: impl AsRef<[u8]>,
        operand: impl AsRef<[u8]>,
    ) -> Result<&mut Batch, Error> {
        self.push(sys::ucstore_batch_merge, key.as_ref(), operand.as_ref())
    }

    /// Adds a deletion.
    ///
    /// # Errors
    ///
    /// Those of [`put`](Batch::put).
    pub fn delete(&mut self, key: impl AsRef<[u8]>) -> Result<&mut Batch, Error> {
        let key = key.as_ref();
        check(unsafe { sys::ucstore_batch_delete(self.handle(), key.as_ptr(), key.len()) })?;
        Ok(self)
    }

    /// Adds a deletion of all keys from `begin` (inclusive) to `end` (exclusive). The range may be empty.
    ///
    /// # Errors
    ///
    /// Those of [`put`](Batch::put).
    pub fn delete_range(
        &mut self,
        begin: impl AsRef<[u8]>,
        end: impl AsRef<[u8]>,
    ) -> Result<&mut Batch, Error> {
        self.push(
            sys::ucstore_batch_delete_range,
            begin.as_ref(),
            end.as_ref(),
        )
    }

    /// Returns the number of operations.
    pub fn len(&self) -> usize {
        let mut count = 0;
        // It always answers that it did, as the other calls without a check do.
        unsafe { sys::ucstore_batch_count(self.handle(), &mut count) };
        count as usize
    }

    /// Returns true if there are no operations.
    pub fn is_empty(&self) -> bool {
        self.len() == 0
    }

    /// Removes all operations, and keeps their memory for new ones.
    pub fn clear(&mut self) {
        unsafe { sys::ucstore_batch_clear(self.handle()) };
    }

    /// Returns the batch in RocksDB's format: 8 bytes for the sequence number of the first operation, 4 for the count, and the
    /// operations.
    ///
    /// The sequence number is 0, which means the one after the store's last one. To set another one, overwrite the 8 bytes,
    /// little-endian.
    pub fn bytes(&self) -> Vec<u8> {
        let mut bytes = Vec::new();
        self.bytes_into(&mut bytes);
        bytes
    }

    /// Returns the [`bytes`](Batch::bytes) of a batch, or an error if they do not fit the available memory.
    ///
    /// # Errors
    ///
    /// [`Error::OutOfMemory`].
    pub fn try_bytes(&self) -> Result<Vec<u8>, Error> {
        let mut bytes = Vec::new();
        bytes.try_reserve_exact(self.size())?;
        self.bytes_into(&mut bytes);
        Ok(bytes)
    }

    /// Puts the [`bytes`](Batch::bytes) into a vector, instead of what that has. Its memory is used again.
    pub fn bytes_into(&self, bytes: &mut Vec<u8>) {
        bytes.clear();
        bytes.reserve(self.size());
        let mut size = 0;
        // SAFETY: All bytes are copied there, because they fit.
        unsafe {
            sys::ucstore_batch_bytes(
                self.handle(),
                bytes.as_mut_ptr(),
                bytes.capacity(),
                &mut size,
            );
            bytes.set_len(size);
        }
    }

    /// The size of the batch in bytes.
    pub(crate) fn size(&self) -> usize {
        let mut size = 0;
        unsafe { sys::ucstore_batch_bytes(self.handle(), ptr::null_mut(), 0, &mut size) };
        size
    }

    /// The handle for a call. No call calls back, so there is only one at a time.
    pub(crate) fn handle(&self) -> *mut sys::ucstore_batch {
        self.handle.get()
    }

    /// Adds an operation of two byte strings.
    fn push(
        &mut self,
        function: unsafe extern "C" fn(
            *mut sys::ucstore_batch,
            *const u8,
            usize,
            *const u8,
            usize,
        ) -> i32,
        first: &[u8],
        second: &[u8],
    ) -> Result<&mut Batch, Error> {
        check(unsafe {
            function(
                self.handle(),
                first.as_ptr(),
                first.len(),
                second.as_ptr(),
                second.len(),
            )
        })?;
        Ok(self)
    }
}

impl Default for Batch {
    fn default() -> Batch {
        Batch::new()
    }
}

impl Drop for Batch {
    fn drop(&mut self) {
        unsafe { sys::ucstore_batch_close(self.handle()) };
    }
}

impl fmt::Debug for Batch {
    fn fmt(&self, formatter: &mut fmt::Formatter<'_>) -> fmt::Result {
        formatter
            .debug_struct("Batch")
            .field("len", &self.len())
            .finish_non_exhaustive()
    }
}
