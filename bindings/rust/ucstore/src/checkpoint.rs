//! [`Checkpoint`]: the rows of a view as a log, piece by piece.

use crate::error::{check, Error};
use crate::sys;
use crate::view::View;
use std::fmt;
use std::iter::FusedIterator;
use std::ptr;

/// The most rows of the first piece, and of any.
const FIRST_ROWS: u64 = 16;
const MOST_ROWS: u64 = 4096;

/// The most bytes of a piece of several rows.
const ROOM_BYTES: usize = 64 * 1024;

/// The rows of a view at its last sequence number as a write-ahead log, piece by piece, from [`View::checkpoint`].
///
/// [`Store::open`](crate::Store::open) opens a store of exactly these rows from the concatenated pieces. The rows are
/// numbered from 1. Their number is at most the view's last sequence number, so later batches can follow them in the same log.
///
/// As an iterator it copies each piece. [`next_piece`](Checkpoint::next_piece) returns a reference instead:
///
/// ```
/// # use ucstore::{Ended, Operator, Options, Store};
/// # fn main() -> Result<(), ucstore::Error> {
/// let store = Store::create(Operator::Append, &Options::default())?;
/// store.put("colour", "red")?;
/// store.merge("colour", "blue")?;
/// let mut log = Vec::new();
/// let mut checkpoint = store.view()?.checkpoint()?;
/// while let Some(piece) = checkpoint.next_piece()? {
///     log.extend_from_slice(piece);
/// }
///
/// let (again, ended) = Store::open(Operator::Append, &Options::default(), &log)?;
/// assert_eq!((ended, again.last()), (Ended::Clean, 1));
/// assert_eq!(again.get("colour")?, Some(b"red,blue".to_vec()));
/// # Ok(())
/// # }
/// ```
pub struct Checkpoint {
    handle: sys::ucstore_checkpoint,
    /// The number of bytes of the pieces so far.
    length: u64,
    /// The most rows of the next piece.
    rows: u64,
    room: Vec<u8>,
    /// Whether no piece comes any more.
    is_done: bool,
}

// The library lets handles go from thread to thread.
unsafe impl Send for Checkpoint {}

impl Checkpoint {
    pub(crate) fn of(view: &View) -> Result<Checkpoint, Error> {
        let mut checkpoint = Checkpoint {
            handle: sys::ucstore_checkpoint {
                at: ptr::null_mut(),
            },
            length: 0,
            rows: FIRST_ROWS,
            room: vec![0; ROOM_BYTES],
            is_done: false,
        };
        check(unsafe { sys::ucstore_checkpoint(view.handle(), &mut checkpoint.handle) })?;
        Ok(checkpoint)
    }

    /// Returns the next bytes of the log, valid until the next call, or `None` after the last row.
    ///
    /// # Errors
    ///
    /// [`Error::TooLong`], [`Error::OutOfMemory`]. After an error there are no more pieces.
    pub fn next_piece(&mut self) -> Result<Option<&[u8]>, Error> {
        if self.is_done {
            return Ok(None);
        }
        let size = self.lay_out().inspect_err(|_| self.is_done = true)?;
        Ok(size.map(|size| &self.room[..size]))
    }

    /// Lays the next piece out in the buffer, and returns its size in bytes. It has fewer rows if it doesn't fit, and the
    /// buffer grows for a single one.
    fn lay_out(&mut self) -> Result<Option<usize>, Error> {
        loop {
            let mut size = 0;
            let room = match self.rows {
                1 => self.room.len(),
                _ => ROOM_BYTES,
            };
            let status = unsafe {
                sys::ucstore_checkpoint_next(
                    &mut self.handle,
                    self.length,
                    self.rows,
                    self.room.as_mut_ptr(),
                    room,
                    &mut size,
                    &mut self.is_done,
                )
            };
            match (status, self.rows) {
                (sys::UCSTORE_ROOM, 1) => self.room.resize(size, 0),
                (sys::UCSTORE_ROOM, rows) => self.rows = rows / 2,
                _ => {
                    check(status)?;
                    if size <= ROOM_BYTES / 4 {
                        self.rows = MOST_ROWS.min(2 * self.rows);
                    }
                    self.length += size as u64;
                    return Ok((!self.is_done).then_some(size));
                }
            }
        }
    }
}

impl Iterator for Checkpoint {
    type Item = Result<Vec<u8>, Error>;

    fn next(&mut self) -> Option<Self::Item> {
        self.next_piece()
            .map(|piece| piece.map(<[u8]>::to_vec))
            .transpose()
    }
}

impl FusedIterator for Checkpoint {}

impl Drop for Checkpoint {
    fn drop(&mut self) {
        // One that wasn't begun answers that it isn't there.
        unsafe { sys::ucstore_checkpoint_close(&mut self.handle) };
    }
}

impl fmt::Debug for Checkpoint {
    fn fmt(&self, formatter: &mut fmt::Formatter<'_>) -> fmt::Result {
        formatter
            .debug_struct("Checkpoint")
            .field("length", &self.length)
            .finish_non_exhaustive()
    }
}
