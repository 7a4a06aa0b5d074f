//! [`Cursor`], and the functions of `struct ucstore_db_cursor`.

use crate::call::{call, Refusal};
use crate::handle::{CursorHandle, DbHandle, Handle, SnapshotHandle};
use crate::memory::{text, Place, Room};
use crate::status::Status;
use db::ucstore::end_of_prefix;
use db::{Error, Rows, Snapshot};
use std::ffi::{c_char, c_void};
use std::ops::Bound;
use std::ptr;
use std::slice;

/// A cursor over a range of keys, positioned at a row.
pub struct Cursor {
    snapshot: Snapshot,
    low: Vec<u8>,
    high: Option<Vec<u8>>,
    /// The rows from the cursor's on, in its direction.
    rows: Rows,
    direction: Direction,
    /// The row that `rows` lent last; none beyond the first and the last row.
    row: Option<Row>,
    /// Why no row could be fetched, if that is so.
    failure: Option<Error>,
}

/// Where the rows of a cursor lead.
#[derive(Clone, Copy, PartialEq, Eq)]
enum Direction {
    Forward,
    Back,
}

/// A key and its value, which lie in the page of the rows.
#[derive(Clone, Copy)]
struct Row {
    key: Lent,
    value: Lent,
}

/// Bytes that are lent.
#[derive(Clone, Copy)]
struct Lent {
    at: *const u8,
    length: usize,
}

// SAFETY: It leads to a page that the cursor owns, wherever that is.
unsafe impl Send for Lent {}

impl From<&[u8]> for Lent {
    fn from(text: &[u8]) -> Lent {
        Lent {
            at: text.as_ptr(),
            length: text.len(),
        }
    }
}

impl Cursor {
    /// One at the first row of a range of a snapshot.
    fn of(snapshot: Snapshot, low: &[u8], high: Option<&[u8]>) -> Result<Cursor, Refusal> {
        let mut cursor = Cursor {
            rows: snapshot.range::<&[u8]>((Bound::Included(low), below(high)))?,
            snapshot,
            low: low.to_vec(),
            high: high.map(<[u8]>::to_vec),
            direction: Direction::Forward,
            row: None,
            failure: None,
        };
        cursor.take()?;
        Ok(cursor)
    }

    /// Moves to the first row of the range at or above a key.
    fn seek(&mut self, key: &[u8]) -> Result<(), Refusal> {
        let rows = self.rows_from(Bound::Included(key.max(&self.low)));
        self.start(rows, Direction::Forward)
    }

    /// Moves to the last row of the range at or below a key.
    fn seek_for_prev(&mut self, key: &[u8]) -> Result<(), Refusal> {
        let high = match self.high.as_deref() {
            Some(high) if high <= key => Bound::Excluded(high),
            _ => Bound::Included(key),
        };
        let rows = self.rows_to(high);
        self.start(rows, Direction::Back)
    }

    /// Moves to the first or the last row of the range.
    fn rewind(&mut self, direction: Direction) -> Result<(), Refusal> {
        let rows = self.rows_from(Bound::Included(&self.low));
        self.start(rows, direction)
    }

    /// The rows of the range from a key on.
    fn rows_from(&self, low: Bound<&[u8]>) -> Result<Rows, Error> {
        self.snapshot
            .range::<&[u8]>((low, below(self.high.as_deref())))
    }

    /// The rows of the range up to a key.
    fn rows_to(&self, high: Bound<&[u8]>) -> Result<Rows, Error> {
        self.snapshot
            .range::<&[u8]>((Bound::Included(self.low.as_slice()), high))
    }

    /// Moves to the first or the last one of these rows.
    fn start(&mut self, rows: Result<Rows, Error>, direction: Direction) -> Result<(), Refusal> {
        self.row = None;
        self.failure = None;
        self.rows = rows?;
        self.direction = direction;
        self.take()
    }

    /// Moves to the next row.
    fn step(&mut self) -> Result<(), Refusal> {
        match self.row() {
            Some((key, _)) if self.direction == Direction::Back => {
                let rows = self.rows_from(Bound::Excluded(key));
                self.start(rows, Direction::Forward)
            }
            Some(_) => self.take(),
            None => Ok(()),
        }
    }

    /// Moves to the row before.
    fn step_back(&mut self) -> Result<(), Refusal> {
        match self.row() {
            Some((key, _)) if self.direction == Direction::Forward => {
                let rows = self.rows_to(Bound::Excluded(key));
                self.start(rows, Direction::Back)
            }
            Some(_) => self.take(),
            None => Ok(()),
        }
    }

    /// Takes the next one of the rows.
    fn take(&mut self) -> Result<(), Refusal> {
        self.row = None;
        let row = match self.direction {
            Direction::Forward => self.rows.next_row(),
            Direction::Back => self.rows.next_row_back(),
        };
        match row {
            Ok(row) => {
                self.row = row.map(|(key, value)| Row {
                    key: key.into(),
                    value: value.into(),
                });
                Ok(())
            }
            Err(error) => {
                let error = Error::from(error);
                self.failure = Some(error.clone());
                Err(error.into())
            }
        }
    }

    /// The row at which it stands.
    fn row(&self) -> Option<(&[u8], &[u8])> {
        // SAFETY: `rows` lent both until its next call, and each such call comes after a change of `row`.
        let text = |lent: Lent| unsafe { slice::from_raw_parts(lent.at, lent.length) };
        self.row.map(|row| (text(row.key), text(row.value)))
    }

    /// Copies rows in the cursor's direction, each as a key and a value, with the lengths of both, and moves past them.
    fn copy(&mut self, page: &mut Page) -> Result<(), Refusal> {
        while let Some((key, value)) = self.row() {
            if !page.add(key, value) {
                break;
            }
            self.take()?;
        }
        Ok(())
    }
}

/// Rows that are copied: the lengths of each key and each value, and their bytes.
pub(crate) struct Page {
    pub(crate) lengths: Room<u64>,
    pub(crate) bytes: Room<u8>,
}

impl Page {
    /// Adds a row, and tells whether it fitted.
    pub(crate) fn add(&mut self, key: &[u8], value: &[u8]) -> bool {
        if self.lengths.left() < 2 || self.bytes.left() < key.len() + value.len() {
            return false;
        }
        for text in [key, value] {
            self.bytes.push(text);
            self.lengths.push(&[text.len() as u64]);
        }
        true
    }

    /// The number of rows.
    pub(crate) fn rows(&self) -> usize {
        self.lengths.filled() / 2
    }
}

/// The bounds of a range: the second one is none if it isn't bounded.
///
/// # Safety
///
/// As for [`text`].
pub(crate) unsafe fn bounds<'a>(
    low: *const c_void,
    low_length: usize,
    high: *const c_void,
    high_length: usize,
    bounded: bool,
) -> Result<(&'a [u8], Option<&'a [u8]>), Refusal> {
    // SAFETY: The caller guarantees this.
    let (low, high) = unsafe {
        let high = bounded.then(|| text(high, high_length)).transpose()?;
        (text(low, low_length)?, high)
    };
    Ok((low, high))
}

/// The end of a range below a key, if there is one.
pub(crate) fn below(high: Option<&[u8]>) -> Bound<&[u8]> {
    high.map_or(Bound::Unbounded, Bound::Excluded)
}

/// Creates a cursor over a range of the current state of a database.
#[no_mangle]
pub unsafe extern "C" fn ucstore_db_cursor(
    db: *const DbHandle,
    low: *const c_void,
    low_length: usize,
    high: *const c_void,
    high_length: usize,
    bounded: bool,
    cursor: *mut *mut CursorHandle,
) -> i32 {
    call(|| {
        // SAFETY: The caller guarantees the handle, the byte strings and the memory.
        let (db, (low, high), place) = unsafe {
            let bounds = bounds(low, low_length, high, high_length, bounded)?;
            (Handle::get(db)?, bounds, Place::of(cursor)?)
        };
        place.put(Handle::begin(Cursor::of(
            db.snapshot_to_scan()?,
            low,
            high,
        )?));
        Ok(())
    })
}

/// Creates a cursor over the keys with a prefix, of the current state of a database.
#[no_mangle]
pub unsafe extern "C" fn ucstore_db_prefix(
    db: *const DbHandle,
    prefix: *const c_void,
    prefix_length: usize,
    cursor: *mut *mut CursorHandle,
) -> i32 {
    call(|| {
        // SAFETY: The caller guarantees the handle, the bytes and the memory.
        let (db, prefix, place) = unsafe {
            let prefix = text(prefix, prefix_length)?;
            (Handle::get(db)?, prefix, Place::of(cursor)?)
        };
        let high = end_of_prefix(prefix);
        let found = Cursor::of(db.snapshot_to_scan()?, prefix, high.as_deref())?;
        place.put(Handle::begin(found));
        Ok(())
    })
}

/// Creates a cursor over a range of a snapshot.
#[no_mangle]
pub unsafe extern "C" fn ucstore_db_snapshot_cursor(
    snapshot: *const SnapshotHandle,
    low: *const c_void,
    low_length: usize,
    high: *const c_void,
    high_length: usize,
    bounded: bool,
    cursor: *mut *mut CursorHandle,
) -> i32 {
    call(|| {
        // SAFETY: The caller guarantees the handle, the byte strings and the memory.
        let (snapshot, (low, high), place) = unsafe {
            let bounds = bounds(low, low_length, high, high_length, bounded)?;
            (SnapshotHandle::lock(snapshot)?, bounds, Place::of(cursor)?)
        };
        place.put(Handle::begin(Cursor::of(snapshot.again()?, low, high)?));
        Ok(())
    })
}

/// Creates a cursor over the keys of a snapshot with a prefix.
#[no_mangle]
pub unsafe extern "C" fn ucstore_db_snapshot_prefix(
    snapshot: *const SnapshotHandle,
    prefix: *const c_void,
    prefix_length: usize,
    cursor: *mut *mut CursorHandle,
) -> i32 {
    call(|| {
        // SAFETY: The caller guarantees the handle, the bytes and the memory.
        let (snapshot, prefix, place) = unsafe {
            let prefix = text(prefix, prefix_length)?;
            (SnapshotHandle::lock(snapshot)?, prefix, Place::of(cursor)?)
        };
        let high = end_of_prefix(prefix);
        let found = Cursor::of(snapshot.again()?, prefix, high.as_deref())?;
        place.put(Handle::begin(found));
        Ok(())
    })
}

/// Moves to the first row at or above a key.
#[no_mangle]
pub unsafe extern "C" fn ucstore_db_cursor_seek(
    cursor: *mut CursorHandle,
    key: *const c_void,
    key_length: usize,
) -> i32 {
    call(|| {
        // SAFETY: The caller guarantees the handle, which no other call uses, and the bytes.
        let (cursor, key) = unsafe { (Handle::get_mut(cursor)?, text(key, key_length)?) };
        cursor.seek(key)
    })
}

/// Moves to the last row at or below a key.
#[no_mangle]
pub unsafe extern "C" fn ucstore_db_cursor_seek_for_prev(
    cursor: *mut CursorHandle,
    key: *const c_void,
    key_length: usize,
) -> i32 {
    call(|| {
        // SAFETY: The caller guarantees the handle, which no other call uses, and the key.
        let (cursor, key) = unsafe { (Handle::get_mut(cursor)?, text(key, key_length)?) };
        cursor.seek_for_prev(key)
    })
}

/// Moves to the first row.
#[no_mangle]
pub unsafe extern "C" fn ucstore_db_cursor_first(cursor: *mut CursorHandle) -> i32 {
    // SAFETY: The caller guarantees the handle, which no other call uses.
    call(|| unsafe { Handle::get_mut(cursor) }?.rewind(Direction::Forward))
}

/// Moves to the last row.
#[no_mangle]
pub unsafe extern "C" fn ucstore_db_cursor_last(cursor: *mut CursorHandle) -> i32 {
    // SAFETY: The caller guarantees the handle, which no other call uses.
    call(|| unsafe { Handle::get_mut(cursor) }?.rewind(Direction::Back))
}

/// Moves to the row before.
#[no_mangle]
pub unsafe extern "C" fn ucstore_db_cursor_prev(cursor: *mut CursorHandle) -> i32 {
    // SAFETY: The caller guarantees the handle, which no other call uses.
    call(|| unsafe { Handle::get_mut(cursor) }?.step_back())
}

/// Moves to the next row.
#[no_mangle]
pub unsafe extern "C" fn ucstore_db_cursor_next(cursor: *mut CursorHandle) -> i32 {
    // SAFETY: The caller guarantees the handle, which no other call uses.
    call(|| unsafe { Handle::get_mut(cursor) }?.step())
}

/// Returns true if the cursor is positioned at a row.
#[no_mangle]
pub unsafe extern "C" fn ucstore_db_cursor_valid(cursor: *const CursorHandle) -> bool {
    // SAFETY: The caller guarantees the handle, which no other call changes.
    unsafe { Handle::get(cursor) }.is_ok_and(|cursor| cursor.row.is_some())
}

/// Returns a pointer to the key of the row, valid until the cursor is moved or closed.
#[no_mangle]
pub unsafe extern "C" fn ucstore_db_cursor_key(
    cursor: *const CursorHandle,
    length: *mut usize,
) -> *const c_char {
    // SAFETY: The caller guarantees the handle, which no other call changes, and the memory.
    unsafe { lend(cursor, length, |row| row.key) }
}

/// Returns a pointer to the value of the row, valid until the cursor is moved or closed.
#[no_mangle]
pub unsafe extern "C" fn ucstore_db_cursor_value(
    cursor: *const CursorHandle,
    length: *mut usize,
) -> *const c_char {
    // SAFETY: The caller guarantees the handle, which no other call changes, and the memory.
    unsafe { lend(cursor, length, |row| row.value) }
}

/// Lends a key or a value of the row: null and a length of 0 if there is none.
///
/// # Safety
///
/// As for [`Handle::get`] and [`Place::of`].
unsafe fn lend(
    cursor: *const CursorHandle,
    length: *mut usize,
    part: impl FnOnce(Row) -> Lent,
) -> *const c_char {
    // SAFETY: The caller guarantees this.
    let (cursor, place) = unsafe { (Handle::get(cursor), Place::of(length)) };
    let nothing = Lent {
        at: ptr::null(),
        length: 0,
    };
    let row = cursor.ok().and_then(|cursor| cursor.row);
    let lent = row.map_or(nothing, part);
    if let Ok(place) = place {
        place.put(lent.length);
    }
    lent.at.cast()
}

/// Returns the error of the last move, if it failed.
#[no_mangle]
pub unsafe extern "C" fn ucstore_db_cursor_status(cursor: *const CursorHandle) -> i32 {
    call(|| {
        // SAFETY: The caller guarantees the handle, which no other call changes.
        match &unsafe { Handle::get(cursor) }?.failure {
            Some(error) => Err(error.clone().into()),
            None => Ok(()),
        }
    })
}

/// Copies rows, starting at the current one, in the direction of the last move, and moves past them.
#[no_mangle]
pub unsafe extern "C" fn ucstore_db_cursor_page(
    cursor: *mut CursorHandle,
    lengths: *mut u64,
    lengths_count: usize,
    room: *mut c_void,
    room_length: usize,
    rows: *mut usize,
    size: *mut usize,
) -> i32 {
    call(|| {
        // SAFETY: The caller guarantees the handle, which no other call uses, and the memory.
        let (cursor, mut page, rows, size) = unsafe {
            let page = Page {
                lengths: Room::of(lengths, lengths_count)?,
                bytes: Room::of(room.cast(), room_length)?,
            };
            let places = (Place::of(rows)?, Place::of(size)?);
            (Handle::get_mut(cursor)?, page, places.0, places.1)
        };
        cursor.copy(&mut page)?;
        if let (0, Some((key, value))) = (page.rows(), cursor.row()) {
            size.put(key.len() + value.len());
            return Err(Status::Room.into());
        }
        rows.put(page.rows());
        size.put(page.bytes.filled());
        Ok(())
    })
}

/// Frees a cursor.
#[no_mangle]
pub unsafe extern "C" fn ucstore_db_cursor_close(cursor: *mut CursorHandle) -> i32 {
    call(|| {
        // SAFETY: The caller guarantees the handle, which no other call uses.
        drop(unsafe { Handle::end(cursor) }?);
        Ok(())
    })
}
