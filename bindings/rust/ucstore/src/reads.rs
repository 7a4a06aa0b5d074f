//! [`Reads`]: what the functions that read a handle answer.

use crate::error::{check, Error};
use crate::lookup_source::LookupSource;
use crate::memory::{copy, zeros};
use crate::source::Buffer;
use crate::sys;
use std::mem::MaybeUninit;
use std::slice;

/// The bytes of a value for which a lookup doesn't ask twice.
const USUAL_VALUE: usize = 512;

/// The bytes for each of many values for which their lookup doesn't ask twice.
const USUAL_SHARE: usize = 256;

/// The library's answer for a key without a value.
const NO_VALUE: u64 = u64::MAX;

type Get<H> = unsafe extern "C" fn(*mut H, *const u8, usize, *mut u8, usize, *mut usize) -> i32;
type TellSource<H> = unsafe extern "C" fn(*mut H, *const u8, usize, *mut u32) -> i32;
type GetAt<H> =
    unsafe extern "C" fn(*mut H, *const u8, usize, u64, *mut u8, usize, *mut usize) -> i32;
type GetMany<H> = unsafe extern "C" fn(
    *mut H,
    *const u8,
    usize,
    *const u64,
    usize,
    *mut u64,
    usize,
    *mut u8,
    usize,
    *mut usize,
) -> i32;
pub(crate) type ScanRows<H> = unsafe extern "C" fn(
    *mut H,
    *const u8,
    usize,
    *const u8,
    usize,
    bool,
    u64,
    *mut u8,
    usize,
    *mut usize,
    *mut u64,
) -> i32;
type ScanRowsAt<H> = unsafe extern "C" fn(
    *mut H,
    *const u8,
    usize,
    *const u8,
    usize,
    bool,
    u64,
    u64,
    *mut u8,
    usize,
    *mut usize,
    *mut u64,
) -> i32;

/// The functions that read a handle.
pub(crate) struct Functions<H> {
    pub(crate) get: Get<H>,
    pub(crate) source: TellSource<H>,
    pub(crate) get_at: GetAt<H>,
    pub(crate) get_many: GetMany<H>,
    pub(crate) scan: ScanRows<H>,
    pub(crate) scan_at: ScanRowsAt<H>,
}

/// A handle, with the functions that read it. Nothing else calls for the handle meanwhile.
pub(crate) struct Reads<H: 'static> {
    pub(crate) handle: *mut H,
    pub(crate) functions: &'static Functions<H>,
}

/// Where the rows of a page are.
pub(crate) struct Range<'a> {
    pub(crate) low: &'a [u8],
    /// Without it the rows go on to the last one.
    pub(crate) high: Option<&'a [u8]>,
    /// The sequence of a snapshot, or the last one.
    pub(crate) at: Option<u64>,
    /// The most rows.
    pub(crate) limit: u64,
}

impl<H> Reads<H> {
    /// The value under a key, if there is one.
    pub(crate) fn get(&self, key: &[u8]) -> Result<Option<Vec<u8>>, Error> {
        value_by(|room| self.get_to_room(key, room))
    }

    /// Puts the value under a key into a vector, which is empty without one, and tells whether there is one.
    pub(crate) fn get_into(&self, key: &[u8], value: &mut Vec<u8>) -> Result<bool, Error> {
        value.clear();
        while let Some(size) = self.get_to_room(key, value.spare_capacity_mut())? {
            if size <= value.capacity() {
                // SAFETY: The library has copied that number of bytes there.
                unsafe { value.set_len(size) };
                return Ok(true);
            }
            value.try_reserve(size)?;
        }
        Ok(false)
    }

    /// Copies the value of a key into a buffer, as much of it as fits. Returns the size of all of it, if there
    /// is one.
    pub(crate) fn get_to_room(
        &self,
        key: &[u8],
        room: &mut [MaybeUninit<u8>],
    ) -> Result<Option<usize>, Error> {
        let mut size = 0;
        let status = unsafe {
            (self.functions.get)(
                self.handle,
                key.as_ptr(),
                key.len(),
                room.as_mut_ptr().cast(),
                room.len(),
                &mut size,
            )
        };
        found(status, size)
    }

    /// Where a lookup of a key is answered.
    pub(crate) fn source(&self, key: &[u8]) -> Result<LookupSource, Error> {
        let mut source = 0;
        check(unsafe {
            (self.functions.source)(self.handle, key.as_ptr(), key.len(), &mut source)
        })?;
        LookupSource::of(source)
    }

    /// The value under a key at a snapshot, if there is one.
    pub(crate) fn get_at(&self, key: &[u8], at: u64) -> Result<Option<Vec<u8>>, Error> {
        value_by(|room| {
            let mut size = 0;
            let status = unsafe {
                (self.functions.get_at)(
                    self.handle,
                    key.as_ptr(),
                    key.len(),
                    at,
                    room.as_mut_ptr().cast(),
                    room.len(),
                    &mut size,
                )
            };
            found(status, size)
        })
    }

    /// For each key its value, if there is one.
    pub(crate) fn get_many<K: AsRef<[u8]>>(
        &self,
        keys: impl IntoIterator<Item = K>,
    ) -> Result<Vec<Option<Vec<u8>>>, Error> {
        let (mut bytes, mut key_lengths) = (Vec::new(), Vec::new());
        for key in keys {
            let key = key.as_ref();
            bytes.try_reserve(key.len())?;
            bytes.extend_from_slice(key);
            key_lengths.try_reserve(1)?;
            key_lengths.push(key.len() as u64);
        }
        let mut value_lengths = zeros(key_lengths.len())?;
        let (mut room, mut size) = (zeros(USUAL_SHARE * key_lengths.len())?, 0);
        loop {
            check(unsafe {
                (self.functions.get_many)(
                    self.handle,
                    bytes.as_ptr(),
                    bytes.len(),
                    key_lengths.as_ptr(),
                    key_lengths.len(),
                    value_lengths.as_mut_ptr(),
                    value_lengths.len(),
                    room.as_mut_ptr(),
                    room.len(),
                    &mut size,
                )
            })?;
            if size <= room.len() {
                return cut_values(&room, &value_lengths);
            }
            room = zeros(size)?;
        }
    }

    /// Calls a function that scans a range at the last sequence: the number of rows that fit the buffer, and the size of all.
    pub(crate) fn rows_by(
        &self,
        scan: ScanRows<H>,
        range: &Range<'_>,
        buffer: Buffer<'_>,
    ) -> Result<(u64, usize), Error> {
        let (mut size, mut rows) = (0, 0);
        let high = range.high.unwrap_or(&[]);
        // SAFETY: The addresses are those of slices, and nothing else calls for the handle meanwhile.
        check(unsafe {
            scan(
                self.handle,
                range.low.as_ptr(),
                range.low.len(),
                high.as_ptr(),
                high.len(),
                range.high.is_some(),
                range.limit,
                buffer.as_mut_ptr().cast(),
                buffer.len(),
                &mut size,
                &mut rows,
            )
        })?;
        Ok((rows, size))
    }

    /// The first rows of a range, as many as fit the buffer: how many these are, and the size of all.
    pub(crate) fn rows(&self, range: &Range<'_>, room: Buffer<'_>) -> Result<(u64, usize), Error> {
        let Some(at) = range.at else {
            return self.rows_by(self.functions.scan, range, room);
        };
        let (mut size, mut rows) = (0, 0);
        let high = range.high.unwrap_or(&[]);
        // SAFETY: The addresses are those of slices, and nothing else calls for the handle meanwhile.
        check(unsafe {
            (self.functions.scan_at)(
                self.handle,
                range.low.as_ptr(),
                range.low.len(),
                high.as_ptr(),
                high.len(),
                range.high.is_some(),
                at,
                range.limit,
                room.as_mut_ptr().cast(),
                room.len(),
                &mut size,
                &mut rows,
            )
        })?;
        Ok((rows, size))
    }
}

/// The size of the value that a lookup found, if there is one.
fn found(status: i32, size: usize) -> Result<Option<usize>, Error> {
    match status {
        sys::UCSTORE_NOT_FOUND => Ok(None),
        status => check(status).map(|()| Some(size)),
    }
}

/// The value that a lookup copies into a buffer, if there is one. It returns the size of all of it.
fn value_by(
    mut lookup: impl FnMut(&mut [MaybeUninit<u8>]) -> Result<Option<usize>, Error>,
) -> Result<Option<Vec<u8>>, Error> {
    let mut room = [MaybeUninit::uninit(); USUAL_VALUE];
    let Some(size) = lookup(&mut room)? else {
        return Ok(None);
    };
    if size <= USUAL_VALUE {
        // SAFETY: The library has copied that number of bytes there.
        let value = unsafe { slice::from_raw_parts(room.as_ptr().cast::<u8>(), size) };
        return copy(value).map(Some);
    }
    let mut value = Vec::new();
    value.try_reserve_exact(size)?;
    let again = lookup(value.spare_capacity_mut())?;
    assert_eq!(again, Some(size), "nothing is written meanwhile");
    // SAFETY: The library has copied that number of bytes there.
    unsafe { value.set_len(size) };
    Ok(Some(value))
}

/// The values of a buffer, one after the other.
fn cut_values(mut buffer: &[u8], lengths: &[u64]) -> Result<Vec<Option<Vec<u8>>>, Error> {
    let mut values = Vec::new();
    values.try_reserve_exact(lengths.len())?;
    for length in lengths {
        if *length == NO_VALUE {
            values.push(None);
            continue;
        }
        let (value, rest) = buffer.split_at(*length as usize);
        buffer = rest;
        values.push(Some(copy(value)?));
    }
    Ok(values)
}
