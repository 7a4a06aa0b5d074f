//! [`RunFile`]: the file of a run that is read piece by piece; and [`LoadedRun`], the run.

use crate::error::{check, Error};
use crate::runs::RunError;
use crate::store::Store;
use crate::sys;
use std::fmt;
use std::ops::RangeInclusive;
use std::ptr;

/// The file of a run, which is read piece by piece and without a store, so that several threads can each read one.
///
/// ```
/// # use ucstore::{Operator, Options, RunFile, Store};
/// # use std::io::Read;
/// # fn main() -> Result<(), Box<dyn std::error::Error>> {
/// let store = Store::create(Operator::Append, &Options::default())?;
/// store.put("colour", "blue")?;
/// store.flush()?;
/// let view = store.view()?;
/// let mut bytes = view.runs().next().expect("there is a run").bytes()?;
///
/// let mut file = RunFile::with_capacity(bytes.size() as usize)?;
/// let mut piece = [0; 4096];
/// loop {
///     match bytes.read(&mut piece)? {
///         0 => break,
///         length => file.append(&piece[..length])?,
///     }
/// }
/// let again = Store::create(Operator::Append, &Options::default())?;
/// again.add_loaded(file.read()?)?;
/// assert_eq!(again.get("colour")?, Some(b"blue".to_vec()));
/// # Ok(())
/// # }
/// ```
pub struct RunFile {
    handle: sys::ucstore_run_file,
}

// The library lets handles go from thread to thread.
unsafe impl Send for RunFile {}

impl RunFile {
    /// Returns a file of no bytes, with memory for some.
    ///
    /// # Errors
    ///
    /// [`Error::OutOfMemory`].
    pub fn with_capacity(size: usize) -> Result<RunFile, Error> {
        let mut file = RunFile {
            handle: sys::ucstore_run_file {
                at: ptr::null_mut(),
            },
        };
        check(unsafe { sys::ucstore_run_file_open(&mut file.handle, size) })?;
        Ok(file)
    }

    /// Appends the next bytes of the file.
    ///
    /// # Errors
    ///
    /// [`Error::OutOfMemory`]. Nothing is appended.
    pub fn append(&mut self, piece: &[u8]) -> Result<(), Error> {
        check(unsafe {
            sys::ucstore_run_file_append(&mut self.handle, piece.as_ptr(), piece.len())
        })
    }

    /// Reads the run of the file's bytes, which become the run's: none is copied.
    ///
    /// # Errors
    ///
    /// [`RunError::Damaged`], with 0 as the place of the file, if the bytes are not those of a run's file; [`RunError::Failed`].
    pub fn read(mut self) -> Result<LoadedRun, RunError> {
        let (mut low, mut high, mut offset) = (0, 0, 0);
        let status = unsafe {
            sys::ucstore_run_file_read(&mut self.handle, &mut low, &mut high, &mut offset)
        };
        if status == sys::UCSTORE_RUN_DAMAGED {
            return Err(RunError::Damaged { file: 0, offset });
        }
        check(status)?;
        Ok(LoadedRun {
            file: self,
            sequences: low..=high,
        })
    }
}

impl Drop for RunFile {
    fn drop(&mut self) {
        // One that was closed already answers that it isn't there.
        unsafe { sys::ucstore_run_file_close(&mut self.handle) };
    }
}

impl fmt::Debug for RunFile {
    fn fmt(&self, formatter: &mut fmt::Formatter<'_>) -> fmt::Result {
        formatter.debug_struct("RunFile").finish_non_exhaustive()
    }
}

/// The run of a file that was read, from [`RunFile::read`]. [`Store::add_loaded`] adds it.
#[derive(Debug)]
pub struct LoadedRun {
    file: RunFile,
    sequences: RangeInclusive<u64>,
}

impl LoadedRun {
    /// Returns the range of its sequence numbers.
    pub fn sequences(&self) -> RangeInclusive<u64> {
        self.sequences.clone()
    }
}

impl Store {
    /// Adds the run of a file that was read, as [`add_run`](Store::add_run) does, and returns its ID. No byte is copied.
    ///
    /// # Errors
    ///
    /// [`RunError`], with 0 as the place of the file. Nothing is changed.
    pub fn add_loaded(&self, run: LoadedRun) -> Result<u64, RunError> {
        let (mut run, mut id) = (run, 0);
        let status =
            unsafe { sys::ucstore_add_run_file(self.handle(), &mut run.file.handle, &mut id) };
        if status == sys::UCSTORE_BAD_RUN {
            return Err(RunError::Unfit { file: 0 });
        }
        check(status)?;
        Ok(id)
    }
}
