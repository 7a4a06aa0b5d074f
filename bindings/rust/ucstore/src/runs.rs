//! [`Runs`]: the runs of a view, each of which [`RunBytes`] reads as the bytes of a file; and [`RunError`].

use crate::error::{check, Error};
use crate::options::{Operator, Options};
use crate::store::Store;
use crate::sys;
use crate::view::View;
use std::fmt;
use std::io::{self, Read};
use std::iter::FusedIterator;
use std::ops::{Range, RangeInclusive};
use std::ptr;

/// The runs of a view, the newest first, from [`View::runs`]. [`Store::from_runs`] takes them the oldest first,
/// as [`rev`](Iterator::rev) returns them.
#[derive(Clone, Debug)]
pub struct Runs<'a> {
    view: &'a View,
    places: Range<usize>,
}

impl<'a> Runs<'a> {
    pub(crate) fn of(view: &'a View) -> Runs<'a> {
        let count = usize::try_from(view.report().runs).expect("few runs");
        Runs {
            view,
            places: 0..count,
        }
    }
}

impl<'a> Iterator for Runs<'a> {
    type Item = Run<'a>;

    fn next(&mut self) -> Option<Run<'a>> {
        self.places.next().map(|place| Run::of(self.view, place))
    }

    fn size_hint(&self) -> (usize, Option<usize>) {
        self.places.size_hint()
    }
}

impl<'a> DoubleEndedIterator for Runs<'a> {
    fn next_back(&mut self) -> Option<Run<'a>> {
        self.places
            .next_back()
            .map(|place| Run::of(self.view, place))
    }
}

impl ExactSizeIterator for Runs<'_> {}

impl FusedIterator for Runs<'_> {}

/// A run of a view. Runs never change.
#[derive(Clone, Debug)]
pub struct Run<'a> {
    view: &'a View,
    place: usize,
    id: u64,
    sequences: RangeInclusive<u64>,
}

impl<'a> Run<'a> {
    fn of(view: &'a View, place: usize) -> Run<'a> {
        let (mut id, mut low, mut high) = (0, 0, 0);
        let status =
            unsafe { sys::ucstore_view_run(view.handle(), place, &mut id, &mut low, &mut high) };
        assert_eq!(status, sys::UCSTORE_OK, "the view has the run");
        Run {
            view,
            place,
            id,
            sequences: low..=high,
        }
    }

    /// Returns the ID of the run. No other run of its store gets it until the store is dropped, so a program writes a run whose ID it
    /// has seen no second time. A store that is opened again gives new IDs.
    pub fn id(&self) -> u64 {
        self.id
    }

    /// Returns the range of its sequence numbers.
    pub fn sequences(&self) -> RangeInclusive<u64> {
        self.sequences.clone()
    }

    /// Returns the bytes of the run's file, at its start. Computes the checksums of the file, and copies no point.
    ///
    /// # Errors
    ///
    /// [`Error::OutOfMemory`].
    pub fn bytes(&self) -> Result<RunBytes, Error> {
        RunBytes::of(self.view, self.place)
    }
}

/// The bytes of a run's file, from [`Run::bytes`]. They need neither the store nor the view.
///
/// ```
/// # use ucstore::{Operator, Options, Store};
/// # use std::io::Read;
/// # fn main() -> Result<(), Box<dyn std::error::Error>> {
/// let store = Store::create(Operator::Append, &Options::default())?;
/// store.merge("colour", "blue")?;
/// store.flush()?;
/// let mut files = Vec::new();
/// for run in store.view()?.runs().rev() {
///     let mut file = Vec::new();
///     run.bytes()?.read_to_end(&mut file)?;
///     files.push(file);
/// }
///
/// let again = Store::from_runs(Operator::Append, &Options::default(), &files)?;
/// assert_eq!(again.get("colour")?, Some(b"blue".to_vec()));
/// # Ok(())
/// # }
/// ```
pub struct RunBytes {
    handle: sys::ucstore_run,
    /// The number of bytes that were read.
    offset: usize,
}

// The library lets handles go from thread to thread.
unsafe impl Send for RunBytes {}

impl RunBytes {
    fn of(view: &View, place: usize) -> Result<RunBytes, Error> {
        let mut bytes = RunBytes {
            handle: sys::ucstore_run {
                at: ptr::null_mut(),
            },
            offset: 0,
        };
        check(unsafe { sys::ucstore_run(view.handle(), place, &mut bytes.handle) })?;
        Ok(bytes)
    }

    /// Returns the size of the file in bytes.
    pub fn size(&mut self) -> u64 {
        let mut size = 0;
        let status = unsafe { sys::ucstore_run_size(&mut self.handle, &mut size) };
        assert_eq!(status, sys::UCSTORE_OK, "the run is there");
        size
    }
}

/// Reads the bytes in order. No call fails.
impl Read for RunBytes {
    fn read(&mut self, buffer: &mut [u8]) -> io::Result<usize> {
        let mut count = 0;
        let status = unsafe {
            sys::ucstore_run_read(
                &mut self.handle,
                self.offset,
                buffer.as_mut_ptr(),
                buffer.len(),
                &mut count,
            )
        };
        assert_eq!(status, sys::UCSTORE_OK, "the run is there");
        self.offset += count;
        Ok(count)
    }
}

impl Drop for RunBytes {
    fn drop(&mut self) {
        // One that wasn't opened answers that it isn't there.
        unsafe { sys::ucstore_run_close(&mut self.handle) };
    }
}

impl fmt::Debug for RunBytes {
    fn fmt(&self, formatter: &mut fmt::Formatter<'_>) -> fmt::Result {
        formatter
            .debug_struct("RunBytes")
            .field("offset", &self.offset)
            .finish_non_exhaustive()
    }
}

/// The error of a store that isn't opened from runs, or of a run that isn't added. Nothing is added.
#[derive(Clone, Copy, Debug, PartialEq, Eq)]
#[non_exhaustive]
pub enum RunError {
    /// A file isn't a run's.
    Damaged {
        /// The place of the file, counted from 0.
        file: usize,
        /// The offset of the first piece of 64 KiB, point or fragment that isn't as it was written, or the size of the file if the fault
        /// is elsewhere.
        offset: usize,
    },
    /// A run can't be added: it isn't above the last sequence number of the store, or the store has writes in memtables, a prepared batch,
    /// jobs, 256 runs or no run ID left.
    Unfit {
        /// The place of its file, counted from 0.
        file: usize,
    },
    /// Another error.
    Failed(Error),
}

impl fmt::Display for RunError {
    fn fmt(&self, formatter: &mut fmt::Formatter<'_>) -> fmt::Result {
        match self {
            RunError::Damaged { file, offset } => {
                write!(formatter, "corrupted run file {file} at byte {offset}")
            }
            RunError::Unfit { file } => write!(formatter, "run file {file} cannot be added"),
            RunError::Failed(error) => error.fmt(formatter),
        }
    }
}

impl std::error::Error for RunError {}

impl From<Error> for RunError {
    fn from(error: Error) -> RunError {
        RunError::Failed(error)
    }
}

impl Store {
    /// Opens a store from the files of the runs of a view, the oldest first. It reads at its last sequence number as the view does, if the
    /// view has no writes in memtables. It has no snapshot. [`replay`](Store::replay) then adds the batches of a log.
    ///
    /// The bytes of each file are copied once.
    ///
    /// # Errors
    ///
    /// [`RunError`] has the place of the file that is damaged or out of order.
    pub fn from_runs(
        operator: Operator,
        options: &Options,
        files: impl IntoIterator<Item = impl AsRef<[u8]>>,
    ) -> Result<Store, RunError> {
        let store = Store::create(operator, options)?;
        for (place, file) in files.into_iter().enumerate() {
            add_run(store.handle(), place, file.as_ref())?;
        }
        Ok(store)
    }

    /// Adds the run of a file, whose sequence numbers exceed the last one of the store, and returns its ID. The last sequence number of the
    /// store becomes that of the run.
    ///
    /// # Errors
    ///
    /// [`RunError`], with 0 as the place of the file. Nothing is changed.
    pub fn add_run(&self, file: impl AsRef<[u8]>) -> Result<u64, RunError> {
        add_run(self.handle(), 0, file.as_ref())
    }
}

/// Adds the run of a file to a store, and returns its ID.
fn add_run(store: *mut sys::ucstore, place: usize, file: &[u8]) -> Result<u64, RunError> {
    let (mut id, mut offset) = (0, 0);
    let status =
        unsafe { sys::ucstore_add_run(store, file.as_ptr(), file.len(), &mut id, &mut offset) };
    match status {
        sys::UCSTORE_RUN_DAMAGED => Err(RunError::Damaged {
            file: place,
            offset,
        }),
        sys::UCSTORE_BAD_RUN => Err(RunError::Unfit { file: place }),
        status => {
            check(status)?;
            Ok(id)
        }
    }
}
