//! [`Job`]: a flush or a compaction outside its store; [`EndedJob`]: a job that has ended.

use crate::error::{check, Error};
use crate::sys;
use std::fmt;
use std::ptr;

/// A flush or a compaction that [`Store::take_job`](crate::Store::take_job) has taken out of a store. Any thread may run it,
/// while the store is written to, flushed, and compacts other runs. [`Store::end_job`](crate::Store::end_job) installs the
/// result, and returns an [`EndedJob`].
///
/// If a job is dropped before that, the store never compacts its runs again, and a later write flushes its writes.
///
/// ```
/// # use ucstore::{Operator, Options, Store};
/// # fn main() -> Result<(), ucstore::Error> {
/// let options = Options { compacts_itself: false, ..Default::default() };
/// let store = Store::create(Operator::Append, &options)?;
/// for number in 0..4 {
///     store.put(format!("k{number}"), "v")?;
///     store.flush()?;
/// }
/// let mut job = store.take_job()?.expect("four runs are compacted");
/// let worker = std::thread::spawn(move || job.run().map(|()| job));
/// store.put("k5", "v")?;
/// assert!(store.end_job(worker.join().unwrap()?).unwrap().is_installed());
/// # Ok(())
/// # }
/// ```
#[must_use = "the runs of a job are never compacted again if it doesn't end"]
pub struct Job {
    handle: sys::ucstore_job,
}

// The library lets handles go from thread to thread, and jobs be run beside their store.
unsafe impl Send for Job {}

impl Job {
    /// No job yet.
    pub(crate) fn closed() -> Job {
        Job {
            handle: sys::ucstore_job {
                at: ptr::null_mut(),
            },
        }
    }

    /// Runs the job, unless it was run already. Uses no store.
    ///
    /// # Errors
    ///
    /// [`Error::OutOfMemory`]. The job is unchanged: it may be run again, or ended.
    pub fn run(&mut self) -> Result<(), Error> {
        check(unsafe { sys::ucstore_job_run(self.handle()) })
    }

    /// Returns the total size of the runs that it compacts, as [`Report::bytes`](crate::Report::bytes) counts: 0 for a flush. The
    /// size of the new run is this plus the change of the store's bytes when the job ends.
    pub fn input_bytes(&mut self) -> u64 {
        let mut bytes = 0;
        unsafe { sys::ucstore_job_input_bytes(self.handle(), &mut bytes) };
        bytes
    }

    /// The handle for a call.
    pub(crate) fn handle(&mut self) -> *mut sys::ucstore_job {
        &mut self.handle
    }
}

impl Drop for Job {
    fn drop(&mut self) {
        unsafe { sys::ucstore_job_close(self.handle()) };
    }
}

impl fmt::Debug for Job {
    fn fmt(&self, formatter: &mut fmt::Formatter<'_>) -> fmt::Result {
        formatter.debug_struct("Job").finish_non_exhaustive()
    }
}

/// A job that has ended. It keeps its old runs or memtables until it is dropped. Dropping it takes time, and is possible in any
/// thread.
#[must_use = "what it had is freed where it is dropped"]
pub struct EndedJob {
    _job: Job,
    is_installed: bool,
}

impl EndedJob {
    /// A job that has ended, and whether its run was installed.
    pub(crate) fn new(job: Job, is_installed: bool) -> EndedJob {
        EndedJob {
            _job: job,
            is_installed,
        }
    }

    /// Returns true if its run was installed. It is not if the job was not run, or if run IDs are exhausted; its runs are then
    /// free for other jobs. The run of a flush is not installed either if the store has since flushed the writes, if the run
    /// limit is reached, or if an allocation failed.
    pub fn is_installed(&self) -> bool {
        self.is_installed
    }
}

impl fmt::Debug for EndedJob {
    fn fmt(&self, formatter: &mut fmt::Formatter<'_>) -> fmt::Result {
        formatter
            .debug_struct("EndedJob")
            .field("is_installed", &self.is_installed)
            .finish_non_exhaustive()
    }
}
