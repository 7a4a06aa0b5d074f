//! [`Process`]: the process that has something, told from its forked children.

use crate::call::Refusal;
use crate::status::Status;
use std::ffi::c_int;
use std::sync::atomic::{AtomicU64, Ordering};
use std::sync::Once;

/// The number of forks between the first process and this one.
static FORKS: AtomicU64 = AtomicU64::new(0);
static WATCHED: Once = Once::new();

type Hook = Option<extern "C" fn()>;

extern "C" {
    /// Adds functions that are called at forks: before, and afterwards in the parent and in the child.
    fn pthread_atfork(before: Hook, in_parent: Hook, in_child: Hook) -> c_int;
}

/// Counts a fork, in the child.
extern "C" fn count_fork() {
    FORKS.fetch_add(1, Ordering::Relaxed);
}

/// The process that has something. A forked child has its bytes too, but none of the threads that work on them, and its
/// locks may be held by those.
#[derive(Clone, Copy, PartialEq, Eq)]
pub(crate) struct Process(u64);

impl Process {
    /// The one that runs.
    pub(crate) fn current() -> Process {
        WATCHED.call_once(|| {
            // SAFETY: The function that is called is there as long as the library. Without memory forks aren't noticed.
            let _ = unsafe { pthread_atfork(None, None, Some(count_fork)) };
        });
        Process(FORKS.load(Ordering::Relaxed))
    }

    /// Checks that it is the one that runs.
    pub(crate) fn check(self) -> Result<(), Refusal> {
        if self.0 == FORKS.load(Ordering::Relaxed) {
            Ok(())
        } else {
            Err(Status::Forked.into())
        }
    }
}
