//! [`CEvent`] and [`CProgress`]: the arguments of callbacks.

use crate::call::Refusal;
use crate::status::Status;
use db::{Event, Listener, Progress};
use std::ffi::{c_char, c_void, CStr, CString};
use std::time::Duration;

const FLUSHED: u32 = 0;
const COMPACTED: u32 = 1;
const CHECKPOINTED: u32 = 2;
const STALLED: u32 = 3;
const FAILED: u32 = 4;
const SET_ASIDE: u32 = 5;

/// `struct ucstore_db_progress`.
#[repr(C)]
pub struct CProgress {
    /// Name of the file being read.
    pub file: *const c_char,
    /// Number of bytes read so far, of all files.
    pub read: u64,
    /// Number of bytes of all files.
    pub whole: u64,
}

/// `struct ucstore_db_event`.
#[repr(C)]
pub struct CEvent {
    /// Kind of the event.
    pub kind: u32,
    /// Status of a failure, else 0.
    pub status: i32,
    /// Number of runs.
    pub runs: u64,
    /// Size in bytes, see the kind.
    pub bytes: u64,
    /// Duration.
    pub microseconds: u64,
    /// File name or error message, see the kind.
    pub text: *const c_char,
}

/// A callback with the progress of an opening.
pub type ProgressFunction = Option<unsafe extern "C" fn(*mut c_void, *const CProgress)>;
/// A callback with the events of a database.
pub type EventFunction = Option<unsafe extern "C" fn(*mut c_void, *const CEvent)>;

/// An address that C's function is given, and nothing else is done with.
struct Context(*mut c_void);

// SAFETY: The header says that the function is called by any thread, with this.
unsafe impl Send for Context {}
// SAFETY: As above; several may call it at once.
unsafe impl Sync for Context {}

impl Context {
    fn get(&self) -> *mut c_void {
        self.0
    }
}

/// A listener that calls a function of C, if there is one.
pub(crate) fn progress_of(
    function: ProgressFunction,
    context: *mut c_void,
) -> Option<Listener<Progress>> {
    let (function, context) = (function?, Context(context));
    Some(Listener::new(move |progress: &Progress| {
        let file = CString::new(&*progress.file).unwrap_or_default();
        let told = CProgress {
            file: file.as_ptr(),
            read: progress.read,
            whole: progress.whole,
        };
        // SAFETY: C gave the function, and what is told outlives the call.
        unsafe { function(context.get(), &told) }
    }))
}

/// A listener that calls a function of C, if there is one.
pub(crate) fn events_of(function: EventFunction, context: *mut c_void) -> Option<Listener<Event>> {
    let (function, context) = (function?, Context(context));
    Some(Listener::new(move |event: &Event| {
        let Some(Told { mut event, text }) = Told::of(event) else {
            return;
        };
        event.text = text.as_ptr();
        // SAFETY: C gave the function, and what is told outlives the call.
        unsafe { function(context.get(), &event) }
    }))
}

/// An event and its message, which isn't in it yet.
struct Told {
    event: CEvent,
    text: CString,
}

impl Told {
    /// The struct that C is given for an event; none for kinds that it doesn't know.
    fn of(event: &Event) -> Option<Told> {
        match event {
            Event::Flushed { runs, bytes, took } => {
                Some(Told::done(FLUSHED, *runs, *bytes, *took, c""))
            }
            Event::Compacted { runs, took } => Some(Told::done(COMPACTED, *runs, 0, *took, c"")),
            Event::Checkpointed { file, bytes, took } => {
                let file = CString::new(&**file).unwrap_or_default();
                Some(Told::done(CHECKPOINTED, 0, *bytes, *took, &file))
            }
            Event::Stalled { runs } => Some(Told::done(STALLED, *runs, 0, Duration::ZERO, c"")),
            Event::Failed { error } => {
                let refusal = Refusal::from(error.clone());
                let mut told = Told::done(FAILED, 0, 0, Duration::ZERO, &refusal.text);
                told.event.status = refusal.status as i32;
                Some(told)
            }
            Event::SetAside { file, bytes } => {
                let file = CString::new(&**file).unwrap_or_default();
                Some(Told::done(SET_ASIDE, 0, *bytes, Duration::ZERO, &file))
            }
            _ => None,
        }
    }

    /// The event of work that is done.
    fn done(kind: u32, runs: u64, bytes: u64, took: Duration, text: &CStr) -> Told {
        Told {
            event: CEvent {
                kind,
                status: Status::Ok as i32,
                runs,
                bytes,
                microseconds: took.as_micros() as u64,
                text: std::ptr::null(),
            },
            text: text.into(),
        }
    }
}
