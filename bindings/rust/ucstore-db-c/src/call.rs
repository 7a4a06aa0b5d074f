//! [`call`]: what each function of C is run by.

use crate::status::Status;
use db::{ucstore, Error};
use std::any::Any;
use std::borrow::Cow;
use std::cell::RefCell;
use std::ffi::{c_char, CStr, CString};
use std::panic::{catch_unwind, AssertUnwindSafe};

/// Why a call is refused: a status, and what it says.
pub(crate) struct Refusal {
    pub(crate) status: Status,
    pub(crate) text: Cow<'static, CStr>,
}

impl Refusal {
    /// A status with a message of its own.
    fn with(status: Status, text: String) -> Refusal {
        let text = CString::new(text).map_or(Cow::from(status.text()), Cow::from);
        Refusal { status, text }
    }

    /// A fault of the library's own, which panicked with this.
    fn of_panic(panic: &(dyn Any + Send)) -> Refusal {
        let said = panic
            .downcast_ref::<String>()
            .map(String::as_str)
            .or_else(|| panic.downcast_ref::<&str>().copied())
            .unwrap_or("without a text");
        Refusal::with(Status::Internal, format!("the library panicked: {said}"))
    }
}

impl From<Status> for Refusal {
    fn from(status: Status) -> Refusal {
        Refusal {
            status,
            text: status.text().into(),
        }
    }
}

impl From<Error> for Refusal {
    fn from(error: Error) -> Refusal {
        Refusal::with(Status::from(&error), error.to_string())
    }
}

impl From<ucstore::Error> for Refusal {
    fn from(error: ucstore::Error) -> Refusal {
        Refusal::from(Error::from(error))
    }
}

thread_local! {
    /// The message of this thread's last call that was refused.
    static SAID: RefCell<Cow<'static, CStr>> = RefCell::new(Status::Ok.text().into());
}

/// Runs a call, and answers its status. What it says if it is refused stays for the thread.
pub(crate) fn call(work: impl FnOnce() -> Result<(), Refusal>) -> i32 {
    let outcome = catch_unwind(AssertUnwindSafe(work));
    let outcome = outcome.unwrap_or_else(|panic| Err(Refusal::of_panic(&*panic)));
    match outcome {
        Ok(()) => Status::Ok as i32,
        Err(refusal) => {
            // A thread that ends may have lost its message.
            let _ = SAID.try_with(|said| said.replace(refusal.text));
            refusal.status as i32
        }
    }
}

/// Returns the message of this thread's last failed call, valid until the thread's next failed call.
#[no_mangle]
pub extern "C" fn ucstore_db_error_text() -> *const c_char {
    SAID.try_with(|said| said.borrow().as_ptr())
        .unwrap_or(Status::Internal.text().as_ptr())
}

#[cfg(test)]
mod tests {
    use super::*;
    use std::thread;

    /// The message of this thread's last refused call.
    fn said() -> String {
        // SAFETY: It is a string that ends with a zero byte, and no call is under way.
        let text = unsafe { CStr::from_ptr(ucstore_db_error_text()) };
        text.to_str().unwrap().into()
    }

    #[test]
    fn a_panic_is_a_status() {
        assert_eq!(call(|| panic!("all {} lost", 3)), Status::Internal as i32);
        assert_eq!(said(), "the library panicked: all 3 lost");
        assert_eq!(call(|| panic!("lost")), Status::Internal as i32);
        assert_eq!(said(), "the library panicked: lost");
        let other = || std::panic::panic_any(7);
        assert_eq!(call(other), Status::Internal as i32);
        assert_eq!(said(), "the library panicked: without a text");
    }

    #[test]
    fn each_thread_has_a_text_of_its_own() {
        assert_eq!(call(|| Err(Status::Forked.into())), Status::Forked as i32);
        thread::spawn(|| assert_eq!(said(), "success"))
            .join()
            .unwrap();
        // A call that is done leaves it.
        assert_eq!(call(|| Ok(())), 0);
        assert_eq!(said(), "process was forked after the database was opened");
    }

    #[test]
    fn an_error_says_its_file_and_offset() {
        let cause = Error::Damaged {
            file: "000001.log".into(),
            offset: 24,
            fault: "a zero\0byte".into(),
        };
        let refusal = Refusal::from(cause.clone());
        // A message that can't be a string of C becomes the status's own.
        assert_eq!(&*refusal.text, c"corrupted file");
        let Error::Damaged { file, offset, .. } = cause else {
            unreachable!();
        };
        let fault = "cut".into();
        let refusal = Refusal::from(Error::Damaged {
            file,
            offset,
            fault,
        });
        assert_eq!(refusal.status, Status::Damaged);
        assert_eq!(&*refusal.text, c"000001.log is damaged at 24: cut");
    }
}
