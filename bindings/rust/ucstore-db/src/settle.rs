//! [`settle`]: reads of a folder that its owner changes meanwhile.

use crate::error::Error;
use crate::folder::Folder;
use std::io::ErrorKind;
use std::thread;
use std::time::Duration;

/// The most times that a folder is read.
const MOST_TRIES: u32 = 64;

/// The longest time between two of them.
const LONGEST: Duration = Duration::from_millis(16);

/// Returns what is read of a folder. A read that fails as one does whose files are removed or replaced meanwhile is tried again,
/// unless the folder stayed as it was.
///
/// # Errors
///
/// [`Error::File`] with [`ErrorKind::ResourceBusy`] if files are still missing after the last time, and those of `read`.
pub(crate) fn settle<T>(
    folder: &dyn Folder,
    mut read: impl FnMut() -> Result<T, Error>,
) -> Result<T, Error> {
    let mut seen = None;
    for number in 0..MOST_TRIES {
        let fault = match read() {
            Err(fault) if may_pass(&fault) => fault,
            outcome => return outcome,
        };
        let found = files_of(folder)?;
        let is_last = number + 1 == MOST_TRIES;
        if seen.as_ref() == Some(&found) || is_last && matches!(fault, Error::Damaged { .. }) {
            return Err(fault);
        }
        seen = Some(found);
        thread::sleep(LONGEST.min(Duration::from_millis(number.into())));
    }
    Err(Error::unsettled())
}

/// Whether a read may fail so because its files were changed meanwhile.
fn may_pass(error: &Error) -> bool {
    match error {
        Error::Damaged { .. } | Error::Missing { .. } => true,
        Error::File { error, .. } => {
            matches!(error.kind(), ErrorKind::NotFound | ErrorKind::UnexpectedEof)
        }
        _ => false,
    }
}

/// The files of a folder, and their lengths.
fn files_of(folder: &dyn Folder) -> Result<Vec<(String, Option<u64>)>, Error> {
    let mut names = folder.names().map_err(Error::of_file(""))?;
    names.sort_unstable();
    let files = names.into_iter().map(|name| {
        let length = folder.length(&name).ok();
        (name, length)
    });
    Ok(files.collect())
}
