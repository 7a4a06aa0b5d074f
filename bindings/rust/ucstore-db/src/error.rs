//! [`Error`]: why a call is refused.

use crate::conflict::Conflict;
use crate::operator_file::{word, OPERATOR};
use std::fmt;
use std::io;
use std::sync::Arc;

/// Why a call is refused. No write was taken then.
#[derive(Clone, Debug)]
#[non_exhaustive]
pub enum Error {
    /// The store refused it, before anything was logged.
    Store(ucstore::Error),
    /// A file can't be read or written.
    File {
        /// Its name; empty for the folder.
        file: String,
        /// Why.
        error: Arc<io::Error>,
    },
    /// Another process has the folder open, or another `Db` of this one.
    Locked {
        /// The file that it has locked.
        file: String,
    },
    /// A file isn't as it was written. Nothing was changed.
    Damaged {
        /// Its name.
        file: String,
        /// Where the damage begins.
        offset: u64,
        /// The fault.
        fault: String,
    },
    /// A file isn't there. Nothing was changed.
    Missing {
        /// Its name.
        file: String,
    },
    /// The files don't end, or can't be given up, where [`Options`](crate::Options) say. Nothing was changed.
    NotRecoverable {
        /// The name of the file.
        file: String,
        /// Where the batch ends, or begins, that says so.
        offset: u64,
        /// The fault.
        fault: String,
    },
    /// Conflict with another write: a key or a range that the transaction read has changed.
    Conflict(Conflict),
    /// The snapshot is one of another database.
    OtherDatabase,
    /// The folder was made with another operator. Nothing was changed.
    OtherOperator {
        /// The one that it was made with.
        made: ucstore::Operator,
        /// The one that was asked for.
        asked: ucstore::Operator,
    },
    /// Nothing can be written any more.
    ReadOnly {
        /// The earlier failure.
        cause: Box<Error>,
    },
    /// The database was closed.
    Closed,
    /// One of the database's own threads panicked: the library has a fault.
    Internal {
        /// The thread's name.
        thread: String,
    },
}

impl Error {
    /// For a file of a name, what an error of the device says.
    pub(crate) fn of_file(file: &str) -> impl FnOnce(io::Error) -> Error + '_ {
        move |error| Error::File {
            file: file.into(),
            error: Arc::new(error),
        }
    }

    /// The reason why a database that was opened to be read takes no writes.
    pub(crate) fn opened_to_read() -> Error {
        let reason = "the database was opened to be read";
        Error::of_file("")(io::Error::new(io::ErrorKind::ReadOnlyFilesystem, reason))
    }

    /// The error of a folder whose files are removed or replaced each time that it is read.
    pub(crate) fn unsettled() -> Error {
        let reason = "the directory was changed each time that it was read";
        Error::of_file("")(io::Error::new(io::ErrorKind::ResourceBusy, reason))
    }

    /// The error of a refresh of a database that doesn't follow an owner.
    pub(crate) fn not_followed() -> Error {
        let reason = "the database wasn't opened to be read, or only up to a sequence or a fault";
        Error::of_file("")(io::Error::new(io::ErrorKind::Unsupported, reason))
    }

    /// Whether it says that a file isn't there.
    pub(crate) fn is_not_found(&self) -> bool {
        matches!(self, Error::File { error, .. } if error.kind() == io::ErrorKind::NotFound)
    }

    /// The error that later writes get after this one.
    pub(crate) fn into_cause(self) -> Error {
        match self {
            Error::ReadOnly { .. } | Error::Closed => self,
            cause => Error::ReadOnly {
                cause: Box::new(cause),
            },
        }
    }
}

impl From<ucstore::Error> for Error {
    fn from(error: ucstore::Error) -> Error {
        Error::Store(error)
    }
}

impl fmt::Display for Error {
    fn fmt(&self, formatter: &mut fmt::Formatter<'_>) -> fmt::Result {
        match self {
            Error::Store(error) => write!(formatter, "{error}"),
            Error::File { file, error } if file.is_empty() => write!(formatter, "{error}"),
            Error::File { file, error } => write!(formatter, "{file}: {error}"),
            Error::Locked { file } => write!(formatter, "{file} is locked: the database is open"),
            Error::Damaged {
                file,
                offset,
                fault,
            } => write!(formatter, "{file} is damaged at {offset}: {fault}"),
            Error::Missing { file } => write!(formatter, "{file} isn't there"),
            Error::NotRecoverable {
                file,
                offset,
                fault,
            } => write!(formatter, "{file} can't be recovered at {offset}: {fault}"),
            Error::Conflict(conflict) => write!(formatter, "conflict: {conflict}"),
            Error::OtherDatabase => formatter.write_str("the snapshot is one of another database"),
            Error::OtherOperator { made, asked } => write!(
                formatter,
                "{OPERATOR} names {}: the folder can't be opened with {}",
                word(*made),
                word(*asked)
            ),
            Error::ReadOnly { cause } => write!(formatter, "nothing can be written: {cause}"),
            Error::Closed => formatter.write_str("the database is closed"),
            Error::Internal { thread } => write!(formatter, "the {thread} thread panicked"),
        }
    }
}

impl std::error::Error for Error {
    fn source(&self) -> Option<&(dyn std::error::Error + 'static)> {
        match self {
            Error::Store(error) => Some(error),
            Error::File { error, .. } => Some(error),
            Error::ReadOnly { cause } => Some(cause),
            _ => None,
        }
    }
}
