//! [`Failure`]: why a command ends without being done, and the status that it ends with.

use std::fmt;
use std::io;
use std::path::Path;
use ucstore_db::Error;

const NO_VALUE: u8 = 1;
const REFUSED: u8 = 2;
const DAMAGED: u8 = 3;
const OUT_OF_MEMORY: u8 = 4;
const FAULT: u8 = 5;

/// Why a command isn't done.
#[derive(Debug)]
pub enum Failure {
    /// The key has no value.
    NoValue,
    /// The words or the input are refused.
    Refused(String),
    /// A database says so.
    Database {
        /// Its directory.
        dir: String,
        error: Error,
    },
    /// A stream can't be read or written.
    Stream {
        /// Its name.
        stream: &'static str,
        error: io::Error,
    },
}

/// The outcome of a command.
pub type Outcome<T = ()> = Result<T, Failure>;

impl Failure {
    /// Returns the function that gives the errors of a directory's database its name.
    pub fn of(dir: &Path) -> impl Fn(Error) -> Failure + '_ {
        |error| Failure::Database {
            dir: dir.display().to_string(),
            error,
        }
    }

    /// Returns the function that gives the errors of a database's copy the name of the directory that they are about.
    pub fn of_copy<'a>(dir: &'a Path, copy: &'a Path) -> impl Fn(Error) -> Failure + 'a {
        move |error| {
            let is_of_copy = file_of(&error).is_some_and(|file| Path::new(file).starts_with(copy));
            Failure::of(if is_of_copy { copy } else { dir })(error)
        }
    }

    /// The status that the program ends with.
    pub fn status(&self) -> u8 {
        match self {
            Failure::NoValue => NO_VALUE,
            Failure::Refused(_) => REFUSED,
            Failure::Database { dir, error } => status_of(dir, error),
            // The reader of the pipe has read enough.
            Failure::Stream { error, .. } if error.kind() == io::ErrorKind::BrokenPipe => 0,
            Failure::Stream { .. } => FAULT,
        }
    }

    /// The line for standard error, if there is something to say.
    pub fn message(&self) -> Option<String> {
        match self {
            Failure::NoValue => None,
            Failure::Stream { error, .. } if error.kind() == io::ErrorKind::BrokenPipe => None,
            failure => Some(failure.to_string()),
        }
    }
}

impl fmt::Display for Failure {
    fn fmt(&self, formatter: &mut fmt::Formatter<'_>) -> fmt::Result {
        match self {
            Failure::NoValue => formatter.write_str("the key has no value"),
            Failure::Refused(why) => formatter.write_str(why),
            Failure::Database { dir, error } => match error {
                Error::Missing { file } if file == dir => {
                    write!(formatter, "there is no database in {dir}")
                }
                Error::Locked { file } => write!(
                    formatter,
                    "{file} is locked: another process has the database open, and the command needs it alone"
                ),
                error if is_named(dir, error) => write!(formatter, "{error}"),
                error => write!(formatter, "{dir}: {error}"),
            },
            Failure::Stream { stream, error } => write!(formatter, "{stream}: {error}"),
        }
    }
}

impl std::error::Error for Failure {
    fn source(&self) -> Option<&(dyn std::error::Error + 'static)> {
        match self {
            Failure::Database { error, .. } => Some(error),
            Failure::Stream { error, .. } => Some(error),
            Failure::NoValue | Failure::Refused(_) => None,
        }
    }
}

/// The file that an error names.
fn file_of(error: &Error) -> Option<&str> {
    match error {
        Error::File { file, .. }
        | Error::Locked { file }
        | Error::Damaged { file, .. }
        | Error::Missing { file }
        | Error::NotRecoverable { file, .. } => Some(file),
        Error::ReadOnly { cause } => file_of(cause),
        _ => None,
    }
}

/// Whether an error names its file with the directory, or the directory itself.
fn is_named(dir: &str, error: &Error) -> bool {
    file_of(error).is_some_and(|file| file == dir || file.contains('/'))
}

/// Whether an error says that a name is the wrong one.
fn is_of_name(kind: io::ErrorKind) -> bool {
    matches!(
        kind,
        io::ErrorKind::AlreadyExists | io::ErrorKind::NotADirectory | io::ErrorKind::InvalidInput
    )
}

/// The status for an error of a directory's database.
fn status_of(dir: &str, error: &Error) -> u8 {
    match error {
        Error::Store(ucstore_db::ucstore::Error::OutOfMemory) => OUT_OF_MEMORY,
        Error::Missing { file } if file == dir => REFUSED,
        Error::Damaged { .. } | Error::Missing { .. } => DAMAGED,
        // A name that is taken, or isn't a directory's.
        Error::File { error, .. } if is_of_name(error.kind()) => REFUSED,
        Error::File { .. } | Error::Internal { .. } => FAULT,
        Error::ReadOnly { cause } => status_of(dir, cause),
        _ => REFUSED,
    }
}
