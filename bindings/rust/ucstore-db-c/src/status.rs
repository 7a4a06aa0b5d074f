//! [`Status`]: the result of a call.

use db::{ucstore, Error};
use std::ffi::CStr;

/// The result of a call. Numbers below 64 are those of `ucstore.h`.
#[derive(Clone, Copy, Debug, PartialEq, Eq)]
#[repr(i32)]
pub enum Status {
    /// Success.
    Ok = 0,
    /// Out of memory.
    OutOfMemory = 1,
    /// Key not found.
    NotFound = 4,
    /// No snapshot at this sequence number.
    NotProtected = 5,
    /// Unknown merge operator.
    UnknownOperator = 6,
    /// Option out of range.
    BadOption = 7,
    /// Unsupported struct size.
    BadSize = 8,
    /// Run IDs exhausted: the greatest is 2^64 - 2.
    IdsSpent = 9,
    /// Sequence numbers exhausted: the greatest is 2^56 - 1.
    SequencesSpent = 10,
    /// Key or value too long: it has 2^32 bytes or more.
    TooLong = 11,
    /// Malformed write batch.
    NotABatch = 12,
    /// Buffer too small.
    Room = 14,
    /// Sequence number not above the last one.
    SequenceBack = 16,
    /// Key lengths do not match the keys.
    BadKeys = 17,
    /// Batch full: it has 2^32 - 1 operations.
    BatchFull = 18,
    /// Malformed operand.
    BadOperand = 31,
    /// I/O error.
    File = 64,
    /// Database is locked.
    Locked = 65,
    /// Corrupted file.
    Damaged = 66,
    /// Missing file.
    Missing = 67,
    /// Directory has another merge operator.
    OtherOperator = 68,
    /// Database is read-only after an error.
    ReadOnly = 69,
    /// Already closed.
    Closed = 70,
    /// Process was forked after the database was opened.
    Forked = 71,
    /// Null pointer argument.
    Null = 72,
    /// Internal error.
    Internal = 73,
    /// Cannot recover to the given sequence number.
    NotRecoverable = 74,
    /// Snapshot of another database.
    OtherDatabase = 75,
    /// Conflict with another write.
    Conflict = 76,
}

impl Status {
    /// Returns the message that is used if no other is known.
    pub(crate) fn text(self) -> &'static CStr {
        match self {
            Status::Ok => c"success",
            Status::OutOfMemory => c"out of memory",
            Status::NotFound => c"key not found",
            Status::NotProtected => c"no snapshot at this sequence number",
            Status::UnknownOperator => c"unknown merge operator",
            Status::BadOption => c"option out of range",
            Status::BadSize => c"unsupported struct size",
            Status::IdsSpent => c"run IDs exhausted",
            Status::SequencesSpent => c"sequence numbers exhausted",
            Status::TooLong => c"key or value too long",
            Status::NotABatch => c"malformed write batch",
            Status::Room => c"buffer too small",
            Status::SequenceBack => c"sequence number not above the last one",
            Status::BadKeys => c"key lengths do not match the keys",
            Status::BatchFull => c"batch full",
            Status::BadOperand => c"malformed operand",
            Status::File => c"I/O error",
            Status::Locked => c"database is locked",
            Status::Damaged => c"corrupted file",
            Status::Missing => c"missing file",
            Status::OtherOperator => c"directory has another merge operator",
            Status::ReadOnly => c"database is read-only after an error",
            Status::Closed => c"already closed",
            Status::Forked => c"process was forked after the database was opened",
            Status::Null => c"null pointer argument",
            Status::Internal => c"internal error",
            Status::NotRecoverable => c"cannot recover to the given sequence number",
            Status::OtherDatabase => c"snapshot of another database",
            Status::Conflict => c"conflict with another write",
        }
    }
}

impl From<&Error> for Status {
    fn from(error: &Error) -> Status {
        match error {
            Error::Store(error) => Status::from(*error),
            Error::File { .. } => Status::File,
            Error::Locked { .. } => Status::Locked,
            Error::Damaged { .. } => Status::Damaged,
            Error::Missing { .. } => Status::Missing,
            Error::NotRecoverable { .. } => Status::NotRecoverable,
            Error::OtherDatabase => Status::OtherDatabase,
            Error::Conflict(_) => Status::Conflict,
            Error::OtherOperator { .. } => Status::OtherOperator,
            Error::ReadOnly { .. } => Status::ReadOnly,
            Error::Closed => Status::Closed,
            // A panic, and what a later crate may have.
            _ => Status::Internal,
        }
    }
}

impl From<ucstore::Error> for Status {
    fn from(error: ucstore::Error) -> Status {
        match error {
            ucstore::Error::OutOfMemory => Status::OutOfMemory,
            ucstore::Error::BadOption => Status::BadOption,
            ucstore::Error::IdsSpent => Status::IdsSpent,
            ucstore::Error::SequencesSpent => Status::SequencesSpent,
            ucstore::Error::TooLong => Status::TooLong,
            ucstore::Error::NotABatch => Status::NotABatch,
            ucstore::Error::SequenceBack => Status::SequenceBack,
            ucstore::Error::BadOperand => Status::BadOperand,
            ucstore::Error::BatchFull => Status::BatchFull,
            // The database gives the store none of what these refuse.
            _ => Status::Internal,
        }
    }
}
