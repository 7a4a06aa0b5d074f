//! [`Error`]: the error of a failed call.

use crate::sys;
use std::fmt;

/// The error of a failed call. The call has written nothing.
#[derive(Clone, Copy, Debug, PartialEq, Eq, Hash)]
#[non_exhaustive]
pub enum Error {
    /// Out of memory.
    OutOfMemory,
    /// No snapshot at this sequence number.
    NotProtected,
    /// Option out of range.
    BadOption,
    /// Run IDs exhausted: the greatest is 2^64 - 2.
    IdsSpent,
    /// Sequence numbers exhausted: the greatest is 2^56 - 1.
    SequencesSpent,
    /// Key or value too long: it has 2^32 bytes or more.
    TooLong,
    /// Malformed write batch.
    NotABatch,
    /// Sequence number not above the last one.
    SequenceBack,
    /// Batch full: it has 2^32 - 1 operations.
    BatchFull,
    /// Malformed operand.
    BadOperand,
    /// Run limit reached: jobs hold the runs that would be compacted. End a job and retry.
    RunsClaimed,
    /// Read has changed.
    ReadChanged {
        /// The place of the first such read, counted from 0.
        read: usize,
    },
    /// The library returned a status that the call cannot have: it has another version than this crate.
    Unexpected(i32),
}

impl fmt::Display for Error {
    fn fmt(&self, formatter: &mut fmt::Formatter<'_>) -> fmt::Result {
        let text = match self {
            Error::OutOfMemory => "out of memory",
            Error::NotProtected => "no snapshot at this sequence number",
            Error::BadOption => "option out of range",
            Error::IdsSpent => "run IDs exhausted",
            Error::SequencesSpent => "sequence numbers exhausted",
            Error::TooLong => "key or value too long",
            Error::NotABatch => "malformed write batch",
            Error::SequenceBack => "sequence number not above the last one",
            Error::BatchFull => "batch full",
            Error::BadOperand => "malformed operand",
            Error::RunsClaimed => "run limit reached",
            Error::ReadChanged { read } => return write!(formatter, "read {read} has changed"),
            Error::Unexpected(status) => return write!(formatter, "unexpected status {status}"),
        };
        formatter.write_str(text)
    }
}

impl std::error::Error for Error {}

/// The message of a status.
pub(crate) fn check(status: i32) -> Result<(), Error> {
    match status {
        sys::UCSTORE_OK => Ok(()),
        sys::UCSTORE_OUT_OF_MEMORY => Err(Error::OutOfMemory),
        sys::UCSTORE_NOT_PROTECTED => Err(Error::NotProtected),
        sys::UCSTORE_BAD_OPTION => Err(Error::BadOption),
        sys::UCSTORE_IDS_SPENT => Err(Error::IdsSpent),
        sys::UCSTORE_SEQUENCES_SPENT => Err(Error::SequencesSpent),
        sys::UCSTORE_TOO_LONG => Err(Error::TooLong),
        sys::UCSTORE_NOT_A_BATCH => Err(Error::NotABatch),
        sys::UCSTORE_SEQUENCE_BACK => Err(Error::SequenceBack),
        sys::UCSTORE_BATCH_FULL => Err(Error::BatchFull),
        sys::UCSTORE_BAD_OPERAND => Err(Error::BadOperand),
        sys::UCSTORE_RUNS_CLAIMED => Err(Error::RunsClaimed),
        other => Err(Error::Unexpected(other)),
    }
}
