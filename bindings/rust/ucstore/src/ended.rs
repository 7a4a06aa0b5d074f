//! [`Ended`]: where and why reading a log ended.

use crate::sys::ucstore_ended;
use std::fmt;

/// Where and why reading a log ended.
#[derive(Clone, Copy, Debug, PartialEq, Eq, Hash)]
pub enum Ended {
    /// At the end of the log.
    Clean,
    /// At an incomplete record or payload, which was being written at a crash.
    Torn {
        /// Offset at which it begins.
        offset: u64,
    },
    /// At a fault of a record.
    LogFault {
        /// Offset of the record.
        offset: u64,
        /// The fault.
        fault: LogFault,
    },
    /// At a payload that is not a valid next batch.
    BatchFault {
        /// Number of the payload, from 1.
        payload: u64,
        /// The fault.
        fault: BatchFault,
    },
}

/// Faults of a log record.
#[derive(Clone, Copy, Debug, PartialEq, Eq, Hash)]
#[non_exhaustive]
pub enum LogFault {
    /// The length is past the end of the block.
    BadLength,
    /// The checksum does not match.
    BadChecksum,
    /// The type is unknown.
    UnsupportedType,
    /// A MIDDLE without a FIRST.
    MiddleAlone,
    /// A LAST without a FIRST.
    LastAlone,
    /// A FULL before a LAST.
    FullInside,
    /// A FIRST before a LAST.
    FirstInside,
    /// A fault that this crate does not know.
    Other(u32),
}

/// Faults of a batch in a log.
#[derive(Clone, Copy, Debug, PartialEq, Eq, Hash)]
#[non_exhaustive]
pub enum BatchFault {
    /// Fewer bytes than a header.
    TooShort,
    /// A sequence number not above the last one.
    SequenceBack,
    /// A sequence number of 2^56 or more.
    SequenceTooLarge,
    /// An unknown tag.
    BadTag,
    /// A truncated record.
    Cut,
    /// A number above 32 bits.
    BadNumber,
    /// Another column family.
    OtherFamily,
    /// A wrong count of records.
    WrongCount,
    /// No fault of the batch: an allocation failed.
    OutOfMemory,
    /// A fault that this crate does not know.
    Other(u32),
}

impl Ended {
    /// The library's answer.
    pub(crate) fn of(ended: ucstore_ended) -> Ended {
        match ended.kind {
            0 => Ended::Clean,
            1 => Ended::Torn {
                offset: ended.place,
            },
            2 => Ended::LogFault {
                offset: ended.place,
                fault: LogFault::of(ended.fault),
            },
            _ => Ended::BatchFault {
                payload: ended.place,
                fault: BatchFault::of(ended.fault),
            },
        }
    }

    /// Returns true if nothing was lost except writes that a crash left unfinished.
    pub fn is_sound(&self) -> bool {
        matches!(self, Ended::Clean | Ended::Torn { .. })
    }
}

impl LogFault {
    fn of(code: u32) -> LogFault {
        match code {
            1 => LogFault::BadLength,
            2 => LogFault::BadChecksum,
            3 => LogFault::UnsupportedType,
            4 => LogFault::MiddleAlone,
            5 => LogFault::LastAlone,
            6 => LogFault::FullInside,
            7 => LogFault::FirstInside,
            other => LogFault::Other(other),
        }
    }
}

impl BatchFault {
    fn of(code: u32) -> BatchFault {
        match code {
            1 => BatchFault::TooShort,
            2 => BatchFault::SequenceBack,
            3 => BatchFault::SequenceTooLarge,
            4 => BatchFault::BadTag,
            5 => BatchFault::Cut,
            6 => BatchFault::BadNumber,
            7 => BatchFault::OtherFamily,
            8 => BatchFault::WrongCount,
            9 => BatchFault::OutOfMemory,
            other => BatchFault::Other(other),
        }
    }
}

impl fmt::Display for Ended {
    fn fmt(&self, formatter: &mut fmt::Formatter<'_>) -> fmt::Result {
        match self {
            Ended::Clean => write!(formatter, "clean"),
            Ended::Torn { offset } => write!(formatter, "torn at {offset}"),
            Ended::LogFault { offset, fault } => write!(formatter, "a fault at {offset}: {fault}"),
            Ended::BatchFault { payload, fault } => {
                write!(formatter, "a fault in batch {payload}: {fault}")
            }
        }
    }
}

impl fmt::Display for LogFault {
    fn fmt(&self, formatter: &mut fmt::Formatter<'_>) -> fmt::Result {
        let text = match self {
            LogFault::BadLength => "a length past its block's end",
            LogFault::BadChecksum => "a checksum that doesn't match",
            LogFault::UnsupportedType => "an unknown type",
            LogFault::MiddleAlone => "a MIDDLE without a FIRST",
            LogFault::LastAlone => "a LAST without a FIRST",
            LogFault::FullInside => "a FULL before a LAST",
            LogFault::FirstInside => "a FIRST before a LAST",
            LogFault::Other(code) => return write!(formatter, "fault {code}"),
        };
        formatter.write_str(text)
    }
}

impl fmt::Display for BatchFault {
    fn fmt(&self, formatter: &mut fmt::Formatter<'_>) -> fmt::Result {
        let text = match self {
            BatchFault::TooShort => "fewer bytes than a header",
            BatchFault::SequenceBack => "a sequence that isn't above the last one",
            BatchFault::SequenceTooLarge => "a sequence of 2^56 or more",
            BatchFault::BadTag => "an unknown tag",
            BatchFault::Cut => "a record cut short",
            BatchFault::BadNumber => "a number that doesn't fit 32 bits",
            BatchFault::OtherFamily => "another column family",
            BatchFault::WrongCount => "a wrong count of records",
            BatchFault::OutOfMemory => "out of memory",
            BatchFault::Other(code) => return write!(formatter, "fault {code}"),
        };
        formatter.write_str(text)
    }
}
