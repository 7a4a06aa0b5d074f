//! [`LogWrites`]: the writes of a log.

use crate::ended::Ended;
use crate::error::{check, Error};
use crate::replay::Replay;
use crate::store::Store;
use crate::sys;
use std::iter::FusedIterator;
use std::ops;

/// An operation in a log, with borrowed or owned keys and values.
#[derive(Clone, Copy, Debug, PartialEq, Eq, Hash)]
pub enum Operation<T = Vec<u8>> {
    /// Sets a key to a value.
    Put {
        /// The key.
        key: T,
        /// Its value.
        value: T,
    },
    /// Deletes a key.
    Delete {
        /// The key.
        key: T,
    },
    /// Merges an operand into a key's value.
    Merge {
        /// The key.
        key: T,
        /// The operand.
        operand: T,
    },
    /// Deletes the keys from `begin` to below `end`.
    DeleteRange {
        /// The first key.
        begin: T,
        /// The key after the last one.
        end: T,
    },
}

/// A write in a log.
#[derive(Clone, Copy, Debug, PartialEq, Eq, Hash)]
pub struct Write<T = Vec<u8>> {
    /// Its sequence number.
    pub sequence: u64,
    /// Its operation.
    pub operation: Operation<T>,
}

impl Write<&[u8]> {
    /// Returns the write with owned keys and values.
    fn to_own(self) -> Write {
        let operation = match self.operation {
            Operation::Put { key, value } => Operation::Put {
                key: key.to_vec(),
                value: value.to_vec(),
            },
            Operation::Delete { key } => Operation::Delete { key: key.to_vec() },
            Operation::Merge { key, operand } => Operation::Merge {
                key: key.to_vec(),
                operand: operand.to_vec(),
            },
            Operation::DeleteRange { begin, end } => Operation::DeleteRange {
                begin: begin.to_vec(),
                end: end.to_vec(),
            },
        };
        Write {
            sequence: self.sequence,
            operation,
        }
    }
}

/// The writes of a log up to its first fault, fetched batch by batch, from [`log_writes`].
///
/// As an iterator it copies each write. [`next_write`](LogWrites::next_write) returns references instead.
#[derive(Debug)]
pub struct LogWrites<'a> {
    log: &'a [u8],
    place: sys::ucstore_log_place,
    /// A batch's writes.
    room: Vec<u8>,
    /// The place in the buffer where the next write begins.
    at: usize,
    /// The number of writes that are left in the buffer.
    left: u64,
    ended: Option<Ended>,
    failed: bool,
}

/// Returns the writes of a log, which is given as bytes.
///
/// ```
/// # use ucstore::{Batch, Operator, Options, Store};
/// # fn main() -> Result<(), ucstore::Error> {
/// let store = Store::create(Operator::Append, &Options::default())?;
/// let mut batch = Batch::new();
/// let log = store.prepare(0, batch.put("colour", "blue")?)?;
/// let mut writes = ucstore::log_writes(&log);
/// assert_eq!(writes.next().unwrap()?.sequence, 1);
/// assert!(writes.next().is_none());
/// assert_eq!(writes.ended(), Some(ucstore::Ended::Clean));
/// # Ok(())
/// # }
/// ```
pub fn log_writes(log: &[u8]) -> LogWrites<'_> {
    log_writes_at(log, LogPlace::default())
}

/// A position in a log at which a batch may begin. The default is the start of the log.
#[derive(Clone, Copy, Debug, Default, PartialEq, Eq, Hash)]
pub struct LogPlace {
    /// Number of bytes before it.
    pub offset: u64,
    /// Last sequence number before it; 0 if there is none.
    pub last: u64,
}

/// Returns the writes of a log from a position on. `log` may start at any block of the log, of 32,768 bytes; the position is then
/// relative to that block.
///
/// ```
/// # use ucstore::{log_writes_at, Batch, LogPlace, Operator, Options, Store};
/// # fn main() -> Result<(), ucstore::Error> {
/// let store = Store::create(Operator::Append, &Options::default())?;
/// let mut log = store.prepare(0, Batch::new().put("colour", "blue")?)?;
/// store.commit();
/// let place = LogPlace { offset: log.len() as u64, last: 1 };
/// log.extend(store.prepare(place.offset, Batch::new().put("size", "small")?)?);
/// let mut writes = log_writes_at(&log, place);
/// assert_eq!(writes.next().unwrap()?.sequence, 2);
/// assert!(writes.next().is_none());
/// # Ok(())
/// # }
/// ```
pub fn log_writes_at(log: &[u8], place: LogPlace) -> LogWrites<'_> {
    LogWrites {
        log,
        place: sys::ucstore_log_place {
            offset: place.offset,
            last: place.last,
            batches: 0,
        },
        room: Vec::new(),
        at: 0,
        left: 0,
        ended: None,
        failed: false,
    }
}

impl<'a> LogWrites<'a> {
    /// Replays the batches that were not fetched yet to a store, one with each call of [`Replay::write_next`].
    pub fn replay(self, store: &'a Store) -> Replay<'a> {
        Replay::of(store, self.log, self.place)
    }
}

impl LogWrites<'_> {
    /// Returns the next write, valid until the next call, or `None` after the last one.
    ///
    /// # Errors
    ///
    /// [`Error::OutOfMemory`]. After an error there are no more writes.
    pub fn next_write(&mut self) -> Result<Option<Write<&[u8]>>, Error> {
        if self.failed {
            return Ok(None);
        }
        self.fetch().inspect_err(|_| self.failed = true)?;
        Ok((self.left > 0).then(|| self.write()))
    }

    /// Returns how the log ends, once all writes were returned.
    pub fn ended(&self) -> Option<Ended> {
        self.ended
    }

    /// Returns the position after the batches that were fetched.
    pub fn offset(&self) -> u64 {
        self.place.offset
    }

    /// Returns true if the next write, if there is one, begins another batch.
    pub fn is_between_batches(&self) -> bool {
        self.left == 0
    }

    /// Skips the remaining writes, and returns the offset where the log ends, and how it ends.
    ///
    /// Truncate the log's file to this length before you append to it: the rest may be an incomplete record, or zeros that a
    /// crash left.
    ///
    /// # Errors
    ///
    /// [`Error::OutOfMemory`].
    pub fn end(mut self) -> Result<(u64, Ended), Error> {
        loop {
            self.left = 0;
            self.fetch()?;
            if let Some(ended) = self.ended {
                return Ok((self.offset(), ended));
            }
        }
    }

    /// Fetches the next batch that has writes.
    fn fetch(&mut self) -> Result<(), Error> {
        while self.left == 0 && self.ended.is_none() {
            let mut ended = sys::ucstore_ended::default();
            let mut size = 0;
            let status = unsafe {
                sys::ucstore_log_next(
                    self.log.as_ptr(),
                    self.log.len(),
                    &mut self.place,
                    self.room.as_mut_ptr(),
                    self.room.len(),
                    &mut size,
                    &mut self.left,
                    &mut ended,
                )
            };
            self.at = 0;
            match status {
                sys::UCSTORE_ROOM => self.room.resize(size, 0),
                sys::UCSTORE_LOG_ENDS => self.ended = Some(Ended::of(ended)),
                status => check(status)?,
            }
        }
        Ok(())
    }

    /// The next bytes of the buffer.
    fn bytes(&mut self, count: usize) -> &[u8] {
        let begin = self.at;
        self.at += count;
        &self.room[begin..self.at]
    }

    fn number(&mut self) -> u64 {
        u64::from_le_bytes(self.bytes(8).try_into().expect("a number has 8 bytes"))
    }

    /// The place of the next key or value in the buffer, which its length precedes.
    fn text(&mut self) -> ops::Range<usize> {
        let length = self.number() as usize;
        let begin = self.at;
        self.at += length;
        begin..self.at
    }

    /// The next write of the buffer.
    fn write(&mut self) -> Write<&[u8]> {
        self.left -= 1;
        let sequence = self.number();
        let tag = self.bytes(1)[0];
        let (first, second) = (self.text(), self.text());
        let (first, second) = (&self.room[first], &self.room[second]);
        let operation = match tag {
            0 => Operation::Delete { key: first },
            1 => Operation::Put {
                key: first,
                value: second,
            },
            2 => Operation::Merge {
                key: first,
                operand: second,
            },
            _ => Operation::DeleteRange {
                begin: first,
                end: second,
            },
        };
        Write {
            sequence,
            operation,
        }
    }
}

impl Iterator for LogWrites<'_> {
    type Item = Result<Write, Error>;

    fn next(&mut self) -> Option<Self::Item> {
        self.next_write()
            .map(|write| write.map(Write::to_own))
            .transpose()
    }
}

impl FusedIterator for LogWrites<'_> {}
