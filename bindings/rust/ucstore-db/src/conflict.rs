//! [`Conflict`] and [`Condition`]: what a transaction read, and whether it is unchanged.

use crate::error::Error;
use crate::moment::MomentReader;
use crate::noted_reads::NotedReads;
use std::cell::OnceCell;
use std::fmt;
use ucstore::{ReadSet, Store};

/// A key or range that a transaction read and another write changed, so that the transaction isn't committed.
#[derive(Clone, Debug, PartialEq, Eq, Hash)]
#[non_exhaustive]
pub enum Conflict {
    /// A key has another value now, or none any more, or one where it had none.
    Key(Vec<u8>),
    /// A range has other rows now, as far as it was walked.
    Range {
        /// The first key of the range.
        low: Vec<u8>,
        /// The end of the range, exclusive; `None` after the last key.
        high: Option<Vec<u8>>,
    },
}

impl fmt::Display for Conflict {
    fn fmt(&self, formatter: &mut fmt::Formatter<'_>) -> fmt::Result {
        match self {
            Conflict::Key(key) => write!(formatter, "key \"{}\" has changed", key.escape_ascii()),
            Conflict::Range { low, high: None } => {
                let low = low.escape_ascii();
                write!(formatter, "range from \"{low}\" has changed")
            }
            Conflict::Range {
                low,
                high: Some(high),
            } => {
                let (low, high) = (low.escape_ascii(), high.escape_ascii());
                write!(formatter, "range \"{low}\" to \"{high}\" has changed")
            }
        }
    }
}

/// The reads of a transaction, made at a moment, that have to be unchanged when its batch is taken.
pub(crate) struct Condition {
    moment: MomentReader,
    noted: NotedReads,
    /// The reads for the store, if it is to judge them.
    reads: OnceCell<ReadSet>,
}

impl Condition {
    /// The condition of reads at a moment.
    pub(crate) fn of(moment: MomentReader, noted: NotedReads) -> Result<Condition, Error> {
        let condition = Condition {
            moment,
            noted,
            reads: OnceCell::new(),
        };
        if condition.moment.is_kept() {
            // The store will judge, and others wait meanwhile.
            condition.reads()?;
        }
        Ok(condition)
    }

    /// Whether nothing was written since the moment, where this is the sequence of the store's last write: each read is unchanged then.
    pub(crate) fn is_as_of(&self, last: u64) -> bool {
        self.moment.last() == last
    }

    /// Releases the moment, once it is judged.
    pub(crate) fn release(&self) {
        self.moment.release();
    }

    /// The reads, as they were noted.
    pub(crate) fn noted(&self) -> &NotedReads {
        &self.noted
    }

    /// Prepares a batch if the reads are unchanged, and returns its record in a log of some bytes.
    pub(crate) fn prepare(
        &self,
        store: &Store,
        length: u64,
        batch: &[u8],
    ) -> Result<Vec<u8>, ucstore::Error> {
        let reads = self.reads()?;
        self.moment
            .judge(|view| store.prepare_if(view, reads, length, batch))
    }

    /// The place of the first read that has changed.
    pub(crate) fn first_changed(&self, store: &Store) -> Result<Option<usize>, ucstore::Error> {
        if self.moment.is_now(store) {
            return Ok(None);
        }
        let reads = self.reads()?;
        self.moment.judge(|view| store.first_changed(view, reads))
    }

    /// The reads for the store.
    fn reads(&self) -> Result<&ReadSet, ucstore::Error> {
        if self.reads.get().is_none() {
            let _ = self.reads.set(self.noted.to_read_set()?);
        }
        Ok(self.reads.get().expect("they were set"))
    }

    /// The error for the transaction, where a read at a place has changed.
    pub(crate) fn conflict(&self, place: usize) -> Error {
        Error::Conflict(self.noted.conflict(place))
    }
}
