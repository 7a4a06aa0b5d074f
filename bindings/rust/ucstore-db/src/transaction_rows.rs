//! [`TransactionRows`]: the rows of a range, with a transaction's own writes.

use crate::error::Error;
use crate::noted_reads::NotedReads;
use crate::own_writes::{OwnWrite, OwnWrites};
use crate::snapshot::Rows;
use std::cell::RefCell;
use std::collections::btree_map;
use std::fmt;
use std::iter::FusedIterator;
use ucstore::KeyValue;

/// The keys of a range in order, each with its value, as a [`Transaction`](crate::Transaction) sees them. What was taken of them, from
/// both ends, is what it has read.
pub struct TransactionRows<'a> {
    rows: BothEnds<Rows>,
    own: BothEnds<btree_map::Range<'a, Vec<u8>, OwnWrite>>,
    writes: &'a OwnWrites,
    reads: &'a RefCell<NotedReads>,
    /// The number of its walk.
    walk: usize,
    /// Whether an error ended it.
    is_failed: bool,
}

/// An iterator whose next items are known, at both ends.
struct BothEnds<I: DoubleEndedIterator> {
    items: I,
    front: Option<I::Item>,
    back: Option<I::Item>,
}

/// An end of a range.
#[derive(Clone, Copy)]
enum End {
    Front,
    Back,
}

impl<I: DoubleEndedIterator> BothEnds<I> {
    fn of(items: I) -> BothEnds<I> {
        BothEnds {
            items,
            front: None,
            back: None,
        }
    }

    /// The next item at an end, which stays there.
    fn peek(&mut self, end: End) -> Option<&I::Item> {
        let BothEnds { items, front, back } = self;
        match end {
            End::Front => fill(front, || items.next(), back),
            End::Back => fill(back, || items.next_back(), front),
        }
    }

    /// Takes the next item at an end.
    fn take(&mut self, end: End) -> Option<I::Item> {
        self.peek(end);
        match end {
            End::Front => self.front.take(),
            End::Back => self.back.take(),
        }
    }
}

/// Fills a place with the next item: the last one may be known at the other end.
fn fill<'a, T>(
    place: &'a mut Option<T>,
    next: impl FnOnce() -> Option<T>,
    other: &mut Option<T>,
) -> Option<&'a T> {
    if place.is_none() {
        *place = next().or_else(|| other.take());
    }
    place.as_ref()
}

impl<'a> TransactionRows<'a> {
    pub(crate) fn of(
        rows: Rows,
        own: btree_map::Range<'a, Vec<u8>, OwnWrite>,
        writes: &'a OwnWrites,
        reads: &'a RefCell<NotedReads>,
        walk: usize,
    ) -> TransactionRows<'a> {
        TransactionRows {
            rows: BothEnds::of(rows),
            own: BothEnds::of(own),
            writes,
            reads,
            walk,
            is_failed: false,
        }
    }

    /// The next row at an end, and notes it.
    fn take(&mut self, end: End) -> Option<Result<KeyValue, Error>> {
        if self.is_failed {
            return None;
        }
        let row = self.row(end).inspect_err(|_| self.is_failed = true);
        if let Ok(row) = &row {
            let mut reads = self.reads.borrow_mut();
            match (row, end) {
                (Some((key, _)), End::Front) => reads.walk_front(self.walk, key),
                (Some((key, _)), End::Back) => reads.walk_back(self.walk, key),
                (None, _) => reads.end_walk(self.walk),
            }
        }
        row.transpose()
    }

    /// The next row at an end: one of the snapshot, unless the transaction deleted it, or one of its own, the nearer first.
    fn row(&mut self, end: End) -> Result<Option<KeyValue>, Error> {
        loop {
            let Some(is_own) = self.is_own_next(end) else {
                return Ok(None);
            };
            if !is_own {
                let Some(row) = self.rows.take(end).transpose()? else {
                    return Ok(None);
                };
                if !self.writes.is_deleted(&row.0) {
                    return Ok(Some(row));
                }
                continue;
            }
            let Some((key, own)) = self.own.take(end) else {
                return Ok(None);
            };
            let is_in_both = matches!(self.rows.peek(end), Some(Ok(row)) if row.0 == *key);
            let row = match is_in_both {
                true => self.rows.take(end).transpose()?,
                false => None,
            };
            let value = self.writes.value(own, || Ok(row.map(|(_, value)| value)))?;
            if let Some(value) = value {
                return Ok(Some((key.clone(), value)));
            }
        }
    }

    /// Whether the next key at an end is one that the transaction wrote; none if there is no key. An error of the snapshot comes first.
    fn is_own_next(&mut self, end: End) -> Option<bool> {
        let own = self.own.peek(end).map(|(key, _)| key.as_slice());
        match (self.rows.peek(end), own) {
            (None, None) => None,
            (None, Some(_)) => Some(true),
            (Some(Err(_)), _) | (Some(_), None) => Some(false),
            (Some(Ok((key, _))), Some(own)) => Some(match end {
                End::Front => own <= key.as_slice(),
                End::Back => own >= key.as_slice(),
            }),
        }
    }
}

impl Iterator for TransactionRows<'_> {
    type Item = Result<KeyValue, Error>;

    fn next(&mut self) -> Option<Result<KeyValue, Error>> {
        self.take(End::Front)
    }
}

impl DoubleEndedIterator for TransactionRows<'_> {
    fn next_back(&mut self) -> Option<Result<KeyValue, Error>> {
        self.take(End::Back)
    }
}

impl FusedIterator for TransactionRows<'_> {}

impl fmt::Debug for TransactionRows<'_> {
    fn fmt(&self, formatter: &mut fmt::Formatter<'_>) -> fmt::Result {
        formatter
            .debug_struct("TransactionRows")
            .finish_non_exhaustive()
    }
}
