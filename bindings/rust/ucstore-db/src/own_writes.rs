//! [`OwnWrites`]: the writes of a transaction, which its own reads see.

use crate::error::Error;
use std::cell::OnceCell;
use std::collections::btree_map::{BTreeMap, Entry, Range};
use std::ops::Bound;
use ucstore::{Batch, Operator, Options, Store};

/// The value that a key had before the operands that the transaction merged into it.
enum Base {
    /// The value in the snapshot.
    Snapshot,
    /// The value that the transaction put; none if it deleted the key.
    Own(Option<Vec<u8>>),
}

/// The writes of a transaction to a key.
pub(crate) struct OwnWrite {
    base: Base,
    /// The operands merged into it, the oldest first.
    operands: Vec<Vec<u8>>,
}

impl OwnWrite {
    fn of(base: Base) -> OwnWrite {
        OwnWrite {
            base,
            operands: Vec::new(),
        }
    }
}

/// Result of a search for a key among the own writes.
pub(crate) enum Found<'a> {
    /// Nothing: its value is that of the snapshot.
    Snapshot,
    /// A range deletion removed it.
    Deleted,
    /// They wrote it.
    Own(&'a OwnWrite),
}

/// The kind of a write.
#[derive(Clone, Copy)]
enum Kind {
    Put,
    Delete,
    Merge,
    DeleteRange,
}

/// Writes in their order: the kind of each, and the ends of its key and of its value, operand or end.
#[derive(Default)]
struct Listed {
    bytes: Vec<u8>,
    writes: Vec<(Kind, usize, usize)>,
}

/// Writes by their keys.
#[derive(Default)]
struct Index {
    keys: BTreeMap<Vec<u8>, OwnWrite>,
    /// The ranges that were deleted, which don't overlap: the end of each by its begin. What `keys` has of their keys is newer.
    deleted: BTreeMap<Vec<u8>, Vec<u8>>,
}

/// The writes of a transaction: a batch, and what its reads need of it. Most transactions read before they write, so the index is made
/// when the first read after a write asks for it.
pub(crate) struct OwnWrites {
    operator: Operator,
    batch: Batch,
    /// The writes, until there is an index.
    listed: Listed,
    index: OnceCell<Index>,
}

impl OwnWrites {
    /// No writes, for a database of an operator.
    pub(crate) fn new(operator: Operator) -> OwnWrites {
        OwnWrites {
            operator,
            batch: Batch::new(),
            listed: Listed::default(),
            index: OnceCell::new(),
        }
    }

    /// Whether there are none.
    pub(crate) fn is_empty(&self) -> bool {
        self.batch.is_empty()
    }

    /// The batch of them.
    pub(crate) fn batch(&self) -> &Batch {
        &self.batch
    }

    /// Sets a key to a value.
    pub(crate) fn put(&mut self, key: &[u8], value: &[u8]) -> Result<(), Error> {
        self.batch.put(key, value)?;
        self.record(Kind::Put, key, value);
        Ok(())
    }

    /// Removes a key.
    pub(crate) fn delete(&mut self, key: &[u8]) -> Result<(), Error> {
        self.batch.delete(key)?;
        self.record(Kind::Delete, key, &[]);
        Ok(())
    }

    /// Combines a key with an operand.
    pub(crate) fn merge(&mut self, key: &[u8], operand: &[u8]) -> Result<(), Error> {
        self.batch.merge(key, operand)?;
        self.record(Kind::Merge, key, operand);
        Ok(())
    }

    /// Removes each key from `begin` to below `end`.
    pub(crate) fn delete_range(&mut self, begin: &[u8], end: &[u8]) -> Result<(), Error> {
        self.batch.delete_range(begin, end)?;
        self.record(Kind::DeleteRange, begin, end);
        Ok(())
    }

    /// Records a write of the batch, for later reads.
    fn record(&mut self, kind: Kind, key: &[u8], other: &[u8]) {
        match self.index.get_mut() {
            Some(index) => index.apply(kind, key, other),
            None => self.listed.push(kind, key, other),
        }
    }

    /// The writes by their keys.
    fn index(&self) -> &Index {
        self.index.get_or_init(|| {
            let mut index = Index::default();
            self.listed
                .each(|kind, key, other| index.apply(kind, key, other));
            index
        })
    }

    /// Whether a range deletion covers a key.
    pub(crate) fn is_deleted(&self, key: &[u8]) -> bool {
        !self.is_empty() && self.index().is_deleted(key)
    }

    /// Finds a key among them.
    pub(crate) fn find(&self, key: &[u8]) -> Found<'_> {
        if self.is_empty() {
            return Found::Snapshot;
        }
        let index = self.index();
        match index.keys.get(key) {
            Some(own) => Found::Own(own),
            None if index.is_deleted(key) => Found::Deleted,
            None => Found::Snapshot,
        }
    }

    /// The keys of a range that were written, with what was, in order.
    pub(crate) fn range(&self, low: &[u8], high: Option<&[u8]>) -> Range<'_, Vec<u8>, OwnWrite> {
        bounded(&self.index().keys, low, high)
    }

    /// The value that writes leave of a key. The snapshot's is asked for if they depend on it.
    pub(crate) fn value(
        &self,
        own: &OwnWrite,
        in_snapshot: impl FnOnce() -> Result<Option<Vec<u8>>, Error>,
    ) -> Result<Option<Vec<u8>>, Error> {
        let base = match &own.base {
            Base::Snapshot => in_snapshot()?,
            Base::Own(value) => value.clone(),
        };
        if own.operands.is_empty() {
            return Ok(base);
        }
        // Only a store knows what its operator does.
        let store = Store::create(self.operator, &Options::default())?;
        if let Some(base) = base {
            store.put("", base)?;
        }
        for operand in &own.operands {
            store.merge("", operand)?;
        }
        Ok(store.get("")?)
    }
}

impl Listed {
    fn push(&mut self, kind: Kind, key: &[u8], other: &[u8]) {
        self.bytes.extend_from_slice(key);
        let end = self.bytes.len();
        self.bytes.extend_from_slice(other);
        self.writes.push((kind, end, self.bytes.len()));
    }

    /// Visits each write, in order.
    fn each(&self, mut visit: impl FnMut(Kind, &[u8], &[u8])) {
        let mut begin = 0;
        for &(kind, middle, end) in &self.writes {
            visit(kind, &self.bytes[begin..middle], &self.bytes[middle..end]);
            begin = end;
        }
    }
}

impl Index {
    /// Takes the next write.
    fn apply(&mut self, kind: Kind, key: &[u8], other: &[u8]) {
        match kind {
            Kind::Put => self.set(key, Some(other.to_vec())),
            Kind::Delete => self.set(key, None),
            Kind::Merge => self.merge(key, other),
            Kind::DeleteRange => self.delete_range(key, other),
        }
    }

    fn set(&mut self, key: &[u8], value: Option<Vec<u8>>) {
        self.keys
            .insert(key.to_vec(), OwnWrite::of(Base::Own(value)));
    }

    fn merge(&mut self, key: &[u8], operand: &[u8]) {
        let is_deleted = self.is_deleted(key);
        let own = match self.keys.entry(key.to_vec()) {
            Entry::Occupied(own) => own.into_mut(),
            Entry::Vacant(place) => place.insert(OwnWrite::of(match is_deleted {
                true => Base::Own(None),
                false => Base::Snapshot,
            })),
        };
        own.operands.push(operand.to_vec());
    }

    fn delete_range(&mut self, begin: &[u8], end: &[u8]) {
        if begin >= end {
            return;
        }
        let covered: Vec<_> = bounded(&self.keys, begin, Some(end))
            .map(|(key, _)| key.clone())
            .collect();
        for key in covered {
            self.keys.remove(&key);
        }
        self.add_deleted(begin.to_vec(), end.to_vec());
    }

    /// Adds a range that was deleted, joined with those that it meets.
    fn add_deleted(&mut self, mut begin: Vec<u8>, mut end: Vec<u8>) {
        while let Some((first, last)) = self.deleted.range(..=end.clone()).next_back() {
            if *last < begin {
                break;
            }
            let first = first.clone();
            let last = self.deleted.remove(&first).expect("it was found");
            begin = begin.min(first);
            end = end.max(last);
        }
        self.deleted.insert(begin, end);
    }

    fn is_deleted(&self, key: &[u8]) -> bool {
        let up_to = (Bound::Unbounded, Bound::Included(key));
        let last = self.deleted.range::<[u8], _>(up_to).next_back();
        last.is_some_and(|(_, end)| key < end.as_slice())
    }
}

/// The entries of a map from `low` on, and below `high` if there is one.
fn bounded<'a, T>(
    map: &'a BTreeMap<Vec<u8>, T>,
    low: &[u8],
    high: Option<&[u8]>,
) -> Range<'a, Vec<u8>, T> {
    // A map's range panics if its ends cross.
    let high = high.map(|high| high.max(low));
    let end = high.map_or(Bound::Unbounded, Bound::Excluded);
    map.range::<[u8], _>((Bound::Included(low), end))
}
