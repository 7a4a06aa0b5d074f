//! [`LastWriteTable`]: the group that wrote a key last.

use crate::cache_padded::CachePadded;
use crate::header::HEADER_SIZE;
use std::sync::atomic::{AtomicU64, Ordering};

/// The number of cells: a power of two.
const CELLS: usize = 1 << 16;

/// The most operations of a group that are noted one by one.
const MOST_NOTED: usize = 64;

/// The tags of operations in a batch.
const DELETION: u8 = 0;
const VALUE: u8 = 1;
const MERGE: u8 = 2;

/// The tag of log data, which touches no key.
const LOG_DATA: u8 = 3;

/// Notes the group that wrote a key last, so that a reader knows whether an older view has the key as it is now.
///
/// Each key has a cell, which has the number of the last group that wrote such a key. Keys share cells: so one that wasn't written may
/// be taken for one that was, and never the other way round.
///
/// One thread at a time notes and counts, the one that writes a group. What it has noted is seen by those who see what it releases
/// after that.
pub(crate) struct LastWriteTable {
    /// The number of groups taken.
    groups: CachePadded<AtomicU64>,
    /// The last group that has more operations, or other ones, than are noted one by one.
    all: AtomicU64,
    cells: Box<[AtomicU64]>,
}

impl Default for LastWriteTable {
    fn default() -> LastWriteTable {
        let cells = std::iter::repeat_with(AtomicU64::default).take(CELLS);
        LastWriteTable {
            groups: CachePadded::default(),
            all: AtomicU64::default(),
            cells: cells.collect(),
        }
    }
}

impl LastWriteTable {
    /// The number of groups taken. It is asked while the store is locked.
    pub(crate) fn groups(&self) -> u64 {
        self.groups.0.load(Ordering::Relaxed)
    }

    /// Notes what the next group writes, before the store takes it. If it isn't taken, the next one has its number.
    pub(crate) fn record(&self, batch: &[u8]) {
        let number = self.groups() + 1;
        let mut keys = Keys::of(batch);
        for _ in 0..MOST_NOTED {
            match keys.next() {
                Some(Some(key)) => self.cell(key).store(number, Ordering::Relaxed),
                Some(None) => break,
                None => return,
            }
        }
        self.record_all();
    }

    /// Notes that the next group may write each key.
    pub(crate) fn record_all(&self) {
        self.all.store(self.groups() + 1, Ordering::Relaxed);
    }

    /// Counts the group that was noted, while the store is locked.
    pub(crate) fn count(&self) {
        self.groups.0.store(self.groups() + 1, Ordering::Relaxed);
    }

    /// Whether no group after this number of them has written a key, among those that the caller has seen.
    pub(crate) fn is_as_of(&self, key: &[u8], groups: u64) -> bool {
        self.cell(key).load(Ordering::Relaxed) <= groups
            && self.all.load(Ordering::Relaxed) <= groups
    }

    /// The cell of a key.
    fn cell(&self, key: &[u8]) -> &AtomicU64 {
        &self.cells[hash_of(key) as usize % CELLS]
    }
}

/// A number that is drawn of a key. Who chooses keys that share a cell makes their lookups slower, and nothing else.
fn hash_of(key: &[u8]) -> u64 {
    let mix = |hash: u64, word: [u8; 8]| {
        let mixed = hash.rotate_left(23) ^ u64::from_le_bytes(word);
        mixed.wrapping_mul(0x9e37_79b9_7f4a_7c15)
    };
    let (words, rest) = key.as_chunks();
    let mut last = [0; 8];
    last[..rest.len()].copy_from_slice(rest);
    let hash = words
        .iter()
        .fold(key.len() as u64, |hash, word| mix(hash, *word));
    mix(hash, last) >> 32
}

/// The keys of a batch's operations, one by one; none in place of one that isn't noted so.
pub(crate) struct Keys<'a> {
    rest: &'a [u8],
}

impl<'a> Keys<'a> {
    /// The keys after the header of a batch.
    pub(crate) fn of(batch: &'a [u8]) -> Keys<'a> {
        Keys {
            rest: &batch[HEADER_SIZE..],
        }
    }

    /// The key of the next operation.
    fn key(&mut self) -> Option<&'a [u8]> {
        let tag = self.byte()?;
        let key = self.text()?;
        match tag {
            DELETION => Some(key),
            VALUE | MERGE => self.text().and(Some(key)),
            _ => None,
        }
    }

    /// Skips log data before the next operation.
    fn skip_log_data(&mut self) {
        while let [LOG_DATA, rest @ ..] = self.rest {
            let mut after = Keys { rest };
            if after.text().is_none() {
                break;
            }
            *self = after;
        }
    }

    fn text(&mut self) -> Option<&'a [u8]> {
        let length = self.length()?;
        let (text, rest) = self.rest.split_at_checked(length)?;
        self.rest = rest;
        Some(text)
    }

    /// A length: 7 bits a byte, the low ones first.
    fn length(&mut self) -> Option<usize> {
        let mut length = 0;
        for shift in (0..32).step_by(7) {
            let byte = self.byte()?;
            length |= usize::from(byte & 0x7f) << shift;
            if byte < 0x80 {
                return Some(length);
            }
        }
        None
    }

    fn byte(&mut self) -> Option<u8> {
        let (byte, rest) = self.rest.split_first()?;
        self.rest = rest;
        Some(*byte)
    }
}

impl<'a> Iterator for Keys<'a> {
    type Item = Option<&'a [u8]>;

    fn next(&mut self) -> Option<Option<&'a [u8]>> {
        self.skip_log_data();
        (!self.rest.is_empty()).then(|| self.key())
    }
}

#[cfg(test)]
mod tests {
    use super::*;
    use ucstore::{Batch, Error};

    /// Notes and counts a batch.
    fn take(touched: &LastWriteTable, add: impl FnOnce(&mut Batch) -> Result<&mut Batch, Error>) {
        let mut batch = Batch::new();
        add(&mut batch).unwrap();
        touched.record(&batch.bytes());
        touched.count();
    }

    #[test]
    fn a_key_is_as_of_its_last_write() {
        let touched = LastWriteTable::default();
        let long = [b'l'; 300];
        take(&touched, |batch| batch.put("put", long));
        take(&touched, |batch| {
            batch
                .put(long, [])?
                .merge("merged", [7; 200])?
                .delete("deleted")
        });
        assert_eq!(touched.groups(), 2);
        let as_of = |key: &[u8]| (0..3).filter(|groups| touched.is_as_of(key, *groups)).min();
        assert_eq!(as_of(b"other"), Some(0));
        assert_eq!(as_of(b"put"), Some(1));
        for key in [&long[..], b"merged", b"deleted"] {
            assert_eq!(as_of(key), Some(2));
        }
        // A group that isn't taken has the number of the next one.
        touched.record(&Batch::new().put("put", "").unwrap().bytes());
        assert!(!touched.is_as_of(b"put", 2));
        take(&touched, |batch| batch.put("other", ""));
        assert!(touched.is_as_of(b"put", 3));
    }

    #[test]
    fn what_is_not_noted_one_by_one_may_be_each_key() {
        let touched = LastWriteTable::default();
        take(&touched, |batch| batch.delete_range("a", "b"));
        assert!(!touched.is_as_of(b"other", 0));
        take(&touched, |batch| {
            (0..MOST_NOTED as u64).try_fold(batch, |batch, key| batch.delete(key.to_le_bytes()))
        });
        assert!(!touched.is_as_of(b"other", 1));
        let bytes = Batch::new().put("key", "value").unwrap().bytes();
        for (length, groups) in (HEADER_SIZE + 1..bytes.len()).zip(2..) {
            touched.record(&bytes[..length]);
            touched.count();
            assert!(!touched.is_as_of(b"other", groups), "at {length}");
        }
        let groups = touched.groups();
        take(&touched, |batch| batch.put("key", "value"));
        assert!(touched.is_as_of(b"other", groups));
    }

    #[test]
    fn keys_have_cells_of_their_own() {
        let cells = (0..1000u32).map(|number| {
            let key = format!("k{number:015}");
            hash_of(key.as_bytes()) as usize % CELLS
        });
        let cells = std::collections::HashSet::<_>::from_iter(cells);
        // Drawn ones would be 992 on average.
        assert!(cells.len() > 950, "{}", cells.len());
    }
}
