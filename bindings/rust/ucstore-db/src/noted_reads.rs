//! [`NotedReads`]: what a transaction has read.

use crate::conflict::Conflict;
use ucstore::{Error, ReadSet};

/// A walk over a range: what it has seen of it so far.
pub(crate) struct Walk {
    low: Vec<u8>,
    high: Option<Vec<u8>>,
    /// The last key that came from the front, and the last one that came from the back.
    front: Option<Vec<u8>>,
    back: Option<Vec<u8>>,
    /// Whether no row is left between them.
    is_whole: bool,
}

/// The keys that a transaction has looked up, found or not, and its walks over ranges.
#[derive(Default)]
pub(crate) struct NotedReads {
    /// The keys, one after the other, and the end of each.
    keys: Vec<u8>,
    ends: Vec<usize>,
    walks: Vec<Walk>,
}

impl NotedReads {
    /// Notes a lookup of a key.
    pub(crate) fn push_key(&mut self, key: &[u8]) -> Result<(), Error> {
        if self
            .ends
            .last()
            .is_some_and(|_| self.key(self.ends.len() - 1) == key)
        {
            return Ok(());
        }
        self.keys.try_reserve(key.len())?;
        self.ends.try_reserve(1)?;
        self.keys.extend_from_slice(key);
        self.ends.push(self.keys.len());
        Ok(())
    }

    /// Begins a walk over a range, and returns its number.
    pub(crate) fn begin_walk(&mut self, low: &[u8], high: Option<&[u8]>) -> usize {
        self.walks.push(Walk {
            low: low.to_vec(),
            high: high.map(<[u8]>::to_vec),
            front: None,
            back: None,
            is_whole: false,
        });
        self.walks.len() - 1
    }

    /// Notes that a key came next from the front of a walk.
    pub(crate) fn walk_front(&mut self, walk: usize, key: &[u8]) {
        replace(&mut self.walks[walk].front, key);
    }

    /// Notes that a key came next from the back of a walk.
    pub(crate) fn walk_back(&mut self, walk: usize, key: &[u8]) {
        replace(&mut self.walks[walk].back, key);
    }

    /// Notes that no row is left in a walk.
    pub(crate) fn end_walk(&mut self, walk: usize) {
        self.walks[walk].is_whole = true;
    }

    /// The number of lookups and walks.
    pub(crate) fn len(&self) -> usize {
        self.ends.len() + self.walks.len()
    }

    /// Whether a key was looked up, or is in a range that a walk has seen.
    pub(crate) fn covers(&self, key: &[u8]) -> bool {
        let mut places = 0..self.ends.len();
        let mut ranges = self.ranges();
        places.any(|place| self.key(place) == key)
            || ranges.any(|(low, high)| low <= key && high.is_none_or(|high| key < &high[..]))
    }

    /// Whether a walk has seen something.
    pub(crate) fn has_ranges(&self) -> bool {
        self.ranges().next().is_some()
    }

    /// The read set of them.
    pub(crate) fn to_read_set(&self) -> Result<ReadSet, Error> {
        let mut reads = ReadSet::new();
        for place in 0..self.ends.len() {
            reads.push_key(self.key(place))?;
        }
        for (low, high) in self.ranges() {
            reads.push_range(low, high.as_deref())?;
        }
        Ok(reads)
    }

    /// The conflict at a place of the read set.
    pub(crate) fn conflict(&self, place: usize) -> Conflict {
        if place < self.ends.len() {
            return Conflict::Key(self.key(place).to_vec());
        }
        let range = self.ranges().nth(place - self.ends.len());
        let (low, high) = range.expect("the place is one of the read set");
        Conflict::Range {
            low: low.to_vec(),
            high,
        }
    }

    /// The key of a lookup.
    fn key(&self, place: usize) -> &[u8] {
        let begin = place.checked_sub(1).map_or(0, |before| self.ends[before]);
        &self.keys[begin..self.ends[place]]
    }

    /// The ranges that walks have seen, each with its end.
    fn ranges(&self) -> impl Iterator<Item = (&[u8], Option<Vec<u8>>)> {
        self.walks.iter().flat_map(Walk::ranges)
    }
}

impl Walk {
    /// The parts of its range that it has seen.
    fn ranges(&self) -> impl Iterator<Item = (&[u8], Option<Vec<u8>>)> {
        let whole = self.is_whole.then(|| (&self.low[..], self.high.clone()));
        let front = self.front.as_ref().filter(|_| !self.is_whole);
        let back = self.back.as_ref().filter(|_| !self.is_whole);
        // A key with a zero byte after it is the next one above it.
        let front = front.map(|key| (&self.low[..], Some([key, &[0][..]].concat())));
        let back = back.map(|key| (&key[..], self.high.clone()));
        whole.into_iter().chain(front).chain(back)
    }
}

/// Replaces a key, in the memory of the one before.
fn replace(held: &mut Option<Vec<u8>>, key: &[u8]) {
    let held = held.get_or_insert_default();
    held.clear();
    held.extend_from_slice(key);
}

#[cfg(test)]
mod tests {
    use super::*;

    fn ranges(reads: &NotedReads) -> Vec<(Vec<u8>, Option<Vec<u8>>)> {
        reads
            .ranges()
            .map(|(low, high)| (low.to_vec(), high))
            .collect()
    }

    #[test]
    fn a_walk_is_noted_as_far_as_it_went() {
        let mut reads = NotedReads::default();
        let walk = reads.begin_walk(b"a", Some(b"x"));
        assert!(!reads.has_ranges());
        reads.walk_front(walk, b"c");
        reads.walk_front(walk, b"d");
        assert_eq!(ranges(&reads), [(b"a".to_vec(), Some(b"d\0".to_vec()))]);
        reads.walk_back(walk, b"v");
        let back = (b"v".to_vec(), Some(b"x".to_vec()));
        assert_eq!(ranges(&reads)[1], back);
        reads.end_walk(walk);
        assert_eq!(ranges(&reads), [(b"a".to_vec(), Some(b"x".to_vec()))]);
    }

    #[test]
    fn the_place_of_a_read_names_it() {
        let mut reads = NotedReads::default();
        for key in ["", "k", "k", "longer"] {
            reads.push_key(key.as_bytes()).unwrap();
        }
        let walk = reads.begin_walk(b"a", None);
        assert!(reads.covers(b"k") && !reads.covers(b"b") && !reads.covers(b"K"));
        reads.end_walk(walk);
        assert!(reads.covers(b"b") && !reads.covers(b"A"));
        assert_eq!(reads.conflict(0), Conflict::Key(Vec::new()));
        assert_eq!(reads.conflict(2), Conflict::Key(b"longer".to_vec()));
        let low = b"a".to_vec();
        assert_eq!(reads.conflict(3), Conflict::Range { low, high: None });
    }
}
