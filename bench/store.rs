//! Memtables and runs in plain Rust, with our layout: an arena and slots, borrowed points sorted by key, entries made
//! in this order with a `Vec<u8>` for each key and value, blocks of 16 points with copied fences and their prefixes, and
//! range deletions cut into fragments. The programs that ours are measured against share it.

#![allow(dead_code)]

use std::cmp::Reverse;
use std::collections::BTreeSet;

pub(crate) const BLOCK_POINTS: usize = 16;

/// Numbers by SplitMix64.
pub(crate) struct Numbers {
    pub(crate) state: u64,
}

impl Numbers {
    pub(crate) fn next(&mut self) -> u64 {
        self.state = self.state.wrapping_add(0x9e37_79b9_7f4a_7c15);
        let mixed = (self.state ^ (self.state >> 30)).wrapping_mul(0xbf58_476d_1ce4_e5b9);
        let mixed = (mixed ^ (mixed >> 27)).wrapping_mul(0x94d0_49bb_1331_11eb);
        mixed ^ (mixed >> 31)
    }
}

#[derive(Clone, Copy)]
pub(crate) enum Kind {
    Put,
    Delete,
    Merge,
    DeleteRange,
}

/// A write whose bytes lie in the arena.
pub(crate) struct Slot {
    pub(crate) seq: u64,
    pub(crate) kind: Kind,
    pub(crate) start: usize,
    pub(crate) first: usize,
    pub(crate) second: usize,
}

#[derive(Default)]
pub(crate) struct Memtable {
    pub(crate) text: Vec<u8>,
    pub(crate) slots: Vec<Slot>,
    pub(crate) size: u64,
    pub(crate) last: u64,
}

impl Memtable {
    pub(crate) fn insert(&mut self, seq: u64, kind: Kind, first: &[u8], second: &[u8]) {
        let start = self.text.len();
        self.text.extend_from_slice(first);
        self.text.extend_from_slice(second);
        self.slots.push(Slot {
            seq,
            kind,
            start,
            first: first.len(),
            second: second.len(),
        });
        let texts = match kind {
            Kind::Put | Kind::Merge => first.len() + second.len(),
            Kind::Delete => first.len(),
            Kind::DeleteRange if first < second => first.len() + second.len(),
            Kind::DeleteRange => return,
        };
        self.size = self.size.saturating_add(texts as u64 + 8);
        self.last = seq;
    }

    pub(crate) fn texts(&self, slot: &Slot) -> (&[u8], &[u8]) {
        let middle = slot.start + slot.first;
        (
            &self.text[slot.start..middle],
            &self.text[middle..middle + slot.second],
        )
    }

    pub(crate) fn flush(self) -> Run {
        let mut points = Vec::new();
        for slot in &self.slots {
            let (key, text) = self.texts(slot);
            let kind = match slot.kind {
                Kind::DeleteRange => continue,
                kind => kind,
            };
            points.push(EntryRef {
                key,
                seq: slot.seq,
                kind,
                text,
            });
        }
        points.sort_unstable_by(|point, other| {
            point.key.cmp(other.key).then(other.seq.cmp(&point.seq))
        });
        let points: Vec<Entry> = points.iter().map(EntryRef::to_entry).collect();
        let mut ranges = Vec::new();
        for slot in &self.slots {
            if let Kind::DeleteRange = slot.kind {
                let (begin, end) = self.texts(slot);
                ranges.push((begin, end, slot.seq));
            }
        }
        Run::new(points, cut(&ranges))
    }
}

/// A point whose bytes lie in the arena.
pub(crate) struct EntryRef<'a> {
    pub(crate) key: &'a [u8],
    pub(crate) seq: u64,
    pub(crate) kind: Kind,
    pub(crate) text: &'a [u8],
}

impl EntryRef<'_> {
    pub(crate) fn to_entry(&self) -> Entry {
        let what = match self.kind {
            Kind::Put => What::Put(self.text.to_vec()),
            Kind::Merge => What::Merge(self.text.to_vec()),
            Kind::Delete | Kind::DeleteRange => What::Delete,
        };
        Entry {
            key: self.key.to_vec(),
            seq: self.seq,
            what,
        }
    }
}

pub(crate) enum What {
    Put(Vec<u8>),
    Delete,
    Merge(Vec<u8>),
}

pub(crate) struct Entry {
    pub(crate) key: Vec<u8>,
    pub(crate) seq: u64,
    pub(crate) what: What,
}

impl Entry {
    pub(crate) fn size(&self) -> u64 {
        let text = match &self.what {
            What::Put(text) | What::Merge(text) => text.len(),
            What::Delete => 0,
        };
        (self.key.len() + text + 8) as u64
    }
}

/// The range deletions over the keys from a begin to below an end, the newest first.
pub(crate) struct Fragment {
    pub(crate) begin: Vec<u8>,
    pub(crate) end: Vec<u8>,
    pub(crate) seqs: Vec<u64>,
}

impl Fragment {
    pub(crate) fn size(&self) -> u64 {
        (self.begin.len() + self.end.len() + 8 * self.seqs.len()) as u64
    }
}

/// The fragments of ranges: the pieces between their ends that some range covers.
pub(crate) fn cut(ranges: &[(&[u8], &[u8], u64)]) -> Vec<Fragment> {
    let mut cuts = BTreeSet::new();
    for (begin, end, _) in ranges {
        if begin < end {
            cuts.insert(*begin);
            cuts.insert(*end);
        }
    }
    let cuts: Vec<&[u8]> = cuts.into_iter().collect();
    let mut pieces: Vec<(&[u8], &[u8], Vec<u64>)> = cuts
        .windows(2)
        .map(|ends| (ends[0], ends[1], Vec::new()))
        .collect();
    let mut newest_first: Vec<_> = ranges.iter().collect();
    newest_first.sort_unstable_by_key(|range| Reverse(range.2));
    for (begin, end, seq) in newest_first {
        let from = pieces.partition_point(|piece| piece.0 < *begin);
        let to = pieces.partition_point(|piece| piece.1 <= *end);
        for piece in pieces.get_mut(from..to).unwrap_or_default() {
            piece.2.push(*seq);
        }
    }
    let covered = pieces.into_iter().filter(|piece| !piece.2.is_empty());
    covered
        .map(|(begin, end, seqs)| Fragment {
            begin: begin.to_vec(),
            end: end.to_vec(),
            seqs,
        })
        .collect()
}

/// The first eight bytes as a number, with zeros for those that aren't there.
pub(crate) fn prefix_of(bytes: &[u8]) -> u64 {
    match bytes.first_chunk::<8>() {
        Some(first) => u64::from_be_bytes(*first),
        None => {
            let mut padded = [0; 8];
            padded[..bytes.len()].copy_from_slice(bytes);
            u64::from_be_bytes(padded)
        }
    }
}

pub(crate) struct Run {
    pub(crate) points: Vec<Entry>,
    pub(crate) fences: Vec<Vec<u8>>,
    pub(crate) shared: usize,
    pub(crate) prefixes: Vec<u64>,
    pub(crate) fragments: Vec<Fragment>,
    pub(crate) size: u64,
}

impl Run {
    /// The run of points in order of key and of fragments.
    pub(crate) fn new(points: Vec<Entry>, fragments: Vec<Fragment>) -> Run {
        let size = points.iter().map(Entry::size).sum::<u64>()
            + fragments.iter().map(Fragment::size).sum::<u64>();
        let fences: Vec<Vec<u8>> = points
            .iter()
            .step_by(BLOCK_POINTS)
            .map(|point| point.key.clone())
            .collect();
        let shared = match (fences.first(), fences.last()) {
            (Some(first), Some(last)) => first.iter().zip(last).take_while(|(a, b)| a == b).count(),
            _ => 0,
        };
        let prefixes = fences.iter().map(|key| prefix_of(&key[shared..])).collect();
        Run {
            points,
            fences,
            shared,
            prefixes,
            fragments,
            size,
        }
    }
}
