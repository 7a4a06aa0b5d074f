//! Lookups in runs of our layout, in plain Rust.

use crate::store::{prefix_of, Run, What, BLOCK_POINTS};
use crate::writes::number;

impl Run {
    /// Between which fences the prefixes don't decide where a key stands.
    fn undecided(&self, key: &[u8]) -> (usize, usize) {
        let Some(first) = self.fences.first() else {
            return (0, 0);
        };
        match key.strip_prefix(&first[..self.shared]) {
            Some(rest) => {
                let wanted = prefix_of(rest);
                let below = self.prefixes.partition_point(|prefix| *prefix < wanted);
                let up_to = self.prefixes.partition_point(|prefix| *prefix <= wanted);
                (below, up_to)
            }
            None if first.as_slice() < key => (self.fences.len(), self.fences.len()),
            None => (0, 0),
        }
    }

    /// The place of the first point of a key, or where it would stand.
    fn seek(&self, key: &[u8]) -> usize {
        let (begin, end) = self.undecided(key);
        let within = &self.fences[begin..end];
        let passed = begin + within.partition_point(|fence| fence.as_slice() < key);
        if passed == 0 {
            return 0;
        }
        let begin = (passed - 1) * BLOCK_POINTS;
        let end = self.points.len().min(passed * BLOCK_POINTS);
        let block = &self.points[begin..end];
        begin + block.partition_point(|point| point.key.as_slice() < key)
    }

    /// The newest range deletion over a key at or below a sequence.
    fn deleted_at(&self, key: &[u8], at: u64) -> Option<u64> {
        let fragments = &self.fragments;
        let place = fragments.partition_point(|fragment| fragment.begin.as_slice() <= key);
        let fragment = &fragments[place.checked_sub(1)?];
        if fragment.end.as_slice() <= key {
            return None;
        }
        let newer = fragment.seqs.partition_point(|seq| at < *seq);
        fragment.seqs.get(newer).copied()
    }

    /// The effect on a key of the writes at or below a sequence, before the writes of newer runs.
    fn under(&self, key: &[u8], at: u64, mut newer: Folded) -> Effect {
        let deleted = self.deleted_at(key, at);
        for point in &self.points[self.seek(key)..] {
            if point.key != key || deleted.is_some_and(|deleted| point.seq < deleted) {
                break;
            }
            if at < point.seq {
                continue;
            }
            match &point.what {
                What::Put(value) => return Effect::Set(newer.over(value)),
                What::Delete => return Effect::Set(newer.alone()),
                What::Merge(operand) => newer.add(number(operand)),
            }
        }
        match deleted {
            Some(_) => Effect::Set(newer.alone()),
            None => Effect::Fold(newer),
        }
    }
}

/// The sum of the operands that were met so far, where there are any.
#[derive(Clone, Copy)]
struct Folded(Option<u64>);

impl Folded {
    fn add(&mut self, operand: u64) {
        self.0 = Some(self.0.unwrap_or(0).wrapping_add(operand));
    }

    /// The value that they make of another one.
    fn over(self, value: &[u8]) -> Option<Vec<u8>> {
        Some(match self.0 {
            None => value.to_vec(),
            Some(sum) => number(value).wrapping_add(sum).to_le_bytes().to_vec(),
        })
    }

    /// The value that they make of none.
    fn alone(self) -> Option<Vec<u8>> {
        self.0.map(|sum| sum.to_le_bytes().to_vec())
    }
}

/// The effect of some runs on a key.
enum Effect {
    /// Older runs count too.
    Fold(Folded),
    Set(Option<Vec<u8>>),
}

/// The value of a key at a sequence, by runs, the newest first.
pub(crate) fn value_at<'a>(
    runs: impl Iterator<Item = &'a Run>,
    key: &[u8],
    at: u64,
) -> Option<Vec<u8>> {
    let mut folded = Folded(None);
    for run in runs {
        match run.under(key, at, folded) {
            Effect::Set(value) => return value,
            Effect::Fold(more) => folded = more,
        }
    }
    folded.alone()
}
