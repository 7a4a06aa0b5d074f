//! Writes loaded into memtables that are flushed to runs, and lookups in these, in plain Rust with the same layout (`bench/store.rs`).
//!
//!     baseline COUNT
//!     baseline writes COUNT
//!
//! `writes` writes the writes instead, each as a byte for its kind and two byte strings, each after its length of 4 bytes, low byte first.

#[path = "../store.rs"]
mod store;

use std::io::{self, BufWriter, Write as _};
use std::time::Instant;
use store::{BLOCK_POINTS, Kind, Memtable, Numbers, Run, What, prefix_of};

const LIMIT: u64 = 4 << 20;
const LOOKUPS: u64 = 20_000;
const WRITES_TO_A_KEY: u64 = 8;
const SPREAD: u64 = 0x9e37_79b9_7f4a_7c15;
const REACH: u64 = 1 << 50;

impl Run {
    /// Between which fences the prefixes don't decide where a key stands.
    fn undecided(&self, key: &[u8]) -> (usize, usize) {
        let Some(first) = self.fences.first() else {
            return (0, 0);
        };
        match key.strip_prefix(&first[..self.shared]) {
            Some(rest) => {
                let wanted = prefix_of(rest);
                let below = self.prefixes.partition_point(|prefix| *prefix < wanted);
                let up_to = self.prefixes.partition_point(|prefix| *prefix <= wanted);
                (below, up_to)
            }
            None if first.as_slice() < key => (self.fences.len(), self.fences.len()),
            None => (0, 0),
        }
    }

    /// The place of the first point of a key, or where it would stand.
    fn seek(&self, key: &[u8]) -> usize {
        let (begin, end) = self.undecided(key);
        let within = &self.fences[begin..end];
        let passed = begin + within.partition_point(|fence| fence.as_slice() < key);
        if passed == 0 {
            return 0;
        }
        let begin = (passed - 1) * BLOCK_POINTS;
        let end = self.points.len().min(passed * BLOCK_POINTS);
        let block = &self.points[begin..end];
        begin + block.partition_point(|point| point.key.as_slice() < key)
    }

    /// The newest range deletion over a key at or below a sequence.
    fn deleted_at(&self, key: &[u8], at: u64) -> Option<u64> {
        let place = self.fragments.partition_point(|fragment| fragment.begin.as_slice() <= key);
        let fragment = &self.fragments[place.checked_sub(1)?];
        if fragment.end.as_slice() <= key {
            return None;
        }
        let newer = fragment.seqs.partition_point(|seq| at < *seq);
        fragment.seqs.get(newer).copied()
    }

    /// The effect on a key of all writes at or below a sequence.
    fn effect(&self, key: &[u8], at: u64) -> Effect {
        let deleted = self.deleted_at(key, at);
        let begin = self.seek(key);
        let mut end = begin;
        let mut first = begin;
        let mut set = false;
        while let Some(point) = self.points.get(end) {
            if set || point.key != key || deleted.is_some_and(|deleted| point.seq < deleted) {
                break;
            }
            if at < point.seq {
                first = end + 1;
            } else {
                set = !matches!(point.what, What::Merge(_));
            }
            end += 1;
        }
        let mut effect = match deleted {
            Some(_) => Effect::Set(None),
            None => Effect::Keep,
        };
        for point in self.points[first..end].iter().rev() {
            effect = match &point.what {
                What::Put(value) => Effect::Set(Some(value.clone())),
                What::Delete => Effect::Set(None),
                What::Merge(operand) => effect.folded(operand),
            };
        }
        effect
    }
}

enum Effect {
    Keep,
    Fold(Vec<u8>),
    Set(Option<Vec<u8>>),
}

fn number(bytes: &[u8]) -> u64 {
    bytes.try_into().map_or(0, u64::from_le_bytes)
}

fn added(mut older: Vec<u8>, newer: &[u8]) -> Vec<u8> {
    let sum = number(&older).wrapping_add(number(newer));
    older.clear();
    older.extend_from_slice(&sum.to_le_bytes());
    older
}

impl Effect {
    fn folded(self, operand: &[u8]) -> Effect {
        match self {
            Effect::Keep => Effect::Fold(operand.to_vec()),
            Effect::Fold(older) => Effect::Fold(added(older, operand)),
            Effect::Set(None) => Effect::Set(Some(number(operand).to_le_bytes().to_vec())),
            Effect::Set(Some(value)) => Effect::Set(Some(added(value, operand))),
        }
    }

    fn then(self, newer: Effect) -> Effect {
        match newer {
            Effect::Keep => self,
            Effect::Set(value) => Effect::Set(value),
            Effect::Fold(operand) => match self {
                Effect::Keep => Effect::Fold(operand),
                older => older.folded(&operand),
            },
        }
    }
}

fn spread(key: u64) -> u64 {
    key.wrapping_mul(SPREAD)
}

fn key_at(number: u64) -> [u8; 16] {
    let mut key = *b"account/........";
    key[8..].copy_from_slice(&number.to_be_bytes());
    key
}

/// A write, but for its sequence.
#[derive(Clone, Copy)]
struct Change {
    kind: Kind,
    key: [u8; 16],
    /// Where a range ends.
    end: [u8; 16],
}

/// The change that a random number says.
fn change_of(random: u64, keys: u64) -> Change {
    let place = spread((random >> 14).checked_rem(keys).unwrap_or(0));
    let kind = match random & 0x3fff {
        0 => Kind::DeleteRange,
        1..=0xff => Kind::Delete,
        0x100..=0x1fff => Kind::Put,
        _ => Kind::Merge,
    };
    Change { kind, key: key_at(place), end: key_at(place.saturating_add(REACH)) }
}

/// A number of changes, each drawn as it comes.
fn drawn(writes: u64) -> impl Iterator<Item = Change> {
    let mut numbers = Numbers { state: 1 };
    (0..writes).map(move |_| change_of(numbers.next(), writes / WRITES_TO_A_KEY))
}

/// The second byte string of a change: a value, an operand, where a range ends, or none.
fn with_second<R>(seq: u64, change: &Change, then: impl FnOnce(&[u8]) -> R) -> R {
    match change.kind {
        Kind::DeleteRange => then(&change.end),
        Kind::Delete => then(&[]),
        Kind::Put | Kind::Merge => then(&seq.to_le_bytes()),
    }
}

/// Writes changes for the player.
fn write_all(changes: impl Iterator<Item = Change>) -> io::Result<()> {
    let mut out = BufWriter::new(io::stdout().lock());
    for (seq, change) in (1..).zip(changes) {
        let kind = match change.kind {
            Kind::Put => b'p',
            Kind::Delete => b'd',
            Kind::Merge => b'm',
            Kind::DeleteRange => b'r',
        };
        out.write_all(&[kind])?;
        out.write_all(&(change.key.len() as u32).to_le_bytes())?;
        out.write_all(&change.key)?;
        with_second(seq, &change, |second| {
            out.write_all(&(second.len() as u32).to_le_bytes())?;
            out.write_all(second)
        })?;
    }
    out.flush()
}

/// The runs of the writes, the oldest first.
fn loaded(changes: impl Iterator<Item = Change>, limit: u64) -> Vec<Run> {
    let mut runs = Vec::new();
    let mut memtable = Memtable::default();
    for (seq, change) in (1..).zip(changes) {
        with_second(seq, &change, |second| memtable.insert(seq, change.kind, &change.key, second));
        if memtable.size >= limit {
            runs.push(std::mem::take(&mut memtable).flush());
        }
    }
    if !memtable.slots.is_empty() {
        runs.push(memtable.flush());
    }
    runs
}

/// The value of a key at a sequence.
fn answer(runs: &[Run], key: &[u8], at: u64) -> Option<Vec<u8>> {
    let mut effect = Effect::Keep;
    for run in runs.iter().rev() {
        effect = run.effect(key, at).then(effect);
        if let Effect::Set(value) = effect {
            return value;
        }
    }
    match effect {
        Effect::Fold(operand) => Some(operand),
        Effect::Keep | Effect::Set(_) => None,
    }
}

fn with_value(checksum: u64, value: Option<&[u8]>) -> u64 {
    let Some(value) = value else {
        return checksum.wrapping_mul(31);
    };
    let sum = value.iter().fold(checksum, |sum, &byte| {
        sum.wrapping_mul(31).wrapping_add(u64::from(byte))
    });
    sum.wrapping_mul(31).wrapping_add(1)
}

/// A checksum of the values of a number of random keys at the last sequence.
fn looked_up(runs: &[Run], writes: u64, lookups: u64) -> u64 {
    let mut numbers = Numbers { state: 2 };
    let mut checksum = 0;
    for _ in 0..lookups {
        let key = numbers.next().checked_rem(writes / WRITES_TO_A_KEY).unwrap_or(0);
        let value = answer(runs, &key_at(spread(key)), writes);
        checksum = with_value(checksum, value.as_deref());
    }
    checksum
}

/// The number of points of all runs, and their size.
fn totals(runs: &[Run]) -> (usize, u64) {
    let points = runs.iter().map(|run| run.points.len()).sum();
    (points, runs.iter().map(|run| run.size).sum())
}

fn main() -> io::Result<()> {
    let words: Vec<String> = std::env::args().skip(1).collect();
    let count = words.last().expect("a number of writes");
    let writes = count.parse().expect("a number of writes");
    if words.len() > 1 {
        return write_all(drawn(writes));
    }
    let start = Instant::now();
    let runs = loaded(drawn(writes), LIMIT);
    let loading = start.elapsed().as_nanos();
    let start = Instant::now();
    let checksum = looked_up(&runs, writes, LOOKUPS);
    let looking_up = start.elapsed().as_nanos();
    let (points, size) = totals(&runs);
    let count = runs.len();
    println!("{loading} {looking_up} {count} {points} {size} {checksum:016x}");
    Ok(())
}
