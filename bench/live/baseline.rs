//! The work of `ours` in plain Rust with a `BTreeMap` of values, to measure it against.
//!
//!     baseline live|feeds|fed SIZE COUNT
//!     baseline writes COUNT
//!
//! It reads a log of counters from standard input, and applies its first COUNT batches of SIZE writes to the map: the same line as
//! `ours`, with one run, a point for each key, and no time for compactions. It has no snapshots: each lookup reads what is
//! there then. `fed` does what `bench/beside fed` does, by versions of our layout in a `RwLock<Arc<_>>` (`fed.rs`). `writes` writes
//! the first COUNT writes for `rocksdb` and `ours`, each as a byte for its kind and two byte strings, each after its length of 4 bytes,
//! low byte first.

#[path = "../compaction.rs"]
mod compaction;
mod fed;
#[path = "../log.rs"]
mod log;
#[path = "../report/picking.rs"]
mod picking;
mod reading;
#[path = "../store.rs"]
mod store;
mod writes;

use std::collections::BTreeMap;
use std::io::{self, BufWriter, Read, Write as _};
use std::ops::Bound;
use std::time::{Duration, Instant};
use store::Numbers;
use writes::{key_of, number, with_value, writes_of, Write, KEYS};

/// The number of lookups after each batch of live writes.
const LOOKUPS: usize = 100;
/// The number of lookups after all feeds.
const LAST_LOOKUPS: usize = 20_000;
/// Of how many feeds around a place the median is taken.
const AROUND: usize = 11;

type Values = BTreeMap<Vec<u8>, Vec<u8>>;

/// Changes values as a write does.
fn apply(values: &mut Values, write: &Write) {
    match write {
        Write::Put(key, value) => {
            values.insert(key.clone(), value.clone());
        }
        Write::Delete(key) => {
            values.remove(key);
        }
        Write::Merge(key, operand) => {
            let value = values.entry(key.clone()).or_default();
            let sum = number(value).wrapping_add(number(operand));
            *value = sum.to_le_bytes().to_vec();
        }
        Write::Range(begin, end) => {
            if begin < end {
                let bounds = (
                    Bound::Included(begin.as_slice()),
                    Bound::Excluded(end.as_slice()),
                );
                let range = values.range::<[u8], _>(bounds);
                let keys: Vec<Vec<u8>> = range.map(|(key, _)| key.clone()).collect();
                for key in keys {
                    values.remove(&key);
                }
            }
        }
    }
}

/// Values that batches change, and what came of it so far.
struct Live {
    values: Values,
    numbers: Numbers,
    feeds: Vec<Duration>,
    asking: Duration,
    answers: usize,
    checksum: u64,
}

impl Live {
    fn new() -> Live {
        Live {
            values: Values::new(),
            numbers: Numbers { state: 1 },
            feeds: Vec::new(),
            asking: Duration::ZERO,
            answers: 0,
            checksum: 0,
        }
    }

    fn feed(&mut self, batch: &[Write]) {
        let start = Instant::now();
        for write in batch {
            apply(&mut self.values, write);
        }
        self.feeds.push(start.elapsed());
    }

    fn ask(&mut self, count: usize) {
        let keys: Vec<Vec<u8>> = (0..count)
            .map(|_| key_of(self.numbers.next() % KEYS))
            .collect();
        let start = Instant::now();
        let answers: Vec<Option<Vec<u8>>> = keys
            .iter()
            .map(|key| self.values.get(key).cloned())
            .collect();
        self.asking += start.elapsed();
        self.answers += answers.len();
        self.checksum = answers.iter().fold(self.checksum, with_value);
    }

    /// The median of the feeds around the one before which a number of writes were fed by batches of a size.
    fn median_at(&self, writes: usize, size: usize) -> u128 {
        let first = (writes / size).saturating_sub(AROUND / 2);
        let mut around: Vec<&Duration> = self.feeds.iter().skip(first).take(AROUND).collect();
        around.sort_unstable();
        around
            .get(around.len() / 2)
            .map_or(0, |time| time.as_nanos())
    }

    fn print(&self, size: usize) {
        let feeding: Duration = self.feeds.iter().sum();
        let (early, late) = (
            self.median_at(100_000, size),
            self.median_at(1_200_000, size),
        );
        println!(
            "{} 0 {} {early} {late} 1 {} {} {:016x}",
            feeding.as_nanos(),
            self.asking.as_nanos(),
            self.values.len(),
            self.answers,
            self.checksum
        );
    }
}

/// Applies batches, and looks keys up after each or after all.
fn measure(writes: &[Write], mode: &str, size: usize, count: usize) {
    let (each, last) = match mode {
        "live" => (LOOKUPS, 0),
        "feeds" => (0, LAST_LOOKUPS),
        _ => panic!("it is live, feeds or fed"),
    };
    let mut live = Live::new();
    for batch in writes.chunks(size).take(count) {
        live.feed(batch);
        live.ask(each);
    }
    live.ask(last);
    live.print(size);
}

/// Writes writes for `rocksdb`.
fn write_all(writes: &[Write]) -> io::Result<()> {
    let mut out = BufWriter::new(io::stdout().lock());
    for write in writes {
        let (kind, texts) = write.parts();
        out.write_all(&[kind])?;
        for text in texts {
            out.write_all(
                &u32::try_from(text.len())
                    .expect("a short text")
                    .to_le_bytes(),
            )?;
            out.write_all(text)?;
        }
    }
    out.flush()
}

fn main() -> io::Result<()> {
    let words: Vec<String> = std::env::args().skip(1).collect();
    let words: Vec<&str> = words.iter().map(String::as_str).collect();
    let mut log = Vec::new();
    io::stdin().lock().read_to_end(&mut log)?;
    let writes = writes_of(&log);
    drop(log);
    match words.as_slice() {
        ["writes", count] => {
            let count: usize = count.parse().expect("a number");
            write_all(&writes[..count.min(writes.len())])
        }
        [mode, size, count] => {
            let (size, count) = (
                size.parse().expect("a number"),
                count.parse().expect("a number"),
            );
            match *mode {
                "fed" => fed::measure(&writes, size, count),
                _ => measure(&writes, mode, size, count),
            }
            Ok(())
        }
        _ => panic!("usage: baseline live|feeds|fed SIZE COUNT, or baseline writes COUNT"),
    }
}
