//! The work of `bench/beside fed` in plain Rust: versions of our layout in a `RwLock<Arc<_>>`, which one thread feeds, one compacts
//! and two read.

use crate::compaction::{compact, Counter, Keeping};
use crate::picking::{picked, Options, Stretch};
use crate::reading::value_at;
use crate::store::{Kind, Memtable, Numbers, Run};
use crate::writes::{key_of, with_value, Write, KEYS};
use std::hint::black_box;
use std::sync::atomic::{AtomicBool, Ordering};
use std::sync::{Arc, RwLock};
use std::thread;
use std::time::{Duration, Instant};

/// The most runs of a version: a feed waits then, as RocksDB's flush does by default.
const MOST_RUNS: usize = 19;
/// The number of lookups after all feeds.
const LAST_LOOKUPS: usize = 20_000;

/// A run, with the lowest sequence of its writes.
struct Placed {
    low: u64,
    run: Run,
}

/// Runs, the newest first, and the snapshots that are taken.
#[derive(Clone)]
struct Version {
    runs: Vec<Arc<Placed>>,
    keeps: Vec<u64>,
    last: u64,
}

impl Version {
    fn picked(&self) -> Option<Stretch> {
        let sizes: Vec<u64> = self.runs.iter().map(|placed| placed.run.size).collect();
        picked(&Options::USUAL, &sizes)
    }

    /// Neighbouring runs as one.
    fn compacted(&self, stretch: Stretch) -> Placed {
        let behind = stretch.first + stretch.count;
        let inputs = &self.runs[stretch.first..behind];
        let runs: Vec<&Run> = inputs.iter().map(|placed| &placed.run).collect();
        let low = inputs[stretch.count - 1].low;
        let has_oldest = behind == self.runs.len();
        let keeping = Keeping {
            keeps: &self.keeps,
            bottom: has_oldest.then_some(low),
        };
        Placed {
            low,
            run: compact::<Counter>(&runs, keeping),
        }
    }

    fn value_at(&self, key: &[u8], at: u64) -> Option<Vec<u8>> {
        value_at(self.runs.iter().map(|placed| &placed.run), key, at)
    }
}

/// The run of a batch whose writes come after a sequence, and fill no memtable.
fn flushed(batch: &[Write], last: u64) -> Placed {
    let mut memtable = Memtable::default();
    for (write, seq) in batch.iter().zip(last + 1..) {
        let (kind, first, second) = match write {
            Write::Put(key, value) => (Kind::Put, key.as_slice(), value.as_slice()),
            Write::Delete(key) => (Kind::Delete, key.as_slice(), [].as_slice()),
            Write::Merge(key, operand) => (Kind::Merge, key.as_slice(), operand.as_slice()),
            Write::Range(begin, end) => (Kind::DeleteRange, begin.as_slice(), end.as_slice()),
        };
        memtable.insert(seq, kind, first, second);
    }
    assert!(
        memtable.size < Options::USUAL.memtable,
        "a batch fills a memtable"
    );
    Placed {
        low: last + 1,
        run: memtable.flush(),
    }
}

/// A store that threads share.
struct Store {
    shown: RwLock<Arc<Version>>,
    /// Whether all is fed.
    fed: AtomicBool,
}

impl Store {
    /// An empty store, which keeps its last sequence.
    fn new() -> Store {
        let version = Version {
            runs: Vec::new(),
            keeps: vec![0],
            last: 0,
        };
        Store {
            shown: RwLock::new(Arc::new(version)),
            fed: AtomicBool::new(false),
        }
    }

    fn pin(&self) -> Arc<Version> {
        self.shown.read().expect("no writer panics").clone()
    }

    /// Shows what a change makes of what is shown.
    fn publish(&self, change: impl FnOnce(&mut Version)) {
        let mut shown = self.shown.write().expect("no writer panics");
        let mut next = Version::clone(&shown);
        change(&mut next);
        let before = std::mem::replace(&mut *shown, Arc::new(next));
        drop(shown);
        drop(before);
    }

    /// Feeds a batch once its run fits. Tells whether it had to wait.
    fn feed(&self, batch: &[Write]) -> bool {
        let mut waited = false;
        while self.pin().runs.len() == MOST_RUNS {
            waited = true;
            thread::yield_now();
        }
        let placed = Arc::new(flushed(batch, self.pin().last));
        self.publish(|next| {
            next.runs.insert(0, placed);
            next.last += batch.len() as u64;
        });
        waited
    }

    /// Takes a snapshot of the last sequence.
    fn keep(&self) {
        self.publish(|next| next.keeps.push(next.last));
    }

    /// Releases the oldest snapshot.
    fn release(&self) {
        self.publish(|next| {
            next.keeps.remove(0);
        });
    }

    /// Compacts what is picked. Whether anything is. Nobody else compacts.
    fn compact_once(&self) -> bool {
        let version = self.pin();
        let Some(stretch) = version.picked() else {
            return false;
        };
        let placed = Arc::new(version.compacted(stretch));
        let newest = &version.runs[stretch.first];
        self.publish(|next| {
            let mut runs = next.runs.iter();
            let first = runs.position(|run| Arc::ptr_eq(run, newest));
            let first = first.expect("nobody else compacts");
            next.runs.splice(first..first + stretch.count, [placed]);
        });
        true
    }

    /// Compacts until all is fed and nothing is picked.
    fn compact_all(&self) {
        loop {
            let is_last = self.fed.load(Ordering::Acquire);
            if self.compact_once() {
                continue;
            }
            if is_last {
                break;
            }
            thread::yield_now();
        }
    }

    /// The value of a key at the newest snapshot of what is shown.
    fn value_kept(&self, key: &[u8]) -> Option<Vec<u8>> {
        let version = self.pin();
        let at = version.keeps.last().expect("one is kept");
        version.value_at(key, *at)
    }

    /// Whether a batch's last sequence is kept.
    fn is_batch_kept(&self) -> bool {
        self.pin().keeps.last().is_some_and(|keep| *keep > 0)
    }

    /// The nanoseconds of each lookup, from the first batch's snapshot until all is fed.
    fn ask(&self, seed: u64) -> Vec<u64> {
        let mut numbers = Numbers { state: seed };
        let mut times = Vec::new();
        while !self.is_batch_kept() && !self.fed.load(Ordering::Acquire) {
            thread::yield_now();
        }
        while !self.fed.load(Ordering::Acquire) {
            let key = key_of(numbers.next() % KEYS);
            let start = Instant::now();
            let value = self.value_kept(&key);
            times.push(start.elapsed().as_nanos() as u64);
            black_box(value);
        }
        times
    }
}

/// The outcome of feeds.
#[derive(Default)]
struct Feeding {
    feeds: Duration,
    keeps: Vec<u64>,
    stalls: usize,
}

impl Feeding {
    /// Feeds batches, and after each takes the next snapshot and releases the one before.
    fn of(store: &Store, batches: &[&[Write]]) -> Feeding {
        let mut feeding = Feeding::default();
        for batch in batches {
            let start = Instant::now();
            feeding.stalls += usize::from(store.feed(batch));
            feeding.feeds += start.elapsed();
            let start = Instant::now();
            store.keep();
            feeding.keeps.push(start.elapsed().as_nanos() as u64);
            store.release();
        }
        store.fed.store(true, Ordering::Release);
        feeding.keeps.sort_unstable();
        feeding
    }
}

/// The time that a number of 1,000 don't exceed.
fn below(times: &[u64], share: usize) -> u64 {
    times.get(times.len() * share / 1000).copied().unwrap_or(0)
}

/// The answers to a fixed list of lookups at the last sequence: how many there are, and their checksum.
fn answers_in_the_end(version: &Version) -> (usize, u64) {
    let mut numbers = Numbers { state: 1 };
    let mut sum = 0;
    for _ in 0..LAST_LOOKUPS {
        let key = key_of(numbers.next() % KEYS);
        sum = with_value(sum, &version.value_at(&key, version.last));
    }
    (LAST_LOOKUPS, sum)
}

/// Feeds batches to an empty store beside one who compacts and two who read, and prints a line of it.
pub(crate) fn measure(writes: &[Write], size: usize, count: usize) {
    let batches: Vec<&[Write]> = writes.chunks(size).take(count).collect();
    let store = &Store::new();
    let start = Instant::now();
    let (feeding, whole, lookups) = thread::scope(|scope| {
        let readers = [2, 3].map(|seed| scope.spawn(move || store.ask(seed)));
        let feeder = scope.spawn(|| Feeding::of(store, &batches));
        store.compact_all();
        let whole = start.elapsed();
        let feeding = feeder.join().expect("no feeder panics");
        let mut lookups = Vec::new();
        for reader in readers {
            lookups.extend(reader.join().expect("no reader panics"));
        }
        (feeding, whole, lookups)
    });
    print(&feeding, whole, lookups, &store.pin());
}

fn print(feeding: &Feeding, whole: Duration, mut lookups: Vec<u64>, version: &Version) {
    lookups.sort_unstable();
    let (answers, checksum) = answers_in_the_end(version);
    let points: usize = version
        .runs
        .iter()
        .map(|placed| placed.run.points.len())
        .sum();
    println!(
        "{} {} {} {} {} {} {} {answers} {checksum:016x} {} {} {} {points}",
        whole.as_nanos(),
        feeding.feeds.as_nanos(),
        below(&feeding.keeps, 500),
        below(&lookups, 500),
        below(&lookups, 990),
        below(&lookups, 999),
        lookups.last().copied().unwrap_or(0),
        lookups.len(),
        feeding.stalls,
        version.runs.len(),
    );
}
