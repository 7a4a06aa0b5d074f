//! Pins and installs in plain Rust: versions of the same layout in a `RwLock<Arc<_>>`, and claim words.
use std::sync::atomic::{AtomicU64, Ordering::{Acquire, Release, SeqCst}};
use std::sync::{Arc, RwLock};
use std::time::Instant;

const RUNS: u64 = 256;

struct Run {
    points: Vec<(Vec<u8>, u64, Vec<u8>)>,
}

#[derive(Clone)]
struct Placed {
    id: u64,
    slot: usize,
    run: Arc<Run>,
}

struct Version {
    runs: Vec<Placed>,
    keeps: Vec<u64>,
    last: u64,
    next_id: u64,
}

struct Store {
    words: [AtomicU64; RUNS as usize],
    shown: RwLock<Arc<Version>>,
}

impl Store {
    fn pin(&self) -> Arc<Version> {
        self.shown.read().expect("no writer panics").clone()
    }

    fn take(&self, slots: &[usize]) -> bool {
        slots.iter().all(|&slot| self.words[slot].compare_exchange(0, 1, SeqCst, SeqCst).is_ok())
    }

    /// The version with an output in the place of its two newest runs, which were claimed.
    fn install(&self, claimed: &[Placed], output: Arc<Run>) -> bool {
        let mut shown = self.shown.write().expect("no writer panics");
        let ids = shown.runs.iter().take(2).map(|placed| placed.id);
        if !ids.eq(claimed.iter().map(|placed| placed.id)) {
            return false;
        }
        let mut runs = Vec::with_capacity(shown.runs.len() - 1);
        runs.push(Placed { id: shown.next_id, slot: claimed[0].slot, run: output });
        runs.extend_from_slice(&shown.runs[2..]);
        let next = Version { runs, keeps: shown.keeps.clone(), last: shown.last, next_id: shown.next_id + 1 };
        *shown = Arc::new(next);
        drop(shown);
        claimed.iter().for_each(|placed| self.words[placed.slot].store(0, SeqCst));
        true
    }
}

fn opened(points: u64) -> Store {
    let mut runs = Vec::new();
    for number in 0..RUNS {
        let first = number * points + 1;
        let mut list: Vec<_> = (first..first + points)
            .map(|seq| (seq.wrapping_mul(0x9E37_79B9_7F4A_7C15).to_be_bytes().to_vec(), seq, b"v".to_vec()))
            .collect();
        list.sort();
        runs.insert(0, Placed { id: number + 1, slot: number as usize, run: Arc::new(Run { points: list }) });
    }
    let last = RUNS * points;
    let version = Version { runs, keeps: vec![last], last, next_id: RUNS + 1 };
    Store { words: std::array::from_fn(|_| AtomicU64::new(0)), shown: RwLock::new(Arc::new(version)) }
}

fn compacted(claimed: &[Placed]) -> Arc<Run> {
    let (newer, older) = (&claimed[0].run.points, &claimed[1].run.points);
    let mut points = Vec::with_capacity(newer.len() + older.len());
    let (mut one, mut other) = (newer.iter().peekable(), older.iter().peekable());
    while let (Some(a), Some(b)) = (one.peek(), other.peek()) {
        points.push(if a.0 <= b.0 { one.next() } else { other.next() }.expect("it was seen").clone());
    }
    points.extend(one.chain(other).cloned());
    Arc::new(Run { points })
}

fn install_all(store: &Store, compactions: &mut Vec<u64>, installs: &mut Vec<u64>) {
    for _ in 0..RUNS - 1 {
        let pin = store.pin();
        let claimed = &pin.runs[..2];
        assert!(store.take(&[claimed[0].slot, claimed[1].slot]));
        let start = Instant::now();
        let output = compacted(claimed);
        compactions.push(start.elapsed().as_nanos() as u64);
        let start = Instant::now();
        assert!(store.install(claimed, output));
        installs.push(start.elapsed().as_nanos() as u64);
    }
}

struct Window {
    phase: AtomicU64,
    ready: AtomicU64,
}

fn pin_beside(store: &Store, window: &Window, timed: bool) -> (u64, Vec<u64>) {
    let (mut pins, mut times) = (0, Vec::new());
    for turn in 0.. {
        let phase = window.phase.load(Acquire);
        if phase == 2 {
            break;
        }
        if timed {
            let start = Instant::now();
            let pin = store.pin();
            let time = start.elapsed().as_nanos() as u64;
            drop(pin);
            if phase == 1 {
                times.push(time);
            }
        } else {
            drop(store.pin());
        }
        if turn == 0 {
            window.ready.fetch_add(1, Release);
        }
        pins += u64::from(phase == 1);
    }
    (pins, times)
}

fn beside(readers: u64, stores: u64, timed: bool) -> (u64, u64, Vec<u64>) {
    let (mut length, mut pins, mut times) = (0, 0, Vec::new());
    for _ in 0..stores {
        let store = opened(1);
        let window = Window { phase: AtomicU64::new(0), ready: AtomicU64::new(0) };
        std::thread::scope(|scope| {
            let running: Vec<_> = (0..readers).map(|_| scope.spawn(|| pin_beside(&store, &window, timed))).collect();
            while window.ready.load(Acquire) < readers {}
            window.phase.store(1, Release);
            let start = Instant::now();
            install_all(&store, &mut Vec::new(), &mut Vec::new());
            length += start.elapsed().as_nanos() as u64;
            window.phase.store(2, Release);
            for reader in running {
                let (more, mut list) = reader.join().expect("no reader panics");
                pins += more;
                times.append(&mut list);
            }
        });
    }
    (length, pins, times)
}

fn median(times: &mut [u64]) -> u64 {
    times.sort_unstable();
    times[times.len() / 2]
}

fn main() {
    let args: Vec<String> = std::env::args().collect();
    let first: u64 = args[2].parse().expect("a number");
    let second: u64 = args[3].parse().expect("a number");
    match args[1].as_str() {
        "pins" => {
            let store = opened(1);
            let start = Instant::now();
            std::thread::scope(|scope| {
                for _ in 0..first {
                    scope.spawn(|| (0..second).for_each(|_| drop(store.pin())));
                }
            });
            println!("{} {}", start.elapsed().as_nanos(), first * second);
        }
        "beside" => {
            let (length, pins, _) = beside(first, second, false);
            println!("{length} {pins}");
        }
        "times" => {
            let (_, _, mut times) = beside(first, second, true);
            times.sort_unstable();
            let below = |share: usize| times.get(times.len() * share / 10_000).copied().unwrap_or(0);
            println!("{} {} {} {}", below(5000), below(9900), below(9999), times.last().copied().unwrap_or(0));
        }
        _ => {
            let (mut compactions, mut installs) = (Vec::new(), Vec::new());
            for _ in 0..second {
                install_all(&opened(first), &mut compactions, &mut installs);
            }
            println!("{} {}", median(&mut compactions), median(&mut installs));
        }
    }
}
