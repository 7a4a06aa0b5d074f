//! Compactions in plain Rust (`bench/compaction.rs`), over runs of a plain layout (`bench/store.rs`).
//!
//!     baseline SHAPE RUNS WRITES [KEEPS WHERE]
//!     baseline writes SHAPE RUNS WRITES
//!
//! `writes` writes the writes instead, each as a byte for its kind and two byte strings, each after its length of 4 bytes, low byte first.

#[path = "../compaction.rs"]
mod compaction;
#[path = "../store.rs"]
mod store;

use compaction::{Counter, Keeping, Operator, compact};
use std::io::{self, BufWriter, Write as _};
use std::time::Instant;
use store::{Kind, Memtable, Numbers, Run, What};

const POINTS_OF_A_KEY: u64 = 8;
const SPREAD: u64 = 0x9e37_79b9_7f4a_7c15;
const STRIDE: u64 = 7919;
const COMMA: u8 = b',';

/// Joins strings with a comma.
struct Append;

impl Operator for Append {
    fn first(operand: &[u8]) -> Vec<u8> {
        operand.to_vec()
    }

    fn joined(mut older: Vec<u8>, newer: &[u8]) -> Vec<u8> {
        older.push(COMMA);
        older.extend_from_slice(newer);
        older
    }
}

/// The contents of the runs.
#[derive(Clone, Copy)]
enum Shape {
    Counter,
    Append,
    Ranges,
}

/// The runs that are made.
#[derive(Clone, Copy)]
struct Load {
    shape: Shape,
    runs: u64,
    writes: u64,
}

fn key_at(number: u64) -> [u8; 16] {
    let mut key = *b"account/........";
    key[8..].copy_from_slice(&number.to_be_bytes());
    key
}

fn digits(number: u64) -> [u8; 10] {
    let mut digits = [0; 10];
    let mut rest = number;
    for digit in digits.iter_mut().rev() {
        *digit = b'0' + (rest % 10) as u8;
        rest /= 10;
    }
    digits
}

/// The write after `before` others: its kind and its byte strings.
fn write_after(load: Load, before: u64, random: u64) -> (Kind, Vec<u8>, Vec<u8>) {
    let all = load.runs * load.writes;
    let number = (before + 1).to_le_bytes().to_vec();
    let kind = if random & 1 == 1 { Kind::Merge } else { Kind::Put };
    match load.shape {
        Shape::Counter => {
            let key = (random >> 1) % (all / POINTS_OF_A_KEY);
            (kind, key_at(key.wrapping_mul(SPREAD)).to_vec(), number)
        }
        Shape::Append => (Kind::Merge, b"log".to_vec(), digits(before).to_vec()),
        Shape::Ranges => {
            let place = (before * STRIDE) % all;
            let first = place / 6 * 5;
            if place % 6 == 5 {
                (Kind::DeleteRange, key_at(first).to_vec(), key_at(first + 3).to_vec())
            } else {
                (kind, key_at(first + place % 6).to_vec(), number)
            }
        }
    }
}

/// Calls a function with each write and its sequence.
fn for_each_write(load: Load, mut take: impl FnMut(u64, Kind, &[u8], &[u8])) {
    let mut numbers = Numbers { state: 1 };
    for before in 0..load.runs * load.writes {
        let (kind, first, second) = write_after(load, before, numbers.next());
        take(before + 1, kind, &first, &second);
    }
}

/// The runs, the newest first.
fn loaded(load: Load) -> Vec<Run> {
    let mut runs = Vec::new();
    let mut memtable = Memtable::default();
    for_each_write(load, |seq, kind, first, second| {
        memtable.insert(seq, kind, first, second);
        if seq % load.writes == 0 {
            runs.push(std::mem::take(&mut memtable).flush());
        }
    });
    runs.reverse();
    runs
}

/// Writes the writes for the player.
fn write_all(load: Load) -> io::Result<()> {
    let mut all = Vec::new();
    for_each_write(load, |_, kind, first, second| {
        all.push(match kind {
            Kind::Put => b'p',
            Kind::Delete => b'd',
            Kind::Merge => b'm',
            Kind::DeleteRange => b'r',
        });
        for text in [first, second] {
            all.extend_from_slice(&(text.len() as u32).to_le_bytes());
            all.extend_from_slice(text);
        }
    });
    let mut out = BufWriter::new(io::stdout().lock());
    out.write_all(&all)?;
    out.flush()
}

/// Keeps at equal distances, of which the last is the last sequence.
fn keeps_of(load: Load, count: u64) -> Vec<u64> {
    let last = load.runs * load.writes;
    (1..=count).map(|place| last * place / count).collect()
}

fn with_bytes(checksum: u64, bytes: &[u8]) -> u64 {
    bytes.iter().fold(checksum, |sum, &byte| {
        sum.wrapping_mul(31).wrapping_add(u64::from(byte))
    })
}

/// A checksum of a run's points and fragments.
fn checksum_of(run: &Run) -> u64 {
    let mut sum = 0;
    for point in &run.points {
        let (kind, text): (u64, &[u8]) = match &point.what {
            What::Put(value) => (1, value),
            What::Delete => (2, &[]),
            What::Merge(operand) => (3, operand),
        };
        sum = with_bytes(sum, &point.key)
            .wrapping_mul(31)
            .wrapping_add(point.seq);
        sum = with_bytes(sum.wrapping_mul(31).wrapping_add(kind), text);
    }
    for fragment in &run.fragments {
        sum = with_bytes(with_bytes(sum, &fragment.begin), &fragment.end);
        for seq in &fragment.seqs {
            sum = sum.wrapping_mul(31).wrapping_add(*seq);
        }
    }
    sum
}

/// A compaction's runs and options.
#[derive(Clone, Copy)]
struct Plan {
    load: Load,
    keeps: u64,
    oldest: bool,
}

/// The nanoseconds, and the run's points, fragments, size and checksum.
fn measured(plan: Plan) -> (u128, String) {
    let runs = loaded(plan.load);
    let inputs: Vec<&Run> = runs.iter().collect();
    let keeps = keeps_of(plan.load, plan.keeps);
    let keeping = Keeping {
        keeps: &keeps,
        bottom: plan.oldest.then_some(1),
    };
    let start = Instant::now();
    let run = match plan.load.shape {
        Shape::Append => compact::<Append>(&inputs, keeping),
        Shape::Counter | Shape::Ranges => compact::<Counter>(&inputs, keeping),
    };
    let nanoseconds = start.elapsed().as_nanos();
    let (points, fragments) = (run.points.len(), run.fragments.len());
    let figures = format!(
        "{points} {fragments} {} {:016x}",
        run.size,
        checksum_of(&run)
    );
    (nanoseconds, figures)
}

/// The runs that words name.
fn load_of(words: &[String]) -> Load {
    Load {
        shape: match words[0].as_str() {
            "counter" => Shape::Counter,
            "append" => Shape::Append,
            _ => Shape::Ranges,
        },
        runs: words[1].parse().expect("a number of runs"),
        writes: words[2].parse().expect("a number of writes"),
    }
}

fn main() -> io::Result<()> {
    let words: Vec<String> = std::env::args().skip(1).collect();
    if words[0] == "writes" {
        return write_all(load_of(&words[1..]));
    }
    let load = load_of(&words);
    let Some(keeps) = words.get(3) else {
        println!("{}", loaded(load).len());
        return Ok(());
    };
    let (nanoseconds, figures) = measured(Plan {
        load,
        keeps: keeps.parse().expect("a number of keeps"),
        oldest: words.get(4).is_some_and(|word| word == "oldest"),
    });
    println!("{nanoseconds} {figures}");
    Ok(())
}
