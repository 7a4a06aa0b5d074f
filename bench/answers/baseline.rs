//! The work of `ours` in plain Rust with a `BTreeMap` of values, to measure it against.
//!
//!     baseline answers|hot|deleted|shared [--one-batch] [--threads N]
//!     baseline operands
//!     baseline rows
//!
//! It reads a log of counters from standard input, folds its writes as they come, and answers the workload's queries: the
//! same line as `ours`, with one run and a point for each key. With `--one-batch` all queries are one batch, and with
//! `--threads` that number of threads draws pieces of 16 queries. `operands` prints how many operands the lookups of `hot` fold:
//! those after the last put or deletion of each key, where nothing has folded them before. `rows` writes all keys that have a
//! value, in order, and their values, each key and value after its length of 4 bytes, low byte first.

#[path = "../log.rs"]
mod log;
#[path = "../store.rs"]
mod store;
#[path = "../values.rs"]
mod values;

use log::Op;
use std::collections::HashMap;
use std::io::{self, BufWriter, Read, Write};
use std::ops::Bound;
use std::sync::atomic::{AtomicUsize, Ordering};
use std::thread;
use std::time::Instant;
use store::Numbers;
use values::{each_clean_write, values_of, Values};

const KEYS: u64 = 300_000;
const HOT_KEYS: u64 = 1_000;
const LOOKUPS: usize = 20_000;
const SCANS: usize = 500;
/// The factor by which `shared` has more queries, which are those of `bench/shared`.
const TIMES: usize = 10;
const MOST_ROWS: u64 = 50;

/// The number of queries that a thread draws at a time.
const PIECE: usize = 16;

enum Query {
    Get { key: Vec<u8> },
    Scan { low: Vec<u8>, limit: u64 },
}

enum Answer {
    Value(Option<Vec<u8>>),
    Rows(Vec<(Vec<u8>, Vec<u8>)>),
}

fn key_of(number: u64) -> Vec<u8> {
    format!("account/{number:08}").into_bytes()
}

fn lookups(numbers: &mut Numbers, count: usize, keys: u64) -> Vec<Query> {
    let mut lookup = || Query::Get {
        key: key_of(numbers.next() % keys),
    };
    (0..count).map(|_| lookup()).collect()
}

fn scans(numbers: &mut Numbers, count: usize) -> Vec<Query> {
    let mut scan = || {
        let low = key_of(numbers.next() % KEYS);
        let limit = numbers.next() % MOST_ROWS + 1;
        Query::Scan { low, limit }
    };
    (0..count).map(|_| scan()).collect()
}

/// The batches of queries of a workload, each of which is timed alone.
fn batches_of(workload: &str) -> Vec<Vec<Query>> {
    let mut numbers = Numbers { state: 1 };
    match workload {
        "answers" => vec![lookups(&mut numbers, LOOKUPS, KEYS), scans(&mut numbers, SCANS)],
        "shared" => vec![lookups(&mut numbers, TIMES * LOOKUPS, KEYS), scans(&mut numbers, TIMES * SCANS)],
        "hot" => vec![lookups(&mut numbers, LOOKUPS, HOT_KEYS)],
        "deleted" => [5_000, 10_000, 20_000]
            .map(|limit| {
                let low = key_of(0);
                vec![Query::Scan { low, limit }]
            })
            .into(),
        _ => panic!("no such workload: {workload}"),
    }
}

fn answer(values: &Values, query: &Query) -> Answer {
    match query {
        Query::Get { key } => Answer::Value(values.get(key).cloned()),
        Query::Scan { low, limit } => {
            let bounds = (Bound::Included(low.as_slice()), Bound::Unbounded);
            let range = values.range::<[u8], _>(bounds).take(*limit as usize);
            let mut rows = Vec::new();
            for (key, value) in range {
                rows.push((key.clone(), value.clone()));
            }
            Answer::Rows(rows)
        }
    }
}

fn with_bytes(sum: u64, bytes: &[u8]) -> u64 {
    bytes.iter().fold(sum, |sum, &byte| {
        sum.wrapping_mul(31).wrapping_add(u64::from(byte))
    })
}

/// A checksum and then an answer.
fn with_answer(sum: u64, answer: &Answer) -> u64 {
    let (sum, kind) = match answer {
        Answer::Value(None) => (sum, 0),
        Answer::Value(Some(value)) => (with_bytes(sum, value), 1),
        Answer::Rows(rows) => {
            let rows = rows.iter();
            let sum = rows.fold(sum, |sum, row| with_bytes(with_bytes(sum, &row.0), &row.1));
            (sum, 2)
        }
    };
    sum.wrapping_mul(31).wrapping_add(kind)
}

fn answers_of(values: &Values, queries: &[Query]) -> Vec<Answer> {
    queries.iter().map(|query| answer(values, query)).collect()
}

/// The answers, by threads that draw pieces of the queries as they come free.
fn answers_by_threads(values: &Values, queries: &[Query], threads: usize) -> Vec<Answer> {
    let next = AtomicUsize::new(0);
    let draw_pieces = || {
        let mut drawn = Vec::new();
        loop {
            let number = next.fetch_add(1, Ordering::Relaxed);
            let Some(piece) = queries.chunks(PIECE).nth(number) else {
                return drawn;
            };
            drawn.push((number, answers_of(values, piece)));
        }
    };
    let mut pieces = thread::scope(|scope| {
        let others: Vec<_> = (1..threads).map(|_| scope.spawn(draw_pieces)).collect();
        let mut drawn = draw_pieces();
        for other in others {
            drawn.extend(other.join().unwrap());
        }
        drawn
    });
    pieces.sort_unstable_by_key(|(number, _)| *number);
    pieces
        .into_iter()
        .flat_map(|(_, answers)| answers)
        .collect()
}

/// Answers batches of queries, and prints what came of it.
fn measure(values: &Values, batches: &[Vec<Query>], threads: usize) {
    let (mut count, mut sum, mut times) = (0, 0, String::new());
    for queries in batches {
        let start = Instant::now();
        let answers = match threads {
            1 => answers_of(values, queries),
            threads => answers_by_threads(values, queries, threads),
        };
        times += &format!(" {}", start.elapsed().as_nanos());
        count += answers.len();
        sum = answers.iter().fold(sum, with_answer);
    }
    println!("1 {} {count} {sum:016x}{times}", values.len());
}

/// Prints how many operands the lookups of `hot` fold.
fn print_operands(log: &[u8]) {
    let mut operands: HashMap<Vec<u8>, u64> = HashMap::new();
    each_clean_write(log, |op| match op {
        Op::Put(key, _) | Op::Delete(key) => {
            operands.insert(key.to_vec(), 0);
        }
        Op::Merge(key, _) => *operands.entry(key.to_vec()).or_default() += 1,
        Op::Range(..) => unreachable!("the log has none"),
    });
    let folded = |query: &Query| match query {
        Query::Get { key } => operands.get(key).copied().unwrap_or_default(),
        Query::Scan { .. } => 0,
    };
    let queries = batches_of("hot").into_iter().flatten();
    println!("{}", queries.map(|query| folded(&query)).sum::<u64>());
}

/// Writes the keys and values after all writes of a log.
fn write_rows(log: Vec<u8>) -> io::Result<()> {
    let mut out = BufWriter::new(io::stdout().lock());
    for (key, value) in values_of(log) {
        for text in [key, value] {
            out.write_all(&u32::try_from(text.len()).expect("a short text").to_le_bytes())?;
            out.write_all(&text)?;
        }
    }
    out.flush()
}

fn main() -> io::Result<()> {
    let words: Vec<String> = std::env::args().skip(1).collect();
    let words: Vec<&str> = words.iter().map(String::as_str).collect();
    let mut log = Vec::new();
    io::stdin().lock().read_to_end(&mut log)?;
    let (batches, options) = match words.as_slice() {
        ["operands"] => {
            print_operands(&log);
            return Ok(());
        }
        ["rows"] => return write_rows(log),
        [workload, "--one-batch", options @ ..] => {
            let queries = batches_of(workload).into_iter().flatten();
            (vec![queries.collect()], options)
        }
        [workload, options @ ..] => (batches_of(workload), options),
        [] => panic!("usage: baseline WORKLOAD [--one-batch] [--threads N], or baseline operands, or baseline rows"),
    };
    let threads = match options {
        [] => 1,
        ["--threads", threads] => threads.parse().expect("a number"),
        _ => panic!("there are no such options"),
    };
    measure(&values_of(log), &batches, threads);
    Ok(())
}
