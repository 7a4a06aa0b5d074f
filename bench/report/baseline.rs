//! The work of `ucstore report --operator counter` in plain Rust, as its baseline.
//!
//!     baseline [--memtable N] [--trigger N] [--ratio N] [--percent N] [--least N] [--greatest N] [--values]
//!
//! It reads a log from standard input, flushes its writes to runs, prints a report, compacts what universal compaction
//! picks until that is nothing, and reports again: the same output as `ucstore report`. With `--values` it prints how
//! many keys have a value then, and a checksum of both, in place of all else.

#[path = "../compaction.rs"]
mod compaction;
#[path = "../log.rs"]
mod log;
#[path = "../store.rs"]
mod store;

mod picking;

use compaction::{compact, Counter, Keeping};
use log::{read_batch, Ended, LogReader, Op};
use picking::{picked, Options, Stretch};
use std::io::{self, BufWriter, Read, Write};
use std::process::ExitCode;
use store::{Kind, Memtable, Run, What};

const INPUT_LIMIT: u64 = 67_108_864;
const MOST_SLOTS: usize = 256;

/// A run with its place and the sequences that it spans.
struct Placed {
    id: u64,
    slot: usize,
    low: u64,
    high: u64,
    run: Run,
}

/// Runs, the newest first.
struct Store {
    runs: Vec<Placed>,
    last: u64,
    next_id: u64,
}

/// Why a store isn't opened.
enum Refusal {
    Log(Ended),
    BadOption,
    TooManyRuns,
}

/// A store that is being opened, its runs the oldest first.
struct Opener<'a> {
    options: &'a Options,
    runs: Vec<Placed>,
    memtable: Memtable,
    last: u64,
}

impl Opener<'_> {
    fn insert(&mut self, seq: u64, op: Op) {
        let (kind, first, second) = match op {
            Op::Put(key, value) => (Kind::Put, key, value),
            Op::Delete(key) => (Kind::Delete, key, [].as_slice()),
            Op::Merge(key, operand) => (Kind::Merge, key, operand),
            Op::Range(begin, end) => (Kind::DeleteRange, begin, end),
        };
        self.memtable.insert(seq, kind, first, second);
        self.last = seq;
        if self.memtable.size >= self.options.memtable {
            self.flush();
        }
    }

    /// Flushes the memtable, where there is something in it.
    fn flush(&mut self) {
        let memtable = std::mem::take(&mut self.memtable);
        if let [first, ..] = memtable.slots.as_slice() {
            let slot = self.runs.len();
            self.runs.push(Placed {
                id: slot as u64 + 1,
                slot,
                low: first.seq,
                high: self.last,
                run: memtable.flush(),
            });
        }
    }

    /// The store of what was inserted.
    fn finish(mut self) -> Result<Store, Refusal> {
        self.flush();
        let options = self.options;
        if options.memtable == 0
            || options.trigger == 0
            || options.least < 2
            || options.greatest < options.least
        {
            return Err(Refusal::BadOption);
        }
        if self.runs.len() > MOST_SLOTS {
            return Err(Refusal::TooManyRuns);
        }
        self.runs.reverse();
        Ok(Store {
            next_id: self.runs.len() as u64 + 1,
            runs: self.runs,
            last: self.last,
        })
    }
}

/// The store of a log's writes.
fn opened(log: &[u8], options: &Options) -> Result<Store, Refusal> {
    let mut reader = LogReader::new(log);
    let mut opener = Opener {
        options,
        runs: Vec::new(),
        memtable: Memtable::default(),
        last: 0,
    };
    let mut number = 0;
    loop {
        let payload = match reader.payload() {
            Ok(payload) => payload,
            Err(Ended::Clean | Ended::Torn(_)) => return opener.finish(),
            Err(ended) => return Err(Refusal::Log(ended)),
        };
        number += 1;
        let mut ops = Vec::new();
        let seq = read_batch(payload, opener.last, &mut ops)
            .map_err(|fault| Refusal::Log(Ended::Batch(number, fault)))?;
        for (op, seq) in ops.iter().zip(seq..) {
            opener.insert(seq, *op);
        }
    }
}

impl Store {
    fn picked(&self, options: &Options) -> Option<Stretch> {
        let sizes: Vec<u64> = self.runs.iter().map(|placed| placed.run.size).collect();
        picked(options, &sizes)
    }

    /// Neighbouring runs as one.
    fn compacted(&self, stretch: Stretch) -> Run {
        let behind = stretch.first + stretch.count;
        let inputs = &self.runs[stretch.first..behind];
        let runs: Vec<&Run> = inputs.iter().map(|placed| &placed.run).collect();
        let has_oldest = behind == self.runs.len();
        let low = inputs.last().map(|placed| placed.low);
        let keeping = Keeping {
            keeps: &[self.last],
            bottom: low.filter(|_| has_oldest),
        };
        compact::<Counter>(&runs, keeping)
    }

    /// Compacts neighbouring runs, and gives the id of what they become.
    fn compact(&mut self, stretch: Stretch) -> u64 {
        let run = self.compacted(stretch);
        let id = self.next_id;
        self.next_id += 1;
        let (newest, oldest) = (stretch.first, stretch.first + stretch.count - 1);
        let placed = Placed {
            id,
            slot: self.runs[newest].slot,
            low: self.runs[oldest].low,
            high: self.runs[newest].high,
            run,
        };
        self.runs.splice(newest..=oldest, [placed]);
        id
    }

    fn write_report(&self, out: &mut impl Write) -> io::Result<()> {
        for Placed {
            id,
            slot,
            low,
            high,
            run,
        } in &self.runs
        {
            writeln!(
                out,
                "run {id} slot {slot} points {} fragments {} size {} seqs {low} {high}",
                run.points.len(),
                run.fragments.len(),
                run.size
            )?;
        }
        let runs = || self.runs.iter().map(|placed| &placed.run);
        writeln!(
            out,
            "total runs {} points {} fragments {} size {}",
            self.runs.len(),
            runs().map(|run| run.points.len()).sum::<usize>(),
            runs().map(|run| run.fragments.len()).sum::<usize>(),
            runs().map(|run| run.size).sum::<u64>()
        )?;
        writeln!(out, "keeps {}", self.last)?;
        writeln!(out, "last {}", self.last)
    }

    /// Reports, compacts what is picked, and reports again.
    fn report(&mut self, options: &Options, out: &mut impl Write) -> io::Result<()> {
        self.write_report(out)?;
        while let Some(stretch) = self.picked(options) {
            let id = self.compact(stretch);
            writeln!(out, "compacted {} {} {id}", stretch.first, stretch.count)?;
        }
        self.write_report(out)
    }

    /// Compacts as `report` does, and prints how many keys have a value then, and a checksum of both.
    fn write_values(&mut self, options: &Options, out: &mut impl Write) -> io::Result<()> {
        while let Some(stretch) = self.picked(options) {
            self.compact(stretch);
        }
        let all = self.compacted(Stretch {
            first: 0,
            count: self.runs.len(),
        });
        let mut sum = 0u64;
        for point in &all.points {
            let text: &[u8] = match &point.what {
                What::Put(value) => value,
                What::Delete | What::Merge(_) => unreachable!("nothing stands below"),
            };
            let bytes = point.key.iter().chain(text);
            sum = bytes.fold(sum, |sum, &byte| {
                sum.wrapping_mul(31).wrapping_add(u64::from(byte))
            });
        }
        writeln!(out, "keys {} checksum {sum:016x}", all.points.len())
    }
}

/// The request in the words.
struct Asked {
    options: Options,
    values: bool,
}

/// Reads the words, of which none is wrong.
fn asked() -> Asked {
    let mut asked = Asked {
        options: Options::USUAL,
        values: false,
    };
    let mut words = std::env::args().skip(1);
    while let Some(word) = words.next() {
        if word == "--values" {
            asked.values = true;
            continue;
        }
        let value: u64 = words
            .next()
            .and_then(|word| word.parse().ok())
            .expect("a number");
        match word.as_str() {
            "--memtable" => asked.options.memtable = value,
            "--trigger" => asked.options.trigger = value as usize,
            "--ratio" => asked.options.ratio = value.into(),
            "--percent" => asked.options.percent = value.into(),
            "--least" => asked.options.least = value as usize,
            "--greatest" => asked.options.greatest = value as usize,
            _ => panic!("no such option: {word}"),
        }
    }
    asked
}

/// Prints what is asked for of standard input.
fn print(asked: &Asked) -> io::Result<ExitCode> {
    let mut log = Vec::new();
    io::stdin().lock().take(INPUT_LIMIT).read_to_end(&mut log)?;
    let mut out = BufWriter::new(io::stdout().lock());
    let options = &asked.options;
    let opening = opened(&log, options);
    drop(log);
    let status = match opening {
        Ok(mut store) if asked.values => {
            store.write_values(options, &mut out)?;
            0
        }
        Ok(mut store) => {
            store.report(options, &mut out)?;
            0
        }
        Err(Refusal::Log(ended)) => {
            writeln!(out, "{ended}")?;
            3
        }
        Err(Refusal::BadOption) => {
            writeln!(out, "refused bad option")?;
            2
        }
        Err(Refusal::TooManyRuns) => {
            writeln!(out, "refused too many runs")?;
            2
        }
    };
    out.flush()?;
    Ok(ExitCode::from(status))
}

fn main() -> ExitCode {
    print(&asked()).unwrap_or(ExitCode::from(5))
}
