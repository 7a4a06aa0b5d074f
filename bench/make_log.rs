//! Writes a write-ahead log as LevelDB and RocksDB have them to standard output, for measurements.
//!
//!     make_log small|large|counters|words|long|hot MIB
//!     make_log deleted|ranged
//!     make_log lines
//!
//! `small`: batches of one put, with a key of 16 bytes and a value of 100. `large`: batches of 40 puts
//! with values of 2,000 bytes, each of which spans three or four blocks. `counters`: batches of one write to
//! one of 300,000 keys of 16 bytes, by lot: 50 percent merges and 45 percent puts of 8 bytes, 5 percent
//! deletions, and of 10,000 writes one deletes the range of 30 neighbouring keys. `hot`: batches of one write to
//! one of 1,000 such keys: 90 percent merges, 9 percent puts, 1 percent deletions. `words`: as `counters`, without ranges, and
//! with made-up words of 2 to 6 letters for keys, short ones often. `long`: as `words`, with keys of 100 bytes, of which
//! all have the first 40. The log has as many whole batches as fit the given size.
//!
//! `deleted`: 250,000 keys are put in their order, and then nine of ten deleted, in batches of 100 writes. `ranged`: the
//! same keys are put, and then of each 1,000 neighbours the first 900 deleted by one range deletion.
//!
//! `lines` reads lines from standard input, `put KEY VALUE`, `delete KEY`, `merge KEY OPERAND` and
//! `range BEGIN END` in hexadecimal, and makes a batch of each.

mod log_writer;

use log_writer::{DELETE, MERGE, PUT, RANGE, head, push_payload, push_varint, string};
use std::io::{self, BufRead, BufWriter, Write};

/// The number of the counters' keys.
const KEYS: u64 = 300_000;
/// The number of keys in a range of the counters.
const SPAN: u64 = 30;
/// The number of the hot counters' keys.
const HOT_KEYS: u64 = 1_000;
/// The number of keys that are put before most are deleted.
const DELETED_KEYS: u64 = 250_000;
/// Of this number of these keys one is left.
const LEFT_OF: u64 = 10;
/// Of this number of neighbours a range deletion leaves the last ones.
const NEIGHBOURS: u64 = 1_000;
/// The number of those that it deletes.
const RANGED: u64 = 900;
/// The number of writes in a batch of these.
const DELETED_BATCH: usize = 100;

/// Bytes drawn by lot, the same in each run.
struct Lot(u64);

impl Lot {
    fn next(&mut self) -> u64 {
        self.0 ^= self.0 << 13;
        self.0 ^= self.0 >> 7;
        self.0 ^= self.0 << 17;
        self.0
    }

    fn push_string(&mut self, out: &mut Vec<u8>, len: usize) {
        push_varint(out, len);
        for _ in 0..len {
            out.push(self.next() as u8);
        }
    }
}

/// The contents of a log of puts.
#[derive(Clone, Copy)]
struct Shape {
    /// The number of puts in a batch.
    puts: u32,
    /// The length of a value.
    value: usize,
}

/// The form of a log's keys.
#[derive(Clone, Copy)]
enum Keys {
    Words,
    Long,
}

impl Keys {
    /// The key with a number below `KEYS`.
    fn key(self, number: u64) -> String {
        match self {
            Keys::Words => word_of(number),
            Keys::Long => format!("tenant/00000042/region/eu-west/counters/{number:08}/{:051}", number * 7919),
        }
    }

    /// The number of a key by lot. Some words are frequent.
    fn number(self, lot: &mut Lot) -> u64 {
        match self {
            Keys::Words => lot.next() % (lot.next() % KEYS + 1),
            Keys::Long => lot.next() % KEYS,
        }
    }
}

/// A made-up word: the more syllables, the greater its number.
fn word_of(number: u64) -> String {
    const CONSONANTS: [char; 14] = ['b', 'd', 'f', 'g', 'h', 'k', 'l', 'm', 'n', 'p', 'r', 's', 't', 'w'];
    const VOWELS: [char; 5] = ['a', 'e', 'i', 'o', 'u'];
    let mut word = String::new();
    let mut rest = number + 1;
    while rest > 0 {
        word.push(CONSONANTS[(rest % 14) as usize]);
        word.push(VOWELS[(rest / 14 % 5) as usize]);
        rest /= 70;
    }
    word
}

/// The contents of a log.
#[derive(Clone, Copy)]
enum Kind {
    Puts(Shape),
    Counters,
    Keyed(Keys),
    Hot,
}

impl Kind {
    /// The number of writes in a batch.
    fn writes(self) -> u32 {
        match self {
            Kind::Puts(shape) => shape.puts,
            Kind::Counters | Kind::Keyed(_) | Kind::Hot => 1,
        }
    }

    fn push_writes(self, lot: &mut Lot, out: &mut Vec<u8>) {
        match self {
            Kind::Puts(shape) => {
                for _ in 0..shape.puts {
                    out.push(PUT);
                    lot.push_string(out, 16);
                    lot.push_string(out, shape.value);
                }
            }
            Kind::Counters => push_counter_write(lot, out),
            Kind::Keyed(keys) => push_keyed_write(keys, lot, out),
            Kind::Hot => push_hot_write(lot, out),
        }
    }
}

fn counter_key(number: u64) -> String {
    format!("account/{number:08}")
}

/// The record of a write of the key with a number, with the bytes after the key.
fn record(tag: u8, number: u64, second: &[u8]) -> Vec<u8> {
    let key = string(counter_key(number).as_bytes());
    [&[tag], key.as_slice(), second].concat()
}

/// A merge, a put, a deletion or a range deletion of counters.
fn push_counter_write(lot: &mut Lot, out: &mut Vec<u8>) {
    let percents = lot.next() % 10_000;
    let place = lot.next() % KEYS;
    out.extend(match percents {
        0 => record(RANGE, place, &string(counter_key(place + SPAN).as_bytes())),
        1..=500 => record(DELETE, place, &[]),
        501..=5_500 => record(MERGE, place, &string(&lot.next().to_le_bytes())),
        _ => record(PUT, place, &string(&lot.next().to_le_bytes())),
    });
}

/// A merge, a put or a deletion of a counter with such a key.
fn push_keyed_write(keys: Keys, lot: &mut Lot, out: &mut Vec<u8>) {
    let percent = lot.next() % 100;
    let key = string(keys.key(keys.number(lot)).as_bytes());
    let number = string(&lot.next().to_le_bytes());
    out.extend(match percent {
        0..=4 => [&[DELETE], key.as_slice()].concat(),
        5..=54 => [&[MERGE], key.as_slice(), number.as_slice()].concat(),
        _ => [&[PUT], key.as_slice(), number.as_slice()].concat(),
    });
}

/// A merge, a put or a deletion of one of few counters.
fn push_hot_write(lot: &mut Lot, out: &mut Vec<u8>) {
    let percent = lot.next() % 100;
    let number = lot.next() % HOT_KEYS;
    out.extend(match percent {
        0 => record(DELETE, number, &[]),
        1..=9 => record(PUT, number, &string(&lot.next().to_le_bytes())),
        _ => record(MERGE, number, &string(&lot.next().to_le_bytes())),
    });
}

/// As many batches as fit a number of bytes.
fn make_log(kind: Kind, size: usize) -> Vec<u8> {
    let mut log = Vec::with_capacity(size);
    let mut lot = Lot(0x2545_f491_4f6c_dd1d);
    let mut seq = 1;
    loop {
        let before = log.len();
        let mut batch = head(seq, kind.writes());
        kind.push_writes(&mut lot, &mut batch);
        push_payload(&mut log, &batch);
        if log.len() > size {
            log.truncate(before);
            return log;
        }
        seq += u64::from(kind.writes());
    }
}

/// All keys put, and then some deletions of them.
fn log_of_deletions(deletions: impl Iterator<Item = Vec<u8>>) -> Vec<u8> {
    let puts = (0..DELETED_KEYS).map(|number| record(PUT, number, &string(&number.to_le_bytes())));
    let writes: Vec<Vec<u8>> = puts.chain(deletions).collect();
    let mut log = Vec::new();
    let mut seq = 1;
    for batch in writes.chunks(DELETED_BATCH) {
        push_payload(
            &mut log,
            &[head(seq, batch.len() as u32), batch.concat()].concat(),
        );
        seq += batch.len() as u64;
    }
    log
}

/// Most keys deleted one by one.
fn deleted_log() -> Vec<u8> {
    let deleted = (0..DELETED_KEYS).filter(|number| number % LEFT_OF != 0);
    log_of_deletions(deleted.map(|number| record(DELETE, number, &[])))
}

/// As many keys deleted by ranges.
fn ranged_log() -> Vec<u8> {
    let firsts = (0..DELETED_KEYS / NEIGHBOURS).map(|part| part * NEIGHBOURS);
    log_of_deletions(firsts.map(|first| {
        let end = counter_key(first + RANGED);
        record(RANGE, first, &string(end.as_bytes()))
    }))
}

/// The bytes that hexadecimal digits stand for, or a dot for none.
fn bytes_of(digits: &str) -> Option<Vec<u8>> {
    if digits == "." {
        return Some(Vec::new());
    }
    let pairs = (0..digits.len()).step_by(2);
    pairs
        .map(|at| u8::from_str_radix(digits.get(at..at + 2)?, 16).ok())
        .collect()
}

/// The write that a line says.
fn write_of(line: &str) -> Option<Vec<u8>> {
    let words: Vec<&str> = line.split(' ').collect();
    let (tag, texts) = match words.as_slice() {
        ["delete", texts @ ..] if texts.len() == 1 => (DELETE, texts),
        ["put", texts @ ..] if texts.len() == 2 => (PUT, texts),
        ["merge", texts @ ..] if texts.len() == 2 => (MERGE, texts),
        ["range", texts @ ..] if texts.len() == 2 => (RANGE, texts),
        _ => return None,
    };
    let mut write = vec![tag];
    for text in texts {
        write.extend(string(&bytes_of(text)?));
    }
    Some(write)
}

/// A log of a batch for each line.
fn log_of_lines(lines: impl BufRead) -> io::Result<Vec<u8>> {
    let mut log = Vec::new();
    for (line, seq) in lines.lines().zip(1..) {
        let write = write_of(&line?).ok_or(io::ErrorKind::InvalidData)?;
        push_payload(&mut log, &[head(seq, 1), write].concat());
    }
    Ok(log)
}

fn usage() -> ! {
    eprintln!(
        "usage: make_log small|large|counters|words|long|hot MIB, or make_log deleted|ranged, or make_log lines"
    );
    std::process::exit(2)
}

/// The kind of log that a word names.
fn kind_named(word: &str) -> Option<Kind> {
    Some(match word {
        "small" => Kind::Puts(Shape {
            puts: 1,
            value: 100,
        }),
        "large" => Kind::Puts(Shape {
            puts: 40,
            value: 2_000,
        }),
        "counters" => Kind::Counters,
        "words" => Kind::Keyed(Keys::Words),
        "long" => Kind::Keyed(Keys::Long),
        "hot" => Kind::Hot,
        _ => return None,
    })
}

/// The log that the words ask for.
fn log_asked_for(words: &[String]) -> io::Result<Vec<u8>> {
    match words {
        [word] if word == "lines" => log_of_lines(io::stdin().lock()),
        [word] if word == "deleted" => Ok(deleted_log()),
        [word] if word == "ranged" => Ok(ranged_log()),
        [word, size] => match (kind_named(word), size.parse::<usize>()) {
            (Some(kind), Ok(size)) => Ok(make_log(kind, size << 20)),
            _ => usage(),
        },
        _ => usage(),
    }
}

fn main() -> io::Result<()> {
    let words: Vec<String> = std::env::args().skip(1).collect();
    let mut out = BufWriter::new(io::stdout().lock());
    out.write_all(&log_asked_for(&words)?)?;
    out.flush()
}
