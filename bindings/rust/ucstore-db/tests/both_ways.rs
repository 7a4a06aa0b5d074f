//! Scans from both ends of a range, beside a map, while other threads write.

mod common;

use common::{is_long, seed, Numbers};
use std::collections::{BTreeMap, VecDeque};
use std::ops::Bound;
use std::sync::atomic::{AtomicBool, Ordering};
use std::thread;
use std::time::Duration;
use ucstore_db::{Batch, Db, Operator, Options, Rows};

type Map = BTreeMap<Vec<u8>, Vec<u8>>;
type Row = (Vec<u8>, Vec<u8>);

const OPERATORS: [Operator; 4] = [
    Operator::Append,
    Operator::Counter,
    Operator::Maximum,
    Operator::Tail,
];

const ROWS: u32 = 1_000_000;

/// The value under the key of a number.
fn value_of(number: u32) -> Vec<u8> {
    vec![number as u8; number as usize % 50]
}

/// A database of a million rows, which were written in the order of a multiplication.
fn million() -> Db {
    let db = Db::in_memory(&Options::default()).unwrap();
    let mut batch = Batch::new();
    for place in 0..ROWS {
        // Prime to the number of rows: each number comes once.
        let number = (u64::from(place) * 1_000_003 % u64::from(ROWS)) as u32;
        batch.put(number.to_be_bytes(), value_of(number)).unwrap();
        if place % 1000 == 999 {
            db.write(&batch).unwrap();
            batch.clear();
        }
    }
    db
}

fn check_row(row: Option<(&[u8], &[u8])>, number: u32) {
    let (key, value) = row.expect("there is a row");
    assert_eq!(key, number.to_be_bytes());
    assert!(value.len() == number as usize % 50 && value.iter().all(|byte| *byte == number as u8));
}

#[test]
fn a_million_rows_come_each_way() {
    let db = million();
    let mut rows = db.iter().unwrap();
    for number in 0..ROWS {
        check_row(rows.next_row().unwrap(), number);
    }
    assert!(rows.next_row().unwrap().is_none());
    let mut rows = db.iter().unwrap();
    for number in (0..ROWS).rev() {
        check_row(rows.next_row_back().unwrap(), number);
    }
    assert!(rows.next_row_back().unwrap().is_none());
    let mut rows = db.iter().unwrap();
    for number in 0..ROWS / 2 {
        check_row(rows.next_row().unwrap(), number);
        check_row(rows.next_row_back().unwrap(), ROWS - 1 - number);
    }
    assert!(rows.next_row().unwrap().is_none() && rows.next_row_back().unwrap().is_none());
}

/// A key of up to three bytes, among them the least and the greatest.
fn key(numbers: &mut Numbers) -> Vec<u8> {
    let bytes = [0, 1, b'a', b'b', 254, 255];
    let length = numbers.below(4);
    (0..length)
        .map(|_| bytes[numbers.below(bytes.len() as u64) as usize])
        .collect()
}

fn number(bytes: &[u8]) -> u64 {
    bytes.try_into().map_or(0, u64::from_le_bytes)
}

/// The value that an operand makes of another.
fn merged(operator: Operator, held: Option<&Vec<u8>>, operand: &[u8]) -> Vec<u8> {
    let old = held.map_or(&[][..], Vec::as_slice);
    match operator {
        Operator::Append if held.is_none() => operand.to_vec(),
        Operator::Append => [old, b",", operand].concat(),
        Operator::Counter => number(old)
            .wrapping_add(number(operand))
            .to_le_bytes()
            .to_vec(),
        Operator::Maximum => old.max(operand).to_vec(),
        Operator::Tail => {
            let whole = [old, operand].concat();
            whole[whole.len().saturating_sub(4)..].to_vec()
        }
        Operator::Mixed => unreachable!("tests/mixed.rs merges by it"),
    }
}

/// Writes to the database and to the map.
fn write(numbers: &mut Numbers, operator: Operator, db: &Db, map: &mut Map) {
    let (key, end) = (key(numbers), key(numbers));
    let length = match numbers.below(3) {
        0 => 8,
        _ => numbers.below(24),
    };
    let value = vec![numbers.below(256) as u8; length as usize];
    match numbers.below(16) {
        0 => {
            db.delete_range(&key, &end).unwrap();
            map.retain(|it, _| *it < key || *it >= end);
        }
        1..=3 => {
            db.delete(&key).unwrap();
            map.remove(&key);
        }
        4..=9 if map.get(&key).is_none_or(|old| old.len() < 500) => {
            db.merge(&key, &value).unwrap();
            let merged = merged(operator, map.get(&key), &value);
            map.insert(key, merged);
        }
        _ => {
            db.put(&key, &value).unwrap();
            map.insert(key, value);
        }
    }
}

/// Takes rows from both ends in a random order, until none is left, and from both ends once more.
fn check_rows(numbers: &mut Numbers, mut rows: Rows, mut wanted: VecDeque<Row>) {
    // Of eight rows this many are taken from the back.
    let bias = numbers.below(9);
    for _ in 0..wanted.len() + 4 {
        let (found, expected) = match numbers.below(8) < bias {
            true => (rows.next_back(), wanted.pop_back()),
            false => (rows.next(), wanted.pop_front()),
        };
        assert_eq!(found.transpose().unwrap(), expected);
    }
}

/// Draws a range below or above the keys of the other thread.
fn range(numbers: &mut Numbers) -> (Bound<Vec<u8>>, Bound<Vec<u8>>) {
    let (low, high) = (key(numbers), key(numbers));
    match numbers.below(4) {
        0 => (Bound::Included(low), Bound::Excluded(high.min(vec![0x80]))),
        1 => (Bound::Unbounded, Bound::Included(high.min(vec![0x7f]))),
        2 => (Bound::Excluded(low.max(vec![0x81])), Bound::Unbounded),
        _ => (Bound::Included(low.max(vec![0x81])), Bound::Included(high)),
    }
}

/// The rows of a map in a range, whose least key may be above the greatest.
fn rows_of(map: &Map, (low, high): &(Bound<Vec<u8>>, Bound<Vec<u8>>)) -> VecDeque<Row> {
    let is_above = |key: &Vec<u8>| match low {
        Bound::Included(low) => low <= key,
        Bound::Excluded(low) => low < key,
        Bound::Unbounded => true,
    };
    let is_below = |key: &Vec<u8>| match high {
        Bound::Included(high) => key <= high,
        Bound::Excluded(high) => key < high,
        Bound::Unbounded => true,
    };
    map.iter()
        .filter(|(key, _)| is_above(key) && is_below(key))
        .map(|(key, value)| (key.clone(), value.clone()))
        .collect()
}

/// Ends the other thread where it is dropped, also by a panic.
struct End<'a>(&'a AtomicBool);

impl Drop for End<'_> {
    fn drop(&mut self) {
        self.0.store(true, Ordering::Relaxed);
    }
}

/// Writes keys that begin with the byte 80, flushes and compacts.
fn write_beside(db: &Db, ends: &AtomicBool) {
    let mut number = 0u32;
    while !ends.load(Ordering::Relaxed) {
        db.put([&[0x80], &number.to_be_bytes()[..]].concat(), [7; 40])
            .unwrap();
        number += 1;
        if number % 32 == 0 {
            db.flush().unwrap();
        }
        if number % 256 == 0 {
            db.compact().unwrap();
            db.delete_range([0x80], [0x81]).unwrap();
        }
    }
}

#[test]
fn scans_from_both_ends_see_one_moment_while_others_write() {
    let rounds = if is_long() { 5000 } else { 250 };
    for operator in OPERATORS {
        let mut numbers = Numbers(seed(70 + operator as u64));
        let mut options = Options {
            operator: Some(operator),
            compact_when_idle: Some(Duration::from_millis(1)),
            ..Default::default()
        };
        options.store.write_buffer_size = 2000;
        let db = Db::in_memory(&options).unwrap();
        let (mut map, ends) = (Map::new(), AtomicBool::new(false));
        thread::scope(|scope| {
            scope.spawn(|| write_beside(&db, &ends));
            let _end = End(&ends);
            for _ in 0..rounds {
                for _ in 0..numbers.below(20) {
                    write(&mut numbers, operator, &db, &mut map);
                }
                let range = range(&mut numbers);
                let (rows, wanted) = (db.range(range.clone()).unwrap(), rows_of(&map, &range));
                // The scan doesn't show what is written later.
                write(&mut numbers, operator, &db, &mut map);
                check_rows(&mut numbers, rows, wanted);
            }
        });
    }
}
