//! Drawn scans from both ends of a range, beside a map.

use std::collections::{BTreeMap, VecDeque};
use std::ops::Bound;
use std::time::{Duration, Instant};
use ucstore::{Operator, Options, Store, View};

type Map = BTreeMap<Vec<u8>, Vec<u8>>;
type Row = (Vec<u8>, Vec<u8>);

const OPERATORS: [Operator; 4] = [
    Operator::Append,
    Operator::Counter,
    Operator::Maximum,
    Operator::Tail,
];

/// Numbers below a limit, by Knuth's constants.
struct Numbers(u64);

impl Numbers {
    fn below(&mut self, limit: u64) -> u64 {
        self.0 = self
            .0
            .wrapping_mul(6364136223846793005)
            .wrapping_add(1442695040888963407);
        (self.0 >> 33) % limit
    }

    /// A key of up to three bytes, among them the least and the greatest.
    fn key(&mut self) -> Vec<u8> {
        let bytes = [0, 1, b'a', b'b', 254, 255];
        let length = self.below(4);
        (0..length)
            .map(|_| bytes[self.below(bytes.len() as u64) as usize])
            .collect()
    }

    /// A bound of a range, of each kind.
    fn bound(&mut self) -> Bound<Vec<u8>> {
        match self.below(5) {
            0 => Bound::Unbounded,
            1 | 2 => Bound::Included(self.key()),
            _ => Bound::Excluded(self.key()),
        }
    }

    /// A value, now and then one that fills a page.
    fn value(&mut self) -> Vec<u8> {
        let length = match self.below(40) {
            0 => 3_000 + self.below(30_000),
            1..=20 => 8,
            _ => self.below(20),
        };
        let byte = self.below(256) as u8;
        vec![byte; length as usize]
    }
}

fn number(bytes: &[u8]) -> u64 {
    bytes.try_into().map_or(0, u64::from_le_bytes)
}

/// The value that an operand makes of another.
fn merged(operator: Operator, held: Option<&Vec<u8>>, operand: &[u8]) -> Vec<u8> {
    let old = held.map_or(&[][..], Vec::as_slice);
    match operator {
        Operator::Append if held.is_none() => operand.to_vec(),
        Operator::Append => [old, b",", operand].concat(),
        Operator::Counter => number(old)
            .wrapping_add(number(operand))
            .to_le_bytes()
            .to_vec(),
        Operator::Maximum => old.max(operand).to_vec(),
        Operator::Tail => {
            let whole = [old, operand].concat();
            whole[whole.len().saturating_sub(4)..].to_vec()
        }
        Operator::Mixed => unreachable!("tests/mixed.rs merges by it"),
    }
}

/// Writes to the store and to the map. Flushes and compactions come in between.
fn write(numbers: &mut Numbers, operator: Operator, store: &Store, map: &mut Map) {
    let (key, value) = (numbers.key(), numbers.value());
    match numbers.below(30) {
        0..=11 => {
            store.put(&key, &value).unwrap();
            map.insert(key, value);
        }
        12..=20 => {
            store.merge(&key, &value).unwrap();
            let merged = merged(operator, map.get(&key), &value);
            map.insert(key, merged);
        }
        21..=24 => {
            store.delete(&key).unwrap();
            map.remove(&key);
        }
        25 => {
            let end = numbers.key();
            store.delete_range(&key, &end).unwrap();
            map.retain(|it, _| *it < key || *it >= end);
        }
        26..=28 => store.flush().unwrap(),
        _ => drop(store.compact().unwrap()),
    }
}

/// The rows of a map in a range.
fn rows_of(map: &Map, low: &[u8], high: Option<&[u8]>) -> VecDeque<Row> {
    map.iter()
        .filter(|(key, _)| low <= &key[..] && high.is_none_or(|high| &key[..] < high))
        .map(|(key, value)| (key.clone(), value.clone()))
        .collect()
}

/// Takes rows from both ends, until none is left, and from both ends once more.
fn try_both_ends(numbers: &mut Numbers, view: &View, low: &[u8], high: Option<&[u8]>, map: &Map) {
    let mut wanted = rows_of(map, low, high);
    let mut scan = view.scan(low, high);
    // Of eight rows this many are taken from the back.
    let bias = numbers.below(9);
    for _ in 0..wanted.len() + 4 {
        let (found, expected) = match numbers.below(8) < bias {
            true => (scan.next_back(), wanted.pop_back()),
            false => (scan.next(), wanted.pop_front()),
        };
        assert_eq!(found.transpose().unwrap(), expected, "{low:?} {high:?}");
    }
}

#[test]
fn scans_go_both_ways() {
    for (seed, operator) in OPERATORS.into_iter().enumerate() {
        let mut numbers = Numbers(seed as u64 + 1);
        let store = Store::create(operator, &Options::default()).unwrap();
        let mut map = Map::new();
        for round in 0..1_500 {
            write(&mut numbers, operator, &store, &mut map);
            if round % 10 != 0 {
                continue;
            }
            let view = store.view().unwrap();
            let (low, high) = (numbers.key(), numbers.key());
            try_both_ends(&mut numbers, &view, b"", None, &map);
            try_both_ends(&mut numbers, &view, &low, None, &map);
            try_both_ends(&mut numbers, &view, &low, Some(&high), &map);
            let back: Vec<Row> = view.scan("", None).rev().map(Result::unwrap).collect();
            assert!(back.iter().eq(rows_of(&map, b"", None).iter().rev()));
        }
    }
}

/// Whether a key is in a range. The least key may be above the greatest.
fn is_in(key: &[u8], low: &Bound<Vec<u8>>, high: &Bound<Vec<u8>>) -> bool {
    let is_above = match low {
        Bound::Included(low) => low.as_slice() <= key,
        Bound::Excluded(low) => low.as_slice() < key,
        Bound::Unbounded => true,
    };
    is_above
        && match high {
            Bound::Included(high) => key <= high.as_slice(),
            Bound::Excluded(high) => key < high.as_slice(),
            Bound::Unbounded => true,
        }
}

#[test]
fn ranges_have_bounds_of_each_kind() {
    let mut numbers = Numbers(7);
    let store = Store::create(Operator::Append, &Options::default()).unwrap();
    let mut map = Map::new();
    for _ in 0..300 {
        write(&mut numbers, Operator::Append, &store, &mut map);
    }
    let view = store.view().unwrap();
    for _ in 0..2_000 {
        let (low, high) = (numbers.bound(), numbers.bound());
        let wanted = || map.keys().filter(|key| is_in(key, &low, &high));
        let range = || view.range::<Vec<u8>>((low.clone(), high.clone()));
        assert!(range().map(|row| row.unwrap().0).eq(wanted().cloned()));
        assert!(range()
            .rev()
            .map(|row| row.unwrap().0)
            .eq(wanted().rev().cloned()));
    }
    assert_eq!(view.range::<&[u8]>(..).count(), map.len());
    assert_eq!(view.range("a".."a").count(), 0);
}

#[test]
fn a_view_shows_no_later_write_backwards() {
    let store = Store::create(Operator::Append, &Options::default()).unwrap();
    for key in 0..5_000u32 {
        store.put(key.to_be_bytes(), [7; 100]).unwrap();
    }
    let view = store.view().unwrap();
    store.delete_range("", [255; 5]).unwrap();
    store.flush().unwrap();
    let mut keys = (0..5_000u32).rev();
    let mut scan = view.scan("", None);
    while let Some((key, value)) = scan.next_row_back().unwrap() {
        assert_eq!(key, keys.next().unwrap().to_be_bytes());
        assert_eq!(value, [7; 100]);
    }
    assert_eq!(keys.next(), None);
}

#[test]
fn deleted_ranges_are_skipped_both_ways() {
    let store = Store::create(Operator::Append, &Options::default()).unwrap();
    for key in 0..200_000u32 {
        store.put(key.to_be_bytes(), "old").unwrap();
    }
    store.flush().unwrap();
    store
        .delete_range(1u32.to_be_bytes(), 199_999u32.to_be_bytes())
        .unwrap();
    store.put(100_000u32.to_be_bytes(), "new").unwrap();
    let view = store.view().unwrap();
    let keys = [0u32, 100_000, 199_999].map(|key| key.to_be_bytes().to_vec());
    let begun = Instant::now();
    for _ in 0..1_000 {
        let forward = view.scan("", None).map(|row| row.unwrap().0);
        assert!(forward.eq(keys.iter().cloned()));
        let back = view.scan("", None).rev().map(|row| row.unwrap().0);
        assert!(back.eq(keys.iter().rev().cloned()));
    }
    // A step for each deleted key would take minutes.
    assert!(begun.elapsed() < Duration::from_secs(20));
}
