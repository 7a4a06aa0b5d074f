//! Drawn operations for each operator, beside a map whose copies are the snapshots.

use std::collections::BTreeMap;
use ucstore::{log_writes, Batch, Ended, Error, Operation, Operator, Options, Store};

const OPERATIONS: usize = 10_000;

type Map = BTreeMap<Vec<u8>, Vec<u8>>;

/// Numbers below a limit, by Knuth's constants.
struct Numbers(u64);

impl Numbers {
    fn below(&mut self, limit: u64) -> u64 {
        self.0 = self
            .0
            .wrapping_mul(6364136223846793005)
            .wrapping_add(1442695040888963407);
        (self.0 >> 33) % limit
    }

    fn key(&mut self) -> Vec<u8> {
        format!("k{}", self.below(40)).into_bytes()
    }

    fn value(&mut self) -> Vec<u8> {
        let length = if self.below(3) == 0 {
            8
        } else {
            self.below(12)
        };
        (0..length).map(|_| self.below(256) as u8).collect()
    }

    fn operation(&mut self) -> Operation {
        match self.below(20) {
            0..=8 => Operation::Put {
                key: self.key(),
                value: self.value(),
            },
            9..=15 => Operation::Merge {
                key: self.key(),
                operand: self.value(),
            },
            16..=18 => Operation::Delete { key: self.key() },
            _ => Operation::DeleteRange {
                begin: self.key(),
                end: self.key(),
            },
        }
    }
}

fn number(text: &[u8]) -> u64 {
    text.try_into().map_or(0, u64::from_le_bytes)
}

fn merged(operator: Operator, held: Option<&Vec<u8>>, operand: &[u8]) -> Vec<u8> {
    let old = held.map_or(&[][..], Vec::as_slice);
    match operator {
        Operator::Append if held.is_none() => operand.to_vec(),
        Operator::Append => [old, b",", operand].concat(),
        Operator::Counter => number(old)
            .wrapping_add(number(operand))
            .to_le_bytes()
            .to_vec(),
        Operator::Maximum => old.max(operand).to_vec(),
        Operator::Tail => {
            let whole = [old, operand].concat();
            whole[whole.len().saturating_sub(4)..].to_vec()
        }
        Operator::Mixed => unreachable!("tests/mixed.rs merges by it"),
    }
}

fn apply(operator: Operator, map: &mut Map, operation: &Operation) {
    match operation {
        Operation::Put { key, value } => drop(map.insert(key.clone(), value.clone())),
        Operation::Delete { key } => drop(map.remove(key)),
        Operation::Merge { key, operand } => {
            let value = merged(operator, map.get(key), operand);
            map.insert(key.clone(), value);
        }
        Operation::DeleteRange { begin, end } => map.retain(|key, _| key < begin || key >= end),
    }
}

fn push(batch: &mut Batch, operation: &Operation) {
    let added = match operation {
        Operation::Put { key, value } => batch.put(key, value),
        Operation::Delete { key } => batch.delete(key),
        Operation::Merge { key, operand } => batch.merge(key, operand),
        Operation::DeleteRange { begin, end } => batch.delete_range(begin, end),
    };
    added.unwrap();
}

fn write(store: &Store, operation: &Operation) -> Result<(), Error> {
    match operation {
        Operation::Put { key, value } => store.put(key, value),
        Operation::Delete { key } => store.delete(key),
        Operation::Merge { key, operand } => store.merge(key, operand),
        Operation::DeleteRange { begin, end } => store.delete_range(begin, end),
    }
}

/// A store beside what it should hold, now and at each keep, and the log of it.
struct Soak {
    operator: Operator,
    options: Options,
    numbers: Numbers,
    store: Store,
    map: Map,
    keeps: Vec<(u64, Map)>,
    written: Vec<Operation>,
    log: Vec<u8>,
}

impl Soak {
    /// Writes some at once: half of them are prepared and committed, half written again.
    fn write_some(&mut self) {
        let operations: Vec<_> = (0..self.numbers.below(9))
            .map(|_| self.numbers.operation())
            .collect();
        let mut batch = Batch::new();
        operations
            .iter()
            .for_each(|operation| push(&mut batch, operation));
        self.log
            .extend(self.store.prepare(self.log.len() as u64, &batch).unwrap());
        if self.numbers.below(2) == 0 {
            self.store.commit();
        } else {
            self.store.write(&batch).unwrap();
        }
        self.wrote(operations);
    }

    fn write_one(&mut self) {
        let operation = self.numbers.operation();
        let mut batch = Batch::new();
        push(&mut batch, &operation);
        self.log
            .extend(self.store.prepare(self.log.len() as u64, &batch).unwrap());
        write(&self.store, &operation).unwrap();
        self.wrote(vec![operation]);
    }

    fn wrote(&mut self, operations: Vec<Operation>) {
        operations
            .iter()
            .for_each(|operation| apply(self.operator, &mut self.map, operation));
        self.written.extend(operations);
        assert_eq!(self.store.last(), self.written.len() as u64);
    }

    fn keep(&mut self) {
        if self.keeps.len() < 12 {
            self.keeps
                .push((self.store.take_snapshot().unwrap(), self.map.clone()));
        }
    }

    fn release(&mut self) {
        if !self.keeps.is_empty() {
            let place = self.numbers.below(self.keeps.len() as u64) as usize;
            self.store.release(self.keeps.swap_remove(place).0).unwrap();
        }
        let mut sequences: Vec<_> = self.keeps.iter().map(|keep| keep.0).collect();
        sequences.sort();
        sequences.dedup();
        assert_eq!(self.store.snapshots(), sequences);
    }

    fn get(&mut self) {
        let key = self.numbers.key();
        assert_eq!(self.store.get(&key).unwrap().as_ref(), self.map.get(&key));
        let keys: Vec<_> = (0..self.numbers.below(9))
            .map(|_| self.numbers.key())
            .collect();
        let wanted: Vec<_> = keys.iter().map(|key| self.map.get(key).cloned()).collect();
        assert_eq!(self.store.get_many(&keys).unwrap(), wanted);
        for (sequence, map) in &self.keeps {
            assert_eq!(
                self.store.get_at(&key, *sequence).unwrap().as_ref(),
                map.get(&key)
            );
        }
    }

    fn scan(&mut self) {
        let (low, high) = (self.numbers.key(), self.numbers.key());
        let now: Map = self.store.scan("", None).map(Result::unwrap).collect();
        assert_eq!(now, self.map);
        for (sequence, map) in &self.keeps {
            let rows: Map = self
                .store
                .scan_at(&low, Some(&high), *sequence)
                .map(Result::unwrap)
                .collect();
            let wanted = map.iter().filter(|row| low <= *row.0 && *row.0 < high);
            assert!(rows.iter().eq(wanted));
            let all: Map = self
                .store
                .scan_at("", None, *sequence)
                .map(Result::unwrap)
                .collect();
            assert_eq!(all, *map);
        }
    }

    /// Opens the log, whole and torn, and finds the writes again.
    fn reopen(&mut self) {
        let (store, ended) = Store::open(self.operator, &self.options, &self.log).unwrap();
        assert_eq!((ended, store.last()), (Ended::Clean, self.store.last()));
        let snapshot = store.snapshot().unwrap();
        assert_eq!(
            snapshot.scan("", None).map(Result::unwrap).collect::<Map>(),
            self.map
        );
        let torn = &self.log[..self.numbers.below(self.log.len() as u64) as usize];
        for (place, write) in log_writes(torn).map(Result::unwrap).enumerate() {
            assert_eq!(
                (write.sequence, &write.operation),
                (place as u64 + 1, &self.written[place])
            );
        }
    }

    fn step(&mut self) {
        match self.numbers.below(100) {
            0..=39 => self.write_one(),
            40..=49 => self.write_some(),
            50..=56 => self.keep(),
            57..=63 => self.release(),
            64..=66 => drop(self.store.compact().unwrap()),
            67..=95 => self.get(),
            _ => self.scan(),
        }
    }
}

fn soak(operator: Operator, seed: u64) {
    let options = Options {
        write_buffer_size: 64,
        ..Default::default()
    };
    let store = Store::create(operator, &options).unwrap();
    let (numbers, map) = (Numbers(seed), Map::new());
    let mut soak = Soak {
        operator,
        options,
        numbers,
        store,
        map,
        keeps: vec![],
        written: vec![],
        log: vec![],
    };
    for _ in 0..OPERATIONS {
        soak.step();
    }
    soak.options = Options::default();
    soak.reopen();
}

#[test]
fn texts() {
    soak(Operator::Append, 1);
}

#[test]
fn sums() {
    soak(Operator::Counter, 2);
}

#[test]
fn maxima() {
    soak(Operator::Maximum, 3);
}

#[test]
fn tails() {
    soak(Operator::Tail, 4);
}
