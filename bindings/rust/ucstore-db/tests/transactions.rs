//! Transactions: each anomaly that serial transactions rule out, conflicts across flushes, compactions, checkpoints and openings, own writes,
//! and threads that move money.

mod common;

use common::{is_long, seed, Around, Device, Numbers, Over, Temporary};
use std::collections::BTreeMap;
use std::io;
use std::ops::Bound;
use std::sync::atomic::{AtomicBool, AtomicU64, Ordering};
use std::sync::Arc;
use std::thread;
use std::time::Duration;
use ucstore_db::{
    Conflict, Db, Error, File, Folder, KeyValue, MergeParts, Operator, Options, ReadParts,
    Snapshot, Transaction,
};

/// Something that happens to a database while a transaction is open.
type Change = fn(&Db);

fn in_memory() -> Db {
    in_memory_of(Operator::Append)
}

fn in_memory_of(operator: Operator) -> Db {
    let options = Options {
        operator: Some(operator),
        ..Options::default()
    };
    Db::in_memory(&options).unwrap()
}

fn rows(rows: impl Iterator<Item = Result<KeyValue, Error>>) -> Vec<KeyValue> {
    rows.collect::<Result<_, _>>().unwrap()
}

fn text(value: Option<Vec<u8>>) -> String {
    String::from_utf8(value.unwrap_or_default()).unwrap()
}

fn texts(values: Vec<Option<Vec<u8>>>) -> Vec<String> {
    values.into_iter().map(text).collect()
}

/// The key of the conflict with which a commit fails.
fn lost_key(transaction: Transaction) -> Vec<u8> {
    match transaction.commit() {
        Err(Error::Conflict(Conflict::Key(key))) => key,
        other => panic!("the commit gives {other:?}"),
    }
}

/// The range of the conflict with which a commit fails.
fn lost_range(transaction: Transaction) -> (Vec<u8>, Option<Vec<u8>>) {
    match transaction.commit() {
        Err(Error::Conflict(Conflict::Range { low, high })) => (low, high),
        other => panic!("the commit gives {other:?}"),
    }
}

// ---- anomalies

#[test]
fn no_update_is_lost() {
    let db = in_memory();
    db.put("count", "1").unwrap();
    let [mut first, mut second] = [(); 2].map(|()| db.transaction().unwrap());
    for transaction in [&mut first, &mut second] {
        let count = text(transaction.get("count").unwrap());
        transaction.put("count", count + "1").unwrap();
    }
    first.commit().unwrap();
    assert_eq!(lost_key(second), b"count");
    assert_eq!(text(db.get("count").unwrap()), "11");
}

#[test]
fn no_write_is_skewed() {
    // Of two doctors one has to stay on call.
    let db = in_memory();
    db.put("alice", "on call").unwrap();
    db.put("bob", "on call").unwrap();
    let [mut first, mut second] = [(); 2].map(|()| db.transaction().unwrap());
    for (transaction, leaves) in [(&mut first, "alice"), (&mut second, "bob")] {
        let on_call = transaction.get_many(["alice", "bob"]).unwrap();
        assert!(on_call.iter().all(Option::is_some));
        transaction.delete(leaves).unwrap();
    }
    second.commit().unwrap();
    assert_eq!(lost_key(first), b"bob");
}

#[test]
fn no_row_is_a_phantom() {
    let db = in_memory();
    for key in ["room 1", "room 2", "room 4"] {
        db.put(key, "free").unwrap();
    }
    let changes: [(&str, Change); 5] = [
        ("an insert", |db| db.put("room 3", "free").unwrap()),
        ("an insert at the end", |db| db.put("room 9", "").unwrap()),
        ("a merge", |db| db.merge("room 0", "free").unwrap()),
        ("a deletion", |db| db.delete("room 3").unwrap()),
        ("a range deletion", |db| {
            db.delete_range("a", "room 2").unwrap()
        }),
    ];
    for (name, change) in changes {
        let mut transaction = db.transaction().unwrap();
        let count = rows(transaction.prefix("room").unwrap()).len();
        transaction.put("count", count.to_string()).unwrap();
        change(&db);
        let lost = lost_range(transaction);
        assert_eq!(lost, (b"room".to_vec(), Some(b"roon".to_vec())), "{name}");
    }
}

#[test]
fn a_range_is_read_as_far_as_it_was_walked() {
    let db = in_memory();
    for key in ["b", "d", "f", "h"] {
        db.put(key, "1").unwrap();
    }
    type Walk = fn(&Transaction);
    let front: Walk = |t| assert_eq!(t.range("a".."z").unwrap().nth(1).unwrap().unwrap().0, b"d");
    let back: Walk = |t| {
        assert_eq!(
            t.range("a".."z").unwrap().nth_back(1).unwrap().unwrap().0,
            b"f"
        )
    };
    let none: Walk = |t| drop(t.range("a".."z").unwrap());
    let all: Walk = |t| assert_eq!(t.range("a".."z").unwrap().count(), 4);
    let cases: [(Walk, &str, bool); 12] = [
        (front, "a", true),
        (front, "c", true),
        (front, "d", true),
        (front, "d\0", false),
        (front, "e", false),
        (back, "e", false),
        (back, "f", true),
        (back, "y", true),
        (none, "b", false),
        (all, "e", true),
        (all, "y", true),
        (all, "z", false),
    ];
    for (walk, key, is_read) in cases {
        let before = db.get(key).unwrap();
        let mut transaction = db.transaction().unwrap();
        walk(&transaction);
        transaction.put("~", "1").unwrap();
        db.put(key, "changed").unwrap();
        let outcome = transaction.commit();
        assert_eq!(outcome.is_err(), is_read, "{key}: {outcome:?}");
        match before {
            Some(value) => db.put(key, value).unwrap(),
            None => db.delete(key).unwrap(),
        }
    }
}

#[test]
fn a_reader_sees_one_moment() {
    // The anomaly of Fekete, O'Neil and O'Neil: a reader sees the deposit without the withdrawal's fee, which was computed without it.
    let db = in_memory();
    db.put("checking", "0").unwrap();
    db.put("savings", "0").unwrap();
    let mut withdrawal = db.transaction().unwrap();
    let both = withdrawal.get_many(["checking", "savings"]).unwrap();
    assert_eq!(texts(both), ["0", "0"]);
    withdrawal.put("checking", "-11").unwrap();
    let mut deposit = db.transaction().unwrap();
    assert_eq!(text(deposit.get("savings").unwrap()), "0");
    deposit.put("savings", "20").unwrap();
    deposit.commit().unwrap();
    let reader = db.transaction().unwrap();
    let seen = reader.get_many(["checking", "savings"]).unwrap();
    assert_eq!(texts(seen), ["0", "20"]);
    reader.commit().unwrap();
    assert_eq!(lost_key(withdrawal), b"savings");
}

#[test]
fn what_was_not_there_is_read() {
    let db = in_memory();
    let mut transaction = db.transaction().unwrap();
    assert_eq!(transaction.get("name").unwrap(), None);
    transaction.put("name", "mine").unwrap();
    db.put("name", "yours").unwrap();
    assert_eq!(lost_key(transaction), b"name");
}

#[test]
fn each_read_is_judged() {
    let keys = ["a", "b", "c", "d"];
    for changed in keys {
        let db = in_memory();
        let mut transaction = db.transaction().unwrap();
        transaction.get_many(keys).unwrap();
        transaction.put("result", "1").unwrap();
        db.put(changed, "1").unwrap();
        assert_eq!(lost_key(transaction), changed.as_bytes());
    }
}

#[test]
fn values_are_compared() {
    let db = in_memory();
    db.put("key", "1").unwrap();
    let mut transaction = db.transaction().unwrap();
    transaction.get("key").unwrap();
    transaction.get("none").unwrap();
    assert_eq!(rows(transaction.range("a".."z").unwrap()).len(), 1);
    transaction.put("result", "1").unwrap();
    db.put("key", "2").unwrap();
    db.put("none", "1").unwrap();
    db.delete_range("k", "z").unwrap();
    db.put("key", "1").unwrap();
    transaction.commit().unwrap();
}

#[test]
fn what_is_written_or_unchecked_is_not_read() {
    let db = in_memory();
    db.put("counter", "1").unwrap();
    let mut transaction = db.transaction().unwrap();
    assert_eq!(text(transaction.get_unchecked("counter").unwrap()), "1");
    transaction.put("blind", "1").unwrap();
    transaction.merge("tags", "new").unwrap();
    transaction.delete_range("x", "y").unwrap();
    assert_eq!(text(transaction.get("blind").unwrap()), "1");
    assert_eq!(transaction.get("xx").unwrap(), None);
    for key in ["counter", "blind", "tags", "xx"] {
        db.put(key, "2").unwrap();
    }
    transaction.commit().unwrap();
    let values = db.get_many(["counter", "blind", "tags", "xx"]).unwrap();
    assert_eq!(texts(values), ["2", "1", "2,new", ""]);
}

#[test]
fn a_merged_key_that_is_looked_up_is_read() {
    let db = in_memory();
    let mut transaction = db.transaction().unwrap();
    transaction.merge("tags", "new").unwrap();
    assert_eq!(text(transaction.get("tags").unwrap()), "new");
    db.put("tags", "old").unwrap();
    assert_eq!(lost_key(transaction), b"tags");
}

// ---- the end of a transaction

#[test]
fn nothing_is_written_without_a_commit() {
    let db = in_memory();
    let last = || db.snapshot().unwrap().sequence();
    let begun = last();
    let mut transaction = db.transaction().unwrap();
    transaction.put("a", "1").unwrap();
    transaction.rollback();
    let mut transaction = db.transaction().unwrap();
    transaction.put("a", "1").unwrap();
    drop(transaction);
    let transaction = db.transaction().unwrap();
    transaction.get("a").unwrap();
    transaction.commit().unwrap();
    assert_eq!(last(), begun);
    // One that conflicts writes nothing of its own.
    let mut transaction = db.transaction().unwrap();
    transaction.get("b").unwrap();
    transaction.put("a", "1").unwrap();
    db.put("b", "1").unwrap();
    assert_eq!(lost_key(transaction), b"b");
    assert_eq!(db.get("a").unwrap(), None);
    assert_eq!(last(), begun + 1);
}

#[test]
fn a_closed_database_refuses_transactions() {
    for options in [
        Options::default(),
        Options {
            compactors: 0,
            ..Options::default()
        },
    ] {
        let db = Db::open_on(Arc::new(Device::default()), &options).unwrap();
        let mut written = db.transaction().unwrap();
        written.put("a", "1").unwrap();
        let read = db.transaction().unwrap();
        db.close().unwrap();
        assert!(matches!(written.commit(), Err(Error::Closed)));
        assert_eq!(read.get("a").unwrap(), None);
        assert!(matches!(read.commit(), Err(Error::Closed)));
        assert!(matches!(db.transaction(), Err(Error::Closed)));
        let tried = db.transact(|t| t.put("a", "1"));
        assert!(matches!(tried, Err(Error::Closed)));
    }
}

#[test]
fn a_conflict_names_what_was_read() {
    let db = in_memory();
    let mut transaction = db.transaction().unwrap();
    transaction.get("a\n").unwrap();
    transaction.put("b", "").unwrap();
    db.put("a\n", "1").unwrap();
    let error = transaction.commit().unwrap_err();
    assert_eq!(error.to_string(), "conflict: key \"a\\n\" has changed");
}

// ---- what happens meanwhile

/// A transaction that has read keys and ranges of a database, and the key and the range that others change.
fn reads(db: &Db) -> [Transaction; 2] {
    [false, true].map(|has_range| {
        let mut transaction = db.transaction().unwrap();
        match has_range {
            true => assert_eq!(rows(transaction.range("k".."l").unwrap()).len(), 100),
            false => assert_eq!(text(transaction.get("k50").unwrap()), "50"),
        }
        transaction.put("result", "1").unwrap();
        transaction
    })
}

#[test]
fn conflicts_are_found_after_whatever_happens() {
    let device = Arc::new(Device::default());
    let options = Options {
        operator: Some(Operator::Append),
        compactors: 0,
        ..Options::default()
    };
    let db = Db::open_on(device, &options).unwrap();
    let fill = || {
        for number in 0..100 {
            db.put(format!("k{number:02}"), format!("{number}"))
                .unwrap();
        }
    };
    let steps: [Change; 4] = [
        |_| (),
        |db| db.flush().unwrap(),
        |db| {
            for _ in 0..4 {
                db.put("other", "1").unwrap();
                db.flush().unwrap();
            }
            db.compact().unwrap();
        },
        |db| db.checkpoint().unwrap(),
    ];
    let changes: [(Change, bool); 5] = [
        (|db| db.put("other", "2").unwrap(), false),
        (|db| db.put("k50", "changed").unwrap(), true),
        (|db| db.merge("k50", "more").unwrap(), true),
        (|db| db.delete("k50").unwrap(), true),
        (|db| db.delete_range("k5", "k51").unwrap(), true),
    ];
    for before in steps {
        for after in steps {
            for (change, is_lost) in changes {
                fill();
                before(&db);
                let transactions = reads(&db);
                change(&db);
                after(&db);
                for transaction in transactions {
                    assert_eq!(transaction.commit().is_err(), is_lost);
                }
            }
        }
    }
}

#[test]
fn what_commits_is_there_after_an_opening() {
    let folder = Temporary::new("transactions");
    let db = Db::open(folder.path(), &Options::default()).unwrap();
    db.put("from", "10").unwrap();
    db.transact(|t| {
        t.delete("from")?;
        t.put("to", "10")
    })
    .unwrap();
    let mut lost = db.transaction().unwrap();
    lost.get("to").unwrap();
    lost.put("lost", "1").unwrap();
    db.put("to", "11").unwrap();
    assert_eq!(lost_key(lost), b"to");
    let sequence = db.snapshot().unwrap().sequence();
    db.close().unwrap();
    let db = Db::open(folder.path(), &Options::default()).unwrap();
    assert_eq!(db.snapshot().unwrap().sequence(), sequence);
    let values = db.get_many(["from", "to", "lost"]).unwrap();
    assert_eq!(texts(values), ["", "11", ""]);
}

// ---- own writes

/// A map that does what a transaction does: merges append after a comma.
#[derive(Clone, Default)]
struct Model(BTreeMap<Vec<u8>, Vec<u8>>);

impl Model {
    fn merge(&mut self, key: &[u8], operand: &[u8]) {
        let value = self.0.entry(key.to_vec());
        let joined = |value: &mut Vec<u8>| {
            value.push(b',');
            value.extend_from_slice(operand);
        };
        value.and_modify(joined).or_insert_with(|| operand.to_vec());
    }

    fn delete_range(&mut self, begin: &[u8], end: &[u8]) {
        self.0
            .retain(|key, _| !(begin <= &key[..] && &key[..] < end));
    }

    fn range(&self, low: &[u8], high: Option<&[u8]>) -> Vec<KeyValue> {
        let is_in = |key: &[u8]| low <= key && high.is_none_or(|high| key < high);
        let rows = self.0.iter().filter(|(key, _)| is_in(key));
        rows.map(|(key, value)| (key.clone(), value.clone()))
            .collect()
    }
}

const KEYS: [&[u8]; 8] = [b"", b"\0", b"a", b"a\0", b"b", b"c", b"\xff", b"\xff\xff"];

/// Draws a write, for a transaction and its model.
fn draw_write(numbers: &mut Numbers, transaction: &mut Transaction, model: &mut Model) {
    let mut key = || KEYS[numbers.below(8) as usize];
    let (first, second) = (key(), key());
    let value = numbers.below(9).to_string();
    match numbers.below(4) {
        0 => {
            transaction.put(first, &value).unwrap();
            model.0.insert(first.to_vec(), value.into_bytes());
        }
        1 => {
            transaction.merge(first, &value).unwrap();
            model.merge(first, value.as_bytes());
        }
        2 => {
            transaction.delete(first).unwrap();
            model.0.remove(first);
        }
        _ => {
            transaction.delete_range(first, second).unwrap();
            model.delete_range(first, second);
        }
    }
}

/// Draws a range, and walks over it from drawn ends.
fn draw_walk(numbers: &mut Numbers, transaction: &Transaction, model: &Model) {
    let mut key = || KEYS[numbers.below(8) as usize];
    let (low, high) = (key(), key());
    let high = (numbers.below(3) > 0).then_some(high);
    let end = high.map_or(Bound::Unbounded, Bound::Excluded);
    let mut found = transaction
        .range::<&[u8]>((Bound::Included(low), end))
        .unwrap();
    let mut wanted = model.range(low, high).into_iter();
    loop {
        let (row, want) = match numbers.below(2) {
            0 => (found.next(), wanted.next()),
            _ => (found.next_back(), wanted.next_back()),
        };
        let row = row.transpose().unwrap();
        assert_eq!(row, want);
        if row.is_none() {
            return;
        }
    }
}

#[test]
fn a_transaction_sees_its_own_writes() {
    let rounds = if is_long() { 20_000 } else { 1000 };
    let mut numbers = Numbers(seed(1));
    let db = in_memory();
    let mut held = Model::default();
    for _ in 0..rounds {
        let mut transaction = db.transaction().unwrap();
        let mut model = held.clone();
        for _ in 0..numbers.below(12) {
            draw_write(&mut numbers, &mut transaction, &mut model);
            let key = KEYS[numbers.below(8) as usize];
            assert_eq!(transaction.get(key).unwrap(), model.0.get(key).cloned());
            draw_walk(&mut numbers, &transaction, &model);
        }
        if numbers.below(4) > 0 {
            transaction.commit().unwrap();
            held = model;
        }
        let now = db.iter().unwrap().collect::<Result<Vec<_>, _>>().unwrap();
        assert_eq!(now, held.range(b"", None));
    }
}

#[test]
fn each_operator_merges_into_own_writes() {
    let cases = [
        (Operator::Append, "b", "a,b"),
        (Operator::Maximum, "b", "b"),
        (Operator::Tail, "bcde", "bcde"),
        // The payload, its length, and the delimiter and number of an append.
        (Operator::Mixed, "b\x01,\x05", "a,b"),
    ];
    for (operator, operand, wanted) in cases {
        let db = in_memory_of(operator);
        db.put("key", "a").unwrap();
        let mut transaction = db.transaction().unwrap();
        transaction.merge("key", operand).unwrap();
        assert_eq!(text(transaction.get("key").unwrap()), wanted);
        transaction.commit().unwrap();
        assert_eq!(text(db.get("key").unwrap()), wanted);
    }
}

#[test]
fn bytes_that_are_no_operand_are_rejected() {
    let db = in_memory_of(Operator::Mixed);
    let mut transaction = db.transaction().unwrap();
    let error = transaction
        .merge("visits", 1_u64.to_le_bytes())
        .unwrap_err();
    assert!(matches!(
        error,
        Error::Store(ucstore_db::ucstore::Error::BadOperand)
    ));
    (&mut transaction).add("visits", 2).unwrap();
    assert_eq!(transaction.get_int("visits").unwrap(), Some(2));
    transaction.commit().unwrap();
    assert_eq!(db.get_int("visits").unwrap(), Some(2));
}

// ---- one key, and tries

#[test]
fn a_key_is_compared_and_put() {
    let db = in_memory();
    assert!(!db.compare_and_put("key", Some(b"1"), "2").unwrap());
    assert!(db.insert_if_absent("key", "1").unwrap());
    assert!(!db.insert_if_absent("key", "2").unwrap());
    assert!(!db.compare_and_put("key", None, "2").unwrap());
    assert!(db.compare_and_put("key", Some(b"1"), "2").unwrap());
    assert_eq!(text(db.get("key").unwrap()), "2");
}

#[test]
fn tries_end_with_an_error_of_the_function_or_the_last_conflict() {
    #[derive(Debug)]
    enum Reason {
        Enough,
        Failed(Error),
    }
    impl From<Error> for Reason {
        fn from(error: Error) -> Reason {
            Reason::Failed(error)
        }
    }
    let db = in_memory();
    let mut tries = 0;
    let outcome: Result<(), Reason> = db.transact(|t| {
        tries += 1;
        t.get("key")?;
        t.put("result", "1")?;
        db.put("key", tries.to_string())?;
        if tries == 7 {
            return Err(Reason::Enough);
        }
        Ok(())
    });
    assert!(matches!(outcome, Err(Reason::Enough)));
    assert_eq!((tries, db.get("result").unwrap()), (7, None));
    let outcome: Result<(), Reason> = db.transact(|t| {
        tries += 1;
        t.get("key")?;
        t.put("result", "1")?;
        Ok(db.put("key", tries.to_string())?)
    });
    assert!(matches!(outcome, Err(Reason::Failed(Error::Conflict(_)))));
    assert_eq!((tries, db.get("result").unwrap()), (107, None));
}

// ---- threads

const ACCOUNTS: u64 = 20;
const MONEY: u64 = 100;

fn account(number: u64) -> String {
    format!("account {number:04}")
}

fn money(value: Option<Vec<u8>>) -> u64 {
    value.map_or(0, |text| String::from_utf8(text).unwrap().parse().unwrap())
}

/// Moves money from one account to another, which may be removed where nothing is left.
fn transfer(db: &Db, from: u64, to: u64, amount: u64) -> bool {
    db.transact(|t| {
        let held = money(t.get(account(from))?);
        if held < amount || from == to {
            return Ok::<_, Error>(false);
        }
        match held - amount {
            0 => t.delete(account(from))?,
            left => t.put(account(from), left.to_string())?,
        }
        let other = money(t.get(account(to))?);
        t.put(account(to), (other + amount).to_string())?;
        Ok(true)
    })
    .unwrap()
}

fn sum(snapshot: &Snapshot) -> u64 {
    let rows = snapshot.prefix("account").unwrap();
    rows.map(|row| money(Some(row.unwrap().1))).sum()
}

/// The sum of all accounts, checked by a transaction that writes it.
fn checked_sum(db: &Db, key: &str) -> u64 {
    let checked = db.transact(|t| {
        let mut sum = 0;
        for row in t.prefix("account")? {
            sum += money(Some(row?.1));
        }
        t.put(key, sum.to_string())?;
        Ok::<_, Error>(sum)
    });
    match checked {
        Ok(sum) => sum,
        // A sum of all accounts may lose against those that move money.
        Err(Error::Conflict(_)) => ACCOUNTS * MONEY,
        Err(error) => panic!("{error}"),
    }
}

fn move_money(db: &Db, threads: u64, moves: u64) {
    for number in 0..ACCOUNTS {
        db.put(account(number), MONEY.to_string()).unwrap();
    }
    let moved = AtomicU64::new(0);
    let is_done = AtomicBool::new(false);
    thread::scope(|scope| {
        let movers: Vec<_> = (0..threads)
            .map(|thread| {
                let moved = &moved;
                scope.spawn(move || {
                    let mut numbers = Numbers(seed(thread));
                    for _ in 0..moves {
                        let (from, to) = (numbers.below(ACCOUNTS), numbers.below(ACCOUNTS));
                        let amount = 1 + numbers.below(MONEY / 2);
                        moved.fetch_add(
                            u64::from(transfer(db, from, to, amount)),
                            Ordering::Relaxed,
                        );
                        match numbers.below(200) {
                            0 => db.flush().unwrap(),
                            1 => db.compact().unwrap(),
                            2 => db.checkpoint().unwrap(),
                            _ => (),
                        }
                    }
                })
            })
            .collect();
        scope.spawn(|| {
            while !is_done.load(Ordering::Relaxed) {
                assert_eq!(sum(&db.snapshot().unwrap()), ACCOUNTS * MONEY);
                assert_eq!(checked_sum(db, "sum"), ACCOUNTS * MONEY);
            }
        });
        for mover in movers {
            mover.join().unwrap();
        }
        is_done.store(true, Ordering::Relaxed);
    });
    assert!(moved.into_inner() > 0);
    assert_eq!(sum(&db.snapshot().unwrap()), ACCOUNTS * MONEY);
}

#[test]
fn threads_move_money() {
    let moves = if is_long() { 20_000 } else { 300 };
    for threads in [1, 2, 8] {
        move_money(&in_memory(), threads, moves);
        let device = Arc::new(Device::default());
        let db = Db::open_on(device.clone(), &Options::default()).unwrap();
        move_money(&db, threads, moves);
        db.close().unwrap();
        let db = Db::open_on(device, &Options::default()).unwrap();
        assert_eq!(sum(&db.snapshot().unwrap()), ACCOUNTS * MONEY);
    }
}

/// A device whose syncs take a millisecond.
struct Slow(Device);

struct SlowFile(Box<dyn File>);

impl Around for Slow {
    fn device(&self) -> &Device {
        &self.0
    }

    fn create(&self, name: &str) -> io::Result<Box<dyn File>> {
        Ok(Box::new(SlowFile(self.0.create(name)?)))
    }

    fn open(&self, name: &str) -> io::Result<Box<dyn File>> {
        Ok(Box::new(SlowFile(self.0.open(name)?)))
    }
}

impl File for SlowFile {
    fn append(&mut self, bytes: &[u8]) -> io::Result<()> {
        self.0.append(bytes)
    }

    fn cut(&mut self, length: u64) -> io::Result<()> {
        self.0.cut(length)
    }

    fn sync(&mut self) -> io::Result<()> {
        thread::sleep(Duration::from_millis(1));
        self.0.sync()
    }
}

#[test]
fn transactions_share_records_and_syncs() {
    let folder = Arc::new(Over(Slow(Device::default())));
    let db = Db::open_on(folder.clone(), &Options::default()).unwrap();
    thread::scope(|scope| {
        for thread in 0..8 {
            let db = &db;
            scope.spawn(move || {
                for number in 0..50 {
                    let mut transaction = db.transaction().unwrap();
                    assert_eq!(transaction.get(format!("{thread}.{number}")).unwrap(), None);
                    // Each second one reads what another thread writes, and may be lost.
                    if number % 2 == 0 {
                        transaction
                            .get(format!("{}.{number}", (thread + 1) % 8))
                            .unwrap();
                    }
                    transaction.put(format!("{thread}.{number}"), "").unwrap();
                    match transaction.commit() {
                        Err(Error::Conflict(_)) if number % 2 == 0 => (),
                        outcome => outcome.unwrap(),
                    }
                }
            });
        }
    });
    let stats = db.stats();
    assert!(stats.groups < stats.batches, "{stats:?}");
    let held = db.iter().unwrap().count();
    assert!(held as u64 == stats.batches && held >= 200);
    db.close().unwrap();
    let db = Db::open_on(folder, &Options::default()).unwrap();
    assert_eq!(db.iter().unwrap().count(), held);
}

#[test]
fn each_ticket_is_taken_once() {
    let db = in_memory();
    let taken: Vec<AtomicU64> = (0..200).map(|_| AtomicU64::new(0)).collect();
    thread::scope(|scope| {
        for _ in 0..8 {
            scope.spawn(|| {
                for (number, count) in taken.iter().enumerate() {
                    let is_mine = db.insert_if_absent(format!("ticket {number}"), "").unwrap();
                    count.fetch_add(u64::from(is_mine), Ordering::Relaxed);
                }
            });
        }
    });
    assert!(taken.iter().all(|count| count.load(Ordering::Relaxed) == 1));
}
