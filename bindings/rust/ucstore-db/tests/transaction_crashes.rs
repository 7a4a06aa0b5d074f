//! Crashes between the steps of a commit: a transaction is there as a whole or not at all, and never without those whose writes it read.

mod common;

use common::{is_long, open, seed, Device, Extent, Numbers};
use std::collections::{BTreeMap, BTreeSet};
use std::sync::atomic::{AtomicU64, Ordering};
use std::sync::{Arc, Mutex};
use std::thread;
use ucstore_db::{Db, Error, Options, Sync, Transaction};

/// The keys that transactions read and write. Each has the number of the transaction that wrote it last.
const KEYS: u64 = 4;

/// The end of a transaction.
#[derive(Clone, Copy, Debug, PartialEq, Eq)]
enum End {
    Acknowledged,
    Synced,
    Conflict,
    /// Its log failed: it may be there or not.
    Failed,
}

/// The transactions of a history, by their numbers, and how each ended.
type Ends = BTreeMap<u64, End>;

fn key(number: u64) -> String {
    format!("k{number}")
}

/// The number in a value; 0 if there is none.
fn number(value: Option<Vec<u8>>) -> u64 {
    value.map_or(0, |text| String::from_utf8(text).unwrap().parse().unwrap())
}

/// Reads two keys in a transaction of a number, and writes one of them, what it saw, and a key that stands for the rest of its writes.
fn fill(transaction: &mut Transaction, own: u64, numbers: &mut Numbers) -> Result<(), Error> {
    let [one, other] = [(); 2].map(|()| numbers.below(KEYS));
    let saw = [one, other].map(|place| transaction.get(key(place)));
    let [first, second] = saw.map(|value| value.map(number));
    transaction.put(format!("saw{own:04}"), format!("{} {}", first?, second?))?;
    transaction.put(key(one), own.to_string())?;
    // Some records are longer than a sector, and some than a page.
    let size = [10, 10, 700, 9000][numbers.below(4) as usize];
    transaction.put(format!("whole{own:04}"), vec![b'w'; size])
}

/// Returns the end of a commit.
fn end_of(outcome: Result<(), Error>, is_synced: bool) -> End {
    match outcome {
        Ok(()) if is_synced => End::Synced,
        Ok(()) => End::Acknowledged,
        Err(Error::Conflict(_)) => End::Conflict,
        Err(_) => End::Failed,
    }
}

/// Runs one transaction, in which another write may come between.
fn run_one(db: &Db, own: u64, numbers: &mut Numbers) -> Result<End, Error> {
    let mut transaction = db.transaction()?;
    fill(&mut transaction, own, numbers)?;
    if numbers.below(4) == 0 {
        // The same number again: it depends on the same transactions. So values that are compared are unchanged, or it conflicts.
        let place = key(numbers.below(KEYS));
        let held = number(db.get(&place)?);
        db.put(
            &place,
            if numbers.below(2) == 0 { held } else { 0 }.to_string(),
        )?;
    }
    let is_synced = numbers.below(2) == 0;
    Ok(end_of(transaction.commit_with(is_synced), is_synced))
}

/// Runs transactions, checkpoints and openings on a device, up to the first call that is refused.
fn run(device: &Device, count: u64, numbers: &mut Numbers) -> Ends {
    let mut ends = Ends::new();
    let Ok(mut db) = open(device) else {
        return ends;
    };
    for own in 1..=count {
        match numbers.below(12) {
            0 => drop(db.checkpoint()),
            1 => drop(db.flush()),
            2 => match db.close().and_then(|()| open(device)) {
                Ok(next) => {
                    db = next;
                    // A close syncs all.
                    let written = ends.values_mut().filter(|end| **end == End::Acknowledged);
                    written.for_each(|end| *end = End::Synced);
                }
                Err(_) => return ends,
            },
            _ => {}
        }
        ends.insert(own, End::Failed);
        match run_one(&db, own, numbers) {
            Ok(end) => drop(ends.insert(own, end)),
            Err(_) => return ends,
        }
        if ends[&own] == End::Failed {
            return ends;
        }
    }
    ends
}

/// The transactions that a database has, each with those whose writes it read.
fn found(db: &Db) -> BTreeMap<u64, BTreeSet<u64>> {
    let mut found = BTreeMap::new();
    let rows = db.prefix("saw").unwrap().map(Result::unwrap);
    for (key, saw) in rows {
        let text = |bytes: &[u8]| String::from_utf8(bytes.to_vec()).unwrap();
        let own: u64 = text(&key[3..]).parse().unwrap();
        let saw = text(&saw);
        let saw = saw.split(' ').map(|word| word.parse().unwrap());
        found.insert(own, saw.filter(|number| *number > 0).collect());
    }
    let whole = db.prefix("whole").unwrap().map(Result::unwrap);
    let whole: Vec<u64> = whole
        .map(|(key, _)| String::from_utf8_lossy(&key[5..]).parse().unwrap())
        .collect();
    let numbers: Vec<u64> = found.keys().copied().collect();
    assert_eq!(numbers, whole, "a part of a transaction is there");
    found
}

/// Checks what a crash left of transactions.
fn check(db: &Db, ends: &Ends) {
    let found = found(db);
    for (own, end) in ends {
        match end {
            End::Synced => assert!(
                found.contains_key(own),
                "{own} was acknowledged and is lost"
            ),
            End::Conflict => assert!(
                !found.contains_key(own),
                "{own} had a conflict and is there"
            ),
            End::Acknowledged | End::Failed => {}
        }
    }
    for (own, saw) in &found {
        assert!(ends.contains_key(own), "{own} was never begun");
        let lost: Vec<_> = saw.iter().filter(|it| !found.contains_key(it)).collect();
        assert!(
            lost.is_empty(),
            "{own} read the writes of {lost:?}, which are lost"
        );
    }
    for place in 0..KEYS {
        let last = number(db.get(key(place)).unwrap());
        assert!(
            last == 0 || found.contains_key(&last),
            "a write of {last}, which is lost"
        );
    }
}

/// Checks that those of a single thread that are there are the first ones.
fn check_prefix(db: &Db, ends: &Ends) {
    let found = found(db);
    let wrote = ends.iter().filter(|(_, end)| **end != End::Conflict);
    let wrote: Vec<u64> = wrote.map(|(own, _)| *own).collect();
    let numbers: Vec<u64> = found.into_keys().collect();
    assert!(wrote.starts_with(&numbers), "{numbers:?} of {wrote:?}");
}

#[test]
fn a_crash_at_any_call_leaves_whole_transactions() {
    let mut numbers = Numbers(seed(201));
    let (mut states, mut lost, mut conflicts) = (0, 0, 0);
    for round in 0..if is_long() { 100 } else { 2 } {
        for does in [Extent::Part, Extent::Whole] {
            for call in 0.. {
                let device = Device::default();
                device.fail_having_done(does, None, call, true);
                let ends = run(&device, 10, &mut Numbers(seed(300 + round)));
                conflicts += ends.values().filter(|end| **end == End::Conflict).count();
                for _ in 0..3 {
                    let left = device.crash(&mut numbers);
                    let db = open(&left).unwrap();
                    check(&db, &ends);
                    check_prefix(&db, &ends);
                    states += 1;
                    let is_taken = |end: &&End| matches!(end, End::Acknowledged | End::Synced);
                    let taken = ends.values().filter(is_taken).count();
                    lost += usize::from(found(&db).len() < taken);
                    // It goes on there, and what it has stays.
                    let before = found(&db);
                    let mut later = db.transaction().unwrap();
                    fill(&mut later, 9999, &mut numbers).unwrap();
                    later.commit_with(true).unwrap();
                    drop(db);
                    let mut after = found(&open(&left.crash(&mut numbers)).unwrap());
                    assert!(after.remove(&9999).is_some() && after == before);
                }
                if device.calls().1 == 0 {
                    break;
                }
            }
        }
    }
    assert!(
        states > 300 && lost > 20 && conflicts > 20,
        "{states} {lost} {conflicts}"
    );
}

#[test]
fn a_crash_among_threads_leaves_whole_transactions() {
    let mut numbers = Numbers(seed(202));
    let (mut committed, mut failed) = (0, 0);
    for round in 0..if is_long() { 1000 } else { 30 } {
        let device = Device::default();
        device.fail(None, 20 + numbers.below(200), true);
        let options = Options {
            sync: Sync::Never,
            compactors: 1,
            checkpoint_least: 3000,
            ..Default::default()
        };
        let Ok(db) = Db::open_on(Arc::new(device.clone()), &options) else {
            continue;
        };
        let (ends, next) = (Mutex::new(Ends::new()), AtomicU64::new(1));
        thread::scope(|scope| {
            for thread in 0..4 {
                let (db, ends, next) = (&db, &ends, &next);
                scope.spawn(move || {
                    let mut numbers = Numbers(seed(1000 + 10 * round + thread));
                    for _ in 0..100 {
                        let own = next.fetch_add(1, Ordering::Relaxed);
                        ends.lock().unwrap().insert(own, End::Failed);
                        let Ok(end) = run_one(db, own, &mut numbers) else {
                            return;
                        };
                        ends.lock().unwrap().insert(own, end);
                        if end == End::Failed {
                            return;
                        }
                    }
                });
            }
        });
        let ends = ends.into_inner().unwrap();
        failed += usize::from(ends.values().any(|end| *end == End::Failed));
        committed += ends.values().filter(|end| **end == End::Synced).count();
        // Its threads end first: a machine that crashes has none.
        drop(db);
        for _ in 0..4 {
            check(&open(&device.crash(&mut numbers)).unwrap(), &ends);
        }
        check(&open(&device.restarted()).unwrap(), &ends);
    }
    assert!(committed > 50 && failed > 10, "{committed} {failed}");
}
