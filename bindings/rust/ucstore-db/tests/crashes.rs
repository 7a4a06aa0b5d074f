//! Crashes at each call of the device, and each fault of it.

mod common;

use common::{
    is_long, map_of, open, seed, Call, Device, Extent, Histories, History, Map, Numbers, Run,
};
use ucstore_db::{Batch, Db, Error};

fn histories(seed: u64, batches: usize) -> Histories {
    Histories {
        batches,
        numbers: Numbers(seed),
    }
}

/// Opens a device, which has all that is kept of a history, and goes on there.
fn check_recovered(
    history: &History,
    device: &Device,
    least: usize,
    most: usize,
    numbers: &mut Numbers,
) {
    let db = open(device).unwrap();
    let map = map_of(&db);
    let found = (least..=most).any(|count| history.maps[count] == map);
    assert!(found, "{map:?} isn't of {least} to {most} batches");
    // Its process ends, and the machine goes on; or that crashes too.
    let next = match numbers.below(2) {
        0 => device.restarted(),
        _ => device.crash(numbers),
    };
    drop(db);
    check_going_on(next, map, numbers);
    let again = open(device).unwrap();
    assert!((least..=most).any(|count| history.maps[count] == map_of(&again)));
}

/// Writes to a device, ends its process or the machine, and does so again, some times.
fn check_going_on(mut device: Device, mut map: Map, numbers: &mut Numbers) {
    for round in 0..3u8 {
        let db = open(&device).unwrap();
        let found = map_of(&db);
        assert_eq!(found, map, "round {round}");
        let is_synced = numbers.below(2) == 0;
        put(&db, &mut map, [b'x', round], &[round; 700], is_synced);
        let is_crashed = numbers.below(3) > 0;
        let next = match is_crashed {
            true => device.crash(numbers),
            false => device.restarted(),
        };
        drop(db);
        let kept = map_of(&open(&next.restarted()).unwrap());
        let is_kept = kept == map || (kept == found && is_crashed && !is_synced);
        assert!(
            is_kept,
            "{:?} of {:?}, {:?}, {is_crashed} {is_synced}",
            short(&kept),
            short(&found),
            short(&map)
        );
        (device, map) = (next, kept);
    }
}

/// The first bytes of the keys and values of a map.
fn short(map: &Map) -> Vec<String> {
    let row =
        |(key, value): (&Vec<u8>, &Vec<u8>)| format!("{key:?} {:?}", &value[..value.len().min(6)]);
    map.iter().map(row).collect()
}

/// Puts a value into a database and a map.
fn put(db: &Db, map: &mut Map, key: impl AsRef<[u8]>, value: &[u8], is_synced: bool) {
    let mut batch = Batch::new();
    batch.put(&key, value).unwrap();
    db.write_with(&batch, is_synced).unwrap();
    map.insert(key.as_ref().to_vec(), value.to_vec());
}

/// The answers of a database after a fault: it holds what was acknowledged, and refuses writes if its log failed.
fn check_live(history: &History, run: &Run) {
    let Some(db) = &run.db else { return };
    assert_eq!(map_of(db), history.maps[run.acknowledged]);
    let is_told = matches!(run.error, Some(Error::ReadOnly { .. }));
    assert!(db.failure().is_some() || !is_told);
    if db.failure().is_some() {
        let refused = db.put("k", "v").unwrap_err();
        assert!(matches!(refused, Error::ReadOnly { .. }), "{refused}");
        assert!(matches!(db.sync(), Err(Error::ReadOnly { .. })));
        assert!(matches!(db.checkpoint(), Err(Error::ReadOnly { .. })));
        assert!(db.stats().is_read_only);
        assert_eq!(map_of(db), history.maps[run.acknowledged]);
        assert!(matches!(db.close(), Err(Error::ReadOnly { .. })));
    }
}

#[test]
fn a_crash_at_any_call_loses_nothing_that_is_kept() {
    let mut histories = histories(seed(1), 12);
    let mut numbers = Numbers(seed(2));
    for _ in 0..if is_long() { 200 } else { 5 } {
        let history = histories.next();
        let whole = Device::default();
        assert!(history.run(&whole).error.is_none());
        for call in 0..=whole.calls().0 {
            let device = Device::default();
            device.fail(None, call, true);
            let run = history.run(&device);
            check_live(&history, &run);
            let (kept, tried) = (run.kept, run.tried);
            drop(run);
            for _ in 0..4 {
                let crashed = device.crash(&mut numbers);
                check_recovered(&history, &crashed, kept, tried, &mut numbers);
            }
        }
    }
}

#[test]
fn a_crash_within_a_recovery_loses_nothing() {
    let mut histories = histories(seed(3), 12);
    let mut numbers = Numbers(seed(4));
    for _ in 0..if is_long() { 200 } else { 12 } {
        let history = histories.next();
        let device = Device::default();
        let run = history.run(&device);
        let (kept, tried) = (run.kept, run.tried);
        // The machine crashed before, or its process was ended alone.
        for crashed in [device.crash(&mut numbers), device.restarted()] {
            for call in 0.. {
                let device = crashed.restarted();
                device.fail(None, call, true);
                let is_opened = open(&device).is_ok();
                let again = device.crash(&mut numbers);
                check_recovered(&history, &again, kept, tried, &mut numbers);
                if is_opened {
                    break;
                }
            }
        }
    }
}

#[test]
fn a_fault_of_the_device_is_told_and_loses_nothing() {
    let (count, batches) = if is_long() { (40, 12) } else { (1, 8) };
    let mut histories = histories(seed(5), batches);
    let mut numbers = Numbers(seed(6));
    for _ in 0..count {
        let history = histories.next();
        for call in Call::ALL {
            for (extent, lasts) in [
                (Extent::Part, false),
                (Extent::Part, true),
                (Extent::Whole, false),
                (Extent::Whole, true),
            ] {
                for left in 0.. {
                    let device = Device::default();
                    device.fail_having_done(extent, Some(call), left, lasts);
                    if !check_fault(&history, &device, call, &mut numbers) {
                        break;
                    }
                }
            }
        }
    }
}

/// Runs a history on a device that fails. Tells whether that came to be.
fn check_fault(history: &History, device: &Device, call: Call, numbers: &mut Numbers) -> bool {
    let run = history.run(device);
    if device.calls().1 == 0 {
        return false;
    }
    // A log without a second handle, or without its closing record, has all that it needs.
    let is_passed_over = matches!(call, Call::Open | Call::Append | Call::Cut);
    assert!(run.error.is_some() || is_passed_over, "{call:?}");
    check_live(history, &run);
    let (kept, acknowledged, tried) = (run.kept, run.acknowledged, run.tried);
    drop(run);
    // A process that is started again sees all that was acknowledged.
    let restarted = device.restarted();
    check_recovered(history, &restarted, acknowledged, tried, numbers);
    for _ in 0..if is_long() { 4 } else { 1 } {
        check_recovered(history, &device.crash(numbers), kept, tried, numbers);
    }
    true
}

#[test]
fn what_an_ended_process_left_is_synced_before_a_new_log() {
    for seed in 0..20 {
        let device = Device::default();
        let first = open(&device).unwrap();
        first.put("a", "1").unwrap();
        // It ends without a close.
        let device = device.restarted();
        let second = open(&device).unwrap();
        device.fail(Some(Call::Rename), 0, false);
        second.checkpoint().unwrap_err();
        let mut batch = Batch::new();
        second
            .write_with(batch.put("b", "2").unwrap(), true)
            .unwrap();
        let crashed = device.crash(&mut Numbers(seed));
        assert_eq!(map_of(&open(&crashed).unwrap()).len(), 2);
    }
}

#[test]
fn what_is_acknowledged_after_a_failed_sync_and_an_opening_survives() {
    for seed in 0..100 {
        let device = Device::default();
        let first = open(&device).unwrap();
        let mut map = Map::new();
        put(&first, &mut map, "a", b"1", true);
        device.fail(Some(Call::Sync), 0, false);
        let mut long = Batch::new();
        long.put("b", vec![7; 20_000]).unwrap();
        let refused = first.write_with(&long, true).unwrap_err();
        assert!(matches!(refused, Error::ReadOnly { .. }), "{refused}");
        drop(first);
        let device = device.restarted();
        let second = open(&device).unwrap();
        for key in ["c", "d"] {
            put(&second, &mut map, key, b"3", true);
        }
        // Unmounted in peace, or not.
        if seed % 2 == 0 {
            second.close().unwrap();
        }
        let again = open(&device.crash(&mut Numbers(seed))).unwrap();
        let mut found = map_of(&again);
        found.remove(&b"b"[..]);
        assert_eq!(found, map);
    }
}

#[test]
fn what_a_reader_saw_after_an_opening_survives() {
    for seed in 0..100 {
        let device = Device::default();
        let first = open(&device).unwrap();
        first.put("a", vec![1; 3000]).unwrap();
        // Its process is killed before a sync.
        let device = device.restarted();
        let second = open(&device).unwrap();
        let map = map_of(&second);
        assert_eq!(map.len(), 1);
        let crashed = device.crash(&mut Numbers(seed));
        assert_eq!(map_of(&open(&crashed).unwrap()), map);
    }
}

#[test]
fn a_base_stays_before_its_logs_go() {
    for seed in 0..40 {
        let device = Device::default();
        let db = open(&device).unwrap();
        db.put("a", "1").unwrap();
        db.sync().unwrap();
        // The names of the new log, and then not those of the base.
        device.fail(Some(Call::SyncNames), 1, false);
        db.checkpoint().unwrap_err();
        drop(db);
        // It ends before what is removed is on the device.
        device.fail(Some(Call::SyncNames), 1, true);
        open(&device).unwrap_err();
        let crashed = device.crash(&mut Numbers(seed));
        assert_eq!(map_of(&open(&crashed).unwrap()).len(), 1);
    }
}

#[test]
fn a_large_base_has_all_rows() {
    let device = Device::default();
    let db = open(&device).unwrap();
    for row in 0..3000u32 {
        db.put(row.to_be_bytes(), vec![7; row as usize % 300])
            .unwrap();
    }
    db.put("long", vec![8; 100_000]).unwrap();
    db.checkpoint().unwrap();
    let map = map_of(&db);
    drop(db);
    let crashed = device.crash(&mut Numbers(1));
    assert_eq!(map_of(&open(&crashed).unwrap()), map);
    assert_eq!(crashed.files()["000002.log"], b"");
}

#[test]
fn a_database_goes_on_behind_a_checkpoint_that_failed() {
    for call in [Call::Rename, Call::Remove] {
        let device = Device::default();
        let db = open(&device).unwrap();
        db.put("a", "1").unwrap();
        device.fail(Some(call), 0, false);
        assert!(matches!(db.checkpoint(), Err(Error::File { .. })));
        db.put("b", "2").unwrap();
        assert!(db.failure().is_none());
        drop(db);
        let again = open(&device).unwrap();
        assert_eq!(map_of(&again).len(), 2);
        again.checkpoint().unwrap();
        // The runs, their list, and a log.
        let files = again.stats().runs as usize + 2;
        drop(again);
        assert_eq!(map_of(&open(&device).unwrap()).len(), 2);
        assert_eq!(device.logs().len(), files);
    }
}
