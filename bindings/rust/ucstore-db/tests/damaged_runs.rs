//! Damaged, missing and foreign run files and lists, and checkpoints that fail.

mod common;

use common::{map_of, seed, Call, Device, Extent, Map, Numbers};
use std::collections::BTreeMap;
use std::sync::Arc;
use ucstore_db::{verify_checkpoint, CheckpointRead, Db, Error, Folder, Operator, Options, Sync};

type Files = BTreeMap<String, Vec<u8>>;

/// Options without threads, whose runs stay apart.
fn options() -> Options {
    let mut options = Options {
        operator: Some(Operator::Append),
        compactors: 0,
        sync: Sync::Never,
        checkpoint_least: u64::MAX,
        ..Default::default()
    };
    options.store.compaction_trigger = 30;
    options
}

fn open_with(device: &Device, options: &Options) -> Result<Db, Error> {
    Db::open_on(Arc::new(device.clone()), options)
}

/// The files of a database with two runs, of two and of four writes, and one in its log; and what it has after each.
fn story(value: &str) -> (Files, [Map; 3]) {
    let device = Device::default();
    let db = open_with(&device, &options()).unwrap();
    db.put("a", value).unwrap();
    db.put("b", value).unwrap();
    db.flush().unwrap();
    let first = map_of(&db);
    db.merge("a", value).unwrap();
    db.delete("b").unwrap();
    db.put("c", value).unwrap();
    db.delete_range("d", "e").unwrap();
    db.checkpoint().unwrap();
    let second = map_of(&db);
    db.put("f", value).unwrap();
    let third = map_of(&db);
    drop(db);
    let files = device.files();
    let names = Vec::from_iter(files.keys().map(|name| &**name));
    let wanted = [
        "000001.run",
        "000002-6.runs",
        "000002.log",
        "000002.run",
        "OPERATOR",
    ];
    assert_eq!(names, wanted);
    (files, [first, second, third])
}

/// Opens damaged files, which is refused with the file and the offset; nothing is changed. A list that is read alone has the same fault.
fn refused(files: &Files) -> (String, u64) {
    let device = Device::of(files);
    let error = open_with(&device, &options()).unwrap_err();
    assert_eq!(&device.files(), files);
    if let Some(list) = files.keys().find(|name| name.ends_with(".runs")) {
        let verified = verify_checkpoint(&device, list);
        let alone = verified.map_or_else(Some, |read| read.fault().cloned());
        assert_eq!(alone.map(place_of), Some(place_of(error.clone())));
    }
    place_of(error)
}

/// The file and the offset of an error.
fn place_of(error: Error) -> (String, u64) {
    match error {
        Error::Damaged { file, offset, .. } => (file, offset),
        Error::Missing { file } => (file, 0),
        error => panic!("{error}"),
    }
}

fn with(files: &Files, name: &str, bytes: impl Into<Vec<u8>>) -> Files {
    let mut files = files.clone();
    files.insert(name.into(), bytes.into());
    files
}

#[test]
fn each_damaged_byte_is_named() {
    let (files, _) = story("value");
    for name in ["000001.run", "000002.run", "000002-6.runs"] {
        for place in 0..files[name].len() {
            for flipped in [0x01, 0x80, 0xff] {
                let mut bytes = files[name].clone();
                bytes[place] ^= flipped;
                let (file, offset) = refused(&with(&files, name, bytes));
                assert_eq!(file, name);
                // A fault of a run's table or footer is reported at the end of its file.
                let is_end = name.ends_with(".run") && offset == files[name].len() as u64;
                assert!(offset <= place as u64 || is_end, "{name} {place}: {offset}");
            }
        }
    }
}

#[test]
fn each_file_that_is_cut_longer_or_missing_is_named() {
    let (files, _) = story("value");
    for name in ["000001.run", "000002.run", "000002-6.runs"] {
        let bytes = &files[name];
        for length in 0..bytes.len() {
            let cut = with(&files, name, &bytes[..length]);
            let (file, offset) = refused(&cut);
            assert_eq!(file, name);
            assert!(offset <= length as u64, "{name} {length}: {offset}");
        }
        for longer in [&[0][..], bytes, b"ucstrun\n"] {
            let longer = [bytes, longer].concat();
            assert_eq!(refused(&with(&files, name, longer)).0, name);
        }
        let mut fewer = files.clone();
        fewer.remove(name);
        // Without the list it isn't known what the runs are for. A log is missing then.
        let missing = match name {
            "000002-6.runs" => "000001.log",
            name => name,
        };
        assert_eq!(refused(&fewer), (missing.into(), 0));
    }
}

#[test]
fn files_of_another_database_or_version_are_named() {
    let (files, _) = story("value");
    let (others, _) = story("VALUE");
    for name in ["000001.run", "000002.run"] {
        let swapped = with(&files, name, &*others[name]);
        assert_eq!(refused(&swapped), (name.into(), 0));
    }
    let doubled = with(&files, "000002.run", &*files["000001.run"]);
    assert_eq!(refused(&doubled).0, "000002.run");
    let list = with(&files, "000002-6.runs", &*others["000002-6.runs"]);
    assert_eq!(refused(&list), ("000001.run".into(), 0));
    let mut newer = files["000002-6.runs"].clone();
    newer[8] = 2;
    let newer = with(&files, "000002-6.runs", newer);
    let error = open_with(&Device::of(&newer), &options()).unwrap_err();
    assert_eq!(
        error.to_string(),
        "000002-6.runs is damaged at 8: version 2 of lists isn't known"
    );
    let mut renamed = files.clone();
    let list = renamed.remove("000002-6.runs").unwrap();
    renamed.insert("000002-7.runs".into(), list);
    assert_eq!(refused(&renamed), ("000002-7.runs".into(), 16));
    // The list names the operator too, where the file of that is gone.
    let mut nameless = files.clone();
    nameless.remove("OPERATOR");
    let counter = Options {
        operator: Some(Operator::Counter),
        ..options()
    };
    let error = open_with(&Device::of(&nameless), &counter).unwrap_err();
    assert!(matches!(error, Error::OtherOperator { .. }), "{error}");
}

#[test]
fn a_checkpoint_is_read_alone() {
    let (files, _) = story("value");
    let device = Device::of(&files);
    let CheckpointRead { last, runs, .. } = verify_checkpoint(&device, "000002-6.runs").unwrap();
    let found = runs.iter().map(|run| {
        assert!(run.fault.is_none());
        assert_eq!(run.length, files[&run.name].len() as u64);
        (&*run.name, run.first, run.last)
    });
    assert_eq!(last, 6);
    let wanted = [("000001.run", 1, 2), ("000002.run", 3, 6)];
    assert_eq!(Vec::from_iter(found), wanted);
    for name in ["000002.log", "000001.run", "OPERATOR"] {
        let error = verify_checkpoint(&device, name).unwrap_err();
        assert!(matches!(error, Error::Missing { .. }), "{error}");
    }
    // Each of several faults is reported.
    let mut both = with(&files, "000002.run", "other");
    both.remove("000001.run");
    let read = verify_checkpoint(&Device::of(&both), "000002-6.runs").unwrap();
    let faults = read.runs.iter().filter_map(|run| run.fault.clone());
    let places = Vec::from_iter(faults.map(place_of));
    assert_eq!(places, [("000001.run".into(), 0), ("000002.run".into(), 5)]);

    let db = open_with(&device, &options()).unwrap();
    db.checkpoint_to(&db.snapshot().unwrap()).unwrap();
    drop(db);
    let read = verify_checkpoint(&device, "000003-7.base").unwrap();
    assert_eq!((read.last, read.runs.len()), (7, 0));
    let whole = device.files();
    let base = &whole["000003-7.base"];
    for length in 0..base.len() {
        let cut = Device::of(&with(&whole, "000003-7.base", &base[..length]));
        let error = verify_checkpoint(&cut, "000003-7.base").unwrap_err();
        assert!(place_of(error).1 <= length as u64);
    }
}

/// A run file that somebody has removed takes no log away.
#[test]
fn a_checkpoint_misses_a_run_that_it_keeps() {
    let device = Device::default();
    let db = open_with(&device, &options()).unwrap();
    db.put("a", "1").unwrap();
    db.checkpoint().unwrap();
    db.put("b", "2").unwrap();
    Folder::remove(&device, "000001.run").unwrap();
    let error = db.checkpoint().unwrap_err();
    assert_eq!(place_of(error), ("000001.run".into(), 0));
    assert!(device.files().contains_key("000002.log"));
    // The next one writes all runs anew.
    db.checkpoint().unwrap();
    let map = map_of(&db);
    drop(db);
    let names = Vec::from_iter(device.logs().into_keys());
    let wanted = ["000003.run", "000004-2.runs", "000004.log", "000004.run"];
    assert_eq!(names, wanted);
    assert_eq!(map_of(&open_with(&device, &options()).unwrap()), map);
}

/// A list may be whole and lie about a run.
#[test]
fn a_run_with_other_sequences_than_its_list_says_is_named() {
    let (files, _) = story("value");
    let mut list = files["000002-6.runs"].clone();
    // The high of the first run is 2.
    assert_eq!(list[56..64], 2u64.to_le_bytes());
    list[56] = 1;
    let end = list.len() - 4;
    let checksum = !list[..end].iter().fold(u32::MAX, |crc, byte| {
        (0..8).fold(crc ^ u32::from(*byte), |crc, _| {
            (crc >> 1) ^ (0x82f6_3b78 * (crc & 1))
        })
    });
    list[end..].copy_from_slice(&checksum.to_le_bytes());
    let lying = with(&files, "000002-6.runs", list);
    assert_eq!(refused(&lying), ("000001.run".into(), 0));
}

/// Up to a damaged run there is a state of the past.
#[test]
fn runs_before_a_damaged_one_can_be_read() {
    let (files, maps) = story("value");
    let to_fault = Options {
        recover_to_fault: true,
        ..options()
    };
    let empty = Map::new();
    for (name, wanted) in [
        ("000001.run", &empty),
        ("000002.run", &maps[0]),
        ("000002-6.runs", &empty),
    ] {
        let mut bytes = files[name].clone();
        bytes[20] ^= 1;
        let device = Device::of(&with(&files, name, bytes));
        let db = open_with(&device, &to_fault).unwrap();
        assert_eq!(&map_of(&db), wanted, "{name}");
        let Some(Error::ReadOnly { cause }) = db.failure() else {
            panic!("{:?}", db.failure());
        };
        assert!(matches!(*cause, Error::Damaged { file, .. } if file == name));
    }
    let db = open_with(&Device::of(&files), &to_fault).unwrap();
    assert_eq!(map_of(&db), maps[2]);
    assert!(db.failure().is_none());
}

#[test]
fn nothing_is_recovered_below_a_list() {
    let (files, maps) = story("value");
    let at = |last| {
        let options = Options {
            recover_to: Some(last),
            ..options()
        };
        open_with(&Device::of(&files), &options)
    };
    for last in 0..6 {
        let error = at(last).unwrap_err();
        let Error::NotRecoverable { file, offset, .. } = error else {
            panic!("{error}");
        };
        assert_eq!(file, "000002-6.runs");
        assert!(offset <= files[&file].len() as u64);
    }
    assert_eq!(map_of(&at(6).unwrap()), maps[1]);
    assert_eq!(map_of(&at(7).unwrap()), maps[2]);
}

/// Files that no list names are removed by an opening, and their numbers aren't used again.
#[test]
fn an_opening_removes_files_that_no_list_names() {
    let (files, maps) = story("value");
    let mut more = with(&files, "000007.run", "orphan");
    more.insert("000003.runs.new".into(), b"half".to_vec());
    more.insert("000001-2.runs".into(), b"old".to_vec());
    let device = Device::of(&more);
    let db = open_with(&device, &options()).unwrap();
    assert_eq!(map_of(&db), maps[2]);
    let names = |device: &Device| Vec::from_iter(device.logs().into_keys());
    let left = ["000001.run", "000002-6.runs", "000002.log", "000002.run"];
    assert_eq!(names(&device), left);
    db.checkpoint().unwrap();
    let next = [
        "000001.run",
        "000002.run",
        "000003-7.runs",
        "000003.log",
        "000008.run",
    ];
    assert_eq!(names(&device), next);
    let spent = with(&files, &format!("{}.run", u64::MAX), "orphan");
    let error = open_with(&Device::of(&spent), &options()).unwrap_err();
    assert!(matches!(error, Error::Store(_)), "{error}");
}

/// The files of a database with a list of two runs, and writes in its log and memtable.
fn before_checkpoint(device: &Device) -> (Db, Map) {
    let db = open_with(device, &options()).unwrap();
    for key in ["a", "b", "c"] {
        db.put(key, [7; 700]).unwrap();
        db.flush().unwrap();
        if key == "b" {
            db.checkpoint().unwrap();
        }
    }
    db.put("d", "gathered").unwrap();
    db.sync().unwrap();
    let map = map_of(&db);
    (db, map)
}

/// Each call of a checkpoint fails, once or from there on, having done its work or a part of it. The database goes on, and so does the
/// next opening, of what is left of the device and after a crash.
#[test]
fn a_checkpoint_may_fail_at_each_call() {
    let mut numbers = Numbers(seed(22));
    let mut failures = 0;
    for (extent, lasts) in [
        (Extent::Part, false),
        (Extent::Whole, false),
        (Extent::Part, true),
        (Extent::Whole, true),
    ] {
        for left in 0.. {
            let device = Device::default();
            let (db, map) = before_checkpoint(&device);
            device.fail_having_done(extent, None, left, lasts);
            let outcome = db.checkpoint();
            let has_failed = device.calls().1 > 0;
            for again in [device.restarted(), device.crash(&mut numbers)] {
                let again = open_with(&again, &options()).unwrap();
                let found = map_of(&again);
                assert_eq!(found, map, "{left}");
            }
            failures += u64::from(outcome.is_err());
            // A fault that is still to come is none of the checkpoint.
            device.fail(Some(Call::Names), u64::MAX, false);
            if !lasts && db.failure().is_none() {
                db.put("e", "more").unwrap();
                db.checkpoint().unwrap();
                check_tidy(&device, 5);
            }
            drop(db);
            if !has_failed {
                break;
            }
        }
    }
    assert!(failures > 60, "{failures}");
}

/// A device has one list with its runs, and a log.
fn check_tidy(device: &Device, rows: usize) {
    let files = device.logs();
    let count = |end: &str| files.keys().filter(|name| name.ends_with(end)).count();
    assert_eq!(
        (count(".runs"), count(".log")),
        (1, 1),
        "{:?}",
        files.keys()
    );
    let again = open_with(&device.restarted(), &options()).unwrap();
    assert_eq!(map_of(&again).len(), rows);
    assert_eq!(count(".run") as u64, again.stats().runs);
    assert_eq!(files.len(), 2 + count(".run"));
}

/// A list that may have its name keeps its runs until a later one is there.
#[test]
fn a_full_device_gets_back_what_a_checkpoint_took() {
    let device = Device::default();
    let (db, map) = before_checkpoint(&device);
    for call in [Call::Append, Call::Sync] {
        for left in 0..3 {
            device.fail(Some(call), left, false);
            let before = Vec::from_iter(device.logs().into_keys());
            match db.checkpoint() {
                Ok(()) => continue,
                Err(Error::ReadOnly { .. }) => panic!("{call:?} {left}"),
                Err(_) => {}
            }
            let mut after = Vec::from_iter(device.logs().into_keys());
            after.retain(|name| !name.ends_with(".log"));
            let is_kept = |name: &String| before.contains(name);
            assert!(after.iter().all(is_kept), "{call:?} {left}: {after:?}");
        }
    }
    assert_eq!(map_of(&db), map);
}
