//! Databases that are recovered to a sequence: their bases, marks and gaps, damage, and what is refused.

mod common;

use common::{map_of, Call, Device, Map};
use std::collections::BTreeMap;
use std::sync::Arc;
use ucstore_db::ucstore::{log_writes, Store};
use ucstore_db::{Batch, Db, Error, Operator, Options, Snapshot, Sync};

type Files = BTreeMap<String, Vec<u8>>;

/// The bytes of the record that a close writes: two headers and a mark.
const CLOSING: usize = 7 + 12 + 4;

/// The options of a part's openings, without threads.
fn options() -> Options {
    let mut options = Options {
        operator: Some(Operator::Append),
        compactors: 0,
        sync: Sync::Never,
        checkpoint_least: u64::MAX,
        ..Default::default()
    };
    options.store.write_buffer_size = 16;
    options
}

fn open_with(device: &Device, options: &Options) -> Result<Db, Error> {
    Db::open_on(Arc::new(device.clone()), options)
}

/// Opens what was acknowledged up to a sequence, with snapshots.
fn open_at(device: &Device, last: u64, marks: &[u64]) -> Result<Db, Error> {
    let options = Options {
        recover_to: Some(last),
        marks: marks.to_vec(),
        ..options()
    };
    open_with(device, &options)
}

/// All that a snapshot has.
fn rows_of(snapshot: &Snapshot) -> Map {
    snapshot.iter().unwrap().map(Result::unwrap).collect()
}

/// A part with two bases' worth of batches: the files, and the last sequence and what there is after each batch.
struct Story {
    device: Device,
    lasts: Vec<u64>,
    maps: Vec<Map>,
}

impl Story {
    /// Three batches of three operations; a base of the snapshot after the second, within the first log; and two more in the next.
    fn told() -> Story {
        let device = Device::default();
        let db = open_with(&device, &options()).unwrap();
        let mut story = Story {
            device,
            lasts: vec![0],
            maps: vec![Map::new()],
        };
        let mut snapshot = None;
        for number in 0..3 {
            story.write(&db, number);
            if number == 1 {
                snapshot = Some(db.snapshot().unwrap());
            }
        }
        db.checkpoint_to(&snapshot.unwrap()).unwrap();
        story.write(&db, 3);
        story.write(&db, 4);
        drop(db);
        story
    }

    fn write(&mut self, db: &Db, number: u64) {
        let first = self.lasts[self.lasts.len() - 1] + 1 + number % 3;
        let mut batch = Batch::new();
        for key in ["a", "b", "c"] {
            batch.merge(key, format!("{number}")).unwrap();
        }
        let mut bytes = batch.bytes();
        bytes[..8].copy_from_slice(&first.to_le_bytes());
        db.write_bytes(&bytes, true).unwrap();
        self.lasts.push(first + 2);
        self.maps.push(map_of(db));
    }

    /// Where the batches of the last log end: after them is the record that a close writes.
    fn end(&self) -> usize {
        self.device.files()["000002.log"].len() - CLOSING
    }

    fn names(&self) -> Vec<String> {
        self.device.files().into_keys().collect()
    }

    fn last(&self) -> u64 {
        self.lasts[self.lasts.len() - 1]
    }
}

#[test]
fn a_base_of_a_snapshot_lets_older_logs_go_and_no_newer_ones() {
    let story = Story::told();
    assert_eq!(story.lasts, [0, 3, 7, 12, 15, 19]);
    let names = ["000001-7.base", "000001.log", "000002.log", "OPERATOR"];
    assert_eq!(story.names(), names);
    let db = open_at(&story.device, 19, &[12, 15, 7]).unwrap();
    for (place, mark) in [(2, 7), (3, 12), (4, 15)] {
        let snapshot = db.take_mark(mark).unwrap();
        assert_eq!(rows_of(&snapshot), story.maps[place]);
        assert!(db.take_mark(mark).is_none());
    }
    // Rows of a base aren't written again, nor those of another one that is newer.
    let now = db.snapshot().unwrap();
    db.checkpoint_to(&now).unwrap();
    let names = ["000003-19.base", "000003.log", "OPERATOR"];
    assert_eq!(story.names(), names);
    let calls = story.device.calls();
    db.checkpoint_to(&now).unwrap();
    assert_eq!(story.device.calls(), calls);
    let other = open_with(&Device::default(), &options()).unwrap();
    let refused = other.checkpoint_to(&now).unwrap_err();
    assert!(matches!(refused, Error::OtherDatabase), "{refused}");
    assert_eq!(db.stats().log_bytes, 0);
}

#[test]
fn what_is_behind_a_sequence_is_given_up_by_the_first_write() {
    let story = Story::told();
    let files = story.device.files();
    for (place, last) in story.lasts.iter().enumerate().skip(2) {
        let device = Device::of(&files);
        let db = open_at(&device, *last, &[]).unwrap();
        assert_eq!(map_of(&db), story.maps[place]);
        assert_eq!(db.snapshot().unwrap().sequence(), *last);
        assert_eq!(device.files(), files);
        db.write_bytes(&Batch::new().put("z", "z").unwrap().bytes(), false)
            .unwrap();
        drop(db);
        let again = open_with(&device, &options()).unwrap();
        assert_eq!(again.snapshot().unwrap().sequence(), last + 1);
        assert_eq!(again.get("z").unwrap(), Some(b"z".to_vec()));
        assert_eq!(
            again.get("a").unwrap(),
            Some(story.maps[place][&b"a"[..]].clone())
        );
    }
}

#[test]
fn a_sequence_that_isnt_the_end_of_a_batch_is_refused_and_nothing_is_changed() {
    let story = Story::told();
    let files = story.device.files();
    let ends = |sequence: &u64| story.lasts[2..].contains(sequence);
    for sequence in (0..25).filter(|sequence| !ends(sequence)) {
        for (last, marks) in [(sequence, vec![]), (19, vec![sequence]), (15, vec![7, 19])] {
            let refused = open_at(&story.device, last, &marks).unwrap_err();
            let Error::NotRecoverable { file, offset, .. } = &refused else {
                panic!("{refused}");
            };
            assert!(*offset <= files[file].len() as u64, "{refused}");
            if marks.is_empty() && sequence < 7 {
                assert_eq!(file, "000001-7.base");
            }
            assert_eq!(story.device.files(), files);
        }
    }
    let said = |last| open_at(&story.device, last, &[]).unwrap_err().to_string();
    let length = story.end();
    assert_eq!(
        said(20),
        format!(
            "000002.log can't be recovered at {length}: the batches end at sequence 19, before 20"
        )
    );
    assert!(said(13).ends_with(": no batch ends at sequence 13: this one ends at 15"));
}

#[test]
fn a_batch_that_was_acknowledged_isnt_given_up() {
    let story = Story::told();
    let files = story.device.files();
    let open = |last, give_up_until| {
        let options = Options {
            recover_to: Some(last),
            give_up_until,
            ..options()
        };
        open_with(&story.device, &options)
    };
    // The last two begin at 13 and 17, the second of them after a gap.
    for (last, until, is_refused) in [
        (12, 13, true),
        (12, 16, true),
        (12, 17, false),
        (15, 16, true),
        (15, 17, false),
        (19, 0, false),
        (7, 10, true),
        (7, 17, false),
    ] {
        match open(last, until) {
            Ok(db) => {
                assert!(!is_refused);
                assert_eq!(db.snapshot().unwrap().sequence(), last);
            }
            Err(Error::NotRecoverable { fault, .. }) => {
                assert!(is_refused, "{last} {until}: {fault}");
                assert!(fault.ends_with("was acknowledged"), "{fault}");
            }
            Err(error) => panic!("{error}"),
        }
        assert_eq!(story.device.files(), files);
    }
}

#[test]
fn each_damaged_byte_of_what_was_acknowledged_is_named() {
    let story = Story::told();
    let files = story.device.files();
    for (name, bytes) in &files {
        let end = match &**name {
            "000002.log" => story.end(),
            _ => bytes.len(),
        };
        for place in 0..end {
            for flipped in [0x01, 0x80, 0xff] {
                let mut damaged = files.clone();
                damaged.get_mut(name).unwrap()[place] ^= flipped;
                let device = Device::of(&damaged);
                match open_at(&device, story.last(), &[7, 12]).unwrap_err() {
                    Error::Damaged { file, offset, .. }
                    | Error::NotRecoverable { file, offset, .. } => {
                        assert_eq!(&file, name);
                        assert!(offset <= place as u64, "{name} {place}: {offset}");
                    }
                    error => panic!("{name} {place}: {error}"),
                }
                assert_eq!(device.files(), damaged);
            }
        }
    }
}

#[test]
fn each_file_that_is_cut_or_missing_is_named() {
    let story = Story::told();
    let files = story.device.files();
    for (name, bytes) in files.iter().filter(|(name, _)| *name != "OPERATOR") {
        let end = match &**name {
            "000002.log" => story.end(),
            _ => bytes.len(),
        };
        for length in 0..end {
            let mut cut = files.clone();
            cut.get_mut(name).unwrap().truncate(length);
            let device = Device::of(&cut);
            match open_at(&device, story.last(), &[]).unwrap_err() {
                Error::Damaged { file, .. } | Error::NotRecoverable { file, .. } => {
                    // Cut between two batches, its neighbour says that some are missing.
                    let is_near = name.ends_with(".log") && file.ends_with(".log");
                    assert!(&file == name || is_near, "{name} {length}: {file}");
                }
                error => panic!("{name} {length}: {error}"),
            }
            assert_eq!(device.files(), cut);
        }
        let mut fewer = files.clone();
        fewer.remove(name);
        // The first log has all that this base has.
        match open_at(&Device::of(&fewer), story.last(), &[]) {
            Ok(db) => assert!(name.ends_with(".base") && map_of(&db) == story.maps[5]),
            Err(error) => assert!(!name.ends_with(".base"), "{name}: {error}"),
        }
    }
}

#[test]
fn a_batch_that_is_missing_before_a_gap_is_noticed() {
    let device = Device::default();
    let db = open_with(&device, &options()).unwrap();
    let mut story = Story {
        device: device.clone(),
        lasts: vec![0],
        maps: vec![],
    };
    let mut ends = vec![0];
    for number in 0..6 {
        story.write(&db, number);
        ends.push(device.files()["000001.log"].len());
    }
    drop(db);
    let files = device.files();
    for pair in ends[..6].windows(2) {
        let mut fewer = files.clone();
        fewer.get_mut("000001.log").unwrap().drain(pair[0]..pair[1]);
        let refused = open_with(&Device::of(&fewer), &options()).unwrap_err();
        let wanted = format!(
            "000001.log is damaged at {}: writes before this are missing",
            pair[0]
        );
        assert_eq!(refused.to_string(), wanted);
    }
}

#[test]
fn a_gap_is_told_across_blocks() {
    // The batch after a gap begins at each of the last bytes of a block.
    for room in 0..60 {
        let device = Device::default();
        let db = open_with(&device, &options()).unwrap();
        let filler = 32_768 - 7 - 12 - 4 - 4 - room;
        db.put("a", vec![1; filler]).unwrap();
        let mut bytes = Batch::new().put("b", vec![2; 40_000]).unwrap().bytes();
        bytes[..8].copy_from_slice(&1000u64.to_le_bytes());
        db.write_bytes(&bytes, true).unwrap();
        db.checkpoint().unwrap();
        db.put("c", "3").unwrap();
        drop(db);
        let db = open_with(&device, &options()).unwrap();
        assert_eq!(db.snapshot().unwrap().sequence(), 1001);
        assert_eq!(map_of(&db).len(), 3);
    }
}

#[test]
fn a_base_keeps_its_last_sequence() {
    for rows in [0, 1, 2, 3000u32] {
        let device = Device::default();
        let db = open_with(&device, &options()).unwrap();
        for row in 0..rows {
            db.put(row.to_be_bytes(), [7; 30]).unwrap();
        }
        let most = 2 * u64::from(rows) + 9;
        while db.snapshot().unwrap().sequence() < most {
            db.put("k", "v").unwrap();
        }
        db.delete("k").unwrap();
        db.checkpoint().unwrap();
        let map = map_of(&db);
        drop(db);
        let db = open_with(&device, &options()).unwrap();
        assert_eq!(db.snapshot().unwrap().sequence(), most + 1);
        assert_eq!(map_of(&db), map);
        // Its end takes a sequence, and no more than that.
        db.put("k", "w").unwrap();
        db.checkpoint().unwrap();
        drop(db);
        assert_eq!(
            map_of(&open_with(&device, &options()).unwrap()).len(),
            map.len() + 1
        );
    }
}

/// A base as older versions write it: its rows alone, and a name without a sequence.
#[test]
fn a_base_of_an_older_version_is_read() {
    let store = Store::create(Operator::Append, &Default::default()).unwrap();
    for number in 0..9 {
        store.put("a", format!("{number}")).unwrap();
    }
    let pieces: Result<Vec<_>, _> = store.view().unwrap().checkpoint().unwrap().collect();
    let log = store
        .prepare(0, Batch::new().put("b", "1").unwrap())
        .unwrap();
    assert_eq!(log_writes(&log).next().unwrap().unwrap().sequence, 10);
    for log in [log, vec![]] {
        let count = 1 + usize::from(!log.is_empty());
        let device = Device::of(&Files::from([
            ("000002.base".into(), pieces.clone().unwrap().concat()),
            ("000002.log".into(), log),
        ]));
        let db = open_with(&device, &options()).unwrap();
        assert_eq!(map_of(&db).len(), count);
        db.put("c", "2").unwrap();
        let snapshot = db.snapshot().unwrap();
        db.checkpoint_to(&snapshot).unwrap();
        assert!(!device.files().contains_key("000002.base"));
        drop(db);
        assert_eq!(
            map_of(&open_with(&device, &options()).unwrap()).len(),
            count + 1
        );
    }
}

#[test]
fn what_is_no_batch_is_refused_before_it_is_logged() {
    let device = Device::default();
    let db = open_with(&device, &options()).unwrap();
    db.put("a", "1").unwrap();
    let files = device.files();
    let whole = Batch::new().put("b", "2").unwrap().bytes();
    for length in 0..whole.len() {
        let refused = db.write_bytes(&whole[..length], true).unwrap_err();
        assert!(matches!(refused, Error::Store(_)), "{refused}");
    }
    let mut back = whole.clone();
    back[0] = 1;
    let refused = db.write_bytes(&back, true).unwrap_err();
    assert_eq!(
        refused.to_string(),
        "sequence number not above the last one"
    );
    back[..8].copy_from_slice(&u64::MAX.to_le_bytes());
    assert!(matches!(db.write_bytes(&back, true), Err(Error::Store(_))));
    db.write_bytes(&Batch::new().bytes(), true).unwrap();
    assert_eq!(device.files(), files);
    db.write_bytes(&whole, true).unwrap();
    assert_eq!(db.snapshot().unwrap().sequence(), 2);
}

#[test]
fn a_log_goes_on_if_no_new_one_can_be_made() {
    let device = Device::default();
    let db = open_with(&device, &options()).unwrap();
    db.put("a", "1").unwrap();
    for _ in 0..2 {
        device.fail(Some(Call::Create), 0, false);
        let now = db.snapshot().unwrap();
        assert!(matches!(db.checkpoint_to(&now), Err(Error::File { .. })));
        device.fail(Some(Call::Create), 0, false);
        assert!(matches!(db.next_log(), Err(Error::File { .. })));
        db.put("b", "2").unwrap();
        assert!(db.failure().is_none());
    }
    assert_eq!(device.files().len(), 2);
    db.checkpoint().unwrap();
    drop(db);
    assert_eq!(map_of(&open_with(&device, &options()).unwrap()).len(), 2);
}

#[test]
fn a_base_of_a_moment_lets_the_logs_before_a_new_one_go() {
    let device = Device::default();
    let db = open_with(&device, &options()).unwrap();
    db.next_log().unwrap();
    db.put("a", "1").unwrap();
    let then = db.snapshot().unwrap();
    db.next_log().unwrap();
    db.next_log().unwrap();
    db.put("b", "2").unwrap();
    db.checkpoint_to(&then).unwrap();
    let names: Vec<_> = device.files().into_keys().collect();
    assert_eq!(names, ["000002-1.base", "000002.log", "OPERATOR"]);
    drop(db);
    let db = open_with(&device, &options()).unwrap();
    assert_eq!(map_of(&db).len(), 2);
    db.close().unwrap();
    assert!(matches!(db.next_log(), Err(Error::Closed)));
}
