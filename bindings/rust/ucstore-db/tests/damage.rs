//! Logs that end anywhere, and files with a damaged byte.
//!
//! A log that was closed ends with a record that says that all before it is on the device.

mod common;

use common::{map_of, open, Call, Device, Map, Numbers};
use std::collections::BTreeMap;
use std::sync::Arc;
use ucstore_db::{Batch, Db, Error, Operator, Options};

type Files = BTreeMap<String, Vec<u8>>;

/// The contents of a database after each batch, and the size of its last log then.
struct Story {
    device: Device,
    maps: Vec<Map>,
    lengths: Vec<usize>,
}

impl Story {
    fn new() -> Story {
        Story {
            device: Device::default(),
            maps: vec![Map::new()],
            lengths: vec![0],
        }
    }

    /// Writes batches after one another.
    fn write(&mut self, keys: &str) {
        self.write_to(&open(&self.device).unwrap(), keys);
    }

    /// Writes batches to a new log, after one that stays.
    fn write_behind(&mut self, keys: &str) {
        let db = open(&self.device).unwrap();
        self.device.fail(Some(Call::Rename), 0, false);
        db.checkpoint().unwrap_err();
        self.write_to(&db, keys);
        drop(db);
        // Files that the checkpoint left are removed.
        open(&self.device).unwrap();
    }

    fn write_to(&mut self, db: &Db, keys: &str) {
        self.write_all(db, keys, false);
    }

    /// Writes batches that are on the device when they are acknowledged.
    fn write_synced_to(&mut self, db: &Db, keys: &str) {
        self.write_all(db, keys, true);
    }

    fn write_all(&mut self, db: &Db, keys: &str, is_synced: bool) {
        for key in keys.chars() {
            let mut batch = Batch::new();
            batch.merge(key.to_string(), "some text").unwrap();
            db.write_with(&batch, is_synced).unwrap();
            self.maps.push(map_of(db));
            let logs = self.device.logs();
            self.lengths.push(logs.values().last().unwrap().len());
        }
    }

    /// The number of batches that make a map, if it is that of some.
    fn count(&self, map: &Map) -> Option<usize> {
        self.maps.iter().position(|held| held == map)
    }
}

/// Opens what is there up to a fault.
fn open_to_fault(device: &Device) -> Result<Db, Error> {
    let options = Options {
        operator: Some(Operator::Append),
        compactors: 0,
        recover_to_fault: true,
        ..Default::default()
    };
    Db::open_on(Arc::new(device.clone()), &options)
}

#[test]
fn a_log_may_end_at_any_byte() {
    let mut story = Story::new();
    story.write("abcab");
    let logs = story.device.logs();
    let (name, log) = logs.iter().next().unwrap();
    for length in 0..=log.len() {
        let torn = Files::from([(name.clone(), log[..length].to_vec())]);
        let device = Device::of(&torn);
        let db = open(&device).unwrap();
        let whole = story
            .lengths
            .iter()
            .rposition(|end| *end <= length)
            .unwrap();
        assert_eq!(map_of(&db), story.maps[whole]);
        // One that was closed stays as it is.
        let kept = match length == log.len() {
            true => length,
            false => story.lengths[whole],
        };
        let (kept, rest) = log[..length].split_at(kept);
        let files = device.files();
        assert_eq!(files[name], kept);
        let lost = files.get("000001.log.lost").map_or(&[][..], |lost| lost);
        assert!(lost == rest || (lost.is_empty() && rest.iter().all(|byte| *byte == 0)));
        assert_eq!(db.stats().set_aside_bytes, lost.len() as u64);
        db.put("z", "more").unwrap();
        drop(db);
        assert_eq!(
            map_of(&open(&device).unwrap()).len(),
            story.maps[whole].len() + 1
        );
    }
}

#[test]
fn a_log_may_end_before_zeros() {
    let mut story = Story::new();
    story.write("ab");
    let mut files = story.device.files();
    files.get_mut("000001.log").unwrap().resize(100_000, 0);
    let device = Device::of(&files);
    let db = open(&device).unwrap();
    assert_eq!(map_of(&db), story.maps[2]);
    assert_eq!(device.files(), story.device.files());
}

/// Damages each byte. The folder isn't opened, or else only what could be a torn end is lost: the batches after a given number.
fn damage_each_byte(story: &Story, kept: usize) {
    let (files, logs) = (story.device.files(), story.device.logs());
    let last_name = logs.keys().next_back().unwrap();
    for (name, bytes) in &files {
        for place in 0..bytes.len() {
            for flipped in [0x01, 0x80, 0xff] {
                let mut damaged = files.clone();
                damaged.get_mut(name).unwrap()[place] ^= flipped;
                let device = Device::of(&damaged);
                let is_end = name == last_name && place >= story.lengths[kept];
                check_damaged(
                    story,
                    &device,
                    &damaged,
                    (name, place),
                    is_end.then_some(kept),
                );
            }
        }
    }
}

/// Opens what is damaged at a place, and finds all before it.
fn check_damaged(
    story: &Story,
    device: &Device,
    files: &Files,
    place: (&String, usize),
    kept: Option<usize>,
) {
    match open(device) {
        Err(Error::Damaged { file, offset, .. }) => {
            assert_eq!(&file, place.0);
            // A fault of a run's table or footer is told at the end of its file.
            let is_end = file.ends_with(".run") && offset == files[&file].len() as u64;
            assert!(
                offset <= place.1 as u64 || is_end,
                "{offset} is behind {place:?}"
            );
            assert_eq!(&device.files(), files);
            let db = open_to_fault(device).unwrap();
            assert!(matches!(db.put("k", "v"), Err(Error::ReadOnly { .. })));
            assert!(story.count(&map_of(&db)).is_some(), "{place:?}");
            drop(db);
            assert_eq!(&device.files(), files);
        }
        Ok(db) => {
            let kept = kept.unwrap_or_else(|| panic!("{place:?} isn't noticed"));
            assert_eq!(map_of(&db), story.maps[kept]);
        }
        Err(error) => panic!("{place:?}: {error}"),
    }
}

#[test]
fn a_damaged_byte_of_a_checkpoint_or_a_log_is_named() {
    let mut story = Story::new();
    story.write("abca");
    open(&story.device).unwrap().checkpoint().unwrap();
    assert_eq!(story.device.logs().len(), 3);
    story.write("dea");
    damage_each_byte(&story, 7);
}

/// Without a closing record the last batch may be one that was still being written.
#[test]
fn a_damaged_byte_that_was_synced_is_named_after_a_killed_process() {
    let mut story = Story::new();
    let db = open(&story.device).unwrap();
    story.write_synced_to(&db, "abcadea");
    story.device = story.device.restarted();
    drop(db);
    assert_eq!(story.device.logs()["000001.log"].len(), story.lengths[7]);
    damage_each_byte(&story, 6);
}

#[test]
fn a_damaged_length_of_a_long_batch_is_named() {
    let mut story = Story::new();
    let db = open(&story.device).unwrap();
    let mut ends = vec![0];
    for number in 0..4u8 {
        let mut batch = Batch::new();
        batch.put([number], vec![7; 50_000]).unwrap();
        db.write_with(&batch, true).unwrap();
        ends.push(story.device.logs()["000001.log"].len());
    }
    story.device = story.device.restarted();
    drop(db);
    let files = story.device.files();
    // The headers of the records of all batches but the last one.
    let blocks = (0..ends[3]).step_by(32_768);
    let begins = ends[..3].iter().copied().chain(blocks);
    for header in begins.filter(|place| *place < ends[3]) {
        for (place, flipped) in (header..header + 7).flat_map(|place| [(place, 1), (place, 0x80)]) {
            let mut damaged = files.clone();
            damaged.get_mut("000001.log").unwrap()[place] ^= flipped;
            let refused = open(&Device::of(&damaged)).unwrap_err();
            assert!(
                matches!(refused, Error::Damaged { .. }),
                "{place}: {refused}"
            );
        }
    }
}

/// A later batch tells it whatever its sequence is.
#[test]
fn damage_before_a_great_gap_is_named() {
    let device = Device::default();
    let db = open(&device).unwrap();
    let mut batch = Batch::new();
    db.write_with(batch.put("a", "1").unwrap(), true).unwrap();
    let mut bytes = batch.bytes();
    bytes[..8].copy_from_slice(&(1u64 << 40).to_le_bytes());
    db.write_bytes(&bytes, true).unwrap();
    let mut files = device.files();
    drop(db);
    assert_eq!(map_of(&open(&Device::of(&files)).unwrap()).len(), 1);
    files.get_mut("000001.log").unwrap()[20] ^= 1;
    let refused = open(&Device::of(&files)).unwrap_err();
    assert!(matches!(refused, Error::Damaged { .. }), "{refused}");
}

#[test]
fn a_damaged_byte_of_an_older_log_is_named() {
    let mut story = Story::new();
    story.write("abca");
    story.write_behind("dea");
    let names: Vec<_> = story.device.files().into_keys().collect();
    assert_eq!(names, ["000001.log", "000002.log", "OPERATOR"]);
    damage_each_byte(&story, 7);
}

#[test]
fn an_older_log_ends_with_a_batch() {
    let mut story = Story::new();
    story.write("abca");
    story.write_behind("dea");
    let files = story.device.files();
    let log = &files["000001.log"];
    for length in 1..log.len() {
        let mut torn = files.clone();
        torn.get_mut("000001.log").unwrap().truncate(length);
        let is_between = story.lengths[..5].contains(&length);
        match open(&Device::of(&torn)).unwrap_err() {
            Error::Damaged { file, offset, .. } if is_between => {
                assert_eq!((&*file, offset), ("000002.log", 0));
            }
            Error::Damaged { file, offset, .. } => {
                assert!(file == "000001.log" && offset < length as u64);
            }
            error => panic!("{error}"),
        }
    }
}

#[test]
fn a_batch_that_is_missing_in_a_log_is_noticed() {
    let mut story = Story::new();
    story.write("abcadea");
    let files = story.device.files();
    for (number, ends) in story.lengths.windows(2).enumerate() {
        let mut fewer = files.clone();
        fewer.get_mut("000001.log").unwrap().drain(ends[0]..ends[1]);
        let device = Device::of(&fewer);
        if number + 2 < story.lengths.len() {
            let begin = ends[0];
            assert_eq!(
                open(&device).unwrap_err().to_string(),
                format!("000001.log is damaged at {begin}: writes before this are missing")
            );
        }
        let map = map_of(&open_to_fault(&device).unwrap());
        assert_eq!(story.maps[number], map);
    }
}

#[test]
fn a_file_that_is_missing_is_named() {
    let mut story = Story::new();
    story.write("ab");
    story.write_behind("c");
    story.write_behind("d");
    let files = story.device.files();
    assert_eq!(files.len(), 4);
    for name in ["000001.log", "000002.log"] {
        let mut fewer = files.clone();
        fewer.remove(name);
        let device = Device::of(&fewer);
        let error = open(&device).unwrap_err();
        assert_eq!(error.to_string(), format!("{name} isn't there"));
        assert_eq!(device.files(), fewer);
    }
    let device = Device::of(&files);
    open(&device).unwrap().checkpoint().unwrap();
    let mut fewer = device.files();
    assert_eq!(
        fewer.keys().collect::<Vec<_>>(),
        ["000001.run", "000004-4.runs", "000004.log", "OPERATOR"]
    );
    fewer.remove("000004.log");
    assert!(matches!(
        open(&Device::of(&fewer)),
        Err(Error::Missing { .. })
    ));
}

#[test]
fn other_files_stay() {
    let files = Files::from([("notes.txt".to_string(), b"mine".to_vec())]);
    let device = Device::of(&files);
    let db = open(&device).unwrap();
    db.put("a", "1").unwrap();
    db.checkpoint().unwrap();
    drop(db);
    assert_eq!(
        map_of(&open(&device.crash(&mut Numbers(1))).unwrap()).len(),
        1
    );
    assert_eq!(device.files()["notes.txt"], b"mine");
}
