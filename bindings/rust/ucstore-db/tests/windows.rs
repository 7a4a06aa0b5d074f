//! Files are read piece by piece: an opening takes little memory beside its data's.

mod common;

use common::{is_long, map_of, open, seed, Around, Device, Map, Numbers, Over};
use std::collections::BTreeMap;
use std::io;
use std::sync::atomic::{AtomicUsize, Ordering};
use std::sync::Arc;
use ucstore_db::{Batch, Db, Folder, Options, Sync};

/// A device that is asked for pieces, and notes the greatest.
#[derive(Clone, Default)]
struct Pieces {
    device: Device,
    greatest: Arc<AtomicUsize>,
}

impl Around for Pieces {
    fn device(&self) -> &Device {
        &self.device
    }

    fn read(&self, name: &str) -> io::Result<Vec<u8>> {
        assert_eq!(name, "OPERATOR");
        self.device.read(name)
    }

    fn read_at(&self, name: &str, offset: u64, length: usize) -> io::Result<Vec<u8>> {
        self.greatest.fetch_max(length, Ordering::SeqCst);
        self.device.read_at(name, offset, length)
    }
}

fn options() -> Options {
    Options {
        compactors: 0,
        sync: Sync::Never,
        checkpoint_least: u64::MAX,
        ..Default::default()
    }
}

/// A base of some MiB and a log of as many, whose process is killed.
fn filled() -> (Device, Map) {
    let device = Device::default();
    let db = Db::open_on(Arc::new(device.clone()), &options()).unwrap();
    let put = |from: u32, to: u32, length: usize| {
        for row in from..to {
            let mut batch = Batch::new();
            batch
                .put(row.to_be_bytes(), vec![row as u8; length])
                .unwrap();
            db.write_with(&batch, row % 50 == 0).unwrap();
        }
    };
    put(0, 3000, 1000);
    db.checkpoint().unwrap();
    put(3000, 3400, 10_000);
    put(3400, 3402, 1_500_000);
    put(3402, 3410, 40_000);
    let map = map_of(&db);
    (device.restarted(), map)
}

#[test]
fn a_file_is_read_in_pieces_of_a_mebibyte() {
    let (device, map) = filled();
    let sizes: usize = device.logs().values().map(Vec::len).sum();
    assert!(sizes > 9 << 20);
    let pieces = Pieces {
        device,
        ..Default::default()
    };
    let db = Db::open_on(Arc::new(Over(pieces.clone())), &options()).unwrap();
    assert_eq!(map_of(&db), map);
    db.checkpoint().unwrap();
    drop(db);
    assert_eq!(pieces.greatest.load(Ordering::SeqCst), 1 << 20);
    assert_eq!(map_of(&open(&pieces.device).unwrap()), map);
}

/// Faults are found in each window as in the first one.
#[test]
fn a_log_may_end_in_any_window() {
    let (device, map) = filled();
    let files = device.files();
    let length = files["000002.log"].len();
    let ends: Vec<usize> = (0..length).step_by(397_001).collect();
    let mut rows = 3000;
    for end in ends {
        for is_zero in [false, true] {
            let mut torn = files.clone();
            let log = torn.get_mut("000002.log").unwrap();
            match is_zero {
                false => log.truncate(end),
                true => log[end..].fill(0),
            }
            let found = map_of(&open(&Device::of(&torn)).unwrap());
            assert!(found.len() >= rows && found.len() <= map.len());
            assert!(found.iter().all(|(key, value)| map[key] == *value));
            rows = found.len();
        }
    }
    assert!(rows > 3300);
}

/// The length of a window in bytes.
const WINDOW: usize = 1 << 20;

/// A log of which a batch ends a number of bytes before its first window does, and other batches follow.
fn ended_before_window(left: usize) -> (Device, Map) {
    let device = Device::default();
    let db = Db::open_on(Arc::new(device.clone()), &options()).unwrap();
    // Returns the log's length after it.
    let put = |key: &str, length: usize| {
        let mut batch = Batch::new();
        batch.put(key, vec![7; length]).unwrap();
        db.write_with(&batch, true).unwrap();
        device.files()["000001.log"].len()
    };
    let first = put("a", WINDOW - 12_000);
    let second = put("b", 1_000);
    let end = WINDOW - left;
    let overhead = second - first - 1_000;
    assert_eq!(put("c", end - second - overhead), end);
    put("d", 10);
    put("e", 2_000);
    let map = map_of(&db);
    (device.restarted(), map)
}

/// The next window begins with the next block then, which is after the end of the batch.
#[test]
fn a_batch_may_end_in_the_last_bytes_of_a_window() {
    for left in 0..=8 {
        let (device, map) = ended_before_window(left);
        let log = device.files()["000001.log"].clone();
        let db = open(&device.restarted()).unwrap();
        assert_eq!(map_of(&db), map, "{left}");
        drop(db);

        // A base that has all of the log is passed over to the last batch.
        let db = Db::open_on(Arc::new(device.clone()), &options()).unwrap();
        db.checkpoint_to(&db.snapshot().unwrap()).unwrap();
        drop(db);
        let files = device.files();
        let base = files.keys().find(|name| name.ends_with(".base")).unwrap();
        assert_eq!(base, "000002-5.base");
        let mut beside = files.clone();
        beside.retain(|name, _| name == "OPERATOR");
        beside.insert("000001-5.base".into(), files[base].clone());
        beside.insert("000001.log".into(), log.clone());
        assert_eq!(map_of(&open(&Device::of(&beside)).unwrap()), map, "{left}");

        // Batches that are given up are walked over.
        beside.remove("000001-5.base");
        let options = Options {
            recover_to: Some(2),
            give_up_until: u64::MAX,
            ..options()
        };
        let db = Db::open_on(Arc::new(Device::of(&beside)), &options).unwrap();
        assert_eq!(map_of(&db).len(), 2, "{left}");
    }
}

const BLOCK: usize = 32 * 1024;

/// A drawn log of some windows, of which many batches end next to the end of a block or of a window; and where each batch ends.
fn drawn(numbers: &mut Numbers) -> (BTreeMap<String, Vec<u8>>, Vec<usize>) {
    let device = Device::default();
    let db = Db::open_on(Arc::new(device.clone()), &options()).unwrap();
    let mut ends = vec![0];
    let mut put = |length: usize| {
        let mut batch = Batch::new();
        let key = (ends.len() as u32).to_be_bytes();
        batch.put(key, vec![7; length]).unwrap();
        db.write_with(&batch, true).unwrap();
        let end = device.files()["000001.log"].len();
        let begin = ends.last().copied().unwrap();
        ends.push(end);
        (begin, end)
    };
    loop {
        let (begin, end) = put(200 + numbers.below(60_000) as usize);
        if begin > 2 * WINDOW {
            break;
        }
        // One takes as many bytes beside its value as another of about its length in the same block.
        let (_, next) = put(300);
        let overhead = next - end - 300;
        let unit = if numbers.below(3) == 0 { WINDOW } else { BLOCK };
        let wanted = next.next_multiple_of(unit) - numbers.below(10) as usize;
        let headers = 7 * (wanted / BLOCK).saturating_sub(next / BLOCK);
        if let Some(length) = wanted.checked_sub(next + overhead + headers) {
            put(length.max(1));
        }
    }
    (device.files(), ends)
}

/// A log is found up to the batch before its end, wherever that is, and what else a crash left there.
#[test]
fn drawn_logs_are_read_in_windows() {
    let mut numbers = Numbers(seed(77));
    let mut near = 0;
    for _ in 0..if is_long() { 100 } else { 8 } {
        let (files, ends) = drawn(&mut numbers);
        let log = &files["000001.log"];
        assert_eq!(
            map_of(&open(&Device::of(&files)).unwrap()).len(),
            ends.len() - 1
        );
        let is_near = |end: &&usize| (1..7).contains(&(end.next_multiple_of(WINDOW) - *end));
        near += ends.iter().filter(is_near).count();
        for _ in 0..12 {
            let unit = if numbers.below(2) == 0 { WINDOW } else { BLOCK };
            let near_unit = numbers.below((log.len() / unit) as u64 + 1) as usize * unit + 10;
            let place = match numbers.below(3) {
                0 => numbers.below(log.len() as u64) as usize,
                _ => near_unit
                    .saturating_sub(numbers.below(20) as usize)
                    .min(log.len()),
            };
            let mut left = files.clone();
            let torn = left.get_mut("000001.log").unwrap();
            match numbers.below(3) {
                0 => torn.truncate(place),
                1 => torn[place..].fill(0),
                _ => torn[place..].fill_with(|| numbers.below(256) as u8),
            }
            let found = map_of(&open(&Device::of(&left)).unwrap()).len();
            let whole = ends.iter().filter(|end| **end <= place).count() - 1;
            assert_eq!(found, whole, "{place} of {}", log.len());
        }
        let wanted = numbers.below(ends.len() as u64 - 1) + 1;
        let options = Options {
            recover_to: Some(wanted),
            give_up_until: u64::MAX,
            ..options()
        };
        let db = Db::open_on(Arc::new(Device::of(&files)), &options).unwrap();
        assert_eq!(map_of(&db).len() as u64, wanted);
    }
    assert!(near > 0);
}

/// A hole of many windows, and a batch after it that was synced. It is found by the record before it, at the start of its block.
#[test]
fn a_batch_after_a_long_hole_tells_damage() {
    let device = Device::default();
    let db = open(&device).unwrap();
    db.put("a", "1").unwrap();
    let begin = device.files()["000001.log"].len();
    db.put("long", vec![7; 3 << 20]).unwrap();
    let end = device.files()["000001.log"].len();
    let end = end - end % 32_768;
    let mut batch = Batch::new();
    for _ in 0..2 {
        db.write_with(batch.put("b", "2").unwrap(), true).unwrap();
    }
    let mut files = device.files();
    files.get_mut("000001.log").unwrap()[begin + 9..end].fill(0);
    let refused = open(&Device::of(&files)).unwrap_err().to_string();
    assert!(refused.starts_with("000001.log is damaged at"), "{refused}");
    files.get_mut("000001.log").unwrap()[begin..end].fill(0);
    let refused = open(&Device::of(&files)).unwrap_err().to_string();
    assert!(refused.starts_with("000001.log is damaged at"), "{refused}");
    // Without the last two it is what a crash leaves.
    files.get_mut("000001.log").unwrap()[end..].fill(0);
    assert_eq!(map_of(&open(&Device::of(&files)).unwrap()).len(), 1);
}
