//! Ends of logs that a crash leaves: holes, lengths without contents, and values that look like logs.

mod common;

use common::{map_of, open, seed, Call, Device, Map, Numbers};
use std::collections::BTreeMap;
use std::sync::{Arc, Mutex};
use std::time::{Duration, Instant};
use ucstore_db::ucstore::Store;
use ucstore_db::{Batch, Db, Error, Event, Listener, Operator, Options};

type Files = BTreeMap<String, Vec<u8>>;

const LOG: &str = "000001.log";
const PAGE: usize = 4096;

/// The files of a killed process, and where each batch ends. Batch N puts a value under the key N.
struct Killed {
    files: Files,
    ends: Vec<usize>,
}

impl Killed {
    /// Of which the batches are synced that are named so.
    fn new(values: &[Vec<u8>], is_synced: impl Fn(usize) -> bool) -> Killed {
        let device = Device::default();
        let db = open(&device).unwrap();
        let mut ends = vec![0];
        for (number, value) in values.iter().enumerate() {
            let mut batch = Batch::new();
            batch.put([number as u8], value).unwrap();
            db.write_with(&batch, is_synced(number)).unwrap();
            ends.push(device.files()[LOG].len());
        }
        let files = device.files();
        Killed { files, ends }
    }

    /// The files with bytes of the log that are something else.
    fn with(&self, change: impl FnOnce(&mut Vec<u8>)) -> Files {
        let mut files = self.files.clone();
        change(files.get_mut(LOG).unwrap());
        files
    }

    /// The log without a page.
    fn without_page(&self, page: usize) -> Files {
        self.with(|log| {
            let end = log.len().min((page + 1) * PAGE);
            log[page * PAGE..end].fill(0);
        })
    }

    /// The batches that are whole before a place.
    fn whole_before(&self, place: usize) -> usize {
        self.ends.iter().rposition(|end| *end <= place).unwrap()
    }
}

/// The number of rows, and what was set aside.
fn opened(files: &Files) -> Result<(Map, Files), Error> {
    let device = Device::of(files);
    let map = map_of(&open(&device)?);
    let mut lost = device.files();
    lost.retain(|name, _| name.contains(".lost"));
    // It is the same when it is opened again.
    assert_eq!(map_of(&open(&device)?), map);
    Ok((map, lost))
}

#[test]
fn a_page_that_was_not_written_ends_an_unsynced_log() {
    let killed = Killed::new(&vec![vec![7; 1000]; 200], |_| false);
    let log = &killed.files[LOG];
    for page in 0..log.len() / PAGE {
        let files = killed.without_page(page);
        let (map, lost) = opened(&files).unwrap();
        let whole = killed.whole_before(page * PAGE);
        assert_eq!(map.len(), whole, "page {page}");
        assert_eq!(lost["000001.log.lost"], files[LOG][killed.ends[whole]..]);
    }
}

#[test]
fn a_page_that_was_synced_is_damage_where_a_later_record_says_so() {
    let killed = Killed::new(&vec![vec![7; 1000]; 200], |number| number == 99);
    let synced = killed.ends[100];
    for page in 0..killed.files[LOG].len() / PAGE {
        let files = killed.without_page(page);
        let whole = killed.whole_before(page * PAGE);
        match opened(&files) {
            Ok((map, _)) => assert!(killed.ends[whole] >= synced && map.len() == whole),
            Err(Error::Damaged { file, offset, .. }) => {
                assert!(file == LOG && offset as usize <= (page + 1) * PAGE);
                assert!(killed.ends[whole] < synced, "page {page}");
            }
            Err(error) => panic!("{error}"),
        }
    }
}

#[test]
fn a_hole_in_the_last_record_is_torn_though_all_were_synced() {
    let killed = Killed::new(&vec![vec![7; 100_000]; 3], |_| true);
    let last = killed.ends[2];
    for unit in [512, PAGE] {
        for page in last.div_ceil(unit)..killed.ends[3].div_ceil(unit) {
            let files = killed.with(|log| {
                let end = log.len().min((page + 1) * unit);
                log[page * unit..end].fill(0);
            });
            let (map, lost) = opened(&files).unwrap();
            assert_eq!(map.len(), 2, "page {page} of {unit}");
            assert_eq!(lost.len(), 1);
        }
    }
}

/// Where nothing was written, a device may show what an older file had there: batches of the same log, and of others.
#[test]
fn older_batches_after_the_end_are_no_damage() {
    let killed = Killed::new(&vec![vec![7; 200]; 60], |_| false);
    let log = &killed.files[LOG];
    for count in [1, 7, 30] {
        let end = killed.ends[count];
        let batch = |number: usize| &log[killed.ends[number]..killed.ends[number + 1]];
        for (from, to) in [(0, 1), (0, 60), (count + 1, 60), (count + 5, count + 6)] {
            let stale: Vec<u8> = (from..to).flat_map(batch).copied().collect();
            let files = killed.with(|log| {
                log.truncate(end);
                log.extend(stale);
            });
            assert_eq!(opened(&files).unwrap().0.len(), count, "{from} to {to}");
        }
    }
}

/// A new log after a base may begin with what an older one began with.
#[test]
fn older_batches_at_the_start_of_a_log_are_no_damage() {
    let device = Device::default();
    let db = open(&device).unwrap();
    for key in 0..5u8 {
        db.put([key], [7; 30]).unwrap();
    }
    let older = device.files()[LOG].clone();
    db.checkpoint().unwrap();
    drop(db);
    let mut files = device.files();
    files.insert("000002.log".into(), older[..older.len() / 2].to_vec());
    let device = Device::of(&files);
    let db = open(&device).unwrap();
    assert_eq!(map_of(&db).len(), 5);
    let mut batch = Batch::new();
    db.write_with(batch.put("more", "value").unwrap(), true)
        .unwrap();
    let again = open(&device.crash(&mut Numbers(1))).unwrap();
    assert_eq!(map_of(&again).len(), 6);
}

#[test]
fn any_bytes_after_the_end_are_cut_off() {
    let killed = Killed::new(&vec![vec![7; 200]; 60], |_| true);
    let mut numbers = Numbers(seed(21));
    for _ in 0..300 {
        let most = 1 << numbers.below(18);
        let length = 1 + numbers.below(most);
        let garbage: Vec<u8> = (0..length).map(|_| numbers.below(256) as u8).collect();
        let (map, lost) = opened(&killed.with(|log| log.extend(&garbage))).unwrap();
        assert_eq!(map.len(), 60);
        let is_zero = garbage.iter().all(|byte| *byte == 0);
        assert_eq!(
            lost.get("000001.log.lost"),
            Some(&garbage).filter(|_| !is_zero)
        );
    }
}

#[test]
fn a_length_without_contents_is_cut_off_and_nothing_is_set_aside() {
    let killed = Killed::new(&vec![vec![7; 100]; 3], |_| true);
    let files = killed.with(|log| log.resize(log.len() + 70_000, 0));
    let (map, lost) = opened(&files).unwrap();
    assert!(map.len() == 3 && lost.is_empty());
    let empty = Files::from([(LOG.into(), vec![0; 70_000])]);
    let (map, lost) = opened(&empty).unwrap();
    assert!(map.is_empty() && lost.is_empty());
}

/// The events of bytes that were set aside.
type Told = Arc<Mutex<Vec<(String, u64)>>>;

/// Options with such a listener.
fn told_options() -> (Told, Options) {
    let told = Told::default();
    let seen = told.clone();
    let events = Listener::new(move |event: &Event| {
        if let Event::SetAside { file, bytes } = event {
            seen.lock().unwrap().push((file.clone(), *bytes));
        }
    });
    let options = Options {
        compactors: 0,
        events: Some(events),
        ..Default::default()
    };
    (told, options)
}

#[test]
fn what_is_set_aside_is_told_and_stays() {
    let killed = Killed::new(&vec![vec![7; 100]; 3], |_| false);
    let (told, options) = told_options();
    let device = Device::of(&killed.with(|log| log[150] ^= 1));
    let first = Db::open_on(Arc::new(device.clone()), &options).unwrap();
    let bytes = first.stats().set_aside_bytes;
    assert_eq!(bytes as usize, killed.ends[3] - killed.ends[1]);
    assert_eq!(
        told.lock().unwrap()[..],
        [("000001.log.lost".into(), bytes)]
    );
    first.put("more", "value").unwrap();
    drop(first);
    // Another crash tears the log again: what was set aside before stays.
    let mut files = device.files();
    let log = files.get_mut(LOG).unwrap();
    let end = log.len();
    log[end - 30..].fill(9);
    let device = Device::of(&files);
    let second = Db::open_on(Arc::new(device.clone()), &options).unwrap();
    let found = device.files();
    assert_eq!(found["000001.log.lost"], files["000001.log.lost"]);
    let again = second.stats().set_aside_bytes as usize;
    assert_eq!(found["000001-2.log.lost"], files[LOG][end - again..]);
    assert_eq!(told.lock().unwrap().len(), 2);
    // A checkpoint leaves both.
    second.checkpoint().unwrap();
    let left = device.files();
    assert_eq!(left.keys().filter(|name| name.contains(".lost")).count(), 2);
}

/// A log of another database: a batch of a sequence that may follow in this one.
fn log_from(sequence: u64) -> Vec<u8> {
    let store = Store::create(Operator::Append, &Default::default()).unwrap();
    let mut bytes = Batch::new().put("x", "y").unwrap().bytes();
    bytes[..8].copy_from_slice(&sequence.to_le_bytes());
    store.prepare_bytes(0, &bytes).unwrap()
}

#[test]
fn a_value_that_holds_a_log_makes_a_torn_end_no_damage() {
    for sequence in [2, 3, 4, 1 << 40] {
        let value = log_from(sequence).repeat(40);
        let killed = Killed::new(&[vec![1], value], |_| true);
        for cut in (1..killed.ends[2] - killed.ends[1]).step_by(7) {
            let (map, _) = opened(&killed.with(|log| {
                let end = log.len() - cut;
                log.truncate(end);
            }))
            .unwrap();
            assert_eq!(map.len(), 1);
            // Its length is there, and its last bytes aren't.
            let (map, _) = opened(&killed.with(|log| {
                let end = log.len();
                log[end - cut..].fill(0);
            }))
            .unwrap();
            assert_eq!(map.len(), 1);
        }
    }
}

/// A header of a record that takes the rest of a block, and the sequence of a batch that may follow.
fn header_like(sequence: u64) -> Vec<u8> {
    let mut bytes = vec![1, 2, 3, 4, 0x00, 0x10, 1];
    bytes.extend(sequence.to_le_bytes());
    bytes
}

#[test]
fn a_torn_end_of_any_bytes_is_passed_over_quickly() {
    let contents = [
        vec![0x01],
        b"some text".to_vec(),
        vec![0, 0, 0, 0, 0xf0, 0x7f, 1],
        vec![0x7f, 0x01],
        header_like(2),
        header_like(3),
        log_from(2),
    ];
    for content in contents {
        let value = content.iter().copied().cycle().take(4 << 20).collect();
        let killed = Killed::new(&[vec![1], value], |_| true);
        let files = killed.with(|log| log.truncate(killed.ends[2] - 1));
        let begun = Instant::now();
        assert_eq!(map_of(&open(&Device::of(&files)).unwrap()).len(), 1);
        let took = begun.elapsed();
        assert!(took < Duration::from_secs(15), "{content:?}: {took:?}");
    }
}

/// A log of this version is judged by its marks alone: other batches after its end are of older files.
#[test]
fn a_log_without_marks_after_the_end_is_no_damage() {
    let killed = Killed::new(&vec![vec![7; 100]; 3], |_| true);
    for stale in [log_from(4), log_from(5), log_from(6).repeat(9)] {
        let (map, lost) = opened(&killed.with(|log| {
            let end = killed.ends[3];
            log[end - 1] ^= 1;
            log.extend(&stale);
        }))
        .unwrap();
        assert!(map.len() == 2 && lost.len() == 1);
    }
}

/// Logs of older versions have no marks: a fault in the last one ends it, unless a whole batch is after that.
#[test]
fn a_log_without_marks_is_read_as_well_as_it_can_be() {
    let store = Store::create(Operator::Append, &Default::default()).unwrap();
    let (mut log, mut ends) = (vec![], vec![0]);
    for number in 0..3u8 {
        let mut batch = Batch::new();
        batch.put([number], vec![7; 5000]).unwrap();
        log.extend(store.prepare(log.len() as u64, &batch).unwrap());
        store.commit();
        ends.push(log.len());
    }
    let killed = Killed {
        files: Files::from([(LOG.into(), log)]),
        ends,
    };
    assert_eq!(opened(&killed.files).unwrap().0.len(), 3);
    let torn = killed.with(|log| log[killed.ends[2] + 600..killed.ends[2] + 1100].fill(0));
    assert_eq!(opened(&torn).unwrap().0.len(), 2);
    let damaged = killed.with(|log| log[killed.ends[1] + 600] = 0);
    let refused = opened(&damaged).unwrap_err();
    assert!(matches!(refused, Error::Damaged { .. }), "{refused}");
    // It goes on with marks.
    let device = Device::of(&killed.files);
    let db = open(&device).unwrap();
    let mut batch = Batch::new();
    db.write_with(batch.put("more", "value").unwrap(), true)
        .unwrap();
    db.write_with(&batch, true).unwrap();
    let mut files = device.files();
    drop(db);
    files.get_mut(LOG).unwrap()[killed.ends[2] + 600] ^= 1;
    assert!(matches!(opened(&files), Err(Error::Damaged { .. })));
}

#[test]
fn a_log_that_was_closed_stays_as_it_is_and_goes_on() {
    let device = Device::default();
    let db = open(&device).unwrap();
    let mut map = Map::new();
    for key in 0..9u8 {
        db.put([key], [7; 99]).unwrap();
        map.insert(vec![key], vec![7; 99]);
        let live = device.files()[LOG].len();
        assert_eq!(db.stats().log_bytes, live as u64);
    }
    drop(db);
    let closed = device.files();
    for _ in 0..3 {
        let db = open(&device).unwrap();
        assert_eq!(map_of(&db), map);
        drop(db);
        assert_eq!(device.files(), closed);
    }
    let db = open(&device).unwrap();
    let before = db.stats().log_bytes;
    db.put("more", "value").unwrap();
    map.insert(b"more".to_vec(), b"value".to_vec());
    assert!(device.files()[LOG][..before as usize] == closed[LOG][..before as usize]);
    drop(db);
    assert_eq!(map_of(&open(&device).unwrap()), map);
}

/// A closing record that its process didn't sync, in front of a log that goes on.
#[test]
fn a_closing_record_that_is_torn_later_makes_no_older_log_damaged() {
    let killed = Killed::new(&vec![vec![7; 100]; 3], |_| true);
    for seed in 0..40 {
        let device = Device::of(&killed.files);
        drop(open(&device).unwrap());
        let db = open(&device).unwrap();
        device.fail(Some(Call::Rename), 0, false);
        db.checkpoint().unwrap_err();
        db.put("more", "value").unwrap();
        db.sync().unwrap();
        let crashed = device.crash(&mut Numbers(seed));
        assert_eq!(map_of(&open(&crashed).unwrap()).len(), 4);
    }
}
