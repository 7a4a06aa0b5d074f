//! Databases that are parts of something greater, whose log says which batches are acknowledged: they are recovered to a sequence, with
//! snapshots at marks, and their bases are those of snapshots.

mod common;

use common::{is_long, map_of, seed, Call, Device, Histories, History, Map, Numbers};
use std::collections::BTreeMap;
use std::sync::Arc;
use ucstore_db::{Batch, Db, Error, Operator, Options, Snapshot, Sync};

/// The options of a part's openings, without threads.
fn options() -> Options {
    let mut options = Options {
        operator: Some(Operator::Append),
        compactors: 0,
        sync: Sync::Never,
        checkpoint_least: u64::MAX,
        ..Default::default()
    };
    options.store.write_buffer_size = 16;
    options
}

fn open_with(device: &Device, options: &Options) -> Result<Db, Error> {
    Db::open_on(Arc::new(device.clone()), options)
}

/// Opens what was acknowledged up to a sequence, with snapshots.
fn open_at(device: &Device, last: u64, marks: &[u64]) -> Result<Db, Error> {
    let options = Options {
        recover_to: Some(last),
        marks: marks.to_vec(),
        ..options()
    };
    open_with(device, &options)
}

/// All that a snapshot has.
fn rows_of(snapshot: &Snapshot) -> Map {
    snapshot.iter().unwrap().map(Result::unwrap).collect()
}

/// A batch of a history that begins at a sequence, and its last one.
fn bytes_at(history: &History, place: usize, first: u64) -> (Vec<u8>, u64) {
    let mut bytes = history.batch(place).bytes();
    bytes[..8].copy_from_slice(&first.to_le_bytes());
    (bytes, first + history.batch(place).len() as u64 - 1)
}

/// A change of a part.
#[derive(Clone, Copy, Debug)]
enum Step {
    /// The next batch, so far after the last one.
    Write(u64),
    /// A batch that isn't acknowledged, after which the part is opened again.
    Lose(u64),
    Keep,
    /// One of the snapshots, if there are any.
    Release(usize),
    /// A base of the oldest snapshot, or of now.
    Cut,
    NextLog,
    Compact,
    Reopen,
}

impl Step {
    fn drawn(numbers: &mut Numbers) -> Step {
        match numbers.below(17) {
            0..=6 => Step::Write(1 + numbers.below(3)),
            7 => Step::Lose(1 + numbers.below(3)),
            8..=9 => Step::Keep,
            10 => Step::Release(numbers.below(8) as usize),
            11..=12 => Step::Cut,
            13 => Step::Compact,
            14 => Step::NextLog,
            _ => Step::Reopen,
        }
    }
}

/// The progress of a part, and its mark in another log.
#[derive(Default)]
struct Part {
    /// The last sequence after each batch that was acknowledged; first after none.
    lasts: Vec<u64>,
    /// The number of batches before each snapshot.
    kept: Vec<usize>,
    snapshots: Vec<Snapshot>,
    db: Option<Db>,
}

impl Part {
    /// Takes steps up to the first call that is refused. A base may be.
    fn run(device: &Device, history: &History, steps: &[Step]) -> (Part, Option<Error>) {
        let mut part = Part {
            lasts: vec![0],
            ..Default::default()
        };
        let mut error = None;
        let outcome = part.open(device).and_then(|()| {
            let mut steps = steps.iter();
            steps.try_for_each(|step| part.take(device, history, *step, &mut error))
        });
        let error = outcome.err().or(error);
        (part, error)
    }

    fn last(&self) -> u64 {
        self.lasts[self.lasts.len() - 1]
    }

    fn marks(&self) -> Vec<u64> {
        self.kept.iter().map(|place| self.lasts[*place]).collect()
    }

    /// Opens it as it was acknowledged, with its snapshots.
    fn open(&mut self, device: &Device) -> Result<(), Error> {
        self.db = None;
        self.snapshots.clear();
        let db = open_at(device, self.last(), &self.marks())?;
        for mark in self.marks() {
            let again = || {
                let equal = self.snapshots.iter().find(|it| it.sequence() == mark);
                equal.expect("two at one mark").again().unwrap()
            };
            let taken = db.take_mark(mark).unwrap_or_else(again);
            self.snapshots.push(taken);
        }
        self.db = Some(db);
        Ok(())
    }

    fn take(
        &mut self,
        device: &Device,
        history: &History,
        step: Step,
        error: &mut Option<Error>,
    ) -> Result<(), Error> {
        let db = self.db.clone().expect("a database");
        let next = self.lasts.len() - 1;
        match step {
            Step::Write(..) | Step::Lose(..) if next + 1 == history.maps.len() => {}
            Step::Write(gap) => {
                let (bytes, last) = bytes_at(history, next, self.last() + gap);
                db.write_bytes(&bytes, true)?;
                self.lasts.push(last);
            }
            Step::Lose(gap) => {
                let (bytes, _) = bytes_at(history, next, self.last() + gap);
                db.write_bytes(&bytes, gap == 1)?;
                db.close()?;
                self.open(device)?;
            }
            Step::Keep => {
                self.snapshots.push(db.snapshot()?);
                self.kept.push(next);
            }
            Step::Release(place) if place < self.kept.len() => {
                self.snapshots.swap_remove(place);
                self.kept.swap_remove(place);
            }
            Step::Release(_) => {}
            Step::Cut => {
                let now = db.snapshot()?;
                let all = self.snapshots.iter().chain([&now]);
                let oldest = all.min_by_key(|it| it.sequence()).expect("one of now");
                match db.checkpoint_to(oldest) {
                    Err(refused @ Error::File { .. }) => drop(error.get_or_insert(refused)),
                    outcome => outcome?,
                }
            }
            Step::NextLog => match db.next_log() {
                Err(refused @ Error::File { .. }) => drop(error.get_or_insert(refused)),
                outcome => outcome?,
            },
            Step::Compact => db.compact()?,
            Step::Reopen => {
                db.close()?;
                self.open(device)?;
            }
        }
        Ok(())
    }

    /// Opens a device, which has what was acknowledged and the snapshots. It changes nothing before the first write.
    fn check(&self, history: &History, device: &Device) {
        let before = device.files();
        let db = open_at(device, self.last(), &self.marks()).unwrap();
        let map = &history.maps[self.lasts.len() - 1];
        assert_eq!(&map_of(&db), map);
        for place in &self.kept {
            if let Some(mark) = db.take_mark(self.lasts[*place]) {
                assert_eq!(rows_of(&mark), history.maps[*place]);
            }
        }
        db.close().unwrap();
        let after = device.files();
        // A new folder gets its first log.
        if before.keys().any(|name| name.ends_with(".log")) {
            assert_eq!(after, before);
        }
        drop(db);
        let db = open_at(device, self.last(), &[]).unwrap();
        let mut more = Batch::new().put("z", "more").unwrap().bytes();
        more[..8].copy_from_slice(&(self.last() + 3).to_le_bytes());
        db.write_bytes(&more, true).unwrap();
        drop(db);
        let after = device.files();
        let again = open_with(device, &options()).unwrap();
        assert_eq!(again.snapshot().unwrap().sequence(), self.last() + 3);
        let mut map = map.clone();
        map.insert(b"z".to_vec(), b"more".to_vec());
        assert_eq!(map_of(&again), map);
        assert_eq!(device.files(), after);
    }
}

fn draw(numbers: &mut Numbers) -> (History, Vec<Step>) {
    let mut histories = Histories {
        batches: 12,
        numbers: Numbers(numbers.below(1 << 31)),
    };
    let steps = (0..30).map(|_| Step::drawn(numbers)).collect();
    (histories.next(), steps)
}

#[test]
fn a_crash_at_any_call_loses_nothing_that_was_acknowledged() {
    let mut numbers = Numbers(seed(11));
    for _ in 0..if is_long() { 200 } else { 10 } {
        let (history, steps) = draw(&mut numbers);
        let whole = Device::default();
        let (part, error) = Part::run(&whole, &history, &steps);
        assert!(error.is_none(), "{error:?}");
        drop(part);
        for call in 0..=whole.calls().0 {
            let device = Device::default();
            device.fail(None, call, true);
            let (mut part, _) = Part::run(&device, &history, &steps);
            part.db = None;
            part.snapshots.clear();
            for _ in 0..3 {
                part.check(&history, &device.crash(&mut numbers));
            }
        }
    }
}

#[test]
fn a_fault_of_the_device_is_told_and_loses_nothing() {
    let mut numbers = Numbers(seed(12));
    for _ in 0..if is_long() { 40 } else { 3 } {
        let (history, steps) = draw(&mut numbers);
        for (call, lasts) in Call::ALL.map(|call| [(call, false), (call, true)]).concat() {
            for left in 0.. {
                let device = Device::default();
                device.fail(Some(call), left, lasts);
                let (mut part, error) = Part::run(&device, &history, &steps);
                if device.calls().1 == 0 {
                    break;
                }
                // A log without a second handle, or without its closing record, has all that it needs.
                let is_passed_over = matches!(call, Call::Open | Call::Append | Call::Cut);
                assert!(error.is_some() || is_passed_over, "{call:?} {left}");
                part.db = None;
                part.snapshots.clear();
                part.check(&history, &device.restarted());
                part.check(&history, &device.crash(&mut numbers));
            }
        }
    }
}

/// A part of which the last batches aren't acknowledged, perhaps in several logs; its files, what it has as acknowledged, and what it
/// may have while the others are given up and a batch `x` is written.
fn draw_lost(numbers: &mut Numbers) -> (History, Part, BTreeMap<String, Vec<u8>>, Vec<Map>) {
    let (history, steps) = draw(numbers);
    let device = Device::default();
    let (mut part, error) = Part::run(&device, &history, &steps);
    assert!(error.is_none());
    let next = (part.lasts.len() - 1).min(history.maps.len() - 2);
    let (bytes, _) = bytes_at(&history, next, part.last() + 1);
    let db = part.db.take().unwrap();
    let mut maps = vec![map_of(&db)];
    let mut map = maps[0].clone();
    map.insert(b"x".to_vec(), b"x".to_vec());
    maps.push(map);
    db.write_bytes(&bytes, true).unwrap();
    maps.push(map_of(&db));
    for value in &["y", "yy"][..numbers.below(3) as usize] {
        device.fail(Some(Call::Rename), 0, false);
        db.checkpoint().unwrap_err();
        db.write_bytes(&Batch::new().put("y", *value).unwrap().bytes(), true)
            .unwrap();
        maps.push(map_of(&db));
    }
    drop(db);
    part.snapshots.clear();
    (history, part, device.files(), maps)
}

#[test]
fn a_crash_while_something_is_given_up_loses_nothing() {
    let mut numbers = Numbers(seed(13));
    for _ in 0..if is_long() { 200 } else { 12 } {
        let (history, part, files, maps) = draw_lost(&mut numbers);
        for call in 0.. {
            let device = Device::of(&files);
            device.fail(None, call, true);
            let written = open_at(&device, part.last(), &[]).and_then(|db| {
                let more = Batch::new().put("x", "x").unwrap().bytes();
                db.write_bytes(&more, false)
            });
            let crashed = device.crash(&mut numbers);
            // An opening that gives nothing up finds no gap.
            let db = open_with(&crashed.restarted(), &options()).unwrap();
            assert!(maps.contains(&map_of(&db)));
            drop(db);
            part.check(&history, &crashed);
            if written.is_ok() {
                break;
            }
        }
    }
}

#[test]
fn giving_up_begins_again_after_a_fault() {
    let mut numbers = Numbers(seed(14));
    let mut count = 0;
    for _ in 0..if is_long() { 200 } else { 12 } {
        let (_, part, files, maps) = draw_lost(&mut numbers);
        for call in 0.. {
            let device = Device::of(&files);
            let db = open_at(&device, part.last(), &[]).unwrap();
            device.fail(None, call, false);
            let more = Batch::new().put("x", "x").unwrap().bytes();
            let first = db.write_bytes(&more, true);
            let second = db.write_bytes(&more, true);
            let is_written = first.is_ok() || second.is_ok();
            count += u32::from(first.is_err() && second.is_ok());
            drop(db);
            let map = map_of(&open_with(&device.restarted(), &options()).unwrap());
            assert!(map == maps[1] || !is_written && maps.contains(&map));
            if device.calls().1 == 0 {
                break;
            }
        }
    }
    assert!(count > 50, "{count}");
}
