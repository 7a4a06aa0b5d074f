//! [`History`]: drawn batches and calls, and the contents of a database after each batch.

use super::{Device, Numbers};
use std::collections::BTreeMap;
use std::sync::Arc;
use ucstore_db::{Batch, Db, Error, Operator, Options, Snapshot, Sync};

pub type Map = BTreeMap<Vec<u8>, Vec<u8>>;

/// An operation on keys that are letters.
#[derive(Clone, Copy, Debug)]
enum Operation {
    Put(u8, u8),
    Merge(u8, u8),
    Delete(u8),
    DeleteRange(u8, u8),
}

/// A call of a history.
#[derive(Clone, Debug)]
pub enum Step {
    /// A batch, by its place, which is to be on the device or not.
    Write(usize, bool),
    Sync,
    Flush,
    Compact,
    Checkpoint,
    /// A snapshot is taken, for the next checkpoint of one.
    Hold,
    /// A checkpoint of the snapshot that was taken last, if there is one.
    CheckpointTo,
    Reopen,
}

/// Drawn batches and calls.
pub struct History {
    pub steps: Vec<Step>,
    batches: Vec<Vec<Operation>>,
    /// The contents of a database after each batch. The first are those before any.
    pub maps: Vec<Map>,
}

/// The settings that histories are drawn from.
pub struct Histories {
    pub batches: usize,
    pub numbers: Numbers,
}

/// The progress of a history.
#[derive(Debug, Default)]
pub struct Run {
    /// The number of batches that were written, with the one that was refused.
    pub tried: usize,
    /// The number of batches that were acknowledged.
    pub acknowledged: usize,
    /// The number of those that are on the device.
    pub kept: usize,
    /// The database, unless it couldn't be opened.
    pub db: Option<Db>,
    /// The first refusal.
    pub error: Option<Error>,
    /// The snapshot that was taken last.
    held: Option<Snapshot>,
}

impl Operation {
    fn drawn(numbers: &mut Numbers) -> Operation {
        let mut letter = || b'a' + numbers.below(5) as u8;
        let (one, other) = (letter(), letter());
        match numbers.below(10) {
            0..=2 => Operation::Put(one, other),
            3..=7 => Operation::Merge(one, other),
            8 => Operation::Delete(one),
            _ => Operation::DeleteRange(one, other),
        }
    }

    fn apply(self, map: &mut Map) {
        match self {
            Operation::Put(key, value) => drop(map.insert(vec![key], vec![value])),
            Operation::Merge(key, operand) => match map.get_mut(&vec![key]) {
                Some(value) => value.extend([b',', operand]),
                None => drop(map.insert(vec![key], vec![operand])),
            },
            Operation::Delete(key) => drop(map.remove(&vec![key])),
            Operation::DeleteRange(begin, end) => {
                map.retain(|key, _| key[0] < begin || key[0] >= end)
            }
        }
    }

    fn push(self, batch: &mut Batch) {
        match self {
            Operation::Put(key, value) => batch.put([key], [value]),
            Operation::Merge(key, operand) => batch.merge([key], [operand]),
            Operation::Delete(key) => batch.delete([key]),
            Operation::DeleteRange(begin, end) => batch.delete_range([begin], [end]),
        }
        .unwrap();
    }
}

impl Histories {
    pub fn next(&mut self) -> History {
        let mut history = History {
            steps: vec![],
            batches: vec![],
            maps: vec![Map::new()],
        };
        while history.batches.len() < self.batches {
            history.add(&mut self.numbers);
        }
        history
    }
}

impl History {
    fn add(&mut self, numbers: &mut Numbers) {
        let step = match numbers.below(22) {
            0 => Step::Sync,
            1 => Step::Flush,
            2 => Step::Compact,
            3..=4 => Step::Checkpoint,
            5 => Step::Reopen,
            6 => Step::Hold,
            7 => Step::CheckpointTo,
            _ => Step::Write(self.batches.len(), numbers.below(3) > 0),
        };
        if let Step::Write(..) = step {
            let count = 1 + numbers.below(3);
            let batch: Vec<_> = (0..count).map(|_| Operation::drawn(numbers)).collect();
            let mut map = self.maps[self.batches.len()].clone();
            batch.iter().for_each(|operation| operation.apply(&mut map));
            self.maps.push(map);
            self.batches.push(batch);
        }
        self.steps.push(step);
    }

    /// The batch of a place.
    pub fn batch(&self, place: usize) -> Batch {
        let mut batch = Batch::new();
        for operation in &self.batches[place] {
            operation.push(&mut batch);
        }
        batch
    }

    /// Runs the history on a device, up to the first call that is refused. A checkpoint may be.
    pub fn run(&self, device: &Device) -> Run {
        let mut run = Run::default();
        if let Err(error) = self.run_all(device, &mut run) {
            run.error.get_or_insert(error);
        }
        run
    }

    fn run_all(&self, device: &Device, run: &mut Run) -> Result<(), Error> {
        run.db = Some(open(device)?);
        for step in &self.steps {
            if let Step::Reopen = step {
                run.held = None;
                run.db.take().expect("a database").close()?;
                run.kept = run.acknowledged;
                run.db = Some(open(device)?);
            } else {
                self.take(step, run)?;
            }
        }
        Ok(())
    }

    fn take(&self, step: &Step, run: &mut Run) -> Result<(), Error> {
        let db = run.db.clone().expect("a database");
        match step {
            Step::Write(place, is_synced) => {
                run.tried += 1;
                db.write_with(&self.batch(*place), *is_synced)?;
                run.acknowledged += 1;
                if *is_synced {
                    run.kept = run.acknowledged;
                }
                return Ok(());
            }
            Step::Sync => db.sync()?,
            Step::Flush => return db.flush(),
            Step::Compact => return db.compact(),
            Step::Checkpoint => match db.checkpoint() {
                // The logs are kept: it goes on.
                Err(error @ Error::File { .. }) => {
                    run.error.get_or_insert(error);
                    return Ok(());
                }
                outcome => outcome?,
            },
            Step::Hold => {
                run.held = Some(db.snapshot()?);
                return Ok(());
            }
            Step::CheckpointTo => {
                let outcome = run.held.take().map(|held| db.checkpoint_to(&held));
                match outcome.unwrap_or(Ok(())) {
                    Err(error @ Error::File { .. }) => drop(run.error.get_or_insert(error)),
                    outcome => outcome?,
                }
                return Ok(());
            }
            Step::Reopen => {}
        }
        run.kept = run.acknowledged;
        Ok(())
    }
}

/// Opens a device without threads, so that each run makes the same calls. A new database is made with `append`.
pub fn open(device: &Device) -> Result<Db, Error> {
    let is_made = device.files().contains_key("OPERATOR");
    let mut options = Options {
        operator: (!is_made).then_some(Operator::Append),
        compactors: 0,
        sync: Sync::Never,
        ..Default::default()
    };
    options.store.write_buffer_size = 16;
    Db::open_on(Arc::new(device.clone()), &options)
}

/// All that a database holds.
pub fn map_of(db: &Db) -> Map {
    db.iter().unwrap().map(Result::unwrap).collect()
}
