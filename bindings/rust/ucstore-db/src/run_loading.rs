//! [`add_runs`]: the runs of a list, read from their files to a store.

use crate::error::Error;
use crate::folder::Folder;
use crate::name::Name;
use crate::recovery::damaged;
use crate::run_files::load_run;
use crate::run_list::{ListedRun, RunList};
use std::collections::BTreeMap;
use std::sync::atomic::{AtomicUsize, Ordering};
use std::sync::mpsc::{self, Receiver, Sender};
use std::thread;
use ucstore::{LoadedRun, RunError, Store};

/// The size of all files in bytes from which on several threads read them. Fewer bytes are read before a thread is there.
const LEAST_BYTES: u64 = 4 << 20;

/// A run, by its place in a list.
type Placed = (usize, Result<LoadedRun, Error>);

/// Adds the runs of a list to an empty store, the oldest first, and tells of each one that was added. Returns their IDs.
///
/// As many threads as there are processors read files of some size. The bytes are read into the memory of the runs, so nothing is held twice. If a file is
/// damaged, the store has the runs before it.
pub(crate) fn add_runs(
    folder: &dyn Folder,
    list: &RunList,
    store: &Store,
    mut tell: impl FnMut(&ListedRun),
) -> Result<Vec<(u64, ListedRun)>, Error> {
    let mut add = |run: &ListedRun, loaded: Result<LoadedRun, Error>| {
        let id = add_run(store, run, loaded?)?;
        tell(run);
        Ok((id, *run))
    };
    let processors = thread::available_parallelism().map_or(1, usize::from);
    let threads = processors.min(list.runs.len());
    let size: u64 = list.runs.iter().map(|run| run.size).sum();
    if threads < 2 || size < LEAST_BYTES {
        let runs = list.runs.iter();
        return runs.map(|run| add(run, load_run(folder, run))).collect();
    }
    let next = AtomicUsize::new(0);
    let (sender, receiver) = mpsc::channel();
    thread::scope(|scope| {
        let mut is_started = false;
        for _ in 0..threads {
            let (next, sender) = (&next, sender.clone());
            let reader = thread::Builder::new().name("ucstore-reader".into());
            let started = reader.spawn_scoped(scope, move || load_all(folder, list, next, &sender));
            is_started |= started.is_ok();
        }
        if !is_started {
            load_all(folder, list, &next, &sender);
        }
        drop(sender);
        // Where an error ends this, the others read no further file.
        let mut loaded = Loaded {
            receiver,
            early: BTreeMap::new(),
        };
        let runs = list.runs.iter().enumerate();
        runs.map(|(place, run)| add(run, loaded.take(place)))
            .collect()
    })
}

/// The runs that were read, in any order.
struct Loaded {
    receiver: Receiver<Placed>,
    /// The runs that came before their turn.
    early: BTreeMap<usize, Result<LoadedRun, Error>>,
}

impl Loaded {
    /// Takes the run of a place, once it is read.
    fn take(&mut self, place: usize) -> Result<LoadedRun, Error> {
        loop {
            if let Some(outcome) = self.early.remove(&place) {
                return outcome;
            }
            let (other, outcome) = self.receiver.recv().map_err(|_| Error::Internal {
                thread: "reader".into(),
            })?;
            self.early.insert(other, outcome);
        }
    }
}

/// Reads the files that no other thread reads, up to one that can't be read.
fn load_all(folder: &dyn Folder, list: &RunList, next: &AtomicUsize, sender: &Sender<Placed>) {
    while let Some((place, run)) = taken(list, next) {
        let outcome = load_run(folder, run);
        let is_last = outcome.is_err();
        if sender.send((place, outcome)).is_err() || is_last {
            break;
        }
    }
}

/// Takes the next run of a list.
fn taken<'a>(list: &'a RunList, next: &AtomicUsize) -> Option<(usize, &'a ListedRun)> {
    let place = next.fetch_add(1, Ordering::Relaxed);
    Some((place, list.runs.get(place)?))
}

/// Adds a run, and returns its ID.
fn add_run(store: &Store, run: &ListedRun, loaded: LoadedRun) -> Result<u64, Error> {
    store.add_loaded(loaded).map_err(|error| match error {
        RunError::Failed(error) => Error::Store(error),
        error => damaged(Name::Run(run.number), 0, error.to_string()),
    })
}
