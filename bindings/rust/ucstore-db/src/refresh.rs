//! The refresh of a database that was opened to be read: it catches up with its owner.
//!
//! An owner appends to its last log, and begins the next one once that is whole. A checkpoint removes logs, and an opening replaces the last
//! one by a copy of its whole batches. So the place after a batch stays right, and a log is whole once a later one has a batch. If
//! the log of the place is gone, the next one goes on, or else the folder is read anew, into a store that replaces the old one.

use crate::db::Db;
use crate::ending::{ending_of, is_batch, Ending};
use crate::error::Error;
use crate::follower::{Follower, Found, Next, Place};
use crate::gap;
use crate::lock;
use crate::name::Name;
use crate::options::Options;
use crate::recovery::{damaged, Recovery};
use crate::replay::{closing_sequence, Replay, Stop};
use crate::settle::settle;
use crate::shared::Shared;
use crate::stalls::HANDOVER;
use crate::windows::Windows;
use std::mem;
use std::ops::ControlFlow;
use std::sync::atomic::Ordering;
use ucstore::{log_writes_at, LogPlace, Replayed, Store};

/// The most bytes that the store gathers for an operation, beyond those that it has in a log.
const MORE_BYTES: u64 = 6;

/// The step after a log.
enum Step {
    /// None: nothing is there after it.
    Done,
    /// The place is looked for again.
    GoesOn,
    /// The log was removed, and the next one that is there may go on.
    Passes,
    /// The folder is read anew.
    Anew,
}

impl Db {
    /// Catches up with what another process has written since, if it was opened with [`Options::read_only`], and returns the sequence of
    /// the last write that it has then. It has each write that was acknowledged before the call. Others read meanwhile: they see whole
    /// batches in their order, and each read sees at least what one before it saw. It may have writes that aren't acknowledged yet.
    ///
    /// It goes on where it stopped in the owner's logs. If these were removed meanwhile, it reads the newest checkpoint, which takes the
    /// memory of another database until that is done.
    ///
    /// ```
    /// # use ucstore_db::{Db, Options};
    /// # fn main() -> Result<(), ucstore_db::Error> {
    /// # let folder = std::env::temp_dir().join(format!("ucstore-db-refresh-{}", std::process::id()));
    /// let owner = Db::open(&folder, &Options::default())?;
    /// let reader = Db::open(&folder, &Options { read_only: true, ..Default::default() })?;
    /// owner.put("colour", "blue")?;
    /// assert_eq!(reader.get("colour")?, None);
    /// assert_eq!(reader.refresh()?, 1);
    /// assert_eq!(reader.get("colour")?, Some(b"blue".to_vec()));
    /// # drop((owner, reader));
    /// # std::fs::remove_dir_all(folder).unwrap();
    /// # Ok(())
    /// # }
    /// ```
    ///
    /// # Errors
    ///
    /// [`Error::Damaged`], also if the files end before what it has read; [`Error::Missing`], [`Error::File`], [`Error::Store`]. It has
    /// a part of the newer batches then, or none, and may be refreshed again. [`Error::File`] with
    /// [`ResourceBusy`](std::io::ErrorKind::ResourceBusy) if files were removed or replaced each time that it read them, and with
    /// [`Unsupported`](std::io::ErrorKind::Unsupported) if it wasn't opened to be read, or only up to a sequence or a fault.
    /// [`Error::Closed`].
    pub fn refresh(&self) -> Result<u64, Error> {
        self.shared().refresh()
    }
}

impl Shared {
    /// Catches up with the owner. Returns the last sequence.
    pub(crate) fn refresh(&self) -> Result<u64, Error> {
        let follower = self.follower.as_ref().ok_or_else(Error::not_followed)?;
        let mut place = lock(&follower.place);
        // The locks of a write: it makes space for batches.
        let log = lock(&self.log);
        let outcome = settle(&*follower.folder, || self.catch_up(follower, &mut place));
        drop(log);
        self.events.tell();
        outcome.map(|()| lock(&self.store).last())
    }

    /// Takes what the logs have from a place on. Requires `log` held.
    fn catch_up(&self, follower: &Follower, place: &mut Place) -> Result<(), Error> {
        loop {
            let step = match follower.find(place)? {
                Found::Log(mut windows) => self.take_log(follower, place, &mut windows)?,
                Found::Removed => Step::Passes,
                Found::Other => Step::Anew,
            };
            match step {
                Step::Done => return Ok(()),
                Step::GoesOn => {}
                Step::Passes if self.pass_removed(follower, place)? => {}
                Step::Passes | Step::Anew => {
                    *place = self.read_anew(follower)?;
                    return Ok(());
                }
            }
        }
    }

    /// Takes the batches of a log from a place on, and goes on to the next log if that has a batch.
    fn take_log(
        &self,
        follower: &Follower,
        place: &mut Place,
        windows: &mut Windows,
    ) -> Result<Step, Error> {
        let stop = self.take_batches(place, windows)?;
        place.know(windows)?;
        let (number, mut next) = match follower.next_log(place.number)? {
            Next::Log(number, next) => (number, next),
            Next::Removed => return Ok(Step::Passes),
            Next::None => return self.end_of(place, windows, stop).map(|_| Step::Done),
        };
        // The logs before it are whole by now. They may have got more since they were read.
        let is_all = follower.length(place.number)? == windows.length();
        if !is_all || !follower.are_empty(place.number + 1..number)? {
            return Ok(Step::GoesOn);
        }
        let ending = self.end_of(place, windows, stop)?;
        if !is_batch(&mut next, 0)? {
            return Ok(Step::Done);
        }
        if let Ending::Left(offset, fault) = ending {
            return Err(damaged(place.name(), offset, fault));
        }
        match self.begin_log(place, number, &mut next)? {
            true => Ok(Step::GoesOn),
            false => {
                let fault = "writes before this are missing".into();
                Err(damaged(Name::Log(number), 0, fault))
            }
        }
    }

    /// Goes on in a log of a number, if its first batch follows. Returns whether it does.
    fn begin_log(
        &self,
        place: &mut Place,
        number: u64,
        windows: &mut Windows,
    ) -> Result<bool, Error> {
        let mut next = Place::of(number, 0);
        let outcome = self.take_batches(&mut next, windows);
        let is_begun = next.offset > 0;
        if is_begun {
            // Also if the rest of it can't be read.
            *place = next;
        }
        outcome.map(|_| is_begun)
    }

    /// The end of a log that was read up to a place.
    fn end_of(&self, place: &Place, windows: &mut Windows, stop: Stop) -> Result<Ending, Error> {
        let replay = Replay {
            end: place.offset,
            batches: 0,
            last_begin: place.last_begin,
            stop,
        };
        let last = lock(&self.store).last();
        match ending_of(place.name(), windows, &replay, last)? {
            Ending::Damaged(offset, fault) => Err(damaged(place.name(), offset, fault)),
            ending => Ok(ending),
        }
    }

    /// Goes on after a log that was removed, if nothing is missing between: the next log that is there goes on, or a base ends just here.
    fn pass_removed(&self, follower: &Follower, place: &mut Place) -> Result<bool, Error> {
        let names = follower.names()?;
        let mut later = names.iter().filter_map(|name| match *name {
            Name::Log(number) if number > place.number => Some(number),
            _ => None,
        });
        let Some(number) = later.next() else {
            return Ok(false);
        };
        let Some(mut windows) = follower.log(number)? else {
            return Ok(false);
        };
        if windows.length() > 0 {
            return self.begin_log(place, number, &mut windows);
        }
        let last = lock(&self.store).last();
        let is_next = [Name::Base(number, Some(last)), Name::List(number, last)]
            .iter()
            .any(|name| names.contains(name));
        if is_next {
            *place = Place::of(number, 0);
        }
        Ok(is_next)
    }

    /// Writes the batches of a log to the store, from a place in the window on. Returns why there are no more.
    fn take_batches(&self, place: &mut Place, windows: &mut Windows) -> Result<Stop, Error> {
        loop {
            if self.is_closing.load(Ordering::Acquire) {
                return Err(Error::Closed);
            }
            if let Some(sequence) = closing_sequence(windows, place.offset)? {
                let is_next = sequence == lock(&self.store).last() + 1;
                return Ok(if is_next { Stop::Closed } else { Stop::Gap });
            }
            let ended = match self.take_batch(place, windows)? {
                Replayed::Batch => continue,
                Replayed::Gap => return Ok(Stop::Gap),
                Replayed::Ended(ended) => ended,
            };
            match windows.go_on(place.offset, ended)? {
                ControlFlow::Continue(offset) => place.go_on(offset),
                ControlFlow::Break(ended) => return Ok(Stop::Ended(ended)),
            }
        }
    }

    /// Writes the batch at a place to the store, and shows it to readers. Requires `log` held.
    fn take_batch(&self, place: &mut Place, windows: &Windows) -> Result<Replayed, Error> {
        self.make_space()?;
        self.newest.note_all();
        let (begin, offset) = (windows.begin(), place.offset);
        let (replayed, end, is_flushed) = self.call(|store| {
            self.newest.leave_moment(store);
            let last = store.last();
            let at = LogPlace {
                offset: offset - begin,
                last,
            };
            let mut replay = log_writes_at(windows.bytes(), at).replay(store);
            let mut replayed = replay.write_next(false)?;
            if replayed == Replayed::Gap && gap::is_told(windows.rest(offset), offset, last)? {
                replayed = replay.write_next(true)?;
            }
            let end = begin + replay.offset();
            let is_taken = replayed == Replayed::Batch;
            let is_flushed = is_taken && {
                self.newest.raise(store);
                self.add_gathered(end - offset + MORE_BYTES * (store.last() - last));
                self.tell_runs(store.report().runs)
            };
            Ok((replayed, end, is_flushed))
        })?;
        if is_flushed {
            self.newest.let_go();
        }
        if replayed == Replayed::Batch {
            place.last_begin = offset;
            place.go_on(end);
            self.counts.groups.add(1);
            self.counts.batches.add(1);
        }
        Ok(replayed)
    }

    /// Reads the folder into a new store, which replaces the old one. Returns the place after the last batch.
    fn read_anew(&self, follower: &Follower) -> Result<Place, Error> {
        let options = Options {
            marks: vec![],
            recover_to_fault: false,
            ..self.options.clone()
        };
        let recovery = Recovery::read(&*follower.folder, &options)?;
        let place = recovery.place();
        let (store, _) = recovery.into_store();
        let (before, last) = (lock(&self.store).last(), store.last());
        if last < before {
            let fault = format!("it ends at sequence {last}, before {before}, which was read");
            return Err(damaged(place.name(), place.offset, fault));
        }
        drop(self.replace_by(store));
        self.flush_recovered()?;
        Ok(place)
    }

    /// Replaces the store by one that has at least as much, once no job of it is out. Returns the old one. Requires `log` held.
    fn replace_by(&self, newer: Store) -> Store {
        self.newest.note_all();
        let mut store = lock(&self.store);
        while self.jobs.is_any() {
            store = self.wait_for_work_until(store, HANDOVER);
        }
        self.newest.leave_moment(&store);
        let old = mem::replace(&mut *store, newer);
        self.stores.fetch_add(1, Ordering::AcqRel);
        let report = store.report();
        // The writes that were recovered aren't measured.
        let gathered = u64::from(report.gathered > 0) * self.options.most_gathered();
        self.gathered.store(gathered, Ordering::Relaxed);
        self.newest.raise(&store);
        self.counts.groups.add(1);
        self.tell_runs(report.runs);
        drop(store);
        self.newest.let_go();
        old
    }
}
